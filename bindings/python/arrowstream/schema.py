"""The schema of a stream (Schema.fbs), and the JSON form that `docs/SCHEMA.md` describes."""

from __future__ import annotations

import json
from dataclasses import dataclass
from typing import Any, Iterator


@dataclass(frozen=True)
class Dictionary:
    """The dictionary encoding of a field (Schema.fbs, table DictionaryEncoding)."""

    id: int
    index_type: tuple[Any, ...]
    ordered: bool


@dataclass(frozen=True)
class Field:
    """A column, or a child of a field (Schema.fbs, table Field).

    `type` is a tuple of the type's name and parameters, such as `("int", 64)` or
    `("timestamp", "us", "UTC")`. With a dictionary it is the type of the dictionary's values.
    """

    name: str
    type: tuple[Any, ...]
    nullable: bool = True
    dictionary: Dictionary | None = None
    children: tuple[Field, ...] = ()
    metadata: tuple[tuple[str, str], ...] = ()

    def _entries(self) -> Iterator[dict[str, Any]]:
        """The JSON form of the field, and of its descendants in pre-order."""
        encoding = self.dictionary
        yield {
            "name": self.name,
            "type": self.type,
            "nullable": self.nullable,
            "children": len(self.children),
            "dictionary": encoding and (encoding.id, encoding.index_type, encoding.ordered),
            "metadata": self.metadata,
        }
        for child in self.children:
            yield from child._entries()


@dataclass(frozen=True)
class Schema:
    """The columns of a stream and its pairs of key and value (Schema.fbs, table Schema)."""

    fields: tuple[Field, ...]
    metadata: tuple[tuple[str, str], ...] = ()

    @property
    def names(self) -> list[str]:
        """The names of the columns, which may repeat."""
        return [field.name for field in self.fields]

    def to_json(self) -> str:
        """The schema as JSON text, in the form of `docs/SCHEMA.md`."""
        entries = [entry for field in self.fields for entry in field._entries()]
        return json.dumps({"fields": entries, "metadata": self.metadata})

    def __arrow_c_schema__(self) -> Any:
        """The schema for other libraries: a capsule of the Arrow C data interface."""
        from .cdata import schema_capsule

        return schema_capsule(self)


def pairs_of(entries: list[list[str]]) -> tuple[tuple[str, str], ...]:
    """Pairs of key and value from their JSON form."""
    return tuple((key, value) for key, value in entries)


def _field_of(entry: dict[str, Any], rest: Iterator[dict[str, Any]]) -> Field:
    encoding = entry["dictionary"]
    dictionary = None
    if encoding is not None:
        dictionary = Dictionary(encoding[0], tuple(encoding[1]), encoding[2])
    children = tuple(_field_of(next(rest), rest) for _ in range(entry["children"]))
    return Field(
        entry["name"],
        tuple(entry["type"]),
        entry["nullable"],
        dictionary,
        children,
        pairs_of(entry["metadata"]),
    )


def schema_of(text: str | bytes) -> Schema:
    """The schema of its JSON form, in which each field is followed by its children."""
    whole = json.loads(text)
    entries = iter(whole["fields"])
    return Schema(
        tuple(_field_of(entry, entries) for entry in entries), pairs_of(whole["metadata"])
    )
