"""The schema of columns that are lists or arrays of numpy."""

from __future__ import annotations

import datetime
from typing import Any, Iterable, Sequence

from .schema import Field, Schema

# The types of the values of a list, the narrower classes first.
_TYPES: list[tuple[Any, tuple[Any, ...]]] = [
    (bool, ("bool",)),
    (int, ("int", 64)),
    (str, ("utf8",)),
    ((bytes, bytearray), ("binary",)),
    (datetime.datetime, ("timestamp", "us", None)),
    (datetime.date, ("date", "day")),
    (datetime.time, ("time", "us")),
    (datetime.timedelta, ("duration", "us")),
]
_UNITS = ("s", "ms", "us", "ns")


def _type_of_values(name: str, values: Iterable[Any]) -> tuple[Any, ...]:
    """The type of the first value that is not None."""
    first = next((value for value in values if value is not None), None)
    if first is None:
        return ("null",)
    if isinstance(first, datetime.datetime) and first.tzinfo is not None:
        return ("timestamp", "us", "UTC")
    for known, kind in _TYPES:
        if isinstance(first, known):
            return kind
    raise TypeError(f"column {name!r} has a {type(first).__name__}, which no type is known for")


def _column_of_array(name: str, array: Any) -> tuple[tuple[Any, ...], list[Any]]:
    """The type and the values of an array of numpy, dates and times as numbers."""
    kind, bits = array.dtype.kind, 8 * array.dtype.itemsize
    if kind in "iu":
        return ("int" if kind == "i" else "uint", bits), array.tolist()
    if kind not in "mM":
        values = array.tolist()
        return _type_of_values(name, values), values
    unit = array.dtype.str.partition("[")[2].rstrip("]")
    if unit not in _UNITS and (kind, unit) != ("M", "D"):
        raise TypeError(f"column {name!r} has the unit {unit!r}, which no type has")
    numbers, nothing = array.astype("int64").tolist(), -(2**63)
    values = [None if number == nothing else number for number in numbers]
    if kind == "m":
        return ("duration", unit), values
    return (("date", "day") if unit == "D" else ("timestamp", unit, None)), values


def columns_of(data: dict[str, Sequence[Any]]) -> tuple[Schema, dict[str, Sequence[Any]]]:
    """The schema of columns, all of which may have None, and their values. A list has the type of
    its first value, and an array of numpy that of its `dtype`; the null of `datetime64` is None.

    Raises TypeError for a column that no type is known for, such as one of floating point.
    """
    fields, columns = [], {}
    for name, values in data.items():
        if hasattr(values, "dtype"):
            kind, columns[name] = _column_of_array(name, values)
        else:
            kind, columns[name] = _type_of_values(name, values), values
        fields.append(Field(name, kind))
    return Schema(tuple(fields)), columns
