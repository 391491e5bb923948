"""Record batches and their columns."""

from __future__ import annotations

import ctypes
import functools
import json
import threading
from typing import Any, Callable, Dict, Iterator, List, Tuple

from . import _library as c
from .arrays import to_numpy
from .cdata import batch_capsules
from .schema import Field, Schema, pairs_of
from .values import live_slots, to_list

# The values of dictionaries, by id and by whether they are as stored: the buffers, and the values.
Decoded = Dict[Tuple[int, bool], Tuple[Tuple[Any, ...], List[Any]]]
# Takes a handle that no batch uses any more, and returns whether it did.
TakeBack = Callable[[ctypes.c_void_p], bool]


class Column:
    """A column of a batch, a child of one, or the values of a dictionary.

    `len(column)` is the number of slots. A column of a batch has one for each row. A child may have
    more slots than its parent uses. A column is true, also without slots.
    """

    def __init__(
        self,
        batch: Batch,
        path: tuple[int, ...],
        field: Field,
        is_encoded: bool,
        parent: Column | None = None,
    ):
        self._batch = batch
        self._path = path
        self._facts = batch._facts(path)
        self.parent = parent
        self.field = field
        self.is_encoded = is_encoded

    def __len__(self) -> int:
        return self._facts.slots

    def __bool__(self) -> bool:
        return True

    def __repr__(self) -> str:
        counts = f"{len(self)} slots, {self.null_count} null"
        return f"<arrowstream.Column {self.name!r} {self.type}, {counts}>"

    @property
    def name(self) -> str:
        """The name of the field."""
        return self.field.name

    @property
    def type(self) -> tuple[Any, ...]:
        """The type of the values, such as `("int", 64)`. See `Field.type`."""
        return self.field.type

    @property
    def null_count(self) -> int:
        """The number of slots that the validity bitmap marks as null."""
        return self._facts.nulls

    @functools.cached_property
    def live(self) -> bytes | None:
        """A byte 1 for each slot that is valid and that a row can show, else 0. None if each is."""
        return live_slots(self)

    @property
    def validity(self) -> memoryview:
        """The validity bitmap, or no bytes if no slot is null. The lowest bit comes first."""
        return self._batch._buffer(self._path, c.VALIDITY, self._facts.validity)

    @property
    def offsets(self) -> memoryview:
        """The offsets of texts, bytes and lists, 32 bits each, or no bytes."""
        return self._batch._buffer(self._path, c.OFFSETS, self._facts.offsets)

    @property
    def values(self) -> memoryview:
        """The values of the slots. With a dictionary these are indices. Values of null slots have
        no meaning. `numpy.frombuffer(column.values, dtype)` shares this memory, which nobody may
        write to."""
        return self._batch._buffer(self._path, c.VALUES, self._facts.values)

    def child(self, number: int) -> Column:
        """The child with this number, from 0. Raises IndexError."""
        if not 0 <= number < self._facts.children:
            raise IndexError(f"column {self.name!r} has {self._facts.children} children")
        field = self.field.children[number]
        path = (*self._path, number)
        return Column(self._batch, path, field, field.dictionary is not None, self)

    @property
    def dictionary(self) -> Column | None:
        """The values of the column's dictionary. None if the column has no dictionary, or one
        without values."""
        path = (*self._path, c.DICTIONARY)
        if not self.is_encoded or not self._batch._has(path):
            return None
        return Column(self._batch, path, self.field, False)

    def decoded(self, as_stored: bool) -> list[Any]:
        """The values of the column's dictionary as `to_list` returns them, and None. They are made
        once for each dictionary of the stream, and nobody may change them."""
        dictionary, encoding = self.dictionary, self.field.dictionary
        if dictionary is None or encoding is None:
            return [None]
        buffers = (len(dictionary), *dictionary._bytes())
        known = self._batch._decoded.get((encoding.id, as_stored))
        if known is None or known[0] != buffers:
            known = buffers, [*dictionary.to_list(as_stored=as_stored), None]
            self._batch._decoded[encoding.id, as_stored] = known
        return known[1]

    def _bytes(self) -> Iterator[Any]:
        """The three buffers as objects that are fast to compare."""
        return (buffer.obj for buffer in (self.validity, self.offsets, self.values))

    def to_list(self, *, as_stored: bool = False) -> list[Any]:
        """The values as Python objects, one for each slot: bool, int, str or bytes; `date`,
        `time`, `datetime` or `timedelta` of `datetime`; a list for a list; a dict for a struct, or
        a list of (name, value) if names repeat. None for null, and for a slot of a child that its
        parent does not use.

        With a dictionary the values are those to which the indices lead. A timestamp with a time
        zone is a `datetime` in that zone.

        With `as_stored`, dates, times, timestamps and durations are the numbers that are stored, in
        the unit of their type.

        Raises ValueError if a value does not fit `datetime`, as a year after 9999 or part of a
        microsecond, or if the time zone is unknown.
        """
        return to_list(self, as_stored)

    def to_numpy(self) -> Any:
        """The values as an array of numpy, one for each slot: numbers of their width, booleans,
        `datetime64` for dates and timestamps (in UTC if there is a zone), and `timedelta64` for
        times and durations. If a slot is null, the array is a `numpy.ma.MaskedArray`. Arrays of
        numbers, timestamps and durations share the memory of `values`, which nobody may write to.

        For other types, and with a dictionary, these are the objects of `to_list`. Raises
        ImportError without numpy, and what `to_list` raises.
        """
        return to_numpy(self)


class Batch:
    """A record batch. It remains valid whatever its reader reads, and any thread may use it.

    `batch.columns` and `batch.column(name)` give columns, `batch.rows()` gives rows. `len(batch)`
    is the number of rows. A batch is true, also without rows.
    """

    def __init__(
        self, handle: ctypes.c_void_p, schema: Schema, decoded: Decoded, take_back: TakeBack
    ):
        self._lock = threading.Lock()
        self._handle = handle
        self._buffers: dict[tuple[tuple[int, ...], int], memoryview] = {}
        self._decoded = decoded
        self._take_back = take_back
        self.schema = schema

    def __del__(self) -> None:
        if getattr(self, "_handle", None) and not self._take_back(self._handle):
            c.library.arrowstream_batch_free(self._handle)

    def __len__(self) -> int:
        with self._lock:
            rows: int = c.library.arrowstream_batch_rows(self._handle)
        return rows

    def __bool__(self) -> bool:
        return True

    def __repr__(self) -> str:
        return f"<arrowstream.Batch of {len(self)} rows, columns {self.schema.names}>"

    @functools.cached_property
    def metadata(self) -> tuple[tuple[str, str], ...]:
        """The pairs of key and value of the batch's message."""
        with self._lock:
            text = c.text_of(c.library.arrowstream_batch_pairs, self._handle)
        return pairs_of(json.loads(text or "[]"))

    @property
    def columns(self) -> list[Column]:
        """The columns, in the order of the schema."""
        return [self.column(number) for number in range(len(self.schema.fields))]

    def column(self, key: int | str) -> Column:
        """The column with this number, from 0, or the first one with this name. Raises IndexError
        or KeyError."""
        if isinstance(key, str):
            if key not in self.schema.names:
                raise KeyError(key)
            key = self.schema.names.index(key)
        elif not 0 <= key < len(self.schema.fields):
            raise IndexError(f"the batch has {len(self.schema.fields)} columns")
        field = self.schema.fields[key]
        return Column(self, (key,), field, field.dictionary is not None)

    def rows(self, *, as_stored: bool = False) -> Iterator[tuple[Any, ...]]:
        """The rows, each a tuple of the values of `Column.to_list`."""
        columns = [column.to_list(as_stored=as_stored) for column in self.columns]
        return zip(*columns) if columns else iter([()] * len(self))

    def __arrow_c_array__(self, requested_schema: Any = None) -> tuple[Any, Any]:
        """The batch for other libraries: capsules of the Arrow C data interface with the schema and
        an array of structs. The array is in canonical layout, in memory of its own: it has no byte
        that no row shows. Its schema is that of the batch, whatever is requested.

        Raises ValueError if a name or a time zone has a zero byte, and MemoryError.
        """
        return batch_capsules(self)

    def _find(self, path: tuple[int, ...]) -> c.ColumnFacts | None:
        facts = c.ColumnFacts()
        steps = c.path_of(path)
        with self._lock:
            status = c.library.arrowstream_batch_column(self._handle, steps, len(path), facts)
        return facts if status == c.OK else None

    def _has(self, path: tuple[int, ...]) -> bool:
        return self._find(path) is not None

    def _facts(self, path: tuple[int, ...]) -> c.ColumnFacts:
        facts = self._find(path)
        if facts is None:
            raise LookupError(f"no column at {path}")
        return facts

    def _buffer(self, path: tuple[int, ...], kind: int, size: int) -> memoryview:
        """A buffer of the column at a path. It is copied once, and kept with the batch."""
        if (path, kind) not in self._buffers:
            room, wanted, steps = bytearray(size), ctypes.c_size_t(), c.path_of(path)
            if size:
                with self._lock:
                    c.library.arrowstream_batch_buffer(
                        self._handle, steps, len(path), kind, c.start_of(room), size, wanted
                    )
            self._buffers[path, kind] = memoryview(room).toreadonly()
        return self._buffers[path, kind]
