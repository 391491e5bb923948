"""Writes streams of the Arrow IPC format, batch by batch."""

from __future__ import annotations

import ctypes
import functools
import json
import threading
from typing import Any, BinaryIO, Callable, Dict, Iterable, Sequence, TypeVar, Union, cast

from . import _library as c
from . import cdata
from .batch import Batch
from .cells import row_cells, rows_of
from .decoder import Decoder
from .errors import ArrowError
from .inferred import columns_of
from .reader import Reader
from .schema import Schema, schema_of

_PIECE = 1 << 20

# A value for each column: in order, or by the names of the columns.
Row = Union[Sequence[Any], Dict[str, Any]]
_Method = TypeVar("_Method", bound=Callable[..., Any])


def _in_turn(method: _Method) -> _Method:
    """A method of a writer that waits while another thread runs one."""

    @functools.wraps(method)
    def run(writer: Writer, *arguments: Any, **named: Any) -> Any:
        with writer._lock:
            return method(writer, *arguments, **named)

    return cast(_Method, run)


def _schema_at(address: int) -> Schema:
    """The schema of another library, read from the beginning of a stream."""
    handle, decoder = ctypes.c_void_p(), Decoder()
    c.library.arrowstream_writer_open(c.limits_of(None, None, None), handle)
    if not handle:
        raise MemoryError
    try:
        cdata.begin(handle, address)
        while size := c.library.arrowstream_writer_ready(handle):
            piece = bytearray(size)
            c.library.arrowstream_writer_take(handle, c.start_of(piece), size)
            decoder.feed(piece)
    finally:
        c.library.arrowstream_writer_free(handle)
    assert decoder.schema is not None
    return decoder.schema


def _json_of(schema: Any) -> bytes:
    if not isinstance(schema, Schema) and hasattr(schema, "__arrow_c_schema__"):
        address, _kept = cdata.schema_address(schema)
        schema = _schema_at(address)
    if isinstance(schema, Schema):
        schema = schema.to_json()
    elif isinstance(schema, dict):
        schema = json.dumps(schema)
    return schema.encode() if isinstance(schema, str) else schema


class Writer:
    """A stream that is written to a binary file, which stays open.

        with arrowstream.Writer(file, schema) as writer:
            writer.write_row((1, "milk"))

    At the end of `with` the rows that wait are sent, and then the end-of-stream mark. After an
    exception they are not: the stream ends without its mark. Bytes are written as each batch is
    sent, so memory holds one batch.

    A refused row, batch or schema raises ArrowError. A closed writer raises ValueError, and a
    writer is closed when its file raises an exception. Any thread may use a writer, and calls from
    several threads take turns.
    """

    def __init__(
        self,
        file: BinaryIO,
        schema: Schema | dict[str, Any] | str | bytes,
        *,
        max_metadata: int | None = None,
        max_body: int | None = None,
        max_rows: int | None = None,
    ):
        """Begins a stream of a schema: `Reader.schema`, the form of `docs/SCHEMA.md` as a dict or
        as JSON text, or a schema of another library that has `__arrow_c_schema__`. The limits are
        those of `read`.

        Raises ArrowError: X6 if there is no such schema, and W1 or W6 if it breaks a rule or a
        limit. Raises MemoryError if memory runs out.
        """
        self._lock = threading.RLock()
        self._file = file
        self._waiting = False
        self._handle = ctypes.c_void_p()
        text = _json_of(schema)
        limits = c.limits_of(max_metadata, max_body, max_rows)
        c.library.arrowstream_writer_open(limits, self._handle)
        if not self._handle:
            raise MemoryError
        self._raise(c.library.arrowstream_writer_schema(self._handle, text, len(text)))
        self.schema = schema_of(text)
        self._flush()

    def __del__(self) -> None:
        if getattr(self, "_handle", None):
            self._free()

    def __enter__(self) -> Writer:
        return self

    def __exit__(self, kind: Any, *_: Any) -> None:
        if kind is None:
            self.close()
        else:
            self._free()

    def __repr__(self) -> str:
        state = "open" if self._handle else "closed"
        return f"<arrowstream.Writer to {self._file!r}, {state}, columns {self.schema.names}>"

    @_in_turn
    def write_row(self, row: Row) -> None:
        """Adds a row to those that wait for `send`. Values are those of `Column.to_list`: None,
        bool, int, str, bytes, an object of `datetime`, a list, and for a struct a dict, a tuple of
        its members, or a list of (name, value). A name that a dict does not have is null. Dates,
        times, timestamps and durations can also be the numbers that are stored.

        Raises ArrowError with the row and the path if the row does not fit (W2 to W5), TypeError
        for a value of another type, and ValueError if a number does not fit 64 bits or the unit of
        its column, or if a name is unknown. In all these cases the row is dropped, and the writer
        is as it was.
        """
        self._check()
        cells = row_cells(self.schema.fields, row)
        try:
            for call, *arguments in cells:
                self._raise(call(self._handle, *arguments))
            # An interrupt may come at any of these lines, also after the row is added.
            was_waiting, self._waiting = self._waiting, True
            status = c.library.arrowstream_writer_row(self._handle)
        except BaseException:
            c.library.arrowstream_writer_drop_row(self._handle)
            raise
        if status != c.OK:
            self._waiting = was_waiting
            self._raise(status)

    @_in_turn
    def send(self, metadata: Iterable[tuple[str, str]] = ()) -> None:
        """Sends the rows that wait as one batch, with these pairs of key and value. There may be no
        rows.

        Raises ArrowError if the batch does not fit its limits or a dictionary (W6 to W8); then the
        rows are dropped. A key or value that is not UTF-8 raises UnicodeEncodeError, and the rows
        wait.
        """
        self._check()
        pairs = [(key.encode(), value.encode()) for key, value in metadata]
        try:
            for key, value in pairs:
                add = c.library.arrowstream_writer_pair
                self._raise(add(self._handle, key, len(key), value, len(value)))
            self._raise(c.library.arrowstream_writer_send(self._handle))
        except BaseException:
            self._drop_waiting()
            raise
        self._waiting = False
        self._flush()

    @_in_turn
    def write_batch(
        self,
        batch: Batch | dict[str, Sequence[Any]] | Iterable[Row],
        metadata: Iterable[tuple[str, str]] = (),
    ) -> None:
        """Sends a batch: a list of rows or a dict of columns by their names, with pairs of key and
        value, or a batch that was read, which has its own. An object of another library with
        `__arrow_c_array__` or `__arrow_c_stream__` is sent as a batch for each of its arrays, without
        pairs. Rows that wait are sent before it, as a batch of their own.

        Raises what `write_row` and `send` raise; then nothing of the batch is written. Raises
        TypeError for pairs with a batch that was read.
        """
        self._check()
        if isinstance(batch, Batch) and metadata:
            raise TypeError("a batch that was read has its own pairs")
        if self._waiting:
            self.send()
        if isinstance(batch, Batch):
            with batch._lock:
                status = c.library.arrowstream_writer_columns(self._handle, batch._handle)
            self._raise(status)
            self._flush()
            return
        if cdata.is_importable(batch):
            self._send_imported(cdata.imported(batch))
            return
        try:
            rows = rows_of(self.schema.fields, batch) if isinstance(batch, dict) else batch
            for row in rows:
                self.write_row(row)
            self.send(metadata)
        except BaseException:
            self._drop_waiting()
            raise

    @_in_turn
    def _send_imported(self, source: cdata.Imported) -> None:
        for array in source.arrays:
            cdata.send(self._handle, source.schema, array)
            self._flush()

    @_in_turn
    def close(self) -> None:
        """Sends the rows that wait, if there are any, and the end-of-stream mark. A closed writer
        stays as it is."""
        if not self._handle:
            return
        self._check()
        if self._waiting:
            self.send()
        self._raise(c.library.arrowstream_writer_finish(self._handle))
        self._flush()
        self._free()

    def _check(self) -> None:
        if not self._handle:
            raise ValueError("the writer is closed")

    def _drop_waiting(self) -> None:
        """Drops the rows and pairs that wait. A writer that ended stays as it is."""
        c.library.arrowstream_writer_drop_batch(self._handle)
        self._waiting = False

    def _raise(self, status: int) -> None:
        if status == c.OK:
            return
        if status in (c.WRITE_NO_ROOM, c.WRITE_OUT_OF_MEMORY):
            raise MemoryError
        line = c.text_of(c.library.arrowstream_writer_line, self._handle)
        raise ArrowError(line or f"status {status}")

    def _flush(self) -> None:
        """Writes the bytes that are ready to the file."""
        try:
            while self._handle:
                size = min(c.library.arrowstream_writer_ready(self._handle), _PIECE)
                if not size:
                    return
                piece = bytearray(size)
                count = c.library.arrowstream_writer_take(self._handle, c.start_of(piece), size)
                self._write(memoryview(piece)[:count])
        except BaseException:
            # Bytes that the library gave are lost, so the stream cannot go on.
            self._free()
            raise

    def _write(self, piece: memoryview) -> None:
        while piece:
            count = self._file.write(piece)
            if not count:
                raise BlockingIOError("the file takes no bytes, or does not return how many")
            piece = piece[count:]

    @_in_turn
    def _free(self) -> None:
        handle, self._handle = self._handle, ctypes.c_void_p()
        if handle:
            c.library.arrowstream_writer_free(handle)


def write(
    file: BinaryIO,
    schema: Any,
    batches: Iterable[Batch | dict[str, Sequence[Any]] | Iterable[Row]] | None = None,
    *,
    max_metadata: int | None = None,
    max_body: int | None = None,
    max_rows: int | None = None,
) -> None:
    """Writes a stream to a binary file, which stays open: the schema, each batch as
    `Writer.write_batch` does, and the end-of-stream mark. One batch is held in memory at a time.

    Without batches, `write(file, data)` writes a reader, a batch that was read, a dict of lists or
    of arrays of numpy as one batch, or an object of another library that has `__arrow_c_stream__`
    or `__arrow_c_array__`. The schema is that of the data. A list has the type of its first value.

    Raises what `Writer` and `Writer.write_batch` raise, and what the file raises. Then the stream
    ends without its mark.
    """
    limits = {"max_metadata": max_metadata, "max_body": max_body, "max_rows": max_rows}
    source = None
    if batches is None:
        if isinstance(schema, (Reader, Batch)):
            batches = schema if isinstance(schema, Reader) else [schema]
            schema = schema.schema
        elif isinstance(schema, dict):
            schema, columns = columns_of(schema)
            batches = [columns]
        elif cdata.is_importable(schema):
            source = cdata.imported(schema)
            schema = _schema_at(source.schema)
        else:
            raise TypeError(f"no schema was given, and {type(schema).__name__} states none")
    with Writer(file, schema, **limits) as writer:
        if source is not None:
            writer._send_imported(source)
        for batch in batches or ():
            writer.write_batch(batch)
