"""Reads streams of the Arrow IPC format from files, batch by batch."""

from __future__ import annotations

import io
import os
from typing import Any, Iterator, Protocol, Union

from .batch import Batch
from .cdata import stream_capsule
from .decoder import Decoder
from .schema import Schema

_PIECE = 1 << 20


class Readable(Protocol):
    """A binary file that is read, such as `open(path, "rb")` or `sys.stdin.buffer`."""

    def readinto(self, buffer: memoryview, /) -> int | None:
        """Reads into a buffer. Returns the number of bytes, 0 at the end, or None if none is there
        yet."""


# What `read` takes.
Source = Union[str, "os.PathLike[str]", bytes, bytearray, memoryview, Readable]


class Reader:
    """A stream that is read. Iterate over it to get its batches.

    Any thread may use a reader and its batches. Calls from several threads take turns, so that
    each batch is given to one of them. At the end of `with` the reader is closed, and so is the
    file if the reader opened it.
    """

    def __init__(self, file: Readable, decoder: Decoder, *, owns: Any = None):
        self._file = file
        self._owned = owns
        self._decoder = decoder
        self._room = memoryview(bytearray(_PIECE))
        self._is_closed = False

    def __enter__(self) -> Reader:
        return self

    def __exit__(self, *_: Any) -> None:
        self.close()

    def __iter__(self) -> Iterator[Batch]:
        return self

    def __next__(self) -> Batch:
        while self._decoder.end is None:
            batch = self._advance()
            if batch is not None:
                return batch
        raise StopIteration

    def __repr__(self) -> str:
        return f"<arrowstream.Reader of {self._file!r}, end {self.end!r}>"

    @property
    def schema(self) -> Schema:
        """The schema. It is read first if it did not come yet; no batch is read for it."""
        while self._decoder.schema is None:
            self._advance()
        return self._decoder.schema

    @property
    def end(self) -> str | None:
        """How the stream ended: "mark" for the end-of-stream mark, "closed" for the end of the file
        without one, and None before the end."""
        return self._decoder.end

    def __arrow_c_stream__(self, requested_schema: Any = None) -> Any:
        """The batches that were not read yet, for other libraries: a capsule of the Arrow C stream
        interface. It reads as the consumer asks for batches. Its schema is that of the reader,
        whatever is requested."""
        return stream_capsule(self)

    def read_all(self) -> list[Batch]:
        """The batches that were not read yet."""
        return list(self)

    def close(self) -> None:
        """Closes the file if the reader opened it. Reading on raises ValueError."""
        self._is_closed = True
        if self._owned is not None:
            self._owned.close()

    def _advance(self) -> Batch | None:
        """Reads no more bytes than come before the next decision, and returns the batch if they
        complete one. So no byte after the end-of-stream mark is read."""
        with self._decoder._lock:
            if self._is_closed:
                raise ValueError("the reader is closed")
            size = min(self._decoder.wanted, _PIECE)
            count = self._file.readinto(self._room[:size]) if size else 0
            if count is None:
                raise BlockingIOError("the file has no bytes yet")
            if not count:
                self._decoder.close()
                return None
            return self._decoder._feed_wanted(self._room[:count])


def read(
    source: Source,
    *,
    max_metadata: int | None = None,
    max_body: int | None = None,
    max_rows: int | None = None,
) -> Reader:
    """Reads a stream from a path, from bytes, or from a binary file with `readinto`, such as
    `open(path, "rb")`, `sys.stdin.buffer` or `io.BytesIO`. A file stays open, and no byte after the
    end-of-stream mark is read from it.

    The limits are those of the program's options: bytes of a message's metadata, bytes of a
    message's body, and rows of a batch.

    Raises ArrowError, from the reader's methods, for a stream that is refused; the batches before
    it remain valid. Raises BlockingIOError if a file that does not wait has no bytes yet; the
    reader goes on later. Raises MemoryError if memory runs out.
    """
    decoder = Decoder(max_metadata=max_metadata, max_body=max_body, max_rows=max_rows)
    if isinstance(source, (str, os.PathLike)):
        file = open(source, "rb")
        return Reader(file, decoder, owns=file)
    if isinstance(source, (bytes, bytearray, memoryview)):
        return Reader(io.BytesIO(source), decoder)
    return Reader(source, decoder)
