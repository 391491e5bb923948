"""Streams that come in pieces."""

from __future__ import annotations

import ctypes
import threading
import weakref
from typing import Any

from . import _library as c
from .batch import Batch, Decoded
from .errors import ArrowError
from .schema import Schema, schema_of


class Decoder:
    """A stream that comes in pieces of any length, as from a socket or a queue.

        decoder = arrowstream.Decoder()
        for piece in pieces:
            for batch in decoder.feed(piece):
                print(batch)
        decoder.close()

    Any thread may use a decoder and its batches. Calls from several threads take turns.
    """

    def __init__(
        self,
        *,
        max_metadata: int | None = None,
        max_body: int | None = None,
        max_rows: int | None = None,
    ):
        """Begins a stream. The limits are those of `read`. Raises MemoryError if memory runs out."""
        self._begin(c.limits_of(max_metadata, max_body, max_rows))

    @classmethod
    def _within(cls, limits: c.Limits) -> Decoder:
        decoder = cls.__new__(cls)
        decoder._begin(limits)
        return decoder

    def _begin(self, limits: c.Limits) -> None:
        self._lock = threading.RLock()
        self._schema: Schema | None = None
        self._end: str | None = None
        self._unused = b""
        self._decoded: Decoded = {}
        self._progress = c.Progress()
        self._handle = ctypes.c_void_p()
        c.library.arrowstream_reader_open(limits, self._handle)
        if not self._handle:
            raise MemoryError
        # Before the first bytes this says how many are wanted.
        c.library.arrowstream_reader_feed(self._handle, None, 0, self._progress)

    def __del__(self) -> None:
        if getattr(self, "_handle", None):
            c.library.arrowstream_reader_free(self._handle)

    @property
    def schema(self) -> Schema | None:
        """The schema, or None before it came."""
        return self._schema

    @property
    def end(self) -> str | None:
        """How the stream ended: "mark" for the end-of-stream mark, "closed" for the end of the
        input without one, and None before the end."""
        return self._end

    @property
    def wanted(self) -> int:
        """The number of bytes that come before the next decision, and 0 after the end. Who feeds no
        more than these feeds no byte after the end-of-stream mark."""
        return self._progress.wanted

    @property
    def unused_data(self) -> bytes:
        """The bytes after the end-of-stream mark that `feed` was given."""
        return self._unused

    def feed(self, data: bytes | bytearray | memoryview) -> list[Batch]:
        """Takes the next bytes, and returns the batches that they complete.

        Raises ArrowError if the stream is refused, and MemoryError if memory runs out. If batches
        came before that in these bytes, they are returned, and the next call raises.
        """
        with self._lock:
            return self._feed_all(bytes(data))

    def _feed_all(self, piece: bytes) -> list[Batch]:
        taken = 0
        batches: list[Batch] = []
        start = ctypes.cast(ctypes.c_char_p(piece), ctypes.c_void_p).value or 0
        while taken < len(piece) and self._end is None:
            try:
                batch = self._step(ctypes.c_void_p(start + taken), len(piece) - taken)
            except (ArrowError, MemoryError):
                if not batches:
                    raise
                return batches
            taken += self._progress.taken
            if batch is not None:
                batches.append(batch)
        self._unused += piece[taken:]
        return batches

    def _feed_wanted(self, room: memoryview) -> Batch | None:
        """Takes the bytes of a buffer, no more than are wanted. Returns the batch if they complete
        one."""
        return self._step(c.start_of(room), len(room))

    def close(self) -> str:
        """Ends the input: no more bytes come. Returns how the stream ended.

        Raises ArrowError if the stream may not end here, or was refused.
        """
        with self._lock:
            if self._end is None:
                self._raise(c.library.arrowstream_reader_close(self._handle, self._progress))
                self._end = "mark" if self._progress.event == c.END else "closed"
            return self._end

    def _step(self, start: Any, size: int) -> Batch | None:
        """Takes bytes up to the next event, and returns the batch if one came."""
        self._raise(c.library.arrowstream_reader_feed(self._handle, start, size, self._progress))
        event = self._progress.event
        if event == c.SCHEMA:
            text = c.text_of(c.library.arrowstream_reader_schema, self._handle)
            self._schema = schema_of(text or "")
        if event == c.END:
            self._end = "mark"
        return self._take() if event == c.BATCH else None

    def _take(self) -> Batch:
        handle = ctypes.c_void_p()
        self._raise(c.library.arrowstream_reader_take(self._handle, handle))
        assert self._schema is not None
        home = weakref.ref(self)

        def take_back(handle: ctypes.c_void_p) -> bool:
            decoder = home()
            return decoder is not None and decoder._reuse(handle)

        return Batch(handle, self._schema, self._decoded, take_back)

    def _reuse(self, batch: ctypes.c_void_p) -> bool:
        """Takes a batch back, so that the next body is read into its memory. Returns false, and takes
        none, while another thread uses the decoder."""
        if not self._lock.acquire(blocking=False):
            return False
        try:
            c.library.arrowstream_reader_reuse(self._handle, batch)
        finally:
            self._lock.release()
        return True

    def _raise(self, status: int) -> None:
        if status == c.OK:
            return
        # The line is that of the first refusal, also after it.
        line = c.text_of(c.library.arrowstream_reader_line, self._handle) or f"F{status}"
        if status == c.OUT_OF_MEMORY or line.startswith(f"F{c.OUT_OF_MEMORY} "):
            raise MemoryError
        raise ArrowError(line)
