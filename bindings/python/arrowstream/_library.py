"""The calls of `include/arrowstream.h` and `include/arrowstream_cdata.h`, by ctypes."""

from __future__ import annotations

import ctypes
import os
import pathlib
import types
from typing import Any, Callable

OK = 0
OUT_OF_MEMORY = 37
ABSENT = 64
# W9: the bytes of a writer go to memory, so only a lack of memory refuses them.
WRITE_NO_ROOM = 109
WRITE_OUT_OF_MEMORY = 111
VERSION = 1

NOTHING, SCHEMA, BATCH, END, CLOSED = range(5)
VALIDITY, OFFSETS, VALUES = range(3)
DICTIONARY = 2**64 - 1
# Room for a text, so that most are made by one call.
_ROOM = 1 << 12


class _Sized(ctypes.Structure):
    """A struct that begins with its size."""

    _fields_ = [("size", ctypes.c_size_t)]

    def __init__(self) -> None:
        super().__init__(ctypes.sizeof(self))


class Limits(_Sized):
    """`arrowstream_limits`."""

    _fields_ = [
        (name, ctypes.c_uint64)
        for name in ("metadata", "body", "slots", "fields", "depth", "text", "pairs")
    ]


class Progress(_Sized):
    """`arrowstream_progress`."""

    taken: int
    wanted: int
    event: int
    _fields_ = [
        ("taken", ctypes.c_size_t),
        ("wanted", ctypes.c_size_t),
        ("messages", ctypes.c_uint64),
        ("event", ctypes.c_uint64),
    ]


class Layout(ctypes.Structure):
    """`arrowstream_layout`."""

    _fields_ = [
        ("kind", ctypes.c_uint32),
        ("bits", ctypes.c_uint32),
        ("is_signed", ctypes.c_uint32),
        ("size", ctypes.c_uint32),
        ("dictionary", ctypes.c_int64),
    ]


class ColumnFacts(_Sized):
    """`arrowstream_column`."""

    slots: int
    nulls: int
    children: int
    validity: int
    offsets: int
    values: int
    _fields_ = [
        ("layout", Layout),
        ("slots", ctypes.c_size_t),
        ("nulls", ctypes.c_uint64),
        ("children", ctypes.c_size_t),
        ("validity", ctypes.c_size_t),
        ("offsets", ctypes.c_size_t),
        ("values", ctypes.c_size_t),
    ]


class Message(ctypes.Structure):
    """`arrowstream_message`."""

    text: bytes
    _fields_ = [("text", ctypes.c_char * 256)]


_HANDLE = ctypes.c_void_p
_SIZE = ctypes.c_size_t
_STATUS = ctypes.c_uint32
_TEXT = [_HANDLE, ctypes.c_void_p, _SIZE, ctypes.POINTER(_SIZE)]
_PATH = [_HANDLE, ctypes.POINTER(ctypes.c_uint64), _SIZE]
_BYTES = [_HANDLE, ctypes.c_char_p, _SIZE]
_MESSAGE = ctypes.POINTER(Message)
_CALLS: dict[str, tuple[Any, list[Any]]] = {
    "arrowstream_version": (_STATUS, []),
    "arrowstream_limits_standard": (_STATUS, [ctypes.POINTER(Limits)]),
    "arrowstream_reader_open": (None, [ctypes.POINTER(Limits), ctypes.POINTER(_HANDLE)]),
    "arrowstream_reader_feed": (_STATUS, [_HANDLE, _HANDLE, _SIZE, ctypes.POINTER(Progress)]),
    "arrowstream_reader_close": (_STATUS, [_HANDLE, ctypes.POINTER(Progress)]),
    "arrowstream_reader_schema": (_STATUS, _TEXT),
    "arrowstream_reader_line": (_STATUS, _TEXT),
    "arrowstream_reader_take": (_STATUS, [_HANDLE, ctypes.POINTER(_HANDLE)]),
    "arrowstream_reader_reuse": (None, [_HANDLE, _HANDLE]),
    "arrowstream_reader_free": (None, [_HANDLE]),
    "arrowstream_batch_rows": (_SIZE, [_HANDLE]),
    "arrowstream_batch_columns": (_SIZE, [_HANDLE]),
    "arrowstream_batch_pairs": (_STATUS, _TEXT),
    "arrowstream_batch_column": (_STATUS, [*_PATH, ctypes.POINTER(ColumnFacts)]),
    "arrowstream_batch_buffer": (
        _STATUS,
        [*_PATH, ctypes.c_uint32, ctypes.c_void_p, _SIZE, ctypes.POINTER(_SIZE)],
    ),
    "arrowstream_batch_free": (None, [_HANDLE]),
    "arrowstream_writer_open": (None, [ctypes.POINTER(Limits), ctypes.POINTER(_HANDLE)]),
    "arrowstream_writer_schema": (_STATUS, _BYTES),
    "arrowstream_writer_null": (_STATUS, [_HANDLE]),
    "arrowstream_writer_bool": (_STATUS, [_HANDLE, ctypes.c_uint32]),
    "arrowstream_writer_int": (_STATUS, [_HANDLE, ctypes.c_int64]),
    "arrowstream_writer_uint": (_STATUS, [_HANDLE, ctypes.c_uint64]),
    "arrowstream_writer_bytes": (_STATUS, _BYTES),
    "arrowstream_writer_text": (_STATUS, _BYTES),
    "arrowstream_writer_begin_list": (_STATUS, [_HANDLE]),
    "arrowstream_writer_begin_struct": (_STATUS, [_HANDLE]),
    "arrowstream_writer_end": (_STATUS, [_HANDLE]),
    "arrowstream_writer_row": (_STATUS, [_HANDLE]),
    "arrowstream_writer_drop_row": (_STATUS, [_HANDLE]),
    "arrowstream_writer_drop_batch": (_STATUS, [_HANDLE]),
    "arrowstream_writer_pair": (_STATUS, [*_BYTES, ctypes.c_char_p, _SIZE]),
    "arrowstream_writer_send": (_STATUS, [_HANDLE]),
    "arrowstream_writer_columns": (_STATUS, [_HANDLE, _HANDLE]),
    "arrowstream_writer_finish": (_STATUS, [_HANDLE]),
    "arrowstream_writer_ready": (_SIZE, [_HANDLE]),
    "arrowstream_writer_take": (_SIZE, [_HANDLE, ctypes.c_void_p, _SIZE]),
    "arrowstream_writer_line": (_STATUS, _TEXT),
    "arrowstream_writer_free": (None, [_HANDLE]),
    "arrowstream_exporter_open": (
        ctypes.c_int,
        [ctypes.c_char_p, _SIZE, ctypes.POINTER(_HANDLE), _MESSAGE],
    ),
    "arrowstream_exporter_schema": (ctypes.c_int, [_HANDLE, _HANDLE, _MESSAGE]),
    "arrowstream_exporter_batch": (ctypes.c_int, [_HANDLE, _HANDLE, _HANDLE, _MESSAGE]),
    "arrowstream_exporter_free": (None, [_HANDLE]),
    "arrowstream_import_schema": (ctypes.c_int, [_HANDLE, _HANDLE, _MESSAGE]),
    "arrowstream_import_batch": (ctypes.c_int, [_HANDLE, _HANDLE, _HANDLE, _MESSAGE]),
    "arrowstream_capsule_free_schema": (None, [_HANDLE]),
    "arrowstream_capsule_free_array": (None, [_HANDLE]),
    "arrowstream_capsule_free_stream": (None, [_HANDLE]),
}


# Calls that may take long: Python goes on in other threads meanwhile. Each reader, writer and batch
# has a lock.
_LONG = (
    "arrowstream_reader_feed",
    "arrowstream_batch_buffer",
    "arrowstream_writer_send",
    "arrowstream_writer_columns",
    "arrowstream_exporter_batch",
    "arrowstream_import_batch",
)


def _load() -> types.SimpleNamespace:
    """The calls of the shared library: the file that ARROWSTREAM_LIBRARY names, or the one of this
    package."""
    path = os.environ.get("ARROWSTREAM_LIBRARY")
    path = path or str(pathlib.Path(__file__).with_name("libarrowstream.so"))
    short, long = ctypes.PyDLL(path), ctypes.CDLL(path)
    calls = {}
    for name, (result, arguments) in _CALLS.items():
        call = getattr(long if name in _LONG else short, name)
        call.restype, call.argtypes = result, arguments
        calls[name] = call
    found = calls["arrowstream_version"]()
    if found != VERSION:
        raise ImportError(f"libarrowstream has version {found}, and {VERSION} is needed")
    return types.SimpleNamespace(**calls)


library = _load()


def text_of(call: Callable[..., int], handle: ctypes.c_void_p) -> str | None:
    """The text that a call copies, or None if there is none. Raises MemoryError."""
    room, wanted = ctypes.create_string_buffer(_ROOM), _SIZE()
    status = call(handle, room, len(room), wanted)
    if status == OK and wanted.value > len(room):
        room = ctypes.create_string_buffer(wanted.value)
        status = call(handle, room, len(room), wanted)
    if status == OUT_OF_MEMORY:
        raise MemoryError
    return room.raw[: wanted.value].decode() if status == OK else None


def limits_of(metadata: int | None, body: int | None, slots: int | None) -> Limits:
    """The standard limits, with these in place of some. Raises ValueError."""
    limits = Limits()
    library.arrowstream_limits_standard(limits)
    for name, value in (("metadata", metadata), ("body", body), ("slots", slots)):
        if value is not None:
            if not 0 <= value < 2**64:
                raise ValueError(f"the limit {value} is out of range")
            setattr(limits, name, value)
    return limits


def start_of(buffer: bytearray | memoryview) -> Any:
    """A pointer to the first byte of a buffer that may be written. It has a byte at least."""
    return ctypes.byref(ctypes.c_char.from_buffer(buffer))


def path_of(steps: tuple[int, ...]) -> ctypes.Array[ctypes.c_uint64]:
    """The steps to a column as an array."""
    return (ctypes.c_uint64 * len(steps))(*steps)
