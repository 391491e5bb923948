"""Schemas, batches and streams in capsules of the Arrow C data interface, both ways.

https://arrow.apache.org/docs/format/CDataInterface/PyCapsuleInterface.html
"""

from __future__ import annotations

import ctypes
import errno
import itertools
from typing import TYPE_CHECKING, Any, Callable, Iterator

from . import _library as c
from .errors import ArrowError

if TYPE_CHECKING:
    from .batch import Batch
    from .reader import Reader
    from .schema import Schema

_INT64 = ctypes.c_int64
_POINTER = ctypes.c_void_p


class CSchema(ctypes.Structure):
    """`struct ArrowSchema`."""

    release: int | None
    _fields_ = [
        ("format", _POINTER),
        ("name", _POINTER),
        ("metadata", _POINTER),
        ("flags", _INT64),
        ("n_children", _INT64),
        ("children", _POINTER),
        ("dictionary", _POINTER),
        ("release", _POINTER),
        ("private_data", _POINTER),
    ]


class CArray(ctypes.Structure):
    """`struct ArrowArray`."""

    release: int | None
    _fields_ = [
        ("length", _INT64),
        ("null_count", _INT64),
        ("offset", _INT64),
        ("n_buffers", _INT64),
        ("n_children", _INT64),
        ("buffers", _POINTER),
        ("children", _POINTER),
        ("dictionary", _POINTER),
        ("release", _POINTER),
        ("private_data", _POINTER),
    ]


class CStream(ctypes.Structure):
    """`struct ArrowArrayStream`."""

    _fields_ = [
        ("get_schema", _POINTER),
        ("get_next", _POINTER),
        ("get_last_error", _POINTER),
        ("release", _POINTER),
        ("private_data", _POINTER),
    ]


_GET = ctypes.CFUNCTYPE(ctypes.c_int, _POINTER, _POINTER)
_LAST_ERROR = ctypes.CFUNCTYPE(_POINTER, _POINTER)
_RELEASE = ctypes.CFUNCTYPE(None, _POINTER)

_python = ctypes.pythonapi
_new_capsule = _python.PyCapsule_New
_new_capsule.restype = ctypes.py_object
_new_capsule.argtypes = [_POINTER, ctypes.c_char_p, _POINTER]
_pointer_in = _python.PyCapsule_GetPointer
_pointer_in.restype = _POINTER
_pointer_in.argtypes = [ctypes.py_object, ctypes.c_char_p]
_allocate = _python.PyMem_RawCalloc
_allocate.restype = _POINTER
_allocate.argtypes = [ctypes.c_size_t, ctypes.c_size_t]

# A capsule keeps the pointer to its name, so these bytes are never freed.
_SCHEMA, _ARRAY, _STREAM = b"arrow_schema", b"arrow_array", b"arrow_array_stream"
_FREE = {
    _SCHEMA: c.library.arrowstream_capsule_free_schema,
    _ARRAY: c.library.arrowstream_capsule_free_array,
    _STREAM: c.library.arrowstream_capsule_free_stream,
}
_STRUCTURE = {_SCHEMA: CSchema, _ARRAY: CArray, _STREAM: CStream}


def _capsule(name: bytes) -> tuple[Any, int]:
    """A capsule with a structure of zeros, which its destructor releases, and its address."""
    room = _allocate(1, ctypes.sizeof(_STRUCTURE[name]))
    if not room:
        raise MemoryError
    return _new_capsule(room, name, ctypes.cast(_FREE[name], _POINTER)), room


def _check(error: int, message: c.Message) -> None:
    """Raises the exception for an error of `arrowstream_cdata.h`."""
    line = message.text.decode(errors="replace")
    if error == errno.ENOMEM:
        raise MemoryError
    if error == errno.ENOTSUP:
        raise TypeError(line)
    if error and line[:1] in ("F", "W", "X") and line[1:2].isdigit():
        raise ArrowError(line)
    if error:
        raise ValueError(line)


class _Exporter:
    """An exporter of batches of a schema, for one call."""

    def __init__(self, schema: Schema):
        self.handle, self.message = ctypes.c_void_p(), c.Message()
        text = schema.to_json().encode()
        _check(
            c.library.arrowstream_exporter_open(text, len(text), self.handle, self.message),
            self.message,
        )

    def __enter__(self) -> _Exporter:
        return self

    def __exit__(self, *_: Any) -> None:
        c.library.arrowstream_exporter_free(self.handle)

    def schema(self, out: int) -> None:
        """Exports the schema to an address."""
        _check(
            c.library.arrowstream_exporter_schema(self.handle, out, self.message), self.message
        )

    def batch(self, batch: Batch, out: int) -> None:
        """Exports a batch to an address."""
        with batch._lock:
            error = c.library.arrowstream_exporter_batch(
                self.handle, batch._handle, out, self.message
            )
        _check(error, self.message)


def schema_capsule(schema: Schema) -> Any:
    """A schema, as a struct of its fields."""
    capsule, room = _capsule(_SCHEMA)
    with _Exporter(schema) as exporter:
        exporter.schema(room)
    return capsule


def batch_capsules(batch: Batch) -> tuple[Any, Any]:
    """The schema and the array of structs of a batch."""
    (schema, schema_room), (array, array_room) = _capsule(_SCHEMA), _capsule(_ARRAY)
    with _Exporter(batch.schema) as exporter:
        exporter.schema(schema_room)
        exporter.batch(batch, array_room)
    return schema, array


# ---- streams that are exported -------------------------------------------------------------------


class _Exported:
    """A reader whose batches a consumer takes, with the line of the last error."""

    def __init__(self, reader: Reader):
        self.reader = reader
        self.line: ctypes.Array[ctypes.c_char] | None = None


# The streams that are not released yet, by their `private_data`.
_exported: dict[int, _Exported] = {}
_numbers = itertools.count(1)


def _state(stream: int) -> _Exported:
    return _exported[CStream.from_address(stream).private_data]


def _error_of(failure: Exception) -> int:
    if isinstance(failure, MemoryError):
        return errno.ENOMEM
    if isinstance(failure, (ArrowError, ValueError)):
        return errno.EINVAL
    return failure.errno or errno.EIO if isinstance(failure, OSError) else errno.EIO


def _answer(stream: int, call: Callable[[Reader], None]) -> int:
    """Calls a function with the reader of a stream. Returns 0, or the error that it raised."""
    state = _state(stream)
    state.line = None
    try:
        call(state.reader)
    except Exception as failure:  # a consumer in C gets a number
        state.line = ctypes.create_string_buffer(str(failure).encode() or b"failed")
        return _error_of(failure)
    return 0


@_GET
def _get_schema(stream: int, out: int) -> int:
    def export(reader: Reader) -> None:
        with _Exporter(reader.schema) as exporter:
            exporter.schema(out)

    return _answer(stream, export)


@_GET
def _get_next(stream: int, out: int) -> int:
    def export(reader: Reader) -> None:
        CArray.from_address(out).release = None
        for batch in reader:
            with _Exporter(batch.schema) as exporter:
                exporter.batch(batch, out)
            return

    return _answer(stream, export)


@_LAST_ERROR
def _get_last_error(stream: int) -> int | None:
    line = _state(stream).line
    return ctypes.addressof(line) if line is not None else None


@_RELEASE
def _release(stream: int) -> None:
    structure = CStream.from_address(stream)
    _exported.pop(structure.private_data, None)
    structure.release = None


def stream_capsule(reader: Reader) -> Any:
    """The batches of a reader that were not read yet."""
    capsule, room = _capsule(_STREAM)
    number = next(_numbers)
    _exported[number] = _Exported(reader)
    functions = (_get_schema, _get_next, _get_last_error, _release)
    stream = CStream.from_address(room)
    for (name, _), function in zip(CStream._fields_, functions):
        setattr(stream, name, ctypes.cast(function, _POINTER).value)
    stream.private_data = number
    return capsule


# ---- what others export --------------------------------------------------------------------------


class Imported:
    """A schema and arrays of another library, at their addresses. They are valid while this is kept,
    and each array until the next one is asked for."""

    def __init__(self, schema: int, arrays: Iterator[int], *kept: Any):
        self.schema, self.arrays, self._kept = schema, arrays, kept


def is_importable(value: Any) -> bool:
    """Whether a value hands on a stream or an array."""
    return hasattr(value, "__arrow_c_stream__") or hasattr(value, "__arrow_c_array__")


def _check_stream(address: int, error: int) -> None:
    """Raises the exception for an error of a stream, with the line that the stream gives."""
    if error:
        line = _LAST_ERROR(CStream.from_address(address).get_last_error)(address)
        text = ctypes.string_at(line) if line else b"the stream failed"
        _check(error, c.Message(text[:255]))


def _arrays_of(address: int) -> Iterator[int]:
    """The arrays of a stream."""
    get_next = _GET(CStream.from_address(address).get_next)
    while True:
        # The capsule releases the array when the next one replaces it.
        capsule, room = _capsule(_ARRAY)
        _check_stream(address, get_next(address, room))
        if not CArray.from_address(room).release:
            return
        yield room
        del capsule


def imported(value: Any) -> Imported:
    """What a value hands on by `__arrow_c_stream__` or `__arrow_c_array__`."""
    if not hasattr(value, "__arrow_c_stream__"):
        schema, array = value.__arrow_c_array__()
        room = _pointer_in(schema, _SCHEMA)
        return Imported(room, iter((_pointer_in(array, _ARRAY),)), schema, array)
    source = value.__arrow_c_stream__()
    address = _pointer_in(source, _STREAM)
    schema, room = _capsule(_SCHEMA)
    _check_stream(address, _GET(CStream.from_address(address).get_schema)(address, room))
    return Imported(room, _arrays_of(address), source, schema)


def schema_address(value: Any) -> tuple[int, Any]:
    """The address of the schema that a value hands on by `__arrow_c_schema__`, valid while the
    other object is kept."""
    capsule = value.__arrow_c_schema__()
    return _pointer_in(capsule, _SCHEMA), capsule


def begin(writer: ctypes.c_void_p, schema: int) -> None:
    """Begins the stream of a schema of another library."""
    message = c.Message()
    _check(c.library.arrowstream_import_schema(writer, schema, message), message)


def send(writer: ctypes.c_void_p, schema: int, array: int) -> None:
    """Sends an array of another library as a batch."""
    message = c.Message()
    _check(c.library.arrowstream_import_batch(writer, schema, array, message), message)
