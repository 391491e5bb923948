"""Values of a column as arrays of numpy, which is imported where it is used."""

from __future__ import annotations

import importlib
from typing import TYPE_CHECKING, Any

from .values import to_list

if TYPE_CHECKING:
    from .batch import Column


def _numbers(numpy: Any, column: Column) -> Any:
    """The numbers of a column, in the memory of its values. None if it has other values."""
    name, *parameters = column.type
    if name in ("int", "uint"):
        return _shared(numpy, column, f"<{name[0]}{parameters[0] // 8}")
    if column.type == ("date", "day"):
        return _shared(numpy, column, "<i4").astype("M8[D]")
    if name in ("date", "timestamp"):
        return _shared(numpy, column, f"<M8[{parameters[0]}]")
    if column.type in (("time", "s"), ("time", "ms")):
        return _shared(numpy, column, "<i4").astype(f"m8[{parameters[0]}]")
    if name in ("time", "duration"):
        return _shared(numpy, column, f"<m8[{parameters[0]}]")
    if name == "bool":
        bits = numpy.frombuffer(column.values, "u1")
        return numpy.unpackbits(bits, bitorder="little")[: len(column)].astype(bool)
    return None


def _shared(numpy: Any, column: Column, dtype: str) -> Any:
    size = numpy.dtype(dtype).itemsize * len(column)
    return numpy.frombuffer(column.values[:size], dtype)


def _objects(numpy: Any, values: list[Any]) -> Any:
    array = numpy.empty(len(values), object)
    for slot, value in enumerate(values):
        array[slot] = value
    return array


def to_numpy(column: Column) -> Any:
    """The values of a column as an array (see `Column.to_numpy`)."""
    numpy = importlib.import_module("numpy")
    array = None if column.is_encoded else _numbers(numpy, column)
    if array is None:
        return _objects(numpy, to_list(column, False))
    if column.live is None:
        return array
    return numpy.ma.array(array, mask=numpy.frombuffer(column.live, "u1") == 0)
