"""Cells of rows from Python values: the reverse of `values`."""

from __future__ import annotations

import datetime
import operator
from typing import Any, Callable, Iterator, Sequence, Tuple

from . import _library as c
from .schema import Field
from .values import EPOCH, EPOCH_DAY, PER_DAY_MS, PER_SECOND

# A call of the library that adds a cell, with its arguments after the writer.
Cell = Tuple[Any, ...]

_EPOCH_UTC = EPOCH.replace(tzinfo=datetime.timezone.utc)
_NULL: Cell = (c.library.arrowstream_writer_null,)
_LIST: Cell = (c.library.arrowstream_writer_begin_list,)
_STRUCT: Cell = (c.library.arrowstream_writer_begin_struct,)
_END: Cell = (c.library.arrowstream_writer_end,)


def _ticks(passed: datetime.timedelta, unit: str) -> int:
    """A span of time in a unit. Raises ValueError if it is no whole number of them."""
    if unit == "ns":
        return passed // datetime.timedelta.resolution * 1_000
    one = datetime.timedelta(microseconds=1_000_000 // PER_SECOND[unit])
    number, part = divmod(passed, one)
    if part:
        raise ValueError(f"{passed} is not a whole number of {unit}")
    return number


def _date(value: datetime.date, unit: str) -> int:
    if isinstance(value, datetime.datetime):
        raise TypeError("a datetime is no date")
    days = value.toordinal() - EPOCH_DAY
    return days if unit == "day" else days * PER_DAY_MS


def _time(value: datetime.time, unit: str) -> int:
    return _ticks(datetime.datetime.combine(EPOCH, value) - EPOCH, unit)


def _timestamp(value: datetime.datetime, unit: str, zone: str | None) -> int:
    return _ticks(value - (EPOCH if zone is None else _EPOCH_UTC), unit)


_TEMPORAL: dict[str, tuple[type[Any], Callable[..., int]]] = {
    "date": (datetime.date, _date),
    "time": (datetime.time, _time),
    "timestamp": (datetime.datetime, _timestamp),
    "duration": (datetime.timedelta, _ticks),
}


def _number(field: Field, value: Any) -> int:
    """The number that is stored for a value. Raises TypeError and ValueError."""
    kind, *parameters = field.type
    if kind in _TEMPORAL:
        known, stored = _TEMPORAL[kind]
        if isinstance(value, known):
            return stored(value, *parameters)
    try:
        return operator.index(value)
    except TypeError:
        found = type(value).__name__
        raise TypeError(f"a {found} is no value of {field.name!r}, of type {kind}") from None


def _scalar(field: Field, value: Any) -> Cell:
    if isinstance(value, bool):
        return c.library.arrowstream_writer_bool, value
    if isinstance(value, str):
        text = value.encode()
        return c.library.arrowstream_writer_text, text, len(text)
    if isinstance(value, (bytes, bytearray, memoryview)):
        data = bytes(value)
        return c.library.arrowstream_writer_bytes, data, len(data)
    number = value if isinstance(value, int) else _number(field, value)
    if not -(2**63) <= number < 2**64:
        raise ValueError(f"{number} has more than 64 bits")
    if number >= 2**63 or (number >= 0 and field.type[0] == "uint"):
        return c.library.arrowstream_writer_uint, number
    return c.library.arrowstream_writer_int, number


def _by_name(fields: Sequence[Field], values: dict[str, Any]) -> list[Any]:
    """The value of each field, None where there is none. Raises ValueError."""
    names = [field.name for field in fields]
    if len(set(names)) < len(names):
        raise ValueError(f"names repeat: {names}")
    unknown = values.keys() - set(names)
    if unknown:
        raise ValueError(f"no field has the name {min(unknown, key=repr)!r}")
    return [values.get(name) for name in names]


def _add_members(cells: list[Cell], fields: Sequence[Field], values: Sequence[Any]) -> None:
    if len(values) != len(fields):
        # Refused for its width, whatever the values are.
        cells.extend([_NULL] * len(values))
        return
    for field, value in zip(fields, values):
        _add(cells, field, value)


def _add(cells: list[Cell], field: Field, value: Any) -> None:
    if value is None:
        cells.append(_NULL)
    elif isinstance(value, list) and field.type[0] != "struct":
        cells.append(_LIST)
        # A list for a field without a child is refused for its kind, whatever the items are.
        for child in field.children[:1]:
            for item in value:
                _add(cells, child, item)
        cells.append(_END)
    elif isinstance(value, (dict, tuple, list)):
        if isinstance(value, dict):
            value = _by_name(field.children, value)
        elif isinstance(value, list):
            value = [member for _, member in value]
        cells.append(_STRUCT)
        _add_members(cells, field.children, value)
        cells.append(_END)
    else:
        cells.append(_scalar(field, value))


def row_cells(fields: Sequence[Field], row: Sequence[Any] | dict[str, Any]) -> list[Cell]:
    """The calls that give a row to a writer (see `Writer.write_row`). Whether a value is of the
    kind of its field, and in range, is for the library to say.

    Raises TypeError if no cell can have a value, and ValueError if a number does not fit 64 bits or
    the unit of its field, or if the names of a dict are not those of the fields.
    """
    cells: list[Cell] = []
    _add_members(cells, fields, _by_name(fields, row) if isinstance(row, dict) else row)
    return cells


def rows_of(fields: Sequence[Field], columns: dict[str, Sequence[Any]]) -> Iterator[Any]:
    """The rows of columns, which have the names of the fields. Raises ValueError."""
    names = [field.name for field in fields]
    if sorted(names) != sorted(columns):
        raise ValueError(f"columns {list(columns)} are not {names}")
    if len(set(map(len, columns.values()))) > 1:
        raise ValueError("columns have different lengths")
    return zip(*(columns[name] for name in names))
