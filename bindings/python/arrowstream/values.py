"""Values of a column as Python objects, from its buffers (Arrow Columnar Format, "Physical Memory
Layout")."""

from __future__ import annotations

import contextlib
import datetime
import gc
import operator
import re
import zoneinfo
from itertools import compress
from typing import TYPE_CHECKING, Any, Callable, Dict, Iterator

if TYPE_CHECKING:
    from .batch import Column

EPOCH = datetime.datetime(1970, 1, 1)
EPOCH_DAY = EPOCH.toordinal()
PER_DAY_MS = 86_400_000
PER_SECOND = {"s": 1, "ms": 1_000, "us": 1_000_000, "ns": 1_000_000_000}
_SIGNED = {8: "b", 16: "h", 32: "i", 64: "q"}
_UNSIGNED = {8: "B", 16: "H", 32: "I", 64: "Q"}
_OFFSET = re.compile(r"([+-])(\d\d):(\d\d)")
# The bits of each byte, the lowest first, as bytes 0 and 1.
_BITS = [bytes(byte >> bit & 1 for bit in range(8)) for byte in range(256)]
_INVERTED = bytes.maketrans(b"\0\1", b"\1\0")


def _bits(buffer: memoryview, count: int) -> bytes:
    """The first `count` bits of a bitmap, each as a byte 0 or 1."""
    return b"".join(map(_BITS.__getitem__, buffer[: (count + 7) // 8]))[:count]


def _bounds(column: Column) -> list[int]:
    """Where slot i begins and ends: at numbers i and i + 1. Without slots there need be none."""
    if column.type[0] == "fixed_size_list":
        return [column.type[1] * slot for slot in range(len(column) + 1)]
    return column.offsets[: 4 * len(column) + 4].cast("i").tolist() if len(column) else []


def _used_slots(column: Column) -> bytes | None:
    """A byte 1 for each slot of a child that its parent uses, else 0. None if it uses each."""
    parent = column.parent
    if parent is None:
        return None
    live, count = parent.live, len(column)
    if parent.type[0] == "struct":
        more = count - len(parent)
        return (live or b"\1" * len(parent)) + bytes(more) if more else live
    bounds = _bounds(parent)
    starts, ends = bounds[:-1], bounds[1:]
    if live is not None:
        starts, ends = list(compress(starts, live)), list(compress(ends, live))
    # The spans are in order, so together they have each slot if they have as many.
    if sum(ends) - sum(starts) == count:
        return None
    used = bytearray(count)
    for start, end in zip(starts, ends):
        used[start:end] = b"\1" * (end - start)
    return bytes(used)


def live_slots(column: Column) -> bytes | None:
    """A byte 1 for each slot that has a value and is used, else 0. None if each is. Bytes of other
    slots have no meaning: they need not even be a text or an index."""
    used = _used_slots(column)
    if not column.null_count or not len(column.validity):
        return used
    valid = _bits(column.validity, len(column))
    return valid if used is None else bytes(map(operator.and_, valid, used))


def _filled(column: Column, values: list[Any], filler: Any = None) -> list[Any]:
    """Sets each slot that is null or not used to `filler`, and returns the values."""
    if column.live is not None:
        for slot in compress(range(len(column)), column.live.translate(_INVERTED)):
            values[slot] = filler
    return values


def _numbers(column: Column, kind: tuple[Any, ...]) -> list[int]:
    codes = _UNSIGNED if kind[0] == "uint" else _SIGNED
    numbers: list[int] = column.values[: kind[1] // 8 * len(column)].cast(codes[kind[1]]).tolist()
    return numbers


def _slices(whole: Any, bounds: list[int]) -> list[Any]:
    return [whole[start:end] for start, end in zip(bounds, bounds[1:])]


def _texts(column: Column) -> list[str | None]:
    data, bounds = column.values.tobytes(), _bounds(column)
    if data.isascii():
        return _filled(column, _slices(data.decode("ascii"), bounds))
    # Only bytes of a slot that is null or not used can be other than UTF-8.
    texts = [item.decode("utf-8", "replace") for item in _slices(data, bounds)]
    return _filled(column, texts)


def _fixed_binaries(column: Column) -> list[bytes | None]:
    width = column.type[1]
    bounds = [width * slot for slot in range(len(column) + 1)]
    return _filled(column, _slices(column.values.tobytes(), bounds))


@contextlib.contextmanager
def _without_collections() -> Iterator[None]:
    """Pauses the collector of garbage, which would look at each list and dict of a column again and
    again while more of them are made."""
    was_enabled = gc.isenabled()
    gc.disable()
    try:
        yield
    finally:
        if was_enabled:
            gc.enable()


def _lists(column: Column, as_stored: bool) -> list[list[Any] | None]:
    items = column.child(0).to_list(as_stored=as_stored)
    with _without_collections():
        return _filled(column, _slices(items, _bounds(column)))


def _structs(column: Column, as_stored: bool) -> list[Any]:
    names = [child.name for child in column.field.children]
    members = [column.child(number).to_list(as_stored=as_stored) for number in range(len(names))]
    if len(set(names)) < len(names):
        pairs = (list(zip(names, row)) for row in zip(*members))
        return _filled(column, [pair for _, pair in zip(range(len(column)), pairs)])
    empty = dict.fromkeys(names)
    with _without_collections():
        rows = [empty.copy() for _ in range(len(column))]
    for name, member in zip(names, members):
        for row, value in zip(rows, member):
            row[name] = value
    return _filled(column, rows)


def _divided(numbers: list[int], unit: str, size: int, wholes: str) -> list[int]:
    """The numbers of `unit` in a unit of `size` of them. Raises ValueError if one is no multiple."""
    for number in numbers:
        if number % size:
            raise ValueError(f"{number} {unit} is not a whole number of {wholes}")
    return [number // size for number in numbers]


def _durations(numbers: list[int], unit: str) -> Iterator[datetime.timedelta]:
    if unit == "ns":
        numbers, unit = _divided(numbers, unit, 1_000, "microseconds"), "us"
    one = datetime.timedelta(microseconds=1_000_000 // PER_SECOND[unit])
    return map(one.__mul__, numbers)


class _Dates(Dict[int, datetime.date]):
    """The dates of days. Each is made once, since the days of a column mostly repeat."""

    def __missing__(self, day: int) -> datetime.date:
        date = self[day] = datetime.date.fromordinal(EPOCH_DAY + day)
        return date


def _dates(numbers: list[int], unit: str) -> Iterator[datetime.date]:
    days = numbers if unit == "day" else _divided(numbers, unit, PER_DAY_MS, "days")
    return map(_Dates().__getitem__, days)


def _times(numbers: list[int], unit: str) -> Iterator[datetime.time]:
    day = 86_400 * PER_SECOND[unit]
    for number in numbers:
        if not 0 <= number < day:
            raise ValueError(f"{number} {unit} is no time of a day")
    return map(datetime.datetime.time, _timestamps(numbers, unit))


def _zone(name: str) -> datetime.tzinfo:
    """The time zone of this name: an offset such as +02:00, or a name of the tz database. Raises
    ValueError."""
    offset = _OFFSET.fullmatch(name)
    if offset:
        sign, hours, minutes = offset.groups()
        passed = datetime.timedelta(hours=int(hours), minutes=int(minutes))
        return datetime.timezone(-passed if sign == "-" else passed)
    if name == "UTC":
        return datetime.timezone.utc
    try:
        return zoneinfo.ZoneInfo(name)
    except (LookupError, OSError, ValueError) as fault:
        raise ValueError(f"no time zone {name!r} is known") from fault


def _timestamps(
    numbers: list[int], unit: str, zone: str | None = None
) -> Iterator[datetime.datetime]:
    passed = _durations(numbers, unit)
    if zone is None:
        return map(EPOCH.__add__, passed)
    place = _zone(zone)
    return map(place.fromutc, map(EPOCH.replace(tzinfo=place).__add__, passed))


_TEMPORAL: dict[str, Callable[..., Iterator[Any]]] = {
    "date": _dates,
    "time": _times,
    "timestamp": _timestamps,
    "duration": _durations,
}


def _temporal(column: Column) -> list[Any]:
    name, *parameters = column.type
    numbers = _filled(column, _numbers(column, _width_of(column)), 0)
    try:
        return _filled(column, list(_TEMPORAL[name](numbers, *parameters)))
    except OverflowError as fault:
        raise ValueError(f"a value of {column.name!r} does not fit {name} of datetime") from fault


def _width_of(column: Column) -> tuple[str, int]:
    """The type of the numbers that dates, times, timestamps and durations store."""
    is_short = column.type in (("date", "day"), ("time", "s"), ("time", "ms"))
    return ("int", 32 if is_short else 64)


def _encoded(column: Column, as_stored: bool) -> list[Any]:
    """The dictionary's value of each slot."""
    encoding, values = column.field.dictionary, column.decoded(as_stored)
    if encoding is None or len(values) == 1:
        return [None] * len(column)
    indices = _filled(column, _numbers(column, encoding.index_type), -1)
    return list(map(values.__getitem__, indices))


_FLAT: dict[str, Callable[[Column], list[Any]]] = {
    "null": lambda column: [None] * len(column),
    "bool": lambda column: _filled(column, list(map(bool, _bits(column.values, len(column))))),
    "int": lambda column: _filled(column, _numbers(column, column.type)),
    "uint": lambda column: _filled(column, _numbers(column, column.type)),
    "binary": lambda column: _filled(column, _slices(column.values.tobytes(), _bounds(column))),
    "utf8": _texts,
    "fixed_size_binary": _fixed_binaries,
}
_NESTED: dict[str, Callable[[Column, bool], list[Any]]] = {
    "list": _lists,
    "fixed_size_list": _lists,
    "struct": _structs,
}


def to_list(column: Column, as_stored: bool) -> list[Any]:
    """The values of a column as Python objects (see `Column.to_list`)."""
    name = column.type[0]
    if column.is_encoded:
        return _encoded(column, as_stored)
    if name in _NESTED:
        return _NESTED[name](column, as_stored)
    if name in _FLAT:
        return _FLAT[name](column)
    if as_stored:
        return _filled(column, _numbers(column, _width_of(column)))
    return _temporal(column)
