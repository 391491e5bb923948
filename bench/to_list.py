#!/usr/bin/env python3
"""Measures `Column.to_list` of the Python package: nanoseconds of processor time for a value.

    bench/to_list.py [ROWS]         # 100,000 by default

The package is that of bindings/python, with the library that ARROWSTREAM_LIBRARY names. Each figure
is the least of nine runs. The last line is a list of integers in a comprehension, to compare
machines by.
"""
import io
import pathlib
import sys
import time

TOP = pathlib.Path(__file__).resolve().parent.parent
sys.path.insert(0, str(TOP / "bindings/python"))
sys.dont_write_bytecode = True
import arrowstream
from arrowstream import Field, Schema

ROWS = int(sys.argv[1]) if sys.argv[1:] else 100_000
ITEM = Field("item", ("int", 64))
# The type of each column, its children, and the value of a row as it is stored.
COLUMNS = {
    "int64": (("int", 64), (), lambda row: row),
    "int64, one of ten null": (("int", 64), (), lambda row: row if row % 10 else None),
    "texts": (("utf8",), (), lambda row: f"row {row}"),
    "texts beyond ASCII": (("utf8",), (), lambda row: f"Køln {row}"),
    "dates": (("date", "day"), (), lambda row: row % 20_000),
    "timestamps": (("timestamp", "us", None), (), lambda row: 1_000_003 * row),
    "timestamps in UTC": (("timestamp", "us", "UTC"), (), lambda row: 1_000_003 * row),
    "lists of two": (("list",), (ITEM,), lambda row: [row, -row]),
    "structs of one": (("struct",), (ITEM,), lambda row: {"item": row}),
}


def least(call):
    """The least processor time of nine runs, in nanoseconds for a row."""
    times = []
    for _ in range(9):
        start = time.process_time()
        call()
        times.append(time.process_time() - start)
    return 1e9 * min(times) / ROWS


def main():
    for name, (kind, children, value) in COLUMNS.items():
        out = io.BytesIO()
        schema = Schema((Field("a", kind, children=children),))
        arrowstream.write(out, schema, [{"a": [value(row) for row in range(ROWS)]}])
        (batch,) = arrowstream.read(out.getvalue())
        print(f"{name:24} {least(lambda: batch.column('a').to_list()):6.0f} ns")
    print(f"{'a comprehension':24} {least(lambda: [row for row in range(ROWS)]):6.0f} ns")


if __name__ == "__main__":
    main()
