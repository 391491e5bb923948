#!/usr/bin/env python3
"""Measures what `check` takes of streams that state much in few bytes: seconds and peak memory.

    bench/hostile.py [PROGRAM]

Each stream refers to one field, one pair or one buffer very often. The limits count each reference.
A peak below that of this script, about 20 MiB, cannot be told from it.
"""
import os
import pathlib
import struct
import subprocess
import sys
import time

TOP = pathlib.Path(__file__).resolve().parent.parent
sys.path.insert(0, str(TOP / "tests"))
from messages import END, Metadata

PROGRAM = sys.argv[1] if sys.argv[1:] else str(TOP / "crates/arrowstream/out/arrowstream")


def schema(fields, pairs, kind=2):
    """The message of a schema with `fields` references to one column of signed numbers of 64 bits,
    or of texts where `kind` is 5. It has `pairs` references to one pair of texts of eight bytes."""
    made = Metadata("message")
    made.table("message", (0, "h", 4), (1, "B", 1), (2, "O", "schema"))
    made.table("schema", (1, "O", "fields"))
    made.vector("fields", ["field"] * fields)
    made.table("field", (0, "O", "name"), (1, "B", 1), (2, "B", kind), (3, "O", "type"),
               (6, "O", "pairs"))
    made.text("name", b"a")
    made.table("type", *([(0, "i", 64), (1, "B", 1)] if kind == 2 else []))
    made.vector("pairs", ["pair"] * pairs)
    made.table("pair", (0, "O", "text"), (1, "O", "text"))
    made.text("text", b"k" * 8)
    return made.message()


def batch(columns, rows, buffers, body):
    """The message of a batch whose columns all have these buffers of the body."""
    made = Metadata("message")
    made.table("message", (0, "h", 4), (1, "B", 3), (2, "O", "batch"), (3, "q", len(body)))
    made.table("batch", (0, "q", rows), (1, "O", "nodes"), (2, "O", "buffers"))
    made.pairs("nodes", [(rows, 0)] * columns)
    made.pairs("buffers", buffers * columns)
    return made.message(body)


def numbers(columns, rows):
    """A stream of columns of numbers with one buffer of values."""
    buffers = [(0, 0), (0, 8 * rows)]
    return schema(columns, 0) + batch(columns, rows, buffers, struct.pack("<q", 1) * rows)


def texts(columns, rows):
    """A stream of columns of empty texts with one buffer of offsets."""
    body = bytes(4 * (rows + 1) + 4 * (1 - rows % 2))
    buffers = [(0, 0), (0, 4 * (rows + 1)), (0, 0)]
    return schema(columns, 0, 5) + batch(columns, rows, buffers, body)


STREAMS = [
    ("65,000 pairs: 1,000 columns share 65 references to one pair", schema(1_000, 65)),
    ("2^20 pairs: 1,024 columns share 1,024 references to one pair", schema(1_024, 1_024)),
    ("65,536 columns, one field", schema(65_536, 0)),
    ("20,000 columns of 1,000 rows over one buffer", numbers(20_000, 1_000)),
    ("8,000 columns of 100,000 texts over one buffer", texts(8_000, 100_000)),
]


def main():
    print(f"{'bytes':>10} {'seconds':>8} {'peak MiB':>9}  stream")
    for name, stream in STREAMS:
        started = time.monotonic()
        ran = subprocess.Popen([PROGRAM, "check"], stdin=subprocess.PIPE, stdout=subprocess.DEVNULL)
        ran.stdin.write(stream + END)
        ran.stdin.close()
        _, status, used = os.wait4(ran.pid, 0)
        seconds = time.monotonic() - started
        print(f"{len(stream) + 8:>10,} {seconds:>8.2f} {used.ru_maxrss / 1024:>9.1f}  {name}")
        if status != 0:
            print(f"hostile: {name}: status {os.waitstatus_to_exitcode(status)}")


if __name__ == "__main__":
    main()
