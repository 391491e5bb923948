#!/usr/bin/env python3
"""Measures `arrowstream rewrite` in MB/s of input: of four columns of 64-bit integers, and of a
column of each type without children, most of which have a null in each sixteen slots.

    bench/rewrite.py [MEGABYTES] [PROGRAM]
"""
import os
import pathlib
import random
import struct
import subprocess
import sys
import tempfile
import time

TOP = pathlib.Path(__file__).resolve().parent.parent
sys.path.insert(0, str(TOP / "tests"))
from helpers import built_program
from messages import END, LEAVES, Field, batch_message, schema_message

ROWS = 65_536
NUMBERS = [Field("int64", False)] * 4
TYPES = [Field(kind, number % 4 != 0) for number, kind in enumerate(sorted(LEAVES))]


def buffers_of(own, rng):
    """The buffers of a column of these rows: its bitmap, then offsets and values."""
    bitmap = b"\xff\xfb" * (ROWS // 16) if own.nullable else b""
    form = LEAVES[own.kind][2]
    if own.kind == "null":
        return []
    if own.kind == "bool":
        return [bitmap, rng.randbytes(ROWS // 8)]
    if own.kind.startswith("bytes"):
        return [bitmap, rng.randbytes(int(own.kind[5:]) * ROWS)]
    if form:
        # A date in milliseconds is one of whole days.
        most = 1 if own.kind == "date" else 100
        values = (rng.randrange(most) for _ in range(ROWS))
        return [bitmap, b"".join(struct.pack("<" + form, value) for value in values)]
    return [bitmap, struct.pack(f"<{ROWS + 1}i", *range(0, 8 * ROWS + 1, 8)), b"some two" * ROWS]


def batch_of(fields):
    """A message with a batch whose buffers are aligned to eight bytes."""
    rng, body, nodes, buffers = random.Random(1), bytearray(), [], []
    for own in fields:
        has_nulls = own.nullable and own.kind != "null"
        nodes.append((ROWS, ROWS // 16 if has_nulls else 0))
        for data in buffers_of(own, rng):
            buffers.append((len(body), len(data)))
            body += data + bytes(-len(data) % 8)
    return batch_message(ROWS, nodes, buffers, bytes(body))


def best(words, path, runs=5):
    """The least time of some runs in seconds."""
    times = []
    for _ in range(runs):
        with open(path, "rb") as stream:
            start = time.perf_counter()
            subprocess.run(words, stdin=stream, stdout=subprocess.DEVNULL, check=True)
            times.append(time.perf_counter() - start)
    return min(times)


def main():
    megabytes = int(sys.argv[1]) if len(sys.argv) > 1 else 64
    program = sys.argv[2] if len(sys.argv) > 2 else built_program()
    for name, fields in [("64-bit integers", NUMBERS), ("each type", TYPES)]:
        message = batch_of(fields)
        with tempfile.NamedTemporaryFile(suffix=".arrows", delete=False) as file:
            file.write(schema_message(fields))
            for _ in range(max(1, megabytes * 1_000_000 // len(message))):
                file.write(message)
            file.write(END)
        try:
            size = os.path.getsize(file.name) / 1e6
            rate = size / best([program, "rewrite"], file.name)
            print(f"{size:.1f} MB of {name}: {rate:.0f} MB/s")
        finally:
            os.unlink(file.name)


if __name__ == "__main__":
    main()
