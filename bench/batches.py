#!/usr/bin/env python3
"""Measures the jobs on a stream of many batches of one row of four numbers: the seconds of a
processor that each takes.

    bench/batches.py [BATCHES] [PROGRAM]    # a million and the built program by default
"""
import os
import pathlib
import struct
import subprocess
import sys
import tempfile

TOP = pathlib.Path(__file__).resolve().parent.parent
sys.dont_write_bytecode = True
sys.path.insert(0, str(TOP / "tests"))
from helpers import built_program
from messages import END, Field, batch_message, schema_message

JOBS = (["check"], ["show"], ["to-csv"], ["rewrite"])


def write_stream(path, batches):
    """A stream of this many batches of one row of four numbers."""
    body = struct.pack("<4q", 1, 2, 3, 4)
    nodes = [(1, 0)] * 4
    buffers = [pair for at in range(4) for pair in ((8 * at, 0), (8 * at, 8))]
    message = batch_message(1, nodes, buffers, body)
    with open(path, "wb") as stream:
        stream.write(schema_message([Field("int64", False)] * 4))
        for _ in range(batches // 1000):
            stream.write(message * 1000)
        stream.write(message * (batches % 1000) + END)


def seconds(words, path):
    """The processor's seconds of one run, in the program and in the system."""
    before = os.times()
    with open(path, "rb") as stream:
        subprocess.run(words, stdin=stream, stdout=subprocess.DEVNULL, check=True)
    after = os.times()
    return (after.children_user - before.children_user
            + after.children_system - before.children_system)


def main():
    batches = int(sys.argv[1]) if len(sys.argv) > 1 else 1_000_000
    program = sys.argv[2] if len(sys.argv) > 2 else str(built_program())
    with tempfile.TemporaryDirectory() as room:
        path = pathlib.Path(room) / "stream"
        write_stream(path, batches)
        print(f"{batches:,} batches of one row, {path.stat().st_size:,} bytes")
        for words in JOBS:
            print(f"{words[0]:10} {seconds([program, *words], path):.2f} s")


if __name__ == "__main__":
    main()
