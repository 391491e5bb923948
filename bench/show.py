"""Measures `arrowstream show` in MB/s of input beside `cat` of the same file."""
import os
import pathlib
import struct
import subprocess
import sys
import tempfile
import time

TOP = pathlib.Path(__file__).resolve().parent.parent
SAMPLE = (TOP / "samples" / "int64.arrows").read_bytes()
SCHEMA, BATCH, END = SAMPLE[:120], SAMPLE[120:256], SAMPLE[280:]
ROWS = 65_536


def batch():
    """A message with one batch of ROWS numbers, laid out as the sample's batch is."""
    head = bytearray(BATCH)
    body = b"".join(struct.pack("<q", n * 2_654_435_761 % 2**63 - 2**62) for n in range(ROWS))
    # The places of bodyLength, the lengths of batch and node, and the values buffer's length.
    numbers = {8 + 24: len(body), 8 + 56: ROWS, 8 + 72: ROWS, 8 + 120: len(body)}
    for place, number in numbers.items():
        struct.pack_into("<q", head, place, number)
    return bytes(head) + body


def best(words, path, runs=5):
    """The least time of some runs in seconds, and the greatest peak of memory in MiB."""
    times, peaks = [], []
    for _ in range(runs):
        with open(path, "rb") as stream:
            start = time.perf_counter()
            process = subprocess.Popen(words, stdin=stream, stdout=subprocess.DEVNULL)
            _, status, usage = os.wait4(process.pid, 0)
            times.append(time.perf_counter() - start)
            peaks.append(usage.ru_maxrss / 1024)
            if status:
                raise SystemExit(f"{words} ended with {status}")
    return min(times), max(peaks)


def main():
    megabytes = int(sys.argv[1]) if len(sys.argv) > 1 else 64
    message = batch()
    with tempfile.NamedTemporaryFile(suffix=".arrows", delete=False) as file:
        file.write(SCHEMA)
        for _ in range(max(1, megabytes * 1_000_000 // len(message))):
            file.write(message)
        file.write(END)
        path = file.name
    try:
        size = os.path.getsize(path) / 1e6
        program = subprocess.check_output([str(TOP / "bin" / "build")], text=True).strip()
        shown, peak = best([program, "show"], path)
        copied, _ = best(["cat"], path)
        rates = f"show {size / shown:.0f} MB/s, cat {size / copied:.0f} MB/s"
        print(f"{size:.1f} MB: {rates}, peak of memory {peak:.0f} MiB")
    finally:
        os.unlink(path)


main()
