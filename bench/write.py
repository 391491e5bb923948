"""Measures the writer in MB/s of output: rows of four required columns of 64-bit integers are
pushed, 65,536 to a batch."""
import pathlib
import subprocess
import sys
import time

TOP = pathlib.Path(__file__).resolve().parent.parent
PROGRAM = TOP / "crates" / "workbench" / "out" / "workbench"
ROWS = 65_536
BATCH = ROWS * 4 * 8


def best(batches, runs=5):
    """The least time of some runs in seconds."""
    least = float("inf")
    for _ in range(runs):
        start = time.perf_counter()
        words = [PROGRAM, "push-rows", "i64", str(batches), str(ROWS)]
        subprocess.run(words, stdout=subprocess.DEVNULL, check=True)
        least = min(least, time.perf_counter() - start)
    return least


def main():
    if not PROGRAM.exists():
        words = ["rt", "run", "--", "push-rows", "i64", "2", "3"]
        subprocess.run(words, cwd=PROGRAM.parent.parent, stdout=subprocess.DEVNULL, check=True)
    megabytes = int(sys.argv[1]) if len(sys.argv) > 1 else 64
    batches = max(1, megabytes * 1_000_000 // BATCH)
    # The first batch pays for the rows, which are made once, and for the first allocations.
    seconds = best(1 + batches) - best(1)
    print(f"{batches * BATCH / 1e6:.1f} MB: {batches * BATCH / seconds / 1e6:.0f} MB/s")


main()
