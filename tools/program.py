"""Where the built program is, and whether it is up to date: for the scripts in bin/."""
import pathlib
import shutil
import sys

TOP = pathlib.Path(__file__).resolve().parent.parent
CRATE = TOP / "crates/arrowstream"
PROGRAM = CRATE / "out/arrowstream"
SOURCES = ("src", "specs")
# What bin/build takes from nothing: 52 minutes on 4 cores that had other work too.
COST = "about an hour and 9 GB of disk on 4 cores"


def modified(path):
    return path.stat().st_mtime_ns


def is_built():
    """Whether the program exists, and no source of any crate is newer."""
    if not PROGRAM.is_file():
        return False
    built = modified(PROGRAM)
    folders = [folder for name in SOURCES for folder in TOP.glob(f"crates/*/{name}")]
    files = [TOP / "crates.txt"] + [file for folder in folders for file in folder.rglob("*")]
    return all(modified(file) <= built for file in files)


def say(text):
    print(f"arrowstream: {text}", file=sys.stderr, flush=True)


def has_toolchain():
    """Whether `rt` is on the path. If it isn't, a line on standard error says what to do."""
    if shutil.which("rt") is not None:
        return True
    say("the Rattle toolchain's `rt` is not on the path: see README.md, 'Install'")
    return False
