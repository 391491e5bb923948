#!/usr/bin/env python3
"""Writes cases/refused/README.md: each refusal of a stream, with the cases that are refused so.

    tools/refusals.py             writes the file
    tools/refusals.py --check     fails if the file is not up to date, or a refusal has no case
"""
import pathlib
import re
import sys

TOP = pathlib.Path(__file__).resolve().parent.parent
FOLDER = TOP / "cases/refused"
FAULTS = range(1, 35)
HEAD = """# Refused streams

Each refusal that a stream can have, with the cases in which it is the only cause at the byte that
decides. `tools/refusals.py` makes this list of the cases, and `tests/refusals` compares. F35 to
F37 are not refusals of bytes: they follow an earlier refusal, a failed source, or a refused
allocation.

A null count above the length of its column is also F31 in every column that has a bitmap. So the
case of F28 for it is a null column.

| refusal | cases |
|---|---|
"""


def refusals(path):
    """The refusals that are the only cause in some section of a case, with their names."""
    lines = path.read_text("utf-8").splitlines()
    found = (re.fullmatch(r"refused (F\d+ \w+)(?:\(\d+\))? at message \d+", line) for line in lines)
    return {match[1] for match in found if match}


def listing():
    cases = {path.name: refusals(path) for path in sorted(FOLDER.glob("*.case"))}
    rows = []
    for number in FAULTS:
        names = {name for found in cases.values() for name in found}
        name = next((name for name in names if name.startswith(f"F{number} ")), None)
        if name is None:
            sys.exit(f"refusals: no case is refused as F{number} alone")
        links = [f"[{case[:-5]}]({case})" for case, found in cases.items() if name in found]
        rows.append(f"| {name} | {', '.join(links)} |\n")
    return HEAD + "".join(rows)


def main():
    path = FOLDER / "README.md"
    if sys.argv[1:] == ["--check"]:
        if not path.exists() or path.read_text("utf-8") != listing():
            sys.exit("refusals: cases/refused/README.md is not that of the cases")
        print(f"refusals: {len(FAULTS)} refusals have cases")
    else:
        path.write_text(listing(), "utf-8")


main()
