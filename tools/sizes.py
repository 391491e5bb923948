#!/usr/bin/env python3
"""Prints the sizes of the project as a table, which docs/TESTING.md holds.

    tools/sizes.py             prints the table
    tools/sizes.py --check     fails if the document lacks a row, or a figure is more than 2 % off
"""
import ast
import math
import pathlib
import re
import sys

TOP = pathlib.Path(__file__).resolve().parent.parent
sys.dont_write_bytecode = True
sys.path.insert(0, str(TOP / "tests"))
from helpers import tries

HEAD = "| what | where | files | size |\n|---|---|---|---|\n"
PROMISES = "| promise | call | clause | definition | edit |\n|---|---|---|---|---|\n"
OFF = 0.02
ROW = re.compile(r"\| (.+?) \| (.+?) \| ([\d,]*) \| ([\d,]+) (\w+) \|")


def text_of(paths):
    return "".join(path.read_text("utf-8") for path in paths)


def sized(what, where, paths, unit, pattern):
    """A row that counts the files, and what the pattern finds in them at the start of a line."""
    count = len(re.findall(f"^{pattern}", text_of(paths), re.M))
    return what, where, len(paths), count, unit


def constant(script, name):
    """A constant of a script of tests/."""
    text = (TOP / "tests" / script).read_text("utf-8")
    return ast.literal_eval(re.search(rf"^{name} = (.*)$", text, re.M)[1])


def promises(pages):
    """The number of rows of the tables of promises."""
    tables = text_of(pages).split(PROMISES)[1:]
    return sum(len(re.match(r"(?:\|.*\n)*", table)[0].splitlines()) for table in tables)


def rows():
    """What, where, the number of files, the size, and its unit."""
    def files(pattern):
        return sorted(TOP.glob(pattern))

    code = files("crates/*/src/**/*.rt")
    tests = [path for path in code if path.parts[-3].startswith("test_")]
    fields = [*files("cases/csv/*.fields"), *files("cases/csv/*.schemas")]
    yield sized("code with contracts", "`crates/*/src`", code, "lines", ".*\n")
    for what, folder in (("definitions", "specs"), ("proofs", "proofs")):
        paths = files(f"crates/*/{folder}/**/*.antt")
        yield sized(what, f"`crates/*/{folder}`", paths, "lines", ".*\n")
    pages = [TOP / "docs/PROVED.md", *files("crates/*/PROMISES.md")]
    yield "promises", "[PROVED](PROVED.md)", len(pages), promises(pages), "rows"
    yield sized("edits that must fail", "`crates/*/must-fail`",
                files("crates/*/must-fail/*.edit"), "changes", "old:")
    yield sized("tests in Rattle", "`crates/test_*`", tests, "tests", r"#\[test\]")
    yield "cases", "`tests/cases`", len(files("cases/*/*.case")), len(list(tries())), "streams"
    yield sized("texts of the command", "`tests/texts`", files("cases/*/*.texts"), "runs", "== ")
    yield sized("fields and schemas", "`tests/fields`", fields, "inputs", "(?!== |# ).*\n")
    yield "random layouts", "`tests/layouts`", 1, math.prod(
        constant("layouts", "STREAMS, BATCHES")), "batches"
    yield "random changes", "`tests/c`", 1, constant("c", "CHANGED"), "streams"
    yield "random tables", "`tests/round-trips`", 1, constant("round-trips", "TABLES"), "tables"
    yield sized("fuzzer with its reader", "`fuzz`", [*files("fuzz/*.h"), *files("fuzz/*.cc")],
                "lines", ".*\n")


def printed(row):
    what, where, files, size, unit = row
    return f"| {what} | {where} | {files:,} | {size:,} {unit} |\n"


def is_near(told, counted):
    return abs(int(told.replace(",", "")) - counted) <= OFF * counted


def faults():
    """The rows that the document lacks, or has with other numbers."""
    told = {found[1]: found for found in ROW.finditer((TOP / "docs/TESTING.md").read_text("utf-8"))}
    for what, where, files, size, unit in rows():
        row = told.get(what)
        if not row or (row[2], row[5]) != (where, unit) or not (
            is_near(row[3], files) and is_near(row[4], size)
        ):
            yield printed((what, where, files, size, unit))


def main():
    if sys.argv[1:] == ["--check"]:
        wrong = "".join(faults())
        print(f"sizes: docs/TESTING.md should have\n{wrong}" if wrong else "sizes: as counted")
        sys.exit(wrong != "")
    print(HEAD + "".join(map(printed, rows())), end="")


main()
