#!/usr/bin/env python3
"""What the scripts of this folder share.

    tests/helpers.py CASE      writes the stream of a case to standard output
"""
import pathlib
import re
import subprocess
import sys

TOP = pathlib.Path(__file__).resolve().parent.parent
WORKBENCH = TOP / "crates/workbench"
CHANGE = r"([0-9a-f]+) at (\d+)"
EACH = r"([0-9a-f]+) at each of (\d+) to (\d+)"
LIMIT = r"(?:metadata|body|slots|fields|depth|text|pairs) \d+"


def built_program():
    """The path of the built program `arrowstream`, which is built first where it is missing."""
    return subprocess.check_output([TOP / "bin/build"], text=True).splitlines()[-1]


def built_workbench():
    """The path of the built program `workbench`, which is proved and built first where it is
    missing or a source is newer. Its own few streams are its input then."""
    program = WORKBENCH / "out/workbench"
    sources = [*TOP.glob("crates/*/src/*"), *TOP.glob("crates/*/specs/*")]
    newest = max(path.stat().st_mtime for path in sources)
    if not program.exists() or program.stat().st_mtime < newest:
        with open(WORKBENCH / "stdin", "rb") as streams:
            done = subprocess.run(["rt", "run", "--", "answer"], cwd=WORKBENCH, stdin=streams,
                                  capture_output=True, check=False)
        if done.returncode != 0:
            sys.exit(f"workbench is not built: {done.stderr.decode()[-2000:]}")
        program.touch()
    return program


def stream_of(case):
    """The stream of a case: the bytes of its hexadecimal digits, before its first section."""
    text = pathlib.Path(case).read_text("utf-8").split("\n== ")[0]
    return bytes.fromhex("".join(line for line in text.split("\n") if not line.startswith("#")))


def read_case(path):
    """The stream of a case, and its sections: the words after each `== ` with the lines below."""
    digits, sections = [], []
    lines = digits
    for line in path.read_text("utf-8").rstrip("\n").split("\n"):
        if line.startswith("== "):
            # Headings with no line between them have the lines below in common.
            if not sections or sections[-1][1]:
                lines = []
            sections.append((line[3:], lines))
        elif not line.startswith("#"):
            lines.append(line)
    return bytes.fromhex("".join(digits)), sections


def changed(stream, changes):
    """A stream with other bytes in some places."""
    stream = bytearray(stream)
    for digits, at in re.findall(CHANGE, changes):
        new = bytes.fromhex(digits)
        if int(at) + len(new) > len(stream):
            raise ValueError(f"no byte at {at}")
        stream[int(at) : int(at) + len(new)] = new
    return bytes(stream)


def limits_of(words):
    """The limits that a section sets, as `metadata 39, slots 3`: an empty text where it sets
    none."""
    within = re.fullmatch(f"answer within ({LIMIT}(?:, {LIMIT})*)", words)
    return within[1] if within else ""


def streams_of(words, stream):
    """The streams that a section speaks of."""
    if words == "answer" or limits_of(words):
        return [stream]
    if first := re.fullmatch(r"answer to the first (\d+)(?: to (\d+))? bytes", words):
        low, high = int(first[1]), int(first[2] or first[1])
        if not low <= high <= len(stream):
            raise ValueError(f"no bytes {low} to {high}")
        return [stream[:count] for count in range(low, high + 1)]
    if each := re.fullmatch(f"answer with {EACH}", words):
        places = range(int(each[2]), int(each[3]) + 1)
        return [changed(stream, f"{each[1]} at {place}") for place in places]
    if with_changes := re.fullmatch(f"answer with ({CHANGE}(?:, {CHANGE})*)", words):
        return [changed(stream, with_changes[1])]
    raise ValueError(f"an unknown section: {words}")


def is_answered(want, line):
    """Whether a line is the wanted one, or names one of several causes that stand in a message."""
    causes, message, number = want.partition(" at message ")
    if not want.startswith("refused ") or not message:
        return line == want
    causes = causes.removeprefix("refused ").split(" or ")
    return line in [f"refused {cause}{message}{number}" for cause in causes]


def raised(call):
    """The name and the line of the exception that a call raises."""
    try:
        call()
    except Exception as error:  # pylint: disable=broad-except
        return type(error).__name__, str(error)
    return "none", ""


def tries():
    """The name of each section of the cases, with each stream that it speaks of, its limits and the
    wanted lines."""
    for path in sorted(TOP.glob("cases/**/*.case")):
        name = path.relative_to(TOP / "cases").with_suffix("")
        try:
            stream, sections = read_case(path)
            for words, wanted in sections:
                for variant in streams_of(words, stream):
                    yield f"{name}, {words}", variant, limits_of(words), wanted
        except ValueError as error:
            sys.exit(f"{name}: {error}")


if __name__ == "__main__":
    sys.stdout.buffer.write(stream_of(sys.argv[1]))
