#!/usr/bin/env python3
"""Reports lines and files that are too long, and links of documents to no file. The status is 1 if
there are any.

Code, clauses, definitions, tools and prose have at most 100 characters a line, proofs 140. Files of
code and of proofs have at most 800 lines, README.md 130. Tables and fenced blocks of documents may
be wider. A line with a hint for the prover is for the layout of `rt fmt` to break.
"""
import pathlib
import re
import sys

TOP = pathlib.Path(__file__).resolve().parent.parent
CODE = {"width": 100, "lines": 800}
PROOF = {"width": 140, "lines": 800}
README = {"width": 100, "lines": 130}
BUILT = TOP / "bench/calls"
PROSE = {"width": 100, "lines": 5000}
LINK = re.compile(r"\]\(([^)#:\s]+)(?:#[^)]*)?\)")


def bounds(path):
    if path.suffix == ".md":
        return README if path == TOP / "README.md" else PROSE
    return PROOF if "proofs" in path.parts else CODE


def is_fixed(line):
    """Whether a line of a document or of code can't be broken: of a table, a link or a hint."""
    return line.startswith(("|", "[")) or line.lstrip().startswith("#[tactic")


def too_long(path):
    """What is too long in a file, a text for each."""
    bound, is_fenced = bounds(path), False
    lines = path.read_text(encoding="utf-8").splitlines()
    name = path.relative_to(TOP)
    if len(lines) > bound["lines"]:
        yield f"{name}: {len(lines)} lines"
    for number, line in enumerate(lines, 1):
        is_fenced ^= path.suffix == ".md" and line.lstrip().startswith("```")
        if len(line) > bound["width"] and not is_fenced and not is_fixed(line):
            yield f"{name}:{number}: {len(line)} characters"


def broken_links(path):
    """The links of a document that lead to no file of the repository."""
    for target in LINK.findall(path.read_text(encoding="utf-8")):
        if not (path.parent / target).exists():
            yield f"{path.relative_to(TOP)}: no file {target}"


def code_files():
    """The files of the crates, the tools, and what is for C."""
    for folder in ("src", "specs", "proofs"):
        for path in TOP.glob(f"crates/*/{folder}/**/*"):
            if path.suffix in (".rt", ".antt"):
                yield path
    for folder in ("bin", "tests", "tools", "bench", "fuzz"):
        files = TOP.glob(f"{folder}/*")
        yield from (path for path in files if path.suffix != ".md" and path != BUILT)
    for pattern in ("include/*.h", "examples/*/*.c"):
        yield from TOP.glob(pattern)


def main():
    pages = [*TOP.glob("*.md"), *TOP.glob("*/*.md"), *TOP.glob("*/*/*.md")]
    files = [path for path in [*code_files(), *pages] if path.is_file()]
    found = [text for path in sorted(files) for text in too_long(path)]
    found += [text for page in sorted(pages) for text in broken_links(page)]
    print("\n".join(found[:40]) or f"lines: {len(files)} files within their bounds")
    return 1 if found else 0


if __name__ == "__main__":
    sys.exit(main())
