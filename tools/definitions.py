#!/usr/bin/env python3
"""Makes docs/DEFINITIONS.md and docs/definitions/ from the definitions and the comments above them.

    tools/definitions.py            writes the pages
    tools/definitions.py --check    fails if the pages differ, or if a definition has no comment

The first page has a definition with all that it cites, directly or through others. Any other has
what the contracts of its calls cite, and no earlier page has. A definition's comment is the lines
that begin with `--` right above it. What it names of a standard is the definition's section. What
the first comment of a file names is printed once, under the module.
"""
import pathlib
import re
import sys
import textwrap

from cited import TOP, Definitions, crates

PAGE = TOP / "docs" / "DEFINITIONS.md"
FOLDER = TOP / "docs" / "definitions"
HEAD = """# The definitions

Made by `tools/definitions.py` from the definitions and the comments above them. The gate compares.

Contracts cite these definitions: to trust a contract is to trust these. They relate whole values to
whole lists of bytes, without buffers or passes. Those of FlatBuffers tables return the first fault
in the code's order, because the format states no faults. If a function that follows the code exists
beside a relation, its comment says so, and a proved law joins the two.

The first page has `Denotes`, which relates the bytes of a stream to its table, with all that it
cites, directly or through others. So this page is all that has to be read to know what an accepted
stream denotes. Each other page has the definitions that the contracts of its calls cite, and that
no page above it has. A definition that only proofs use is on no page.

{table}

On a page, a heading such as `ipc_scalar` is the crate, and `Bytes` is the module `specs/Bytes.antt`
of the crate above it. In parentheses is the place in the public standard that a definition states:
the Arrow Columnar Format 1.x, its metadata schemas Schema.fbs and Message.fbs at version V5, the
Arrow C data interface, the FlatBuffers binary format, or an RFC. A definition without one is this
project's own, such as a limit, or what a call did. Below its words is its formal text, as the
prover reads it. In the folder of the crate, `rt lemma NAME` shows names of the toolchain, such as
`Consumes`.

| formal text | means |
|---|---|
| `abbrev`, `unfoldable` | a definition by equations; the word says when the prover applies them |
| `record` | a statement or a value that has all these parts |
| `data` | a statement or a value that is one of these cases |
| `module _ (b : List ℕ) where` | each definition in it has this parameter too |
| `Type 0` | a statement, or a type of values |
| `ℕ`, `ℤ`, `List`, `[]`, `x ∷ xs` | numbers from 0, all integers, a list, the empty one, and one that begins with x |
| `x ≡ y`, `x ≢ y`, `⊤`, `⊥`, `¬ P` | x equals y, x differs from y, true, false, not P |
| `P → Q`, `P × Q`, `P ⊎ Q` | P implies Q, both, one of both |
| `(x : T) → P`, `(x : T) × P` | P for every x, P for some x |
| `{{x : T}}` | a parameter that follows from the others |
| `λ x. P` | P as a function of x |

The streams of `samples/` and `cases/` test the definitions from outside. They were laid out from
the standard, not by this project's writer, and are read by the calls whose contracts cite these
definitions.
"""
WIDTH = 100
# Where to begin on a page.
FIRST = {
    "STREAM": "Begin with `Denotes`, `Run` and `Step` of `ipc_stream_read`, then `Frame` of "
              "`ipc_frame`, `HeadOf` of `ipc_meta` and `Rows` of `ipc_column`. The others are what "
              "these use, lowest crate first.",
    "REFUSALS": "Begin with `TakesTable` and `Refuses` of `ipc_stream_read`. The others are what "
                "these use beside the definitions of the page before, lowest crate first.",
}

# The pages in the order of reading: name, title, what they are for, and the files whose contracts
# they serve. The first serves a definition.
DENOTES = ("ipc_stream_read", "Stream", "Denotes")
PAGES = [
    ("STREAM", "What a stream denotes", "`Denotes`", []),
    ("REFUSALS", "When a stream is refused", "`read_table`", ["ipc_stream_read/src/table.rt"]),
    ("READERS", "Readers, batches and columns", "`Decoder`, `StreamReader`, `Batch`, `SlotView`",
     ["ipc_stream_read/src/*.rt", "ipc_column/src/batch.rt", "ipc_column/src/*view.rt"]),
    ("WRITERS", "Writers", "`StreamWriter`, `BatchWriter`, `write_table`",
     ["ipc_stream/src/*.rt"]),
    ("TEXTS", "Texts of schemas and rows", "`schema_json`, `row_json`, `csv_record`, `read_date`",
     ["ipc_text_*/src/*.rt"]),
    ("JOBS", "The jobs of the command", "`print`, `rewrite`, `from_csv`, `read_words`, `run`",
     ["job_*/src/*.rt"]),
    ("C", "The library for C", "`arrowstream_reader_feed` and the other exports",
     ["ipc_stream_session/src/*.rt", "arrowstream_c/src/*.rt"]),
    ("LAYERS", "The layers below", "the calls by which the crates use one another",
     ["*/src/*.rt"]),
]
SOURCE = (
    r"Schema\.fbs|Message\.fbs|Arrow Columnar Format|Arrow C data interface"
    r"|{}FlatBuffers binary format|RFC \d+"
)
STANDARD = re.compile(SOURCE.format(""))
SECTION = re.compile(
    rf'((?:{SOURCE.format("Arrow|")})'
    r'(?:, (?:table|tables|struct|union|enum)s? [\w, ]*?\w(?=[,;):.]|$)'
    r'|, "[^"]+"(?:(?:, | and )"[^"]+")*|, (?:and )?(?!FlatBuffers)[A-Z]\w+\b(?!\.fbs)'
    r'|, (?:sections? [\d.]+|\d+ \w+|`\w+`|[a-z]+[A-Z]\w*)(?=[,;):.]|$))*)'
)
QUOTED = re.compile(r'(?<!, )(?<!and )"[A-Z][^"]+"(?:(?:, | and )"[A-Z][^"]+")*')


def comment_above(lines, at):
    """The lines of the comment that ends right above a line, without their dashes."""
    above = []
    while at > 0 and lines[at - 1].startswith("infix"):
        at -= 1
    while at > 0 and lines[at - 1].lstrip().startswith("--"):
        at -= 1
        above.insert(0, lines[at].lstrip()[2:].strip())
    return [line for line in above if not line.startswith("----")]


def file_comment(lines):
    """The comment at a file's beginning."""
    head = []
    for line in lines:
        if not line.startswith("--"):
            break
        head.append(line[2:].strip())
    return " ".join(head)


def section_of(text, standard=None):
    """What a comment names of a standard, as one text; a title alone is of the standard that was
    named last above it."""
    found = [part.strip() for part in SECTION.findall(text)]
    if not found and standard:
        found = [f"{standard}, {title}" for title in QUOTED.findall(text)]
    return "; ".join(dict.fromkeys(found))


def without_place(sentence):
    """A comment without the section that it begins with, which is printed before it."""
    place, _, rest = sentence.partition(": ")
    others = re.sub(r'"[^"]+"|\band\b|[,; ]', "", SECTION.sub("", place))
    return sentence if others else rest


def item(definition, section, sentence):
    """A definition as an item of a list."""
    place = f" ({section})" if section else ""
    text = without_place(sentence or "")
    for part in section.split("; "):
        text = text.replace(f" ({part})", "")
    return textwrap.fill(
        f"- `{definition}`{place}: {text}", WIDTH, subsequent_indent="  ",
        break_long_words=False, break_on_hyphens=False)


def formal(text):
    """The formal text of a definition as a block below its item."""
    lines = [line for line in text.splitlines() if line]
    return textwrap.indent("\n".join(["```", *lines, "```"]), "  ")


def lines_of(path):
    """The lines of a file."""
    return path.read_text(encoding="utf-8").splitlines()


def explained(key, definitions):
    """The section and the comment of a definition; the comment is None if there is none."""
    path, at = definitions.places[key]
    lines = lines_of(path)
    beginning = file_comment(lines)
    text = " ".join(comment_above(lines, at))
    if text == beginning and lines[at - 1] == lines[len(beginning.splitlines()) - 1]:
        text = ""
    named = [STANDARD.findall(line) for line in lines[:at] if line.lstrip().startswith("--")]
    standard = next((found[-1] for found in reversed(named) if found), None)
    return section_of(text, standard), text or None


def page(title, first, keys, definitions):
    """A page of these definitions, crate by crate and module by module."""
    parts, place = [f"# {title}", *filter(None, [textwrap.fill(first, WIDTH)])], (None, None)
    for key in keys:
        crate, module, name = key
        if crate != place[0]:
            parts.append(f"## `{crate}`")
        if (crate, module) != place:
            parts.append(f"### `{module.replace('.', '/')}`")
            section = section_of(file_comment(lines_of(definitions.places[key][0])))
            parts.extend([*filter(None, [textwrap.fill(section, WIDTH)]), ""])
        place = crate, module
        parts[-1] = "\n".join(filter(None, [parts[-1], item(name, *explained(key, definitions))]))
        parts.append(formal(definitions.texts[key]))
    return "\n\n".join(parts) + "\n"


def pages(definitions):
    """The texts of all pages, by their paths."""
    order = {key: number for number, key in enumerate(definitions.texts)}
    rows = ["| page | for | definitions |", "|---|---|---|"]
    listed, made = set(), {}
    for name, title, calls, patterns in PAGES:
        files = [path for pattern in patterns for path in sorted((TOP / "crates").glob(pattern))]
        cited = definitions.of_contracts(files) if files else definitions.with_cited([DENOTES])
        new = (cited & definitions.public) - listed
        listed |= new
        keys = sorted(new, key=order.get)
        made[FOLDER / f"{name}.md"] = page(title, FIRST.get(name, ""), keys, definitions)
        rows.append(f"| [{title}](definitions/{name}.md) | {calls} | {len(new)} |")
    made[PAGE] = HEAD.format(table="\n".join(rows))
    return made


def main(words):
    definitions = Definitions(crates())
    missing = [key for key in definitions.public if explained(key, definitions)[1] is None]
    for crate, module, name in sorted(missing):
        print(f"no comment above crates/{crate}/specs/{module}.antt: {name}")
    made = pages(definitions)
    if words != ["--check"]:
        FOLDER.mkdir(exist_ok=True)
        for path, text in made.items():
            path.write_text(text, encoding="utf-8")
        return 0
    old = [path for path, text in made.items() if not path.exists() or path.read_text() != text]
    for path in old + [path for path in FOLDER.glob("*") if path not in made]:
        print(f"{path.relative_to(TOP)} is not what tools/definitions.py makes")
    return 1 if old or missing or set(FOLDER.glob("*")) - set(made) else 0


if __name__ == "__main__":
    sys.exit(main(sys.argv[1:]))
