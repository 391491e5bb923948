#!/usr/bin/env python3
"""Counts the instructions of the command for small streams, by callgrind: they are the same for
each run of one program, whatever else the machine does.

    bench/instructions.py [PROGRAM [PLAIN]]            prints the table
    bench/instructions.py --write [PROGRAM [PLAIN]]    puts it into RESULTS.md
    bench/instructions.py --check [PROGRAM]            fails if a count is more than 3 % over the
                                                       table's

PROGRAM is the built program by default. PLAIN is another program with the same jobs; without it its
column stays as it is. The table is that of one kit of the toolchain.
"""
import pathlib
import random
import re
import shutil
import struct
import subprocess
import sys
import tempfile

TOP = pathlib.Path(__file__).resolve().parent.parent
RESULTS = TOP / "bench/RESULTS.md"
sys.dont_write_bytecode = True
sys.path.insert(0, str(TOP / "tests"))
from helpers import built_program, built_workbench
from messages import END, LEAVES, Field, batch_message, schema_message

OVER = 0.03
BATCHES, ROWS, VALUES = 4, 4096, 1000
FLAT = [Field("int64", False), Field("int32", True), Field("utf8", False), Field("bool", True),
        Field("timestamp", False), Field("days", False), Field("bytes3", False)]
DATA = {
    "i64": [Field("int64", False)] * 4,
    "flat": FLAT,
    "mixed": [*FLAT, Field("utf8", True, dictionary=(1, (16, 1)))],
    "nested": [Field("list", True, [Field("int64", False)]),
               Field("struct", True, [Field("int32", True), Field("utf8", False)]),
               Field("list", False, [Field("list", True, [Field("utf8", False)])])],
}
JOBS = {"check": DATA, "show": DATA, "to-csv": ("i64", "flat", "mixed"), "rewrite": DATA,
        "from-csv": ("flat", "mixed")}
HEAD = "| workload | ours | plain program | ratio |\n|---|---|---|---|\n"
FIRST = "Of the streams that `bench/instructions.py` makes; `tests/instructions` compares.\n\n"
NEXT = "## Time of one run"  # the section before which a first table is put
PUSHED = ("i64", "mixed")  # data of `workbench push-rows`
TABLE = re.compile(rf"^With (\S+):\n\n{re.escape(HEAD)}((?:\|.*\n)+)", re.M)
ROW = re.compile(r"\| `(\S+)` (\S+) \| ([\d,]+) \| ([\d,]+|-) \|")


class Body:
    """The nodes, buffers and bytes of a batch, whose values are drawn."""

    def __init__(self, rng):
        self.rng, self.nodes, self.buffers, self.bytes = rng, [], [], bytearray()

    def add(self, data):
        self.buffers.append((len(self.bytes), len(data)))
        self.bytes += data + bytes(-len(data) % 8)

    def add_offsets(self, sizes):
        """Offsets of slots of these sizes. Returns the last."""
        ends = [0]
        for size in sizes:
            ends.append(ends[-1] + size)
        self.add(struct.pack(f"<{len(ends)}i", *ends))
        return ends[-1]

    def add_column(self, own, slots):
        """A column of a field; every eighth slot is null if it may be."""
        draw, form = self.rng.randrange, LEAVES.get(own.kind, (0, 0, None))[2]
        self.nodes.append((slots, slots // 8 if own.nullable else 0))
        self.add(b"\x7f" * (slots // 8) if own.nullable else b"")
        if own.dictionary:
            self.add(struct.pack(f"<{slots}h", *(draw(VALUES) for _ in range(slots))))
        elif own.kind == "list":
            self.add_column(own.children[0], self.add_offsets([slot % 4 for slot in range(slots)]))
        elif own.kind == "struct":
            for child in own.children:
                self.add_column(child, slots)
        elif own.kind == "utf8":
            sizes = [draw(20) for _ in range(slots)]
            total = self.add_offsets(sizes)
            self.add(bytes(97 + draw(26) for _ in range(total)))
        elif own.kind == "bool":
            self.add(self.rng.randbytes(slots // 8))
        elif own.kind == "bytes3":
            self.add(self.rng.randbytes(3 * slots))
        else:
            # Each number of bits is as frequent in integers.
            bits = {"days": 15, "timestamp": 40}.get(own.kind)
            most = 8 * struct.calcsize(form)
            numbers = (draw(1 << (bits or draw(1, most))) for _ in range(slots))
            self.add(struct.pack(f"<{slots}{form}", *numbers))


def stream_of(fields):
    """A stream of these columns."""
    rng, messages = random.Random(1), [schema_message(fields)]
    if any(own.dictionary for own in fields):
        values = Body(rng)
        values.add_column(Field("utf8", False), VALUES)
        messages.append(batch_message(VALUES, values.nodes, values.buffers, bytes(values.bytes), 1))
    for _ in range(BATCHES):
        body = Body(rng)
        for own in fields:
            body.add_column(own, ROWS)
        messages.append(batch_message(ROWS, body.nodes, body.buffers, bytes(body.bytes)))
    return b"".join(messages) + END


def count(words, data):
    """The instructions of a program with this input."""
    tool = ["valgrind", "--tool=callgrind", "--callgrind-out-file=/dev/null"]
    done = subprocess.run([*tool, *words], input=data, capture_output=True, check=False)
    found = re.search(rb"Collected : (\d+)", done.stderr)
    if done.returncode or not found:
        sys.exit(f"instructions: {' '.join(map(str, words))}: {done.stderr.decode()[-1000:]}")
    return int(found[1])


def pusher(program):
    """The words of what pushes rows: `rows` beside the plain program, or `workbench`."""
    rows, own = program.with_name("rows"), program.parents[2] / "workbench/out/workbench"
    return [rows] if rows.exists() else [own, "push-rows"]


def measured(program):
    """The job, the name of the data and the instructions of each workload."""
    for name in PUSHED:
        yield "push-rows", name, count([*pusher(program), name, str(BATCHES), str(ROWS)], b"")
    streams = {name: stream_of(fields) for name, fields in DATA.items()}
    with tempfile.TemporaryDirectory() as folder:
        for job, names in JOBS.items():
            for name in names:
                words, data = [program, job], streams[name]
                if job == "from-csv":
                    def made(*own):
                        return subprocess.check_output([program, *own], input=streams[name])
                    schema, data = pathlib.Path(folder, name), made("to-csv")
                    schema.write_bytes(made("check").rsplit(b"\n", 2)[0])  # all but the counts
                    words += ["--schema", str(schema)]
                yield job, name, count(words, data)


def built():
    """The built program; `workbench` is built too."""
    built_workbench()
    return pathlib.Path(built_program())


def kit_of():
    return subprocess.check_output(["rt", "version"], text=True).split()[0]


def table():
    """The kit of the table in RESULTS.md, and the two counts of each workload; no kit if there is
    no table."""
    found = TABLE.search(RESULTS.read_text("utf-8"))
    if found is None:
        return "", {}
    return found[1], {row[:2]: [int(count.replace(",", "").replace("-", "0")) for count in row[2:]]
                      for row in ROW.findall(found[2])}


def printed(program, plain):
    """The table of a program and of the plain one, or of the plain counts in RESULTS.md."""
    others = {row[:2]: row[2] for row in measured(plain)} if plain else {
        workload: counts[1] for workload, counts in table()[1].items()}
    lines = []
    for job, name, number in measured(program):
        other = others.get((job, name), 0)
        ratio = f"{other:,} | {number / other:.2f}" if other else "- | -"
        lines.append(f"| `{job}` {name} | {number:,} | {ratio} |\n")
    return f"With {kit_of()}:\n\n{HEAD}{''.join(lines)}"


def check(program):
    """Prints the workloads that take more instructions than the table allows. Returns a status."""
    kit, told = table()
    if kit != kit_of() or shutil.which("valgrind") is None:
        print(f"instructions: skipped: needs valgrind, and has the table of {kit or 'no kit'}")
        return 0
    rows = list(measured(program or built()))
    over = 0
    for job, name, number in rows:
        allowed = told.get((job, name), [0])[0]
        if number > (1 + OVER) * allowed:
            over += 1
            print(f"instructions: {job} {name}: {number:,} in place of {allowed:,}")
    print(f"instructions: {over} of {len(rows)} workloads above the table")
    return 1 if over else 0


def main(words):
    mode = words.pop(0) if words[:1] in (["--write"], ["--check"]) else ""
    program, plain, *_ = [*(pathlib.Path(word).resolve() for word in words), None, None]
    if mode == "--check":
        return check(program)
    made = printed(program or built(), plain)
    if mode == "--write":
        text, count = TABLE.subn(lambda _: made, RESULTS.read_text("utf-8"), count=1)
        if count == 0:
            text = text.replace(NEXT, f"{FIRST}{made}\n{NEXT}", 1)
        RESULTS.write_text(text, "utf-8")
    print(made, end="")
    return 0


if __name__ == "__main__":
    sys.exit(main(sys.argv[1:]))
