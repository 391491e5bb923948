"""Messages of streams (Message.fbs, Schema.fbs), for scripts that make their own."""
import struct
from dataclasses import dataclass, field

END = b"\xff\xff\xff\xff\0\0\0\0"
# Leaf types: type code, the fields of the type's table, and the format of a value or None.
INTS = {(bits, signed): (2, [(0, "i", bits), (1, "B", signed)], form)
        for (bits, signed), form in zip([(bits, signed) for bits in (8, 16, 32, 64)
                                         for signed in (0, 1)], "BbHhIiQq")}
LEAVES = {
    "null": (1, [], None), "bool": (6, [], None), "binary": (4, [], None), "utf8": (5, [], None),
    "bytes0": (15, [(0, "i", 0)], None), "bytes3": (15, [(0, "i", 3)], None),
    "days": (8, [(0, "h", 0)], "i"), "date": (8, [(0, "h", 1)], "q"),
    "time_ms": (9, [(0, "h", 1), (1, "i", 32)], "i"),
    "time_ns": (9, [(0, "h", 3), (1, "i", 64)], "q"),
    "timestamp": (10, [(0, "h", 2)], "q"), "duration": (18, [(0, "h", 0)], "q"),
    **{f"int{bits}{'u' if not signed else ''}": leaf for (bits, signed), leaf in INTS.items()},
}
NESTED = {"list": 12, "struct": 13, "fixed": 16}


@dataclass
class Field:
    """A field. A leaf with a dictionary has its id and the type of its indices."""
    kind: str
    nullable: bool
    children: list = field(default_factory=list)
    size: int = 0
    dictionary: tuple = ()


class Metadata:
    """A FlatBuffer. An object is placed under a name after all that refer to it."""

    def __init__(self, root):
        self.out, self.places, self.references = bytearray(), {}, []
        self.refer(root)

    def refer(self, name):
        self.references.append((len(self.out), name))
        self.out += bytes(4)

    def pad(self, size):
        self.out += bytes(-len(self.out) % size)

    def table(self, name, *fields):
        """A table with these fields: number, format and value. A format `O` is a reference."""
        self.pad(8)
        count = 1 + max((number for number, _, _ in fields), default=-1)
        vtable = len(self.out)
        self.out += bytes(4 + 2 * count)
        self.pad(8)
        at = self.places[name] = len(self.out)
        self.out += struct.pack("<i", at - vtable)
        for number, form, value in fields:
            self.pad(4 if form == "O" else struct.calcsize(form))
            struct.pack_into("<H", self.out, vtable + 4 + 2 * number, len(self.out) - at)
            if form == "O":
                self.refer(value)
            else:
                self.out += struct.pack("<" + form, value)
        struct.pack_into("<HH", self.out, vtable, 4 + 2 * count, len(self.out) - at)

    def vector(self, name, targets):
        """A vector of references to these objects."""
        self.pad(4)
        self.places[name] = len(self.out)
        self.out += struct.pack("<I", len(targets))
        for target in targets:
            self.refer(target)

    def pairs(self, name, pairs):
        """A vector of pairs of numbers of 64 bits."""
        self.pad(4)
        self.out += bytes((4 - len(self.out)) % 8)
        self.places[name] = len(self.out)
        self.out += struct.pack("<I", len(pairs))
        for pair in pairs:
            self.out += struct.pack("<qq", *pair)

    def text(self, name, text):
        self.pad(4)
        self.places[name] = len(self.out)
        self.out += struct.pack("<I", len(text)) + text + b"\0"

    def message(self, body=b""):
        """The message with this metadata and body."""
        for at, name in self.references:
            struct.pack_into("<I", self.out, at, self.places[name] - at)
        self.pad(8)
        return b"\xff\xff\xff\xff" + struct.pack("<i", len(self.out)) + bytes(self.out) + body


def add_fields(made, name, fields):
    """Adds the vector `name` of fields, and all that they refer to."""
    names = [f"{name}.{number}" for number in range(len(fields))]
    made.vector(name, names)
    for at, own in zip(names, fields):
        size = [(0, "i", own.size)] if own.kind == "fixed" else []
        code, slots, _ = LEAVES.get(own.kind) or (NESTED[own.kind], size, None)
        made.table(at, (0, "O", at + " name"), (1, "B", own.nullable), (2, "B", code),
                   (3, "O", at + " type"), (5, "O", at + " children"),
                   *([(4, "O", at + " dictionary")] if own.dictionary else []))
        made.text(at + " name", b"a")
        made.table(at + " type", *slots)
        if own.dictionary:
            made.table(at + " dictionary", (0, "q", own.dictionary[0]), (1, "O", at + " index"))
            made.table(at + " index", *INTS[own.dictionary[1]][1])
        add_fields(made, at + " children", own.children)


def schema_message(fields):
    """The message of a schema with these fields, all named "a"."""
    made = Metadata("message")
    made.table("message", (0, "h", 4), (1, "B", 1), (2, "O", "schema"))
    made.table("schema", (1, "O", "fields"))
    add_fields(made, "fields", fields)
    return made.message()


def batch_message(rows, nodes, buffers, body, dictionary=None):
    """The message of a record batch, or of the dictionary with this id. Each node has its slots and
    nulls, and each buffer its place in the body and its length."""
    made = Metadata("message")
    header = "batch" if dictionary is None else "dictionary"
    made.table("message", (0, "h", 4), (1, "B", 3 if dictionary is None else 2),
               (2, "O", header), (3, "q", len(body)))
    if dictionary is not None:
        made.table("dictionary", (0, "q", dictionary), (1, "O", "batch"))
    made.table("batch", (0, "q", rows), (1, "O", "nodes"), (2, "O", "buffers"))
    made.pairs("nodes", nodes)
    made.pairs("buffers", buffers)
    return made.message(body)
