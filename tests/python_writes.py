"""Writes streams by the Python package, for tests/python: those of cases/ again, a value of each
type, tables that are refused, and files that fail."""
import datetime
import io
import subprocess

from helpers import raised, tries

UTC = datetime.timezone.utc
DAY, TIME = datetime.date(2024, 2, 29), datetime.time(23, 59, 59, 125000)
MOMENT = datetime.datetime(2024, 2, 29, 23, 59, 59, 125000)
WAIT = datetime.timedelta(days=-1, seconds=86310)
# The zeros that `show` prints after milliseconds.
ZEROS = (("ms", ""), ("us", "000"), ("ns", "000000"))
# Types with values, and with what `show` prints for them.
FLAT = [
    (("null",), [None], "null"),
    (("bool",), [True, False, None], "true false null"),
    *[(("int", bits), [-(2 ** (bits - 1)), 2 ** (bits - 1) - 1],
       f"{-(2 ** (bits - 1))} {2 ** (bits - 1) - 1}") for bits in (8, 16, 32, 64)],
    *[(("uint", bits), [0, 2**bits - 1], f"0 {2**bits - 1}") for bits in (8, 16, 32, 64)],
    (("binary",), [b"", b"\0\xff", bytearray(b"a")], '"" "00ff" "61"'),
    (("utf8",), ["", "a\0", "h\u00e9", "\U0001f4a7"], '"" "a\\u0000" "h\u00e9" "\U0001f4a7"'),
    (("fixed_size_binary", 2), [b"\0\xff"], '"00ff"'),
    (("fixed_size_binary", 0), [b"", None], '"" null'),
    (("date", "day"), [DAY, -1], '"2024-02-29" "1969-12-31"'),
    (("date", "ms"), [DAY, 86_400_000], '"2024-02-29" "1970-01-02"'),
    (("time", "s"), [TIME.replace(microsecond=0)], '"23:59:59"'),
    *[(("time", unit), [TIME, 0], f'"23:59:59.125{zeros}" "00:00:00.000{zeros}"')
      for unit, zeros in ZEROS],
    (("timestamp", "s", None), [MOMENT.replace(microsecond=0)], '"2024-02-29T23:59:59"'),
    *[(("timestamp", unit, None), [MOMENT], f'"2024-02-29T23:59:59.125{zeros}"')
      for unit, zeros in ZEROS],
    *[(("timestamp", "ms", zone), [MOMENT.replace(tzinfo=UTC)], '"2024-02-29T23:59:59.125Z"')
      for zone in ("UTC", "+02:00", "Europe/Paris")],
    *[(("duration", unit), [WAIT, 7000], f"{-90 * size} 7000")
      for unit, size in (("s", 1), ("ms", 10**3), ("us", 10**6), ("ns", 10**9))],
]


class Failing(io.RawIOBase):
    """A file that takes at most 7 bytes in a call, and fails after `room` bytes."""

    def __init__(self, room):
        self.room, self.taken = room, b""

    def write(self, piece):
        if len(self.taken) >= self.room:
            raise OSError("the device is full")
        self.taken += piece[: min(7, self.room - len(self.taken))]
        return min(7, len(piece), len(self.taken))


def schema_of(arrowstream, *fields):
    """A schema of these fields."""
    return arrowstream.Schema(fields)


def written(arrowstream, schema, batches, **limits):
    """The stream of these batches."""
    file = io.BytesIO()
    arrowstream.write(file, schema, batches, **limits)
    return file.getvalue()


def shown(program, stream, *words):
    """What the program prints for a stream."""
    words = words or ("show",)
    done = subprocess.run([program, *words], input=stream, capture_output=True, check=False)
    return done.stdout.decode() + done.stderr.decode()


def rewritten(arrowstream, stream, by_columns):
    """A stream that is read and written again."""
    reader, file = arrowstream.read(io.BytesIO(stream)), io.BytesIO()
    with arrowstream.Writer(file, reader.schema) as writer:
        for batch in reader:
            if by_columns:
                writer.write_batch(batch)
            else:
                writer.write_batch(batch.rows(as_stored=True), batch.metadata)
    return file.getvalue()


def failed_copies(arrowstream, program, answer):
    """How many streams of cases/ were written again, and how many otherwise than they should.

    `answer` returns the lines of a case's answer for a stream. A stream of an unchanged case is
    also compared by the program."""
    seen = failed = 0
    for name, stream, words, wanted in tries():
        if words or not any(line.startswith("written ") for line in wanted):
            continue
        wish = next(line for line in wanted if line.startswith("written "))
        first = answer(stream)
        for by_columns in (True, False):
            seen += 1
            try:
                again = rewritten(arrowstream, stream, by_columns)
            except arrowstream.ArrowError as error:
                line, is_same = f"written {error}", True
            else:
                line, second = "written same", answer(again)
                # The copy has the end-of-stream mark in every case.
                is_same = first[:-1] == second[:-1]
                if name.endswith(", answer"):
                    for job in (("show", "--pairs"), ("check", "--schema")):
                        is_same &= shown(program, stream, *job) == shown(program, again, *job)
            if line != wish or not is_same:
                failed += 1
                print(f"python: {name}, by columns: {by_columns}: {line}, wanted {wish}")
    return seen, failed


def typed(arrowstream):
    """Each type in a column: flat, with a dictionary, in a list, in a fixed-size list and in a
    struct. With a value for each row, and what `show` prints for it."""
    field = arrowstream.Field
    for kind, values, texts in FLAT:
        texts = texts.split(" ")
        flat = field("v", kind)
        yield flat, list(zip(values, texts))
        whole = f'[{",".join(texts)}]'
        yield field("v", ("list",), children=(flat,)), [(values, whole), ([], "[]"), (None, "null")]
        size = len(values)
        yield field("v", ("fixed_size_list", size), children=(flat,)), [(values, whole)]
        yield field("v", ("struct",), children=(flat, field("w", ("bool",)))), [
            ({"v": values[0], "w": True}, f"[{texts[0]},true]"),
            ((values[0], None), f"[{texts[0]},null]"),
            ([("v", values[0]), ("w", False)], f"[{texts[0]},false]"),
            ({}, "[null,null]")]
        index = arrowstream.Dictionary(7, ("int", 8), False)
        yield field("v", kind, dictionary=index), list(zip(values * 2, texts * 2))


def failed_types(arrowstream, program):
    """How many tables of one type were written, and how many otherwise than they should."""
    seen = failed = 0
    for field, rows in typed(arrowstream):
        values = [value for value, _ in rows]
        lines = "".join(f"[{text}]\n" for _, text in rows)
        schema = schema_of(arrowstream, field)
        for batch in ([(value,) for value in values], [{"v": value} for value in values],
                      {"v": values}):
            seen += 1
            stream = written(arrowstream, schema, [batch])
            reader = arrowstream.read(io.BytesIO(stream))
            again = written(arrowstream, schema, [next(reader).rows()])
            if shown(program, stream) != lines or reader.schema != schema or again != stream:
                failed += 1
                print(f"python: {field.type}: {shown(program, stream)}, wanted {lines}")
    return seen, failed


def refusals(arrowstream):
    """A field of a column, rows of a batch, limits, and the line of the refusal."""
    field = arrowstream.Field
    number, tiny = field("a", ("int", 8)), field("a", ("uint", 8))
    pair = field("a", ("struct",), children=(number, number))
    items = field("a", ("list",), children=(field("b", ("int", 8), nullable=False),))
    code = field("a", ("utf8",), dictionary=arrowstream.Dictionary(1, ("uint", 8), False))
    two = field("a", ("fixed_size_list", 2), children=(number,))
    yield number, [(1,), (1, 2)], {}, "W2 RowWidth at row 1 path"
    yield pair, [((1,),)], {}, "W2 RowWidth at row 0 path 0"
    yield number, [("a",)], {}, "W3 WrongKind at row 0 path 0"
    yield number, [([1],)], {}, "W3 WrongKind at row 0 path 0"
    yield items, [((1,),)], {}, "W3 WrongKind at row 0 path 0"
    yield tiny, [(-1,)], {}, "W3 WrongKind at row 0 path 0"
    yield number, [(2**63,)], {}, "W3 WrongKind at row 0 path 0"
    yield number, [(127,), (None,), (128,)], {}, "W4 OutOfRange at row 2 path 0"
    yield tiny, [(256,)], {}, "W4 OutOfRange at row 0 path 0"
    yield pair, [((1, 1000),)], {}, "W4 OutOfRange at row 0 path 0.1"
    yield two, [([1],)], {}, "W4 OutOfRange at row 0 path 0"
    yield items, [([1],), ([2, None],)], {}, "W5 NullNotAllowed at row 1 path 0.0"
    yield number, [(1,)] * 100, {"max_body": 64}, "W6 TooLong"
    yield code, [(str(name),) for name in range(257)], {}, "W7 DictionaryFull"
    yield number, [(1,)] * 3, {"max_rows": 2}, "W8 TooManyRows"


def place_of(line):
    """The row and the path of a line."""
    _, _, place = line.partition(" at row ")
    if not place:
        return None, ()
    row, _, path = place.partition(" path")
    return int(row), tuple(map(int, path.replace(".", " ").split()))


def failed_refusals(arrowstream, answer):
    """How many tables were refused, and how many otherwise than they should. After a refusal the
    writer goes on: what it then writes is read."""
    seen = failed = 0
    for field, rows, limits, line in refusals(arrowstream):
        seen += 1
        file, found = io.BytesIO(), []
        with arrowstream.Writer(file, schema_of(arrowstream, field), **limits) as writer:
            for row in rows:
                try:
                    writer.write_row(row)
                except arrowstream.ArrowError as error:
                    found.append(error)
            try:
                writer.send()
            except arrowstream.ArrowError as error:
                found.append(error)
        facts = [(str(it), it.number, it.name, it.message, it.row, it.path) for it in found]
        number, name = line.split(" ")[:2]
        if facts != [(line, number, name, None, *place_of(line))]:
            failed += 1
            print(f"python: {facts}, wanted {line}")
        lines = answer(file.getvalue())
        good = len(rows) - 1 if " at row " in line else 0
        if lines[-1] != "end mark" or sum(it.startswith("row ") for it in lines) != good:
            failed += 1
            print(f"python: {lines} follow {line}")
    return seen, failed


def misuses(arrowstream):
    """Calls that raise other exceptions, with their names."""
    field = arrowstream.Field
    number = schema_of(arrowstream, field("a", ("int", 64)))
    twice = schema_of(arrowstream, field("a", ("int", 64)), field("a", ("int", 64)))

    def batch(schema, rows):
        return lambda: written(arrowstream, schema, [rows])

    def stored(kind, value):
        return batch(schema_of(arrowstream, field("a", kind)), [(value,)])

    for schema in ("", "{}", {"fields": []}, b"\xff", {"fields": [{"name": "a"}], "metadata": []}):
        yield batch(schema, []), "ArrowError"
    yield batch(number, [(1.5,)]), "TypeError"
    yield batch(number, [1]), "TypeError"
    yield batch(number, [(MOMENT,)]), "TypeError"
    yield batch(number, [(2**64,)]), "ValueError"
    yield batch(number, [(-(2**63) - 1,)]), "ValueError"
    yield batch(number, [{"b": 1}]), "ValueError"
    yield batch(number, {"a": [1], "b": [1]}), "ValueError"
    yield batch(number, {}), "ValueError"
    yield batch(twice, [{"a": 1}]), "ValueError"
    yield stored(("utf8",), "\ud800"), "UnicodeEncodeError"
    yield stored(("date", "day"), MOMENT), "TypeError"
    yield stored(("time", "ms"), TIME.replace(microsecond=1)), "ValueError"
    yield stored(("time", "ms"), TIME.replace(tzinfo=UTC)), "TypeError"
    yield stored(("timestamp", "s", None), MOMENT), "ValueError"
    yield stored(("timestamp", "us", None), MOMENT.replace(tzinfo=UTC)), "TypeError"
    yield stored(("timestamp", "us", "UTC"), MOMENT), "TypeError"
    yield lambda: written(arrowstream, number, [], max_body=-1), "ValueError"
    pairs = [("key", "\ud800")]
    yield lambda: arrowstream.Writer(io.BytesIO(), number).send(pairs), "UnicodeEncodeError"
    read = next(arrowstream.read(io.BytesIO(written(arrowstream, number, [[(1,)]]))))
    writer = arrowstream.Writer(io.BytesIO(), number)
    yield lambda: writer.write_batch(read, [("key", "value")]), "TypeError"


def failed_states(arrowstream):
    """How many calls in a state that does not allow them were tried, and how many raise otherwise
    than they should."""
    schema = schema_of(arrowstream, arrowstream.Field("a", ("int", 64)))
    found = [(raised(call)[0], wanted) for call, wanted in misuses(arrowstream)]
    file = io.BytesIO()
    writer = arrowstream.Writer(file, schema)
    sizes = [len(file.getvalue())]
    for row in (1, 2):
        writer.write_row((row,))
        writer.send()
        sizes.append(len(file.getvalue()))
    found.append((str(sorted(set(sizes)) == sizes and sizes[0] > 0), "True"))
    writer.close()
    writer.close()
    found.append((raised(lambda: writer.write_row((3,)))[0], "ValueError"))
    found.append((raised(writer.send)[0], "ValueError"))
    try:
        with arrowstream.Writer(io.BytesIO(), schema) as aborted:
            aborted.write_row((1,))
            raise KeyError
    except KeyError:
        found.append((raised(aborted.send)[0], "ValueError"))
    wrong = [pair for pair in found if pair[0] != pair[1]]
    for name, wanted in wrong:
        print(f"python: {name} was raised, wanted {wanted}")
    return len(found), len(wrong)


def failed_files(arrowstream):
    """How many files that fail were written to, and how many otherwise than they should: the
    exception is the file's, a beginning of the stream is out, and the writer is closed."""
    schema = schema_of(arrowstream, arrowstream.Field("a", ("utf8",)))
    batches = [[("some",), (None,)], [("texts",)]]
    stream, failed = written(arrowstream, schema, batches), 0
    for room in range(0, len(stream), 5):
        file = Failing(room)
        error, _ = raised(lambda file=file: arrowstream.write(file, schema, batches))
        if error != "OSError" or file.taken != stream[:room]:
            failed += 1
            print(f"python: {error} after {len(file.taken)} of {room} bytes")
    whole = Failing(len(stream))
    arrowstream.write(whole, schema, batches)
    failed += whole.taken != stream
    writer = arrowstream.Writer(broken := Failing(len(stream)), schema)
    broken.room = 0
    found = [raised(writer.send)[0], raised(writer.send)[0]]
    if found != ["OSError", "ValueError"]:
        failed += 1
        print(f"python: {found} of a file that fails")
    return len(range(0, len(stream), 5)) + 2, failed


def failed_writes(arrowstream, program, answer):
    """How many writes were tried, and how many failed."""
    counts = [
        failed_copies(arrowstream, program, answer),
        failed_types(arrowstream, program),
        failed_refusals(arrowstream, answer),
        failed_states(arrowstream),
        failed_files(arrowstream),
    ]
    return tuple(map(sum, zip(*counts)))
