"""What readers, decoders, writers and batches of the Python package do in states that no stream of
cases/ brings, for tests/python."""
import io
import pathlib
import threading

from helpers import TOP

INT32 = TOP / "samples/int32.arrows"
ROWS = [(1,), (None,), (3,)]


class Waiting(io.RawIOBase):
    """A file that has no bytes at every second call."""

    def __init__(self, stream):
        self.stream, self.has_bytes = io.BytesIO(stream), False

    def readinto(self, room):
        self.has_bytes = not self.has_bytes
        return None if self.has_bytes else self.stream.readinto(room)


def schema_of(arrowstream, kind, dictionary=None):
    """A schema of one column."""
    return arrowstream.Schema((arrowstream.Field("a", kind, dictionary=dictionary),))


def written(arrowstream, schema, batches):
    """The stream of these batches."""
    file = io.BytesIO()
    arrowstream.write(file, schema, batches)
    return file.getvalue()


def rows_of(arrowstream, stream):
    """The rows of each batch of a stream."""
    return [list(batch.rows()) for batch in arrowstream.read(stream)]


def on_threads(calls):
    """Makes each call on a thread of its own, at the same time."""
    threads = [threading.Thread(target=call) for call in calls]
    for thread in threads:
        thread.start()
    for thread in threads:
        thread.join()


def on_another_thread(call):
    """The result of a call on another thread."""
    found = []
    on_threads([lambda: found.append(call())])
    return found[0]


def raised(kind, call):
    """The exception of this kind that a call raises."""
    try:
        call()
    except kind as fault:
        return fault
    raise AssertionError(f"{kind.__name__} is not raised")


class Replaced:
    """Within `with`, another function is in place of a call of the library."""

    def __init__(self, name, other):
        from arrowstream import _library

        self.library, self.name, self.other = _library.library, name, other
        self.own = getattr(self.library, name)

    def __enter__(self):
        setattr(self.library, self.name, self.other)
        return self.own

    def __exit__(self, *_):
        setattr(self.library, self.name, self.own)


def a_file_without_bytes_is_not_at_its_end(arrowstream):
    file = Waiting(INT32.read_bytes())
    reader, rows, blocked = arrowstream.read(file), [], 0
    while reader.end is None:
        try:
            for batch in reader:
                rows.extend(batch.rows())
        except BlockingIOError:
            blocked += 1
    assert rows == ROWS and reader.end == "mark" and blocked > 3


def no_byte_after_the_mark_is_read(arrowstream):
    one = INT32.read_bytes()
    other = written(arrowstream, schema_of(arrowstream, ("utf8",)), [[("x",)], [("y" * 100_000,)]])
    file = io.BytesIO(one + other + b"rest")
    assert [list(batch.rows()) for batch in arrowstream.read(file)] == [ROWS]
    assert file.tell() == len(one)
    assert [len(batch) for batch in arrowstream.read(file)] == [1, 1]
    assert file.read() == b"rest"


def a_path_and_bytes_are_read(arrowstream):
    stream = INT32.read_bytes()
    for source in (str(INT32), pathlib.Path(INT32), stream, bytearray(stream), memoryview(stream)):
        with arrowstream.read(source) as reader:
            assert [list(batch.rows()) for batch in reader.read_all()] == [ROWS]
            assert reader.read_all() == []
    reader = arrowstream.read(str(INT32))
    reader.close()
    raised(ValueError, reader.read_all)


def a_decoder_takes_pieces(arrowstream):
    stream = INT32.read_bytes()
    for size in (1, 7, len(stream) + 4):
        decoder, rows, whole = arrowstream.Decoder(), [], stream + b"rest"
        for start in range(0, len(whole), size):
            for batch in decoder.feed(whole[start : start + size]):
                rows.extend(batch.rows())
        assert rows == ROWS and decoder.close() == "mark" and decoder.wanted == 0
        assert decoder.unused_data == b"rest" and decoder.schema.names == ["a"]
    decoder = arrowstream.Decoder()
    assert len(decoder.feed(bytearray(stream[:-8] + b"PK.."))) == 1
    error = raised(arrowstream.ArrowError, lambda: decoder.feed(b"more"))
    assert str(error) == "F1 NotContinued at message 2"
    assert str(raised(arrowstream.ArrowError, decoder.close)) == str(error)
    raised(arrowstream.ArrowError, arrowstream.Decoder().close)


def readers_and_writers_change_threads(arrowstream):
    reader = arrowstream.read(INT32)
    batch = on_another_thread(lambda: next(reader))
    assert list(batch.rows()) == ROWS
    file = io.BytesIO()
    writer = arrowstream.Writer(file, reader.schema)
    on_another_thread(lambda: writer.write_row((1,)))
    writer.write_row((2,))
    on_another_thread(writer.close)
    assert rows_of(arrowstream, file.getvalue()) == [[(1,), (2,)]]


def threads_take_turns_at_a_reader(arrowstream):
    schema, count = schema_of(arrowstream, ("int", 32)), 500
    stream = written(arrowstream, schema, [[(number,)] for number in range(count)])
    reader, found = arrowstream.read(stream), [[] for _ in range(4)]

    def take(own):
        for batch in reader:
            own.extend(batch.rows())

    on_threads(lambda own=own: take(own) for own in found)
    assert sorted(row for own in found for row in own) == [(number,) for number in range(count)]


def threads_take_turns_at_a_writer(arrowstream):
    schema, file = schema_of(arrowstream, ("int", 32)), io.BytesIO()

    def add(first):
        for number in range(first, first + 250):
            writer.write_row((number,))
            if number % 10 == 0:
                writer.send()

    with arrowstream.Writer(file, schema) as writer:
        on_threads(lambda first=first: add(first) for first in range(0, 1000, 250))
    rows = [row for batch in rows_of(arrowstream, file.getvalue()) for row in batch]
    assert sorted(rows) == [(number,) for number in range(1000)]


class HandedOn:
    """A batch as another library hands it on."""

    def __init__(self, batch):
        self.__arrow_c_array__ = batch.__arrow_c_array__


def arrays_are_taken_by_their_values(arrowstream):
    rows = [(1,), (-2,), (2**20,)]
    wide = schema_of(arrowstream, ("int", 64))
    (batch,) = arrowstream.read(written(arrowstream, schema_of(arrowstream, ("int", 32)), [rows]))
    file = io.BytesIO()
    with arrowstream.Writer(file, wide) as writer:
        writer.write_batch(HandedOn(batch))
    assert rows_of(arrowstream, file.getvalue()) == [rows]
    writer = arrowstream.Writer(io.BytesIO(), schema_of(arrowstream, ("int", 8)))
    error = raised(arrowstream.ArrowError, lambda: writer.write_batch(HandedOn(batch)))
    assert str(error) == "W4 OutOfRange at row 2 path 0"


def threads_share_a_batch(arrowstream):
    schema = schema_of(arrowstream, ("int", 32))
    batch = next(arrowstream.read(written(arrowstream, schema, [[(1,)] * 1000])))
    found = []
    on_threads([lambda: found.append(sum(batch.column(0).to_list()))] * 8)
    assert found == [1000] * 8


def a_batch_stays_when_others_are_given_back(arrowstream):
    schema = schema_of(arrowstream, ("int", 64))
    stream = written(arrowstream, schema, [[(number,)] * 100 for number in range(20)])
    kept = [batch for number, batch in enumerate(arrowstream.read(stream)) if number % 3 == 0]
    assert [batch.column(0).to_list()[99] for batch in kept] == [0, 3, 6, 9, 12, 15, 18]


def want_of_memory_is_no_refusal(arrowstream):
    for name, status in (("writer_send", 109), ("writer_send", 111), ("writer_row", 111)):
        writer = arrowstream.Writer(io.BytesIO(), schema_of(arrowstream, ("int", 32)))
        with Replaced(f"arrowstream_{name}", lambda _, status=status: status):
            raised(MemoryError, lambda: writer.write_batch([(1,)]))
    reader = arrowstream.read(INT32)
    assert reader.schema.names == ["a"]
    with Replaced("arrowstream_reader_take", lambda *_: 37):
        raised(MemoryError, lambda: next(reader))


def an_interrupted_row_is_dropped(arrowstream):
    file = io.BytesIO()
    kind = arrowstream.Field("b", ("list",), children=(arrowstream.Field("c", ("int", 32)),))
    writer = arrowstream.Writer(file, arrowstream.Schema((kind,)))
    writer.write_row(([1],))

    def interrupt(handle, number):
        if number == 3:
            raise KeyboardInterrupt
        return own(handle, number)

    with Replaced("arrowstream_writer_int", interrupt) as own:
        raised(KeyboardInterrupt, lambda: writer.write_row(([2, 3],)))
    writer.write_row(([4],))
    writer.close()
    assert rows_of(arrowstream, file.getvalue()) == [[([1],), ([4],)]]


def a_refused_batch_leaves_no_rows(arrowstream):
    def broken():
        yield (5,)
        raise KeyError

    file = io.BytesIO()
    writer = arrowstream.Writer(file, schema_of(arrowstream, ("int", 8)))
    raised(arrowstream.ArrowError, lambda: writer.write_batch([(1,), (1000,)], [("key", "value")]))
    raised(TypeError, lambda: writer.write_batch([(1,), (1.5,)]))
    raised(KeyError, lambda: writer.write_batch(broken()))
    raised(UnicodeEncodeError, lambda: writer.write_batch([(1,)], [("key", "\ud800")]))
    writer.write_row((2,))
    raised(UnicodeEncodeError, lambda: writer.send([("key", "\ud800")]))
    writer.send()
    writer.close()
    batches = arrowstream.read(file.getvalue()).read_all()
    assert [list(batch.rows()) for batch in batches] == [[(2,)]]
    assert [batch.metadata for batch in batches] == [()]


def an_unknown_time_zone_is_a_value_error(arrowstream):
    for zone in ("Mars/Base", "../x", "Europe"):
        schema = schema_of(arrowstream, ("timestamp", "us", zone))
        column = next(arrowstream.read(written(arrowstream, schema, [[(1,)]]))).column(0)
        assert column.to_list(as_stored=True) == [1]
        raised(ValueError, column.to_list)


def buffers_are_read_only(arrowstream):
    column = next(arrowstream.read(INT32)).column(0)
    assert column.values.readonly and column.validity.readonly and column.offsets.readonly


def batches_and_columns_are_true(arrowstream):
    schema = schema_of(arrowstream, ("int", 32))
    batch = next(arrowstream.read(written(arrowstream, schema, [[]])))
    assert len(batch) == 0 and batch and batch.column(0)


def a_dictionary_is_decoded_once(arrowstream):
    schema = schema_of(arrowstream, ("utf8",), arrowstream.Dictionary(1, ("int", 8), False))
    stream = written(arrowstream, schema, [[("a",), ("b",)], [("b",), ("a",)], [("c",), ("d",)]])
    first, second, third = (batch.column(0) for batch in arrowstream.read(stream))
    assert first.decoded(False) is second.decoded(False)
    assert [it.to_list() for it in (first, third, second)] == [["a", "b"], ["c", "d"], ["b", "a"]]


def objects_say_what_they_are(arrowstream):
    reader = arrowstream.read(INT32)
    batch = next(reader)
    assert repr(batch) == "<arrowstream.Batch of 3 rows, columns ['a']>"
    assert repr(batch.column(0)) == "<arrowstream.Column 'a' ('int', 32), 3 slots, 1 null>"
    assert "Reader" in repr(reader)
    assert "open" in repr(arrowstream.Writer(io.BytesIO(), reader.schema))


STATES = [
    a_file_without_bytes_is_not_at_its_end,
    no_byte_after_the_mark_is_read,
    a_path_and_bytes_are_read,
    a_decoder_takes_pieces,
    readers_and_writers_change_threads,
    threads_take_turns_at_a_reader,
    threads_take_turns_at_a_writer,
    arrays_are_taken_by_their_values,
    threads_share_a_batch,
    a_batch_stays_when_others_are_given_back,
    want_of_memory_is_no_refusal,
    an_interrupted_row_is_dropped,
    a_refused_batch_leaves_no_rows,
    an_unknown_time_zone_is_a_value_error,
    buffers_are_read_only,
    batches_and_columns_are_true,
    a_dictionary_is_decoded_once,
    objects_say_what_they_are,
]


def failed_states(arrowstream):
    """How many states were tried, and how many are otherwise than they should."""
    failed = 0
    for state in STATES:
        try:
            state(arrowstream)
        except Exception as fault:  # pylint: disable=broad-except
            failed += 1
            print(f"python: {state.__name__}: {type(fault).__name__} {fault}")
    return len(STATES), failed
