"""Hands streams on by the Arrow C data interface and takes them back, for tests/python: the streams
of cases/ within the package, and small tables to GDAL and from it if Debian's is installed."""
import ctypes
import datetime
import gc
import importlib.util
import io
import json
import types

from helpers import TOP, raised, tries

NAMES = (b"arrow_schema", b"arrow_array")


def rows_of(arrowstream, stream):
    """The columns of each batch of a stream."""
    return [
        (len(batch), [column.to_list(as_stored=True) for column in batch.columns])
        for batch in arrowstream.read(stream)
    ]


def only(value, method):
    """An object that has one method of a value, and nothing else."""
    return types.SimpleNamespace(**{method: getattr(value, method)})


def by_stream(arrowstream, stream):
    """A stream that is written from the capsule of its reader."""
    out = io.BytesIO()
    arrowstream.write(out, only(arrowstream.read(stream), "__arrow_c_stream__"))
    return out.getvalue()


def by_arrays(arrowstream, stream):
    """A stream that is written from the capsules of its schema and its batches."""
    out, reader = io.BytesIO(), arrowstream.read(stream)
    schema = only(reader.schema, "__arrow_c_schema__")
    with arrowstream.Writer(out, schema) as writer:
        for batch in reader:
            writer.write_batch(only(batch, "__arrow_c_array__"))
    return out.getvalue()


def failed_copies(arrowstream):
    """How many streams were handed on, and how many otherwise than they should."""
    seen = failed = 0
    for name, stream, words, lines in tries():
        wishes = [line for line in lines if line.startswith("written ")]
        if words or not wishes or not name.endswith(", answer"):
            continue
        for copy in (by_stream, by_arrays):
            seen += 1
            try:
                answer = "written same"
                is_same = rows_of(arrowstream, copy(arrowstream, stream)) == rows_of(
                    arrowstream, stream)
            except (arrowstream.ArrowError, ValueError) as error:
                is_same, answer = True, f"written {error}"
            if "\\u0000" in arrowstream.read(stream).schema.to_json() and "zero byte" in answer:
                continue
            if not is_same or answer != wishes[0]:
                failed += 1
                print(f"python: {name} {copy.__name__}: {answer}, {is_same}, wanted {wishes[0]}")
    return seen, failed


def failed_states(arrowstream):
    """Capsules that nobody takes, streams that end early, and types that are not supported."""
    stream = (TOP / "samples/int32.arrows").read_bytes()
    reader = arrowstream.read(stream)
    batch = next(reader)
    kept = [reader.schema.__arrow_c_schema__(), batch.__arrow_c_array__(),
            reader.__arrow_c_stream__()]
    del kept
    gc.collect()
    cut = only(arrowstream.read(stream[:-4]), "__arrow_c_stream__")
    found = [
        raised(lambda: arrowstream.write(io.BytesIO(), cut)),
        raised(lambda: arrowstream.write(io.BytesIO(), [])),
        raised(lambda: by_stream(arrowstream, b"PK..")),
    ]
    wanted = [
        ("ArrowError", "F4 Truncated at message 2"),
        ("TypeError", "no schema was given, and list states none"),
        ("ArrowError", "F1 NotContinued at message 0"),
    ]
    for one, other in zip(found, wanted):
        if one != other:
            print(f"python: {one} was raised, wanted {other}")
    return len(found), sum(one != other for one, other in zip(found, wanted))


def failed_columns(arrowstream):
    """Dicts of columns whose types are found, with arrays where numpy is installed."""
    columns = {
        "none": [None, None], "flag": [None, True], "number": [-1, None], "text": ["a", None],
        "bytes": [b"\0", None], "day": [datetime.date(2024, 2, 29), None],
    }
    wanted = [(None, None, -1, "a", b"\0", columns["day"][0]), (None, True, *[None] * 4)]
    if importlib.util.find_spec("numpy"):
        import numpy

        columns["small"] = numpy.array([1, 255], "u1")
        columns["moment"] = numpy.array(["1970-01-01T00:00:01", "NaT"], "M8[s]")
        moments = [datetime.datetime(1970, 1, 1, 0, 0, 1), None]
        wanted = [(*row, *more) for row, more in zip(wanted, zip([1, 255], moments))]
    out = io.BytesIO()
    arrowstream.write(out, columns)
    rows = list(next(arrowstream.read(out.getvalue())).rows())
    refused = raised(lambda: arrowstream.write(io.BytesIO(), {"price": [1.5]}))
    failed = [rows != wanted, refused[0] != "TypeError"]
    if any(failed):
        print(f"python: columns {rows}, wanted {wanted}; {refused}")
    return len(failed), sum(failed)


# ---- GDAL ----------------------------------------------------------------------------------------


def pointers_of(capsules):
    """The addresses in capsules."""
    get = ctypes.pythonapi.PyCapsule_GetPointer
    get.restype, get.argtypes = ctypes.c_void_p, [ctypes.py_object, ctypes.c_char_p]
    return [get(capsule, name) for capsule, name in zip(capsules, NAMES)]


def capsules_of(*pointers):
    """Capsules over addresses, which release nothing."""
    new, pointer = ctypes.pythonapi.PyCapsule_New, ctypes.c_void_p
    new.restype, new.argtypes = ctypes.py_object, [pointer, ctypes.c_char_p, pointer]
    return tuple(new(address, name, None) for address, name in zip(pointers, NAMES))


def is_read_by_gdal(arrowstream):
    """Whether GDAL finds the values of a batch."""
    from osgeo import gdal_array

    schema = arrowstream.Schema((
        arrowstream.Field("number", ("int", 32), nullable=False),
        arrowstream.Field("large", ("int", 64)),
        arrowstream.Field("text", ("utf8",), nullable=False),
    ))
    out, rows = io.BytesIO(), [(1, -(2**40), "Bonn"), (-2, 7, ""), (3, 0, "K\u00f8ln")]
    arrowstream.write(out, schema, [rows])
    capsules = next(arrowstream.read(out.getvalue())).__arrow_c_array__()
    schema_at, array_at = pointers_of(capsules)
    found = gdal_array._RecordBatchAsNumpy(array_at, schema_at, capsules)
    columns = [column["data"] if isinstance(column, dict) else column for column in found.values()]
    texts = [text.decode() if isinstance(text, bytes) else str(text) for text in columns[2]]
    return list(zip(columns[0].tolist(), columns[1].tolist(), texts)) == rows


def is_written_from_gdal(arrowstream):
    """Whether a table of GDAL, in two batches, is written and read again."""
    from osgeo import gdal

    text = "day,name,cents\n2024-02-28,bread,325\n2024-02-29,,-10\n2024-03-01,milk,\n"
    gdal.FileFromMemBuffer("/vsimem/prices.csv", text.encode())
    source = gdal.OpenEx("/vsimem/prices.csv", open_options=["AUTODETECT_TYPE=YES"])
    stream = source.GetLayer(0).GetArrowStream(["INCLUDE_FID=NO", "MAX_FEATURES_IN_BATCH=2"])
    out, schema = io.BytesIO(), stream.GetSchema()
    (capsule,) = capsules_of(schema._getPtr())
    with arrowstream.Writer(out, types.SimpleNamespace(__arrow_c_schema__=lambda: capsule)) as it:
        while (array := stream.GetNextRecordBatch()) is not None:
            capsules = capsules_of(schema._getPtr(), array._getPtr())
            it.write_batch(types.SimpleNamespace(__arrow_c_array__=lambda made=capsules: made))
    batches = list(arrowstream.read(out.getvalue()))
    rows = [[str(row[0]), row[1] or None, row[2]] for batch in batches for row in batch.rows()]
    wanted = [["2024-02-28", "bread", 325], ["2024-02-29", None, -10], ["2024-03-01", "milk", None]]
    return list(map(len, batches)) == [2, 1] and rows == wanted


def failed_peers(arrowstream):
    """How many tables were handed to GDAL or taken from it, and how many otherwise than they
    should."""
    if not importlib.util.find_spec("osgeo"):
        print("python: GDAL is not installed, so it is not tried")
        return 0, 0
    checks = (is_read_by_gdal, is_written_from_gdal)
    found = {check.__name__: check(arrowstream) for check in checks}
    if not all(found.values()):
        print(f"python: GDAL: {json.dumps(found)}")
    return len(found), sum(not it for it in found.values())


def failed_exchanges(arrowstream):
    """How many schemas, batches and streams were handed on, and how many failed."""
    checks = (failed_copies, failed_states, failed_columns, failed_peers)
    counts = [check(arrowstream) for check in checks]
    return tuple(map(sum, zip(*counts)))
