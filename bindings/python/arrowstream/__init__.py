"""Reads and writes Apache Arrow IPC streams by the library for C, whose calls have proved
contracts.

    import arrowstream

    with open("table.arrows", "rb") as file:
        for batch in arrowstream.read(file):
            print(batch.column("name").to_list())
"""

from .batch import Batch, Column
from .decoder import Decoder
from .errors import ArrowError
from .reader import Reader, read
from .schema import Dictionary, Field, Schema
from .writer import Writer, write

__version__ = "0.1.0"

__all__ = [
    "ArrowError",
    "Batch",
    "Column",
    "Decoder",
    "Dictionary",
    "Field",
    "Reader",
    "Schema",
    "Writer",
    "read",
    "write",
]
