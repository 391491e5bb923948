#!/usr/bin/env python3
"""Writes a table.

    examples/table.py FILE
"""
import datetime
import sys

import arrowstream
from arrowstream import Field, Schema

SCHEMA = Schema((
    Field("day", ("date", "day"), nullable=False),
    Field("name", ("utf8",)),
    Field("cents", ("int", 64)),
))
ROWS = [
    (datetime.date(2024, 2, 28), "bread, dark", 325),
    (datetime.date(2024, 2, 29), None, -10),
    (datetime.date(2024, 3, 1), "milk", 119),
]

with open(sys.argv[1], "wb") as file:
    arrowstream.write(file, SCHEMA, [ROWS])
