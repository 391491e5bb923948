#!/usr/bin/env python3
"""Prints the rows of a stream.

    examples/rows.py FILE
"""
import sys

import arrowstream

with open(sys.argv[1], "rb") as file:
    for batch in arrowstream.read(file):
        for row in batch.rows():
            print(*row, sep="\t")
