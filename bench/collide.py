#!/usr/bin/env python3
"""Prints texts whose hashes all collide where a map multiplies what it reads by fixed numbers.

    python3 bench/collide.py [COUNT] > TEXTS.csv

They are a CSV file of one column, `a`: 65,536 texts by default, with the first 24 bytes in common.
Such a hasher joins what it has read with eight bytes of the text, and multiplies the result. The
first bytes are chosen so that the product is 0, whatever follows. `arrowstream from-csv` takes no
longer for them than for other texts, even if the column has a dictionary: it draws the seed of its
hasher at random.
"""
import random
import sys

WORD = (1 << 64) - 1
# The state that `FoldHasher` of the standard library begins with, and what it multiplies by.
FIRST, MULTIPLIER = 0x243F6A8885A308D3, 0x9E3779B97F4A7C15
# The number of `Value::Text` among the kinds of value, which is hashed before the text.
KIND = 5
LETTERS = b"abcdefghijklmnopqrstuvwxyz0123456789"


def folded(one, other):
    product = one * other
    return (product & WORD) ^ (product >> 64)


def word(chars):
    return int.from_bytes(chars, "little")


def common_bytes():
    """The first 24 bytes of texts of 32. The last 8 of them are the hasher's state so far."""
    kind = folded(FIRST ^ KIND, MULTIPLIER ^ 16)
    while True:
        first = bytes(random.choice(LETTERS) for _ in range(16))
        state = folded(word(first[:8]) ^ ((kind + 32) & WORD), word(first[8:]) ^ MULTIPLIER)
        last = state.to_bytes(8, "little")
        if all(0x30 <= char < 0x7F for char in last):
            return first + last


def main(words):
    count = int(words[0]) if words else 65_536
    random.seed(5)
    common = common_bytes().decode().replace('"', '""')
    print("a")
    for number in range(count):
        print(f'"{common}{number:08}"')


main(sys.argv[1:])
