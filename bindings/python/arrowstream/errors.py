"""Refusals as exceptions."""

from __future__ import annotations


class ArrowError(Exception):
    """A stream, a row or a schema that is refused.

    `str(error)` is the line that the program prints, such as `F4 Truncated at message 2` or
    `W4 OutOfRange at row 0 path 1.0`. `docs/FAULTS.md` explains each number.
    """

    def __init__(self, line: str):
        super().__init__(line)
        words = line.split()
        self.number = words[0]
        """The number of the refusal, such as "F4"."""
        self.name = words[1] if len(words) > 1 else ""
        """Its name, such as "Truncated"."""
        self.message = _after(words, "message")
        """The number of the message that is refused, or None. The schema's message has number 0."""
        self.row = _after(words, "row")
        """The number of the row that is refused, from 0 in its batch, or None."""
        steps = words[-1].split(".") if "path" in words[:-1] else []
        self.path = tuple(map(int, steps))
        """The path to the value in that row: the numbers of fields from the column down, and 0 for
        an item of a list. It is empty for the row itself."""


def _after(words: list[str], word: str) -> int | None:
    """The number that follows a word, or None."""
    return int(words[words.index(word) + 1]) if word in words else None
