"""The rows of the tables, which h2audit-any and h2audit-why write: a list of JSON on each line.

They are read line by line, so memory does not grow with them.
"""

import json
import zlib
from collections.abc import Iterator, Mapping
from io import BufferedReader, RawIOBase
from typing import BinaryIO

# A table's name, and the values of a row but for the capture's number.
Row = tuple[str, tuple[object, ...]]
BITS_OF_PACKED, PIECE = 15, 1 << 16
# The first line, and the most bytes of another.
FIRST_ROW, LONGEST_ROW = b"h2audit-rows 3\n", 1 << 20
# What is counted: requests, and connections that were audited. The heads of a capture go into its own row.
CAPTURES, CONNECTIONS, REQUESTS, HTTP2 = "captures", "connections", "requests", "http2"
HOLDS = 4


class BadRows(Exception):
    """What is no row."""


class Unpacked(RawIOBase):
    """The text of a compressed report, as a file."""

    def __init__(self, packed: bytes) -> None:
        self.packed = memoryview(packed)
        self.packer = zlib.decompressobj(BITS_OF_PACKED)

    def readable(self) -> bool:
        return True

    def readinto(self, room: memoryview) -> int:  # type: ignore[override]
        while not self.packer.eof:
            source = self.packer.unconsumed_tail
            if not source:
                source, self.packed = bytes(self.packed[:PIECE]), self.packed[PIECE:]
                if not source:
                    break
            if text := self.packer.decompress(source, len(room)):
                room[: len(text)] = text
                return len(text)
        return 0


def unpacked(packed: bytes) -> BufferedReader:
    return BufferedReader(Unpacked(packed), PIECE)


class Rows:
    """Rows as they come, each checked to be one of these tables, which have so many columns."""

    def __init__(self, columns: Mapping[str, int]) -> None:
        self.columns = columns
        self.heads: tuple[object, ...] = ()
        self.requests = self.http2 = 0

    def of(self, lines: BinaryIO) -> Iterator[Row]:
        if lines.readline(LONGEST_ROW) != FIRST_ROW:
            raise BadRows("no rows, or those of another version")
        number = 1
        while line := lines.readline(LONGEST_ROW):
            number += 1
            table, values = row_in(line)
            if self.columns.get(table) != len(values):
                raise BadRows(f"line {number} of the rows is none")
            if table == CAPTURES:
                self.heads = values
                continue
            self.requests += table == REQUESTS
            self.http2 += table == CONNECTIONS and values[HOLDS] == HTTP2
            yield table, values
        if not self.heads:
            raise BadRows("the rows of no report")


def row_in(line: bytes) -> Row:
    """The table and the values of a line; of no table where it is no row."""
    try:
        table, *values = json.loads(line)
    except (ValueError, TypeError, RecursionError):
        return "", ()
    return (table, tuple(values)) if isinstance(table, str) and all(map(is_value, values)) else ("", ())


def is_value(value: object) -> bool:
    """A number, a text that no terminal acts on, or nothing."""
    return value is None or isinstance(value, int) or isinstance(value, str) and value.isprintable()
