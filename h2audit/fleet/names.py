"""A path as one word: every byte outside ! to ~, and the percent sign, is written %XX.

So a name with line feeds, blanks or bytes that are no UTF-8 stands in one line, and comes back as it was. It is the way
in which the map of an import writes its files.
"""

import re

PRINTABLE = range(0x21, 0x7F)
PERCENT = ord("%")


class BadWord(ValueError):
    """A word that no path is written as."""


def word_of(path: bytes) -> str:
    return "".join(chr(byte) if byte in PRINTABLE and byte != PERCENT else f"%{byte:02X}" for byte in path)


def path_of(word: str) -> bytes:
    if not re.fullmatch(r"(?:[!-$&-~]|%[0-9A-F]{2})*", word):
        raise BadWord(word)
    return re.sub(rb"%(..)", lambda found: bytes([int(found[1], 16)]), word.encode("ascii"))
