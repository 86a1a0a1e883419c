"""Damage of captures and key logs, by chance."""

import random


def damaged(source: random.Random, octets: bytes) -> bytes:
    """A capture with some bytes changed, cut out, doubled or added; mostly behind the file's header."""
    made = bytearray(octets)
    for _ in range(source.choice((1, 1, 2, 3, 8, 40))):
        if not made:
            break
        front = 24 if source.random() < 0.98 else 0
        at = source.randrange(min(front, len(made) - 1), len(made))
        way = source.random()
        if way < 0.5:
            made[at] = source.choice((0, 1, 4, 8, 9, 127, 128, 255, source.randrange(256)))
        elif way < 0.7:
            made[at] ^= 1 << source.randrange(8)
        elif way < 0.8:
            del made[at : at + source.choice((1, 2, 9, 60))]
        elif way < 0.9:
            made[at:at] = made[at : at + source.choice((1, 9, 70, 400))]
        else:
            made[at : at + 4] = source.randbytes(4)
    if not made:
        return b""
    return bytes(made[: source.randrange(min(24, len(made) - 1), len(made))] if source.random() < 0.05 else made)
