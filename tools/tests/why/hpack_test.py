"""Random and damaged field blocks, decoded in Rust (companions/hpack) and by python3-hpack: without a difference.

    python3 -m tools.tests.why.hpack_test [COUNT [SEED]]

100,000 blocks by default, in runs of one decoder, which end where one cannot be read. The seed is printed: a count and
that seed make the same blocks again. The last line says how many ended how.
"""

import collections
import functools
import os
import random
import re
import struct
import subprocess
import sys
from collections.abc import Iterable, Iterator
from typing import NamedTuple

from hpack import Decoder, Encoder
from hpack.exceptions import HPACKError, InvalidTableSizeError
from hpack.hpack import encode_integer
from hpack.huffman import HuffmanEncoder
from hpack.huffman_constants import REQUEST_CODES, REQUEST_CODES_LENGTH

from tools.tests.companions import BUILT

LONGEST = 1 << 20  # of a block, and of its fields together
LONGEST_VALUE = 8192  # of what is kept
LARGEST_TABLE = 1 << 16
ENDLESS = re.compile(rb"[\x80-\xff]{8192}")
WANTED = (
    b":method",
    b":path",
    b":authority",
    b":status",
    b":protocol",
    b"grpc-status",
    b"grpc-message",
    b"x-request-id",
    b"traceparent",
)
OTHERS = (b":scheme", b"cookie", b"user-agent", b"accept", b"x-trace-id", b"te", b"content-type", b"age", b"a", b"")
NAMES = WANTED + OTHERS
STATIC = 61
VALUES = (b"", b"GET", b"/", b"200", b"https", b"/a/b?c=d", b"example.com", b"0", b"deflate")
LETTERS = b"abcdefghijklmnopqrstuvwxyz0123456789-_/=%;. XQ?"
SIZES = (0, 1, 31, 32, 33, 64, 100, 300, 1000, 4095, 4096, 4097, 10000, 65535, 65536, 65537, 100000, 1 << 31)
HUFFMAN = HuffmanEncoder(REQUEST_CODES, REQUEST_CODES_LENGTH)
# It takes quadratic time for long values, of which there are few.
HUFFMAN.encode = functools.lru_cache(HUFFMAN.encode)
DECODERS = 400  # in one run of the program
BUILD = ("cargo", "build", "--quiet", "--release", "--locked", "--package", "hpack", "--example", "blocks")
COMPANIONS, PROGRAM = BUILT.parents[1], BUILT / "examples" / "blocks"
DAMAGE = ("HPACKDecodingError", "InvalidTableIndex", "InvalidTableSizeError", "OversizedHeaderListError")
WAYS = (
    "read",
    "a field block too long to be read",
    "a table of more than 65,536 bytes",
    *(f"a damaged field block ({name})" for name in DAMAGE),
)


class Event(NamedTuple):
    """What one decoder is given: a block, or the size of a table that the other side allows."""

    block: bytes = b""
    allows: int | None = None

    def octets(self) -> bytes:
        if self.allows is not None:
            return struct.pack(">cI", b"A", self.allows)
        return struct.pack(">cI", b"B", len(self.block)) + self.block


class Known:
    """One side's blocks, by python3-hpack within the bounds of the program."""

    def __init__(self) -> None:
        self.decoder = Decoder(max_header_list_size=LONGEST)
        self.allowed = self.decoder.max_allowed_table_size
        self.damage = ""

    def allow(self, size: int) -> None:
        self.allowed = max(self.allowed, size)
        self.decoder.max_allowed_table_size = min(self.allowed, LARGEST_TABLE)

    def line(self, block: bytes) -> str:
        if not self.damage:
            try:
                return self.fields(block)
            except (HPACKError, ValueError) as why:
                self.damage = self.told(why)
        return self.damage

    def told(self, why: Exception) -> str:
        if isinstance(why, InvalidTableSizeError) and self.allowed > LARGEST_TABLE:
            return f"a table of more than {LARGEST_TABLE:,} bytes"
        # Python refuses to print an index of more than 4,300 digits, which no table has.
        name = "InvalidTableIndex" if "integer string conversion" in str(why) else type(why).__name__
        return f"a damaged field block ({name})"

    def fields(self, block: bytes) -> str:
        if len(block) > LONGEST or ENDLESS.search(block):
            self.damage = "a field block too long to be read"
            return self.damage
        first: dict[bytes, bytes] = {}
        for name, value in self.decoder.decode(block, raw=True):
            first.setdefault(name, value[:LONGEST_VALUE])
        table = self.decoder.header_table
        words = [str(len(table.dynamic_entries)), str(sum(32 + len(n) + len(v) for n, v in table.dynamic_entries))]
        return " ".join(words + [f"{name.decode()}={first[name].hex()}" for name in WANTED if name in first])


class Blocks:
    """Makes what one decoder is given, by chance."""

    def __init__(self, dice: random.Random) -> None:
        self.dice = dice
        self.encoder = Encoder()
        self.encoder.huffman_coder = HUFFMAN

    def events(self) -> Iterator[Event]:
        way = self.dice.choice((self.encoded, self.encoded, self.encoded, self.spelled, self.spelled, self.noise))
        damage = self.dice.choice((0, 0, 0.02, 0.1, 0.5))
        for _ in range(self.dice.choice((1, 3, 10, 40))):
            if self.dice.random() < 0.05:
                size = self.dice.choice(SIZES)
                self.encoder.header_table_size = size
                yield Event(allows=size + self.dice.choice((0, 0, 0, -1, 1)) if size else size)
            block = way()
            yield Event(self.damaged(block) if self.dice.random() < damage else block)

    def encoded(self) -> bytes:
        """What an encoder makes of fields, with its table."""
        fields = [(*self.field(), self.dice.random() < 0.1) for _ in range(self.dice.choice((0, 1, 4, 8, 20)))]
        return bytes(self.encoder.encode(fields, huffman=self.dice.random() < 0.7))

    def field(self) -> tuple[bytes, bytes]:
        return self.dice.choice(NAMES), self.value()

    def value(self) -> bytes:
        way = self.dice.randrange(200)
        if way < 110:
            return self.dice.choice(VALUES)
        if way < 190:
            return bytes(self.dice.choices(LETTERS, k=self.dice.randrange(60)))
        if way < 199:
            return self.dice.randbytes(self.dice.randrange(40))
        return self.dice.choice((b"a", b"Z", b"\n", b"\xff", b"~")) * self.dice.choice((100, 3000, 8191, 8192, 9000))

    def spelled(self) -> bytes:
        """Representations as they come (RFC 7541, 6), with indices that no table may have."""
        parts = [self.size_change() for _ in range(self.dice.choice((0, 0, 0, 1, 2)))]
        parts += [self.representation() for _ in range(self.dice.choice((0, 1, 2, 5, 12)))]
        return b"".join(parts)

    def representation(self) -> bytes:
        way = self.dice.randrange(40)
        if way < 18:
            return self.integer(self.index(), 7, 0x80)
        if way == 18:
            return self.size_change()
        bits, first = self.dice.choice(((6, 0x40), (6, 0x40), (4, 0x00), (4, 0x10)))
        if self.dice.random() < 0.5:
            return self.integer(self.index(), bits, first) + self.string(self.value())
        return self.integer(0, bits, first) + self.string(self.dice.choice(NAMES)) + self.string(self.value())

    def index(self) -> int:
        way = self.dice.randrange(50)
        if way < 30:
            return self.dice.randrange(1, STATIC + 1)
        if way < 49:
            return STATIC + 1 + min(int(self.dice.expovariate(0.3)), 200)
        return self.dice.choice((0, 126, 127, 128, 255, 1 << 31, 1 << 32, (1 << 63) + 61, (1 << 64) + 61, 1 << 20000))

    def size_change(self) -> bytes:
        return self.integer(self.dice.choice(SIZES), 5, 0x20)

    def integer(self, number: int, bits: int, first: int) -> bytes:
        """An integer, now and then with more bytes than it needs."""
        octets = encode_integer(number, bits)
        if len(octets) > 1 and self.dice.random() < 0.1:
            octets[-1] |= 0x80
            octets += b"\x80" * self.dice.choice((0, 1, 8, 9, 10, 300)) + b"\x00"
        octets[0] |= first
        return bytes(octets)

    def string(self, octets: bytes) -> bytes:
        way = self.dice.randrange(30)
        if way < 14:
            return self.integer(len(octets), 7, 0) + octets
        coded = bytes(HUFFMAN.encode(octets))
        if way == 14:
            coded += self.dice.choice((b"\xff", b"\xff\xff\xff\xff", b"\xfe", b"\x00", b"\x1f", b"\x7f"))
        if way == 15:
            coded = self.dice.randbytes(self.dice.randrange(12))
        return self.integer(len(coded), 7, 0x80) + coded

    def noise(self) -> bytes:
        return self.dice.randbytes(self.dice.choice((0, 1, 2, 3, 5, 10, 40, 300)))

    def damaged(self, block: bytes) -> bytes:
        octets = bytearray(block)
        for _ in range(self.dice.choice((1, 1, 1, 2, 5))):
            at = self.dice.randrange(len(octets) + 1)
            size = self.dice.choice((1, 1, 2, 8))
            way = self.dice.randrange(6)
            if way == 0 and at < len(octets):
                octets[at] ^= 1 << self.dice.randrange(8)
            elif way == 1:
                octets[at : at + size] = self.dice.randbytes(size)
            elif way == 2:
                del octets[at : at + size]
            elif way == 3:
                octets[at:at] = octets[at : at + size]
            elif way == 4:
                octets[at:at] = self.dice.choice((b"\x80", b"\xff\xff\xff\xff\x0f", b"\x20", b"\x3f\xe1\x1f", b"\x7f"))
            else:
                del octets[max(at, len(octets) - 3) :]
        return bytes(octets)


def bounds() -> Iterator[list[Event]]:
    """What reaches each bound, and what is one below it."""
    empty, name = b"\x00\x01a\x00", b"\x40\x01a"
    full = name + bytes(encode_integer(4063, 7)) + bytes(4063)
    most = b"\x00\x01a" + bytes(encode_integer(LONGEST - 33, 7)) + bytes(LONGEST - 33)
    for block in (most, b"\x00\x01a" + bytes(encode_integer(LONGEST - 32, 7)) + bytes(LONGEST - 32)):
        yield [Event(block), Event(b"\x82")]
    for count in (LONGEST - 7, LONGEST - 6):
        yield [Event(b"\x00" + b"\x01a" + bytes(encode_integer(count, 7)) + bytes(count))]
    for octet in range(256):
        coded = HUFFMAN.encode(bytes([octet]))
        yield [Event(b"\x04" + bytes([0x80 | len(coded) + more]) + coded + more * b"\xff") for more in (0, 1)]
    for count in (255, 256, 257):
        yield [Event(full), Event(b"\xbe" * count), Event(b"\xbe")]
    for count in (LONGEST // 33, LONGEST // 33 + 1):
        yield [Event(count * empty)]
    for run in (8190, 8191, 8192):
        for last in (b"\x00", b""):
            yield [Event(b"\x82\xff" + b"\x80" * (run - 2) + last), Event(b"\xff" + b"\x80" * (run - 1) + last)]
    for allowed in (0, 4096, 4097, 65536, 65537, 1 << 31):
        for size in SIZES:
            change = encode_integer(size, 5)
            change[0] |= 0x20
            yield [Event(full), Event(allows=allowed), Event(bytes(change) + full + b"\xbe"), Event(b"\xbe\xbf")]


class Run:
    """Decoders with what they are given, and the lines that python3-hpack has for it."""

    def __init__(self) -> None:
        self.given: list[bytes] = []
        self.lines: list[str] = []
        self.events: list[Event] = []
        self.ways: collections.Counter[str] = collections.Counter()

    def decoder(self, events: Iterable[Event]) -> None:
        """Ends one block behind the first that cannot be read."""
        known = Known()
        self.given.append(b"N\0\0\0\0")
        for event in events:
            was_damaged = known.damage
            self.given.append(event.octets())
            if event.allows is not None:
                known.allow(event.allows)
                continue
            self.events.append(event)
            self.lines.append(known.line(event.block))
            self.ways[known.damage or "read"] += 1
            if was_damaged:
                return

    def compare(self) -> None:
        run = subprocess.run([PROGRAM], input=b"".join(self.given), capture_output=True, check=True)
        said = run.stdout.decode().splitlines()
        assert len(said) == len(self.lines), (len(said), len(self.lines))
        for number, (here, there) in enumerate(zip(said, self.lines)):
            before = [event.block.hex() for event in self.events[max(0, number - 5) : number + 1]]
            assert here == there, f"by python3-hpack {there!r}, here {here!r}; the last blocks: {before}"


def main() -> int:
    count = int(sys.argv[1]) if len(sys.argv) > 1 else 100_000
    seed = int(sys.argv[2]) if len(sys.argv) > 2 else int.from_bytes(os.urandom(4), "big")
    print(f"{count} blocks, seed {seed}", flush=True)
    subprocess.run(BUILD, cwd=COMPANIONS, env={**os.environ, "PATH": "/usr/bin:/bin"}, check=True)
    run = Run()
    for events in bounds():
        run.decoder(events)
    run.compare()
    ways, number = run.ways, 0
    while sum(ways.values()) < count:
        run = Run()
        for number in range(number, number + DECODERS):
            run.decoder(Blocks(random.Random(f"{seed} {number}")).events())
        number += 1
        run.compare()
        ways += run.ways
    missing = [way for way in WAYS if not ways[way]]
    assert not missing, missing
    print(f"{sum(ways.values())} blocks: " + ", ".join(f"{count} {way}" for way, count in sorted(ways.items())))
    return 0


if __name__ == "__main__":
    sys.exit(main())
