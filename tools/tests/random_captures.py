"""Random captures, for comparing two ways to their reports.

`script(random)` is a connection whose frames are legal for the most part; findings of each kind come from small
windows, from rare frames and from wild ones. `capture(random)` mixes such connections: segments out of order,
repeated, cut or lost, two connections in one capture, packets and files with changed bytes, each byte order, unit of
time and link type.
"""

import struct
from random import Random

from tests.captures import ACK, CLIENT, PREFACE, SERVER, SYN, SYN_ACK, Capture, Endpoint, frame, number

LARGEST = 2**31 - 1
# Source, target, sequence number, flags, payload.
Segment = tuple[Endpoint, Endpoint, int, int, bytes]
SMALL = (0, 0, 1, 2, 5, 10, 40, 100)


class Script:
    """Frames of a connection, one after the other."""

    def __init__(self, random: Random) -> None:
        self.random, self.promised, self.unanswered = random, 0, {"C": 1, "S": 1}
        self.opened: list[int] = []
        self.errors = random.choice((0, 0.02, 0.1))

    def pairs(self) -> bytes:
        """Settings of small windows mostly, some out of range, some that don't matter."""
        value = {
            1: (0, 4096),
            2: (0, 1),
            3: (100,),
            4: (*SMALL, 65535, LARGEST, LARGEST),
            5: (16384, 16385, 2**24 - 1),
        }
        wrong = {2: (2,), 4: (2**31,), 5: (16383, 2**24)}
        pairs = [
            (kind, self.random.choice(value[kind]))
            for kind in self.random.choices((1, 2, 3, 4, 5), (1, 2, 1, 9, 1), k=self.random.randint(0, 2))
        ]
        if self.random.random() < self.errors:
            kind = self.random.choice((2, 4, 5))
            pairs.append((kind, self.random.choice(wrong[kind])))
        return b"".join(struct.pack(">HI", *pair) for pair in pairs)

    def settings(self, side: str) -> bytes:
        self.unanswered["S" if side == "C" else "C"] += 1
        return frame(4, 0, 0, self.pairs())

    def answer(self, side: str) -> bytes:
        if self.unanswered[side] < 1 and self.random.random() > self.errors:
            return self.settings(side)
        self.unanswered[side] -= 1
        return frame(4, 1, 0)

    def stream(self) -> int:
        return self.random.choice(self.opened or [1])

    def headers(self, side: str) -> bytes:
        """HEADERS of the client open a stream mostly, of the server they answer on one."""
        stream = self.stream()
        if side == "C" and (not self.opened or self.random.random() < 0.7):
            stream = max([1, *self.opened]) + self.random.choice((2, 2, 4))
            stream = 1 if self.random.random() < self.errors else stream
            self.opened.append(stream)
        flags = 4 * (self.random.random() > self.errors) + (self.random.random() < 0.1)
        return frame(1, flags, stream, bytes(self.random.choice((0, 3))))

    def data(self, side: str) -> bytes:
        length = self.random.choice((*SMALL[1:], self.random.randint(0, 60)))
        flags = (self.random.random() < 0.1) + 8 * (self.random.random() < 0.15)
        padding = [self.random.choice((0, 1, length)) % 256] if flags & 8 and length else []
        return frame(0, flags, self.stream(), bytes(padding) + bytes(length - len(padding)))

    def grant(self, side: str) -> bytes:
        amount = self.random.choice((*range(1, 20), 50, 70000, LARGEST - 65535, LARGEST, 0))
        return frame(8, 0, self.random.choice((0, self.stream(), self.stream())), number(amount))

    def promise(self, side: str) -> bytes:
        self.promised += 2
        if self.random.random() < self.errors:
            return frame(5, 4, self.stream(), number(self.random.randint(0, 5)))
        return self.headers(side) if side == "C" else frame(5, 4, self.stream(), number(self.promised))

    def reset(self, side: str) -> bytes:
        return frame(3, 0, self.stream(), number(8))

    def plain(self, side: str) -> bytes:
        kind, length = self.random.choice(((2, 5), (2, 4), (6, 8), (7, 8), (11, 3)))
        return frame(kind, 0, self.stream() if kind == 2 else 0, bytes(length))

    def wild(self, side: str) -> bytes:
        flags = sum(flag for flag in (1, 4, 8, 32) if self.random.random() < 0.4)
        payload = bytes(self.random.choice((0, 1, 2, 4, 255)) for _ in range(self.random.choice((0, 1, 4, 5, 6, 8, 9))))
        return frame(self.random.randint(0, 10), flags, self.random.choice((0, 1, 2, 3, 4, 5, LARGEST)), payload)

    def long(self, side: str) -> bytes:
        kind, stream = self.random.choice(((0, self.stream()), (0, self.stream()), (1, self.stream()), (11, 0)))
        return frame(kind, 4, stream, bytes(16385))

    def next(self, side: str) -> bytes:
        if self.random.random() < self.errors:
            return self.wild(side)
        made = self.random.choices(
            (self.data, self.headers, self.grant, self.answer, self.settings, self.promise, self.reset, self.plain),
            (30, 12, 18, 14, 8, 5, 3, 4),
        )[0]
        return made(side)

    def frames(self, count: int) -> list[tuple[str, bytes]]:
        """Frames with their sides; of each side the first is SETTINGS, where it is no error."""
        first = [
            (side, self.next(side) if self.random.random() < self.errors else frame(4, 0, 0, self.pairs()))
            for side in "CS"
        ]
        if self.random.random() < 0.8:
            first += [(side, self.answer(side)) for side in "CS"] + [("C", self.headers("C"))]
        frames = first + [(side, self.next(side)) for side in self.random.choices("CS", (3, 2), k=count)]
        if self.random.random() < 0.03:
            frames.insert(self.random.randint(2, len(frames)), (side := self.random.choice("CS"), self.long(side)))
        elif self.random.random() < 0.015:  # all credit of the connection, and then some more or less
            full = [
                ("C", frame(0, 0, 1, bytes(length)))
                for length in (16384, 16384, 16384, 16384 - self.random.choice((0, 1, 30)))
            ]
            grants = [("S", frame(8, 0, 1, number(LARGEST - 65535))), ("C", frame(1, 4, 1))]
            self.opened.append(1)
            frames = frames[:2] + grants[::-1] + full + [("S", frame(8, 0, 0, number(5)))] + frames[2:6]
        return frames


def opened(random: Random, capture: Capture) -> None:
    capture.syn("C", random.choice((1000, 2**32 - 30)), SYN)
    capture.syn("S", random.choice((5000, 2**32 - 1)), SYN_ACK)


def script(random: Random) -> bytes:
    """A connection, with one or some frames of a side in a segment."""
    capture, pending = Capture(), {"C": PREFACE, "S": b""}
    opened(random, capture)
    for side, octets in Script(random).frames(random.randint(2, 10)):
        pending[side] += octets
        if random.random() < 0.7:
            capture.send(side, pending[side])
            pending[side] = b""
    for side, octets in pending.items():
        if octets:
            capture.send(side, octets[: len(octets) - random.choice((0, 0, 0, 3))])
    return bytes(capture.bytes)


def segments(random: Random) -> list[Segment]:
    """The segments of a connection: cut anywhere, some of them twice, late, lost or with other bytes."""
    client, server = (CLIENT[0], random.choice((40000, 40001))), SERVER if random.random() < 0.9 else CLIENT
    isn = {side: random.choice((1000, 2**32 - 30)) for side in "CS"}
    sent = [
        (client, server, isn["C"], SYN, b""),
        (server, client, isn["S"], random.choice((SYN_ACK, SYN_ACK, SYN_ACK, ACK)), b""),
    ]
    begun = len(sent)
    for side, ends in (("C", (client, server)), ("S", (server, client))):
        octets = b"".join(octets for of, octets in Script(random).frames(random.randint(0, 5)) if of == side)[:400]
        octets, at = (PREFACE if side == "C" else b"") + octets, 0
        while at < len(octets):
            size = random.choice((10, 24, 40, 100))
            sent.append((*ends, isn[side] + 1 + at, ACK, octets[at : at + size + random.choice((0, 0, 5))]))
            at += size
    for _ in range(random.choice((0, 0, 1, 2))):
        at = random.randrange(len(sent))
        source, target, seq, flags, octets = sent[at]
        other = random.choice((octets, bytes(len(octets)), octets[3:]))
        sent.insert(random.randint(0, len(sent)), (source, target, seq + len(octets) - len(other), flags, other))
    if random.random() < 0.4:
        tail = sent[begun:]
        random.shuffle(tail)
        sent[begun:] = tail
    if random.random() < 0.2:
        del sent[random.randrange(len(sent))]
    return sent


def in_other_form(random: Random, octets: bytes) -> bytes:
    """The capture with another byte order, unit of time or link type."""
    order, nanos = random.choice("<>"), random.random() < 0.5
    raw = random.random() < 0.2
    made = struct.pack(order + "IHHIIII", 0xA1B23C4D if nanos else 0xA1B2C3D4, 2, 4, 0, 0, 65535, 101 if raw else 1)
    at = 24
    while at < len(octets):
        seconds, fraction, size, whole = struct.unpack("<IIII", octets[at : at + 16])
        packet, at = octets[at + 16 : at + 16 + size], at + 16 + size
        cut = 14 if raw else 0
        tag = b"" if raw or random.random() < 0.8 else b"\x81\0\0\7"
        packet = packet[cut:12] + tag + packet[max(12, cut) :]
        made += (
            struct.pack(order + "IIII", random.choice((0, 1700000000)), fraction, len(packet), whole - cut + len(tag))
            + packet
        )
    return made


def capture(random: Random) -> bytes:
    """A capture of one connection or two."""
    made, sent = Capture(), segments(random)
    if random.random() < 0.3:
        other = segments(random)
        sent = [item for pair in zip(sent, other) for item in pair] + sent[len(other) :] + other[len(sent) :]
    spoiled = random.choice((0, 0, 0.05, 0.3))
    for segment in sent:
        kept = len(segment[4]) // 2 if random.random() < 0.03 else None
        made.segment(*segment, kept)
        if random.random() < spoiled:  # a header's byte
            made.bytes[made.last + random.randint(12, 53)] = random.choice((0, 1, 4, 6, 17, 32, 69, 70, 255))
    octets = bytes(made.bytes)
    if random.random() < 0.5:
        octets = in_other_form(random, octets)
    if random.random() < 0.2:  # any byte
        at = random.randrange(min(len(octets), random.choice((24, 200, 10**6))))
        octets = octets[:at] + bytes([random.choice((0, 1, 255))]) + octets[at + 1 :]
    return octets[: random.randint(0, len(octets))] if random.random() < 0.1 else octets
