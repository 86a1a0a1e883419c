"""Captures of requests with names and times, for tests of what is told of them.

`capture(random)` has one to three connections over small windows: requests that wait for grants, that are reset or
hang, faults of which some can be doubted, lost packets, and clocks that go back.
"""

import struct
from dataclasses import dataclass, field
from random import Random

from tests.captures import CLIENT, PREFACE, SERVER, SYN, SYN_ACK, Capture, Endpoint, frame, number

MILLISECOND = 1000
FIRST_WINDOW = 65535
# What is written on the wire of requests, and has to stand nowhere else unless it is asked for.
NAMES = ("/invoices/of-meier", "/shop.Feed/Watch", "/login-by-token", "/payslips", "/\x1b[31m\x07red", "/zero\x00byte")
HOSTS = ("intranet.example", "feed.shop.example")
QUERY = "?session=0123-secret"


def block(*fields: tuple[bytes, bytes]) -> bytes:
    """Literal fields without indexing (RFC 7541, 6.2.2), with lengths of one byte."""
    return b"".join(b"\0" + bytes([len(name)]) + name + bytes([len(value)]) + value for name, value in fields)


def request(method: str, path: str, authority: str) -> bytes:
    fields = ((":method", method), (":scheme", "http"), (":path", path), (":authority", authority))
    return block(*((name.encode(), value.encode()) for name, value in fields))


class Timed(Capture):
    """A capture whose records have times in microseconds of its own clock."""

    now = 10**15

    def record(self, original: int, captured: bytes) -> None:
        super().record(original, captured)
        struct.pack_into("<II", self.bytes, self.last - 16, self.now // 10**6, self.now % 10**6)


@dataclass
class Download:
    """A request, and how much of its content is left."""

    stream: int
    left: int
    credit: int


@dataclass
class Talk:
    """A connection of requests for content, most of which is more than the windows hold."""

    random: Random
    capture: Timed
    client: Endpoint
    window: int
    credit: int = FIRST_WINDOW
    stream: int = 1
    going: list[Download] = field(default_factory=list)

    def say(self, side: str, *frames: bytes, most: int = 40) -> None:
        """Frames of a side in one packet, some time after what was said before."""
        self.capture.now += self.random.randint(1, most) * MILLISECOND
        ends = (self.client, SERVER)
        self.capture.ends = {"C": ends, "S": ends[::-1]}
        self.capture.send(side, b"".join(frames))

    def open(self) -> None:
        for side, flags in (("C", SYN), ("S", SYN_ACK)):
            self.capture.now += 5 * MILLISECOND
            self.capture.ends = {"C": (self.client, SERVER), "S": (SERVER, self.client)}
            self.capture.syn(side, 1000, flags)
        self.say("C", PREFACE, frame(4, 0, 0, struct.pack(">HI", 4, self.window)))
        self.say("S", frame(4, 0, 0), frame(4, 1, 0))
        self.say("C", frame(4, 1, 0))

    def ask(self) -> None:
        path, method = self.random.choice(NAMES), self.random.choice(("GET", "POST"))
        fields = request(method, path + QUERY * (self.random.random() < 0.3), self.random.choice(HOSTS))
        self.say("C", frame(1, 5, self.stream, fields))
        self.say("S", frame(1, 4, self.stream, b"\x88"))
        self.going.append(Download(self.stream, self.random.randint(1, 3 * self.window), self.window))
        self.stream += 2

    def send(self, one: Download) -> None:
        """What its windows let through; now and then a byte more, which is an overrun."""
        size = min(one.left, one.credit, self.credit, 16384)
        size += self.random.random() < 0.02
        if size <= 0:
            return
        one.left, one.credit, self.credit = one.left - size, one.credit - size, self.credit - size
        ends = one.left <= 0
        self.say("S", frame(0, int(ends), one.stream, bytes(size)))
        if ends:
            self.going.remove(one)

    def grant(self, one: Download) -> None:
        size = self.random.randint(1, self.window)
        one.credit, self.credit = one.credit + size, self.credit + size
        self.say("C", frame(8, 0, one.stream, number(size)), frame(8, 0, 0, number(size)), most=300)

    def settle(self, one: Download) -> None:
        """Another initial window, which the server does not always acknowledge."""
        self.say("C", frame(4, 0, 0, struct.pack(">HI", 4, self.window + 1)))
        if self.random.random() < 0.5:
            self.say("S", frame(4, 1, 0))
            for each in self.going:
                each.credit += 1
            self.window += 1

    def reset(self, one: Download) -> None:
        self.say(self.random.choice("CS"), frame(3, 0, one.stream, number(self.random.choice((0, 2, 8)))))
        self.going.remove(one)

    def go_away(self, _: Download) -> None:
        """From the server, which takes up no stream above one; the client goes on."""
        last = self.random.choice(self.going).stream if self.going else 1
        self.say("S", frame(7, 0, 0, number(max(last - 2, 0)) + number(self.random.choice((0, 11)))))

    def step(self) -> None:
        if not self.going or self.random.random() < 0.15:
            self.ask()
            return
        ways = (self.send, self.grant, self.settle, self.reset, self.go_away)
        (way,) = self.random.choices(ways, (12, 4, 0.4, 0.4, 0.15))
        way(self.random.choice(self.going))


def capture(random: Random) -> bytes:
    made = Timed()
    talks = []
    for turn in range(random.randint(1, 3)):
        client = CLIENT[0] + random.randint(0, 1), 40000 + turn
        talks.append(Talk(random, made, client, random.choice((100, 3000, 20000))))
    numbers: dict[int, dict[str, int]] = {}
    for step in range(random.randint(20, 120)):
        talk = random.choice(talks)
        made.next = numbers.setdefault(talk.client[1], {})
        talk.step() if made.next else talk.open()
        if random.random() < 0.003:
            made.now -= 20 * MILLISECOND
        if random.random() < 0.003 and made.next:
            made.next[random.choice("CS")] += 7
    return bytes(made.bytes)
