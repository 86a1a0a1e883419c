"""Connections of peers as they talk: frames that share segments, acknowledgements of TCP, requests and responses."""

import heapq
import random
import struct

from bench.wire import ACK, CLIENT, FIN, PREFACE, PUSH, SERVER, SYN, SYN_ACK, Capture, frame, window_update

FULL_SEGMENT = 1448
DATA, HEADERS, PRIORITY, RST_STREAM, SETTINGS, PING, WINDOW_UPDATE = 0, 1, 2, 3, 4, 6, 8
END_STREAM, ANSWER, END_HEADERS = 1, 1, 4
ENABLE_PUSH, MOST_STREAMS, INITIAL_WINDOW = 2, 3, 4
STAMPS = struct.Struct(">BBBBII")
FIRST_WINDOW = 65535
Pairs = tuple[tuple[int, int], ...]


class Dice(random.Random):
    """Draws the same numbers each time."""

    def between(self, low: int, high: int) -> int:
        """Both are included."""
        return low + int(self.random() * (high - low + 1))

    def often(self, part: int) -> bool:
        """So many times in a thousand."""
        return self.random() * 1000 < part


class Line:
    """What is captured of connections: up to 40 us lie between two packets. One that shuffles has packets of the server
    late, twice, and over the seam of two.
    """

    def __init__(self, capture: Capture, shuffles: bool = False) -> None:
        self.capture, self.shuffles = capture, shuffles
        self.dice = Dice(1)
        self.noise = self.dice.randbytes(1 << 17)
        self.packets = 0
        self.held: list[tuple[int, int, bytes]] = []
        # While a connection opens nothing is late, so that its SETTINGS come before what answers them.
        self.is_calm = False

    def packet(self, talk: "Talk", side: int, seq: int, flags: int, payload: bytes) -> bytes:
        ack = talk.next[1 - side] if flags & ACK else 0
        stamp = self.capture.time // 1000
        self.capture.addresses = talk.addresses
        options = STAMPS.pack(1, 1, 8, 10, stamp + 1, stamp)
        return self.capture.packet(talk.ports, side, seq, flags, payload, ack, options)

    def put(self, talk: "Talk", side: int, seq: int, flags: int, payload: bytes) -> None:
        packet = self.packet(talk, side, seq, flags, payload)
        self.packets += 1
        if self.shuffles and not self.is_calm and side == SERVER and payload:
            self.shuffled(talk, seq, packet)
        else:
            self.record(packet)
        while self.held and self.held[0][0] <= self.packets:
            self.record(heapq.heappop(self.held)[2])

    def shuffled(self, talk: "Talk", seq: int, packet: bytes) -> None:
        if self.dice.often(20):
            self.hold(packet, self.dice.between(5, 200))
        if self.dice.often(1):
            # A keep-alive probe: one byte before the next one.
            self.record(self.packet(talk, SERVER, seq - 1, ACK, b"\0"))
        if self.dice.often(80):
            self.hold(packet, self.dice.between(1, 40))
        else:
            self.record(packet)

    def hold(self, packet: bytes, packets: int) -> None:
        heapq.heappush(self.held, (self.packets + packets, len(self.held), packet))

    def record(self, packet: bytes) -> None:
        self.capture.time += int(self.dice.random() * 40)
        self.capture.record(packet)

    def finish(self) -> None:
        for _, _, packet in sorted(self.held):
            self.record(packet)


class Talk:
    """One connection, whose two sides queue frames and send them in full segments."""

    def __init__(self, line: Line, number: int) -> None:
        self.line, self.dice = line, line.dice
        self.addresses = (0x0A000001 + number // 60000 * 256, 0xC0A80001 + number % 5)
        self.ports = (2000 + number % 60000, 80)
        self.next = [self.dice.getrandbits(32), self.dice.getrandbits(32)]
        self.queued = (bytearray(), bytearray())
        self.unacknowledged = [0, 0]
        self.last = b""  # of the server, for overlaps
        self.next_stream = 1
        self.credit = [FIRST_WINDOW, FIRST_WINDOW]  # of the connection, for what each side sends

    def open(self, client: Pairs, server: Pairs = ((MOST_STREAMS, 1000),)) -> None:
        self.line.is_calm = True
        self.segment(CLIENT, SYN)
        self.segment(SERVER, SYN_ACK)
        self.segment(CLIENT, ACK)
        self.queued[CLIENT].extend(PREFACE)
        self.settings(CLIENT, client)
        self.flush(CLIENT)
        self.settings(SERVER, server)
        self.frame(SERVER, SETTINGS, ANSWER, 0)
        self.flush(SERVER)
        self.frame(CLIENT, SETTINGS, ANSWER, 0)
        self.flush(CLIENT)
        self.line.is_calm = False

    def close(self) -> None:
        self.segment(CLIENT, FIN | ACK)
        self.segment(SERVER, FIN | ACK)
        self.segment(CLIENT, ACK)

    def segment(self, side: int, flags: int, payload: bytes = b"") -> None:
        self.line.put(self, side, self.next[side], flags, payload)
        self.next[side] += len(payload) + bool(flags & (SYN | FIN))

    def frame(self, side: int, kind: int, flags: int, stream: int, payload: bytes = b"") -> None:
        self.queued[side].extend(frame(kind, flags, stream, payload))

    def settings(self, side: int, pairs: Pairs) -> None:
        self.frame(side, SETTINGS, 0, 0, b"".join(struct.pack(">HI", *pair) for pair in pairs))

    def data(self, side: int, flags: int, stream: int, length: int) -> None:
        at = self.dice.between(0, len(self.line.noise) // 2)
        self.frame(side, DATA, flags, stream, self.line.noise[at : at + length])
        self.credit[side] -= length

    def path(self) -> bytes:
        """That of the next request."""
        return bytes(97 + (self.next_stream + place) % 26 for place in range(self.dice.between(4, 40)))

    def request(self, flags: int, path: bytes = b"") -> int:
        """Indexed fields, and literals that no table takes."""
        path = path or self.path()
        stream, self.next_stream = self.next_stream, self.next_stream + 2
        block = b"\x82\x86\x01\x09localhost\x04" + bytes([len(path) + 1]) + b"/" + path
        self.frame(CLIENT, HEADERS, flags | END_HEADERS, stream, block)
        return stream

    def response(self, flags: int, stream: int) -> None:
        length = b"\x0f\x12\x042024" if self.dice.often(500) else b""
        self.frame(SERVER, HEADERS, flags | END_HEADERS, stream, b"\x88\x0f\x10\x0atext/plain" + length)

    def grant(self, side: int, stream: int, increment: int) -> None:
        """What this side grants to the other."""
        self.queued[side].extend(window_update(stream, increment))
        if stream == 0:
            self.credit[1 - side] += increment

    def refill(self, side: int, least: int) -> None:
        """Gives a side its credit of the connection back, once less than this is left."""
        if self.credit[side] < least:
            self.grant(1 - side, 0, FIRST_WINDOW - self.credit[side])

    def flush(self, side: int) -> None:
        """Sends all that is queued."""
        self.send(side, len(self.queued[side]))

    def spill(self, side: int) -> None:
        """Sends what fills segments."""
        self.send(side, len(self.queued[side]) // FULL_SEGMENT * FULL_SEGMENT)

    def send(self, side: int, length: int) -> None:
        queued = bytes(self.queued[side][:length])
        for at in range(0, length, FULL_SEGMENT):
            payload = queued[at : at + FULL_SEGMENT]
            if self.line.shuffles and side == SERVER:
                self.overlap(payload)
            is_last = at + FULL_SEGMENT >= len(self.queued[side])
            self.segment(side, ACK | PUSH if is_last else ACK, payload)
            self.unacknowledged[side] += 1
            if self.unacknowledged[side] == 2:
                self.unacknowledged[side] = 0
                self.segment(1 - side, ACK)
        del self.queued[side][:length]

    def overlap(self, payload: bytes) -> None:
        """Now and then a segment over the seam of the last one and this one."""
        half = self.last[len(self.last) // 2 :]
        if len(self.last) > 1 and self.dice.often(10):
            seam = half + payload[: len(payload) // 2]
            self.line.put(self, SERVER, self.next[SERVER] - len(half), ACK, seam)
        self.last = payload
