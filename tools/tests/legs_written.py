"""Written captures of a proxy with as many requests as wanted, by which costs are measured."""

import struct

from tests.captures import END_HEADERS, END_STREAM, PREFACE, SYN, SYN_ACK, Endpoint, frame
from tools.tests.request_captures import Timed, request

CLIENT, PROXY, UPSTREAM = 0x0A000001, 0x0A000002, 0x0A000003
FRONT, BACK = (PROXY, 80), (UPSTREAM, 8080)
STATUS_200, MOST = b"\x88", 16_384
HEADERS, DATA, SETTINGS, WINDOW_UPDATE = 1, 0, 4, 8


class WrittenConnection:
    """A connection of a written capture, with windows that hold all."""

    def __init__(self, capture: Timed, client: Endpoint, server: Endpoint) -> None:
        self.capture, self.ends = capture, {"C": (client, server), "S": (server, client)}
        self.next = {"C": 0, "S": 0}
        self.stream = -1
        self.turn()
        # Connections that begin alike would be one that is seen twice.
        first = 1000 * capture.records
        capture.syn("C", first, SYN)
        capture.syn("S", first + 500, SYN_ACK)
        self.next = dict(capture.next)
        window = (1 << 24) + client[1]
        wide = frame(SETTINGS, 0, 0, struct.pack(">HI", 4, window)) + frame(WINDOW_UPDATE, 0, 0, b"\x7f\0\0\0")
        self.send("C", PREFACE + wide)
        self.send("S", frame(SETTINGS, 0, 0) + frame(SETTINGS, 1, 0))
        self.send("C", frame(SETTINGS, 1, 0))

    def turn(self) -> None:
        self.capture.ends, self.capture.next = self.ends, self.next

    def send(self, side: str, payload: bytes) -> None:
        self.capture.now += 2
        self.turn()
        self.capture.send(side, payload)

    def ask(self, path: str) -> int:
        """Opens a stream."""
        self.stream += 2
        fields = request("GET", path, "shop.example")
        self.send("C", frame(HEADERS, END_HEADERS | END_STREAM, self.stream, fields))
        return self.stream

    def answer(self, stream: int, size: int) -> None:
        """Sends a head and so many bytes of content."""
        self.send("S", frame(HEADERS, END_HEADERS, stream, STATUS_200))
        for at in range(0, size, MOST):
            length = min(MOST, size - at)
            self.send("S", frame(DATA, END_STREAM * (at + length == size), stream, bytes(length)))


def at_once(count: int, clients: int = 8, size: int = 100) -> bytes:
    """So many equal requests of some clients, all of which are open at once on both legs."""
    capture = Timed()
    fronts = [WrittenConnection(capture, (CLIENT, 40_000 + number), FRONT) for number in range(clients)]
    back = WrittenConnection(capture, (PROXY, 50_000), BACK)
    asked = []
    for number in range(count):
        front = fronts[number % clients]
        asked.append((front, front.ask("/equal"), back.ask("/equal")))
    for front, stream, behind in asked:
        back.answer(behind, size)
        front.answer(stream, size)
    return bytes(capture.bytes)


def mixed(count: int, has_back: bool, each: int = 100, size: int = 2000) -> bytes:
    """So many requests, one connection's after another's; with both legs of a proxy, or with one server's alone."""
    capture = Timed()
    for number in range(0, count, each):
        front = WrittenConnection(capture, (CLIENT + (number // each << 8), 40_000), FRONT)
        back = WrittenConnection(capture, (PROXY, 10_000 + number // each), BACK) if has_back else None
        for at in range(each):
            path = f"/items/{(number + at) % 997}"
            stream = front.ask(path)
            if back:
                back.answer(back.ask(path), size)
            front.answer(stream, size)
    return bytes(capture.bytes)
