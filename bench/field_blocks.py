"""Shapes with field blocks as a browser and gRPC send them, by python3-hpack's encoder, with its table and Huffman
code. One request of ten has a new cookie or trace.
"""

import struct

from hpack import Encoder

from bench.talks import (
    ANSWER,
    ENABLE_PUSH,
    END_HEADERS,
    END_STREAM,
    FIRST_WINDOW,
    HEADERS,
    INITIAL_WINDOW,
    MOST_STREAMS,
    PING,
    Dice,
    Line,
    Talk,
)
from bench.wire import CLIENT, SERVER, Capture

WITH_PRIORITY, TABLE_SIZE, MOST_IN_FRAME, LONGEST_LIST = 0x20, 1, 5, 6
PRIORITY = struct.pack(">IB", 1 << 31, 219)
Fields = list[tuple[str, str]]
NEW = 100  # in a thousand

KINDS = (("js", "script"), ("css", "style"), ("png", "image"), ("woff2", "font"), ("json", "empty"))
BROWSER = (
    ("sec-ch-ua", '"Chromium";v="130", "Not?A_Brand";v="99"'),
    ("sec-ch-ua-mobile", "?0"),
    ("sec-ch-ua-platform", '"Linux"'),
    (
        "user-agent",
        "Mozilla/5.0 (X11; Linux x86_64) AppleWebKit/537.36 (KHTML, like Gecko) Chrome/130.0.0.0 Safari/537.36",
    ),
    ("accept", "*/*"),
    ("sec-fetch-site", "same-origin"),
    ("sec-fetch-mode", "no-cors"),
)
METHODS = tuple(
    f"/shop.v1.{service}/{method}"
    for service in ("Cart", "Catalog", "Payment", "Shipping")
    for method in ("Get", "List", "Update")
)


class Coded(Talk):
    """A connection with an encoder on each side."""

    def __init__(self, line: Line, number: int) -> None:
        super().__init__(line, number)
        self.encoders = (Encoder(), Encoder())

    def headers(self, side: int, flags: int, stream: int, fields: Fields, before: bytes = b"") -> None:
        self.frame(side, HEADERS, flags | END_HEADERS, stream, before + self.encoders[side].encode(fields))

    def pause(self, least: int, most: int) -> None:
        """In microseconds."""
        self.line.capture.time += self.dice.between(least, most)


class Browser(Coded):
    """A browser with a site: many requests at once, whose responses share the connection."""

    WINDOW = 15 << 20

    def __init__(self, line: Line, number: int) -> None:
        super().__init__(line, number)
        self.open(
            ((TABLE_SIZE, 65536), (ENABLE_PUSH, 0), (INITIAL_WINDOW, 6 << 20), (LONGEST_LIST, 262144)),
            ((MOST_STREAMS, 128), (INITIAL_WINDOW, 65536), (MOST_IN_FRAME, (1 << 24) - 1)),
        )
        self.grant(CLIENT, 0, self.WINDOW - FIRST_WINDOW)
        self.cookie = new_cookie(self.dice)

    def page(self) -> None:
        kinds, left = {}, {}
        for _ in range(self.dice.between(1, 24)):
            stream, self.next_stream = self.next_stream, self.next_stream + 2
            kinds[stream] = self.dice.choice(KINDS)
            left[stream] = size_of(self.dice)
            flags = END_STREAM | WITH_PRIORITY
            self.headers(CLIENT, flags, stream, self.asked(*kinds[stream]), PRIORITY)
        self.flush(CLIENT)
        self.pause(3000, 30000)
        waiting = list(left)
        while waiting:
            at = self.dice.between(0, min(len(waiting), 6) - 1)
            if self.answered(waiting[at], kinds, left):
                del waiting[at]
        self.flush(SERVER)
        if self.credit[SERVER] < self.WINDOW - 16384:
            self.grant(CLIENT, 0, self.WINDOW - self.credit[SERVER])
            self.flush(CLIENT)
        self.pause(10000, 500000)

    def asked(self, ending: str, destination: str) -> Fields:
        dice = self.dice
        if dice.often(NEW):
            self.cookie = new_cookie(dice)
        query = f"?v={dice.between(100, 999)}&lang=en" if dice.often(200) else ""
        path = f"/static/{destination}/{dice.getrandbits(40):010x}.{ending}{query}"
        first = [(":method", "GET"), (":authority", "www.example.com"), (":scheme", "https"), (":path", path)]
        return [
            *first,
            *BROWSER,
            ("sec-fetch-dest", destination),
            ("referer", "https://www.example.com/"),
            ("accept-encoding", "gzip, deflate, br, zstd"),
            ("accept-language", "en-US,en;q=0.9"),
            ("cookie", self.cookie),
        ]

    def answered(self, stream: int, kinds: dict[int, tuple[str, str]], left: dict[int, int]) -> bool:
        """Sends what comes next of a response, and answers whether it ends with that."""
        if stream in kinds:
            ending, _ = kinds.pop(stream)
            self.headers(SERVER, 0 if left[stream] else END_STREAM, stream, self.told(ending, left[stream]))
            return not left[stream]
        length = min(left[stream], 4096)
        left[stream] -= length
        # Some servers know at the last byte that it is the last, others behind it.
        is_end = not left[stream] and (length == 0 or self.dice.often(500))
        self.data(SERVER, END_STREAM * is_end, stream, length)
        self.spill(SERVER)
        return is_end

    def told(self, ending: str, length: int) -> Fields:
        dice, seconds = self.dice, self.line.capture.time // 1000000
        date = f"Sat, 28 Nov 2026 {seconds // 3600 % 24:02}:{seconds // 60 % 60:02}:{seconds % 60:02} GMT"
        fields = [(":status", "200" if length else "304"), ("server", "nginx"), ("date", date)]
        if length:
            fields += [("content-type", f"text/{ending}"), ("content-length", str(length))]
        fields += [("etag", f'"{dice.getrandbits(48):012x}"'), ("cache-control", "max-age=3600")]
        if dice.often(NEW):
            fields.append(("set-cookie", f"{new_cookie(dice)}; Path=/; Secure; HttpOnly"))
        return fields


def new_cookie(dice: Dice) -> str:
    return f"session={dice.getrandbits(128):032x}; theme=dark; _ga=GA1.2.{dice.getrandbits(30)}"


def size_of(dice: Dice) -> int:
    """The size of a response: most are short, and some only say that nothing has changed."""
    way = dice.between(0, 99)
    if way < 10:
        return 0
    if way < 55:
        return dice.between(200, 1500)
    return dice.between(1500, 8000) if way < 92 else dice.between(8000, 30000)


class Calls(Coded):
    """Unary calls of gRPC, a few at once."""

    def __init__(self, line: Line, number: int) -> None:
        super().__init__(line, number)
        self.open(((ENABLE_PUSH, 0), (MOST_IN_FRAME, 16384)), ((MOST_IN_FRAME, 16384),))
        self.trace = new_trace(self.dice)

    def some(self) -> None:
        dice, streams = self.dice, []
        for _ in range(dice.between(1, 4)):
            stream, self.next_stream = self.next_stream, self.next_stream + 2
            streams.append(stream)
            self.headers(CLIENT, 0, stream, self.asked())
            self.data(CLIENT, END_STREAM, stream, dice.between(10, 500))
            self.grant(SERVER, 0, FIRST_WINDOW - self.credit[CLIENT])
        self.flush(CLIENT)
        self.frame(SERVER, PING, 0, 0, dice.randbytes(8))
        self.flush(SERVER)
        self.frame(CLIENT, PING, ANSWER, 0, bytes(8))
        self.flush(CLIENT)
        self.pause(200, 5000)
        for stream in dice.sample(streams, len(streams)):
            self.answer(stream)
        self.refill(SERVER, 49152)
        self.flush(CLIENT)
        self.pause(0, 2000)

    def asked(self) -> Fields:
        if self.dice.often(NEW):
            self.trace = new_trace(self.dice)
        return [
            (":method", "POST"),
            (":scheme", "http"),
            (":path", self.dice.choice(METHODS)),
            (":authority", "shop.internal:50051"),
            ("content-type", "application/grpc"),
            ("user-agent", "grpc-go/1.68.0"),
            ("te", "trailers"),
            ("grpc-timeout", f"{self.dice.between(980, 1000)}m"),
            ("traceparent", self.trace),
        ]

    def answer(self, stream: int) -> None:
        self.headers(SERVER, 0, stream, [(":status", "200"), ("content-type", "application/grpc")])
        if self.dice.often(30):
            trailers = [("grpc-status", "5"), ("grpc-message", f"no item {self.dice.between(1, 9999)}")]
        else:
            self.data(SERVER, 0, stream, self.dice.between(20, 1000))
            trailers = [("grpc-status", "0"), ("grpc-message", "")]
        self.headers(SERVER, END_STREAM, stream, trailers)
        self.flush(SERVER)


def new_trace(dice: Dice) -> str:
    return f"00-{dice.getrandbits(128):032x}-{dice.getrandbits(64):016x}-01"


def web(capture: Capture, size: int) -> None:
    line, number = Line(capture), 0
    while capture.size < size:
        browser = Browser(line, number)
        for _ in range(20):
            if capture.size < size:
                browser.page()
        browser.close()
        number += 1


def api(capture: Capture, size: int) -> None:
    line, number = Line(capture), 0
    while capture.size < size:
        calls = Calls(line, number)
        for _ in range(2000):
            if capture.size < size:
                calls.some()
        calls.close()
        number += 1
