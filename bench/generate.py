"""Writes a capture for measuring: python3 -m bench.generate SHAPE MEGABYTES FILE

Shapes:
  bulk         one connection, one stream, a download of 16,384-byte DATA frames in full segments, with window updates
  small        one connection, many streams, DATA frames of a few bytes, a frame in a record
  connections  many short connections of a handshake, a request and a response
  chatty       one connection, one stream, many frames of a few bytes in each segment
  calls        one connection, a thousand streams that take turns with messages of 1,000 bytes
  streams      one connection, streams of three frames each
  early        such streams, after a grant that brings the connection's window above the largest
Shapes of what peers say, with header blocks, several frames in a segment, and acknowledgements of TCP:
  downloads    eight connections with one download each at a time, in DATA frames of 16,384 bytes, ample windows
  reorder      such downloads, with segments of the server late, twice, and overlapping
  mixed        one connection, up to some hundred streams at once, with small frames of any kind
  many         two hundred connections at once, each with a few requests
  grpc         one connection, a thousand streams without end, with messages of about 100 bytes both ways
  stalls       four connections of sixteen downloads, whose windows reach 0 again and again
  broken       eight connections at once, each with an error early in it, and much traffic after it
  requests     one connection, up to a hundred short downloads at once
  proxied      such downloads through a proxy, from four clients' connections over two to its upstream
  web          a browser's requests, up to 24 at once, with the field blocks that it sends
  api          calls of gRPC, up to four at once, with the field blocks that it sends
Shapes that a peer might make on purpose, each with as much of one thing as of the other:
  closed       streams that are reset, then acknowledgements that move the initial window
  strays       segments of pairs that were never seen to open, one for each pair
  empty        frames of nine bytes
  hollow       records of no byte
  openings     SYNs, each of which opens a connection
  backwards    one connection, segments of a small frame each, the last one captured first
  overlapping  one connection, segments of 1,400 bytes that begin 100 bytes after the one before
  grants       WINDOW_UPDATE frames on one stream
  settings     SETTINGS frames and their acknowledgements
  waiting      SETTINGS frames that nobody acknowledges
  crumbs       segments of one byte
  promised     streams that the server promises
  loud         twenty connections like chatty by turns, each with a grant of 0 bytes for its stream
  colliding    strays of pairs whose two ends differ in the same bits
  live         open streams, then acknowledgements that move the window of each
  live_early   such streams, after a grant that brings the connection's window above the largest
The same words always give the same bytes.
"""

import struct
import sys
from collections.abc import Callable

from bench.field_blocks import api, web
from bench.peers import broken, downloads, grpc, many, mixed, proxied, reorder, requests, stalls
from bench.wire import ACK, CLIENT, SERVER, SYN, Capture, Connection, frame, window_update

Shape = Callable[[Capture, int], None]


def bulk(capture: Capture, size: int) -> None:
    one = Connection(capture, 40000)
    one.send(CLIENT, frame(1, 4, 1))
    while capture.size < size:
        one.send(SERVER, frame(0, 0, 1, bytes(16384)))
        one.send(CLIENT, window_update(0, 16384) + window_update(1, 16384))


def small(capture: Capture, size: int) -> None:
    one = Connection(capture, 40000)
    stream = 1
    while capture.size < size:
        one.send(CLIENT, frame(1, 4, stream))
        for _ in range(20):
            one.send(SERVER, frame(0, 0, stream, b"abcd"))
        one.send(SERVER, frame(0, 1, stream, b"end"))
        one.send(CLIENT, frame(0, 1, stream))
        one.send(CLIENT, window_update(0, 83))
        stream += 2


def connections(capture: Capture, size: int) -> None:
    port = 1024
    while capture.size < size:
        one = Connection(capture, port)
        one.send(CLIENT, frame(1, 5, 1))
        one.send(SERVER, frame(1, 4, 1) + frame(0, 1, 1, bytes(1000)))
        port += 1
        if port == 65536:
            port = 1024
            capture.next_client()


def chatty(capture: Capture, size: int) -> None:
    one = Connection(capture, 40000)
    one.send(CLIENT, frame(1, 4, 1))
    while capture.size < size:
        chat(one)


def loud(capture: Capture, size: int) -> None:
    ones = [Connection(capture, 40000 + number) for number in range(20)]
    for one in ones:
        one.send(CLIENT, frame(1, 4, 1) + window_update(1, 0))
    while capture.size < size:
        for one in ones:
            chat(one)


def chat(one: Connection) -> None:
    one.send(SERVER, 60 * frame(0, 0, 1, b"abcdefgh"))
    one.send(CLIENT, 4 * (window_update(0, 120) + window_update(1, 120)))
    one.send(CLIENT, 30 * frame(0, 0, 1, b"xyz"))
    one.send(SERVER, 2 * (window_update(0, 45) + window_update(1, 45)))


def calls(capture: Capture, size: int) -> None:
    one = Connection(capture, 40000)
    ids = range(1, 2001, 2)
    for stream in ids:
        one.send(CLIENT, frame(1, 4, stream))
    while capture.size < size:
        for stream in ids:
            one.send(CLIENT, frame(0, 0, stream, bytes(1000)))
            one.send(SERVER, window_update(0, 1000) + window_update(stream, 1000))


def streams(capture: Capture, size: int) -> None:
    three_frames_each(capture, size, Connection(capture, 40000))


def early(capture: Capture, size: int) -> None:
    one = Connection(capture, 40000)
    one.send(CLIENT, window_update(0, 2**31 - 1))
    three_frames_each(capture, size, one)


def three_frames_each(capture: Capture, size: int, one: Connection) -> None:
    stream = 1
    while capture.size < size:
        one.send(CLIENT, frame(1, 5, stream))
        one.send(SERVER, frame(1, 4, stream) + frame(0, 1, stream, bytes(100)))
        one.send(CLIENT, window_update(0, 100))
        stream += 2


def closed(capture: Capture, size: int) -> None:
    one = Connection(capture, 40000)
    stream = 1
    while capture.size < size / 2:
        one.send(CLIENT, frame(1, 4, stream) + frame(3, 0, stream, bytes(4)))
        stream += 2
    value = 0
    while capture.size < size:
        value = 65535 - value
        one.send(CLIENT, frame(4, 0, 0, struct.pack(">HI", 4, value)))
        one.send(SERVER, frame(4, 1, 0))


def strays(capture: Capture, size: int) -> None:
    port = 1
    while capture.size < size:
        capture.segment((port, 80), CLIENT, 1, ACK, b"a")
        port += 1
        if port == 65536:
            port = 1
            capture.next_client()


def empty(capture: Capture, size: int) -> None:
    one = Connection(capture, 40000)
    one.send(CLIENT, frame(1, 4, 1))
    while capture.size < size:
        one.send(CLIENT, 160 * frame(0, 0, 1))


def hollow(capture: Capture, size: int) -> None:
    while capture.size < size:
        capture.record(b"")


def openings(capture: Capture, size: int) -> None:
    while capture.size < size:
        capture.segment((40000, 80), CLIENT, capture.records, SYN)


def backwards(capture: Capture, size: int) -> None:
    one = Connection(capture, 40000)
    one.send(CLIENT, frame(1, 4, 1))
    payload = frame(0, 0, 1, b"abcdefghijk")
    for number in reversed(range((size - capture.size) // 90)):
        capture.segment(one.ports, CLIENT, one.next[CLIENT] + number * len(payload), ACK, payload)


def overlapping(capture: Capture, size: int) -> None:
    one = Connection(capture, 40000)
    one.send(CLIENT, frame(1, 4, 1))
    payload = 14 * frame(0, 0, 1, bytes(91))
    while capture.size < size:
        capture.segment(one.ports, CLIENT, one.next[CLIENT], ACK, payload)
        one.next[CLIENT] += 100


def grants(capture: Capture, size: int) -> None:
    one = Connection(capture, 40000)
    one.send(CLIENT, frame(1, 4, 1))
    while capture.size < size:
        one.send(SERVER, 110 * window_update(1, 1))


def settings(capture: Capture, size: int) -> None:
    one = Connection(capture, 40000)
    while capture.size < size:
        one.send(CLIENT, 90 * frame(4, 0, 0, struct.pack(">HI", 4, 65535)))
        one.send(SERVER, 90 * frame(4, 1, 0))


def waiting(capture: Capture, size: int) -> None:
    one = Connection(capture, 40000)
    while capture.size < size:
        one.send(CLIENT, 160 * frame(4, 0, 0))


def crumbs(capture: Capture, size: int) -> None:
    one = Connection(capture, 40000)
    one.send(CLIENT, frame(1, 4, 1))
    while capture.size < size:
        one.send(CLIENT, frame(0, 0, 1), most=1)


def promised(capture: Capture, size: int) -> None:
    one = Connection(capture, 40000)
    one.send(CLIENT, frame(1, 4, 1))
    stream = 2
    while capture.size < size:
        one.send(SERVER, b"".join(frame(5, 4, 1, struct.pack(">I", stream + 2 * i)) for i in range(110)))
        stream += 220


def colliding(capture: Capture, size: int) -> None:
    number = 0
    while capture.size < size:
        port = 1 + number % 65535
        capture.addresses = (0x0A000000 + number, 0x0B000000 + number)
        capture.segment((port, port), CLIENT, 1, ACK, b"a")
        number += 1


def live(capture: Capture, size: int) -> None:
    many_moves(capture, size, Connection(capture, 40000))


def live_early(capture: Capture, size: int) -> None:
    one = Connection(capture, 40000)
    one.send(CLIENT, window_update(0, 2**31 - 1))
    many_moves(capture, size, one)


def many_moves(capture: Capture, size: int, one: Connection) -> None:
    stream = 1
    while capture.size < size / 2:
        one.send(CLIENT, frame(1, 4, stream))
        stream += 2
    value = 1
    while capture.size < size:
        value = 65536 - value
        one.send(SERVER, frame(4, 0, 0, struct.pack(">HI", 4, value)))
        one.send(CLIENT, frame(4, 1, 0))


USUAL = (bulk, small, connections, chatty, calls, streams, early)
TALKS: tuple[Shape, ...] = (downloads, reorder, mixed, many, grpc, stalls, broken, requests, proxied, web, api)
HOSTILE = (
    closed,
    strays,
    colliding,
    empty,
    hollow,
    openings,
    backwards,
    overlapping,
    grants,
    settings,
    waiting,
    crumbs,
    promised,
    loud,
)
QUADRATIC = (live, live_early)
SHAPES: dict[str, Shape] = {each.__name__: each for each in (*USUAL, *TALKS, *HOSTILE, *QUADRATIC)}


def main() -> None:
    if len(sys.argv) != 4 or sys.argv[1] not in SHAPES:
        sys.exit(__doc__)
    with open(sys.argv[3], "wb", buffering=1 << 20) as file:
        SHAPES[sys.argv[1]](Capture(file), int(float(sys.argv[2]) * 1000000))


if __name__ == "__main__":
    main()
