"""Shapes of what peers say, with header blocks without tables."""

import struct
from collections.abc import Callable

from bench.talks import (
    ANSWER,
    ENABLE_PUSH,
    END_STREAM,
    FIRST_WINDOW,
    HEADERS,
    INITIAL_WINDOW,
    MOST_STREAMS,
    PING,
    PRIORITY,
    RST_STREAM,
    SETTINGS,
    WINDOW_UPDATE,
    Line,
    Talk,
)
from bench.wire import CLIENT, SERVER, Capture

CANCEL = struct.pack(">I", 8)


def downloads(capture: Capture, size: int, shuffles: bool = False) -> None:
    line = Line(capture, shuffles)
    talks = [Talk(line, number) for number in range(8)]
    streams, left, owed = [0] * 8, [0] * 8, [0] * 8
    for talk in talks:
        talk.open(((ENABLE_PUSH, 0), (INITIAL_WINDOW, 6 << 20)))
        talk.grant(CLIENT, 0, 15 << 20)
    while capture.size < size:
        at = line.dice.between(0, 7)
        talk = talks[at]
        if not left[at]:
            streams[at] = talk.request(END_STREAM)
            talk.flush(CLIENT)
            talk.response(0, streams[at])
            left[at] = line.dice.between(60, 2000)
        for _ in range(min(line.dice.between(1, 8), left[at])):
            left[at] -= 1
            talk.data(SERVER, 0 if left[at] else END_STREAM, streams[at], 16384)
            owed[at] += 16384
            talk.spill(SERVER)
        if not left[at]:
            talk.flush(SERVER)
        if owed[at] >= 1 << 20 or not left[at]:
            talk.grant(CLIENT, 0, owed[at])
            if left[at]:
                talk.grant(CLIENT, streams[at], owed[at])
            owed[at] = 0
            talk.flush(CLIENT)
    line.finish()


def reorder(capture: Capture, size: int) -> None:
    downloads(capture, size, shuffles=True)


def mixed(capture: Capture, size: int) -> None:
    line = Line(capture)
    talk, dice = Talk(line, 0), line.dice
    talk.open(((ENABLE_PUSH, 0),))
    live: list[list[int]] = []  # a stream, and how many frames it still gets
    while capture.size < size:
        side = dice.between(CLIENT, SERVER)
        for _ in range(dice.between(1, 12)):
            if len(live) < 20 or side == CLIENT and len(live) < 300 and dice.often(60):
                stream = talk.request(0)
                talk.flush(CLIENT)
                talk.response(0, stream)
                live.append([stream, dice.between(10, 200)])
                continue
            at = dice.between(0, len(live) - 1)
            if live[at][1]:
                live[at][1] -= 1
                one_of_many(talk, side, live[at][0])
            else:
                ended(talk, side, live[at][0])
                live[at] = live[-1]
                live.pop()
        talk.refill(CLIENT, 40000)
        talk.refill(SERVER, 40000)
        talk.flush(side)
        talk.flush(1 - side)


def one_of_many(talk: Talk, side: int, stream: int) -> None:
    """A frame of any kind that a stream may have, mostly of DATA."""
    way = talk.dice.between(0, 99)
    if way < 2:
        talk.frame(side, PING, 0, 0, b"\7" * 8)
        talk.frame(1 - side, PING, ANSWER, 0, b"\7" * 8)
    elif way < 8:
        talk.grant(side, stream, talk.dice.between(1, 100))
    elif way < 10:
        talk.frame(side, PRIORITY, 0, stream, b"\0\0\0\0\x0f")
    else:
        talk.data(side, 0, stream, talk.dice.between(0, 40))


def ended(talk: Talk, side: int, stream: int) -> None:
    if talk.dice.often(100):
        talk.frame(side, RST_STREAM, 0, stream, CANCEL)
        return
    talk.data(CLIENT, END_STREAM, stream, talk.dice.between(0, 20))
    talk.data(SERVER, END_STREAM, stream, 0)


def many(capture: Capture, size: int) -> None:
    line = Line(capture)
    dice = line.dice
    live: list[tuple[Talk, list[int]]] = []  # with how many requests are to come
    number = 0
    while capture.size < size:
        while len(live) < 200:
            live.append((Talk(line, number), [-1]))
            number += 1
        at = dice.between(0, len(live) - 1)
        talk, left = live[at]
        if left[0] < 0:
            talk.open(((ENABLE_PUSH, 0), (MOST_STREAMS, 100)))
            left[0] = dice.between(1, 4)
        elif left[0]:
            left[0] -= 1
            stream = talk.request(END_STREAM)
            talk.flush(CLIENT)
            talk.response(0, stream)
            talk.data(SERVER, 0, stream, dice.between(20, 1500))
            talk.data(SERVER, END_STREAM, stream, dice.between(0, 300))
            talk.flush(SERVER)
            talk.refill(SERVER, 62000)
            talk.flush(CLIENT)
        else:
            talk.close()
            live[at] = live[-1]
            live.pop()


def grpc(capture: Capture, size: int) -> None:
    line = Line(capture)
    talk, dice = Talk(line, 0), line.dice
    talk.open(((ENABLE_PUSH, 0),))
    for _ in range(1000):
        stream = talk.request(0)
        talk.flush(CLIENT)
        talk.response(0, stream)
        talk.flush(SERVER)
    spent = ([0] * 1000, [0] * 1000)
    while capture.size < size:
        side = dice.between(CLIENT, SERVER)
        for _ in range(dice.between(1, 3)):
            at, length = dice.between(0, 999), dice.between(60, 140)
            talk.data(side, 0, 2 * at + 1, length)
            spent[side][at] += length
            if spent[side][at] > 32768:
                talk.flush(side)
                talk.grant(1 - side, 2 * at + 1, spent[side][at])
                spent[side][at] = 0
        talk.flush(side)
        talk.refill(side, 32768)
        talk.flush(1 - side)


class Busy:
    """A connection with sixteen streams, whose windows reach 0 again and again."""

    def __init__(self, line: Line, number: int) -> None:
        self.talk, self.window = Talk(line, number), 8192
        self.talk.open(((ENABLE_PUSH, 0), (INITIAL_WINDOW, self.window)))
        self.credit: dict[int, int] = {}
        for _ in range(16):
            stream = self.talk.request(0)
            self.talk.flush(CLIENT)
            self.talk.response(0, stream)
            self.credit[stream] = self.window
        self.talk.flush(SERVER)

    def spend(self) -> None:
        """Down to 0 on the connection or on all streams."""
        talk = self.talk
        while talk.credit[SERVER] > 0 and (able := [stream for stream, left in self.credit.items() if left > 0]):
            stream = able[talk.dice.between(0, len(able) - 1)]
            length = min(talk.dice.between(100, 4000), self.credit[stream], talk.credit[SERVER])
            self.credit[stream] -= length
            talk.data(SERVER, 0, stream, length)
        talk.flush(SERVER)

    def change(self) -> None:
        """Another initial window: credits move, below 0 too."""
        window = 2048 if self.window == 8192 else 8192
        self.talk.settings(CLIENT, ((INITIAL_WINDOW, window),))
        self.talk.flush(CLIENT)
        self.talk.frame(SERVER, SETTINGS, ANSWER, 0)
        self.talk.flush(SERVER)
        for stream in self.credit:
            self.credit[stream] += window - self.window
        self.window = window

    def grant(self) -> None:
        if self.talk.credit[SERVER] == 0:
            self.talk.grant(CLIENT, 0, FIRST_WINDOW)
        for stream, left in self.credit.items():
            if left <= 0:
                self.talk.grant(CLIENT, stream, 8192 - left)
                self.credit[stream] = 8192
        self.talk.flush(CLIENT)


def stalls(capture: Capture, size: int) -> None:
    line = Line(capture)
    busy = [Busy(line, number) for number in range(4)]
    while capture.size < size:
        one = busy[line.dice.between(0, 3)]
        one.spend()
        if line.dice.often(20):
            one.change()
        one.grant()


# What breaks a rule for the whole connection, by a side.
ERRORS: tuple[Callable[[Talk, int], None], ...] = (
    lambda talk, side: talk.frame(side, PING, 0, 0, bytes(7)),
    lambda talk, side: talk.grant(side, 0, 0),
    lambda talk, side: talk.data(side, 0, 99999, 100),
    lambda talk, side: talk.frame(side, WINDOW_UPDATE, 0, 0, b"\x7f\xff\xff\xff"),
    lambda talk, side: talk.settings(side, ((INITIAL_WINDOW, 1 << 31),)),
    lambda talk, side: talk.frame(side, RST_STREAM, 0, 0, bytes(4)),
    lambda talk, side: talk.frame(side, HEADERS, 0, 1, b"\x82"),
)


def broken(capture: Capture, size: int) -> None:
    line = Line(capture)
    dice = line.dice
    live: list[tuple[Talk, list[int]]] = []  # with how many turns are to come
    number = 0
    while capture.size < size:
        while len(live) < 8:
            live.append((in_error(line, number), [dice.between(200, 2000)]))
            number += 1
        at = dice.between(0, len(live) - 1)
        talk, turns = live[at]
        side = dice.between(CLIENT, SERVER)
        for _ in range(dice.between(1, 10)):
            stream, way = 2 * dice.between(0, 19) + 1, dice.between(0, 9)
            if way == 0:
                talk.grant(side, stream, 1000)
            elif way == 1:
                talk.frame(side, PING, 0, 0, bytes(8))
            else:
                talk.data(side, 0, stream, dice.between(1000, 16384) if way == 2 else dice.between(0, 300))
        talk.flush(side)
        turns[0] -= 1
        if not turns[0]:
            talk.close()
            live[at] = live[-1]
            live.pop()


def in_error(line: Line, number: int) -> Talk:
    """A connection of twenty streams, which is broken early."""
    talk = Talk(line, number)
    talk.open(((ENABLE_PUSH, 0), (INITIAL_WINDOW, 1 << 30)))
    talk.grant(CLIENT, 0, 1 << 30)
    streams = [talk.request(0) for _ in range(20)]
    talk.flush(CLIENT)
    for stream in streams:
        talk.response(0, stream)
    talk.flush(SERVER)
    ERRORS[number % len(ERRORS)](talk, number % 2)
    talk.flush(number % 2)
    return talk


def proxied(capture: Capture, size: int) -> None:
    """The server of the back connections has the answers of both."""
    line = Line(capture)
    dice = line.dice
    fronts, backs = [Talk(line, 5 * number) for number in range(4)], [Talk(line, 5 * number + 1) for number in range(2)]
    for talk in fronts + backs:
        talk.open(((ENABLE_PUSH, 0),))
    waiting: list[tuple[tuple[Talk, int], tuple[Talk, int]]] = []
    while capture.size < size:
        for _ in range(dice.between(1, 4)):
            front, back = fronts[dice.between(0, 3)], backs[dice.between(0, 1)]
            path = front.path()
            waiting.append(((front, front.request(END_STREAM, path)), (back, back.request(END_STREAM, path))))
            front.flush(CLIENT)
            back.flush(CLIENT)
        while len(waiting) > 20 or waiting and dice.often(600):
            at = dice.between(0, len(waiting) - 1)
            waiting[at], waiting[-1] = waiting[-1], waiting[at]
            length = dice.between(10, 3000)
            for talk, stream in reversed(waiting.pop()):
                talk.response(0, stream)
                talk.data(SERVER, END_STREAM, stream, length)
                talk.flush(SERVER)
                talk.refill(SERVER, 30000)
                talk.flush(CLIENT)


def requests(capture: Capture, size: int) -> None:
    line = Line(capture)
    talk, dice = Talk(line, 0), line.dice
    talk.open(((ENABLE_PUSH, 0),))
    waiting: list[int] = []
    while capture.size < size:
        waiting += [talk.request(END_STREAM) for _ in range(dice.between(1, 4))]
        talk.flush(CLIENT)
        while len(waiting) > 100 or waiting and dice.often(600):
            at = dice.between(0, len(waiting) - 1)
            waiting[at], waiting[-1] = waiting[-1], waiting[at]
            stream = waiting.pop()
            if dice.often(20):
                talk.frame(CLIENT, RST_STREAM, 0, stream, CANCEL)
                continue
            talk.response(0, stream)
            talk.data(SERVER, END_STREAM, stream, dice.between(10, 300))
        talk.flush(SERVER)
        talk.refill(SERVER, 30000)
        talk.flush(CLIENT)
