"""Captures of which costs_test.py counts what they cost. Most are shapes of bench/generate.py. Those that are made here
each take a way that none of them does.
"""

import pathlib
import subprocess
import sys
from collections.abc import Callable, Iterable
from typing import NamedTuple

from tests.captures import ACK, BEGINNINGS, PREFACE, SYN, SYN_ACK, Capture, frame_of

TOP = pathlib.Path(__file__).resolve().parents[2]

# An acknowledgement that answers nothing: it is told and ends nothing, so frames go through the rounds.
UNMATCHED = frame_of(["ACK"])
SETTINGS, SETTINGS_ACK = frame_of(["SETTINGS"]), frame_of(["ACK"])


def opened(first: bytes = b"") -> Capture:
    """A connection that is opened, with what its client sends first."""
    capture = Capture()
    for line in BEGINNINGS["opened"].splitlines():
        capture.step(line)
    if first:
        capture.send("C", first)
    return capture


def headers(capture: Capture, streams: Iterable[int]) -> None:
    """Requests that open these streams, 40 in a segment."""
    requests = [frame_of(["HEADERS", str(stream)]) for stream in streams]
    for start in range(0, len(requests), 40):
        capture.send("C", b"".join(requests[start : start + 40]))


def take_turns(capture: Capture, streams: Iterable[int], rounds: int) -> None:
    """Streams that take turns with a message of 100 bytes, which is granted back to the connection."""
    messages = [frame_of(["DATA", str(stream), "100"]) for stream in streams]
    granted = frame_of(["WINDOW_UPDATE", "0", "100"])
    for _ in range(rounds):
        for message in messages:
            capture.send("C", message)
            capture.send("S", granted)


def loud_turns(quarters: int) -> Capture:
    """500 streams by turns, after a finding, with a packet for each frame."""
    capture = opened(UNMATCHED)
    streams = range(1, 250 * quarters, 2)
    headers(capture, streams)
    take_turns(capture, streams, 12)
    return capture


def loud_crowd(quarters: int) -> Capture:
    """1,000 streams by turns, 100 of their frames in a segment, after a finding: so most is to look streams up."""
    capture = opened(UNMATCHED)
    streams = range(1, 500 * quarters, 2)
    headers(capture, streams)
    turn = [frame_of(["DATA", str(stream), "0"]) for stream in streams]
    for _ in range(60):
        for start in range(0, len(turn), 100):
            capture.send("C", b"".join(turn[start : start + 100]))
    return capture


def loud_stream(quarters: int) -> Capture:
    """One stream of 60,000 frames with a finding of its own, so that its frames are gathered."""
    capture = opened()
    headers(capture, [1])
    capture.send("S", frame_of(["WINDOW_UPDATE", "1", "0"]))
    for _ in range(100 * quarters):
        capture.send("C", 150 * frame_of(["DATA", "1", "0"]))
    return capture


def shuffled_streams(quarters: int) -> Capture:
    """20,010 streams that are met out of order, after a finding: in rounds of several workers a table holds them."""
    capture = opened(UNMATCHED)
    # These are primes, so each number comes once.
    prime = {1: 5_003, 4: 20_011, 16: 80_021}[quarters]
    streams = [2 * (7919 * number % prime) + 1 for number in range(1, prime)]
    frames = [frame_of(["PRIORITY", str(stream), "5"]) for stream in streams]
    for start in range(0, len(frames), 90):
        capture.send("C", b"".join(frames[start : start + 90]))
    return capture


def loud_connections(quarters: int) -> Capture:
    """2,500 connections, each with a finding."""
    capture = Capture()
    for port in range(1000, 1000 + 625 * quarters):
        opening(capture, (0x0A000001, port), (0x0A000002, 80))
        capture.send("C", PREFACE + SETTINGS)
        capture.send("S", SETTINGS + SETTINGS_ACK)
        capture.send("C", SETTINGS_ACK + UNMATCHED)
    return capture


def short_connections(quarters: int) -> Capture:
    """12,000 connections of four packets each: many jobs for workers that share them out, and little else."""
    capture = Capture()
    for number in range(3000 * quarters):
        opening(capture, (0x0A000001, 1024 + number), (0x0A000002, 80))
        capture.send("C", b"")
        capture.send("S", b"")
    return capture


def larger_windows(quarters: int) -> Capture:
    """A server whose SETTINGS let streams send more, as of most servers, and 300 streams by turns."""
    capture = opened()
    capture.send("S", frame_of(["SETTINGS", "4", "1048576"]))
    streams = range(1, 150 * quarters, 2)
    headers(capture, streams)
    capture.send("C", SETTINGS_ACK)
    take_turns(capture, streams, 20)
    return capture


def stalls(quarters: int) -> Capture:
    """A server that lets each stream send one byte at a time, so that each frame of 100 streams begins a stall."""
    capture = opened()
    capture.send("S", frame_of(["SETTINGS", "4", "1"]))
    streams = range(1, 50 * quarters, 2)
    headers(capture, streams)
    capture.send("C", SETTINGS_ACK)
    granted = frame_of(["WINDOW_UPDATE", "0", "1"])
    for _ in range(50):
        for stream in streams:
            capture.send("C", frame_of(["DATA", str(stream), "1"]))
            capture.send("S", frame_of(["WINDOW_UPDATE", str(stream), "1"]) + granted)
    return capture


def far_streams(quarters: int) -> Capture:
    """A client that opens every eighth stream, so that none but the first stands where it is looked for first."""
    capture = opened()
    streams = range(1, 600 * quarters, 8)
    headers(capture, streams)
    take_turns(capture, streams, 20)
    return capture


def opening(capture: Capture, client: tuple[int, int], server: tuple[int, int]) -> None:
    """The handshake of a connection, whose sides C and S then are."""
    capture.ends = {"C": (client, server), "S": (server, client)}
    capture.syn("C", 1000, SYN)
    capture.syn("S", 5000, SYN_ACK)


def pairs_of_one(count: int, lower: bool) -> Capture:
    """So many pairs that share an endpoint, which is the lower one of each or the higher one."""
    capture = Capture()
    one = (0x0A000001 if lower else 0x0A000003, 80)
    for port in range(1024, 1024 + count):
        capture.segment((0x0A000002, port), one, 1, ACK, b"a")
    return capture


def one_server_below(quarters: int) -> Capture:
    """10,000 pairs."""
    return pairs_of_one(2500 * quarters, lower=True)


def one_server_above(quarters: int) -> Capture:
    """10,000 pairs."""
    return pairs_of_one(2500 * quarters, lower=False)


OWN: tuple[Callable[[int], Capture], ...] = (
    loud_turns,
    loud_crowd,
    loud_stream,
    shuffled_streams,
    loud_connections,
    short_connections,
    larger_windows,
    stalls,
    far_streams,
    one_server_below,
    one_server_above,
)
# Those of bench/generate.py, with their size in megabytes.
GENERATED = {
    "bulk": 4,
    "small": 2,
    "connections": 2,
    "chatty": 2,
    "calls": 3,
    "streams": 2,
    "early": 2,
    "closed": 1,
    "strays": 1,
    "colliding": 1,
    "empty": 1,
    "hollow": 1,
    "openings": 1,
    "backwards": 2,
    "overlapping": 2,
    "grants": 1,
    "settings": 1,
    "waiting": 1,
    "crumbs": 1,
    "promised": 1,
    "live": 0.1,
}
# How many workers share the work of those that are not shared by four.
SEVERAL = {"short_connections": 16}


class Case(NamedTuple):
    """A capture, the words that it is audited with, and how many workers are several."""

    name: str
    words: list[str]

    @property
    def title(self) -> str:
        return " ".join([self.name, *self.words])

    @property
    def workers(self) -> int:
        return SEVERAL.get(self.name, 4)


def cases() -> list[Case]:
    names = [*GENERATED, *(each.__name__ for each in OWN)]
    return [Case(name, []) for name in names] + [Case(name, ["--frames"]) for name in names]


def write(name: str, path: pathlib.Path, quarters: int = 4) -> None:
    """Writes the capture of this name: the whole, or with one quarter a capture of a fourth of it."""
    if name in GENERATED:
        size = GENERATED[name] * quarters / 4
        subprocess.run([sys.executable, "-m", "bench.generate", name, str(size), path], cwd=TOP, check=True)
        return
    make = next(each for each in OWN if each.__name__ == name)
    path.write_bytes(make(quarters).bytes)
