"""Reports of h2audit derived from what tshark sees, by RFC 9113, 5.2 and 6.9, and docs/REPORT_FORMAT.md.

Nothing here is h2audit's. tshark gives packets, times and frames, the files of records the bytes of each side. It is
for captures of whole connections whose every frame tshark shows and whose only faults are overruns, as those of
tests/tls.
"""

import collections
import subprocess
from collections.abc import Iterator
from typing import NamedTuple

from tools.tests import import_tools as tools

CLIENT, SERVER = 0, 1
SIDES = ("client", "server")
DATA, HEADERS, RST_STREAM, SETTINGS, WINDOW_UPDATE = 0, 1, 3, 4, 8
END_STREAM, ACK = 1, 1
SYN, SYN_ACK = 2, 18
INITIAL_WINDOW = 65535
RANKS = (
    "connection-overrun", "stream-overrun", "connection-stall-end", "connection-stall-begin", "stream-stall-end",
    "stream-stall-begin",
)  # fmt: skip


class Packet(NamedTuple):
    number: int
    nanos: int
    stream: int
    source: str
    target: str
    is_opening: bool


class Frame(NamedTuple):
    packet: Packet
    side: int
    kind: int
    length: int
    stream: int
    flags: int
    window: int | None  # of settings that have one
    grant: int | None


class Line(NamedTuple):
    frame: int
    rank: int
    stream: int
    side: int
    value: int


def fields(name: str, shown: tuple[str, ...], *words: str) -> list[list[str]]:
    """The rows that tshark shows of a capture, each a list of words."""
    options = ["-o", "tcp.reassemble_out_of_order:TRUE", "-o", "tcp.try_heuristic_first:TRUE"]
    if keys := tools.key_log_of(name):
        options += ["-o", f"tls.keylog_file:{keys[1]}"]
    asked = [word for field in shown for word in ("-e", field)]
    run = subprocess.run(["tshark", "-n", *options, "-r", tools.capture_named(name), *words, "-T", "fields", *asked],
                         capture_output=True, text=True, check=True)  # fmt: skip
    return [line.split("\t") for line in run.stdout.splitlines()]


def packets_of(name: str) -> Iterator[Packet]:
    shown = ("frame.number", "frame.time_epoch", "tcp.stream", "ip.src", "ip.dst", "ipv6.src", "ipv6.dst",
             "tcp.srcport", "tcp.dstport", "tcp.flags")  # fmt: skip
    for number, time, stream, source, target, source6, target6, from_port, to_port, flags in fields(name, shown):
        seconds, fraction = time.split(".")
        hosts = (source, target) if source else (f"[{source6}]", f"[{target6}]")
        nanos, is_opening = int(seconds) * 10**9 + int(fraction), int(flags, 16) & (SYN | SYN_ACK) == SYN
        ends = f"{hosts[0]}:{from_port}", f"{hosts[1]}:{to_port}"
        yield Packet(int(number), nanos, int(stream), *ends, is_opening)


def frames_of(name: str, packets: dict[int, Packet]) -> dict[int, list[Frame]]:
    """Frames by connection, in order. Values of settings and grants stand in rows of their own, from which their frames
    take them.
    """
    clients = {one.stream: one.source for one in packets.values() if one.is_opening}
    found: dict[int, list[Frame]] = collections.defaultdict(list)
    shown = ("frame.number", "http2.type", "http2.length", "http2.streamid", "http2.flags", "http2.settings.id",
             "http2.settings.initial_window_size", "http2.window_update.window_size_increment")  # fmt: skip
    for number, *rows in fields(name, shown, "-Y", "http2.type"):
        packet = packets[int(number)]
        kinds, lengths, streams, flags, settings, windows, grants = (row.split(",") if row else [] for row in rows)
        side = CLIENT if packet.source == clients[packet.stream] else SERVER
        for kind, length, stream, flag in zip(map(int, kinds), map(int, lengths), map(int, streams), flags):
            window = grant = None
            if kind == SETTINGS:
                taken, settings = settings[: length // 6], settings[length // 6 :]
                window = int(windows.pop(0)) if "4" in taken else None
            elif kind == WINDOW_UPDATE:
                grant = int(grants.pop(0))
            found[packet.stream].append(Frame(packet, side, kind, length, stream, int(flag, 16), window, grant))
    return found


class Windows:
    """The windows of a connection, each with the side that sends through it, and the lines that they give."""

    def __init__(self) -> None:
        self.credit = {(side, 0): INITIAL_WINDOW for side in (CLIENT, SERVER)}
        self.initial = [INITIAL_WINDOW, INITIAL_WINDOW]
        # The windows of each side's settings that were not acknowledged yet.
        self.announced: tuple[list[int | None], list[int | None]] = ([], [])
        self.lines: list[Line] = []
        self.frame = 0

    def line(self, kind: str, side: int, stream: int) -> None:
        scope = "stream" if stream else "connection"
        self.lines.append(Line(self.frame, RANKS.index(f"{scope}-{kind}"), stream, side, self.credit[side, stream]))

    def add(self, side: int, stream: int, change: int) -> None:
        before = self.credit[side, stream]
        self.credit[side, stream] = after = before + change
        if change < 0 and after < 0:
            self.line("overrun", side, stream)
        if before > 0 >= after:
            self.line("stall-begin", side, stream)
        elif before <= 0 < after:
            self.line("stall-end", side, stream)

    def end(self, side: int, stream: int) -> None:
        if (side, stream) in self.credit:
            if self.credit[side, stream] <= 0:
                self.line("stall-end", side, stream)
            del self.credit[side, stream]

    def take(self, frame: Frame) -> None:
        self.frame += 1
        side, other = frame.side, 1 - frame.side
        if frame.kind == HEADERS and side == CLIENT and (CLIENT, frame.stream) not in self.credit:
            for one in (CLIENT, SERVER):
                self.credit[one, frame.stream] = self.initial[one]
        elif frame.kind == DATA:
            for window in (0, frame.stream):
                self.add(side, window, -frame.length)
        elif frame.kind == WINDOW_UPDATE and (other, frame.stream) in self.credit:
            assert frame.grant is not None
            self.add(other, frame.stream, frame.grant)
        elif frame.kind == SETTINGS:
            self.settings(frame)
        if frame.kind in (DATA, HEADERS) and frame.flags & END_STREAM:
            self.end(side, frame.stream)
        elif frame.kind == RST_STREAM:
            self.end(CLIENT, frame.stream)
            self.end(SERVER, frame.stream)

    def settings(self, frame: Frame) -> None:
        """Those of one side hold for the other's windows once it acknowledges them."""
        if not frame.flags & ACK:
            self.announced[frame.side].append(frame.window)
            return
        window = self.announced[1 - frame.side].pop(0)
        if window is not None:
            change, self.initial[frame.side] = window - self.initial[frame.side], window
            for side, stream in list(self.credit):
                if side == frame.side and stream:
                    self.add(side, stream, change)


def lines_of(frames: list[Frame]) -> Iterator[str]:
    """The lines of a connection behind its flows."""
    windows = Windows()
    for frame in frames:
        windows.take(frame)
    lines = sorted(windows.lines)
    for one in lines:
        packet = frames[one.frame - 1].packet
        said = f"{SIDES[one.side]} {RANKS[one.rank]} stream {one.stream} value {one.value}"
        yield f"frame {one.frame} record {packet.number} time {packet.nanos} {said}"
    for begin in (one for one in lines if RANKS[one.rank].endswith("stall-begin")):
        ends = (one for one in lines if one.frame > begin.frame and (one.side, one.stream) == (begin.side, begin.stream)
                and RANKS[one.rank].endswith("stall-end"))  # fmt: skip
        end, start = next(ends, None), frames[begin.frame - 1].packet.nanos
        said = f"to {end.frame} nanos {frames[end.frame - 1].packet.nanos - start}" if end else "open"
        yield f"stall {SIDES[begin.side]} stream {begin.stream} from {begin.frame} {said}"
    yield "audit of all frames"


def derived(name: str) -> Iterator[str]:
    """The report of a capture whose every packet is a whole segment of a connection of HTTP/2."""
    packets = {one.number: one for one in packets_of(name)}
    frames = frames_of(name, packets)
    sizes: collections.Counter[tuple[int, int]] = collections.Counter()
    for row in (tools.CAPTURES / f"{name}.records").read_text().splitlines():
        packet, sender, _, length = row.split()
        sizes[packets[int(packet)].stream, int(sender)] += int(length)
    count = len(packets)
    yield f"capture records {count} segments {count} snapped 0 not-ipv4 0 fragments 0 not-tcp 0 refused 0"
    openings: dict[int, Packet] = {}
    for one in packets.values():
        if one.is_opening:
            openings.setdefault(one.stream, one)
    for number, one in enumerate(openings.values(), 1):
        said = f"http2 frames {len(frames[one.stream])}"
        yield f"connection {number} client {one.source} server {one.target} record {one.number} {said}"
        for side in (CLIENT, SERVER):
            yield f"flow {SIDES[side]} bytes {sizes[one.stream, side]} gap none tail 0"
        yield from lines_of(frames[one.stream])
