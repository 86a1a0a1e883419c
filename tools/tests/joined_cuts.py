"""What tests of joined connections share: captures, what is true of their connections, where they are cut, and what is
said of the cut ones.
"""

import io
import pathlib
import re
import struct
import subprocess
import tempfile
from collections.abc import Collection, Iterator
from typing import NamedTuple

from tests.captures import BEGINNINGS, Capture
from tools.tests.import_tools import IMPORT, Packet, Word, pcap_of, read_pcap
from tools.tests.report_lines import Finding, Opening, Stall, read_lines

PREFACE = b"PRI * HTTP/2.0\r\n\r\nSM\r\n\r\n"
RAW = 101
FIN, SYN, RST, ACK = 1, 2, 4, 16
MODULO = 2**32
SIDES = ("client", "server")
Ends = tuple[str, str]  # sender and receiver
DATA, SETTINGS = 0, 4
# The fields of a request.
GET = b"\x82\x84\x87"
SECOND = 10**9


class Segment(NamedTuple):
    ends: Ends
    sequence: int
    flags: int
    payload: bytes


class Frame(NamedTuple):
    side: int
    sequence: int  # of its first byte
    kind: int
    flags: int
    stream: int
    length: int
    packet: int  # in which it ends, from 0 on


def packets_of_script(lines: list[str], first: str = "empty") -> list[Packet]:
    """The packets of a script (tests/captures.py), each a millisecond after the one before."""
    capture = Capture()
    for line in (BEGINNINGS[first] + "\n".join(lines)).splitlines():
        capture.step(line)
    found, _ = read_pcap(bytes(capture.bytes))
    return [Packet(SECOND + at * 10**6, one.data[14:], len(one.data) - 14) for at, one in enumerate(found)]


def hexed(octets: bytes) -> str:
    return f"HEX {octets.hex()}"


def segment_of(data: bytes) -> Segment:
    """The segment in a packet that h2audit-import wrote."""
    header = (data[0] & 15) * 4
    total = struct.unpack_from(">H", data, 2)[0] or len(data)
    source, target, sequence = struct.unpack_from(">HHI", data, header)
    addresses = [".".join(map(str, data[at : at + 4])) for at in (12, 16)]
    begin = header + (data[header + 12] >> 4) * 4
    ends = (f"{addresses[0]}:{source}", f"{addresses[1]}:{target}")
    return Segment(ends, sequence, data[header + 13], data[begin:total])


class Flow:
    """The bytes of one side in order, and the packet that brought each part."""

    def __init__(self, sequence: int) -> None:
        self.first = sequence
        self.bytes = bytearray()
        self.parts: list[tuple[int, int]] = []  # behind which offset, and the packet
        self.held: dict[int, tuple[int, bytes]] = {}

    def take(self, sequence: int, payload: bytes, packet: int) -> None:
        offset = (sequence - self.first) % MODULO
        if offset >= MODULO // 2:
            return
        if offset > len(self.bytes):
            if len(payload) > len(self.held.get(offset, (0, b""))[1]):
                self.held[offset] = (packet, payload)
            return
        self.bytes += payload[len(self.bytes) - offset :]
        self.parts.append((len(self.bytes), packet))
        for at in sorted(self.held):
            if at <= len(self.bytes):
                _, late = self.held.pop(at)
                self.bytes += late[len(self.bytes) - at :]
                self.parts[-1] = (len(self.bytes), packet)


class Known:
    """What is true of a connection, by the whole capture."""

    def __init__(self, client: str, server: str) -> None:
        self.client, self.server = client, server
        self.stalls: list[
            tuple[Stall, int, int, int | None]
        ] = []  # with the packet and time of begin, and packet of end
        self.faults: list[Finding] = []
        self.frames: list[Frame] = []

    def borders(self, side: int) -> list[int]:
        return [frame.sequence for frame in self.frames if frame.side == side]


class Whole:
    """A capture as h2audit-import makes it of one, with the report of all."""

    def __init__(self, program: str, packets: list[Packet]) -> None:
        self.packets = packets
        self.segments = [segment_of(packet.data) for packet in packets]
        report = audited(program, pcap_of(packets, RAW))
        self.connections = {(one.client, one.server): one for one in known_ones(report)}
        for one in self.connections.values():
            one.frames = self.frames_of(one)

    def frames_of(self, one: Known) -> list[Frame]:
        flows: dict[int, Flow] = {}
        for number, segment in enumerate(self.segments):
            side = {(one.client, one.server): 0, (one.server, one.client): 1}.get(segment.ends)
            if side is None:
                continue
            if segment.flags & SYN:
                flows.setdefault(side, Flow((segment.sequence + 1) % MODULO))
            elif segment.payload and side in flows:
                flows[side].take(segment.sequence, segment.payload, number)
        found = [frame for side, flow in flows.items() for frame in cut_out(side, flow)]
        return sorted(found, key=lambda frame: (frame.packet, frame.side == 1))


def cut_out(side: int, flow: Flow) -> Iterator[Frame]:
    data, at, part = bytes(flow.bytes), 0, 0
    if data.startswith(PREFACE):
        at = len(PREFACE)
    while at + 9 <= len(data):
        length = int.from_bytes(data[at : at + 3], "big")
        kind, flags, stream = data[at + 3], data[at + 4], int.from_bytes(data[at + 5 : at + 9], "big") & 0x7FFFFFFF
        end = at + 9 + length
        while part < len(flow.parts) and flow.parts[part][0] < end:
            part += 1
        if part == len(flow.parts):
            return
        yield Frame(side, (flow.first + at) % MODULO, kind, flags, stream, length, flow.parts[part][1])
        at = end


def audited(program: str, capture: bytes) -> list[Opening | Finding | Stall]:
    with tempfile.NamedTemporaryFile(prefix="h2audit-test-", suffix=".pcap") as file:
        file.write(capture)
        file.flush()
        run = subprocess.run([program, file.name], stdout=subprocess.PIPE, stderr=subprocess.PIPE)
    assert run.returncode in (0, 1), run.stderr.decode()
    return list(read_lines(io.BytesIO(run.stdout)))


def known_ones(report: list[Opening | Finding | Stall], left_out: Collection[int] = ()) -> list[Known]:
    """The connections of HTTP/2 that are audited to their end, with their stalls by packets of the capture."""
    found: list[Known] = []
    places: dict[int, tuple[int, int]] = {}
    is_read = False
    for line in report:
        if isinstance(line, Opening):
            is_read = line.form == "http2" and line.number not in left_out
            places = {}
            if is_read:
                found.append(Known(line.client, line.server))
        elif is_read and isinstance(line, Finding):
            places[line.frame] = (line.record - 1, line.time)
            if line.is_fault:
                found[-1].faults.append(line)
        elif is_read and isinstance(line, Stall):
            packet, time = places[line.begin]
            end = places[line.end][0] if line.end in places and line.end is not None else None
            found[-1].stalls.append((line, packet, time, end))
    return found


class Said(NamedTuple):
    """What the map says of a connection that was joined."""

    number: int  # of its line "connection"
    client: str
    server: str
    how: str
    sides: str
    made: int  # frames
    borders: list[tuple[int, int] | None]  # offset and bits of each side
    grades: dict[tuple[str, str], str]  # by side and window
    credits: dict[tuple[str, str], tuple[int, int]]  # credit, and the least
    is_behind: bool = False  # a gap of a connection that is there
    first: int = 0  # packets before it are of no use


class Joined(NamedTuple):
    said: list[Said]
    unjoined: list[str]
    known: dict[Ends, Known]  # as the report of the made capture has them
    packets: dict[int, int]  # by record, from 0 on: the packet of the cut capture, of what was not made up


def joined(program: str, packets: list[Packet], *words: Word) -> Joined:
    """Imports packets with --joined, and audits what is made."""
    with tempfile.TemporaryDirectory(prefix="h2audit-test-") as folder:
        source, out, made_map = (pathlib.Path(folder, name) for name in ("in.pcap", "out.pcap", "map"))
        source.write_bytes(pcap_of(packets, RAW))
        subprocess.run([IMPORT, "--joined", "-o", out, "-m", made_map, *words, source], stderr=subprocess.PIPE)
        lines = made_map.read_text().splitlines()
        report = audited(program, out.read_bytes())
    assert lines[0] == "h2audit-map 2"
    said, unjoined = said_of(lines)
    behind = {one.number for one in said if one.is_behind}
    of_record = {}
    for line in lines:
        if line.startswith("record "):
            row = line.split()
            of_record[int(row[1]) - 1] = int(row[5]) - 1
    known = {(one.client, one.server): one for one in known_ones(report, behind)}
    return Joined([one for one in said if not one.is_behind], unjoined, known, of_record)


def said_of(lines: list[str]) -> tuple[list[Said], list[str]]:
    said: list[Said] = []
    unjoined = []
    client = server = ""
    number = packet = 0
    for line in lines:
        words = line.split()
        if words[0] == "unjoined":
            unjoined.append(words[1])
        elif words[0] == "connection":
            client, server = words[2], words[4]
            number, packet = number + 1, int(words[8])
        elif words[:2] == ["joined", "exact"]:
            said.append(Said(number, client, server, words[2], "", 0, [None, None], {}, {}))
        elif words[:2] == ["joined", "inferred"]:
            made = int(words[5]) + int(words[6])
            said.append(Said(number, client, server, "inferred", words[-1], made, [None, None], {}, {}))
        elif words == ["after-gap", "none"]:
            said[-1] = said[-1]._replace(first=packet - 1)
        elif words[0] == "after-gap":
            said[-1] = said[-1]._replace(is_behind=True)
        elif words[0] == "border" and words[2] != "none":
            said[-1].borders[SIDES.index(words[1])] = (int(words[3]), int(words[5]))
        elif words[0] == "assumed":
            found = re.fullmatch(
                r"assumed (\w+) (connection|initial|stream \d+) credit (-?\d+) least (-?\d+) (\w+) .*", line
            )
            assert found, line
            side, window, credit, least, grade = found.groups()
            said[-1].grades[side, window] = grade
            said[-1].credits[side, window] = (int(credit), int(least))
    return said, unjoined


def cuts_of(whole: Whole, one: Known, most: int = 10) -> list[int]:
    """Where a capture is cut for the sake of a connection: behind its first frames, at quarters, after a third of its
    content, inside frames and inside stalls. Cuts that leave preface and both SETTINGS are left out.
    """
    packets = [
        at for at, segment in enumerate(whole.segments) if sorted(segment.ends) == sorted((one.client, one.server))
    ]
    settings = [frame.packet for frame in one.frames if frame.kind == SETTINGS and not frame.flags & 1]
    if len(settings) < 2 or len(packets) < 8:
        return []
    least = max(settings[0], packets[0]) + 1
    content = [frame for frame in one.frames if frame.kind == DATA]
    found = [frame.packet + 1 for frame in one.frames[4:14:3]]
    found += [packets[len(packets) * part // 4] for part in (1, 2, 3)]
    if content:
        found.append(content[len(content) // 3].packet + 1)
        found += [frame.packet for frame in (content[len(content) // 4], content[len(content) // 2])]
    found += [(stall[1] + stall[3]) // 2 + 1 for stall in one.stalls[:40:13] if stall[3] is not None]
    usable = sorted({cut for cut in found if least < cut <= packets[-2]})
    return usable[:: max(1, len(usable) // most)][:most]


def packets_of(path: pathlib.Path, *words: Word) -> list[Packet]:
    """The packets that h2audit-import makes of a capture."""
    with tempfile.TemporaryDirectory(prefix="h2audit-test-") as folder:
        out = pathlib.Path(folder, "out.pcap")
        subprocess.run([IMPORT, "-o", out, *words, path], stderr=subprocess.PIPE)
        data = out.read_bytes() if out.exists() else b""
    return read_pcap(data)[0] if data else []
