"""What the tests of h2audit-import and h2audit-any share: running them, and reading what they made."""

import hashlib
import pathlib
import struct
import subprocess
import tempfile
from collections.abc import Iterable, Iterator
from typing import NamedTuple

from tools.tests.companions import companion

TOP = pathlib.Path(__file__).resolve().parents[2]
CAPTURES = TOP / "tests" / "tls"
EXAMPLES = TOP / "examples"
IMPORT, ANY = companion("h2audit-import"), companion("h2audit-any")
CLIENT, SERVER = 0, 1
INTERFACE, ENHANCED_PACKET = 1, 6  # blocks of pcapng

Word = str | pathlib.Path  # of a command line


class Packet(NamedTuple):
    nanos: int
    data: bytes
    original: int  # its length before it was captured


class Made(NamedTuple):
    """What h2audit-import made, and what it said."""

    status: int
    said: str
    packets: list[Packet]
    map: list[str]
    bytes: bytes


def capture_named(name: str) -> pathlib.Path:
    return next(path for path in sorted(CAPTURES.glob(f"{name}.pcap*")))


def key_log_of(name: str) -> list[Word]:
    path = CAPTURES / f"{name}.keys"
    return ["-k", path] if path.exists() else []


def names() -> list[str]:
    return sorted({path.name.split(".")[0] for path in CAPTURES.glob("*.pcap*")})


def read_pcap(data: bytes) -> tuple[list[Packet], int]:
    """Packets of a classic capture, and its link type."""
    order = "<" if data[0] in (0xD4, 0x4D) else ">"
    unit = 1 if data[:4] in (b"\x4d\x3c\xb2\xa1", b"\xa1\xb2\x3c\x4d") else 1000
    link = struct.unpack_from(order + "I", data, 20)[0]
    packets, at = [], 24
    while at < len(data):
        seconds, fraction, captured, original = struct.unpack_from(order + "IIII", data, at)
        packets.append(Packet(seconds * 10**9 + fraction * unit, data[at + 16 : at + 16 + captured], original))
        at += 16 + captured
    return packets, link


def packets_in(path: pathlib.Path) -> tuple[list[Packet], int]:
    """Packets of a capture of one interface, and its link type. Times of pcapng are taken to be nanoseconds."""
    data = path.read_bytes()
    if path.suffix == ".pcap":
        return read_pcap(data)
    packets, link, at = [], 0, 0
    while at < len(data):
        kind, length = struct.unpack_from("<II", data, at)
        if kind == INTERFACE:
            (link,) = struct.unpack_from("<H", data, at + 8)
        elif kind == ENHANCED_PACKET:
            high, low, captured, original = struct.unpack_from("<IIII", data, at + 12)
            packets.append(Packet(high << 32 | low, data[at + 28 : at + 28 + captured], original))
        at += length
    return packets, link


def pcap_of(packets: Iterable[Packet], link: int, order: str = "<", unit: int = 1) -> bytes:
    magic = 0xA1B23C4D if unit == 1 else 0xA1B2C3D4
    parts = [struct.pack(order + "IHHiIII", magic, 2, 4, 0, 0, 1 << 18, link)]
    for one in packets:
        seconds, fraction = divmod(one.nanos, 10**9)
        parts.append(struct.pack(order + "IIII", seconds, fraction // unit, len(one.data), one.original) + one.data)
    return b"".join(parts)


def imported(*words: Word, input: bytes | None = None) -> Made:
    """Runs h2audit-import, and reads the capture and the map that it made."""
    with tempfile.TemporaryDirectory(prefix="h2audit-test-") as folder:
        out, made_map = pathlib.Path(folder, "out.pcap"), pathlib.Path(folder, "map")
        run = subprocess.run([IMPORT, "-o", out, "-m", made_map, *words], input=input, capture_output=True)
        data = out.read_bytes() if out.exists() else b""
        lines = made_map.read_text().splitlines() if made_map.exists() else []
    return Made(run.returncode, run.stderr.decode(), read_pcap(data)[0] if data else [], lines, data)


def packet_of_each_record(made: Made) -> dict[int, tuple[int, int]]:
    """The original packet of each record, which are numbered without holes; files follow one another from 0 on."""
    rows = [line.split() for line in made.map if line.startswith("record ")]
    assert [int(row[1]) for row in rows] == list(range(1, len(rows) + 1))
    return {int(row[1]): (int(row[3]), int(row[5])) for row in rows}


def payloads(made: Made, of: str = "tls") -> Iterator[tuple[int, int, bytes]]:
    """Each segment with payload in connections of a kind: record, side, bytes."""
    clients = set()
    rows = [line.split() for line in made.map if line.startswith("address ")]
    addresses = {address: stand_in for _, stand_in, address in rows}
    for line in made.map:
        words = line.split()
        if words[0] == "connection" and words[9] == of:
            clients.add((stood_in(words[2], addresses), stood_in(words[4], addresses)))
    for number, packet in enumerate(made.packets, 1):
        data = packet.data
        header = (data[0] & 15) * 4
        ends = [f"{'.'.join(map(str, data[at : at + 4]))}:{struct.unpack_from('>H', data, header + port)[0]}"
                for at, port in ((12, 0), (16, 2))]  # fmt: skip
        payload = data[header + (data[header + 12] >> 4) * 4 :]
        if payload and tuple(ends) in clients:
            yield number, CLIENT, payload
        elif payload and tuple(reversed(ends)) in clients:
            yield number, SERVER, payload


def stood_in(endpoint: str, addresses: dict[str, str]) -> str:
    host, port = endpoint.rsplit(":", 1)
    return f"{addresses.get(host.strip('[]'), host)}:{port}"


def rows_of(made: Made) -> list[str]:
    """As the files of records have it: packet, side, SHA-1 and length of each record's plaintext."""
    packets = packet_of_each_record(made)
    return [
        f"{packets[number][1]} {side} {hashlib.sha1(data).hexdigest()} {len(data)}"
        for number, side, data in payloads(made)
    ]


def flows(made: Made, of: str = "tls") -> list[bytes]:
    """The bytes of both sides, of a capture with one connection."""
    found = [b"", b""]
    for _, side, data in payloads(made, of):
        found[side] += data
    return found


def lines_of(made: Made, word: str) -> list[str]:
    return [line for line in made.map if line.startswith(word + " ")]


def report_of(program: str, *words: Word) -> tuple[str, int, str]:
    """The report of h2audit-any, its status, and what it said."""
    run = subprocess.run([ANY, "--h2audit", program, *words], capture_output=True, text=True)
    return run.stdout, run.returncode, run.stderr
