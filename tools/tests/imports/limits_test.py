"""Tests that memory and work of h2audit-import grow with what is read, and no faster, on captures made for the worst.

Each limit of time is some hundred times what the work takes, and far below what it would take if it grew with the
square of what is read. Limits of memory are those that docs/MAP.md and bench/README.md speak of.
"""

import contextlib
import os
import pathlib
import resource
import struct
import subprocess
import tempfile
import unittest
from collections.abc import Iterator
from typing import BinaryIO

from tools.tests import import_tools as tools
from tools.tests.pcapng_blocks import block, interface, packet, section

SECONDS = 60  # of the processor
SYN, RST, ACK = 2, 4, 16
HEADER = struct.pack("<IHHiIII", 0xA1B23C4D, 2, 4, 0, 0, 1 << 18, 101)
RAW = 101


def datagram(client: int, sequence: int, flags: int, payload: bytes = b"", is_server: bool = False) -> bytes:
    """A packet of raw IP, of a client whose address and port have this number, or of its server."""
    ours = (struct.pack(">I", 0x0A000000 + client // 50000), 1024 + client % 50000)
    ends = [ours, (b"\xc0\x00\x02\x01", 443)][:: -1 if is_server else 1]
    tcp = struct.pack(">HHIIBBHHH", ends[0][1], ends[1][1], sequence & 0xFFFFFFFF, 1, 0x50, flags, 65535, 0, 0)
    ip = struct.pack(">BBHHHBBH4s4s", 0x45, 0, 40 + len(payload), 0, 0, 64, 6, 0, ends[0][0], ends[1][0])
    return ip + tcp + payload


def record(data: bytes, nanos: int = 0) -> bytes:
    return struct.pack("<IIII", nanos // 10**9, nanos % 10**9, len(data), len(data)) + data


def handshake(kind: int, body: bytes) -> bytes:
    """A record with a message of the handshake."""
    message = bytes([kind]) + len(body).to_bytes(3, "big") + body
    return b"\x16\x03\x01" + struct.pack(">H", len(message)) + message


def client_hello(number: int) -> bytes:
    """A record with a ClientHello of a random of this number, and a session and extensions of common size."""
    body = b"\x03\x03" + number.to_bytes(32, "big") + b"\x20" + bytes(32) + b"\x00\x02\x13\x01" + b"\x01\x00"
    return handshake(1, body + struct.pack(">H", 204) + struct.pack(">HH", 21, 200) + bytes(200))


def server_hello() -> bytes:
    """A record with a ServerHello of TLS 1.3."""
    body = b"\x03\x03" + b"\x11" * 32 + b"\x20" + bytes(32) + b"\x13\x01" + b"\x00"
    return handshake(2, body + struct.pack(">HHHH", 6, 43, 2, 0x0304))


def secrets(text: bytes) -> bytes:
    """A block of pcapng with lines of a key log."""
    text += b" " * (-len(text) % 4)
    return block("<", 0xA, struct.pack("<II", 0x544C534B, len(text)) + text)


class Limits(unittest.TestCase):
    def setUp(self) -> None:
        held = tempfile.TemporaryDirectory(prefix="h2audit-test-")
        self.addCleanup(held.cleanup)
        self.folder = pathlib.Path(held.name)

    @contextlib.contextmanager
    def written(self, name: str) -> Iterator[tuple[pathlib.Path, BinaryIO]]:
        """A file to write. It is never held in memory: what this process takes would count for its child."""
        with open(self.folder / name, "wb", buffering=1 << 20) as file:
            yield self.folder / name, file

    def imported(self, *words: tools.Word, given: pathlib.Path | None = None) -> tuple[int, float]:
        """Status and peak of memory, in megabytes, of an import of these words, with a limit on time."""
        ours: list[tools.Word] = [tools.IMPORT, "-o", self.folder / "out", "-m", self.folder / "map", *words]
        with open(given or os.devnull, "rb") as file:
            child = subprocess.Popen(
                ours,
                stdin=file,
                stderr=subprocess.DEVNULL,
                preexec_fn=lambda: resource.setrlimit(resource.RLIMIT_CPU, (SECONDS, SECONDS)),
            )
            _, status, usage = os.wait4(child.pid, 0)
        child.returncode = os.waitstatus_to_exitcode(status)
        return child.returncode, usage.ru_maxrss / 1000

    def lines(self, word: str) -> int:
        return sum(line.startswith(word) for line in (self.folder / "map").read_text().splitlines())

    def test_half_open(self) -> None:
        """100,000 connections of which nothing but a ClientHello came."""
        with self.written("hellos.pcap") as (path, file):
            file.write(HEADER)
            for client in range(100_000):
                file.write(record(datagram(client, 0, SYN)))
                file.write(record(datagram(client, 1, ACK, client_hello(client))))
        status, peak = self.imported(path)
        self.assertEqual((status, self.lines("connection ")), (6, 100_000))
        self.assertLess(peak, 220)

    def test_key_log(self) -> None:
        """A key log of a million lines."""
        with self.written("keys") as (keys, file):
            for number in range(1_000_000):
                file.write(b"CLIENT_RANDOM %064x %096x\n" % (number, number))
        status, peak = self.imported("-k", keys, tools.EXAMPLES / "stream_overrun_go.pcap")
        self.assertEqual(status, 0)
        self.assertLess(peak, 150)

    def test_resets_behind_a_hole(self) -> None:
        """Bytes behind a hole, one by one, and then as many RSTs; all is long ago when another connection opens."""
        count = 300_000
        with self.written("resets.pcap") as (path, file):
            file.writelines([HEADER, record(datagram(0, 0, SYN)), record(datagram(0, 0, SYN | ACK, is_server=True))])
            file.write(record(datagram(0, 1, ACK, client_hello(0))))
            file.writelines(record(datagram(0, 1000 + 2 * at, ACK, b"a")) for at in range(count))
            file.write(record(datagram(0, 10, RST)) * count)
            file.writelines(record(datagram(1 + at, 0, SYN), 300 * 10**9) for at in range(10))
        status, peak = self.imported(path)
        self.assertEqual((status, self.lines("connection ")), (0, 11))
        self.assertLess(peak, 120)

    def test_holes_that_are_filled_last(self) -> None:
        """Bytes in the wrong order, the first of them last."""
        count = 200_000
        with self.written("holes.pcap") as (path, file):
            file.writelines([HEADER, record(datagram(0, 0, SYN)), record(datagram(0, 0, SYN | ACK, is_server=True))])
            file.write(record(datagram(0, 1, ACK, b"\x16\x03\x03\x40\x00")))
            file.writelines(record(datagram(0, 6 + at, ACK, b"abc")) for at in reversed(range(count)))
        self.assertEqual(self.imported(path)[0], 6)

    def test_secrets_one_by_one(self) -> None:
        """Connections that wait for keys on standard input, and as many blocks of secrets, each of another random."""
        count = 100_000
        with self.written("secrets.pcapng") as (path, file):
            file.writelines([section(), interface("<", RAW)])
            for client in range(count):
                for data in (datagram(client, 0, SYN), datagram(client, 1, ACK, client_hello(client))):
                    file.write(packet("<", 0, 0, (0, 0, len(data), data)))
            for number in range(count):
                file.write(secrets(b"CLIENT_RANDOM %064x %096x\n" % (number, number)))
        status, peak = self.imported("-", given=path)
        self.assertEqual((status, self.lines("connection ")), (6, count))
        self.assertLess(peak, 260)

    def test_secrets_of_one_random(self) -> None:
        """Connections of one random wait for a key on standard input, and as many blocks have another secret of that
        random: each twice, and then another in its place."""
        count = 20_000
        with self.written("one.pcapng") as (path, file):
            file.writelines([section(), interface("<", RAW)])
            waiting = server_hello() + b"\x17\x03\x03\x00\x14" + bytes(20)
            for client in range(count):
                opening = datagram(client, 0, SYN), datagram(client, 0, SYN | ACK, is_server=True)
                said = datagram(client, 1, ACK, client_hello(0)), datagram(client, 1, ACK, waiting, is_server=True)
                for data in opening + said:
                    file.write(packet("<", 0, 0, (0, 0, len(data), data)))
            for number in range(count):
                file.write(secrets(b"CLIENT_EARLY_TRAFFIC_SECRET %064x %064x\n" % (0, number // 2)))
        status, peak = self.imported("-", given=path)
        self.assertEqual((status, self.lines("connection ")), (6, count))
        self.assertLess(peak, 100)

    def test_repeated_answers(self) -> None:
        """A server answers a SYN again and again, while what its client has said may still become a CONNECT."""
        count = 200_000
        with self.written("answers.pcap") as (path, file):
            answer = record(datagram(0, 0, SYN | ACK, is_server=True))
            file.writelines([HEADER, record(datagram(0, 0, SYN)), answer])
            file.write(record(datagram(0, 1, ACK, b"CONNECT a")))
            file.write(answer * count)
        status, peak = self.imported(path)
        self.assertEqual((status, self.lines("connection ")), (0, 1))
        self.assertLess(peak, 100)

    def test_key_updates_and_tiny_records(self) -> None:
        """A record of no bytes, a million times, in the clear."""
        with self.written("tiny.pcap") as (path, file):
            file.writelines([HEADER, record(datagram(0, 0, SYN)), record(datagram(0, 0, SYN | ACK, is_server=True))])
            tiny = b"\x16\x03\x03\x00\x00" * 10_000
            file.writelines(record(datagram(0, 1 + at * len(tiny), ACK, tiny)) for at in range(100))
        self.assertEqual(self.imported(path)[0], 6)


if __name__ == "__main__":
    unittest.main()
