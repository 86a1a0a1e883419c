"""Tests of how long stalls lasted that did not end, in h2audit-fleet: up to the connection's last packet.

The captures are of examples/ and made here; reports were written by hand, and h2audit-any takes them for h2audit's.
"""

import os
import struct
import unittest
from unittest import mock

from h2audit.fleet import large, tasks
from h2audit.fleet.rows import unpacked
from tools.tests.fleet.captures import TOP, Machine, Sample, beside, by_hand

CLIENT, SERVER, OTHER = ("10.0.0.1", 40000), ("10.0.0.2", 80), ("10.0.0.3", 40000)
HEAD = "capture records 9 segments 9 snapped 0 not-ipv4 0 fragments 0 not-tcp 0 refused 0\n"
FLOWS = "flow client bytes 0 gap none tail 0\nflow server bytes 0 gap none tail 0\n"
SYN, ACK = 2, 16
Endpoint = tuple[str, int]


def words(endpoint: Endpoint) -> str:
    return f"{endpoint[0]}:{endpoint[1]}"


def opening(number: int, record: int, client: Endpoint = CLIENT, holds: str = "http2 frames 5") -> str:
    return f"connection {number} client {words(client)} server {words(SERVER)} record {record} {holds}\n{FLOWS}"


def open_stall(begin: int) -> str:
    """A stall that begins at a time, and does not end."""
    return (
        f"frame 3 record 4 time {begin} server stream-stall-begin stream 1 value 0\n"
        "stall server stream 1 from 3 open\naudit of all frames\n"
    )


def packet(source: Endpoint, target: Endpoint, flags: int = ACK, tags: int = 0, protocol: int = 6) -> bytes:
    ends_of = [bytes(map(int, one[0].split("."))) for one in (source, target)]
    head = struct.pack(">BBHHHBBH", 0x45, 0, 40, 0, 0, 64, protocol, 0) + b"".join(ends_of)
    segment = struct.pack(">HHIIBBHHH", source[1], target[1], 0, 0, 0x50, flags, 0, 0, 0)
    return bytes(12) + b"\x81\x00\x00\x05" * tags + b"\x08\x00" + head + segment


def capture(packets: list[tuple[int, bytes]], order: str = "<", magic: int = 0xA1B23C4D) -> bytes:
    """A classic capture of these packets, each with its time in the unit of the magic number."""
    unit = 10**9 if magic == 0xA1B23C4D else 10**6
    file = struct.pack(order + "IHHIIII", magic, 2, 4, 0, 0, 65535, 1)
    return file + b"".join(
        struct.pack(order + "IIII", *divmod(time, unit), len(one), len(one)) + one for time, one in packets
    )


class Rows(unittest.TestCase):
    def test_views(self) -> None:
        """Each view of stalls counts an open one up to the last packet, as the longest of all here."""
        ended = (
            "frame 1 record 2 time 2 client stream-stall-begin stream 1 value 0\n"
            "frame 2 record 3 time 4 client stream-stall-end stream 1 value 9\n"
        )
        first = "stall client stream 1 from 1 to 2 nanos 2\n"
        report = HEAD + opening(1, 1) + ended + open_stall(5).replace("stall s", f"{first}stall s", 1)
        packets = [(time, packet(CLIENT, SERVER)) for time in (1, 2, 4, 5, 105)]
        with Machine([Sample("a", capture(packets), 0, "", report, 105)], None) as machine:
            self.assertEqual(machine.run("--jobs", "1", "captures")[::2], (0, ""))
            self.assertEqual(
                machine.ask("SELECT waited, first, last, open, nanos, endpoint FROM longest_stalls"),
                [("server", 3, None, 1, 100, words(CLIENT)), ("client", 1, 2, 0, 2, words(SERVER))],
            )
            self.assertEqual(machine.ask("SELECT first, nanos FROM open_stalls"), [(3, 100)])
            wanted = "peer, stalls, open, longest_milliseconds, total_milliseconds"
            self.assertEqual(
                machine.ask(f"SELECT {wanted} FROM stalls_by_peer ORDER BY peer"),
                [("10.0.0.1", 1, 1, 1e-4, 1e-4), ("10.0.0.2:80", 1, 0, 2e-6, 2e-6)],
            )
            windows = machine.ask("SELECT waited, stalls, open, milliseconds FROM still_windows ORDER BY waited")
            self.assertEqual(windows, [("client", 1, 0, 2e-6), ("server", 1, 1, 1e-4)])

    def last_packets(self, report: str, content: bytes) -> list[tuple[object, ...]]:
        """The open stalls of a capture, of which h2audit reports this."""
        with Machine([], None) as machine:
            machine.script("h2audit", f'[ "$1" = --version ] || cat << END\n{report}END\n')
            machine.link("h2audit-any", beside("h2audit-any"))
            (machine.captures / "a.pcap").write_bytes(content)
            self.assertEqual(machine.run("--jobs", "1", "captures")[::2], (0, ""))
            self.assertEqual(list((machine.folder / "temporary").iterdir()), [])
            return machine.ask("SELECT connection, nanos FROM open_stalls ORDER BY connection")

    def test_last_packet(self) -> None:
        """It is of either side, with tags or none; not one of UDP, nor of another connection."""
        packets = [
            (1, packet(CLIENT, SERVER, SYN)),
            (5, packet(SERVER, CLIENT, SYN | ACK)),
            (7, packet(CLIENT, SERVER, tags=2)),
            (9, packet(OTHER, SERVER, SYN)),
            (11, packet(CLIENT, SERVER, protocol=17)),
        ]
        report = HEAD + opening(1, 1) + open_stall(2) + opening(2, 4, OTHER) + "audit of all frames\n"
        self.assertEqual(self.last_packets(report, capture(packets)), [(1, 5)])
        packets.append((12, packet(SERVER, CLIENT)))
        self.assertEqual(self.last_packets(report, capture(packets)), [(1, 10)])

    def test_opened_again(self) -> None:
        """Two endpoints open several connections: each lasts up to the next."""
        openings = (2, 5, 8)
        packets = [(time, packet(CLIENT, SERVER, SYN if time in openings else ACK)) for time in range(1, 10)]
        packets = [(time, one[:38] + bytes([time]) + one[39:]) for time, one in packets]  # numbers of their own
        report = HEAD + opening(1, 2) + open_stall(2) + opening(2, 5, holds="not-http2") + opening(3, 8) + open_stall(8)
        self.assertEqual(self.last_packets(report, capture(packets)), [(1, 2), (3, 1)])

    def test_examples(self) -> None:
        """The open stalls of examples/, whose connections are alone in their captures."""
        samples = [
            sample
            for sample in by_hand()
            if " open\n" in sample.report and (TOP / "examples" / f"{sample.name}.pcap").exists()
        ]
        self.assertGreater(len(samples), 1)
        for sample in samples:
            last = self.last_time(sample.capture)
            begins = [int(line.split()[5]) for line in sample.report.splitlines() if "-stall-begin " in line]
            with Machine([], None) as machine:
                machine.script("h2audit", f'[ "$1" = --version ] || cat << END\n{sample.report}END\n')
                machine.link("h2audit-any", beside("h2audit-any"))
                (machine.captures / "a.pcap").write_bytes(sample.capture)
                machine.run("--jobs", "1", "captures")
                found = machine.ask("SELECT nanos FROM open_stalls")
            self.assertEqual(len(found), sample.report.count(" open\n"))
            self.assertTrue(all(last - nanos in begins for nanos, in found), sample.name)

    def last_time(self, content: bytes) -> int:
        at, last = 24, 0
        order, unit = ("<" if content[3] == 0xA1 else ">"), 1 if content[0] in (0x4D,) else 1000
        while at + 16 <= len(content):
            seconds, moment, length, _ = struct.unpack_from(order + "IIII", content, at)
            last, at = seconds * 10**9 + moment * unit, at + 16 + length
        return last

    def test_in_parts(self) -> None:
        """The map of an import tells the same to the merge of its parts."""
        with Machine([], None) as machine:
            whole = machine.captures / "whole"
            packets = [packet(CLIENT, SERVER, SYN), *[packet(SERVER, CLIENT)] * 3]
            whole.write_bytes(capture(list(zip((1, 2, 3, 9), packets))))
            for name in ("h2audit-any", "h2audit-import"):
                machine.link(name, beside(name))
            machine.script("h2audit", f"cat << END\n{HEAD}{opening(1, 1)}{open_stall(2)}END\n")
            order: tasks.Order = {"keys": [], "timeout": 60.0, "split_above": 0}
            with mock.patch.dict(os.environ, machine.surroundings):
                answer = large.in_parts(os.fsencode(whole), order)
            self.assertEqual((answer["outcome"], answer["reason"]), ("audited", None))
            self.assertIn(b'["stalls",1,2,"server",1,3,null,7,"client",null]\n', unpacked(answer["rows"]).readlines())


if __name__ == "__main__":
    unittest.main()
