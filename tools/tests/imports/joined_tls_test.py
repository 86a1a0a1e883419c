"""Tests of connections of TLS 1.3 that began before the capture (h2audit-import --joined): captures of tests/tls are
cut at ten places each, and what is opened of the rest is compared with the plaintext and the report of the whole.

    python3 -m tools.tests.imports.joined_tls_test H2AUDIT [TEST..]

It prints how many connections were opened, and how many stalls of theirs are right.
"""

import struct
import subprocess
import sys
import tempfile
import unittest
from collections.abc import Iterator
from typing import NamedTuple

from tests.programs import needed
from tools.tests.import_tools import (
    CAPTURES,
    ENHANCED_PACKET,
    IMPORT,
    INTERFACE,
    Made,
    Packet,
    Word,
    capture_named,
    imported,
    key_log_of,
    packets_in,
    payloads,
    pcap_of,
    stood_in,
)
from tools.tests.imports.joined_tally import Tally, share
from tools.tests.joined_cuts import SYN, Ends, Joined, Whole, audited, known_ones, said_of, segment_of

RUNS = ("$H2AUDIT",)
PROGRAM = ""
NAMES = (
    "curl-apache-upload",
    "curl-nginx-13-v6-any-sll2",
    "h2load-node-many",
    "key-updates",
    "loss-and-reordering",
    "nghttp-nghttpd-13",
    "small-window-v6",
    "stream-overrun-go",
)
OF_TLS_1_2 = "curl-nginx-12-any-cooked"
CUTS = 10
LOSSY = {"loss-and-reordering"}
# Cuts behind which a side's first segments are those that overtook others: nothing is read past the hole.
HOLES = {("loss-and-reordering", 50)}
SECRETS, SECTION = 10, 0x0A0D0D0A  # blocks of pcapng
Rows = list[tuple[bytes, int]]  # plaintext, and the packet that completed it


def rows_of(made: Made, before: int) -> dict[Ends, Rows]:
    """By sender, the plaintext that was not made up, with packets numbered behind so many."""
    packets = {int(row[1]): int(row[5]) for row in map(str.split, made.map) if row[0] == "record"}
    found: dict[Ends, Rows] = {}
    for number, _, data in payloads(made):
        if number in packets:
            ends = segment_of(made.packets[number - 1].data).ends
            found.setdefault(ends, []).append((data, packets[number] + before))
    return found


class Opened(NamedTuple):
    """What was made of a capture that is cut."""

    made: Made
    joined: Joined
    rows: dict[Ends, Rows]


def opened(packets: list[Packet], link: int, at: int, *words: Word) -> Opened:
    """What is made of packets from one on."""
    with tempfile.NamedTemporaryFile(prefix="h2audit-test-", suffix=".pcap") as source:
        source.write(pcap_of(packets[at:], link))
        source.flush()
        made = imported("--joined", *words, source.name)
    report = audited(PROGRAM, made.bytes)
    said, unjoined = said_of(made.map)
    addresses = {row[2]: row[1] for row in map(str.split, made.map) if row[0] == "address"}
    said = [
        one._replace(client=stood_in(one.client, addresses), server=stood_in(one.server, addresses)) for one in said
    ]
    of_record = {int(row[1]) - 1: int(row[5]) - 1 for row in map(str.split, made.map) if row[0] == "record"}
    known = {(one.client, one.server): one for one in known_ones(report)}
    return Opened(made, Joined(said, unjoined, known, of_record), rows_of(made, at))


class Cuts(unittest.TestCase):
    """Plaintext, frames and stalls behind a cut are those of the whole capture."""

    def test_cuts(self) -> None:
        tally = Tally()
        for name in NAMES:
            packets, link = packets_in(capture_named(name))
            with tempfile.NamedTemporaryFile(prefix="h2audit-test-", suffix=".pcap") as source:
                source.write(pcap_of(packets, link))
                source.flush()
                made = imported(*key_log_of(name), source.name)
            whole = Whole(PROGRAM, made.packets)
            for at in sorted({len(packets) * part // (CUTS + 1) for part in range(1, CUTS + 1)}):
                with self.subTest(name=name, at=at):
                    self.compare(tally, name, made, whole, opened(packets, link, at, *key_log_of(name)), at)
        print("\n".join(tally.lines()))
        if "-v" in sys.argv:
            print("\n".join(tally.notes))
        counts, grades = tally.counts, tally.by_grade
        self.assertGreater(counts["connections"], 150)
        self.assertGreater(counts["exact"], 50)
        self.assertEqual((counts["sides wrong"], counts["borders wrong"], counts["false faults"]), (0, 0, 0))
        self.assertGreater(counts["stalls found"], 250)
        for grade, least in {"strong": 0.98, "likely": 0.93, "either": 0.9}.items():
            true, false = grades[grade]
            self.assertGreaterEqual(share(true, true + false), least, grade)

    def test_each_packet(self) -> None:
        """Wherever it begins, what is left is opened, up to the last packet with plaintext."""
        for name in ("key-updates", "nghttp-nghttpd-13", "small-window-v6", "stream-overrun-go"):
            packets, link = packets_in(capture_named(name))
            whole = imported(*key_log_of(name), input=pcap_of(packets, link))
            last = max(packet for rows in rows_of(whole, 0).values() for _, packet in rows)
            for at in range(1, last):
                with self.subTest(name=name, at=at):
                    rest = opened(packets, link, at, *key_log_of(name))
                    self.assertEqual((rest.joined.unjoined, len(rest.joined.said)), ([], 1))

    def compare(self, tally: Tally, name: str, made: Made, whole: Whole, rest: Opened, at: int) -> None:
        """Compares the connections that began before the cut."""
        packet_of = {int(row[1]): int(row[5]) for row in map(str.split, made.map) if row[0] == "record"}
        before = sum(packet <= at for packet in packet_of.values())
        wanted = rows_of(made, 0)
        said = {(one.client, one.server): one for one in rest.joined.said}
        for ends, one in whole.connections.items():
            opening = next(n for n, s in enumerate(whole.segments, 1) if s.flags & SYN and s.ends == ends)
            ways = (ends, (ends[1], ends[0]))
            if packet_of[opening] > at or not all(any(row[1] > at for row in wanted.get(way, [])) for way in ways):
                continue
            tally.add("connections")
            self.assertIn(ends, said)
            found = said[ends]
            segments = []
            for way in ways:
                if (name, at) not in HOLES:
                    self.compare_rows(wanted[way], rest.rows[way], at, is_lossy=name in LOSSY)
                segments += [one for one in whole.segments if one.ends == way and one.payload][-len(rest.rows[way]) :]
            if found.how != "inferred":
                tally.add("exact")
                continue
            self.assertEqual(found.sides, "secret")
            if (name, at) not in HOLES:
                tally.compare(f"{name} cut {at}", one, found, rest.joined, segments, before)

    def compare_rows(self, wanted: Rows, found: Rows, at: int, is_lossy: bool) -> None:
        """All plaintext behind a cut is there, but for a record that it goes through; also what was sent again."""
        lost = sum(packet > at for _, packet in wanted) - len(found)
        self.assertLessEqual(lost, 3 if is_lossy else 1)
        same = wanted[len(wanted) - len(found) :]
        self.assertEqual([data for data, _ in found], [data for data, _ in same])
        if not is_lossy and lost >= 0:
            self.assertEqual(found, same)


class Refused(unittest.TestCase):
    """Each connection that is not opened says why, and so does standard error where a bound is the reason."""

    def test_no_keys(self) -> None:
        made = self.cut("nghttp-nghttpd-13", with_keys=False)
        self.assertEqual((made.map_words("unjoined"), made.status), (["no-key"], 6))

    def test_tls_1_2(self) -> None:
        made = self.cut(OF_TLS_1_2)
        self.assertEqual((made.map_words("unjoined"), made.status), (["no-server-random"], 6))

    def test_keys_of_others(self) -> None:
        words = key_log_of("small-window-v6")
        made = self.cut("nghttp-nghttpd-13", "--join-numbers", "600", *words, with_keys=False)
        self.assertEqual(made.map_words("unjoined"), ["searched-numbers 600"])
        told = (
            "1 connection of TLS from before the capture not wholly opened by record numbers below 600 (--join-numbers)"
        )
        self.assertIn(f"h2audit-import: {told}\n", made.said)

    def test_numbers_that_are_too_high(self) -> None:
        """More than three records of each side went before."""
        made = self.cut("small-window-v6", "--join-numbers", "3")
        self.assertEqual(made.map_words("unjoined"), ["searched-numbers 3"])
        made = self.cut("small-window-v6", "--join-numbers", "300")
        self.assertEqual((made.map_words("unjoined"), made.said, made.status), ([], "", 0))

    def test_no_time(self) -> None:
        made = self.cut("nghttp-nghttpd-13", "--join-seconds", "0")
        self.assertEqual(made.map_words("unjoined"), ["searched-seconds 0"])
        told = "1 connection of TLS from before the capture not wholly opened within 0 s (--join-seconds)"
        self.assertIn(f"h2audit-import: {told}\n", made.said)

    def test_words(self) -> None:
        for option, word in (("--join-numbers", "0"), ("--join-numbers", "1x"), ("--join-seconds", "86401")):
            run = subprocess.run([IMPORT, option, word, "-o", "-"], input=b"", capture_output=True)
            self.assertEqual(run.returncode, 2)
            self.assertIn(f"argument {option}: '{word}' is no number from".encode(), run.stderr)

    def cut(self, name: str, *words: Word, with_keys: bool = True) -> "Said":
        packets, link = packets_in(capture_named(name))
        keys = key_log_of(name) if with_keys else []
        return Said(imported("--joined", *words, *keys, "-", input=pcap_of(packets[len(packets) // 2 :], link)))


class Said:
    """What is said of a capture that is cut."""

    def __init__(self, made: Made) -> None:
        self.made, self.status, self.said = made, made.status, made.said

    def map_words(self, first: str) -> list[str]:
        return [line.removeprefix(f"{first} ") for line in self.made.map if line.startswith(f"{first} ")]


class Written(unittest.TestCase):
    """What is made, and in which order."""

    def test_all_else_stays(self) -> None:
        """What is made without --joined comes first, to the byte, but of strays the first of each pair alone."""
        packets, link = packets_in(capture_named("h2load-node-many"))
        source = pcap_of(packets[len(packets) // 2 :] + packets, link)
        plain = imported(*key_log_of("h2load-node-many"), input=source)
        both = imported("--joined", *key_log_of("h2load-node-many"), input=source)
        strays = len(packets) - len(packets) // 2
        places, others = ([line.split()[2:] for line in one.map if line.startswith("record ")] for one in (plain, both))
        kept = [at for at, place in enumerate(places) if at >= strays or place in others[:strays]]
        self.assertEqual(sum(at < strays for at in kept), sum(line.startswith("unopened ") for line in plain.map))
        self.assertEqual(others[: len(kept)], [places[at] for at in kept])
        self.assertEqual(both.packets[: len(kept)], [plain.packets[at] for at in kept])
        self.assertGreater(len(both.packets), len(kept))
        numbers = [int(line.split()[1]) for line in both.map if line.startswith(("record ", "made "))]
        self.assertEqual(numbers, list(range(1, len(both.packets) + 1)))
        self.assertGreater(sum(line.startswith("joined inferred") for line in both.map), 8)

    def test_keys_inside(self) -> None:
        """Keys of a block of pcapng open it, also from a pipe; those of a later block, once all is read."""
        kinds: dict[int, list[bytes]] = {}
        for one in blocks_of((CAPTURES / "secrets-inside.pcapng").read_bytes()):
            kinds.setdefault(struct.unpack_from("<I", one)[0], []).append(one)
        packets = kinds[ENHANCED_PACKET][len(kinds[ENHANCED_PACKET]) // 2 :]
        head = [*kinds[SECTION], *kinds[INTERFACE]]
        for order in ([*head, *kinds[SECRETS], *packets], [*head, *packets, *kinds[SECRETS]]):
            made = imported("--joined", "-", input=b"".join(order))
            self.assertTrue(any(line.endswith(" alpn unknown records 15") for line in made.map), made.map)

    def test_no_secret_is_said(self) -> None:
        """Neither in the map, nor on standard error, nor in what is made."""
        for name in NAMES:
            packets, link = packets_in(capture_named(name))
            for words in ((), ("--join-seconds", "0")):
                source = pcap_of(packets[len(packets) // 2 :], link)
                made = imported("--joined", *words, *key_log_of(name), input=source)
                text = "\n".join([*made.map, made.said]).lower()
                for line in (CAPTURES / f"{name}.keys").read_text().splitlines():
                    if line and not line.startswith("#"):
                        secret = line.split()[2].lower()
                        self.assertNotIn(secret, text)
                        self.assertNotIn(bytes.fromhex(secret), made.bytes)


def blocks_of(data: bytes) -> Iterator[bytes]:
    at = 0
    while at < len(data):
        length = struct.unpack_from("<I", data, at + 4)[0]
        yield data[at : at + length]
        at += length


if __name__ == "__main__":
    PROGRAM = needed()[0]
    unittest.main(argv=[argument for argument in sys.argv if argument != "-v"])
