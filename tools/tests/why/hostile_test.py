"""Tests of h2audit-why on hostile captures, and of what it says of the certainty of a fault.

    python3 -m tools.tests.why.hostile_test [H2AUDIT] [TEST..]
"""

import pathlib
import struct
import sys
import unittest

from tests.captures import PREFACE, SYN, SYN_ACK, Capture, frame, number
from tools.tests.why_tools import LONGEST_NAME, TOP, Json, OnCaptures, has_programs, programs_of, ran, said_of

RUNS = ("$H2AUDIT",)
# A larger table of HPACK is not followed.
LARGEST_TABLE = 1 << 16


def block(*fields: tuple[bytes, bytes]) -> bytes:
    """Literal fields without indexing (RFC 7541, 6.2.2)."""
    return b"".join(b"\0" + bytes([len(name)]) + name + bytes([len(value)]) + value for name, value in fields)


def prefixed(value: int, bits: int, first: int) -> bytes:
    """An integer behind the bits of a first byte (RFC 7541, 5.1)."""
    most = (1 << bits) - 1
    if value < most:
        return bytes([first | value])
    octets, value = [first | most], value - most
    while value > 127:
        octets.append(value & 127 | 128)
        value >>= 7
    return bytes([*octets, value])


GET = ((b":method", b"GET"), (b":scheme", b"http"), (b":path", b"/named?query"), (b":authority", b"here"))


class Hostile(OnCaptures):
    """What is damaged is named; nothing ends in a traceback."""

    def capture_of(self, frames: list[tuple[str, bytes]], begins: bool = True) -> pathlib.Path:
        made = Capture()
        if begins:
            made.syn("C", 1000, SYN)
            made.syn("S", 5000, SYN_ACK)
        made.send("C", PREFACE)
        for side, octets in frames:
            for at in range(0, len(octets), 40_000):
                made.send(side, octets[at : at + 40_000])
        path = self.folder / "hostile.pcap"
        path.write_bytes(bytes(made.bytes))
        return path

    def both(self, more: list[tuple[str, bytes]]) -> Json:
        return said_of(str(self.capture_of([("C", frame(4, 0, 0)), ("S", frame(4, 0, 0)), *more])))

    def test_damaged_fields(self) -> None:
        """A field block that is damaged takes away the names that follow on that side, and no more."""
        for bad in (
            b"\xff\xff\xff\xff\xff\xff\x7f",
            b"\xbe",
            b"\x00\x7f",
            b"\x82" + b"\xff" * 30_000,
            b"\x3f\xe1\xff\x7f",
        ):
            found = self.both([
                ("C", frame(1, 5, 1, block(*GET))), ("C", frame(1, 5, 3, bad[:16_000])),
                ("C", frame(1, 5, 5, block(*GET))),
                ("S", frame(1, 5, 1, b"\x88")),
            ])  # fmt: skip
            (connection,) = found["connections"]
            self.assertEqual([one["name"] for one in connection["requests"]], ["GET /named", None, None])
            self.assertEqual(connection["requests"][0]["status"], 200)
            self.assertIn("are unknown", connection["notes"][0])

    def test_large_tables(self) -> None:
        """A table that grows up to what SETTINGS allow is read; many fields for few bytes are not unpacked."""
        grown = b"\x3f\xe1\xff\x03" + b"\x40\x01a\x7f\xa1\x1e" + b"v" * 4000
        many = b"\xbe" * 12_000
        allows = frame(4, 0, 0, struct.pack(">HI", 1, 65536))
        more = [
            ("S", allows),
            ("C", frame(1, 5, 1, grown + block(*GET))),
            ("C", frame(1, 5, 3, many)),
            ("C", frame(1, 5, 5, b"\x82")),
        ]
        found = self.both(more)
        (connection,) = found["connections"]
        self.assertEqual([one["name"] for one in connection["requests"]], ["GET /named", None, None])

    def test_long_names(self) -> None:
        """A long path enters the table once, and each request refers to it by a byte: it is cut."""
        path = b"/" + b"n" * 60_000
        octets = prefixed(LARGEST_TABLE, 5, 0x20) + b"\x82\x87" + b"\x44" + prefixed(len(path), 7, 0) + path
        pieces = [octets[at : at + 16_000] for at in range(0, len(octets), 16_000)]
        first = frame(1, 1, 1, pieces[0]) + b"".join(frame(9, 0, 1, piece) for piece in pieces[1:-1])
        first += frame(9, 4, 1, pieces[-1])
        allows = frame(4, 0, 0, struct.pack(">HI", 1, LARGEST_TABLE))
        frames = [("C", frame(4, 0, 0)), ("S", allows), ("C", first)]
        frames += [("C", frame(1, 5, stream, b"\x82\x87\xbe")) for stream in range(3, 41, 2)]
        requests = said_of(str(self.capture_of(frames)))["connections"][0]["requests"]
        name = ("GET " + path.decode())[:LONGEST_NAME]
        self.assertEqual([one["name"] for one in requests], [name] * 20)
        self.assertEqual({one["path"] for one in requests}, {path.decode()[:LONGEST_NAME]})

    def test_huge_tables(self) -> None:
        """A table that is larger than what is followed: the names of that side are unknown from there on."""
        allows = frame(4, 0, 0, struct.pack(">HI", 1, (1 << 32) - 1))
        for size, is_followed in ((LARGEST_TABLE, True), (LARGEST_TABLE + 1, False)):
            found = self.both([
                ("S", allows), ("C", frame(1, 5, 1, block(*GET))),
                ("C", frame(1, 5, 3, prefixed(size, 5, 0x20) + block(*GET))), ("C", frame(1, 5, 5, block(*GET))),
            ])  # fmt: skip
            (connection,) = found["connections"]
            rest = ["GET /named" if is_followed else None] * 2
            self.assertEqual([one["name"] for one in connection["requests"]], ["GET /named", *rest])
            why = [one for one in connection["notes"] if one.endswith("unknown: a table of more than 65,536 bytes")]
            self.assertEqual(len(why), not is_followed)

    def test_unprintable(self) -> None:
        """What a terminal would act on is escaped in text, and kept in JSON."""
        fields = (*GET[:2], (b":path", b"/\x1b[31m\xff\n\xc2\x9b"), GET[3])
        path = self.capture_of([("C", frame(4, 0, 0)), ("S", frame(4, 0, 0)), ("C", frame(1, 5, 1, block(*fields)))])
        text = ran(path).stdout.decode()
        self.assertTrue(text.replace("\n", "").isprintable(), text)
        self.assertIn("\\x1b[31m", text)
        self.assertEqual(len(ran("--json", path).stdout.splitlines()), 1)

    def test_within(self) -> None:
        """One side of a connection that began before the capture: nothing was audited, and it does not look clean."""
        run = ran(self.capture_of([("C", frame(4, 0, 0))], begins=False))
        self.assertEqual(run.returncode, 6)
        self.assertTrue(run.stdout.startswith(b"warning: nothing was audited"))
        self.assertIn(b"began before the capture", run.stdout)
        self.assertNotIn(b"No rule was broken", run.stdout)

    def test_many_streams(self) -> None:
        """10,000 streams behind one stall of the connection, which is looked at once."""
        frames = [("C", frame(4, 0, 0, struct.pack(">HI", 4, 1 << 20))), ("S", frame(4, 0, 0)), ("S", frame(4, 1, 0))]
        frames += [("C", b"".join(frame(1, 5, stream, block(*GET)) for stream in range(1, 20_001, 2)))]
        frames += [("S", frame(0, 0, 1, bytes(16_384)))] * 3 + [("S", frame(0, 0, 1, bytes(16_383)))]
        found = said_of(str(self.capture_of(frames)))
        (connection,) = found["connections"]
        self.assertEqual(len(connection["requests"]), 10_000)
        self.sums(found)
        self.assertEqual(len(connection["stalls"]), 1)
        self.assertTrue(all(one["name"] == "GET /named" for one in connection["requests"]))

    def test_gap(self) -> None:
        """Bytes that were lost: what may be an artefact of that is marked so."""
        found = said_of(str(TOP / "examples" / "lost_segment.pcap"))
        self.assertEqual([one["kind"] for one in found["warnings"]], ["gap"])
        self.assertEqual(found["connections"][0]["gaps"], [{"side": "client", "offset": 42}])

    def test_other_files(self) -> None:
        for octets, name in ((b"", "short-header"), (b"no capture at all, but text of some length", "bad-magic")):
            path = self.folder / "other"
            path.write_bytes(octets)
            run = ran(path)
            self.assertEqual((run.returncode, run.stdout), (3, b""))
            self.assertRegex(run.stderr.decode(), f"^h2audit-why: capture refused: {name}.*\n$")
        run = ran(self.folder / "nothere.pcap")
        self.assertEqual((run.returncode, run.stdout), (4, b""))
        self.assertRegex(run.stderr.decode(), "^h2audit-why: .*nothere.pcap: No such file or directory\n$")


class Certainty(OnCaptures):
    """What each fault hangs on."""

    def fault_of(self, frames: list[tuple[str, bytes]], back: bool = False) -> Json:
        made = Capture()
        made.syn("C", 1000, SYN)
        made.syn("S", 5000, SYN_ACK)
        made.send("C", PREFACE)
        for side, octets in frames:
            made.send(side, octets)
        octets = bytearray(made.bytes)
        if back:
            octets[24 + 4 : 24 + 8] = struct.pack("<I", 900_000)
        path = self.folder / "certainty.pcap"
        path.write_bytes(bytes(octets))
        found = said_of(str(path))
        (fault,) = found["connections"][0]["faults"]
        self.warnings = [one["kind"] for one in found["warnings"]]
        return dict(fault)

    def overrun(self, acknowledged: bool, value: int) -> list[tuple[str, bytes]]:
        settings = frame(4, 0, 0, struct.pack(">HI", 4, value))
        acknowledgement = [("C", frame(4, 1, 0))] if acknowledged else []
        first = frame(4, 0, 0, struct.pack(">HI", 4, 10))
        return [
            ("C", frame(4, 0, 0)), ("S", first), ("C", frame(4, 1, 0)), ("C", frame(1, 4, 1, block(*GET))),
            ("S", settings),
            *acknowledgement, ("C", frame(0, 0, 1, bytes(15))),
        ]  # fmt: skip

    def test_certain(self) -> None:
        fault = self.fault_of(self.overrun(True, 12))
        self.assertEqual((fault["kind"], fault["certainty"], fault["doubt"]), ("stream-overrun", "certain", None))
        self.assertEqual([one["packet"] for one in fault["set_by"]], [8, 9])
        self.assertIn("initial window 12 by SETTINGS in packet 8, acknowledged in packet 9", fault["set_by_text"])
        self.assertEqual(self.warnings, [])

    def test_by_settings(self) -> None:
        """The overrun is gone if SETTINGS count before their acknowledgement; with smaller ones it is not."""
        fault = self.fault_of(self.overrun(False, 20))
        self.assertEqual((fault["kind"], fault["certainty"]), ("stream-overrun", "settings"))
        self.assertIn("packet 8 count from there on", fault["doubt"])
        self.assertEqual(self.fault_of(self.overrun(False, 14))["certainty"], "certain")

    def test_clock(self) -> None:
        fault = self.fault_of(self.overrun(True, 12), back=True)
        self.assertEqual(fault["certainty"], "clock")
        self.assertEqual(self.warnings, ["times-go-back"])

    def test_grants(self) -> None:
        """An overflow names the grants that made it."""
        grants = [("S", frame(8, 0, 1, number(2**31 - 1 - 65535))), ("S", frame(8, 0, 1, number(1)))]
        fault = self.fault_of(
            [("C", frame(4, 0, 0)), ("S", frame(4, 0, 0)), ("C", frame(1, 4, 1, block(*GET))), *grants]
        )
        self.assertEqual((fault["kind"], fault["broke"], fault["certainty"]), ("stream-overflow", "server", "certain"))
        self.assertEqual([one["packet"] for one in fault["set_by"]], [7, 8])


if __name__ == "__main__":
    sys.argv = programs_of(sys.argv)
    if not has_programs():
        sys.exit("h2audit or h2audit-import is not built")
    unittest.main()
