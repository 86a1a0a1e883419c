"""Tests that what h2audit-why says is true of captures whose answer is known: the first line beside what follows it,
hung requests, what the capture has and lacks, and who is named.

    python3 -m tools.tests.why.said_test [H2AUDIT] [TEST..]
"""

import pathlib
import re
import struct
import sys
import unittest

from tests.captures import CLIENT, PREFACE, SERVER, SYN, SYN_ACK, Capture, frame
from tools.tests.pcapng_blocks import block, interface, option, packet, records_of, section
from tools.tests.why.captures_test import SCHEMA
from tools.tests.why.ci_test import slower
from tools.tests.why_tools import TOP, Json, OnCaptures, has_programs, programs_of, ran, said_of

RUNS = ("$H2AUDIT",)
QUICK = True
ANSWER = TOP / "tests" / "answer"
ACK, FIN, RST = 0x10, 0x11, 0x14
GET = b"\x82\x86\x84"
MOST = 2**31 - 1
FLOW_CONTROL_ERROR = 3
STEP = 1_000


def settings(*pairs: tuple[int, int]) -> bytes:
    return frame(4, 0, 0, b"".join(struct.pack(">HI", *pair) for pair in pairs))


def records(octets: bytes) -> list[bytes]:
    found, at = [], 24
    while at < len(octets):
        end = at + 16 + int(struct.unpack_from("<I", octets, at + 8)[0])
        found.append(octets[at:end])
        at = end
    return found


class Said(OnCaptures):
    def path(self, octets: bytes) -> pathlib.Path:
        path = self.folder / "capture.pcap"
        path.write_bytes(octets)
        return path

    def opened(self) -> Capture:
        """A connection whose settings are acknowledged, with a request on stream 1."""
        capture = Capture()
        capture.syn("C", 1000, SYN)
        capture.syn("S", 5000, SYN_ACK)
        capture.send("C", PREFACE + settings())
        capture.send("S", settings() + frame(4, 1, 0))
        capture.send("C", frame(4, 1, 0) + frame(1, 5, 1, GET))
        return capture

    def said(self, capture: Capture, step: int = STEP) -> tuple[Json, str]:
        path = self.path(slower(capture.bytes, step))
        return self.document(path), ran(path).stdout.decode()

    def document(self, path: pathlib.Path) -> Json:
        """What --json says, which the schema holds."""
        import jsonschema  # type: ignore[import]

        found = said_of(path)
        jsonschema.Draft202012Validator(SCHEMA).validate(found)
        return found

    def first_line(self, text: str) -> str:
        return [line for line in text.splitlines() if not line.startswith("warning: ")][0]


class FirstLine(Said):
    """The first line never contradicts what follows."""

    def test_errors(self) -> None:
        """An error that a peer sent is enough not to say that no rule was broken."""
        for octets, words, verdict in (
            (frame(3, 0, 1, struct.pack(">I", FLOW_CONTROL_ERROR)), "the server answered FLOW_CONTROL_ERROR", "errors"),
            (frame(7, 0, 0, struct.pack(">II", 1, 2)), "the server answered INTERNAL_ERROR", "errors"),
            (frame(7, 0, 0, struct.pack(">II", 1, 0)), "", "clean"),
            (frame(3, 0, 1, struct.pack(">I", 8)), "", "clean"),
        ):
            capture = self.opened()
            capture.send("S", octets)
            found, text = self.said(capture)
            wanted = f"A rule may have been broken: {words}." if words else "No rule was broken."
            self.assertIn(wanted, self.first_line(text))
            self.assertEqual("No rule was broken" in text, not words)
            self.assertEqual(found["summary"]["verdict"], verdict)

    def test_all(self) -> None:
        """No capture of the repository has a first line that what follows contradicts."""
        for path in [*sorted(ANSWER.glob("*.pcap")), *sorted((TOP / "examples").glob("*.pcap"))]:
            found = said_of(path)
            faults = [fault for one in found["connections"] for fault in one["faults"]]
            errors = [one for connection in found["connections"] for one in connection["signals"] if one["code"]]
            text = found["summary"]["text"]
            self.assertEqual(
                "No rule was broken" in text, bool(found["summary"]["audited"]) and not faults + errors, path
            )
            certain = sum(fault["certainty"] == "certain" for fault in faults)
            self.assertEqual(found["summary"]["doubtful"], len(faults) - certain)
            self.assertEqual("Doubtful: " in text, certain < len(faults), path)

    def test_doubtful(self) -> None:
        """A doubtful fault is called so, and told once for a stream, with how often it was and where first."""
        path = ANSWER / "packets_late_in_file.pcap"
        text = ran(path).stdout.decode()
        self.assertIn("Doubtful: the server broke RFC 9113, 6.9.1 (stream-overrun) 18 times.", self.first_line(text))
        self.assertNotIn(". The server broke", self.first_line(text))
        told = re.findall(r"^  DOUBTFUL FAULT: .* on stream (\d+), (\d+) times .*; first in packet (\d+), ", text, re.M)
        self.assertEqual(told, [("15", "4", "16"), ("13", "14", "32")])
        self.assertNotIn("  FAULT", text)
        self.assertEqual(said_of(path)["summary"]["verdict"], "doubtful-faults")

    def test_settings(self) -> None:
        """SETTINGS that were acknowledged, and answered by FLOW_CONTROL_ERROR on a stream that it ended."""
        grant, most = frame(8, 0, 1, struct.pack(">I", 1000)), settings((4, MOST))
        for octets, code in ((grant + most, FLOW_CONTROL_ERROR), (most + grant, FLOW_CONTROL_ERROR), (grant + most, 8)):
            capture = self.opened()
            capture.send("C", octets)
            capture.send("S", frame(3, 0, 1, struct.pack(">I", code)) + frame(4, 1, 0))
            found, text = self.said(capture)
            self.assertEqual(found["summary"]["faults"], 0)
            notes = found["connections"][0]["notes"]
            self.assertEqual(len(notes), code == FLOW_CONTROL_ERROR, notes)
            for note in notes:
                answer = "in packet 7, and answered by RST_STREAM FLOW_CONTROL_ERROR on stream 1 in packet 7"
                acknowledged = f"the server acknowledged them {answer}"
                self.assertRegex(note, f"from 66,535 to 2,147,484,647, above .*; {acknowledged}$")
                self.assertIn("A rule may have been broken: the server answered FLOW_CONTROL_ERROR.", text)

    def test_settings_by_the_report(self) -> None:
        """Where the report has a finding of them, that is enough."""
        capture = self.opened()
        capture.send("C", frame(8, 0, 1, struct.pack(">I", 1000)) + settings((4, MOST)))
        capture.send("S", frame(4, 1, 0) + frame(3, 0, 1, struct.pack(">I", FLOW_CONTROL_ERROR)))
        found, text = self.said(capture)
        self.assertEqual([fault["kind"] for fault in found["connections"][0]["faults"]], ["setting-overflow"])
        self.assertEqual(found["connections"][0]["notes"], [])
        self.assertIn("The client broke RFC 9113, 6.9.2 (setting-overflow).", text)


class Hung(Said):
    """For how long a request hung, and up to where."""

    def stalled(self, *ends: bytes, granted: bool = True) -> tuple[Json, str]:
        """A stall of 10 steps that ends, one that does not, and what ends the connection from 20 steps later on."""
        capture = self.opened()
        capture.send(
            "S", frame(1, 4, 1, b"\x88") + b"".join(4 * [frame(0, 0, 1, bytes(16_383))]) + frame(0, 0, 1, bytes(3))
        )
        for _ in range(9):
            capture.send("C", frame(6, 0, 0, bytes(8)))
        if granted:
            capture.send("C", frame(8, 0, 1, struct.pack(">I", 10)) + frame(8, 0, 0, struct.pack(">I", 1000)))
            capture.send("S", frame(0, 0, 1, bytes(10)))
        for _ in range(19):
            capture.send("C", frame(6, 0, 0, bytes(8)))
        for end in ends:
            capture.send("S", end)
        return self.said(capture)

    def test_last_stall(self) -> None:
        """The time that is told is that of the last stall, and what came before is told beside."""
        goaway = frame(7, 0, 0, struct.pack(">II", 1, 1))
        found, text = self.stalled(goaway)
        (request,) = found["connections"][0]["requests"]
        self.assertEqual((request["hung"], request["hung_nanos"]), (True, 20 * STEP * 1000))
        self.assertEqual((request["ended"]["how"], request["ended"]["code"]), ("GOAWAY", 1))
        self.assertEqual((request["cause"]["why"], request["cause"]["nanos"]), ("granted-nothing", 30 * STEP * 1000))
        said = "HUNG for 20 ms, up to the server's GOAWAY (packet 37): the client granted nothing; "
        self.assertIn(said + "it was stalled for 10 ms before", text)
        begin = request["cause"]["first"]
        self.assertEqual(request["cause"]["last"]["time"] - begin["time"], request["hung_nanos"])

    def test_refused(self) -> None:
        """A GOAWAY that refuses the stream ends it, though the connection goes on."""
        found, text = self.stalled(frame(7, 0, 0, struct.pack(">II", 0, 0)), granted=False)
        (request,) = found["connections"][0]["requests"]
        self.assertEqual((request["hung"], request["hung_nanos"]), (True, 29 * STEP * 1000))
        self.assertIn("up to the server's GOAWAY", text)

    def test_stop(self) -> None:
        """The audit stops before the end of a request that hangs."""
        ping = frame(6, 0, 0, bytes(8))
        found, text = self.stalled(frame(6, 0, 0, bytes(7)), ping, ping)
        (request,) = found["connections"][0]["requests"]
        self.assertEqual((request["hung"], request["hung_nanos"]), (True, 20 * STEP * 1000))
        self.assertIn("HUNG for 20 ms, up to the frame at which the audit stopped (packet 37): ", text)
        found, _ = self.stalled(frame(6, 0, 0, bytes(7)), frame(0, 0, 1, bytes(5)))
        self.assertFalse(found["connections"][0]["requests"][0]["hung"], "it went on")

    def test_opened_later(self) -> None:
        """A request that was opened in the midst of the connection's stall did not hang before."""
        later = frame(1, 4, 3, b"\x88")
        capture = self.opened()
        capture.send("C", frame(8, 0, 1, struct.pack(">I", 9)))
        capture.send(
            "S", frame(1, 4, 1, b"\x88") + b"".join(4 * [frame(0, 0, 1, bytes(16_383))]) + frame(0, 0, 1, bytes(3))
        )
        capture.send("C", frame(6, 0, 0, bytes(8)))
        capture.send("C", frame(1, 5, 3, GET))
        capture.send("S", later)
        for _ in range(20):
            capture.send("C", frame(6, 0, 0, bytes(8)))
        requests = self.said(capture)[0]["connections"][0]["requests"]
        told = [(one["hung"], one["hung_nanos"], one["cause"]["kind"]) for one in requests]
        self.assertEqual(
            told, [(True, 23 * STEP * 1000, "connection-window"), (True, 21 * STEP * 1000, "connection-window")]
        )

    def test_not(self) -> None:
        """One that was reset, or whose end may be among missing bytes, does not count as hung."""
        reset = frame(3, 0, 1, struct.pack(">I", 8))
        (request,) = self.stalled(reset)[0]["connections"][0]["requests"]
        self.assertEqual((request["hung"], request["hung_nanos"]), (False, None))


class Captured(Said):
    """What the capture has beside HTTP/2, and what it lacks."""

    def test_refused_port(self) -> None:
        found = said_of(ANSWER / "refused_port.pcap")
        reasons = [(one["outcome"], one["reason"]) for one in found["connections"]]
        self.assertEqual(reasons, [("no-handshake", "refused-port"), ("http2", None), ("no-preface", "silent"),
                                   ("no-preface", None)])  # fmt: skip
        self.assertIn("the server answered by HTML without a status line in packet 10: it speaks no HTTP/2 here",
                      found["connections"][1]["notes"])  # fmt: skip
        self.assertNotIn("one-direction", [one["kind"] for one in found["warnings"]])

    def test_one_direction(self) -> None:
        found = said_of(ANSWER / "one_direction.pcap")
        self.assertEqual([one["reason"] for one in found["not_audited"]], ["one-direction"])
        self.assertEqual([one["kind"] for one in found["warnings"]], ["nothing-audited", "one-direction"])
        text = ran(ANSWER / "one_direction.pcap").stdout.decode()
        self.assertNotIn("began before the capture", text)

    def test_handshakes(self) -> None:
        """What of a handshake was captured says what became of the connection."""
        syn, both = ("C", 1000, SYN), [("C", 1000, SYN), ("S", 5000, SYN_ACK)]
        for segments, reason in (
            ([syn], "no-answer"),
            ([syn, syn], "no-answer"),
            ([syn, ("S", 0, RST)], "refused-port"),
            ([syn, ("C", 1001, ACK)], "one-direction"),
            ([syn, ("S", 5001, ACK)], "no-syn-ack"),
            ([*both, ("C", 1001, ACK)], "silent"),
        ):
            capture = Capture()
            for who, sequence, flags in segments:
                ends = (CLIENT, SERVER) if who == "C" else (SERVER, CLIENT)
                capture.segment(*ends, sequence, flags)
            (connection,) = self.said(capture)[0]["connections"]
            self.assertEqual(connection["reason"], reason, segments)

    def test_protocols(self) -> None:
        for octets, reason, words in (
            (b"GET / HTTP/1.1\r\nHost: a\r\n\r\n", "http/1.1", "1 connection that spoke HTTP/1.1"),
            (b"GET / HTTP/1.1\r\nUpgrade: h2c\r\n\r\n", "h2c-upgrade", "asked for an upgrade to HTTP/2"),
            (b"SSH-2.0-x\r\n", "ssh", "that spoke SSH"),
            (b"\xff" * 40, None, "that spoke no HTTP/2"),
        ):
            capture = Capture()
            capture.syn("C", 1000, SYN)
            capture.syn("S", 5000, SYN_ACK)
            capture.send("C", octets)
            found, text = self.said(capture)
            self.assertEqual(found["connections"][0]["reason"], reason)
            self.assertIn(words, text)

    def test_tunnels(self) -> None:
        """Packets in a tunnel are named, and arp only where nothing was audited."""

        def others(kind: int, number: int) -> bytes:
            octets = bytes(12) + struct.pack(">H", kind) + bytes(40)
            return number * (struct.pack("<IIII", 0, 1, len(octets), len(octets)) + octets)

        octets = (TOP / "examples" / "paused_stream_node.pcap").read_bytes()
        header = octets[:4] + octets[4:24]
        path = self.path(octets + others(0x8847, 3) + others(0x0806, 2))
        told = {one["reason"]: (one["count"], one["text"]) for one in said_of(path)["not_audited"]}
        self.assertEqual(told["mpls"], (3, "3 packets of mpls, within which nothing is read"))
        self.assertEqual((told["not-ipv4"][0], len(told)), (2, 2))
        path = self.path(header + others(0x8847, 3) + others(0x0806, 2))
        told = {one["reason"]: (one["count"], one["text"]) for one in said_of(path)["not_audited"]}
        self.assertEqual(told["arp"], (2, "2 packets of arp"))

    def test_dropped(self) -> None:
        """Bytes that were acknowledged, and are in no packet: how many, and how many packets at least."""
        octets = (ANSWER / "longer_silence.pcap").read_bytes()
        kept = records(octets)
        by_length = sorted(range(len(kept)), key=lambda at: -len(kept[at]))
        dropped = by_length[1]
        found = self.document(self.path(octets[:24] + b"".join(kept[:dropped] + kept[dropped + 1 :])))
        payload = len(kept[dropped]) - 16 - 66
        texts = [one["text"] for one in found["warnings"] if one["kind"] == "dropped"]
        self.assertEqual(len(texts), 1, found["warnings"])
        said = f"{payload:,} bytes of 1 connection were acknowledged and never captured: 1 packet or more "
        self.assertTrue(texts[0].startswith(said), texts)
        self.assertEqual(sum(found["connections"][0]["uncaptured"].values()), payload)
        text = ran(self.folder / "capture.pcap").stdout.decode()
        self.assertNotIn("not ended", text)
        self.assertIn("its end was not captured", text)
        whole = said_of(ANSWER / "longer_silence.pcap")
        self.assertEqual([one for one in whole["warnings"] if one["kind"] == "dropped"], [])

    def test_dropped_by_the_kernel(self) -> None:
        """What the statistics of pcapng say."""
        found, link = records_of(TOP / "examples" / "paused_stream_node.pcap")
        packets = b"".join(packet("<", 0, one[0] * 10**6 + one[1], one) for one in found)
        statistics = [block("<", 5, struct.pack("<III", 0, 0, 0) + option("<", 5, struct.pack("<Q", many)))
                      for many in (3, 1234)]  # fmt: skip
        octets = section("<") + interface("<", link) + statistics[0] + packets
        for more, text in ((statistics[1], "1,234 packets"), (b"", "3 packets")):
            (warning,) = self.document(self.path(octets + more))["warnings"]
            self.assertEqual(warning["kind"], "dropped")
            self.assertTrue(warning["text"].startswith(f"{text} were dropped while this was captured"), warning)


class Named(Said):
    """Who is named in what is said."""

    def test_holder(self) -> None:
        path = ANSWER / "one_stream_holds_connection.pcap"
        text = ran(path).stdout.decode()
        said = "stream 1 holds all 65,535 bytes of the connection's window; streams 3, 5 waited; "
        self.assertIn(said + "the connection's window was used up for 913 ms in all", text)
        stalls = said_of(path)["connections"][0]["stalls"]
        holders = [one["holder"] for one in stalls if one["holder"]]
        self.assertIn({"stream": 1, "bytes": 65_535, "of": 65_535}, holders)

    def test_leak(self) -> None:
        """The side that gave nothing back is named."""
        text = ran(TOP / "examples" / "leaked_connection_credit_nginx.pcap").stdout.decode()
        self.assertIn("65,535 used by streams 1, 3, 5, 7 (cancelled), of which the client gave back 0", text)

    def test_many_resets(self) -> None:
        """There is one sentence about many requests that are reset at once."""
        capture = self.opened()
        for stream in range(3, 3 + 2 * 650, 2):
            capture.send("C", frame(1, 5, stream, GET))
        for stream in range(3, 3 + 2 * 650, 2):
            capture.send("C", frame(3, 0, stream, struct.pack(">I", 8)))
        found, text = self.said(capture, 60)
        packets = found["connections"][0]["requests"][1]["ended"]["at"]["packet"]
        said = f"650 requests were reset by the client within 38.9 ms, packets {packets} to {packets + 649}, by CANCEL"
        self.assertIn(said, found["connections"][0]["notes"])
        self.assertIn(said, text)


if __name__ == "__main__":
    sys.argv = programs_of(sys.argv)
    if not has_programs():
        sys.exit("h2audit or h2audit-import is not built")
    unittest.main()
