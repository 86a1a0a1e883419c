"""Tests of h2audit-why on captures that are made near those of tests/answer/: each has one thing more, or less, that
would mislead.

    python3 -m tools.tests.why.near_test [H2AUDIT] [TEST..]
"""

import pathlib
import struct
import sys
import unittest
import xml.etree.ElementTree as ElementTree
from dataclasses import dataclass

from tests.captures import ACK, CLIENT, PREFACE, SERVER, SYN, SYN_ACK, Endpoint, frame, number, packet
from tools.tests.request_captures import Timed, request
from tools.tests.why_tools import TOP, Json, OnCaptures, has_programs, programs_of, ran, said_of

RUNS = ("$H2AUDIT",)
QUICK = True
ANSWER = TOP / "tests" / "answer"
FIN, RST = 0x11, 0x14
END = 1
OK = b"\x88"
WINDOW, WIDE, SEGMENT = 65_535, 1 << 24, 1448
# A segment size of 1,460 bytes, and windows that are shifted by 7.
OPTIONS, SHIFT = b"\x02\x04\x05\xb4\x01\x03\x03\x07", 7
TCP = 14 + 20


def settings(*pairs: tuple[int, int]) -> bytes:
    return frame(4, 0, 0, b"".join(struct.pack(">HI", *pair) for pair in pairs))


def grant(stream: int, size: int) -> bytes:
    return frame(8, 0, stream, number(size))


def data(stream: int, size: int, flags: int = 0) -> bytes:
    """So many bytes in frames of 16,384 at most."""
    sizes = [16_384] * (size // 16_384) + [size % 16_384] * bool(size % 16_384)
    return b"".join(frame(0, flags if at == len(sizes) - 1 else 0, stream, bytes(one)) for at, one in enumerate(sizes))


def answer(stream: int, size: int, flags: int = END) -> bytes:
    return frame(1, 4, stream, OK) + data(stream, size, flags)


def get(stream: int) -> bytes:
    return frame(1, 5, stream, request("GET", "/asked", "near.example"))


def post(stream: int) -> bytes:
    return frame(1, 4, stream, request("POST", "/asked", "near.example"))


class Talk(Timed):
    """A connection whose packets have times in milliseconds, and acknowledge all that came from the other side."""

    def __init__(self, client: Endpoint = CLIENT, has_options: bool = False) -> None:
        super().__init__()
        self.begin = self.now
        self.window = 65_535
        self.has_options = has_options
        self.ends = {"C": (client, SERVER), "S": (SERVER, client)}

    def at(self, millis: float) -> "Talk":
        self.now = self.begin + round(millis * 1000)
        return self

    def segment(
        self,
        source: Endpoint,
        target: Endpoint,
        seq: int,
        flags: int,
        payload: bytes = b"",
        kept: int | None = None,
        acknowledged: int | None = None,
    ) -> None:
        whole = bytearray(packet(source, target, seq, flags, payload))
        if flags & SYN and self.has_options:
            whole += OPTIONS
            struct.pack_into(">H", whole, 16, 40 + len(OPTIONS))
            whole[TCP + 12] = 0x70
        other = "S" if source == self.ends["C"][0] else "C"
        answered = self.next[other] if acknowledged is None else acknowledged
        struct.pack_into(">I", whole, TCP + 8, answered if flags & ACK else 0)
        struct.pack_into(">H", whole, TCP + 14, self.window)
        self.record(len(whole), bytes(whole))

    def bare(self, millis: float, side: str, flags: int = ACK, acknowledged: int | None = None) -> None:
        """A segment without payload."""
        self.at(millis)
        self.segment(*self.ends[side], self.next[side], flags, acknowledged=acknowledged)

    def say(self, millis: float, side: str, *frames: bytes) -> None:
        self.at(millis)
        self.send(side, b"".join(frames))

    def shake_hands(self, round_trip: float = 0.02) -> None:
        """As it is captured at the server."""
        self.at(0).syn("C", 1000, SYN)
        self.at(0.01).syn("S", 5000, SYN_ACK)
        self.bare(round_trip, "C")

    def open(self, round_trip: float = 0.02, *values: tuple[int, int]) -> "Talk":
        """Both sides' settings are acknowledged at 100 ms."""
        self.shake_hands(round_trip)
        self.say(round_trip + 1, "C", PREFACE, settings(*values))
        self.say(round_trip + 1.1, "S", settings(), frame(4, 1, 0))
        self.say(99.9, "C", frame(4, 1, 0))
        self.bare(100, "S")
        return self


@dataclass
class Answered:
    document: Json
    text: str

    def request(self, stream: int = 1) -> Json:
        found = [one for connection in self.document["connections"] for one in connection["requests"]]
        return dict(next(one for one in found if one["stream"] == stream))

    def named(self, stream: int = 1) -> tuple[str, str | None, str | None]:
        cause = self.request(stream)["cause"]
        return cause["kind"], cause["why"], cause["ask"]

    def shares(self, stream: int = 1, side: str = "server") -> dict[str, float]:
        """In whole milliseconds, those that are not 0."""
        shares = self.request(stream)[side]["shares"]
        return {name: round(nanos / 1e6) for name, nanos in shares.items() if round(nanos / 1e6)}


class Near(OnCaptures):
    def path(self, *talks: Talk) -> pathlib.Path:
        """One capture of several connections, in order of time."""
        records = []
        for talk in talks:
            at = 24
            while at < len(talk.bytes):
                end = at + 16 + int(struct.unpack_from("<I", talk.bytes, at + 8)[0])
                records.append((struct.unpack_from("<II", talk.bytes, at), bytes(talk.bytes[at:end])))
                at = end
        path = self.folder / "capture.pcap"
        ordered = sorted(records, key=lambda record: record[0]) if len(talks) > 1 else records
        path.write_bytes(bytes(talks[0].bytes[:24]) + b"".join(record for _, record in ordered))
        return path

    def answered(self, *talks: Talk) -> Answered:
        path = self.path(*talks)
        found = said_of(path)
        self.sums(found)
        return Answered(found, ran("--width", "1000", path).stdout.decode())


class Turns(Near):
    """Answers that come behind others, over a way of 40 ms."""

    def downloads(
        self, behind: int, *last: bytes, newer: bool = False, round_trip: float = 40, size: int = 4000
    ) -> Answered:
        """A download of 60 pieces, 10 ms from one to the next; so many pieces before its end another answer."""
        first, other = (3, 1) if newer else (1, 3)
        talk = Talk().open(round_trip)
        talk.say(110, "C", get(1), get(3), grant(0, WIDE), grant(first, WIDE))
        talk.say(111, "S", frame(1, 4, first, OK))
        sent: list[int] = []
        for at in range(60):
            if at >= 4:
                talk.bare(112 + 10 * at, "C", acknowledged=sent[at - 4])
            # No packet has more bytes than this.
            for _ in range(size // 60_000):
                talk.say(112 + 10 * at, "S", data(first, 60_000))
            talk.say(112 + 10 * at, "S", data(first, 4000, END * (at == 59)), *(last if at == 59 - behind else ()))
            sent.append(talk.next["S"])
        if not last:
            talk.say(703, "S", answer(other, 100))
        for at in range(56, 60):
            talk.bare(712 + 10 * (at - 56), "C", acknowledged=sent[at])
        talk.bare(760, "C", FIN)
        return self.answered(talk)

    def test_turn(self) -> None:
        """An answer that begins in the packet in which the one before it ends waited for the path."""
        found = self.downloads(0, answer(3, 100))
        self.assertEqual(found.named(3), ("path", None, None))
        self.assertEqual(found.shares(3), {"waiting": 1, "others": 591})
        self.assertIn("the server sent all the time: 591 ms at 406 kB/s, shared by 2 streams", found.text)
        self.assertEqual(found.named(1), ("path", None, None))

    def test_beside(self) -> None:
        """So did one that stood in a queue with a download that goes on, and one behind the end of a large one."""
        for found in (self.downloads(10, answer(3, 100)), self.downloads(0, answer(3, 100), size=120_000)):
            self.assertEqual(found.named(3), ("path", None, None))
            self.assertNotIn("idle", found.shares(3))

    def test_behind_one_that_waited(self) -> None:
        """So did one that begins in the packet in which the headers of another one end that did."""
        headers = frame(1, 4, 3, OK + bytes([0x0F, 0x01, 100]) + bytes(100))
        for rest, cause in ((headers[20:] + answer(5, 100), "path"), (headers[20:], "application")):
            talk = Talk().open(40)
            talk.say(110, "C", get(1), get(3), get(5), grant(0, WIDE), grant(1, WIDE))
            talk.say(111, "S", answer(1, 4000, 0))
            for at in range(30):
                talk.say(121 + 10 * at, "S", data(1, 4000, 0), headers[:20] if at == 29 else b"")
            talk.say(421, "S", rest)
            talk.say(422, "S", answer(5, 100) if cause == "application" else b"")
            talk.bare(460, "C", FIN)
            found = self.answered(talk)
            self.assertEqual((found.named(3)[0], found.named(5)[0]), ("path", cause))

    def test_no_turn(self) -> None:
        """One in a packet of its own, one that was asked for before the other, one that is near, and one behind more
        than a socket holds waited for the server.
        """
        for found, stream in (
            (self.downloads(0), 3),
            (self.downloads(0, answer(1, 100), newer=True), 1),
            (self.downloads(0, answer(3, 100), round_trip=0.5), 3),
            (self.downloads(10, answer(3, 100), size=120_000), 3),
        ):
            self.assertEqual(found.named(stream), ("application", "before", "server"))
            self.assertNotIn("others", found.shares(stream))

    def test_behind_a_silence(self) -> None:
        """A side that was silent before all that it sent sends since then alone."""
        talk = Talk().open(40)
        talk.say(110, "C", get(1), get(3), grant(0, WIDE), grant(1, WIDE))
        talk.say(510, "S", frame(1, 4, 1, OK), data(1, 4000))
        talk.say(540, "S", data(1, 4000, END), answer(3, 100))
        talk.bare(580, "C", FIN)
        found = self.answered(talk)
        self.assertEqual(found.named(3), ("application", "before", "server"))
        self.assertEqual(found.shares(3), {"waiting": 400, "others": 30})


class TcpWindows(Near):
    """A TCP window that is used up, though it is not 0."""

    def reads_late(self, left: int, until: float, size: int = SEGMENT, late: float = 0) -> Answered:
        """A client takes 65,536 bytes at first; behind what comes so many more, and from a time on all."""
        talk = Talk(has_options=True)
        talk.window = 512
        talk.open(40)
        talk.say(110, "C", get(1), grant(0, WIDE), grant(1, WIDE))
        talk.say(111, "S", answer(1, 65_536 - left - 10 - 4 * 9, 0))
        talk.window = left >> SHIFT
        talk.bare(151 + late, "C")
        talk.window = 512
        talk.bare(until, "C")
        talk.say(until + 0.1, "S", frame(0, 0, 1, bytes(size - 9)))
        talk.say(until + 0.2, "S", data(1, 20, END))
        talk.bare(until + 40, "C")
        talk.bare(until + 41, "C", FIN)
        return self.answered(talk)

    def test_too_small(self) -> None:
        """1,280 bytes are no room for a segment of 1,448."""
        found = self.reads_late(1280, 651)
        self.assertEqual(found.named(), ("tcp", "zero-window", "client"))
        self.assertEqual(found.shares(), {"waiting": 1, "sending": 40, "tcp": 500})
        self.assertIn("the client's TCP window was used up", found.text)

    def test_delayed(self) -> None:
        """An acknowledgement that was delayed tells of the time since the last segment."""
        self.assertEqual(self.reads_late(1280, 651, late=60).shares(), {"waiting": 1, "tcp": 540})

    def test_large_enough(self) -> None:
        """With room for the next segment, or for less than 20 ms, the server had no reason to wait."""
        self.assertEqual(self.reads_late(1536, 651).named(), ("application", "between", "server"))
        self.assertEqual(self.reads_late(1280, 651, 700).named(), ("application", "between", "server"))
        self.assertEqual(self.reads_late(1280, 170).named()[0], "path")

    def test_nagle(self) -> None:
        """A client without TCP_NODELAY, whose second piece waits for a delayed acknowledgement."""
        talk = Talk(has_options=True).open()
        talk.say(110, "C", post(1))
        talk.bare(150, "S")
        talk.say(150.02, "C", data(1, 300, END))
        talk.say(151, "S", answer(1, 100))
        talk.bare(160, "C", FIN)
        found = self.answered(talk)
        self.assertEqual(found.named(), ("tcp", "nagle", "client"))
        self.assertIn("the client kept a small piece back until the server had acknowledged", found.text)

    def test_no_nagle(self) -> None:
        """A piece that had no room in the window waited for that, over a way of 100 ms."""
        talk = Talk(has_options=True)
        talk.window = 64
        talk.open(50)
        talk.say(110, "C", get(1), grant(0, WIDE), grant(1, WIDE))
        talk.say(111, "S", frame(1, 4, 1, OK))
        for at in range(10):
            for piece in [*range(0, 8192 - SEGMENT, SEGMENT), 8192 - SEGMENT]:
                size = min(SEGMENT, 8192 - SEGMENT - piece) or SEGMENT
                talk.say(160 + 50 * at, "S", frame(0, 0, 1, bytes(size - 9)))
            talk.bare(209.9 + 50 * at, "C")
        talk.say(660, "S", data(1, 20, END))
        talk.bare(710, "C")
        talk.bare(711, "C", FIN)
        self.assertNotIn("Nagle", self.answered(talk).text)


class Missing(Near):
    """Bytes at the end of what a side sent, which the other one acknowledged, and which no packet has."""

    def talk(self, side: str, *frames: bytes, missing: int) -> Answered:
        talk = Talk(has_options=True).open()
        talk.say(110, "C", get(1))
        if frames:
            talk.say(111, "S", *frames)
        talk.next[side] += missing
        talk.bare(210, "S" if side == "C" else "C")
        talk.bare(1110, "SC"[side == "S"], FIN)
        return self.answered(talk)

    def test_end(self) -> None:
        """The end of an answer: what was not seen is not the server's silence."""
        found = self.talk("S", answer(1, 5000, 0), missing=3000)
        self.assertEqual(found.named(), ("unseen", None, None))
        self.assertEqual(found.shares(), {"waiting": 1, "idle": 99, "unseen": 900})
        self.assertIn("its end was not captured", found.text)
        self.assertIn("3,000 bytes of 1 connection were acknowledged and never captured: 1 packet or more", found.text)

    def test_all(self) -> None:
        """A whole answer; how many packets it had is told by the segment size."""
        found = self.talk("S", missing=3000)
        self.assertEqual(found.named(), ("unseen", None, None))
        self.assertEqual(found.shares(), {"waiting": 100, "unseen": 900})
        self.assertIn("3 packets or more", found.text)
        self.assertFalse(found.request()["unanswered"])

    def test_grants(self) -> None:
        """A request does not count as hung where grants may be missing."""
        found = self.talk("C", answer(1, WINDOW, 0), missing=26)
        self.assertFalse(found.request()["hung"])
        self.assertEqual(found.shares(), {"waiting": 1, "stream_stall": 99, "unseen": 900})
        self.assertTrue(self.talk("C", answer(1, WINDOW, 0), missing=0).request()["hung"])

    def test_before(self) -> None:
        """What ended before that did end."""
        talk = Talk().open()
        talk.say(110, "C", get(1), get(3))
        talk.say(111, "S", frame(7, 0, 0, number(1) + number(0)), answer(1, 100))
        talk.next["S"] += 500
        talk.bare(300, "C")
        talk.bare(400, "S", FIN)
        found = self.answered(talk)
        self.assertEqual((found.request(3)["ended"]["how"], found.request(3)["end_unseen"]), ("GOAWAY", False))


class Ends(Near):
    """How requests end, and what of it is told."""

    def test_goaway(self) -> None:
        """A GOAWAY that does not refuse the request is not its end."""
        talk = Talk().open()
        talk.say(110, "C", get(1))
        talk.say(111, "S", answer(1, WINDOW, 0))
        talk.say(500, "S", frame(7, 0, 0, number(1) + number(0)))
        talk.bare(1511, "C", FIN)
        found = self.answered(talk)
        self.assertEqual((found.request()["hung_nanos"], found.request()["ended"]["how"]), (1400 * 10**6, "FIN"))

    def test_upload(self) -> None:
        """The server did not take the time of an upload that hangs, to answer too."""
        talk = Talk().open()
        talk.say(110, "C", post(1), data(1, WINDOW))
        talk.bare(1000, "C", FIN)
        found = self.answered(talk)
        self.assertEqual(found.named(), ("stream-window", "granted-nothing", "server"))
        self.assertTrue(found.request()["hung"])
        self.assertIsNone(found.request()["life"])

    def test_settings(self) -> None:
        """A window that SETTINGS lowered in the midst is named with them, whenever it is granted."""
        for grants in ((), (grant(1, WIDE), grant(0, WIDE))):
            talk = Talk().open()
            talk.say(110, "C", get(1))
            talk.say(111, "S", answer(1, 40_000, 0))
            talk.say(112, "C", settings((4, 1000)))
            talk.say(112.1, "S", frame(4, 1, 0))
            if grants:
                talk.say(800, "C", *grants)
                talk.say(801, "S", data(1, 20_000, END))
            talk.bare(900, "C", FIN)
            found = self.answered(talk)
            self.assertEqual(
                found.named(), ("stream-window", "granted-late" if grants else "granted-nothing", "client")
            )
            self.assertIn("(initial window 1,000 by its SETTINGS in packet 10, acknowledged in packet 11)", found.text)

    def test_resets(self) -> None:
        """Many requests that the server resets at once."""
        talk = Talk().open()
        for stream in range(1, 101, 2):
            talk.say(110 + stream / 100, "C", get(stream))
        for stream in range(1, 101, 2):
            talk.say(120 + stream / 10, "S", frame(3, 0, stream, number(7)))
        talk.bare(200, "C", FIN)
        said = "50 requests were reset by the server within 9.8 ms, packets 58 to 107, by REFUSED_STREAM"
        self.assertIn(said, self.answered(talk).text)


class Connections(Near):
    """Several connections of a capture."""

    def leak(self, client: Endpoint) -> Talk:
        talk = Talk(client).open()
        for at, size in enumerate((20_000, 20_000, WINDOW - 40_000)):
            stream = 2 * at + 1
            talk.say(110 + 40 * at, "C", get(stream))
            talk.say(111 + 40 * at, "S", answer(stream, size, 0))
            talk.say(120 + 40 * at, "C", frame(3, 0, stream, number(8)))
        talk.say(300, "C", get(7))
        talk.say(301, "S", frame(1, 4, 7, OK))
        talk.bare(1000, "C", FIN)
        return talk

    def test_two_leaks(self) -> None:
        """Each of two clients is named in its own connection."""
        found = self.answered(self.leak((CLIENT[0], 40_001)), self.leak((CLIENT[0], 40_002)))
        said = "65,535 used by streams 1, 3, 5 (cancelled), of which the client gave back 0; stream 7 never had a byte"
        self.assertEqual(found.text.count(said), 2)
        self.assertEqual([len(one["requests"]) for one in found.document["connections"]], [4, 4])

    def test_not_audited(self) -> None:
        """A refused port and HTTP/1.1 behind a line of the PROXY protocol, among what was audited, in all forms."""
        audited = Talk().open()
        audited.say(110, "C", get(1))
        audited.say(111, "S", answer(1, 100))
        refused = Talk((CLIENT[0], 40_001))
        refused.at(5).syn("C", 1000, SYN)
        refused.bare(5.1, "S", RST)
        other = Talk((CLIENT[0], 40_002))
        other.shake_hands()
        other.say(1, "C", b"PROXY TCP4 1.2.3.4 5.6.7.8 1111 80\r\n")
        other.say(2, "C", b"GET / HTTP/1.1\r\nHost: near.example\r\n\r\n")
        path = self.path(audited, refused, other)
        found = Answered(said_of(path), ran("--width", "1000", path).stdout.decode())
        self.assertIn("No rule was broken in what was audited.", found.text)
        words = {"refused-port": "that the server refused: an RST answered the SYN", "http/1.1": "that spoke HTTP/1.1"}
        self.assertEqual({one["reason"] for one in found.document["not_audited"]}, set(words))
        reasons = {one["number"]: one["reason"] for one in found.document["connections"] if one["reason"]}
        self.assertEqual(set(reasons.values()), set(words))
        rows = [row for row in ran("--rows", "-", path).stdout.decode().splitlines() if row.startswith('["reasons"')]
        self.assertEqual(rows, [f'["reasons",{number},"{why}"]' for number, why in reasons.items()])
        file = self.folder / "junit.xml"
        ran("--quiet", "--junit", file, path)
        skipped = [one.get("message") for one in ElementTree.fromstring(file.read_bytes()).iter("skipped")]
        told = {f"not audited ({why}): a connection {words[why]}" for why in words}
        self.assertEqual(set(skipped), told)
        self.assertEqual([one for one in words.values() if f"1 connection {one}" not in found.text], [])


class Doubtful(OnCaptures):
    """Faults that can be doubted, as those of packets that stand late in a file."""

    LATE = ANSWER / "packets_late_in_file.pcap"

    def test_once_for_a_stream(self) -> None:
        """Each form that has sentences tells them once for a stream, and each count has all of them."""
        text = ran("--width", "1000", self.LATE).stdout.decode()
        told = [line.partition("FAULT: ")[2] for line in text.splitlines() if "DOUBTFUL FAULT: " in line]
        self.assertEqual(len(told), 2)
        file = self.folder / "junit.xml"
        run = ran("--quiet", "--fail-on", "fault,certain-fault", "--junit", file, self.LATE)
        failed = ElementTree.fromstring(file.read_bytes()).find(".//failure")
        assert failed is not None
        failures = (failed.text or "").splitlines()
        self.assertEqual(len(failures), 2)
        for line, failure in zip(told, failures):
            self.assertIn(" times on this stream", failure)
            self.assertEqual(failure.partition("; doubtful: ")[0], "fault: " + line.partition("; its window: ")[0])
        self.assertRegex(run.stderr.decode(), r"^h2audit-why: failed: fault: .*; and 1 more of it\n$")
        summary = said_of(self.LATE)["summary"]
        self.assertEqual((summary["faults"], summary["doubtful"]), (18, 18))

    def test_help(self) -> None:
        """The option that puts packets in order is named, as far as it would help."""
        faults = said_of(self.LATE)["connections"][0]["faults"]
        self.assertTrue(all(one["doubt"].endswith("may stand in another order: --reorder") for one in faults))
        octets = bytearray(self.LATE.read_bytes())
        struct.pack_into("<I", octets, 24, struct.unpack_from("<I", octets, 24)[0] + 2)
        path = self.folder / "later.pcap"
        path.write_bytes(octets)
        for words in ((), ("--reorder",)):
            faults = said_of(*words, path)["connections"][0]["faults"]
            self.assertEqual({one["doubt"].rpartition(": ")[2] for one in faults}, {"reordercap"})


if __name__ == "__main__":
    sys.argv = programs_of(sys.argv)
    if not has_programs():
        sys.exit("h2audit or h2audit-import is not built")
    unittest.main()
