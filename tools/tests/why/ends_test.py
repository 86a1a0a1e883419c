"""Tests of h2audit-why --ends: a connection captured at both ends, generated with known times, and over a real wire.

    python3 -m tools.tests.why.ends_test [H2AUDIT] [TEST..]
"""

import os
import pathlib
import random
import re
import struct
import subprocess
import sys
import time
import unittest
from contextlib import ExitStack

from tests.captures import frame
from tools.tests.peers import Peers, can_capture, process
from tools.tests.why.both_ends import ASKED, GET, MS, PARTS, BothEnds, Event, ends, granted
from tools.tests.why.wire import SERVER, Loses, captured_at, lost_for, wire
from tools.tests.why_tools import TOP, Json, has_programs, programs_of, ran

RUNS = ("$H2AUDIT Generated", "$H2AUDIT Wire")
TIMED = ("$H2AUDIT Wire",)
ROUND_TRIP = 0.16
PORT = 8080


class Generated(BothEnds):
    def test_granted_late(self) -> None:
        """The client has the bytes after 50 ms, and grants 400 ms later."""
        captures = self.captures([*ASKED, granted(703 + 50 + 400, 0, 1)])
        stall = self.stall(*captures)
        self.assertEqual((stall["verdict"], stall["ask"]), ("granted-late", "client"))
        self.assertEqual([stall[part] // MS for part in ("way_out", "answer", "way_back")], [50, 400, 50])
        self.assertEqual((stall["content_on_way"], stall["grants_on_way"]), (65_535, 0))
        text = ran("--ends", *captures).stdout.decode()
        for words in ("round trip 100 ms; the server's clock is 7,200 s ahead, to within 50 ms", "GET /: the server",
                      "On its way: 65,535 bytes of content.",
                      "granted-late: the client had the bytes, and granted 400 ms "
                      "later. Ask the client"):  # fmt: skip
            self.assertIn(words, text)

    def test_round_trip(self) -> None:
        """A grant at once, and one that was on its way before the credit was used up."""
        stall = self.stall(*self.captures([*ASKED, granted(703 + 50, 0, 1)]))
        self.assertEqual((stall["verdict"], stall["ask"], stall["answer"]), ("round-trip", "client", 0))
        events = sorted([*ASKED, granted(690, 0, 1)])
        stall = self.stall(*self.captures(events))
        self.assertEqual((stall["verdict"], stall["grants_on_way"]), ("round-trip", 1 << 20))
        self.assertEqual((stall["way_out"], stall["answer"], stall["way_back"] // MS), (0, 0, 37))

    def test_delayed(self) -> None:
        """Content, or the grant, takes 300 ms longer: TCP sent it again, and nobody is asked."""
        last = len(ASKED) - 1
        events = [*ASKED, granted(703 + 350, 0, 1)]
        stall = self.stall(*self.captures(events, lambda order, _: 300 * (order == last)))
        self.assertEqual((stall["verdict"], stall["ask"], stall["way_out"] // MS), ("content-delayed", None, 350))
        events = [*ASKED, granted(703 + 50, 0, 1)]
        stall = self.stall(*self.captures(events, lambda order, _: 300 * (order == last + 1)))
        self.assertEqual((stall["verdict"], stall["ask"], stall["way_back"] // MS), ("grant-delayed", None, 350))

    def test_without_end(self) -> None:
        """No grant came: there was none, or it never arrived."""
        events: list[Event] = [*ASKED, (1500, "S", frame(6, 0, 0, bytes(8)))]
        stall = self.stall(*self.captures(events))
        self.assertEqual((stall["verdict"], stall["ask"]), ("granted-nothing", "client"))
        granting = self.captures([*ASKED, granted(900, 0, 1)])
        server = granting[1].read_bytes()
        cut = self.folder / "cut.pcap"
        cut.write_bytes(server[: server.rindex(struct.pack("<I", 40 + 14 + 26)) - 12])
        stall = self.stall(granting[0], cut)
        self.assertEqual((stall["verdict"], stall["ask"]), ("grant-lost", None))
        (connection,) = ends(granting[0], cut)["connections"]
        self.assertEqual(len(connection["lost"]), 1)
        self.assertRegex(connection["lost"][0], r"^2 frames of the client from packet \d+ on are in the client's cap")

    def request(self, *captures: pathlib.Path, stream: int = 1) -> tuple[Json, list[int | None]]:
        """A request, and the milliseconds of its parts."""
        (connection,) = ends(*captures)["connections"]
        (found,) = [one for one in connection["requests"] if one["stream"] == stream]
        return found, [None if found[part] is None else found[part] // MS for part in PARTS]

    def test_requests(self) -> None:
        """Ways of 50 ms and a server of 50 ms, where a stall follows, where none does, and with an upload before."""
        short: list[Event] = [*ASKED[:4], (600, "S", frame(1, 5, 1, b"\x88"))]
        long: list[Event] = [*ASKED[:5], (750, "S", frame(0, 1, 1, bytes(9)))]
        upload: list[Event] = [
            *ASKED[:3],
            (500, "C", frame(1, 4, 1, GET)),
            (530, "C", frame(0, 1, 1, bytes(9))),
            short[4],
        ]
        for events, wanted in (
            (short, [0, 50, 50, 50, 0]),
            (long, [0, 50, 50, 50, 150]),
            (upload, [30, 50, 20, 50, 0]),
        ):
            captures = self.captures(events)
            found, parts = self.request(*captures)
            self.assertEqual((found["name"], parts), ("GET /", wanted))
            none = {"segments": 0, "bytes": 0, "lost": 0, "nanos": 0}
            self.assertEqual(found["sent_again"], {"client": none, "server": none})
            self.assertTrue(all(found[frame][side] for frame in ("asked", "answered") for side in ("client", "server")))
            text = ran("--ends", *captures).stdout.decode()
            self.assertIn("no side used up its credit", text)
        words = "stream 1 GET /: 150 ms: request 30 ms, way out 50 ms, server 20 ms, way back 50 ms, transfer 0 ns"
        self.assertIn(words, text.splitlines()[-1])

    def test_requests_without_parts(self) -> None:
        """A server that does not answer takes the rest, one that answers early begins there; and where a capture lacks
        the answer there are no parts.
        """
        asked: list[Event] = [*ASKED[:4], (900, "S", frame(6, 0, 0, bytes(8)))]
        self.assertEqual(self.request(*self.captures(asked))[1], [0, 50, 400, 0, 0])
        early: list[Event] = [*ASKED[:3], (500, "C", frame(1, 4, 1, GET)), (540, "C", frame(0, 0, 1, bytes(9))),
                              (570, "S", frame(1, 4, 1, b"\x88")), (800, "C", frame(0, 1, 1, bytes(9))),
                              (900, "S", frame(0, 1, 1))]  # fmt: skip
        self.assertEqual(self.request(*self.captures(early))[1], [0, 50, 20, 50, 330])
        client, server = self.captures([*ASKED[:4], (600, "S", frame(1, 5, 1, b"\x88"))])
        for capture, frames in ((client, 14 + 40 + 10), (server, 14 + 40 + 10)):
            octets, cut = capture.read_bytes(), self.folder / f"cut-{capture.name}"
            cut.write_bytes(octets[: octets.rindex(struct.pack("<II", frames, frames)) - 8])
            pair = (cut, server) if capture == client else (client, cut)
            self.assertEqual(self.request(*pair)[1], [None] * 5)
            self.assertIn("a capture lacks a part of it", ran("--ends", *pair).stdout.decode())

    def test_sent_again(self) -> None:
        """The last bytes of an answer are lost and sent again after 300 ms, or sent again though they arrived."""
        sent = frame(0, 1, 1, bytes(91))
        events: list[Event] = [*ASKED[:5], (650, "S", sent), (950, "S", sent)]
        for is_lost in (True, False):
            captures = self.captures(events, again=6, lost=5 if is_lost else None)
            found, parts = self.request(*captures)
            self.assertEqual(parts, [0, 50, 50, 50, 350 if is_lost else 50])
            again = found["sent_again"]["server"]
            if is_lost:
                self.assertEqual((again["segments"], again["bytes"], again["lost"]), (1, 100, 100))
                self.assertEqual(again["nanos"] // MS, 300)
                words = "The server sent 1 segment again, 100 bytes; 100 bytes were lost, and were missing for 300 ms"
                self.assertIn(f"transfer 350 ms. {words}\n", ran("--ends", *captures).stdout.decode())
            else:  # it came again after all of the answer was there
                self.assertEqual(again, {"segments": 0, "bytes": 0, "lost": 0, "nanos": 0})
            self.assertEqual(found["sent_again"]["client"]["segments"], 0)

    def test_needless(self) -> None:
        """Bytes are sent again before the answer ends, and both arrive: none was lost."""
        sent = frame(0, 0, 1, bytes(91))
        events: list[Event] = [*ASKED[:5], (650, "S", sent), (950, "S", sent), (1000, "S", frame(0, 1, 1, bytes(5)))]
        found, _ = self.request(*self.captures(events, again=6))
        self.assertEqual(found["sent_again"]["server"], {"segments": 1, "bytes": 100, "lost": 0, "nanos": 0})

    def test_fault_of_one_order(self) -> None:
        """A byte is sent before its grant arrives: the sender's order shows an overrun, the receiver's does not."""
        events = [*ASKED, (710, "S", frame(0, 0, 1, b"x")), granted(705, 0, 1)]
        captures = self.captures(sorted(events))
        (connection,) = ends(*captures)["connections"]
        kinds = {(one["kind"], one["shown_by"]) for one in connection["faults"]}
        self.assertEqual(kinds, {("stream-overrun", "server"), ("connection-overrun", "server")})
        self.assertIn("the server's order of frames alone shows it", ran("--ends", *captures).stdout.decode())
        captures = self.captures([*ASKED, (710, "S", frame(0, 0, 1, b"x")), (1500, "C", frame(6, 0, 0, bytes(8)))])
        (connection,) = ends(*captures)["connections"]
        self.assertEqual({one["shown_by"] for one in connection["faults"]}, {"both"})
        self.assertEqual(ran("--ends", *captures).returncode, 1)

    def test_wrong_pairs(self) -> None:
        """Captures of other connections, and the two exchanged, are refused by name."""
        one, other = self.captures(ASKED), self.captures(ASKED, initial=6000)
        more = self.captures([*ASKED[:-1], (703, "S", frame(0, 0, 1, bytes(5)))], initial=6000)
        for pair, words in (
            ((one[0], other[1]), "is in both, with other initial sequence numbers, so it is another one"),
            ((one[0], TOP / "examples" / "paused_stream_node.pcap"),
             "the client's has 10.0.0.1:40000 -> 10.0.0.2:80; the server's 127.0.0.1:"),
            ((other[0], more[1]), "have other frames of the server: they are not one connection"),
            ((one[1], one[0]), "packets arrive before they are sent; are the two exchanged?"),
        ):  # fmt: skip
            run = ran("--ends", *pair)
            self.assertEqual((run.returncode, run.stdout, len(run.stderr.splitlines())), (3, b"", 1))
            self.assertIn(words, run.stderr.decode())

    def test_recipe(self) -> None:
        """The line of docs/RECIPES.md for two vendors with a key log."""
        (line,) = re.findall(r"`(h2audit-why .*-k .*--ends .*)`", (TOP / "docs" / "RECIPES.md").read_text())
        captures = self.captures([*ASKED, granted(703 + 50 + 400, 0, 1)])
        for capture, name in zip(captures, ("client.pcap", "server.pcap")):
            capture.rename(self.folder / name)
        (self.folder / "keys.log").write_text("# no secrets\n")
        surroundings = {**os.environ, "PATH": f"{TOP / 'companions/target/release'}:{os.environ['PATH']}"}
        run = subprocess.run(["bash", "-c", line], cwd=self.folder, env=surroundings, capture_output=True, text=True)
        self.assertEqual(run.returncode, 0, run.stderr)
        self.assertIn("stream 1: the server stalled", run.stdout)
        self.assertIn("Ask the client", run.stdout)

    def test_damaged(self) -> None:
        """Captures with random bytes changed, as two ends and as before and after: a status and one line at most."""
        chance = random.Random(12)
        captures = self.captures([*ASKED, granted(703 + 50 + 400, 0, 1)])
        damaged = self.folder / "damaged.pcap"
        statuses = set()
        for turn in range(40):
            octets = bytearray(captures[turn % 2].read_bytes())
            for _ in range(chance.randint(1, 12)):
                octets[chance.randrange(24, 1100)] = chance.randrange(256)  # the rest is content, of zeros
            damaged.write_bytes(octets[: chance.randint(24, 1100)] if turn % 4 == 0 else octets)
            pair = (damaged, captures[1]) if turn % 2 == 0 else (captures[0], damaged)
            for option in ("--ends", "--compare"):
                run = ran(option, *pair)
                self.assertNotIn(b"Traceback", run.stderr)
                self.assertNotIn(b"an error of the program", run.stderr)
                self.assertIn(run.returncode, (0, 1, 3, 6), run.stderr)
                statuses.add(run.returncode)
        self.assertLessEqual({0, 3, 6}, statuses)

    def test_nothing_audited(self) -> None:
        captures = self.captures(ASKED)
        nothing = self.folder / "nothing.pcap"
        nothing.write_bytes(captures[0].read_bytes()[:24])
        run = ran("--ends", captures[0], nothing)
        self.assertEqual((run.returncode, run.stdout), (6, b""))
        self.assertEqual(run.stderr, b"h2audit-why: nothing was audited in the server's capture\n")

    def test_words(self) -> None:
        one = TOP / "examples" / "paused_stream_node.pcap"
        cases: list[list[str | pathlib.Path]] = [
            [one, "--ends", one, one], ["--compare", one, one, "--ends", one, one],
            ["--rows", "x", "--ends", one, one], ["--json-lines", "--ends", one, one],
        ]  # fmt: skip
        for words in cases:
            self.assertEqual(ran(*words).returncode, 2, words)

    def test_one_place(self) -> None:
        """One capture for both ends: each stall as it stands there, and no clock is ahead."""
        for path in sorted((TOP / "examples").glob("*.pcap")):
            run = ran("--json", "--ends", path, path)
            if run.returncode == 3:  # captured at a side, which cannot be both
                self.assertIn(b"exchange the two", run.stderr)
                continue
            for connection in ends(path, path)["connections"]:
                self.assertLessEqual(abs(connection["server_ahead"]) + connection["round_trip"], MS)
                self.assertTrue(all(one["shows_at_both"] for one in connection["stalls"]))
                self.assertEqual({one["shown_by"] for one in connection["faults"]} - {"both"}, set())


# Reads 65,535 bytes, waits, and then grants what the rest takes.
SLOW = """
import socket, struct, sys, time
def frame(kind, flags, stream, payload=b""):
    return struct.pack(">I", len(payload))[1:] + struct.pack(">BBI", kind, flags, stream) + payload
one = socket.create_connection((sys.argv[1], int(sys.argv[2])))
path = b"/large"
one.sendall(b"PRI * HTTP/2.0\\r\\n\\r\\nSM\\r\\n\\r\\n" + frame(4, 0, 0))
one.sendall(frame(1, 5, 1, b"\\x82\\x86\\x04" + bytes([len(path)]) + path + b"\\x01\\x01x"))
received = 0
while received < 65535 + 9 * 4:
    received += len(one.recv(1 << 16))
time.sleep(1.5)
one.sendall(b"".join(frame(8, 0, stream, struct.pack(">I", 1 << 20)) for stream in (0, 1)))
while received < 400000:
    received += len(one.recv(1 << 16))
"""


@unittest.skipUnless(can_capture, "network namespaces and tcpdump need root")
class Wire(Peers):
    def both(self, *words: str, loses: Loses = lambda _, __: False, tls: bool = False) -> Json:
        """What both ends tell of a download over a wire."""
        captures = [self.folder / "client.pcap", self.folder / "server.pcap"]
        try:
            made = self.enterContext(wire(ROUND_TRIP, loses))
        except (subprocess.CalledProcessError, FileNotFoundError, PermissionError):
            self.skipTest("no network namespaces can be made here")
        with ExitStack() as stack:
            serves = [*made.within(1), "nghttpd", "-a", SERVER, "-d", str(self.folder), str(PORT)]
            stack.enter_context(process(*serves, *(self.certificate() if tls else ["--no-tls"])))
            asks = [*made.within(0), "nghttp", "-n", f"http{'s' * tls}://{SERVER}:{PORT}/small"]
            while subprocess.run(asks, capture_output=True).returncode:
                time.sleep(0.1)
            for end, capture in enumerate(captures):
                stack.enter_context(captured_at(made, end, capture))
            surroundings = {**os.environ, "SSLKEYLOGFILE": str(self.folder / "keys.log")}
            subprocess.run([*made.within(0), *words], capture_output=True, timeout=60, env=surroundings)
        keys = ["-k", str(self.folder / "keys.log")] if tls else []
        (connection,) = ends(*captures, *keys)["connections"]
        found: Json = connection
        self.assertGreater(found["round_trip"], 0.95 * ROUND_TRIP * 1e9)
        # Both captures have the clock of one machine.
        self.assertLessEqual(abs(found["server_ahead"]), found["within"])
        self.assertEqual((found["faults"], found["lost"]), ([], []))
        return found

    def certificate(self) -> list[str]:
        """A key and a certificate of the server's own."""
        files = [str(self.folder / name) for name in ("key.pem", "certificate.pem")]
        words = ["openssl", "req", "-x509", "-newkey", "rsa:2048", "-nodes", "-subj", "/CN=h2audit", "-days", "2"]
        subprocess.run([*words, "-keyout", files[0], "-out", files[1]], check=True, capture_output=True)
        return files

    def test_tls(self) -> None:
        """TLS by the key log of the client alone: the same connection, by its TCP."""
        found = self.both("curl", "-sko", "/dev/null", "--http2", f"https://{SERVER}:{PORT}/large", tls=True)
        self.assertEqual(found["client"], found["server"])
        self.assertTrue(found["client"]["server"].endswith(f":{PORT}"))

    def longest(self, found: Json) -> Json:
        stalls: list[Json] = [one for one in found["stalls"] if one["side"] == "server"]
        self.assertTrue(stalls)
        return max(stalls, key=lambda one: int(one["nanos"]))

    def download(self, window: str, loses: Loses = lambda _, __: False) -> Json:
        return self.both("nghttp", "-n", f"-w{window}", f"-W{window}", f"http://{SERVER}:{PORT}/large", loses=loses)

    def test_round_trip(self) -> None:
        """A window of 65,535 bytes over 160 ms: the way takes each stall, which shows at the server alone."""
        stall = self.longest(self.download("16"))
        self.assertEqual((stall["verdict"], stall["ask"]), ("round-trip", "client"), stall)
        self.assertFalse(stall["shows_at_both"])
        run = ran("--ends", self.folder / "server.pcap", self.folder / "client.pcap")
        self.assertEqual(run.returncode, 3)
        self.assertIn(b"the client's capture was made at the server: exchange the two", run.stderr)

    def test_slow_reader(self) -> None:
        """A client that grants 1.5 seconds after it had the bytes."""
        stall = self.longest(self.both("/usr/bin/python3", "-c", SLOW, SERVER, str(PORT)))
        self.assertEqual((stall["verdict"], stall["ask"]), ("granted-late", "client"), stall)
        self.assertGreater(stall["answer"], 1_400_000_000)

    def test_lost_grants(self) -> None:
        """All that the client sends is lost for 1.5 seconds: its grants come late, and nobody is asked."""
        stall = self.longest(self.download("16", lost_for(1.5, end=0, number=60)))
        self.assertEqual((stall["verdict"], stall["ask"]), ("grant-delayed", None), stall)

    def test_lost_content(self) -> None:
        """All that the server sends is lost for 1.5 seconds: its content comes late, and nobody is asked."""
        found = self.download("16", lost_for(1.5, end=1, number=60))
        stall = self.longest(found)
        self.assertEqual((stall["verdict"], stall["ask"]), ("content-delayed", None), stall)
        (request,) = found["requests"]
        again = request["sent_again"]["server"]
        self.assertTrue(0 < again["lost"] <= again["bytes"] and again["nanos"] > 1_400_000_000, request)
        self.assertGreater(request["transfer"], again["nanos"])
        self.assertGreater(request["way_out"] + request["way_back"], 0.95 * ROUND_TRIP * 1e9)


if __name__ == "__main__":
    sys.argv = programs_of(sys.argv)
    os.environ["PATH"] += ":/usr/sbin:/sbin"
    if not has_programs():
        sys.exit("h2audit or h2audit-import is not built")
    unittest.main()
