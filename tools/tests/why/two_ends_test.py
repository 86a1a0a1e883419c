"""Tests of h2audit-why --ends: clocks that drift, stalls that need no grant or are not seen, and the JUnit file.

    python3 -m tools.tests.why.two_ends_test [H2AUDIT] [TEST..]
"""

import pathlib
import struct
import subprocess
import sys
import unittest
import xml.etree.ElementTree as ElementTree

from tests.captures import PREFACE, frame, number
from tools.tests.why.both_ends import AHEAD, ASKED, DELAY, GET, MS, BothEnds, Event, ends, granted
from tools.tests.why_tools import TOP, Json, has_programs, programs_of, ran

RUNS = ("$H2AUDIT",)
QUICK = True
XSD = pathlib.Path(__file__).with_name("junit.xsd")
LATER = 1_000_000  # milliseconds
LATE = [*ASKED, granted(703 + 50 + 400, 0, 1)]
# Long after the rest, so that clocks are apart by then.
PINGS: list[Event] = [(LATER, "C", frame(6, 0, 0, bytes(8))), (LATER, "S", frame(6, 0, 0, bytes(8)))]


def first_records(path: pathlib.Path, number: int) -> pathlib.Path:
    """A capture up to a record."""
    octets, at = path.read_bytes(), 24
    for _ in range(number):
        at += 16 + int(struct.unpack_from("<I", octets, at + 8)[0])
    cut = path.with_suffix(f".{number}.pcap")
    cut.write_bytes(octets[:at])
    return cut


class Clocks(BothEnds):
    def connection(self, drift: int, events: list[Event]) -> tuple[Json, str]:
        captures = self.captures(events, drift=drift)
        (found,) = ends(*captures)["connections"]
        connection: Json = found
        return connection, ran("--ends", *captures).stdout.decode()

    def test_drift(self) -> None:
        """Half a second apart after 1,000 seconds: the handshakes alone count, and the answer says so."""
        for drift in (500, -500):
            with self.subTest(drift=drift):
                found, text = self.connection(drift, [*LATE, *PINGS])
                self.assertTrue(found["drifts"])
                self.assertAlmostEqual(found["server_ahead"], AHEAD, delta=MS)
                self.assertAlmostEqual(found["round_trip"], 2 * DELAY, delta=MS)
                self.assertIn("the clocks drift apart: parts of late stalls may be wrong by as much", text)
                (stall,) = [one for one in found["stalls"] if one["stream"] == 1]
                self.assertEqual((stall["verdict"], stall["ask"]), ("granted-late", "client"))
                for part, milliseconds in (("way_out", 50), ("answer", 400), ("way_back", 50)):
                    self.assertAlmostEqual(stall[part], milliseconds * MS, delta=MS)

    def test_small_drift(self) -> None:
        """Less than the quickest ways take does not show: the clocks are within the bounds that are told, first and
        last.
        """
        for drift in (20, -20):
            with self.subTest(drift=drift):
                found, text = self.connection(drift, [*LATE, *PINGS])
                self.assertFalse(found["drifts"])
                self.assertNotIn("drift", text)
                self.assertAlmostEqual(found["round_trip"], 2 * DELAY - 20 * MS, delta=MS)
                for apart in (AHEAD, AHEAD + drift * LATER):
                    self.assertLessEqual(abs(found["server_ahead"] - apart), found["within"])
                (stall,) = [one for one in found["stalls"] if one["stream"] == 1]
                self.assertEqual((stall["verdict"], stall["ask"]), ("granted-late", "client"))

    def test_late_stall(self) -> None:
        """A stall when the clocks are far apart: its parts still sum to it, and none is below nothing."""
        later = [(when + LATER, side, octets) for when, side, octets in LATE[4:]]
        for drift in (500, -500):
            found, _ = self.connection(drift, [*LATE[:4], LATE[3][:2] + (frame(6, 1, 0, bytes(8)),), *later])
            self.assertTrue(found["drifts"])
            (stall,) = [one for one in found["stalls"] if one["stream"] == 1]
            self.assertTrue(all(stall[part] >= 0 for part in ("way_out", "answer", "way_back")), stall)


class Verdicts(BothEnds):
    def test_not_needed(self) -> None:
        """The server itself ends its stall, by a reset or by the end of its content: nobody is asked."""
        for last in (frame(3, 0, 1, number(8)), frame(0, 1, 1)):
            captures = self.captures([*ASKED, (1500, "S", last)])
            stall = self.stall(*captures)
            self.assertEqual((stall["verdict"], stall["ask"]), ("not-needed", None))
            self.assertEqual([stall[part] for part in ("way_out", "answer", "way_back")], [None] * 3)
            self.assertEqual(stall["nanos"] // MS, 1500 - 703)
            self.assertIn("not-needed: the server ended it itself\n", ran("--ends", *captures).stdout.decode())
            self.assertEqual(self.stall(*captures, stream=0)["verdict"], "granted-nothing")

    def test_unseen(self) -> None:
        """The client's capture ends before the frame that used up the credit, or before the grant."""
        client, server = self.captures(LATE)
        for records, word in ((10, "began"), (11, "ended")):
            found = ends(first_records(client, records), server)
            (connection,) = found["connections"]
            stalls = [one for one in connection["stalls"] if one["stream"] == 1]
            self.assertEqual([(one["verdict"], one["ask"]) for one in stalls], [("unseen", None)])
            self.assertEqual(stalls[0]["text"], f"the client's capture lacks the frame at which it {word}")
            self.assertEqual(stalls[0]["begin"]["client"] is None, word == "began")
            self.assertIsNone(stalls[0]["end"]["client"])
            self.assertIsNotNone(stalls[0]["end"]["server"])


class JUnit(BothEnds):
    def junit(self, *words: str | pathlib.Path) -> tuple[int, dict[str, ElementTree.Element]]:
        """The status of a run, and the suites of its JUnit file, which is valid."""
        file = self.folder / "junit.xml"
        run = ran("--quiet", "--junit", file, *words)
        self.assertEqual(run.stdout, b"")
        check = subprocess.run(["xmllint", "--noout", "--schema", XSD, file], capture_output=True, text=True)
        self.assertEqual(check.returncode, 0, check.stderr)
        return run.returncode, {suite.get("name") or "": suite for suite in ElementTree.fromstring(file.read_bytes())}

    def test_suites(self) -> None:
        """Each capture has its suites, and a stall stands in that of its sender with what both ends say of it."""
        client, server = self.captures(LATE)
        status, suites = self.junit("--ends", client, server, "--fail-on", "stall")
        connection = "10.0.0.2:80, connection 1"
        files = [f"client's {client.name}", f"server's {server.name}"]
        names = [files[0], f"client's {connection}", files[1], f"server's {connection}"]
        self.assertEqual((status, list(suites)), (1, names))
        said = {name: [case.findtext("system-out") or "" for case in suite] for name, suite in suites.items()}
        for name in (names[1], names[3]):
            self.assertIn("the server's clock is 7,200 s ahead, to within 50 ms", said[name][0])
        self.assertIn("granted-late: the client had the bytes, and granted 400 ms later", said[names[3]][1])
        self.assertNotIn("granted-late:", "".join(said[names[1]]))
        failed = {name: [case.get("name") for case in suite if case.find("failure") is not None]
                  for name, suite in suites.items()}  # fmt: skip
        self.assertEqual(failed[names[3]], ["GET /"])

    def test_as_alone(self) -> None:
        """What fails of each capture is what fails of it alone, with the same tests by name."""
        fault = [*ASKED, (710, "S", frame(0, 0, 1, b"x")), (1500, "C", frame(6, 0, 0, bytes(8)))]
        for events in (LATE, fault, [*ASKED, (1500, "S", frame(3, 0, 1, number(2)))]):
            captures = self.captures(events)
            words = ("--fail-on", "fault,stall,hung,error", "--fail-stall", "100ms")
            status, suites = self.junit("--ends", *captures, *words)
            alone = [self.junit(capture, *words) for capture in captures]
            self.assertEqual(status, max(one for one, _ in alone))
            wanted = {f"{side}'s {name}": self.outcomes(suite) for side, (_, found) in zip(("client", "server"), alone)
                      for name, suite in found.items()}  # fmt: skip
            self.assertEqual({name: self.outcomes(suite) for name, suite in suites.items()}, wanted)

    def outcomes(self, suite: ElementTree.Element) -> list[tuple[str | None, str | None]]:
        return [(case.get("name"), case.findtext("failure")) for case in suite]

    def test_alone_and_faults(self) -> None:
        """A connection that one capture has alone, a fault that one order of frames shows, and frames that are lost."""
        client, server = self.captures(sorted([*ASKED, (710, "S", frame(0, 0, 1, b"x")), granted(705, 0, 1)]))
        _, suites = self.junit("--ends", client, server)
        said = {name: suite[0].findtext("system-out") or "" for name, suite in suites.items() if "connection" in name}
        shown = {name: "the server's order of frames alone shows it" in text for name, text in said.items()}
        self.assertEqual(sorted(shown.values()), [False, True])
        self.assertTrue(all(name.startswith("server's") for name, is_shown in shown.items() if is_shown))
        _, suites = self.junit("--ends", first_records(client, 8), server)
        text = "".join(suite[0].findtext("system-out") or "" for suite in suites.values())
        self.assertIn("are in the server's capture alone", text)

    def test_many_stalls(self) -> None:
        """Each stall stands with its request, also where there are many."""
        asked: list[Event] = [(200, "C", PREFACE + frame(4, 0, 0, struct.pack(">HI", 4, 10))), *ASKED[1:3]]
        for stream in range(1, 41, 2):
            sent = frame(1, 4, stream, b"\x88") + frame(0, 0, stream, bytes(10))
            asked += [(500, "C", frame(1, 5, stream, GET)), (600, "S", sent), granted(1000, stream)]
        _, suites = self.junit("--ends", *self.captures(sorted(asked)))
        (suite,) = [suite for name, suite in suites.items() if name.startswith("server's 10.0.0.2:80")]
        said = [case.findtext("system-out") or "" for case in suite if (case.get("name") or "").startswith("GET ")]
        self.assertEqual((len(said), sum("the server stalled for" in text for text in said)), (20, 20))

    def test_one_place(self) -> None:
        """Each example as both captures; those that were made at one side are refused, and no file is written."""
        for path in sorted((TOP / "examples").glob("*.pcap")):
            file = self.folder / "junit.xml"
            file.unlink(missing_ok=True)
            if ran("--ends", path, path).returncode == 3:
                self.assertEqual(ran("--ends", path, path, "--junit", file).returncode, 3)
                self.assertFalse(file.exists())
            else:
                self.junit("--ends", path, path)


if __name__ == "__main__":
    sys.argv = programs_of(sys.argv)
    if not has_programs():
        sys.exit("h2audit or h2audit-import is not built")
    unittest.main()
