"""What the tests of h2audit-why share: where the programs stand, and runs of them."""

import json
import os
import pathlib
import shutil
import subprocess
import sys
import tempfile
import unittest
from collections import Counter
from collections.abc import Callable
from typing import Any

from tests.programs import named
from tools.tests.companions import companion
from tools.tests.peers import can_capture
from tools.tests.report_lines import Finding, Opening, Stall, read_lines

TOP = pathlib.Path(__file__).resolve().parents[2]

WHY = companion("h2audit-why")
BUILT = {
    "H2AUDIT": TOP / "crates" / "h2audit_cli" / "out" / "h2audit_cli",
    "H2AUDIT_IMPORT": companion("h2audit-import"),
}
SIDES = ("client", "server")
# The shares of a direction's life.
NAMES = ("waiting", "sending", "stream_stall", "connection_stall", "tcp", "others", "idle", "unseen")
# So many letters of a name are kept.
LONGEST_NAME = 1024
# No run takes so long, but one that hangs.
SECONDS = 300
Json = dict[str, Any]


class Refused(Exception):
    """Why a capture is refused."""


def words_for(capture: pathlib.Path) -> list[str]:
    """The words that name a capture, and its key log if it has one."""
    keys = capture.with_suffix(".keys")
    return [str(capture), *(["-k", str(keys)] if keys.exists() else [])]


def programs_of(words: list[str]) -> list[str]:
    """Takes the program that audits off the command line of a test, where one is named first, and leaves the rest."""
    os.environ.update({"H2AUDIT": program for program in named()})
    for name, path in BUILT.items():
        if name not in os.environ and path.exists():
            os.environ[name] = str(path)
    return words


def has_programs() -> bool:
    """Whether h2audit-why is there, the program that it runs, and the one that imports as it does."""
    return WHY.exists() and all(os.environ.get(name) or shutil.which(path.name) for name, path in BUILT.items())


def checked_written_or_made(
    readme: pathlib.Path, text_of: Callable[[], str], make: Callable[[list[str], bool], int]
) -> int:
    """What the command line of a test asks for: --write writes a document, --make or --keep makes captures of these
    names anew, or the tests run."""
    sys.argv = programs_of(sys.argv)
    os.environ["PATH"] += ":/usr/sbin:/sbin"
    if not has_programs():
        sys.exit("h2audit or h2audit-import is not built")
    words = sys.argv[1:]
    if words[:1] == ["--write"]:
        readme.write_text(text_of())
        return 0
    if words[:1] in (["--make"], ["--keep"]):
        if not can_capture:
            print("nothing is made: tcpdump needs root")
            return 0
        return make(words[1:], words[0] == "--keep")
    unittest.main()
    return 0


def ran(*words: str | pathlib.Path, stdin: bytes | None = None) -> subprocess.CompletedProcess[bytes]:
    return subprocess.run([str(WHY), *map(str, words)], input=stdin, capture_output=True, timeout=SECONDS)


def said_of(*words: str | pathlib.Path) -> Json:
    """What --json says."""
    run = ran("--json", *words)
    if run.returncode == 3:
        raise Refused(run.stderr.decode())
    if run.returncode not in (0, 1, 6):
        raise AssertionError(f"status {run.returncode}: {run.stderr.decode()}")
    found: Json = json.loads(run.stdout)
    return found


def text(*words: str | pathlib.Path) -> str:
    return ran(*words).stdout.decode()


def by_port(found: Json, port: int) -> Json:
    """The audited connection to a port, of which there is one with requests."""
    some = [one for one in found["connections"] if one["server"].endswith(f":{port}") and one["requests"]]
    if len(some) != 1:
        raise AssertionError(f"{len(some)} connections with requests to port {port}")
    connection: Json = some[0]
    return connection


def request_of(connection: Json, path: str) -> Json:
    (request,) = [one for one in connection["requests"] if one["path"] == path]
    found: Json = request
    return found


def suites_of(found: Json) -> list[str]:
    """The names of the connections in a JUnit file: the server's, and which of those to it each is."""
    turns = Counter[str]()
    names = []
    for one in found["connections"]:
        turns[one["server"]] += 1
        names.append(f"{one['server']}, connection {turns[one['server']]}")
    return names


def in_turn(requests: list[Json]) -> list[str]:
    """Those of the requests: how often each came is behind the name, from the second time on."""
    turns = Counter[str]()
    names = []
    for request in requests:
        name = request["name"] or "request"
        turns[name] += 1
        names.append(name if turns[name] == 1 else f"{name} ({turns[name]})")
    return names


def check_shares(found: Json) -> None:
    """Shares sum to the life of each direction."""
    for one in found["connections"]:
        for request in one["requests"]:
            for side in (request[name] for name in SIDES):
                shares = side["shares"].values()
                if sum(shares) != side["nanos"] or min(shares) < 0:
                    raise AssertionError(f"stream {request['stream']}: {side['shares']} of {side['nanos']}")


class OnCaptures(unittest.TestCase):
    def setUp(self) -> None:
        folder = tempfile.TemporaryDirectory()
        self.addCleanup(folder.cleanup)
        self.folder = pathlib.Path(folder.name)

    def made_of(self, *words: str) -> pathlib.Path:
        made = self.folder / "made.pcap"
        subprocess.run([os.environ["H2AUDIT_IMPORT"], "-o", str(made), *words], capture_output=True)
        return made

    def report_of(self, *words: str) -> list[Any]:
        """The lines of h2audit's report on what is made of a capture."""
        run = subprocess.run([os.environ["H2AUDIT"], "--frames", str(self.made_of(*words))], capture_output=True)
        report = self.folder / "report"
        report.write_bytes(run.stdout)
        with open(report, "rb") as file:
            return list(read_lines(file))

    def sums(self, found: Json) -> None:
        """Shares and spans sum to the life of each direction, and no direction outlives its stream."""
        for connection in found["connections"]:
            for request in connection["requests"]:
                for side in ("client", "server"):
                    direction = request[side]
                    self.assertEqual(sum(direction["shares"].values()), direction["nanos"])
                    self.assertLessEqual(direction["nanos"], max(request["nanos"], 0))
                    self.assertTrue(all(nanos >= 0 for nanos in direction["shares"].values()))
                    if direction["spans"] is not None:
                        self.spans(direction)

    def spans(self, direction: Json) -> None:
        at, sums = 0, dict.fromkeys(NAMES, 0)
        for begin, nanos, kind in direction["spans"]:
            self.assertEqual(begin, at)
            at += nanos
            sums[kind] += nanos
        self.assertEqual((at, sums), (direction["nanos"], direction["shares"]))

    def same_numbers(self, found: Json, lines: list[Any]) -> None:
        """Faults and stalls are the report's: frame, time, side, kind, stream, value, duration."""
        connections = found["connections"]
        self.assertEqual(len(connections), sum(isinstance(line, Opening) for line in lines))
        rest = iter(connections)
        faults, stalls = dict[int, list[Any]](), dict[int, list[Any]]()
        for line in lines:
            if isinstance(line, Opening):
                one = next(rest)
                if one["outcome"] != "refused":
                    self.assertEqual((one["outcome"], one["frames"]), (line.form, line.frames))
                faults[one["number"]], stalls[one["number"]] = [], []
            elif isinstance(line, Finding) and line.is_fault:
                faults[one["number"]].append((line.frame, line.time, line.side, line.kind, line.stream, line.value))
            elif isinstance(line, Stall):
                stalls[one["number"]].append((line.side, line.stream, line.begin, line.end, line.nanos))
        for one in [one for one in connections if one["outcome"] != "refused"]:
            self.assertEqual([fault_of(said) for said in one["faults"]], faults[one["number"]])
            self.assertEqual(sorted(map(stall_of, one["stalls"]), key=str), sorted(stalls[one["number"]], key=str))


def fault_of(said: Json) -> tuple[Any, ...]:
    at = said["at"]
    return at["frame"], at["time"], said["side"], said["kind"], said["stream"], said["value"]


def stall_of(said: Json) -> tuple[Any, ...]:
    """As the report has it, where the duration of an open stall is not told."""
    end = said["end"]
    return (said["side"], said["stream"], said["begin"]["frame"], end and end["frame"], said["nanos"] if end else None)
