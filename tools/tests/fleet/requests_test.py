"""Tests of requests in h2audit-fleet: python3 -m tools.tests.fleet.requests_test PROGRAM

What is wanted of each capture is what `h2audit-why --json` says of it alone, with the same key logs.
"""

import os
import pathlib
import random
import re
import sqlite3
import unittest
from collections.abc import Iterable, Iterator
from typing import Any, ClassVar

from h2audit.fleet import names
from h2audit.report.command import printable
from tests.captures import frame
from tools.tests import cost_captures, import_tools, random_captures, request_captures
from tools.tests.fleet.captures import PROGRAM, TOP, Machine, beside, by_hand
from tools.tests.fleet.parts_test import SPLIT
from tools.tests.fleet.parts_test import STAND_IN as SPLIT_STAND_IN
from tools.tests.joined_cuts import GET, RAW, hexed, packets_of_script
from tools.tests.why_tools import BUILT, LONGEST_NAME, Json, Refused, said_of

RUNS = ("$H2AUDIT",)
QUICK = True
CAPTURES, RANDOM = 300, 190
SIDES = ("client", "server")
OTHER = {"client": "server", "server": "client"}
HELD = ("stream-window", "connection-window", "tcp")
OLD_TABLES = ("connections", "findings", "stalls", "unopened", "passed_over")
NEW_TABLES = ("requests", "directions", "certainty", "reasons")
FOLDERS = (TOP / "tests" / "tls", TOP / "tests" / "corpus")
KEYS = sorted(path for folder in FOLDERS for path in folder.glob("*.keys"))
Rows = dict[str, list[dict[str, Any]]]


def cut_samples() -> Iterator[tuple[str, bytes]]:
    """Captures that begin in the middle of connections: examples that are cut, one without a SYN, and one with a fault
    that rests on what is inferred.
    """
    for path in sorted((TOP / "examples").glob("*.pcap")):
        packets, link = import_tools.read_pcap(path.read_bytes())
        for part in (3, 2):
            yield f"cut_{part}_{path.name}", import_tools.pcap_of(packets[len(packets) // part :], link)
    packets, link = import_tools.read_pcap((TOP / "examples" / "stream_overrun_go.pcap").read_bytes())
    yield "lost_syn.pcap", import_tools.pcap_of(packets[1:], link)
    script = ["S DATA 9 10", "S DATA 5 10", f"C {hexed(frame(1, 5, 7, GET))}"]
    yield "joined_fault.pcap", import_tools.pcap_of(packets_of_script(script), RAW)


def samples() -> Iterator[tuple[str, bytes]]:
    """Captures with their names: of examples/, of TLS, of scripts, and made at random; some are damaged."""
    for path in sorted((TOP / "examples").glob("*.pcap")):
        yield path.name, path.read_bytes()
    yield from cut_samples()
    for folder in FOLDERS:
        for path in sorted(folder.iterdir()):
            if ".pcap" in path.name:
                yield path.name, path.read_bytes()
    yield "refused_port.pcap", (TOP / "tests" / "answer" / "refused_port.pcap").read_bytes()
    for sample in {sample.digest: sample for sample in by_hand()}.values():
        yield f"{sample.name}.hand.pcap", sample.capture
    for name in ("stalls", "larger_windows"):
        yield f"{name}.pcap", bytes(getattr(cost_captures, name)(4).bytes)
    chance = random.Random(61)
    for number in range(RANDOM):
        octets = request_captures.capture(chance) if number % 3 else random_captures.capture(chance)
        if number % 9 == 1:
            octets = octets[: chance.randint(0, len(octets))]
        yield f"random_{number}.pcap", octets


def rows_of(said: Json) -> Rows:
    """The rows that a document of h2audit-why makes, by the names of their columns."""
    found: Rows = {table: [] for table in NEW_TABLES}
    for connection in said["connections"]:
        number = connection["number"]
        if connection["outcome"] != "http2":
            found["reasons"].append({"connection": number, "reason": connection["reason"] or connection["outcome"]})
        for fault in connection["faults"]:
            found["certainty"].append(
                {"connection": number, "frame": fault["at"]["frame"], "side": fault["side"], "kind": fault["kind"]}
                | {"stream": fault["stream"], "certainty": fault["certainty"], "doubt": fault["doubt"]}
                | {"set_by": fault["set_by_text"]}
            )
        for request in connection["requests"]:
            found["requests"].append({"connection": number, **request_of(request)})
            for side in SIDES:
                key = {"connection": number, "stream": request["stream"], "side": side}
                found["directions"].append({**key, **direction_of(request[side])})
    return found


def request_of(said: Json) -> dict[str, Any]:
    cause, ended, opened = said["cause"], said["ended"], said["opened"]
    row = {key: said[key] for key in ("stream", "status", "grpc_status", "promised_on", "nanos", "needed_window")}
    row |= {key: name_of(said[key]) for key in ("name", "method", "authority")} | {
        "request_path": name_of(said["path"])
    }
    row |= {"packet": opened["packet"], "frame": opened["frame"], "time": opened["time"], "hung": int(said["hung"])}
    row |= {"ended": ended["how"], "ended_by": ended["side"], "code": ended["code"]}
    row |= {f"end_{key}": ended["at"] and ended["at"][key] for key in ("packet", "frame", "time")}
    row |= {"cause": cause["kind"], "cause_nanos": cause["nanos"], "proved": int(cause["proved"])}
    row |= {key: cause[key] for key in ("why", "side", "ask", "text")}
    row |= {f"{key}_packet": cause[key] and cause[key]["packet"] for key in ("first", "last")}
    row |= {"grade": cause["grade"], "opened_before": int(said["opened_before"])}
    return row | {"stalled_nanos": stalled(said)}


def direction_of(said: Json) -> dict[str, Any]:
    row = {key: said[key] for key in ("nanos", "content", "stalls")}
    row |= {f"{share}_nanos": nanos for share, nanos in said["shares"].items()}
    return row | {"first_packet": said["first"] and said["first"]["packet"],
                  "last_packet": said["end"] and said["end"]["packet"]}  # fmt: skip


def joined_rows_of(connection: Json) -> Rows:
    """The rows that tell how a connection was joined, and what is claimed of it where something is inferred."""
    joined, number = connection["joined"], connection["number"]
    found: Rows = {table: [] for table in ("connections", "findings", "stalls", "windows")}
    ends = {"connection": number, "client": connection["client"], "server": connection["server"]}
    row = ends | {"joined": "exact" if joined["exact"] else "inferred"}
    frames = connection["frames"] if connection["outcome"] == "http2" else None
    found["connections"].append(row | {"frames": frames, "record": connection["opened"]["packet"]})
    if joined["exact"]:
        return {"connections": found["connections"]}
    for fault in connection["faults"]:
        row = {key: fault[key] for key in ("side", "kind", "stream", "value")} | {"broke": fault["broke"]}
        row |= {"record": fault["at"]["packet"], "frame": fault["at"]["frame"], "time": fault["at"]["time"]}
        found["findings"].append(row | {"grade": "joined" if fault["certainty"] == "joined" else "certain"})
    for stall in connection["stalls"]:
        ends = {key: stall[end] and stall[end]["frame"] for key, end in (("first", "begin"), ("last", "end"))}
        row = {key: stall[key] for key in ("side", "stream", "nanos", "grade")} | {"ask": OTHER[stall["side"]]}
        found["stalls"].append(row | ends)
        for which in ("begin", "end"):
            if stall[which] and stall[which]["frame"]:
                kind = f"{'stream' if stall['stream'] else 'connection'}-stall-{which}"
                at = {"frame": stall[which]["frame"], "record": stall[which]["packet"], "time": stall[which]["time"]}
                row = {key: stall[key] for key in ("side", "stream", "grade")} | {"kind": kind, "broke": "nobody"}
                found["findings"].append(row | at)
    for window in joined["windows"]:
        other = window["or"] or {"window": None, "stream": None}
        row = {key: window[key] for key in window if key not in ("or", "can_stall")}
        row |= {"or_window": other["window"], "or_stream": other["stream"], "can_stall": int(window["can_stall"])}
        found["windows"].append(row)
    return found


def stalled(said: Json) -> int:
    """By the stalls of the direction that has most of them, or by those that do not show."""
    shares: list[int] = [
        said[side]["shares"]["stream_stall"] + said[side]["shares"]["connection_stall"] for side in SIDES
    ]
    return max(*shares, int(said["cause"]["nanos"]) if said["cause"]["kind"] in HELD[:2] else 0)


def name_of(text: str | None) -> str | None:
    return None if text is None else printable(text[:LONGEST_NAME])[:LONGEST_NAME]


def sorted_rows(rows: list[dict[str, Any]]) -> list[list[tuple[str, Any]]]:
    return sorted((sorted(row.items()) for row in rows), key=repr)


def link_programs(machine: Machine) -> None:
    """Puts the programs of the repository in the path of a machine."""
    for name in ("any", "import", "merge", "why"):
        machine.link(f"h2audit-{name}", beside(f"h2audit-{name}"))
    machine.link("h2audit", str(PROGRAM))
    machine.link("h2audit-split", SPLIT if SPLIT.exists() else SPLIT_STAND_IN)


def word_of(path: pathlib.Path) -> str:
    return names.word_of(os.fsencode(path))


class Base:
    """A database that is there, read row by row by the names of columns."""

    def __init__(self, path: pathlib.Path) -> None:
        self.path = path
        self.base = sqlite3.connect(path)

    def ask(self, question: str, *values: object) -> list[dict[str, Any]]:
        cursor = self.base.execute(question, values)
        columns = [column[0] for column in cursor.description]
        return [dict(zip(columns, row)) for row in cursor]

    def of_capture(self, table: str, path: pathlib.Path) -> list[dict[str, Any]]:
        found = self.ask(
            f"SELECT {table}.* FROM {table} JOIN captures ON captures.id = capture WHERE captures.path = ?",
            word_of(path),
        )
        return [{key: value for key, value in row.items() if key != "capture"} for row in found]


@unittest.skipUnless(PROGRAM, "requests: h2audit is not built")
class Tables(unittest.TestCase):
    """Captures of all kinds, once with requests and names, once without names, and once without requests."""

    machine: ClassVar[Machine]
    captures: ClassVar[list[pathlib.Path]]
    runs: ClassVar[dict[str, tuple[int, str, str]]]
    unjoined: ClassVar[tuple[int, str, str]]
    said: ClassVar[dict[str, dict[pathlib.Path, Json]]]

    @classmethod
    def setUpClass(cls) -> None:
        cls.machine = Machine([], None).__enter__()
        cls.addClassCleanup(cls.machine.__exit__)
        link_programs(cls.machine)
        cls.machine.joins = True
        for name, octets in samples():
            (cls.machine.captures / name).write_bytes(octets)
        cls.captures = sorted(cls.machine.captures.iterdir())
        words = ["--jobs", "4", *(word for key in KEYS for word in ("-k", str(key)))]
        cls.runs = {}
        runs: dict[str, list[str]] = {"named": ["--requests"], "unnamed": ["--unnamed-requests"], "without": []}
        for name, more in (runs | {"unjoined": ["--no-joined"]}).items():
            cls.runs[name] = cls.machine.run(*words, *more, "captures")
            cls.machine.database.rename(cls.machine.folder / f"{name}.sqlite")
        cls.unjoined = cls.runs.pop("unjoined")
        cls.said = {"named": dict(answers(cls.captures, [])), "unnamed": dict(answers(cls.captures, ["--no-requests"]))}

    def base(self, name: str) -> Base:
        base = Base(self.machine.folder / f"{name}.sqlite")
        self.addCleanup(base.base.close)
        return base

    def test_ran(self) -> None:
        """All stand, with the same line and status whether requests are entered or not."""
        self.assertGreaterEqual(len(self.captures), CAPTURES)
        self.assertEqual(len({*self.runs.values()}), 1, self.runs)
        self.assertEqual((self.runs["named"][2], self.unjoined[2]), ("", ""))
        self.assertEqual(list((self.machine.folder / "temporary").iterdir()), [])

    def test_rows(self) -> None:
        """Each row is what h2audit-why --json says of that capture alone."""
        for name, said in self.said.items():
            base, numbers = self.base(name), dict.fromkeys(NEW_TABLES, 0)
            for path in self.captures:
                wanted = rows_of(said[path]) if path in said else {table: [] for table in NEW_TABLES}
                for table in NEW_TABLES:
                    found = base.of_capture(table, path)
                    self.assertEqual(sorted_rows(found), sorted_rows(wanted[table]), f"{path}: {table}")
                    numbers[table] += len(found)
                (row,) = base.ask("SELECT requests FROM captures WHERE path = ?", word_of(path))
                self.assertEqual(row["requests"], len(wanted["requests"]) if path in said else None)
            self.assertTrue(all(number > 50 for number in numbers.values()), numbers)

    def test_kinds(self) -> None:
        """What is compared has each cause, each certainty, each end, and names that are escaped."""
        base = self.base("named")
        kinds: tuple[tuple[str, str, set[str | None]], ...] = (
            ("cause", "requests", {"none", "stream-window", "connection-window", "tcp", "application", "unseen"}),
            ("certainty", "certainty", {"certain", "settings", "gap", "clock", "joined"}),
            ("grade", "stalls", {None, "strong", "likely", "either"}),
            ("grade", "findings", {None, "certain", "joined", "strong"}),
            ("grade", "windows", {"strong", "likely", "either", "bound"}),
            ("joined", "connections", {None, "exact", "inferred"}),
            ("fate", "unopened", {"joined", "no-frames"}),
            ("ended", "requests", {"END_STREAM", "RST_STREAM", "GOAWAY", "FIN", "capture"}),
        )
        for column, table, wanted in kinds:
            found = {row[column] for row in base.ask(f"SELECT DISTINCT {column} FROM {table}")}
            self.assertLessEqual(wanted, found)
        self.assertTrue(base.ask("SELECT 1 FROM requests WHERE hung"))
        self.assertTrue(base.ask("SELECT 1 FROM requests WHERE request_path = ?", "/\\x1b[31m\\x07red"))

    def test_joined(self) -> None:
        """Connections that began before the capture stand as --json says of them, with requests and without; and none
        without joining.
        """
        told = 0
        for name in ("named", "without"):
            base = self.base(name)
            for path, said in self.said["named"].items():
                for connection in (one for one in said["connections"] if one["joined"]):
                    told += 1
                    for table, wanted in joined_rows_of(connection).items():
                        self.same_rows(base, table, path, connection["number"], wanted)
        self.assertGreater(told, 2 * 25)
        self.assertEqual(self.base("unjoined").ask("SELECT DISTINCT joined FROM connections"), [{"joined": None}])
        self.assertEqual(self.base("unjoined").ask("SELECT DISTINCT fate FROM unopened"), [{"fate": None}])
        for table in ("windows", "requests"):
            self.assertEqual(self.base("unjoined").ask(f"SELECT * FROM {table}"), [])

    def same_rows(self, base: Base, table: str, path: pathlib.Path, number: int, wanted: list[dict[str, Any]]) -> None:
        key = "number" if table == "connections" else "connection"
        rows = [row for row in base.of_capture(table, path) if row[key] == number]
        self.assertEqual(len(rows), len(wanted), f"{path}: {table}")
        columns = [name for name in (wanted[0] if wanted else {}) if name in (rows[0] if rows else {})]
        shared = [name for name in columns if all(name in row for row in wanted)]
        found = [{name: row[name] for name in shared} for row in rows]
        self.assertEqual(sorted_rows(found), sorted_rows([{name: row[name] for name in shared} for row in wanted]))

    def test_same_audit(self) -> None:
        """Reports, and all rows that they make, are those of a run without requests."""
        wanted, found = self.base("without"), self.base("named")
        columns = "path, size, sha256, outcome, status, reason, program, report_sha256, report_bytes, records"
        for question in (f"SELECT {columns} FROM captures ORDER BY path",):
            self.assertEqual(found.ask(question), wanted.ask(question))
        for table in OLD_TABLES:
            for path in self.captures:
                self.assertEqual(found.of_capture(table, path), wanted.of_capture(table, path), table)
        for table in NEW_TABLES:
            self.assertEqual(wanted.ask(f"SELECT * FROM {table}"), [])
        self.assertEqual(wanted.ask("SELECT DISTINCT requests FROM captures"), [{"requests": None}])

    def test_no_names(self) -> None:
        """No name is in a database unless --requests asks for it: not in a row, and not in its bytes."""
        secret = secrets_of(self.said["named"].values())
        self.assertGreater(len(secret), 20)
        octets = {name: (self.machine.folder / f"{name}.sqlite").read_bytes() for name in self.runs}
        self.assertEqual([one for one in secret if one not in octets["named"]], [])
        for name in ("unnamed", "without"):
            self.assertEqual([one for one in secret if one in octets[name]], [], name)
        columns = ("name", "method", "request_path", "authority", "status", "grpc_status")
        (row,) = self.base("unnamed").ask(f"SELECT {', '.join(f'COUNT({column})' for column in columns)} FROM requests")
        self.assertEqual(set(row.values()), {0})

    def test_whole(self) -> None:
        for name in self.runs:
            base = self.base(name)
            self.assertEqual(base.ask("PRAGMA foreign_key_check"), [])
            self.assertEqual(base.ask("PRAGMA integrity_check"), [{"integrity_check": "ok"}])

    # Views

    def told(self) -> Iterator[tuple[str, Json, Json]]:
        """Each request with its capture and connection."""
        for path, said in self.said["named"].items():
            for connection in said["connections"]:
                for request in connection["requests"]:
                    yield word_of(path), connection, request

    def test_worst(self) -> None:
        wanted = []
        for path, connection, request in self.told():
            cause = request["cause"]
            if cause["kind"] in HELD:
                order = -request["hung"], -cause["nanos"], path, connection["number"], request["stream"]
                wanted.append((order, name_of(request["name"]), cause["text"], connection.get(str(cause["ask"]))))
        found = self.base("named").ask("SELECT * FROM worst_requests")
        self.assertGreater(len(found), 100)
        said = [((-row["hung"], -row["nanos"], row["path"], row["connection"], row["stream"]), row["name"], row["text"],
                 row["endpoint"]) for row in found]  # fmt: skip
        self.assertEqual(said, sorted(wanted))
        lives = {(path, connection["number"], request["stream"]): request["nanos"]
                 for path, connection, request in self.told()}  # fmt: skip
        for row in found:
            self.assertAlmostEqual(row["milliseconds"] * 1e6, row["nanos"], delta=1)
            life = lives[row["path"], row["connection"], row["stream"]]
            self.assertAlmostEqual(row["percent"], 100 * row["nanos"] / life)

    def test_slow(self) -> None:
        """Requests that an application or the path made slow, each and by cause."""
        wanted = []
        sums: dict[tuple[Any, ...], list[Any]] = {}
        for path, connection, request in self.told():
            cause = request["cause"]
            if cause["kind"] not in ("application", "path"):
                continue
            order = -cause["nanos"], path, connection["number"], request["stream"]
            wanted.append((order, name_of(request["name"]), cause["kind"], cause["why"], cause["text"]))
            peer = connection[cause["side"]]
            peer = peer.rpartition(":")[0] if cause["side"] == "client" else peer
            one = sums.setdefault((cause["kind"], cause["why"], cause["side"], peer), [0, 0, 0, set()])
            one[:] = one[0] + 1, max(one[1], cause["nanos"]), one[2] + cause["nanos"], one[3] | {path}
        found = self.base("named").ask("SELECT * FROM slow_requests")
        self.assertGreater(len(found), 10)
        said = [((-row["nanos"], row["path"], row["connection"], row["stream"]), row["name"], row["cause"], row["why"],
                 row["text"]) for row in found]  # fmt: skip
        self.assertEqual(said, sorted(wanted))
        grouped = self.base("named").ask("SELECT * FROM slow_by_cause")
        self.assertEqual(len(grouped), len(sums))
        for row in grouped:
            number, longest, total, captures = sums[row["cause"], row["why"], row["side"], row["peer"]]
            self.assertEqual((row["requests"], row["captures"]), (number, len(captures)))
            self.assertAlmostEqual(row["longest_milliseconds"], longest / 1e6)
            self.assertAlmostEqual(row["total_milliseconds"], total / 1e6)

    def test_of_the_path(self) -> None:
        wanted = {}
        for path, connection, request in self.told():
            cause = request["cause"]
            if cause["kind"] == "path":
                sender = request[cause["side"]]
                key = path, connection["number"], request["stream"]
                wanted[key] = connection[cause["side"]], sender["content"], cause["nanos"], sender["shares"]
        found = self.base("named").ask("SELECT * FROM path_requests")
        self.assertEqual([(row["path"], row["connection"], row["stream"]) for row in found],
                         sorted(wanted, key=lambda key: (-wanted[key][2], *key)))  # fmt: skip
        self.assertGreater(len(found), 0)
        for row in found:
            sender, content, nanos, shares = wanted[row["path"], row["connection"], row["stream"]]
            self.assertEqual((row["sender"], row["content"]), (sender, content))
            self.assertAlmostEqual(row["own_milliseconds"], shares["sending"] / 1e6)
            self.assertAlmostEqual(row["others_milliseconds"], shares["others"] / 1e6)
            self.assertAlmostEqual(row["bytes_per_second"], content * 1e9 / nanos)

    def test_joined_views(self) -> None:
        """What is told of requests and windows of connections that began before the capture."""
        requests: list[tuple[tuple[int, int, str, int, int], str | None, bool, str]] = []
        windows = {}
        for path, document in self.said["named"].items():
            for connection in (one for one in document["connections"] if one["joined"]):
                key = word_of(path), connection["number"]
                grades = [window["grade"] for window in connection["joined"]["windows"]]
                windows[key] = [grades.count(grade) for grade in ("strong", "likely", "either", "broken", "bound")]
                for one in connection["requests"]:
                    order = -one["hung"], -one["cause"]["nanos"], *key, one["stream"]
                    requests.append((order, one["cause"]["grade"], one["opened_before"], one["cause"]["text"]))
        found = self.base("named").ask("SELECT *, CAST(round(milliseconds * 1e6) AS INTEGER) AS nanos "
                                       "FROM joined_requests")  # fmt: skip
        said = [((-row["hung"], -row["nanos"], row["path"], row["connection"], row["stream"]), row["grade"],
                 bool(row["opened_before"]), row["text"]) for row in found]  # fmt: skip
        in_order = sorted(requests, key=lambda one: one[0])
        self.assertEqual(said, in_order)
        counted = {(row["path"], row["connection"]): [row[grade] for grade in ("strong", "likely", "either", "broken",
                   "bound")] for row in self.base("named").ask("SELECT * FROM joined_connections")}  # fmt: skip
        self.assertEqual(counted, windows)
        inferred = self.base("named").ask("SELECT SUM(inferred) AS inferred FROM stalls_by_peer")
        sure = sum(stall["grade"] in ("strong", "likely", "either") for said in self.said["named"].values()
                   for connection in said["connections"] for stall in connection["stalls"])  # fmt: skip
        self.assertEqual(inferred, [{"inferred": sure}])

    def test_certain_faults_alone(self) -> None:
        """Those that rest on what is inferred are in the list of faults, and in no sum, and fail no capture."""
        (path,) = [path for path in self.captures if path.name == "joined_fault.pcap"]
        for name in ("named", "without"):
            base = self.base(name)
            faults = base.ask("SELECT kind, grade FROM faults WHERE path = ?", word_of(path))
            self.assertEqual(faults, [{"kind": "not-opened", "grade": "joined"}])
            verdict = base.ask("SELECT verdict, faults, joined_connections FROM verdicts WHERE path = ?", word_of(path))
            self.assertEqual(verdict, [{"verdict": "clean", "faults": 0, "joined_connections": 1}])
            certain = base.ask("SELECT COUNT(*) AS faults FROM faults WHERE grade IS NOT 'joined'")
            self.assertEqual(base.ask("SELECT SUM(faults) AS faults FROM faults_by_kind"), certain)
            self.assertEqual(base.ask("SELECT SUM(faults) AS faults FROM faults_by_peer"), certain)

    def test_by_peer(self) -> None:
        sums: dict[tuple[Any, ...], list[Any]] = {}
        for path, connection, request in self.told():
            cause = request["cause"]
            if cause["kind"] not in HELD or not cause["ask"]:
                continue
            peer = connection[cause["ask"]]
            peer = peer.rpartition(":")[0] if cause["ask"] == "client" else peer
            one = sums.setdefault((peer, cause["ask"], cause["kind"], name_of(request["name"])), [0, 0, 0, 0, set()])
            one[0] += 1
            one[1] += request["hung"]
            one[2] = max(one[2], cause["nanos"])
            one[3] += cause["nanos"]
            one[4].add(path)
        found = self.base("named").ask("SELECT * FROM held_back_by_peer")
        self.assertEqual(len(found), len(sums))
        for row in found:
            number, hung, longest, total, captures = sums[row["peer"], row["role"], row["cause"], row["name"]]
            self.assertEqual((row["requests"], row["hung"], row["captures"]), (number, hung, len(captures)))
            self.assertAlmostEqual(row["longest_milliseconds"], longest / 1e6)
            self.assertAlmostEqual(row["total_milliseconds"], total / 1e6)

    def test_by_name(self) -> None:
        sums: dict[str | None, list[Any]] = {}
        for path, _, request in self.told():
            one = sums.setdefault(name_of(request["name"]), [0, 0, 0, 0, 0, 0, set()])
            nanos = stalled(request)
            one[0] += 1
            one[1] += nanos > 0
            one[2] += request["hung"]
            one[3] = max(one[3], nanos)
            one[4] += nanos
            one[5] += request["nanos"]
            one[6].add(path)
        found = self.base("named").ask("SELECT * FROM stalls_by_name")
        self.assertEqual([row["name"] for row in found], sorted(sums, key=lambda name: (-sums[name][4], name or "")))
        for row in found:
            number, some, hung, longest, total, life, captures = sums[row["name"]]
            self.assertEqual((row["requests"], row["stalled"], row["hung"]), (number, some, hung))
            self.assertEqual(row["captures"], len(captures))
            self.assertAlmostEqual(row["longest_milliseconds"], longest / 1e6)
            self.assertAlmostEqual(row["total_milliseconds"], total / 1e6)
            self.assertEqual(row["percent"] is None, not life)
            if life:
                self.assertAlmostEqual(row["percent"], 100 * total / life)

    def test_faults(self) -> None:
        """The view of faults has the certainty of each, where it was asked for."""
        wanted: dict[tuple[Any, ...], tuple[Any, ...]] = {}
        # Connections that go on behind a gap: faults that the missing bytes may explain are of the report alone.
        gapped = set()
        for path, said in self.said["named"].items():
            for one in said["connections"]:
                if one["joined"] and one["joined"]["after_gap"]:
                    gapped.add((word_of(path), one["joined"]["after_gap_of"]))
                for fault in one["faults"]:
                    place = fault["at"]["frame"], fault["kind"], fault["stream"], fault["side"]
                    wanted[word_of(path), one["number"], *place] = fault["certainty"], fault["doubt"]
        found = self.base("named").ask("SELECT faults.*, side FROM faults JOIN captures USING (path) JOIN findings "
                                       "ON findings.capture = captures.id AND findings.connection = faults.connection "
                                       "AND findings.frame = faults.frame AND findings.kind = faults.kind "
                                       "AND findings.stream = faults.stream")  # fmt: skip
        keys = [tuple(row[name] for name in ("path", "connection", "frame", "kind", "stream", "side")) for row in found]
        self.assertEqual(
            {key for key in keys if key[:2] not in gapped}, {key for key in wanted if key[:2] not in gapped}
        )
        self.assertLessEqual(set(wanted), set(keys))
        for key, row in zip(keys, found):
            self.assertEqual((row["certainty"], row["doubt"]), wanted.get(key, (None, None)))
        without = self.base("without").ask("SELECT DISTINCT certainty, doubt FROM faults")
        self.assertEqual(without, [{"certainty": None, "doubt": None}])

    def test_not_audited(self) -> None:
        """The view of what was not audited has the word of h2audit-why, where that was asked, and else the report's."""
        question = "SELECT path, what, reason FROM not_audited WHERE what LIKE 'connection %'"
        wanted = {
            (word_of(path), f"connection {row['connection']}"): row["reason"]
            for path, said in self.said["named"].items()
            for row in rows_of(said)["reasons"]
        }
        self.assertLessEqual({"refused-port", "silent", "http/1.1", "no-syn-ack", "no-key"}, set(wanted.values()))
        found = {name: self.base(name).ask(question) for name in ("named", "unnamed", "without")}
        for name in ("named", "unnamed"):
            self.assertEqual({(row["path"], row["what"]): row["reason"] for row in found[name]}, wanted)
        self.assertEqual({(row["path"], row["what"]) for row in found["without"]}, set(wanted))
        self.assertTrue({"refused-port", "silent"}.isdisjoint(row["reason"] for row in found["without"]))


def answers(captures: list[pathlib.Path], words: list[str]) -> Iterator[tuple[pathlib.Path, Json]]:
    """What --json says of each capture that is not refused."""
    keys = [word for key in KEYS for word in ("-k", str(key))]
    for path in captures:
        try:
            yield path, said_of(*words, *keys, str(path))
        except Refused:
            continue


def secrets_of(said: Iterable[Json]) -> set[bytes]:
    """The names that documents tell, as bytes. Short ones may stand anywhere, and addresses do."""
    found: set[str] = set()
    for one in said:
        for connection in one["connections"]:
            for request in connection["requests"]:
                found |= {printable(request[key]) for key in ("name", "path", "authority") if request[key]}
    return {word.encode() for word in found if len(word) > 5 and not re.match(r"[\[\d]", word)}


def name_programs() -> None:
    """For h2audit-why, which this process runs."""
    os.environ["H2AUDIT"] = str(PROGRAM)
    os.environ.setdefault("H2AUDIT_IMPORT", str(BUILT["H2AUDIT_IMPORT"]))


if __name__ == "__main__":
    name_programs()
    unittest.main()
