"""Tests of both legs of a proxy in h2audit-fleet: python3 -m tools.tests.fleet.legs_test PROGRAM

What is wanted of each capture is what `h2audit-why --json` says of it alone.
"""

import gzip
import pathlib
import random
import unittest
from collections import defaultdict
from collections.abc import Iterator
from typing import Any, ClassVar

from tools.tests.damage import damaged
from tools.tests.fleet.captures import PROGRAM, TOP, Machine
from tools.tests.fleet.requests_test import Base, link_programs, name_programs, secrets_of, sorted_rows, word_of
from tools.tests.why_tools import Json, said_of

RUNS = ("$H2AUDIT",)
QUICK = True
EXAMPLE = TOP / "examples" / "slow_client_haproxy.pcap.gz"
# Slow clients, slow uploads, what others hold back, what is tried again, answered by the proxy itself, equal, and two
# proxies behind each other; and one without a proxy.
KEPT = (
    "a_nghttpx", "a_caddy_huge", "c_apache", "d_nginx", "e_haproxy", "eu_haproxy", "f_haproxy", "g_caddy", "k_nginx",
    "w_haproxy", "w_haproxy_ids", "m_caddy_haproxy",
)  # fmt: skip
DAMAGED = 120
# Front requests whose time is not their life.
UNEQUAL = """
    SELECT path, connection, stream, requests.nanos, SUM(leg_times.nanos) FROM leg_times
    JOIN requests USING (capture, connection, stream) JOIN captures ON captures.id = capture
    GROUP BY capture, connection, stream HAVING requests.nanos <> SUM(leg_times.nanos)"""
TABLES = ("hops", "legs", "leg_times", "brakes")
Row = dict[str, Any]
Place = tuple[int, int]


def captures() -> list[pathlib.Path]:
    kept = [TOP / "tests" / "legs" / f"{name}.pcap.gz" for name in KEPT]
    return [EXAMPLE, *kept, TOP / "examples" / "paused_stream_node.pcap"]


class Told:
    """What a document says of both legs, as rows by the names of their columns."""

    def __init__(self, said: Json) -> None:
        self.said = said
        self.servers = {one["number"]: one["server"] for one in said["connections"]}
        self.hops = [(hop["front"], hop["back"]) for hop in said["hops"]]

    def fronts(self) -> Iterator[tuple[Json, Json, Json]]:
        """Each front request of a hop, with its connection and its legs."""
        for connection in self.said["connections"]:
            for request in connection["requests"]:
                legs = request["legs"]
                if legs and (legs["carried_by"] or legs["none_why"]):
                    yield connection, request, legs

    def hop_of(self, connection: Json, legs: Json) -> int:
        """That of what answered it, or the first of its listener; from 1."""
        tries = legs["carried_by"]
        is_its = [
            front == connection["server"] and (not tries or back == self.servers[tries[-1]["connection"]])
            for front, back in self.hops
        ]
        return is_its.index(True) + 1

    def rows(self) -> dict[str, list[Row]]:
        found: dict[str, list[Row]] = {table: [] for table in TABLES}
        found["hops"] = [hop_row(at, hop) for at, hop in enumerate(self.said["hops"], 1)]
        for connection, request, legs in self.fronts():
            key = {"connection": connection["number"], "stream": request["stream"]}
            found["legs"].append({**key, "hop": self.hop_of(connection, legs), **legs_row(legs)})
            found["leg_times"] += [{**key, **one, "why": one["why"] or ""} for one in legs["sums"] or ()]
            found["brakes"] += [{**key, "position": at, **brake_row(one)} for at, one in enumerate(legs["brakes"], 1)]
        return found


def hop_row(position: int, hop: Json) -> Row:
    ask = hop["ask"] or dict.fromkeys(("party", "who", "why", "nanos", "connection", "stream", "address", "requests"))
    row = {key: hop[key] for key in ("front", "back", "requests", "back_requests")} | {"position": position}
    row |= {key: hop["grades"][key] for key in ("sure", "likely", "ambiguous")} | {"unpaired": hop["grades"]["none"]}
    row |= {f"ask_{key}": ask[key] for key in ("who", "why", "nanos", "connection", "stream", "address")}
    return row | {"ask": ask["party"], "behind_requests": ask["requests"]}


def legs_row(legs: Json) -> Row:
    last = legs["carried_by"][-1] if legs["carried_by"] else dict.fromkeys(("grade", "why", "connection", "stream"))
    ask = legs["ask"] or dict.fromkeys(("party", "who", "why", "nanos", "address"))
    behind = legs["behind"] or dict.fromkeys(("connection", "stream", "how", "nanos"))
    row = {"grade": last["grade"], "likeness": last["why"], "tries": len(legs["carried_by"] or ())}
    row |= {f"back_{key}": last[key] for key in ("connection", "stream")}
    row |= {f"behind_{key}": behind[key] for key in ("connection", "stream", "how", "nanos")}
    row |= {f"ask_{key}": ask[key] for key in ("who", "why", "nanos", "address")} | {"ask": ask["party"]}
    return row | {"none_why": legs["none_why"], "openings": legs["openings"]}


def brake_row(brake: Json) -> Row:
    pieces = brake["passed_on"]
    first = pieces[0] if pieces else dict.fromkeys(("by", "held", "after"))
    row = {"side": brake["side"], "begin_nanos": brake["begin"], "nanos": brake["nanos"]}
    row |= {"most_held": brake["most_held"], "times_passed_on": len(pieces)}
    row |= {"passed_on_nanos": sum(piece["nanos"] for piece in pieces), "passed_by": first["by"]}
    return row | {"held": first["held"], "after_nanos": first["after"]}


@unittest.skipUnless(PROGRAM, "legs: h2audit is not built")
class Legs(unittest.TestCase):
    machine: ClassVar[Machine]
    runs: ClassVar[dict[str, tuple[int, str, str]]]
    told: ClassVar[dict[str, Told]]
    unnamed: ClassVar[dict[str, Told]]

    @classmethod
    def setUpClass(cls) -> None:
        cls.machine = Machine([], None).__enter__()
        cls.addClassCleanup(cls.machine.__exit__)
        link_programs(cls.machine)
        cls.told, cls.unnamed = {}, {}
        for path in captures():
            copy = cls.machine.captures / path.name
            copy.write_bytes(path.read_bytes())
            cls.told[word_of(copy)] = Told(said_of("--no-joined", copy))
            cls.unnamed[word_of(copy)] = Told(said_of("--no-joined", "--no-requests", copy))
        runs: dict[str, list[str]] = {"named": ["--requests"], "unnamed": ["--unnamed-requests"], "without": [],
                                      "no_legs": ["--requests", "--no-legs"]}  # fmt: skip
        cls.runs = {}
        for name, words in runs.items():
            cls.runs[name] = cls.machine.run("--jobs", "3", *words, "captures")
            cls.machine.database.rename(cls.machine.folder / f"{name}.sqlite")

    def base(self, name: str = "named") -> Base:
        base = Base(self.machine.folder / f"{name}.sqlite")
        self.addCleanup(base.base.close)
        return base

    def fronts(self) -> Iterator[tuple[str, Told, Json, Json, Json]]:
        for path, told in self.told.items():
            for connection, request, legs in told.fronts():
                yield path, told, connection, request, legs

    def test_ran(self) -> None:
        self.assertEqual({run[2] for run in self.runs.values()}, {""})
        self.assertEqual(len({run[:2] for run in self.runs.values()}), 1, self.runs)
        for name in self.runs:
            self.assertEqual(self.base(name).ask("PRAGMA foreign_key_check"), [])

    def test_rows(self) -> None:
        """They are what --json says, with names and without, where they tell less."""
        for name, said in (("named", self.told), ("unnamed", self.unnamed)):
            base, numbers = self.base(name), dict.fromkeys(TABLES, 0)
            for path, told in said.items():
                for table, wanted in told.rows().items():
                    found = base.of_capture(table, self.machine.captures / path.rpartition("/")[2])
                    shared = [{key: row[key] for key in (wanted[0] if wanted else row)} for row in found]
                    self.assertEqual(sorted_rows(shared), sorted_rows(wanted), f"{path}: {table}")
                    numbers[table] += len(found)
            self.assertTrue(all(numbers[table] > 5 for table in TABLES), (name, numbers))

    def test_kinds(self) -> None:
        """What is compared has each grade, who and party."""
        base = self.base()
        kinds: tuple[tuple[str, str, set[str | None]], ...] = (
            ("grade", "legs", {"sure", "ambiguous", None}),
            ("none_why", "legs", {"answered-itself", None}),
            ("who", "leg_times", {"client", "proxy", "other", "back", "upstream"}),
            ("ask", "legs", {"client", "proxy", "upstream", None}),
            ("side", "brakes", {"client", "upstream"}),
            ("passed_by", "brakes", {"stream_stall", None}),
        )
        for column, table, wanted in kinds:
            found = {row[column] for row in base.ask(f"SELECT DISTINCT {column} FROM {table}")}
            self.assertLessEqual(wanted, found, (table, column))
        self.assertTrue(base.ask("SELECT 1 FROM legs WHERE tries > 1"))

    def test_none(self) -> None:
        """Without requests, and with --no-legs, there is no row."""
        for name in ("without", "no_legs"):
            for table in TABLES:
                self.assertEqual(self.base(name).ask(f"SELECT * FROM {table}"), [], (name, table))
        self.assertTrue(self.base("no_legs").ask("SELECT 1 FROM requests"))

    def test_no_names(self) -> None:
        """No name is in a database without --requests, and in no row of legs."""
        secret = secrets_of(told.said for told in self.told.values())
        self.assertGreater(len(secret), 20)
        octets = (self.machine.folder / "unnamed.sqlite").read_bytes()
        self.assertEqual([one for one in secret if one in octets], [])
        # An x-request-id tells pairs, and stands nowhere.
        self.assertTrue(self.base().ask("SELECT 1 FROM legs WHERE likeness = 'id'"))
        self.assertNotIn(b"id-00", (self.machine.folder / "named.sqlite").read_bytes())
        for table in TABLES:
            for row in self.base().ask(f"SELECT * FROM {table}"):
                texts = [value.encode() for value in row.values() if isinstance(value, str)]
                self.assertFalse(secret & set(texts), table)

    def test_taken_away(self) -> None:
        """--resume without requests takes all of it away."""
        self.machine.database.write_bytes((self.machine.folder / "named.sqlite").read_bytes())
        self.addCleanup(self.machine.database.unlink)
        self.machine.run("--jobs", "3", "--resume", "captures")
        for table in TABLES:
            self.assertEqual(self.machine.ask(f"SELECT * FROM {table}"), [])

    # Views

    def test_time_by_who(self) -> None:
        """The times of each hop are those of the document, and their parts of a hundred sum up."""
        found: dict[tuple[str, int], dict[str, float]] = defaultdict(lambda: defaultdict(float))
        whole: dict[tuple[str, int], float] = defaultdict(float)
        for row in self.base().ask("SELECT * FROM time_by_who"):
            found[row["path"], row["hop"]][row["who"]] += row["total_milliseconds"]
            whole[row["path"], row["hop"]] += row["percent"]
        for path, told in self.told.items():
            for at, hop in enumerate(told.said["hops"], 1):
                wanted = {who: nanos / 1e6 for who, nanos in hop["time"].items() if nanos}
                self.assertEqual(set(found[path, at]), set(wanted))
                for who, milliseconds in wanted.items():
                    self.assertAlmostEqual(found[path, at][who], milliseconds, places=3)
        self.assertTrue(all(abs(percent - 100) < 1e-6 for percent in whole.values()), whole)
        sums = self.base().ask("SELECT SUM(total_milliseconds) AS total FROM time_by_proxy")
        self.assertAlmostEqual(sums[0]["total"], sum(sum(one.values()) for one in found.values()), places=3)

    def test_requests(self) -> None:
        wanted: list[tuple[Any, ...]] = [
            (-(legs["ask"] or {"nanos": 0})["nanos"], path, connection["number"], request["stream"], request["name"])
            for path, _, connection, request, legs in self.fronts()
        ]
        found = self.base().ask("SELECT * FROM proxied_requests")
        told = [(-(row["nanos"] or 0), row["path"], row["connection"], row["stream"], row["name"]) for row in found]
        self.assertEqual(told, sorted(wanted))
        for row in found:
            if row["percent"] is not None:
                self.assertAlmostEqual(row["percent"], 100 * row["nanos"] / (row["milliseconds"] * 1e6))

    def test_whom_to_ask(self) -> None:
        sums: dict[tuple[Any, ...], list[Any]] = {}
        for path, _, _, _, legs in self.fronts():
            ask = legs["ask"]
            if not ask:
                continue
            peer = ask["address"]
            peer = peer.rpartition(":")[0] if ask["party"] == "client" else peer
            one = sums.setdefault((ask["party"], peer, ask["who"], ask["why"]), [0, 0, 0, set()])
            one[:] = one[0] + 1, max(one[1], ask["nanos"]), one[2] + ask["nanos"], one[3] | {path}
        found = self.base().ask("SELECT * FROM asked_by_legs")
        self.assertEqual(len(found), len(sums))
        for row in found:
            number, longest, total, paths = sums[row["ask"], row["peer"], row["who"], row["why"]]
            self.assertEqual((row["requests"], row["captures"]), (number, len(paths)))
            self.assertAlmostEqual(row["longest_milliseconds"], longest / 1e6)
            self.assertAlmostEqual(row["total_milliseconds"], total / 1e6)

    def test_behind_others(self) -> None:
        wanted = []
        for path, told, connection, request, legs in self.fronts():
            if behind := legs["behind"]:
                (other,) = [one for one in told.said["connections"] if one["number"] == behind["connection"]]
                (ahead,) = [one for one in other["requests"] if one["stream"] == behind["stream"]]
                key = -behind["nanos"], path, connection["number"], request["stream"]
                wanted.append((key, request["name"], ahead["name"], other["client"],
                               int(other["number"] != connection["number"]), behind["how"]))  # fmt: skip
        found = self.base().ask("SELECT * FROM behind_others")
        columns = ("name", "behind_name", "behind_client", "of_other", "how")
        said = [((-row["nanos"], row["path"], row["connection"], row["stream"]), *(row[one] for one in columns))
                for row in found]  # fmt: skip
        self.assertEqual(said, sorted(wanted))
        self.assertEqual({row["of_other"] for row in found}, {0, 1})

    def test_passed_on(self) -> None:
        wanted = []
        for path, told, connection, request, legs in self.fronts():
            back = told.hops[told.hop_of(connection, legs) - 1][1]
            for brake in legs["brakes"]:
                if pieces := brake["passed_on"]:
                    ends = connection["client"], back
                    ends = ends if brake["side"] == "client" else ends[::-1]
                    nanos = sum(piece["nanos"] for piece in pieces)
                    wanted.append((-nanos, path, connection["number"], request["stream"], request["name"], *ends,
                                   pieces[0]["held"]))  # fmt: skip
        found = self.base().ask("SELECT * FROM passed_on")
        said = [(-row["nanos"], *(row[one] for one in ("path", "connection", "stream", "name", "endpoint", "passed_to",
                 "held"))) for row in found]  # fmt: skip
        self.assertEqual(sorted(said), sorted(wanted))
        self.assertEqual([one[0] for one in said], sorted(one[0] for one in said))
        self.assertGreater(len(found), 5)


@unittest.skipUnless(PROGRAM, "legs: h2audit is not built")
class Damaged(unittest.TestCase):
    def test_rows(self) -> None:
        """Captures of proxies that are damaged have rows that name requests which are there, and none fails."""
        source = random.Random(79)
        with Machine([], None) as machine:
            link_programs(machine)
            for number in range(DAMAGED):
                sample = gzip.decompress(source.choice(captures()[:-1]).read_bytes())
                (machine.captures / f"{number}.pcap").write_bytes(damaged(source, sample))
            status, _, error = machine.run("--jobs", "3", "--requests", "captures")
            self.assertIn((status, error), {(0, ""), (1, ""), (3, "")})
            self.assertEqual(machine.ask("SELECT reason FROM captures WHERE outcome = 'failed'"), [])
            self.assertEqual(machine.ask("PRAGMA foreign_key_check"), [])
            self.assertGreater(machine.ask("SELECT COUNT(*) FROM hops")[0][0], DAMAGED // 4)
            self.assertEqual(machine.ask(UNEQUAL), [])


if __name__ == "__main__":
    name_programs()
    unittest.main()
