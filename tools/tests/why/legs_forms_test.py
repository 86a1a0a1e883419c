"""Tests of h2audit-why on both legs of a proxy in other forms of the same captures, and of what legs cost.

    python3 -m tools.tests.why.legs_forms_test [H2AUDIT] [Forms | Costs]
"""

import os
import pathlib
import subprocess
import sys
import unittest

from tools.tests.legs_written import at_once, mixed
from tools.tests.why.captures_test import SCHEMA
from tools.tests.why.legs_judge import LegsAnswer
from tools.tests.why.legs_packets import OnLegs, capture_named, port, ports_of, told
from tools.tests.why_tools import WHY, has_programs, programs_of, said_of, text

RUNS = ("$H2AUDIT",)
TIMED = True
# What legs may cost beside all else, where there are hops and where there are none, and ten times as many requests with
# them. There is room for a busy machine: the goals are 1.5, 1.1 and 12 on a quiet one (bench/README.md), and pairs of
# all would take a hundred times as long.
WITH_HOPS, WITHOUT = 2.0, 1.4
TIMES_AS_LONG = 20


class Forms(OnLegs):
    def test_two_files(self) -> None:
        """Front and back captured by themselves, in either order, say what one capture does."""
        made = capture_named("mixed_haproxy")
        front, back = (port(server) for server in made.hops[0])
        whole = said_of(self.whole(made))
        files = [
            self.chosen(made, lambda _, one: front in ports_of(one), "front.pcap"),
            self.chosen(made, lambda _, one: back in ports_of(one), "back.pcap"),
        ]
        for words in (files, files[::-1]):
            found = said_of(*words)
            self.assertEqual([hop["grades"] for hop in found["hops"]], [hop["grades"] for hop in whole["hops"]])
            self.assertEqual(told(found), told(whole))

    def test_schema(self) -> None:
        """What --json says of both legs is as the schema says: each try has the life of the back request, and
        the lines are those of --legs.
        """
        import jsonschema  # type: ignore[import]

        for name in ("f_haproxy", "g_caddy", "c_apache", "w_caddy", "m_caddy_haproxy"):
            path = self.whole(capture_named(name))
            found, lines = said_of(path), text("--legs", path)
            jsonschema.Draft202012Validator(SCHEMA).validate(found)
            requests = LegsAnswer(found).requests.values()
            for legs in (asked["legs"] for asked in requests if asked["legs"]):
                self.assertEqual([line for line in legs["text"] if line not in lines], [])
            lives = {(one["number"], asked["stream"]): (asked["opened"]["time"], asked["nanos"])
                     for one in found["connections"] for asked in one["requests"]}  # fmt: skip
            for asked in requests:
                for leg in (asked["legs"] or {"carried_by": None})["carried_by"] or ():
                    opened = asked["opened"]["time"] + leg["begin"]
                    self.assertEqual((opened, leg["nanos"]), lives[leg["connection"], leg["stream"]])

    def test_one_leg(self) -> None:
        """Each leg alone has no hop."""
        made = capture_named("mixed_nginx")
        for server in made.hops[0]:
            path = self.chosen(made, lambda _, one: port(server) in ports_of(one))
            found = said_of(path)
            self.assertEqual(found["hops"], [])
            self.assertEqual({asked["legs"] is None for asked in LegsAnswer(found).requests.values()}, {True})

    def test_no_legs(self) -> None:
        """Without legs the rest of the answer is the same."""
        path = self.whole(capture_named("e_haproxy"))
        with_legs, without = said_of(path), said_of("--no-legs", path)
        self.assertEqual(len(with_legs["hops"]), 1)
        self.assertEqual(without["hops"], [])
        for found in (with_legs, without):
            del found["hops"]
            for asked in LegsAnswer(found).requests.values():
                asked["legs"] = None
        self.assertEqual(with_legs, without)

    def test_ids(self) -> None:
        """An x-request-id is read, and never printed without --query."""
        path = self.whole(capture_named("w_haproxy_ids"))
        for said in (text(path), text("--legs", path), text("--json", path)):
            self.assertNotIn("id-00", said)

    def test_without_keys(self) -> None:
        """A leg in TLS without keys is not read: there are no two legs."""
        made = capture_named("tls_haproxy")
        self.assertEqual(said_of(self.whole(made))["hops"], [])


class Costs(OnLegs):
    """Processor seconds of h2audit-why and what it starts, the least of some runs in turn."""

    def seconds(self, *runs: list[str | pathlib.Path]) -> list[float]:
        times = [[self.once(*words) for words in runs] for _ in range(9)]
        return [min(one) for one in zip(*times, strict=True)]

    def once(self, *words: str | pathlib.Path) -> float:
        child = subprocess.Popen([str(WHY), "--json", *map(str, words)], stdout=subprocess.DEVNULL)
        _, status, usage = os.wait4(child.pid, 0)
        child.returncode = os.waitstatus_to_exitcode(status)
        self.assertIn(child.returncode, (0, 1))
        return float(usage.ru_utime + usage.ru_stime)

    def written(self, capture: bytes) -> pathlib.Path:
        path = self.folder / f"{len(capture)}.pcap"
        path.write_bytes(capture)
        return path

    def test_share(self) -> None:
        """What legs add to all else."""
        for has_back, most in ((True, WITH_HOPS), (False, WITHOUT)):
            with self.subTest(has_back=has_back):
                path = self.written(mixed(4000, has_back))
                self.assertEqual(len(said_of(path)["hops"]), int(has_back))
                with_legs, without = self.seconds([path], ["--no-legs", path])
                self.assertLessEqual(with_legs, most * without)

    def test_growth(self) -> None:
        """Ten times as many equal requests, all open at once, take hardly more than ten times as long."""
        small, large = (self.written(at_once(count)) for count in (1000, 10_000))
        few, many = self.seconds([small], [large])
        self.assertLessEqual(many, TIMES_AS_LONG * few)


if __name__ == "__main__":
    sys.argv = programs_of(sys.argv)
    if not has_programs():
        sys.exit("h2audit or h2audit-import is not built")
    unittest.main()
