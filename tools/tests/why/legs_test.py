"""Tests of h2audit-why on both legs of real proxies (legs.py): pairs, whom to ask, what was passed on.

    python3 -m tools.tests.why.legs_test [H2AUDIT] [TEST..]
    python3 -m tools.tests.why.legs_test [H2AUDIT] --write
    python3 -m tools.tests.why.legs_test [H2AUDIT] --make [NAME..]
    python3 -m tools.tests.why.legs_test [H2AUDIT] --keep [NAME..]

The captures of tests/legs are judged, with a truth that stands in their content, where no matching looks. --write makes
the tables in tests/legs/README.md. --make makes captures anew, with the proxies that are installed, in network
namespaces or, where these cannot be had, on loopback; --keep does so too, and keeps them. A name is of a capture, or of
a group; `causes` are those with a set cause, and `traffic` the others.
"""

import os
import subprocess
import sys
import unittest
from dataclasses import replace
from functools import cache

from tools.tests.import_tools import pcap_of, read_pcap
from tools.tests.why.legs import ROWS, Row
from tools.tests.why.legs_judge import Judgement
from tools.tests.why.legs_made import LEGS, keep, kept, make
from tools.tests.why.legs_page import page
from tools.tests.why_tools import checked_written_or_made

RUNS = ("$H2AUDIT", "$H2AUDIT --make causes", "$H2AUDIT --make traffic")
LIMIT = 2400
TIMED = ("$H2AUDIT --make causes", "$H2AUDIT --make traffic")
README = LEGS / "README.md"
LARGEST_OF_ALL = 3_000_000
# Shares of what has to be right: pairs that are called sure, by groups, and whom to ask.
SURE = {"mixed": 0.9, "mixed_paths": 0.9, "mixed_ids": 1, "w_ids": 1}
ASKED_RIGHT = 0.95
# The share of captures made anew of which something else may be wrong, or whose script may fail.
MOST_FAILED = 0.1
# A capture is made anew so often, until its times and packets leave nothing in doubt.
MOST_TRIES = 3


@cache
def judgement(row: Row) -> Judgement:
    return kept(row).judged()


def sum_of(rows: list[Row]) -> Judgement:
    total = Judgement()
    for row in rows:
        total += judgement(row)
    return total


def group(*names: str) -> list[Row]:
    return [row for row in ROWS if row.group in names]


def is_sure_enough(name: str, found: Judgement) -> bool:
    return found.right["sure"] >= SURE.get(name, 0) * found.fronts


class Kept(unittest.TestCase):
    def test_pairs(self) -> None:
        """No pair that is called sure is wrong, and no proxy answered itself where its upstream did."""
        for row in ROWS:
            with self.subTest(row.name):
                found = judgement(row)
                self.assertEqual((found.wrong["sure"], found.without["answered-itself"]), (0, 0), found.pairs)

    def test_sums(self) -> None:
        """Parts sum to the life to the nanosecond."""
        for row in ROWS:
            with self.subTest(row.name):
                self.assertEqual(judgement(row).sums, [])

    def test_sure_by_names(self) -> None:
        """Nine in ten of mixed traffic are sure by their paths, and all by an x-request-id."""
        for name in SURE:
            with self.subTest(name):
                found = sum_of(group(name))
                self.assertTrue(is_sure_enough(name, found), found)
                self.assertGreaterEqual(found.fronts, 400)

    def test_set_causes(self) -> None:
        """Whom to ask is as it was set, and what was passed on, tried again, and answered by the proxy."""
        total = Judgement()
        for row in ROWS:
            with self.subTest(row.name):
                found = judgement(row)
                self.assertEqual(found.rest, [])
            total += judgement(row)
        self.assertGreaterEqual(total.asked, 80)
        self.assertGreaterEqual(total.asked_right, ASKED_RIGHT * total.asked, total.asks)

    def test_hops(self) -> None:
        """Each pair of legs is a hop, and nothing else is; there is none where HTTP/1.1 is behind."""
        for row in ROWS:
            with self.subTest(row.name):
                made = kept(row)
                hops = [(hop["front"], hop["back"]) for hop in made.answer()["hops"]]
                self.assertEqual(sorted(hops), sorted(made.hops))

    def test_captures(self) -> None:
        """Each row has one capture, and they are small together."""
        paths = sorted(LEGS.glob("*.pcap.gz"))
        self.assertEqual([path.name for path in paths], sorted(f"{row.name}.pcap.gz" for row in ROWS))
        self.assertLessEqual(sum(path.stat().st_size for path in paths), LARGEST_OF_ALL)

    def test_table(self) -> None:
        self.assertEqual(README.read_text(), page(judgement), "--write makes it anew")


class Seen(unittest.TestCase):
    """What is wrong is seen by the judge."""

    def setUp(self) -> None:
        (row,) = [row for row in ROWS if row.name == "b_nginx"]
        self.made = kept(row)
        self.found = self.made.answer()
        fronts = [one for one in self.found["connections"] if one["server"] == self.made.hops[0][0]]
        self.quick, self.thinks, self.pauses = (asked["legs"] for one in fronts for asked in one["requests"])

    def judged(self) -> Judgement:
        return self.made.truly(self.found)

    def test_right(self) -> None:
        found = self.judged()
        self.assertEqual((found.fronts, found.right["sure"], found.asked_right), (3, 3, 2))
        self.assertEqual((found.pairs, found.asks, found.rest, found.sums), ([], [], [], []))

    def test_wrong_pair(self) -> None:
        self.quick["carried_by"], self.thinks["carried_by"] = self.thinks["carried_by"], self.quick["carried_by"]
        self.assertEqual(self.judged().wrong["sure"], 2)

    def test_no_pair(self) -> None:
        self.quick.update(carried_by=None, none_why="answered-itself", sums=None, parts=None)
        found = self.judged()
        self.assertEqual((found.without["answered-itself"], found.right["sure"]), (1, 2))
        self.assertEqual(len(found.pairs), 1)

    def test_wrong_ask(self) -> None:
        self.thinks["ask"]["party"] = "proxy"
        self.pauses["ask"]["nanos"] //= 2
        found = self.judged()
        self.assertEqual((found.asked, found.asked_right, len(found.asks)), (2, 0, 2))

    def test_wrong_sums(self) -> None:
        self.quick["parts"][0][1] += 1
        self.thinks["sums"][0]["nanos"] += 1
        self.assertEqual(len(self.judged().sums), 3)

    def test_flaws(self) -> None:
        """A capture made anew is in doubt by itself where its times go back, and where it lacks a packet."""
        packets, link = read_pcap(self.made.capture)
        self.assertEqual(self.made.flaws(self.found), [])
        longest = max(range(len(packets)), key=lambda at: len(packets[at].data))
        back = [one._replace(nanos=one.nanos - 10**9 * (at == longest)) for at, one in enumerate(packets)]
        fewer = packets[:longest] + packets[longest + 1 :]
        for some, flaw in ((back, "its times go back by"), (fewer, "lacks packets")):
            made = replace(self.made, capture=pcap_of(some, link))
            flaws = made.flaws(made.answer())
            self.assertEqual([flaw in one for one in flaws], [True], flaws)


def wrong_of(found: Judgement) -> list[str]:
    return found.pairs + found.asks + found.rest + found.sums


class Unjudged(Exception):
    """Why no capture of a row can be judged here."""


def made_once(row: Row, is_kept: bool) -> Judgement:
    """What is found of a capture that is made anew, and again as long as it is in doubt by itself."""
    for _ in range(MOST_TRIES):
        try:
            made = make(row)
        except (AssertionError, OSError, subprocess.TimeoutExpired) as why:
            return Judgement(rest=[f"the script failed: {why!r}"])
        if made is None:
            raise Unjudged("its proxies are not there, or no wire can be laid here")
        found = made.answer()
        flaws = made.flaws(found)
        if not flaws:
            if is_kept:
                keep(row, made)
            return made.truly(found)
        print(f"{row.name}: another capture: {'; '.join(flaws)}", flush=True)
    raise Unjudged(f"each of {MOST_TRIES} captures leaves its pairs in doubt by itself")


def made_anew(row: Row, is_kept: bool) -> Judgement | None:
    """As `made_once`, and once more where something is wrong, since a busy machine holds peers up itself."""
    try:
        found = made_once(row, is_kept)
        if wrong_of(found):
            print(f"{row.name}: once more: {'; '.join(wrong_of(found))}", flush=True)
            found = made_once(row, is_kept)
    except Unjudged as why:
        print(f"{row.name}: {why}", flush=True)
        return None
    wrong = "".join(f"{os.linesep}    {why}" for why in wrong_of(found))
    print(f"{row.name}: {dict(found.right)} right{wrong}", flush=True)
    return found


Found = dict[Row, Judgement]


def groups_of(found: Found) -> dict[str, Judgement]:
    groups: dict[str, Judgement] = {}
    for row, one in found.items():
        groups[row.group] = groups.get(row.group, Judgement())
        groups[row.group] += one
    return groups


def unsure(found: Found) -> list[str]:
    """The groups of which too few pairs are called sure."""
    return [name for name, one in groups_of(found).items() if not is_sure_enough(name, one)]


def faults_of(found: Found) -> list[str]:
    """What is wrong with all of them together."""
    total = Judgement()
    for one in found.values():
        total += one
    failed = sum(bool(one.rest) for one in found.values())
    print(
        f"{total.fronts} pairs: right {dict(total.right)}, wrong {dict(total.wrong)}, without {dict(total.without)}; "
        f"whom to ask: {total.asked_right} of {total.asked}; passed on: {total.passed_right} of {total.passed}; "
        f"{failed} of {len(found)} with other faults"
    )
    groups = groups_of(found)
    faults = [f"{name}: of {groups[name].fronts} pairs {groups[name].right['sure']} are sure" for name in unsure(found)]
    if total.wrong["sure"] or total.sums:
        faults.append(f"{total.wrong['sure']} pairs that are called sure are wrong, and {len(total.sums)} sums")
    if total.asked_right < ASKED_RIGHT * total.asked:
        faults.append(f"whom to ask: {'; '.join(total.asks)}")
    if failed > MOST_FAILED * len(found):
        faults.append(f"other faults: {'; '.join(total.rest)}")
    return faults


def make_all(names: list[str], is_kept: bool) -> int:
    """Makes captures, and says what is wrong; the status is 1 if that is more than may be."""
    rows = [row for row in ROWS if not names or {row.name, row.group, row.kind} & set(names)]
    found: Found = {}

    def make_some(some: list[Row]) -> None:
        made = ((row, made_anew(row, is_kept)) for row in some)
        found.update((row, one) for row, one in made if one)

    make_some(rows)
    make_some([row for row in rows if row.group in unsure(found)])
    faults = faults_of(found)
    print(f"{len(found)} of {len(rows)} captures were judged", *faults, sep=os.linesep, flush=True)
    return 1 if faults else 0


if __name__ == "__main__":
    sys.exit(checked_written_or_made(README, lambda: page(judgement), make_all))
