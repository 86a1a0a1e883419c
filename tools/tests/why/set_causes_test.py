"""Tests of h2audit-why on causes that were set (set_causes.py): it names cause, side, whom to ask, and the share.

    python3 -m tools.tests.why.set_causes_test [H2AUDIT] [TEST..]
    python3 -m tools.tests.why.set_causes_test [H2AUDIT] --write
    python3 -m tools.tests.why.set_causes_test [H2AUDIT] --make [NAME..]
    python3 -m tools.tests.why.set_causes_test [H2AUDIT] --keep [NAME..]

The captures of tests/causes are checked, all right. --write makes the table in tests/causes/README.md. --make makes the
captures anew, by real peers, of which all but a twentieth have to be right; --keep does so too, and keeps them.
"""

import gzip
import itertools
import os
import subprocess
import sys
import unittest
from contextlib import ExitStack
from dataclasses import dataclass

from tools.tests.peers import folder_to_serve
from tools.tests.why.set_causes import ROWS, Row
from tools.tests.why.stage import Stage
from tools.tests.why_tools import TOP, Json, checked_written_or_made, said_of, text

RUNS = ("$H2AUDIT", "$H2AUDIT --make")
TIMED = ("$H2AUDIT --make",)
CAUSES = TOP / "tests" / "causes"
README = CAUSES / "README.md"
HELD = CAUSES / "held.tsv"
NANOS = 1_000_000_000
# A share is named right if it is so close to what was set.
CLOSE = 0.1
LARGEST = 100_000
MOST_WRONG = 0.05


@dataclass(frozen=True)
class Named:
    """What the answer names of the requests of a row, and what is wrong with that."""

    words: str
    share: str
    wrong: list[str]


def held_by_row() -> dict[str, float]:
    """For how long each script held its request back, in seconds."""
    lines = HELD.read_text().splitlines() if HELD.exists() else []
    return {name: float(seconds) for name, seconds in (line.split("\t") for line in lines)}


def requests_of(row: Row, found: Json) -> list[Json]:
    requests = [one for connection in found["connections"] for one in connection["requests"]]
    return [one for one in requests if row.path in (one["path"] or "") and row.stream in (0, one["stream"])]


def named_of(row: Row, found: Json, held: float) -> Named:
    asked = requests_of(row, found)
    if not asked:
        return Named("no request", "", ["the request is not there"])
    wrong = [why for one in asked for why in wrong_of(row, one, held)]
    first = asked[0]
    cause = first["cause"]
    words = f"`{cause['kind']}`" + (f", `{cause['why']}`" if cause["why"] else "")
    return Named(words, f"{share_of(row, first):.0%}" if row.shares else "", wrong)


def set_share(one: Json, held: float) -> float:
    """The share of a life that was set; of several requests each may be shorter than all of them."""
    return min(1.0, held * NANOS / max(int(one["nanos"]), 1))


def share_of(row: Row, one: Json) -> float:
    direction = one[row.of]
    return float(sum(direction["shares"].get(share, 0) for share in row.shares) / max(one["nanos"], 1))


def wrong_of(row: Row, one: Json, held: float) -> list[str]:
    cause = one["cause"]
    wanted = {"kind": row.kind, "side": row.side, "ask": row.ask}
    if row.why:
        wanted["why"] = row.why
    wrong = [f"{name} {cause[name]}, not {value}" for name, value in wanted.items() if cause[name] != value]
    if row.shares:
        share, was_set = share_of(row, one), set_share(one, held)
        if abs(share - was_set) > CLOSE:
            wrong.append(f"{'+'.join(row.shares)} {share:.0%}, not {was_set:.0%}")
    return wrong


def unpacked(row: Row) -> Json:
    return said_of(CAUSES / f"{row.name}.pcap.gz")


class Kept(unittest.TestCase):
    def test_causes(self) -> None:
        """Each capture's answer names what was set."""
        held = held_by_row()
        for row in ROWS:
            with self.subTest(row.name):
                self.assertEqual(named_of(row, unpacked(row), held[row.name]).wrong, [])

    def test_a_wrong_cause_is_seen(self) -> None:
        """The captures of one row are wrong by another one's truth."""
        held = held_by_row()
        late, sleeps = ({row.name: row for row in ROWS}[name] for name in ("grants_late_nginx", "sleeps"))
        self.assertEqual(len(named_of(sleeps, unpacked(late), held["sleeps"]).wrong), 1)
        found = unpacked(late)
        wrong = named_of(late, found, held[late.name] / 2).wrong
        self.assertEqual([why.split()[0] for why in wrong], ["stream_stall"])

    def test_captures(self) -> None:
        """Each row has one capture, which is small."""
        self.assertGreaterEqual(len(ROWS), 40)
        self.assertEqual(
            sorted(path.name for path in CAUSES.glob("*.pcap.gz")), sorted(f"{one.name}.pcap.gz" for one in ROWS)
        )
        self.assertLessEqual(max(path.stat().st_size for path in CAUSES.glob("*.pcap.gz")), LARGEST)
        self.assertEqual(sorted(held_by_row()), sorted(one.name for one in ROWS))

    def test_table(self) -> None:
        self.assertEqual(README.read_text(), table(), "--write makes it anew")


class Words(unittest.TestCase):
    """What the text and other members say of some of these captures."""

    def found(self, name: str, stream: int = 0) -> Json:
        (row,) = [one for one in ROWS if one.name == name]
        found: Json = requests_of(row, unpacked(row))[-1]
        self.assertIn(stream, (0, found["stream"]))
        return found

    def test_hang(self) -> None:
        request = self.found("never_grants_nginx")
        self.assertTrue(request["hung"])
        self.assertEqual((request["ended"]["how"], request["ended"]["side"]), ("FIN", "client"))
        self.assertIn("HUNG for", text(CAUSES / "never_grants_nginx.pcap.gz"))

    def test_leak(self) -> None:
        request = self.found("cancelled_streams", 7)
        self.assertTrue(request["hung"])
        for words in ("(cancelled)", "of which the client gave back 0", "never had a byte"):
            self.assertIn(words, request["cause"]["text"])

    def test_grpc(self) -> None:
        late, sleeps = self.found("grpc_reads_late"), self.found("grpc_sleeps")
        self.assertEqual((late["method"], late["grpc_status"], sleeps["grpc_status"]), ("POST", 0, 0))

    def test_names(self) -> None:
        capture = CAUSES / "grants_late_nginx.pcap.gz"
        summary = said_of(capture)["summary"]
        self.assertEqual((summary["held_back"], summary["hung"], summary["faults"]), (1, 0, 0))
        self.assertIn("/large", text(capture))
        self.assertNotIn("/large", text("--no-requests", capture) + str(said_of("--no-requests", capture)))


FRONT = """# Causes that were set

Each capture is of real peers, between which a script sets a cause (`tools/tests/why/set_causes.py`). The answer has to
name the cause, the side, whom to ask, and a share of the life within 10 % of what the script measured by its own clock,
where it can. `python3 -m tools.tests.why.set_causes_test --write` makes this table, and `--make` all captures anew, of
which a twentieth may be wrong. A wire is two tap devices, each in a network namespace, and a thread between them. One
line has the captures that differ in their peers alone, with their shares in the order of these.

| capture | peers | where | what was set | cause | share set | the answer |
|---|---|---|---|---|---|---|
"""


def table() -> str:
    """Rows behind each other that differ in nothing but their peers are one line."""
    held = held_by_row()
    alike = itertools.groupby(ROWS, lambda row: (row.place(), row.was_set, cause_of(row)))
    return FRONT + "".join(line_of(list(rows), held) for _, rows in alike)


def cause_of(row: Row) -> str:
    return f"`{row.kind}`" + (f", `{row.why}`" if row.why else "") + (f", ask the {row.ask}" if row.ask else "")


def line_of(rows: list[Row], held: dict[str, float]) -> str:
    """A line of the table."""
    first = rows[0]
    found = {row.name: unpacked(row) for row in rows}
    named = [named_of(row, found[row.name], held[row.name]) for row in rows]
    was_set = [
        f"{set_share(asked[0], held[row.name]):.0%}"
        for row in rows
        if row.shares and (asked := requests_of(row, found[row.name]))
    ]
    wrong = [f"{row.name} is wrong: {one.words}" for row, one in zip(rows, named, strict=True) if one.wrong]
    said = wrong or ["right", *(one.share for one in named if one.share)]
    name = f"{os.path.commonprefix([row.name for row in rows])}*" if len(rows) > 1 else first.name
    peers = ", ".join(dict.fromkeys(peer for row in rows for peer in row.peers.split(", ")))
    shares = ", ".join(was_set)
    cells = [f"`{name}`", peers, first.place(), first.was_set, cause_of(first), shares, ", ".join(said)]
    return f"| {' | '.join(cells)} |\n"


def made(row: Row) -> tuple[bytes, float] | None:
    """A capture of the row, and for how long its script held the request back; none where no wire can be laid."""
    with ExitStack() as stack:
        folder = stack.enter_context(folder_to_serve())
        stage = Stage(folder, folder / "capture.pcap", row.line)
        try:
            stack.enter_context(stage.laid())
        except (subprocess.CalledProcessError, OSError):
            return None
        held = row.make(stage)
        capture = stage.capture.read_bytes()
    return capture, held


def keep(row: Row, capture: bytes, held: float) -> None:
    all_held = {**held_by_row(), row.name: held}
    (CAUSES / f"{row.name}.pcap.gz").write_bytes(gzip.compress(capture, mtime=0))
    HELD.write_text("".join(f"{name}\t{seconds:.3f}\n" for name, seconds in sorted(all_held.items())))


def wrong_anew(row: Row, is_kept: bool) -> list[str] | None:
    """What is wrong with the answer on a capture that is made anew; none where no wire can be laid."""
    try:
        got = made(row)
    except (AssertionError, OSError, subprocess.TimeoutExpired) as why:
        return [f"the script failed: {why!r}"]
    if got is None:
        return None
    if is_kept:
        keep(row, *got)
    with folder_to_serve() as folder:
        path = folder / "made.pcap"
        path.write_bytes(got[0])
        return named_of(row, said_of(path), got[1]).wrong


def make(names: list[str], is_kept: bool) -> int:
    """Makes captures, and says how many are right."""
    wrong = count = 0
    for row in [one for one in ROWS if not names or one.name in names]:
        why = wrong_anew(row, is_kept)
        if why:
            print(f"{row.name}: once more, since a busy machine holds peers up itself: {'; '.join(why)}", flush=True)
            why = wrong_anew(row, is_kept)
        count += why is not None
        wrong += bool(why)
        said = "no wire can be laid here" if why is None else "; ".join(why) or "right"
        print(f"{row.name}: {said}", flush=True)
    print(f"{count} captures, {wrong} wrong")
    return 1 if wrong > MOST_WRONG * count else 0


if __name__ == "__main__":
    sys.exit(checked_written_or_made(README, table, make))
