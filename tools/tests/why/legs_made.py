"""Captures of both legs, as they are made and kept with what is true of them, and the answer on them."""

import gzip
import json
import pathlib
import subprocess
from collections.abc import Iterator
from contextlib import ExitStack, contextmanager, suppress
from dataclasses import asdict, dataclass

from tools.tests.import_tools import imported, read_pcap
from tools.tests.peers import folder_to_serve
from tools.tests.why.legs import Row
from tools.tests.why.legs_judge import Judgement, judged
from tools.tests.why.legs_stage import Hop, Stage, Truth
from tools.tests.why.legs_truth import pairs
from tools.tests.why.proxies import is_there
from tools.tests.why.yard import Yard, laid, on_loopback
from tools.tests.why_tools import TOP, Json, said_of

LEGS = TOP / "tests" / "legs"
TRUTHS = LEGS / "truths.json"
# By so much the times of packets may go back, in nanoseconds; past it no pair is sure by elimination.
MOST_BACK = 2_000


@dataclass(frozen=True)
class Made:
    """A capture, its hops, and what is true of the requests to its first proxy."""

    capture: bytes
    hops: list[Hop]
    truths: list[Truth]
    # The key log, where one leg is TLS.
    keys: bytes = b""

    @contextmanager
    def words(self) -> Iterator[list[str | pathlib.Path]]:
        """What h2audit-why and h2audit-import are asked with."""
        with folder_to_serve() as folder:
            path, keys = folder / "made.pcap", folder / "keys.log"
            path.write_bytes(self.capture)
            keys.write_bytes(self.keys)
            yield ["-k", keys, path] if self.keys else [path]

    def plain(self) -> bytes:
        """The capture without TLS."""
        if not self.keys:
            return self.capture
        with self.words() as words:
            return imported(*words).bytes

    def answer(self) -> Json:
        with self.words() as words:
            return said_of(*words)

    def judged(self) -> Judgement:
        return self.truly(self.answer())

    def flaws(self, found: Json) -> list[str]:
        """What leaves its pairs in doubt whatever its proxy did: times that go back, and packets that it lacks."""
        packets, _ = read_pcap(self.capture)
        latest, back = 0, 0
        for packet in packets:
            latest = max(latest, packet.nanos)
            back = max(back, latest - packet.nanos)
        lacks = [one["number"] for one in found["connections"] if one["gaps"] or any(one["uncaptured"].values())]
        told = [f"its times go back by {back} ns"] if back > MOST_BACK else []
        return told + [f"connection {number} lacks packets" for number in lacks]

    def truly(self, found: Json) -> Judgement:
        front = self.hops[0][0] if self.hops else ""
        return judged(found, front, self.truths, set(pairs(self.plain(), self.hops)))


def kept(row: Row) -> Made:
    told = json.loads(TRUTHS.read_text())[row.name]
    capture = gzip.decompress((LEGS / f"{row.name}.pcap.gz").read_bytes())
    hops = [(front, back) for front, back in told["hops"]]
    keys = LEGS / f"{row.name}.keys"
    return Made(capture, hops, [Truth(**one) for one in told["truths"]], keys.read_bytes() if keys.exists() else b"")


def keep(row: Row, made: Made) -> None:
    LEGS.mkdir(exist_ok=True)
    told = json.loads(TRUTHS.read_text()) if TRUTHS.exists() else {}
    told[row.name] = {"hops": made.hops, "truths": [brief(one) for one in made.truths]}
    lines = [f"{json.dumps(name)}: {json.dumps(one)}" for name, one in sorted(told.items())]
    TRUTHS.write_text("{\n" + ",\n".join(lines) + "\n}\n")
    (LEGS / f"{row.name}.pcap.gz").write_bytes(gzip.compress(made.capture, mtime=0))
    if made.keys:
        (LEGS / f"{row.name}.keys").write_bytes(made.keys)


def brief(truth: Truth) -> dict[str, object]:
    """A truth without what is usual."""
    usual = asdict(Truth(""))
    return {name: value for name, value in asdict(truth).items() if value != usual[name]}


def make(row: Row) -> Made | None:
    """Makes a capture; none where its proxies are not there, or the wire that it needs cannot be laid."""
    if not all(is_there(one.__name__) for one in (row.proxy, row.then) if one):
        return None
    made = None
    with ExitStack() as stack:
        folder = stack.enter_context(folder_to_serve())
        if yard := yard_of(row, stack):
            stage = Stage(folder, yard, row.proxy, row.words, row.then)
            truths = row.make(stage)
            made = Made(stage.capture.read_bytes(), [] if row.has_none else stage.hops, truths, stage.keys())
    return made


def yard_of(row: Row, stack: ExitStack) -> Yard | None:
    """Where a row is made: loopback also where no namespaces can be had, unless it needs a wire."""
    yard = None
    if not row.is_on_loopback:
        with suppress(subprocess.CalledProcessError, OSError):
            yard = stack.enter_context(laid(row.round_trip))
    return yard if yard or row.round_trip else on_loopback()
