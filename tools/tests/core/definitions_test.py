"""Computes reports from the definitions (tools/by-definition), and compares them with known ones and with the
program's.

    python3 -m tools.tests.core.definitions_test   known reports
    python3 -m tools.tests.core.definitions_test [--seed N] PROGRAM [KIND]

The latter compares the program's reports, of captures or connections, or of both.

The known ones are those of examples/ up to 4,000 bytes and of each row of tests/reports. Then ten definitions are
changed, one in each layer, and the search for witnesses is misled: each time a report has to be another one, or not
shown. The parts of captures are those of SPLITS, by the definitions and by the model of tests/parts.py, and both make
the same of the examples and of random captures; five definitions of the splitter are changed as well. The program is
asked for those of 300 random captures and 1,000 random connections, in which all 27 kinds of findings occur; the seed
is printed.
"""

import argparse
import os
import pathlib
import re
import shutil
import sys
import tempfile
import time
from collections.abc import Callable, Iterable, Iterator
from concurrent.futures import ProcessPoolExecutor
from functools import partial
from random import Random
from typing import Any, NamedTuple, TypeVar

from tests import reports_test, split_test
from tests.captures import capture_of
from tests.parts import parts_of
from tools.definitions import search
from tools.definitions.running import CRATES, NotShown, Reader, deeply
from tools.definitions.values import Made, Stuck, Value
from tools.tests import random_captures

RUNS = ("", "$H2AUDIT captures", "$H2AUDIT connections")
TOP = pathlib.Path(__file__).resolve().parents[3]

LARGE = 4000  # bytes of an example
KINDS = 27
# Changes of a definition, one in each layer: a file, a text in it, and what is written instead.
CHANGES = [
    ("pcap_records/specs/Record.antt", "start = at + 16", "start = at + 12"),
    ("packet_heads/specs/Tcp.antt", "slice_index segment 13) 4 == 1", "slice_index segment 13) 5 == 1"),
    (
        "tcp_streams/specs/Sequence.antt",
        "if nat_lt b.rec a.rec then Some b else Some a",
        "if nat_lt a.rec b.rec then Some b else Some a",
    ),
    ("tcp_streams/specs/Pair.antt", "(a.address == b.address) && (a.port == b.port)", "a.address == b.address"),
    ("h2_frames/specs/Body.antt", "if length payload == 5 then Priority", "if length payload == 4 then Priority"),
    ("h2_frames/specs/CaptureOrder.antt", "nat_lt y.frame.rec x.frame.rec", "nat_lt x.frame.rec y.frame.rec"),
    ("audit_terms/specs/Window.antt", "int_le credit (pos 0)", "int_lt credit (pos 0)"),
    ("audit_terms/specs/Finding.antt", "if stops x then x ∷ []", "if stops x then []"),
    ("audit_report/specs/Stalls.antt", "map (timed frames) findings", "map (timed []) findings"),
    ("audit_report/specs/EndLine.antt", "slice_get findings (length findings - 1)", "slice_get findings 0"),
]


# Such changes of the splitter's definitions.
SPLIT_CHANGES = [
    ("capture_parts/specs/Pair.antt", "take 82 packet", "take 40 packet"),
    ("capture_parts/specs/Pair.antt", "/ 2 ^ 32", "/ 2 ^ 31"),
    ("capture_parts/specs/Pair.antt", "ipv4.protocol datagram == 6", "ipv4.protocol datagram == 17"),
    ("capture_parts/specs/Dealt.antt", "big_bytes 8 n", "big_bytes 8 (n + 1)"),
    ("capture_parts/specs/Dealt.antt", "nat_lt (size + count) (2 ^ 31)", "nat_lt (size + count) (2 ^ 7)"),
]
WEB, PEER, OTHER = (0x0A000100, 80), (0x0A000001, 40000), (0x0A000002, 40003)
# Rows that are worked out by hand: a name, the sender and the receiver of each packet, or None where it names none, how
# many parts there are, and the numbers of the records of each. The sums of endpoints, 65,536 times the address and the
# port each, are 21990249438352 and 21990249503891. Times 11400714819323198485, modulo 2^64 and divided by 2^32, they
# are 3528191919 and 648797222: an odd and an even number.
SPLITS: list[tuple[str, list[tuple[tuple[int, int], tuple[int, int]] | None], int, list[list[int]]]] = [
    ("no records", [], 2, [[], []]),
    ("by number", [None] * 4, 3, [[3], [1, 4], [2]]),
    ("one part", [None, (PEER, WEB), None], 1, [[1, 2, 3]]),
    ("both directions", [(PEER, WEB), (WEB, PEER), (PEER, WEB)], 2, [[], [1, 2, 3]]),
    ("two pairs", [(PEER, WEB), (OTHER, WEB), (WEB, OTHER), (WEB, PEER)], 2, [[2, 3], [1, 4]]),
]


# Ways to mislead the search: its function, and what is made of its answer.
SPOILED: list[tuple[str, Callable[[Any], Value]]] = [
    ("records", lambda found: {**found, "rows": {"items": found["rows"]["items"][:-1]}}),
    ("flow", lambda found: {**found, "gap": Made("None")}),
    ("flow", lambda found: {**found, "gap": Made("Some", 0)}),
    ("flow", lambda found: {**found, "arrivals": {"items": found["arrivals"]["items"][1:]}}),
    (
        "flow",
        lambda found: {
            **found,
            "pieces": {"items": [{"now": piece["now"][:-1]} for piece in found["pieces"]["items"]]},
        },
    ),
    (
        "flow",
        lambda found: {
            **found,
            "pieces": {"items": [{"now": (0, *piece["now"][1:])} for piece in found["pieces"]["items"]]},
        },
    ),
    ("cut", lambda found: Made("NotHttp2")),
    ("cut", lambda found: Made("NoPreface")),
    ("cut", lambda found: Made("NoHandshake")),
    ("frames", lambda found: found[:-1]),
    ("length", lambda found: found + 1),
]


Answered = TypeVar("Answered")


class Job(NamedTuple):
    name: str
    capture: bytes
    frames_shown: bool
    wanted: str | None  # None for what the program answers


def answer(reader: Reader, capture: bytes, frames_shown: bool) -> str:
    """What the definitions say, line by line: exit status, what standard error says, and the report."""
    try:
        status, line, text = reader.audit(capture, frames_shown)
    except (NotShown, Stuck) as error:
        return f"not shown: {error}"
    return f"status {status}\n{line.decode()}{text.decode()}"


def examples() -> Iterator[Job]:
    for file in sorted((TOP / "examples").glob("*.pcap")):
        if file.stat().st_size <= LARGE:
            status = f"status {int(file.stem in reports_test.FAULTY)}\n"
            for ending, frames_shown in ((".report", False), (".frames.report", True)):
                yield Job(
                    file.stem + ending, file.read_bytes(), frames_shown, status + file.with_suffix(ending).read_text()
                )


def rows() -> Iterator[Job]:
    for name, row in reports_test.rows():
        script, _, wanted = row.partition("-- ")
        frames_shown = not wanted.startswith("findings ")
        yield Job(
            name,
            capture_of(script),
            frames_shown,
            reports_test.lines_of(wanted.removeprefix("findings "), frames_shown),
        )


RANDOM = {"captures": (random_captures.capture, 300), "connections": (random_captures.script, 1000)}


def randoms(seed: int, kinds: list[str]) -> Iterator[Job]:
    for kind in kinds:
        make, count = RANDOM[kind]
        for number in range(count):
            yield Job(f"{kind} {number}", make(Random(f"{seed} {kind} {number}")), True, None)


def done(jobs: list[Job], program: str | None) -> list[tuple[str, str]]:
    """What is wrong with each job, or nothing, and what the definitions say."""
    reader, found = Reader(), []
    for job in jobs:
        said = answer(reader, job.capture, job.frames_shown)
        wanted = job.wanted if program is None else reports_test.answer_of(program, ["--frames"], job.capture)
        found.append(
            ("" if said == wanted else f"{job.name}: the definitions say\n{said}and it should be\n{wanted}", said)
        )
    return found


def in_parallel(run: Callable[..., Answered], items: Iterable[object], *others: object) -> list[Answered]:
    """What a function makes of each item, with room for its recursion."""
    with ProcessPoolExecutor(os.cpu_count()) as workers:
        return [made.result() for made in [workers.submit(deeply, partial(run, item, *others)) for item in items]]


def compared(jobs: list[Job], program: str | None) -> tuple[int, str]:
    """How many jobs are wrong, each of which is said, and what the definitions said in all."""
    start, parts = time.monotonic(), 16
    found = [one for part in in_parallel(done, [jobs[at::parts] for at in range(parts)], program) for one in part]
    wrong = [fault for fault, _ in found if fault]
    print(
        *wrong,
        f"{len(jobs)} captures in {time.monotonic() - start:.0f} s: {len(wrong)} wrong",
        sep="\n" if wrong else "",
        flush=True,
    )
    return len(wrong), "".join(said for _, said in found)


def sees(reader: Reader, jobs: list[Job]) -> bool:
    """Whether the reader gives another report of some capture, or shows none."""
    return any(answer(reader, job.capture, job.frames_shown) != job.wanted for job in jobs)


def changed(change: tuple[str, str, str], is_seen: Callable[[Reader], bool]) -> str:
    """What is wrong with the definitions' answers where one of them is changed."""
    file, old, new = change
    with tempfile.TemporaryDirectory() as folder:
        for specs in CRATES.glob("*/specs"):
            shutil.copytree(specs, pathlib.Path(folder, specs.parent.name, "specs"))
        text = pathlib.Path(folder, file).read_text()
        if text.count(old) != 1:
            return f"{file} has {old} not once\n"
        pathlib.Path(folder, file).write_text(text.replace(old, new))
        return "" if is_seen(Reader(pathlib.Path(folder))) else f"{file}: {new} is not seen\n"


def split_row(packets: list[tuple[tuple[int, int], tuple[int, int]] | None]) -> bytes:
    """A capture of packets with these senders and receivers, or of none."""
    records = b""
    for number, pair in enumerate(packets, 1):
        packet = b"\x60"
        if pair:
            (source, from_port), (target, to_port) = pair
            packet = split_test.datagram_of(source, target, 6, split_test.segment_of((from_port, to_port), 1, 0x10))
        records += split_test.record_of("<", number, packet)
    return split_test.header_of("<", 0xA1B2C3D4, 101) + records


def split_captures() -> Iterator[tuple[str, bytes, int]]:
    """Captures to be split, each into so many parts."""
    for count, file in enumerate(sorted((TOP / "examples").glob("*.pcap")), 1):
        if file.stat().st_size <= LARGE:
            yield file.stem, file.read_bytes(), count
    for seed, order in enumerate("<><>"):
        magic, link = split_test.MAGICS[order][seed // 2], (1, 101)[seed % 2]
        whole = split_test.Traffic(seed).capture(order, magic, link, 25)[:6000]
        for cut in (len(whole), len(whole) - 1, 24, 41):
            yield f"random {seed} cut at {cut}", whole[:cut], seed + 2


def parts_in(numbers: list[bytes]) -> list[list[int]]:
    """The record numbers of parts, by what they hold of them."""
    return [[int.from_bytes(part[at : at + 8], "big") for at in range(0, len(part), 8)] for part in numbers]


def split_faults(reader: Reader) -> list[str]:
    """What is wrong with the parts that the definitions make, and with those of the model."""
    wrong = []
    for name, packets, count, wanted in SPLITS:
        capture = split_row(packets)
        for maker, made in (
            ("definitions", [part.numbers for part in reader.split(capture, count)]),
            ("model", [numbers for _, numbers in parts_of(capture, count)]),
        ):
            if parts_in(made) != wanted:
                wrong.append(f"{name}: the {maker} say {parts_in(made)}, and it should be {wanted}")
    for name, capture, count in split_captures():
        parts = reader.split(capture, count)
        if any(part.is_full for part in parts) or [part[:2] for part in parts] != parts_of(capture, count):
            wrong.append(f"{name}: the definitions make other parts than the model")
    return wrong


def sees_split(reader: Reader) -> bool:
    """Whether the reader makes other parts of some capture."""
    return bool(split_faults(reader))


def misled(number: int, jobs: list[Job]) -> str:
    """What is wrong with the answers where the search is misled: all that this touches should not be shown."""
    name, spoil = SPOILED[number]
    plain = getattr(search, name)
    setattr(search, name, lambda *arguments: spoil(plain(*arguments)))
    try:
        reader = Reader()
        said = [answer(reader, job.capture, job.frames_shown) for job in jobs]
    finally:
        setattr(search, name, plain)
    wrong = [job.name for job, text in zip(jobs, said) if text != job.wanted and not text.startswith("not shown: ")]
    if wrong or not any(text.startswith("not shown: ") for text in said):
        return f"{name} of the search: a wrong witness passes: {wrong}\n"
    return ""


def as_known() -> bool:
    """Whether reports are those that are known, and changes and wrong witnesses are seen."""
    known = [*examples(), *rows()]
    wrong, _ = compared(known, None)
    small = [job for job in known if len(job.capture) <= 1300]
    faults = in_parallel(changed, CHANGES, partial(sees, jobs=small))
    faults += in_parallel(changed, SPLIT_CHANGES, sees_split) + in_parallel(misled, range(len(SPOILED)), small[::4])
    print("".join(faults), end="")
    changes = len(CHANGES) + len(SPLIT_CHANGES)
    print(f"{changes} changed definitions, {len(SPOILED)} wrong witnesses: {sum(map(bool, faults))} not seen")
    split_wrong = deeply(lambda: split_faults(Reader()))
    counts = f"{len(SPLITS)} rows and {len([*split_captures()])} captures split"
    print(*split_wrong, f"{counts}: {len(split_wrong)} wrong", sep="\n")
    return not wrong and not any(faults) and not split_wrong


def as_program(program: str, seed: int, kind: str | None) -> bool:
    """Whether reports of random captures are the program's; in those of connections each kind of finding occurs."""
    print(f"seed {seed}")
    wrong, text = compared(list(randoms(seed, [kind] if kind else list(RANDOM))), program)
    kinds = set(re.findall(r"^frame .* (?:client|server) (\S+) stream", text, re.M))
    print(f"{len(kinds)} of {KINDS} kinds of findings occur")
    return not wrong and (len(kinds) == KINDS or kind == "captures")


def main() -> int:
    parser = argparse.ArgumentParser(description=__doc__, formatter_class=argparse.RawDescriptionHelpFormatter)
    parser.add_argument("--seed", type=int, default=1)
    parser.add_argument("program", nargs="?")
    parser.add_argument("kind", nargs="?", choices=RANDOM)
    options = parser.parse_args()
    if options.program:
        return not as_program(str(pathlib.Path(options.program).resolve()), options.seed, options.kind)
    return not as_known()


if __name__ == "__main__":
    sys.exit(main())
