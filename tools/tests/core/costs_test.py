"""Counts what audits cost, beside the figures of costs.tsv: python3 -m tools.tests.core.costs_test PROGRAM [WORDS]

Of each capture of cost_captures.py, without credit lines and with them, these figures: the instructions of a run with
one worker; the most memory that is allocated at once with one worker and with several, in bytes; the threads that
several start, their instructions, their span, and the greatest share of one thread (counting.py). Several are four, but
of one capture sixteen. No contract speaks of these, so a body that takes many times the time or the memory, or that
leaves to one worker what several were to share, would pass all proofs.

A figure may differ from the stored one by no more than MARGINS says, to either side: less is a change too, and is to be
stored, so that the next one is seen. --write stores the figures of this program in place of the old ones. The random
bytes that tables are keyed with are the same in each run here, reads wait for threads that were started before, there
seem to be four processors (count.c), and threads take turns where instructions are counted (turns.c), so that a figure
hardly depends on the machine. Where the threads' turns decide between two, as of the memory of several for chatty with
--frames, the middle of these is stored.

Beside that one worker starts no thread, each thread that is started is waited for, all memory is freed but what the C
library keeps of ended threads, and a small stack is enough: what nests as deep as a capture is long would end the
program.

--growth one takes captures of four times the size, and looks how far the instructions and the memory have grown from
the stored figures, by no more than MOST_GROWTH, as SECURITY.md says; --growth several does so with the instructions and
the span of several.
"""

import concurrent.futures
import os
import pathlib
import sys
import tempfile
from collections.abc import Callable

from tools.tests import cost_captures
from tools.tests.core.counting import KEY, Counter, Counts
from tools.tests.cost_captures import Case

RUNS = ("$PROVED", "$PROVED --growth one", "$PROVED --growth several")
STORED = pathlib.Path(__file__).with_name("costs.tsv")
FIGURES = (
    "instructions",
    "memory of one worker",
    "memory of several",
    "threads of several",
    "instructions of several",
    "span of several",
    "greatest share",
)
# By how much of the stored one a figure may differ, and by how much it may differ from run to run. Of twenty runs, on
# one to four processors with other work, instructions of one worker differed by 30 at most, the memory of one worker
# and the threads not at all, and the memory of several by 6 %; the instructions of several by 0.3 %, their span by 4 %,
# and the greatest share by 23 %.
MARGINS = (0.02, 0.02, 0.1, 0.0, 0.02, 0.15, 0.4)
NOISE = (0.001, 0.001, 0.06, 0.0, 0.004, 0.04, 0.25)
# Where a figure differs by more: the threads' turns decide how many lists and pages are full at once, by a quarter.
WIDER = {("live --frames", "memory of several"): 0.3, ("chatty --frames", "memory of several"): 0.3}
STACK, LEFT = 512 << 10, 64 << 10
# No figure of a capture of four times the size is more than so many times as large. With these captures the cost grows
# with the square of the size (bench/README.md): of them a fourth is taken, not four times the size.
MOST_GROWTH = 4.6
SQUARE, MOST_OF_SQUARE = {"one": ("live --frames",), "several": ("live", "live --frames")}, 18.4
# Here it grew to 5.38 and 5.42 times: of what overlaps so little work is left that the steps of its tree show. Sixteen
# times the size takes 18 times the time.
STEEPER = {("overlapping", "instructions"): 5.6, ("overlapping", "instructions of several"): 5.6}
# What several workers may take of any capture, since they fill pages.
FIXED_MEMORY = 6 << 20
# Which figures of costs.tsv are looked at together, as they grow: those of one worker, and those of several.
GROWING = {"one": (0, 1, 2), "several": (4, 5)}

Figures = tuple[int, ...]
# The figures of cases by title, and what went wrong with others, a line each.
Counted = tuple[dict[str, Figures], list[str]]
Count = Callable[[Counter, Case, pathlib.Path], Figures]
# How many quarters of a case's capture are counted, and what is wrong with its figures, a line each.
Quarters = Callable[[Case], int]
Judge = Callable[[Case, Figures], list[str]]


def counts_of(counter: Counter, words: list[str]) -> Counts:
    """What a run counts that ends as it should."""
    ran = counter.run(words, MOST_STACK=STACK, KEY=KEY, SETTLE=1)
    if ran.status not in (0, 1) or ran.said:
        raise ValueError(f"{words[0]}: ends with status {ran.status} and says {ran.said.decode()!r}")
    if ran.counts.joined < ran.counts.started:
        raise ValueError(f"{words[0]}: of {ran.counts.started} threads {ran.counts.joined} are waited for")
    if ran.counts.alive > LEFT:
        raise ValueError(f"{words[0]}: {ran.counts.alive} bytes are still allocated at the end")
    return ran.counts


def words_of(case: Case, path: pathlib.Path, workers: int) -> list[str]:
    return [f"--workers={workers}", *case.words, str(path)]


def memory_of(counter: Counter, case: Case, path: pathlib.Path) -> Figures:
    """The memory of one worker and of several, and the threads of several."""
    alone, shared = (counts_of(counter, words_of(case, path, workers)) for workers in (1, case.workers))
    if alone.started:
        raise ValueError(f"one worker starts {alone.started} threads")
    return alone.peak, shared.peak, shared.started


def alone_of(counter: Counter, case: Case, path: pathlib.Path) -> Figures:
    """The figures that count most with one worker: the first four."""
    return counter.instructions(words_of(case, path, 1)), *memory_of(counter, case, path)


def shared_of(counter: Counter, case: Case, path: pathlib.Path) -> Figures:
    """The figures of the work of several: the last three."""
    return counter.work(words_of(case, path, case.workers), case.workers)


def figures_of(counter: Counter, case: Case, path: pathlib.Path) -> Figures:
    return *alone_of(counter, case, path), *shared_of(counter, case, path)


def stored() -> dict[str, Figures]:
    """The figures that stand in costs.tsv, by case."""
    if not STORED.exists():
        return {}
    rows = [line.split("\t") for line in STORED.read_text().splitlines()[1:]]
    return {name: tuple(int(figure) for figure in figures) for name, *figures in rows}


def store(found: dict[str, Figures]) -> None:
    """Stores figures anew. One that hardly moved stays, so that a commit shows what changed."""
    rows: list[tuple[str, ...]] = [("capture", *FIGURES)]
    before = stored()
    for name, figures in found.items():
        was = (*before.get(name, ()), *figures[len(before.get(name, ())) :])
        kept = (old if abs(now - old) <= noise * old else now for old, now, noise in zip(was, figures, NOISE))
        rows.append((name, *map(str, kept)))
    STORED.write_text("".join("\t".join(row) + "\n" for row in rows))


def differences(name: str, seen: Figures, wanted: dict[str, Figures]) -> list[str]:
    """The figures that are outside their margins, a line each."""
    if name not in wanted:
        return [f"{name}: no figure is stored"]
    said = []
    for figure, usual, was, now in zip(FIGURES, MARGINS, wanted[name], seen):
        margin = WIDER.get((name, figure), usual)
        if abs(now - was) > margin * was:
            times = f"{now / max(was, 1):.3f} times as much; margin {margin:.0%}"
            said.append(f"{name}: {figure}: stored {was:,}, seen {now:,}, {times}")
    return said


def growths(case: Case, counted: dict[int, int], before: Figures, is_square: bool) -> list[str]:
    """The figures that grow by too much from the stored ones, or up to these, a line each."""
    said = []
    for at, now in counted.items():
        small, large = (now, before[at]) if is_square else (before[at], now)
        most = MOST_OF_SQUARE if is_square else STEEPER.get((case.title, FIGURES[at]), MOST_GROWTH)
        if large > most * max(small, FIXED_MEMORY if FIGURES[at] == "memory of several" else 1):
            growth = f"{large:,} from {small:,}, {large / max(small, 1):.2f} times as much; most {most}"
            said.append(f"{case.title}: {FIGURES[at]}: {growth}")
    return said


def count_all(program: str, count: Count, cases: list[Case], quarters: Quarters) -> Counted:
    """What is counted of each case, of a capture of so many quarters, and what went wrong with others."""
    found, wrong = {}, []
    with tempfile.TemporaryDirectory() as folder:
        counter = Counter(program, folder, most_seconds=300)

        def counted(case: Case) -> Figures:
            path = pathlib.Path(folder, case.title)
            cost_captures.write(case.name, path, quarters(case))
            figures = count(counter, case, path)
            path.unlink()
            return figures

        with concurrent.futures.ThreadPoolExecutor(len(os.sched_getaffinity(0))) as pool:
            started = [(case.title, pool.submit(counted, case)) for case in cases]
            for title, ended in started:
                try:
                    found[title] = ended.result()
                except Exception as error:
                    wrong.append(f"{title}: {error}")
    return found, wrong


def judged(program: str, count: Count, quarters: Quarters, judge: Judge) -> list[str]:
    """What is wrong with the figures of the cases, a line each.

    A case with wrong figures is counted once more, and the second count decides: one run in some hundreds gives a
    thread far more turns than all others do (loud_connections: a share of 385 where 251 to 277 is usual).
    """
    found, failed = count_all(program, count, cost_captures.cases(), quarters)
    odd = [case for case in cost_captures.cases() if case.title in found and judge(case, found[case.title])]
    again, failed_again = count_all(program, count, odd, quarters)
    wrong = [line for case in odd if case.title in again for line in judge(case, again[case.title])]
    return failed + failed_again + wrong


def compare(program: str, writes: bool) -> list[str]:
    """Which figures differ from the stored ones, a line each."""
    if writes:
        found, wrong = count_all(program, figures_of, cost_captures.cases(), lambda case: 4)
        if not wrong:
            store(found)
        return wrong
    wanted = stored()
    wrong = judged(program, figures_of, lambda case: 4, lambda case, seen: differences(case.title, seen, wanted))
    titles = [case.title for case in cost_captures.cases()]
    return wrong + [f"{title}: there is no such capture" for title in wanted if title not in titles]


def grow(program: str, workers: str) -> list[str]:
    """Which figures grow by too much, a line each."""
    before, count = stored(), alone_of if workers == "one" else shared_of

    def is_square(case: Case) -> bool:
        return case.title in SQUARE[workers]

    def judge(case: Case, seen: Figures) -> list[str]:
        return growths(case, dict(zip(GROWING[workers], seen)), before[case.title], is_square(case))

    return judged(program, count, lambda case: 1 if is_square(case) else 16, judge)


def main(program: str, *words: str) -> None:
    program = os.path.abspath(program)
    if words[:1] == ("--growth",):
        wrong, well, ill = grow(program, words[1]), "no figure grows by too much", "costs grow by too much"
    else:
        wrong, well = compare(program, words == ("--write",)), "all figures within their margins"
        ill = "figures that are as they should be are stored by --write"
    print("\n".join(wrong) if wrong else f"{len(cost_captures.cases())} captures: {well}")
    if wrong:
        sys.exit(f"costs_test: {ill}")


if __name__ == "__main__":
    main(*sys.argv[1:] or sys.exit(__doc__))
