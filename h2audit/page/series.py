"""The points of a window's chart, and how a long one is thinned: stalls, faults and extremes stay."""

from bisect import bisect_left
from dataclasses import dataclass

from h2audit.page.model import ChartedWindow
from h2audit.report.charts import Note

# A fault's kind, and whether it can be doubted.
Kind = tuple[str, bool]


@dataclass(slots=True)
class Series:
    """Points by frame, time and credit, and what is marked at them."""

    frames: list[int]
    times: list[int]
    credits: list[int]
    # The two points of each shade, of which an open stall has no second, and how many stalls it stands for.
    stalls: list[tuple[int, int | None, int]]
    # The point of each cross, the kind and value of its first fault, and how many faults of the kind it stands for.
    faults: list[tuple[int, Kind, int, int]]
    # How often the credit changed.
    whole: int

    @property
    def stood_for(self) -> list[int]:
        """For how many stalls each shade stands, and for how many faults each cross."""
        return [number for _, _, number in self.stalls] + [number for _, _, _, number in self.faults]

    @property
    def marked(self) -> int:
        """How many stalls and faults the shades and crosses stand for."""
        return sum(self.stood_for)

    @property
    def merged(self) -> int:
        """How many of them share a shade or a cross with others."""
        return sum(number for number in self.stood_for if number > 1)


def series_of(window: ChartedWindow) -> Series:
    """The points of a window that is shown, among them where its findings stand."""

    def place(note: Note) -> int:
        return min(bisect_left(window.frames, note.finding.frame), len(window.frames) - 1)

    stalls = [(place(stall), place(stall.other) if stall.other else None, 1) for stall in window.stalls]
    faults = [(place(note), kind_of(window, note), note.finding.value or 0, 1) for note in window.faults]
    return Series(window.frames, window.times, window.credits, stalls, faults, window.changes)


def kind_of(window: ChartedWindow, note: Note) -> Kind:
    return note.finding.kind, window.connection.is_doubtful(note)


def thinned(whole: Series, most: int, most_marks: int) -> Series:
    """At most some `most` points, besides those of marks: of each stretch of points the least and the greatest."""
    if len(whole.frames) <= most and len(whole.stalls) + len(whole.faults) <= most_marks:
        return whole
    stalls, faults = joined(whole, most_marks), one_in_each(whole, most_marks)
    kept = extremes(whole.credits, most)
    kept.update(at for stall in stalls for at in stall[:2] if at is not None)
    kept.update(fault[0] for fault in faults)
    order = sorted(kept)
    new = {at: place for place, at in enumerate(order)}
    return Series(
        [whole.frames[at] for at in order],
        [whole.times[at] for at in order],
        [whole.credits[at] for at in order],
        [(new[begin], None if end is None else new[end], number) for begin, end, number in stalls],
        [(new[at], kind, value, number) for at, kind, value, number in faults],
        whole.whole,
    )


def extremes(credits: list[int], most: int) -> set[int]:
    """The first and the last point, and of each of most/2 stretches the least and the greatest."""
    length = max(2, -(-2 * len(credits) // max(most, 2)))
    kept = {0, len(credits) - 1}
    for begin in range(0, len(credits), length):
        stretch = credits[begin : begin + length]
        kept.update((begin + stretch.index(min(stretch)), begin + stretch.index(max(stretch))))
    return kept


def joined(whole: Series, most: int) -> list[tuple[int, int | None, int]]:
    """The stalls; where there are more than `most`, those that are nearest together share one shade."""
    if len(whole.stalls) <= most:
        return whole.stalls
    gaps = sorted(
        whole.frames[after[0]] - whole.frames[before[1] or before[0]]
        for before, after in zip(whole.stalls, whole.stalls[1:])
    )
    widest = gaps[len(whole.stalls) - most - 1]
    shades = [whole.stalls[0]]
    for begin, end, number in whole.stalls[1:]:
        first, last, before = shades[-1]
        if whole.frames[begin] - whole.frames[last or first] <= widest:
            shades[-1] = first, end, before + number
        else:
            shades.append((begin, end, number))
    return shades


def one_in_each(whole: Series, most: int) -> list[tuple[int, Kind, int, int]]:
    """The faults; where there are more than `most`, the first of each stretch and of each kind, for all of these."""
    if len(whole.faults) <= most:
        return whole.faults
    length = -(-len(whole.faults) // most)
    kept: list[tuple[int, Kind, int, int]] = []
    for begin in range(0, len(whole.faults), length):
        first: dict[Kind, tuple[int, Kind, int, int]] = {}
        for at, kind, value, number in whole.faults[begin : begin + length]:
            at, _, value, before = first.get(kind, (at, kind, value, 0))
            first[kind] = at, kind, value, before + number
        kept += first.values()
    return kept
