"""Compares what is said of connections that are cut with what is true of them by the whole capture, and counts."""

from collections import defaultdict

from tools.tests.joined_cuts import ACK, MODULO, RST, SIDES, SYN, Joined, Known, Said, Segment, Whole, joined
from tools.tests.report_lines import Stall


def first_numbers(segments: list[Segment], one: Known) -> list[int | None]:
    """The first sequence number that was seen of each side."""
    found: list[int | None] = [None, None]
    for segment in segments:
        side = {(one.client, one.server): 0, (one.server, one.client): 1}.get(segment.ends)
        if side is not None and found[side] is None and not segment.flags & RST:
            found[side] = (segment.sequence + bool(segment.flags & SYN)) % MODULO
    return found


Key = tuple[str, int, int, int | None]  # side, stream, begin and duration of a stall


def divided_in(segments: list[Segment], one: Known) -> list[int | None]:
    """The packet that ends the frame of each side that the cut divides, where it divides one."""
    found: list[int | None] = [None, None]
    for side, first in enumerate(first_numbers(segments, one)):
        if first is not None:
            ends = ((frame.sequence + 9 + frame.length - first) % MODULO for frame in one.frames if frame.side == side)
            begins = ((frame.sequence - first) % MODULO for frame in one.frames if frame.side == side)
            packets = (frame.packet for frame in one.frames if frame.side == side)
            cut = [packet for begin, end, packet in zip(begins, ends, packets) if end < MODULO // 2 <= begin and end]
            found[side] = cut[0] if cut else None
    return found


class Tally:
    """What came of all cuts."""

    def __init__(self) -> None:
        self.counts: dict[str, int] = defaultdict(int)
        self.by_grade: dict[str, list[int]] = defaultdict(lambda: [0, 0])  # true, false
        self.notes: list[str] = []

    def add(self, name: str, count: int = 1) -> None:
        self.counts[name] += count

    def cut(self, name: str, whole: Whole, at: int, program: str) -> None:
        """Joins what is left behind a cut, and compares each connection that began before it."""
        made = joined(program, whole.packets[at:])
        segments = whole.segments[at:]
        said = {frozenset((one.client, one.server)): one for one in made.said}
        for ends, one in whole.connections.items():
            if not any(frame.packet >= at for frame in one.frames):
                continue
            opening = next((number for number, segment in enumerate(whole.segments)
                            if segment.flags & (SYN | ACK) == SYN and segment.ends == ends), 0)  # fmt: skip
            if opening >= at:
                continue
            self.add("connections")
            found = said.get(frozenset(ends))
            place = f"{name} cut {at} {ends[0]}"
            if found is None:
                self.add("not joined")
                self.notes.append(f"{place}: not joined")
            elif found.how != "inferred":
                self.add("exact")
            else:
                self.compare(place, one, found, made, segments, at)

    def compare(self, place: str, one: Known, found: Said, made: Joined, segments: list[Segment], at: int) -> None:
        is_right = (found.client, found.server) == (one.client, one.server)
        self.add("sides right" if is_right else "sides wrong")
        self.add(f"sides by {found.sides}")
        if not is_right:
            self.notes.append(f"{place}: sides wrong by {found.sides}")
            return
        self.compare_borders(place, one, found, segments)
        audit = made.known.get((one.client, one.server))
        if audit is None:
            self.notes.append(f"{place}: not audited")
            self.add("not audited")
            return
        self.compare_stalls(place, one, found, audit, made, at, divided_in(segments, one))
        faults = {(fault.time, fault.side, fault.kind, fault.stream) for fault in one.faults}
        for fault in audit.faults:
            if fault.frame > found.made and (fault.time, fault.side, fault.kind, fault.stream) not in faults:
                self.add("false faults")
                self.notes.append(f"{place}: false {fault.kind} of {fault.side} stream {fault.stream}")

    def compare_borders(self, place: str, one: Known, found: Said, segments: list[Segment]) -> None:
        for side, first in enumerate(first_numbers(segments[found.first :], one)):
            if first is None:
                continue
            border = found.borders[side]
            later = [(number - first) % MODULO for number in one.borders(side)]
            later = [offset for offset in later if offset < MODULO // 2]
            if not later:
                if border:
                    self.add("borders wrong")
                    self.notes.append(f"{place}: {SIDES[side]} has a border and no frame")
                continue
            if border and border[0] == min(later):
                self.add("borders right")
            else:
                self.add("borders wrong")
                self.notes.append(f"{place}: border of {SIDES[side]} is {border}, not {min(later)}")

    def compare_stalls(
        self, place: str, one: Known, found: Said, audit: Known, made: Joined, at: int, divided: list[int | None]
    ) -> None:
        true = {
            (stall.side, stall.stream, time, stall.nanos): stall
            for stall, packet, time, _ in one.stalls
            if packet >= at
        }
        # By window and the packet of their ends, those that go on since before the cut, or the frame that it divides.
        going_on = {
            (stall.side, stall.stream, end): (stall.side, stall.stream, time, stall.nanos)
            for stall, packet, time, end in one.stalls
            if at <= (end or 0) and (packet < at or packet == divided[SIDES.index(stall.side)])
        }
        said = set()
        for stall, _, time, end in audit.stalls:
            grade, key = grade_of(found, stall), (stall.side, stall.stream, time, stall.nanos)
            if stall.begin > found.made:
                said.add(key)
                is_true = key in true
                is_of_two = any((side, begin) == (stall.side, time) for side, _, begin, _ in true)
            else:
                packet = made.packets[end] + at if end in made.packets and end is not None else None
                is_true = (stall.side, stall.stream, packet) in going_on
                is_of_two = any((side, last) == (stall.side, packet) for side, _, last in going_on)
                said.update([going_on[stall.side, stall.stream, packet]] if is_true and packet else [])
                self.by_grade[f"begun before: {grade}"][not is_true] += 1
            self.by_grade[grade][not is_true] += 1
            if grade == "either":
                self.by_grade["either, of two windows"][not (is_true or is_of_two)] += 1
            if not is_true:
                self.notes.append(f"{place}: false stall {grade} of {stall.side} stream {stall.stream} {stall.nanos}"
                                  f"{' since before' * (stall.begin <= found.made)}")  # fmt: skip
        self.found_and_missed(place, found, true, said)
        self.add("begun before", len(going_on))

    def found_and_missed(self, place: str, found: Said, true: dict[Key, Stall], said: set[Key]) -> None:
        wanted = {key: stall for key, stall in true.items() if stall.nanos is not None}
        long = {key: stall for key, stall in wanted.items() if (stall.nanos or 0) >= 10**6}
        for key, stall in long.items():
            if key not in said:
                self.notes.append(f"{place}: missed {grade_of(found, stall)} of {stall.side} stream {stall.stream}")
        for name, some in (("stalls", wanted), ("stalls of 1 ms", long),
                           ("stalls without an end", true.keys() - wanted.keys())):  # fmt: skip
            self.add(name, len(some))
            self.add(f"{name} found", sum(key in said for key in some))

    def lines(self) -> list[str]:
        found = [f"{name:37} {count:7}" for name, count in sorted(self.counts.items())]
        for grade, (true, false) in sorted(self.by_grade.items()):
            found.append(f"stalls {grade:30} {true:7} true {false:5} false {share(true, true + false):6.1%}")
        return found


def share(part: int, whole: int) -> float:
    return part / whole if whole else 1.0


def grade_of(found: Said, stall: Stall) -> str:
    windows = ["connection"] if stall.stream == 0 else [f"stream {stall.stream}", "initial"]
    return next(
        (found.grades[stall.side, window] for window in windows if (stall.side, window) in found.grades), "certain"
    )
