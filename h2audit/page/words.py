"""What the page says in words: how much there was, what came of it, and what to doubt."""

import re
from collections import Counter
from dataclasses import dataclass
from datetime import datetime, timezone

from h2audit.page.model import Audit, ChartedConnection, Opening
from h2audit.report.charts import Note
from h2audit.report.words import count, duration, streams_named, were

MOST_STALLS = 10
MOST_NAMED = 8


def one_of(text: str) -> str:
    """One of several connections, in the words that tell of all of them."""
    return re.sub(r"^[\d,]+ connections?", "one", text)


def counts(audit: Audit) -> str:
    """How much there was."""
    capture, connections = audit.capture, audit.connections
    http2 = [one for one in connections if one.opening.form == "http2"]
    frames = sum(one.opening.frames for one in http2)
    said = (
        f"{count(capture.records, 'packet')}, {capture.segments:,} of them TCP segments; "
        f"{count(len(connections), 'connection')}, {len(http2):,} of them audited, with {count(frames, 'frame')}"
    )
    faults, doubtful = sum(len(one.faults) for one in http2), sum(one.doubtful for one in http2)
    stalls = sum(len(one.waiting) for one in http2)
    return f"{said}; {faults_words(faults, doubtful)}, {count(stalls, 'stall')}."


def faults_words(faults: int, doubtful: int) -> str:
    """How many there are, and how many of them can be doubted."""
    if faults and faults == doubtful:
        return count(faults, "doubtful fault")
    return count(faults, "fault") + f" ({doubtful:,} of them doubtful)" * bool(doubtful)


def doubts(audit: Audit) -> list[str]:
    """What the capture lacks, and what it means for the findings."""
    capture = audit.capture
    gaps = sum(1 for one in audit.connections if any(flow.gap is not None for flow in one.flows))
    lacks = [
        (
            gaps,
            f"In {count(gaps, 'connection')} bytes are missing (a gap). What is found behind it may not have happened.",
        ),
        (capture.snapped, f"{count(capture.snapped, 'segment')} kept fewer bytes than the packet had (snapped)."),
        (capture.refused, f"{count(capture.refused, 'packet')} could not be read (refused)."),
        (capture.fragments, f"{count(capture.fragments, 'IP fragment')} {were(capture.fragments)} passed over."),
        (
            capture.not_ipv4,
            f"{count(capture.not_ipv4, 'packet')} of other network protocols {were(capture.not_ipv4)} passed over.",
        ),
        (
            audit.unopened,
            f"{count(audit.unopened, 'pair')} of endpoints had {count(audit.unopened_segments, 'segment')} "
            "of connections that began before the capture, which are not audited.",
        ),
        (audit.cut, f"The capture ends within record {audit.cut}."),
    ]
    return [said for number, said in lacks if number]


@dataclass(frozen=True)
class Breach:
    """Who broke which rule, or may have, how often, in how many connections, and where first."""

    side: str
    kind: str
    section: str
    times: int
    connections: int
    peer: str
    is_doubtful: bool
    first: tuple[ChartedConnection, Note]

    @property
    def doubt(self) -> str:
        """Why the first of them can be doubted."""
        connection, note = self.first
        fault = connection.fault(note)
        return str(fault["doubt"] or "") if fault else ""


Rule = tuple[str, str, str, str, bool]


def breaches(audit: Audit) -> list[Breach]:
    """Which peer broke which rule, those that are certain first, and then the most frequent."""
    times: Counter[Rule] = Counter()
    connections: Counter[Rule] = Counter()
    first: dict[Rule, tuple[ChartedConnection, Note]] = {}
    for one in audit.connections:
        keys = [breach_of(one, note) for note in one.faults]
        times.update(keys)
        connections.update(set(keys))
        for key, note in zip(keys, one.faults):
            first.setdefault(key, (one, note))
    found = [Breach(*key[:3], number, connections[key], *key[3:], first[key]) for key, number in times.most_common()]
    return sorted(found, key=lambda one: one.is_doubtful)


def breach_of(one: ChartedConnection, note: Note) -> Rule:
    side = note.finding.broke or ""
    return side, note.finding.kind, note.finding.section, peer(one.opening, side), one.is_doubtful(note)


def peer(opening: Opening, side: str) -> str:
    """A server by its endpoint, and a client by its address, since its port is another one each time."""
    return opening.server if side == "server" else opening.client.rpartition(":")[0]


Together = tuple[ChartedConnection, list[Note]]


def longest_stalls(audit: Audit) -> list[Together]:
    """The longest, those together that began in the same instant of one connection."""
    found: dict[tuple[int, str, int], Together] = {}
    for one in audit.connections:
        for stall in one.waiting:
            key = one.opening.number, stall.finding.side, stall.finding.time
            found.setdefault(key, (one, []))[1].append(stall)
    for one, stalls in found.values():
        stalls.sort(key=lambda stall: -one.wait(stall))
    return sorted(found.values(), key=lambda pair: -pair[0].wait(pair[1][0]))[:MOST_STALLS]


def waited(connection: ChartedConnection, stall: Note) -> str:
    nanos = connection.wait(stall)
    if stall.waited is not None:
        return duration(nanos)
    until = "the connection's end" if connection.is_captured else "the last finding"
    return f"{duration(nanos)} up to {until}, and no end was seen" if nanos else "no end was seen"


def windows_named(stalls: list[Note]) -> str:
    """The windows of stalls that began together."""
    streams = sorted(stall.finding.stream for stall in stalls)
    said = ["the whole connection"] * (streams[0] == 0)
    streams = [stream for stream in streams if stream]
    return " and ".join(said + [streams_named(streams)] * bool(streams))


def endpoint(opening: Opening, side: str) -> str:
    return opening.client if side == "client" else opening.server


def verdict(audit: Audit, one: ChartedConnection) -> str:
    """How the audit of a connection ended."""
    if one.unaudited:
        return f"not audited: {one_of(audit.why_not[one.unaudited])}"
    said = [faults_words(len(one.faults), one.doubtful) if one.faults else "no fault"]
    if one.waiting:
        said.append(count(len(one.waiting), "stall"))
    if one.stopped_at is not None:
        said.append(f"broken by frame {one.stopped_at:,}, after which nothing is judged")
    if any(flow.gap is not None for flow in one.flows):
        said.append("bytes are missing")
    return "; ".join(said)


def flow_words(one: ChartedConnection) -> list[str]:
    return [
        f"The {flow.side} sent {count(flow.bytes, 'byte')} that {were(flow.bytes)} captured without a hole"
        + (f"; bytes are missing from offset {flow.gap:,} on" if flow.gap is not None else "")
        + (
            f"; the last {count(flow.tail, 'byte')} {'is' if flow.tail == 1 else 'are'} no whole frame"
            * bool(flow.tail)
        )
        + "."
        for flow in one.flows
    ]


def clock(nanos: int) -> str:
    """A capture's time in words: to the nanosecond, in UTC."""
    whole, rest = divmod(nanos, 10**9)
    return f"{datetime.fromtimestamp(whole, timezone.utc):%Y-%m-%d %H:%M:%S}.{rest:09} UTC"
