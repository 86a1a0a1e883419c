"""The answer at a glance: one sentence, what limits it, and whom to ask."""

from collections import defaultdict
from typing import NamedTuple

from h2audit.page.answer import ended, first_of
from h2audit.page.model import Audit, ChartedConnection
from h2audit.page.words import MOST_NAMED, breaches, doubts
from h2audit.report.answer_types import Asked
from h2audit.report.words import OTHER_SIDE, count, time_of

KINDS = {
    "stream-window": "its window of a stream",
    "connection-window": "its window of the connection",
    "tcp": "TCP",
    "application": "its application",
    "path": "what all its streams need of it",
}
WHY = {
    "granted-nothing": "no grant came",
    "granted-late": "it granted late",
    "grant-lost": "a grant was lost",
    "round-trip": "it is too small for the round trip",
    "cancelled-streams": "cancelled streams had used it up",
    "zero-window": "the TCP window was used up",
    "resent": "bytes were sent again",
    "hole": "bytes came out of order",
    "nagle": "a small piece waited for an acknowledgement",
    "within-frame": "the rest of a frame came slowly",
    "before": "it took long to begin",
    "between": "it sent nothing, with credit left",
}


def headline(audit: Audit) -> str:
    """One sentence or two, as h2audit-why says it; of a report what it holds."""
    if audit.answer:
        return audit.answer.headline
    if all(one.unaudited for one in audit.connections):
        return "Nothing was audited, so nothing is said of flow control."
    return f"{broken(audit)} {held_back(audit)}"


def broken(audit: Audit) -> str:
    rules: dict[tuple[str, str, str], int] = defaultdict(int)
    for one in breaches(audit):
        rules[one.side, one.section, one.kind] += one.times
    if not rules:
        return "No rule was broken" + " in what was audited" * is_partial(audit) + "."
    said = []
    for (side, section, kind), times in sorted(rules.items(), key=lambda rule: -rule[1])[:3]:
        where = f"RFC 9113, {section}" if section else "a rule"
        said.append(f"the {side} broke {where} ({kind})" + f" {times:,} times" * (times > 1))
    more = len(rules) - len(said)
    text = "; ".join(said) + f"; and {count(more, 'rule')} more" * (more > 0) + "."
    return text[0].upper() + text[1:]


def is_partial(audit: Audit) -> bool:
    """Whether something was not audited, so that a clean answer is one of a part."""
    return bool(audit.unopened or audit.cut or audit.capture.refused or audit.capture.not_ipv4) or any(
        one.unaudited or any(flow.gap is not None for flow in one.flows) for one in audit.connections
    )


def held_back(audit: Audit) -> str:
    if not any(one.stalls for one in audit.connections):
        return "No side used up its credit."
    if not any(one.waiting for one in audit.connections):
        return "Where a side used up its credit, it had more in the same instant."
    first = asked(audit)[0]
    where = f"in {count(first.connections, 'connection')}"
    if not first.nanos:
        return f"The {first.side}, {first.peer}, gave no credit up to the end of what was found, {where}."
    other, nanos = OTHER_SIDE[first.side], time_of(first.nanos)
    return f"The {first.side}, {first.peer}, held back the {other} for {nanos}, {where}."


def limits(audit: Audit) -> list[str]:
    """What limits the answer."""
    return (audit.answer.limits if audit.answer else doubts(audit)) + not_audited(audit)


def not_audited(audit: Audit) -> list[str]:
    """What was not audited, by reason: connections are named, and packets counted."""
    named: dict[str, list[ChartedConnection]] = defaultdict(list)
    for one in audit.connections:
        if one.unaudited:
            named[one.unaudited].append(one)
    said = [
        f"Not audited: {text}" + (f": {names(named[why])}" if why in named else "")
        for why, text in audit.why_not.items()
    ]
    return [ended(text) for text in first_of(said, "reason")]


def names(connections: list[ChartedConnection]) -> str:
    said = [
        f"connection {one.opening.number} ({one.opening.client} to {one.opening.server})"
        for one in connections[:MOST_NAMED]
    ]
    more = len(connections) - len(said)
    return ", ".join(said) + f", and {more:,} more" * (more > 0)


class AskedPeer(NamedTuple):
    """One peer and one cause: how often it held back another, and for how long."""

    side: str
    peer: str
    why: str
    times: int
    connections: int
    longest: int
    # The time of all, in which the same instant of a connection counts once.
    nanos: int


def asked(audit: Audit) -> list[AskedPeer]:
    """Whom to ask and why, what took longest first: of a capture about requests, of a report about stalls."""
    return [
        AskedPeer(one["side"] or "", one["peer"] or "nobody: the path between them", why_of(audit, one), one["times"],
                  one["connections"], one["longest"], one["nanos"]) for one in audit.asked
    ]  # fmt: skip


def why_of(audit: Audit, one: Asked) -> str:
    if audit.answer:
        return KINDS[one["kind"]] + (f": {WHY[one['why']]}" if one["why"] else "")
    return KINDS[one["kind"]] + ": no grant was seen" * (one["why"] is not None)
