"""What the page says of one finding: what happened, how long its stall took, who is to blame, and when it was."""

from h2audit.page.answer import ended
from h2audit.page.model import ChartedConnection
from h2audit.page.words import clock, waited
from h2audit.report.charts import Finding, Note
from h2audit.report.words import OTHER_SIDE, duration


def sentence(one: ChartedConnection, note: Note) -> str:
    said = f"{note.finding.text}{other_end(one, note)} ({note.finding.kind}); {blame(note)}"
    fault = one.fault(note)
    if fault is None:
        return said
    said += f"; its window: {fault['set_by_text']}" * bool(fault["set_by_text"])
    return f"Doubtful: {said}. {ended(fault['doubt'] or '')}" if one.is_doubtful(note) else f"{said}. Certain."


def blame(note: Note) -> str:
    """A peer that granted too little, or 0, did grant: so it is asked about its window, and not why it gave nothing."""
    finding = note.finding
    if finding.is_stall_begin and note.waited != 0:
        return f"nobody broke a rule: ask the {OTHER_SIDE[finding.side]}, whose window it is"
    return "nobody broke a rule" if finding.is_stall_begin else finding.blame


def other_end(one: ChartedConnection, note: Note) -> str:
    """Where a stall ended or began, and how long it took."""
    finding = note.finding
    if finding.is_stall_begin:
        if note.other is None:
            return f", and waited {waited(one, note)}" if one.wait(note) else ", and no end of the stall was seen"
        if note.waited == 0:
            return f", and had more in the same instant, in {note.other.place}"
        return f", and waited {duration(note.waited or 0)}, up to {note.other.place}"
    if finding.is_stall_end and note.other is not None:
        nanos = note.waited or 0
        return f", {duration(nanos)} after {note.other.place}" if nanos else ", in the instant in which it began"
    return ""


def moment(one: ChartedConnection, finding: Finding) -> str:
    """Since the connection's SYN, where the capture was given; a report has no time of it, so there it is of day."""
    return duration(one.since_start(finding)) if one.is_captured else clock(finding.time).removesuffix(" UTC")


def zero(one: ChartedConnection) -> str:
    """From when on the times of a connection count."""
    if one.is_captured:
        return f"Times count from the connection's SYN, at {clock(one.start)}."
    charts = f" Charts count from the first finding, at {clock(one.start)}." if has_charts(one) else ""
    return "Times are in UTC, since a report has no time of the connection's SYN." + charts


def has_charts(one: ChartedConnection) -> bool:
    return any(window.frames for window in one.windows.values())
