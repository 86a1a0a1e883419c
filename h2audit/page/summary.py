"""The top of the page: one sentence, what limits it, who broke which rule, and whom to ask."""

from h2audit.page.answer import ended
from h2audit.page.legs import hops_of
from h2audit.page.markup import Content, Markup, element, items, row, shortened, table
from h2audit.page.model import Audit, ChartedConnection
from h2audit.page.top import AskedPeer, asked, headline, limits
from h2audit.page.words import Breach, breaches, counts, endpoint, longest_stalls, waited, windows_named
from h2audit.report.charts import Note
from h2audit.report.words import duration

MOST_ROWS = 10
PROVED = (
    "Faults and stalls are those of h2audit's proved report. Credits, names, lives, causes, TCP and place of capture "
    "are not: h2audit-why reads them from the frames and the packets, and checks credits by the report's findings."
)


def top(audit: Audit) -> Markup:
    """What stands before all else: one sentence, and what limits it."""
    parts = [element("p", headline(audit), class_="headline")]
    if said := limits(audit):
        parts.append(element("h2", "What limits this answer", id="limits-head"))
        box = element("div", items(said), tabindex="0", role="region", aria_labelledby="limits-head")
        parts.append(box)
    return element("section", parts, id="top", class_="limited" if said else None, aria_label="What was found")


def summary(audit: Audit, notes: set[int]) -> Markup:
    """`notes` are the findings that have a row in the page."""
    parts = [element("h2", "Summary"), *breach_tables(audit, notes), asked_table(audit), stall_table(audit, notes)]
    parts.append(element("p", counts(audit), class_="counts"))
    if audit.answer:
        parts.append(element("p", PROVED, class_="counts"))
    return element("section", parts, id="summary")


def breach_tables(audit: Audit, notes: set[int]) -> list[Markup]:
    """Those that are certain, or all where nothing is known of that; and those that can be doubted."""
    found = breaches(audit)
    certain = [one for one in found if not one.is_doubtful]
    doubtful = [one for one in found if one.is_doubtful]
    rows = [row(breach_cells(one, notes)) for one in certain[:MOST_ROWS]]
    doubts = [row([*breach_cells(one, notes), ended(one.doubt)]) for one in doubtful[:MOST_ROWS]]
    return [
        shortened("Who broke which rule", "breaches", rows, len(certain)),
        shortened("Doubtful: who may have broken which rule", "doubtful", doubts, len(doubtful)),
    ]


def breach_cells(breach: Breach, notes: set[int]) -> list[Content]:
    return [
        f"the {breach.side}, {breach.peer}",
        breach.kind,
        f"RFC 9113, {breach.section}" if breach.section else "",
        breach.times,
        breach.connections,
        place(*breach.first, notes),
    ]


def asked_table(audit: Audit) -> Markup:
    found = asked(audit)
    rows = [
        row(
            [
                f"the {one.side}, {one.peer}" if one.side else one.peer,
                one.why,
                one.times,
                one.connections,
                said(one, one.longest),
                said(one, one.nanos),
            ]
        )
        for one in found[:MOST_ROWS]
    ]
    name = "asked" if audit.answer else "asked-of-stalls"
    legs = ", as each leg of a proxy tells it alone" * bool(hops_of(audit))
    return shortened(f"Whom to ask about time that was lost{legs}", name, rows, len(found))


def said(one: AskedPeer, nanos: int) -> str:
    return duration(nanos) if nanos else "no end was seen"


def stall_table(audit: Audit, notes: set[int]) -> Markup:
    rows = [stall_row(one, stalls, notes) for one, stalls in longest_stalls(audit)]
    if not rows:
        return Markup("")
    note = "A stall breaks no rule: a receiver may choose any window (RFC 9113, 5.2.1)."
    return Markup(table("The longest stalls", "stalls", rows) + element("p", note))


def stall_row(one: ChartedConnection, stalls: list[Note], notes: set[int]) -> Markup:
    first = stalls[0]
    side = first.finding.side
    who = f"{side}, {endpoint(one.opening, side)}"
    return row([waited(one, first), who, windows_named(stalls), place(one, first, notes)])


def place(connection: ChartedConnection, note: Note, notes: set[int]) -> Content:
    """Where a finding is, as a link to its row if it has one."""
    name = f"connection {connection.opening.number}, frame {note.finding.frame}, {note.place}"
    return element("a", name, href=f"#{row_id(connection, note)}") if id(note) in notes else name


def row_id(connection: ChartedConnection, note: Note) -> str:
    finding = note.finding
    return f"c{connection.opening.number}-f{finding.frame}-{finding.side}-{finding.kind}-{finding.stream}"
