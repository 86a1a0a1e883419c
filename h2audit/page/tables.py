"""The parts of the page that need no script: connections, findings and windows, in tables."""

from dataclasses import dataclass

from h2audit.page.chart_data import Packed
from h2audit.page.known import known_of, settings_table, signal_table
from h2audit.page.markup import Content, Markup, element, items, markup, row, table
from h2audit.page.model import Audit, ChartedConnection, ChartedWindow, Others, together
from h2audit.page.sentences import moment, sentence, zero
from h2audit.page.summary import row_id
from h2audit.page.words import breaches, flow_words, longest_stalls, verdict
from h2audit.report.charts import Note
from h2audit.report.words import count, duration

# So many rows of each table, times what the room of a page of 5 MB allows.
MOST_FINDINGS, MOST_WINDOWS, MOST_SECTIONS, MOST_CONNECTIONS = 1500, 500, 100, 500


@dataclass(frozen=True)
class Choice:
    """What of a report stands in the tables, by the rules that `left_out` says."""

    notes: set[int]
    windows: set[int]
    sections: set[int]
    connections: list[ChartedConnection]
    left_out: list[str]


def chosen(audit: Audit, times: float) -> Choice:
    """What fits; `times` says how much larger than they are at least the tables may be."""
    findings, windows, sections, connections = (
        int(times * most) for most in (MOST_FINDINGS, MOST_WINDOWS, MOST_SECTIONS, MOST_CONNECTIONS)
    )
    first = [breach.first for breach in breaches(audit)]
    first += [(one, stalls[0]) for one, stalls in longest_stalls(audit)]
    in_full = ranked_connections(audit, {id(one) for one, _ in first})[:sections]
    shown = {id(one) for one in in_full}
    notes = ranked_notes(in_full, {id(note) for _, note in first})[:findings]
    with_row = [window for window in audit.windows if id(window.connection) in shown][:windows]
    listed = sorted(audit.connections, key=lambda one: (-len(one.faults), -len(one.stalls), one.opening.number))
    listed = listed[:connections]
    return Choice(
        {id(note) for _, note in notes},
        {id(window) for window in with_row},
        shown,
        listed,
        left_out_words(audit, len(in_full), len(listed), len(notes), len(with_row)),
    )


def left_out_words(audit: Audit, sections: int, listed: int, notes: int, windows: int) -> list[str]:
    """What the tables have of each thing of which they show only some, and by which rule."""
    all_notes, all_connections = sum(len(one.notes) for one in audit.connections), len(audit.connections)
    rules = [
        (sections, all_connections, "connections in full: what the summary names, then by faults, stalls, windows"),
        (listed, all_connections, "connections in the list: those with the most faults, then the most stalls"),
        (notes, all_notes, "findings, of the connections in full: what the summary names, faults, the longest stalls"),
        (
            windows,
            len(audit.windows) + audit.others.number,
            "windows, of the connections in full: by faults, then by the time of all stalls",
        ),
    ]
    return [f"{shown:,} of {number:,} {rule}" for shown, number, rule in rules if number > shown]


def ranked_connections(audit: Audit, first: set[int]) -> list[ChartedConnection]:
    def rank(one: ChartedConnection) -> tuple[bool, int, int, int]:
        return id(one) not in first, -len(one.faults), -len(one.stalls), -len(one.windows)

    return sorted(audit.connections, key=rank)


def ranked_notes(connections: list[ChartedConnection], first: set[int]) -> list[tuple[ChartedConnection, Note]]:
    def rank(pair: tuple[ChartedConnection, Note]) -> tuple[bool, bool, int]:
        note = pair[1]
        is_fault = note.finding.is_fault
        return id(note) not in first, not is_fault, 0 if is_fault else -abs(pair[0].wait(note))

    return sorted([(one, note) for one in connections for note in one.notes], key=rank)


def window_id(window: ChartedWindow) -> str:
    return f"w{window.connection.opening.number}-{window.side}-{window.stream}"


def connections(audit: Audit, choice: Choice) -> Markup:
    """The list of all connections, those with trouble first; what it leaves out has one row."""
    listed = choice.connections
    rows = [
        row(
            [
                link_to(one, choice),
                one.opening.client,
                one.opening.server,
                one.opening.record,
                one.opening.frames,
                verdict(audit, one),
            ]
        )
        for one in listed
    ]
    if not rows:
        return Markup("")
    if len(listed) < len(audit.connections):
        shown = set(map(id, listed))
        rest = [one for one in audit.connections if id(one) not in shown]
        frames = sum(one.opening.frames for one in rest)
        rows.append(row([f"{count(len(rest), 'connection')} more", "", "", "", frames, trouble_in_all(rest)]))
    listed_all = table("All connections", "connections", rows)
    return element("section", [element("h2", "Connections"), listed_all], id="connections")


def trouble_in_all(connections: list[ChartedConnection]) -> str:
    faults, stalls = sum(len(one.faults) for one in connections), sum(len(one.stalls) for one in connections)
    return f"{count(faults, 'fault')}, {count(stalls, 'stall')} in all"


def link_to(one: ChartedConnection, choice: Choice) -> Content:
    name = f"connection {one.opening.number}"
    return element("a", name, href=f"#c{one.opening.number}") if id(one) in choice.sections else name


def section(audit: Audit, one: ChartedConnection, choice: Choice) -> Markup:
    """One connection: who talked, what came of it, what is known of it, its findings and its windows."""
    opening = one.opening
    number = f"c{opening.number}"
    parts: list[Markup] = [
        element("h2", f"Connection {opening.number}", id=number),
        element(
            "p",
            f"Client {opening.client}, server {opening.server}; opened in packet {opening.record}. "
            f"Verdict: {verdict(audit, one)}.",
        ),
        items(flow_words(one) + known_of(one)),
        settings_table(one),
        signal_table(one),
    ]
    if one.has_findings:
        parts.append(element("p", zero(one)))
    parts += [finding_table(one, choice), window_table(one, choice)]
    peers = {"data_client": opening.client, "data_server": opening.server}
    return element("section", parts, class_="connection", aria_labelledby=number, **peers)


def finding_table(one: ChartedConnection, choice: Choice) -> Markup:
    if not one.notes:
        return Markup("")
    rows = [finding_row(one, note, choice) for note in one.notes if id(note) in choice.notes]
    if rest := len(one.notes) - len(rows):
        rows.append(row(["", "", "", f"{count(rest, 'finding')} more, in the report"]))
    return table(f"Findings of connection {one.opening.number}", "findings", rows)


def packet(note: Note) -> Content:
    return f"{note.packet:,} of {note.file}" if note.file else note.packet


def finding_row(one: ChartedConnection, note: Note, choice: Choice) -> Markup:
    finding = note.finding
    window = one.windows.get(finding.window)
    place = f"#{window_id(window)}" if window and id(window) in choice.windows else f"#c{one.opening.number}"
    link = element("a", f"{finding.frame:,}", href=place) if window else markup(finding.frame)
    return row(
        [link, packet(note), moment(one, finding), sentence(one, note)],
        id=row_id(one, note),
        class_=("doubtful" if one.is_doubtful(note) else "fault") if finding.is_fault else None,
        data_connection=one.opening.number,
        data_frame=finding.frame,
        data_side=finding.side,
        data_kind=finding.kind,
        data_stream=finding.stream,
    )


def window_table(one: ChartedConnection, choice: Choice) -> Markup:
    """The windows of a connection, and in one row what those have together that are left out."""
    if not one.windows:
        return Markup("")
    windows = sorted(one.windows.values(), key=lambda window: window.trouble)
    rows = [window_row(window) for window in windows if id(window) in choice.windows]
    rest = [window for window in windows if id(window) not in choice.windows]
    if number := len(rest) + one.others.number:
        rows.append(row([f"{count(number, 'window')} more", *sums_of(rest, one.others), ""]))
    caption = f"Windows of connection {one.opening.number}, those with trouble first"
    return table(caption, "windows", rows)


def window_row(window: ChartedWindow) -> Markup:
    last = f"{window.last:,}" if window.frames else "not in the report"
    return row([window.name, *sums_of([window]), last], id=window_id(window))


def sums_of(windows: list[ChartedWindow], others: Others | None = None) -> list[Content]:
    """What windows have together: faults, stalls, the longest, the time of all, the least and the greatest credit;
    those that are not told with them have no faults or stalls that they do not have too.
    """
    waits = [wait for window in windows for wait in window.waits]
    credits = [credit for window in windows if window.frames for credit in (window.least, window.greatest)]
    credits += others.credits if others else []
    return [
        sum(len(window.faults) for window in windows),
        len(waits),
        duration(max(waits)) if waits else "none",
        duration(sum(waits)) if waits else "none",
        f"{min(credits):,}" if credits else "not in the report",
        f"{max(credits):,}" if credits else "not in the report",
    ]


def others(audit: Audit, choice: Choice) -> Markup:
    """What the windows have together of the connections that are not shown in full."""
    rest = [one for one in audit.connections if id(one) not in choice.sections]
    windows = [window for one in rest for window in one.windows.values()]
    more = together([one.others for one in rest])
    if not windows and not more.number:
        return Markup("")
    said = count(len(windows) + more.number, "window")
    parts = [
        element("h2", f"{count(len(rest), 'connection')} more", id="others"),
        table("Windows of these connections", "windows", [row([said, *sums_of(windows, more), ""])]),
    ]
    return element("section", parts, aria_labelledby="others")


def left_out(choice: Choice, charts: Packed | None) -> Markup:
    """What there was, and the tables have not."""
    if not choice.left_out:
        return Markup("")
    said = [
        "The tables of this page are not whole. They have:",
        items(choice.left_out),
        "Where rows are left out, the last row of a table says how many, and of windows their extremes. ",
        marked_words(charts) if charts else "",
        "A report of h2audit has everything.",
    ]
    return element("div", said, class_="note", id="left-out")


def thinning(charts: Packed) -> Markup:
    """Whether the charts have every credit line, and what is left out where they have not."""
    said = []
    if charts.points < charts.changes:
        said.append(
            f"The charts are thinned: of {charts.changes:,} credit lines they have {charts.points:,} points, "
            "among them of each chart the first, the last, the least and the greatest credit, and both ends of each "
            "shade. "
        )
    if number := len(charts.left_out) + charts.others.number:
        windows = charts.left_out
        *_, least, greatest = sums_of(windows, charts.others)
        faults, stalls = sum(len(one.faults) for one in windows), sum(len(one.waits) for one in windows)
        said.append(
            f"{charts.windows - number:,} of {charts.windows:,} windows have a chart: those with the most faults, then "
            "those that stood still longest, then those that were opened first. The rest has "
            f"{count(faults, 'fault')} and {count(stalls, 'stall')}, and credits from {least} to {greatest}. "
        )
    if said:
        said.append(marked_words(charts))
    return element("p", "".join(said), id="thinned", class_="note") if said else Markup("")


def marked_words(charts: Packed) -> str:
    """How many of the stalls and faults the charts mark."""
    every = "every fault and every stall"
    some = f"{charts.marked:,} of {charts.marks_in_report:,} faults and stalls, and the others have no chart"
    shared = f", of which {charts.merged:,} share a mark that says how many it stands for" if charts.merged else ""
    return f"The charts mark {every if charts.marked == charts.marks_in_report else some}{shared}. "
