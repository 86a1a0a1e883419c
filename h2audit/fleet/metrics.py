"""Counters for Prometheus, in the text file that its node exporter takes.

A counter is what captures count that are no longer looked at, also where their rows are gone, and what the rows of the
others say. None falls: each is shown at least as large as it was.
"""

import os
import sqlite3
from collections.abc import Iterator, Mapping

from h2audit.report.output import mode_of, replaced

Labels = Mapping[str, object]
COUNTER, GAUGE = "counter", "gauge"
HELD, REQUESTS = "h2audit_requests_held_back_total", "h2audit_requests_total"
STALLS, STALL_SECONDS = "h2audit_stalls_total", "h2audit_stall_seconds_total"
FAULTS, CONNECTIONS = "h2audit_faults_total", "h2audit_connections_total"
UNREAD = "h2audit_connections_not_audited_total"
CAPTURES, BYTES = "h2audit_captures_total", "h2audit_capture_bytes_total"
NOT_AUDITED, DROPPED = "h2audit_captures_not_audited_total", "h2audit_captures_dropped_total"
LAST, WAITING, SIZE = "h2audit_last_capture_timestamp_seconds", "h2audit_captures_waiting", "h2audit_database_bytes"
WHAT = {
    CAPTURES: (COUNTER, "Files of rings that were audited."),
    BYTES: (COUNTER, "Bytes of these files."),
    NOT_AUDITED: (COUNTER, "Files of rings that were not audited, by reason."),
    DROPPED: (COUNTER, "Captures whose rows went to keep the database below its bound."),
    CONNECTIONS: (COUNTER, "Connections of HTTP/2 that were audited."),
    UNREAD: (COUNTER, "Connections that were not audited, by reason."),
    REQUESTS: (COUNTER, "Requests that ended."),
    HELD: (COUNTER, "Requests that ended and that a window or TCP held back, by cause and by the side that waited."),
    STALLS: (COUNTER, "Stalls that ended, by the side that waited and by window."),
    STALL_SECONDS: (COUNTER, "Seconds of these stalls."),
    FAULTS: (COUNTER, "Faults, by kind and by the side that broke the rule."),
    LAST: (GAUGE, "When the newest file that was audited was closed."),
    WAITING: (GAUGE, "Files that are closed, and not audited yet."),
    SIZE: (GAUGE, "Bytes of the database."),
}
SIDES = ("client", "server")
HELD_BY = ("stream-window", "connection-window", "tcp")
# What goes on from a capture that was counted is not counted anew: requests, and the stalls with which they go on.
CARRIED = """SELECT 1 FROM carried_{table} AS carried
             WHERE was_counted AND into_capture = {table}.capture AND into_connection = {table}.connection
                   AND carried.stream = {table}.stream"""
NEW_REQUEST = f"NOT EXISTS ({CARRIED.format(table='requests')})"
NEW_STALL = f"NOT EXISTS ({CARRIED.format(table='stalls')} AND carried.side = stalls.side AND stalls.first IS NULL)"
WINDOW = "CASE stream WHEN 0 THEN 'connection' ELSE 'stream' END"
# Each with the labels of a sample, and its value; {ended} and {over} leave out what is not over yet.
SAMPLES = {
    REQUESTS: f"SELECT COUNT(*) FROM requests WHERE {{captures}} {{ended}} AND {NEW_REQUEST}",
    HELD: f"""SELECT 'cause', cause, 'side', side, COUNT(*) FROM requests
              WHERE {{captures}} {{ended}} AND cause IN {HELD_BY} AND {NEW_REQUEST} GROUP BY cause, side""",
    STALLS: f"""SELECT 'side', side, 'window', {WINDOW} AS which, COUNT(*) FROM stalls
                WHERE {{captures}} {{over}} AND {NEW_STALL} GROUP BY side, which""",
    STALL_SECONDS: f"""SELECT 'side', side, 'window', {WINDOW} AS which, TOTAL(nanos) / 1e9 FROM stalls
                       WHERE {{captures}} {{over}} AND {NEW_STALL} GROUP BY side, which""",
    FAULTS: """SELECT 'broke', broke, 'kind', kind, COUNT(*) FROM findings
               WHERE {captures} AND broke <> 'nobody' AND grade IS NOT 'joined' GROUP BY broke, kind""",
    CONNECTIONS: """SELECT COUNT(*) FROM connections
                    WHERE {captures} AND holds = 'http2'
                          AND NOT EXISTS (SELECT 1 FROM continued WHERE continued.capture = connections.capture
                                                                        AND connection = number)""",
    UNREAD: """SELECT 'reason', COALESCE((SELECT reason FROM reasons WHERE reasons.capture = connections.capture
                                                                           AND connection = number), holds) AS why,
                      COUNT(*)
               FROM connections WHERE {captures} AND holds <> 'http2' GROUP BY why""",
}
ONE, UNCOUNTED_ONES = "= ?", "IN (SELECT capture FROM stretches WHERE state <> 'counted')"
Sample = tuple[str, str, float]


def samples(
    base: sqlite3.Connection, which: str, values: tuple[int, ...] = (), is_over: bool = False
) -> Iterator[Sample]:
    """What the rows of some captures count: a metric, its labels as they are written, and a number. Where all of a
    capture is over, what stands open in it counts too.
    """
    for metric, question in SAMPLES.items():
        asked = question.format(
            captures=f"capture {which}",
            ended="" if is_over else "AND ended <> 'capture'",
            over="" if is_over else "AND last IS NOT NULL",
        )
        for *labels, value in base.execute(asked, values):
            yield metric, written(dict(zip(labels[::2], labels[1::2]))), value


def written(labels: Labels) -> str:
    """Labels as a sample has them."""
    return ",".join(f'{name}="{escaped(str(value))}"' for name, value in sorted(labels.items()))


def escaped(text: str) -> str:
    return text.replace("\\", r"\\").replace('"', r"\"").replace("\n", r"\n")


def add(base: sqlite3.Connection, metric: str, labels: Labels, value: float) -> None:
    put(base, (metric, written(labels), value))


def put(base: sqlite3.Connection, sample: Sample) -> None:
    base.execute(
        """INSERT INTO counted (metric, labels, counted) VALUES (?, ?, ?)
           ON CONFLICT DO UPDATE SET counted = counted + excluded.counted""",
        sample,
    )


def count(base: sqlite3.Connection, capture: int) -> None:
    """Adds what the rows of a capture count, once for all."""
    for sample in list(samples(base, ONE, (capture,), is_over=True)):
        put(base, sample)


def known_labels(base: sqlite3.Connection) -> Iterator[tuple[str, str]]:
    """The samples that stand there from the beginning, as 0: else nobody sees how the first one grows."""
    for metric in (CAPTURES, BYTES, DROPPED, CONNECTIONS, REQUESTS):
        yield metric, ""
    yield NOT_AUDITED, written({"reason": "overwritten"})
    for side in SIDES:
        yield from ((HELD, written({"cause": cause, "side": side})) for cause in HELD_BY)
        for window in ("connection", "stream"):
            yield from ((metric, written({"side": side, "window": window})) for metric in (STALLS, STALL_SECONDS))
        for (kind,) in base.execute("SELECT kind FROM kinds WHERE broke <> 'nobody'"):
            yield FAULTS, written({"broke": side, "kind": kind})


def counters(base: sqlite3.Connection) -> dict[tuple[str, str], float]:
    """Each counter as it is to be shown, which is noted. This is a part of a transaction."""
    now = {place: 0.0 for place in known_labels(base)}
    before: dict[tuple[str, str], float] = {}
    for metric, labels, counted, shown in base.execute("SELECT metric, labels, counted, shown FROM counted"):
        now[metric, labels] = counted
        before[metric, labels] = shown
    for metric, labels, value in samples(base, UNCOUNTED_ONES):
        now[metric, labels] = now.get((metric, labels), 0) + value
    found = {place: max(value, before.get(place, 0)) for place, value in now.items()}
    base.executemany(
        """INSERT INTO counted VALUES (?, ?, 0, ?) ON CONFLICT DO UPDATE SET shown = excluded.shown""",
        [(*place, value) for place, value in found.items() if value != before.get(place, 0)],
    )
    return found


def text_of(values: dict[tuple[str, str], float]) -> str:
    """The text of all samples, metric by metric."""
    lines = []
    for metric, (kind, what) in WHAT.items():
        lines += [f"# HELP {metric} {what}", f"# TYPE {metric} {kind}"]
        for (name, labels), value in sorted(values.items()):
            if name == metric:
                lines.append(f"{metric}{{{labels}}} {number(value)}" if labels else f"{metric} {number(value)}")
    return "".join(f"{line}\n" for line in lines)


def number(value: float) -> str:
    return str(int(value)) if value == int(value) else repr(value)


def write(path: str, text: str) -> None:
    """Writes a text file that is there as a whole, whenever the exporter looks."""
    with replaced(path) as file:
        file.write(text.encode())
        os.fchmod(file.fileno(), mode_of(path))
