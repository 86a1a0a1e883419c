"""The rows of reports, by their words alone: what tests of h2audit-fleet want of h2audit-any, and what stands in for it
writes.
"""

import json
from typing import Any

# A row of the database, as SQLite has it.
Row = tuple[Any, ...]
OTHER = {"client": "server", "server": "client"}
OVERFLOWS = ("connection-overflow", "stream-overflow", "setting-overflow")
TABLES = ("connections", "findings", "stalls", "unopened", "passed_over")


def rows_by_hand(report: str, end: int | None = None) -> dict[str, list[Row]]:
    """The rows that a report should make, by its words and their numbers; its packets end at a time. None is joined."""
    rows: dict[str, list[Row]] = {name: [] for name in TABLES}
    connections: list[list[object]] = []
    begun: dict[tuple[str, str], int] = {}
    for words in map(str.split, report.splitlines()[1:]):
        match words:
            case ["record", record, *reason]:
                rows["passed_over"].append((int(record), " ".join(reason)))
            case ["unopened", sender, receiver, _, segments]:
                rows["unopened"].append((len(rows["unopened"]) + 1, sender, receiver, int(segments), None))
            case ["connection", number, _, client, _, server, _, record, holds, *frames]:
                position = 0
                connection = int(number)
                held = int(frames[1]) if frames else None
                connections.append([connection, client, server, int(record), holds, held])
            case ["flow", _, _, size, _, gap, _, tail, *why]:
                connections[-1] += [int(size), None if gap == "none" else int(gap), int(tail), why[1] if why else None]
            case ["frame", frame, _, record, _, moment, side, kind, _, stream, _, value]:
                position += 1
                if kind.endswith("-stall-begin"):
                    begun[side, stream] = int(moment)
                broke = "nobody" if "-stall-" in kind else OTHER[side] if kind in OVERFLOWS else side
                rows["findings"].append(
                    (
                        connection,
                        position,
                        int(frame),
                        int(record),
                        int(moment),
                        side,
                        kind,
                        int(stream),
                        int(value),
                        broke,
                        None,
                    )
                )
            case ["stall", side, _, stream, _, first, *how]:
                position += 1
                last, nanos = (
                    (None, end and end - begun[side, stream]) if how == ["open"] else (int(how[1]), int(how[3]))
                )
                times = int(first), last, nanos
                rows["stalls"].append((connection, position, side, int(stream), *times, OTHER[side], None))
            case ["audit", *how]:
                connections[-1].append(int(how[-1]) if how[0] == "stopped" else None)
    rows["connections"] = [tuple([*row, *[None] * 16][:16]) for row in connections]
    return rows


def lines_of(report: str, end: int | None = None) -> str:
    """The rows of a report, as h2audit-any writes them."""
    heads = [int(word) for word in report.partition("\n")[0].split()[2::2]]
    rows = [("captures", *heads)] + [(table, *row) for table, rows in rows_by_hand(report, end).items() for row in rows]
    return "h2audit-rows 3\n" + "".join(json.dumps(row) + "\n" for row in rows)
