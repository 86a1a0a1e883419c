"""The page of tests/legs: how many pairs and whom to ask are right, and what proxies pass on, as h2audit-why says."""

from collections.abc import Callable
from itertools import groupby

from tools.tests.why.legs import ALL, ROWS, Row
from tools.tests.why.legs_judge import GRADES, Judgement
from tools.tests.why.legs_made import kept
from tools.tests.why_tools import Json

FRONT = """# Both legs of proxies

Each capture is taken at a proxy, which stands in a network namespace between clients and an upstream, or on loopback
(`tools/tests/why/legs.py`). What is true stands in the content: the answers of the upstream, and the uploads of its
clients, begin with a token that occurs once, and no matching reads content. Whom to ask, and what was passed on, is
what a script set. `python3 -m tools.tests.why.legs_test --write` makes this page, and `--make` all captures anew.

The proxies are Debian's: nghttpx 1.52, haproxy 2.6.12, caddy 2.6.2, apache 2.4.71 (mod_proxy_http2), and nginx 1.22
(grpc_pass).

## Which back request carried which front request

Front requests that the upstream answered, by what is said of them. Equal requests at the same instant can hardly be
told apart without an id, and need not: their times are alike.

| traffic | captures | requests | sure, right | sure, wrong | likely, right / wrong | ambiguous, right / wrong | none |
|---|---|---|---|---|---|---|---|
"""
SET = """
## Whom to ask, and what was passed on

| captures | what was set | sure pairs | whom to ask, right | passed on or not, right |
|---|---|---|---|---|
"""
PASSED = """
## What the proxies pass on

A client grants nothing, or an upstream reads an upload late: after how long, and with how many bytes held, the other
leg stalled too.

| proxy | a slow client, 200 kB | a slow upstream, 250 kB |
|---|---|---|
"""
TRAFFIC = {
    "mixed": "mixed, with paths and queries",
    "mixed_paths": "mixed, three paths",
    "mixed_nopath": "mixed, one path",
    "mixed_ids": "mixed, one path and x-request-id",
    "two": "two proxies before one upstream, with paths and queries",
    "two_paths": "two proxies, three paths",
    "two_nopath": "two proxies, one path",
    "lo_mixed": "mixed, with paths and queries, on loopback",
    "w": "400 equal requests of 8 clients, 10 at once each",
    "w_ids": "the same with x-request-id",
}
NANOS_OF_MS = 1_000_000
Judge = Callable[[Row], Judgement]


def page(judge: Judge) -> str:
    lines = [line_of(group, judge) for group in TRAFFIC]
    causes = sorted((row for row in ROWS if row.group not in TRAFFIC), key=order)
    lines.append(SET)
    lines += [line_of_cause(list(rows), judge) for _, rows in groupby(causes, order)]
    lines.append(PASSED)
    lines += [f"| {name} | {passed_on(f'a_{name}')} | {passed_on(f'c_{name}')} |\n" for name in ALL]
    return FRONT + "".join(lines)


def order(row: Row) -> int:
    """Where a row's group stands first."""
    return [one.group for one in ROWS].index(row.group)


def sum_of(rows: list[Row], judge: Judge) -> Judgement:
    total = Judgement()
    for row in rows:
        total += judge(row)
    return total


def line_of(group: str, judge: Judge) -> str:
    rows = [row for row in ROWS if row.group == group]
    found = sum_of(rows, judge)
    right, wrong = found.right, found.wrong
    share = int(100 * right["sure"] / max(found.fronts, 1))
    cells = [TRAFFIC[group], str(len(rows)), str(found.fronts), f"{right['sure']} ({share} %)", str(wrong["sure"])]
    cells += [f"{right[grade]} / {wrong[grade]}" for grade in GRADES[1:]]
    return f"| {' | '.join(cells)} | {sum(found.without.values())} |\n"


def line_of_cause(rows: list[Row], judge: Judge) -> str:
    found = sum_of(rows, judge)
    group = rows[0].group
    names = f"`{group}_`: " + ", ".join(row.name[len(group) + 1 :].replace("_", " ") for row in rows)
    said = "; ".join(dict.fromkeys(row.was_set for row in rows))
    asked, passed = (
        f"{right} of {all_of}" if all_of else ""
        for right, all_of in ((found.asked_right, found.asked), (found.passed_right, found.passed))
    )
    pairs = f"{found.right['sure']} of {found.fronts}" if found.fronts else ""
    return f"| {names} | {said} | {pairs} | {asked} | {passed} |\n"


def passed_on(name: str) -> str:
    """What the answer says of the brake that a script set in a capture."""
    (row,) = [row for row in ROWS if row.name == name]
    brakes = [brake for legs in legs_of(kept(row).answer()) for brake in legs["brakes"]]
    longest: Json = sorted(brakes, key=lambda brake: int(brake["nanos"]))[-1]
    if not longest["passed_on"]:
        return f"not passed on: {longest['most_held']:,} bytes held"
    first = longest["passed_on"][0]
    return f"after {duration(first['after'])}, {first['held']:,} bytes"


def duration(nanos: int) -> str:
    return f"{nanos / 1e6:.1f} ms" if nanos >= NANOS_OF_MS else f"{nanos / 1e3:.0f} µs"


def legs_of(found: Json) -> list[Json]:
    asked = [one["legs"] for connection in found["connections"] for one in connection["requests"]]
    return [legs for legs in asked if legs]
