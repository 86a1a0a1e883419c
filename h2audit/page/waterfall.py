"""Packs the requests of a capture for the waterfall of the page, and shows the first of them in a table.

What h2audit-why tells of each request that it shows is kept as lists of numbers, deflated, in base64. Where many
would be too large, spans are joined first, and then those with the least trouble are left out.
"""

import base64
import json
import zlib
from dataclasses import dataclass
from itertools import islice

from h2audit.page.known import packet_of
from h2audit.page.legs import WHO, Place, asked_of, by_legs, lines_of, packed_legs, parts_of
from h2audit.page.markup import Content, Markup, element, markup, row, shortened
from h2audit.page.model import Audit
from h2audit.page.spans import packed_spans
from h2audit.report.answer_types import Connection, Direction, Ended, Fault, Request
from h2audit.report.words import time_of

MOST_BYTES = 900_000
# Spans of a direction at most, and then so many requests.
SPANS = (512, 64, 16, 4)
# What stands for a name that is not known, as in the answer.
NAME_UNKNOWN = "(name unknown)"
# What a direction of a request can be doing (docs/WHY.md, section 3), in the order of their colours.
NAMES = ("waiting", "sending", "stream_stall", "connection_stall", "tcp", "others", "idle", "unseen")
KIND = {name: at for at, name in enumerate(NAMES)}
HELD = ("stream_stall", "connection_stall", "tcp")
# What ends a request by itself.
ENDS = ("END_STREAM", "RST_STREAM")
MARGIN = 0.9
BOTH_LEGS = (
    "A request that came through a proxy has more than its own bars: below them whose each instant was, and then what "
    "happened on the other leg."
)
# How hard deflate tries: the highest level makes 4 % less of it, and takes three times as long.
LEVEL = 6
# What stands of faults of one stream, and of one connection's window.
MOST_MARKS = 20
MOST_ROWS = 200

PlacedRequest = tuple[Connection, Request]


@dataclass
class Waterfall:
    text: str
    shown: int
    whole: int
    # The requests, those with most trouble first, each with its connection.
    requests: list[PlacedRequest]


def waterfall(audit: Audit) -> Waterfall | None:
    """None where there is no request."""
    if audit.answer is None:
        return None
    found = [(one, request) for one in audit.answer.connections for request in one["requests"]]
    if not found:
        return None
    faults = faults_of(audit)
    ranked = sorted(found, key=lambda pair: trouble(pair[0], pair[1], faults))
    number = len(ranked)
    for most in sizes(ranked):
        text = packed(audit, ranked, faults, most)
        if len(text) <= MOST_BYTES:
            break
    while len(text) > MOST_BYTES:
        number = int(number * MARGIN * MOST_BYTES / len(text))
        text = packed(audit, ranked[:number], faults, most)
    whole = audit.answer.document["summary"]["requests"]
    return Waterfall(base64.b64encode(text).decode(), number, whole, ranked)


def sizes(found: list[PlacedRequest]) -> list[int]:
    """How many spans of a direction there may be: all, and then fewer than there are."""
    by_sides = max(len(one["spans"] or ()) for _, request in found for one in (request["client"], request["server"]))
    longest = max(by_sides, *(len(parts_of(request["legs"])) for _, request in found))
    return [SPANS[0], *(most for most in SPANS[1:] if most < longest)]


Faults = dict[tuple[int, int], list[Fault]]


def faults_of(audit: Audit) -> Faults:
    """The faults of each connection's streams."""
    found: Faults = {}
    assert audit.answer
    for one in audit.answer.connections:
        for fault in one["faults"]:
            found.setdefault((one["number"], fault["stream"]), []).append(fault)
    return found


def trouble(one: Connection, request: Request, faults: Faults) -> tuple[bool, bool, bool, int, int]:
    """Faults, then what hung, then the time for which windows, TCP or someone at a proxy held it back, then what else
    held it. What a back request of a proxy waited for is told of the front one, which is before it.
    """
    is_faulty = (one["number"], request["stream"]) in faults
    is_back, asked = by_legs(request)
    return not is_faulty, not request["hung"], is_back, -max(held(request), asked), -request["cause"]["nanos"]


def held(request: Request) -> int:
    return sum(one["shares"][name] for one in (request["client"], request["server"]) for name in HELD)


def packed(audit: Audit, found: list[PlacedRequest], faults: Faults, most: int) -> bytes:
    assert audit.answer
    used = {one["number"] for one, _ in found}
    connections = [one for one in audit.answer.connections if one["number"] in used]
    places = {one["number"]: place for place, one in enumerate(connections)}
    ranks: dict[Place, int] = {(one["number"], request["stream"]): rank for rank, (one, request) in enumerate(found)}
    said = {
        "kinds": NAMES,
        "whose": list(WHO),
        "whoseWords": list(WHO.values()),
        "connections": [connection_row(one, faults) for one in connections],
        "requests": [
            request_row(places[one["number"]], one, request, faults, most, rank)
            | {"legs": packed_legs(request, ranks, most)}
            for rank, (one, request) in enumerate(found)
        ],
    }
    begin = min((one["begin"] for one in connections), default=0)
    for one, line in zip(connections, said["connections"]):
        assert isinstance(line, dict)
        line["begin"] = one["begin"] - begin
    return zlib.compress(json.dumps(said, separators=(",", ":")).encode(), LEVEL)


def connection_row(one: Connection, faults: Faults) -> dict[str, object]:
    """A connection, with the stalls of its own window on both sides."""
    stalls: dict[str, list[int]] = {"client": [], "server": []}
    for stall in one["stalls"]:
        if not stall["stream"]:
            stalls[stall["side"]] += [stall["begin"]["time"] - one["begin"], stall["nanos"]]
    return {
        "number": one["number"], "client": one["client"], "server": one["server"], "nanos": one["nanos"],
        "stalls": stalls, "marks": marks(one, 0, faults), "ended": by_whom(one["ended"]),
    }  # fmt: skip


def request_row(
    place: int, one: Connection, request: Request, faults: Faults, most: int, rank: int
) -> dict[str, object]:
    cause, ended = request["cause"], request["ended"]
    return {
        "of": place, "stream": request["stream"], "name": name_of(request), "status": status_of(request),
        "begin": request["opened"]["time"] - one["begin"], "nanos": request["nanos"], "rank": rank,
        "cause": cause["kind"], "side": cause["side"], "ask": asked_of(request), "text": cause["text"],
        "life": request["life"], "hung": int(request["hung"]),
        "ended": end_words(request), "how": ended["how"], "packet": packet_of(request["opened"]),
        "client": direction(request["client"], most), "server": direction(request["server"], most),
        "marks": marks(one, request["stream"], faults),
    }  # fmt: skip


def name_of(request: Request) -> str:
    """As the answer's text has it: a stream that the server opened is a push."""
    return "pushed " * (request["stream"] % 2 == 0) + (request["name"] or NAME_UNKNOWN)


def status_of(request: Request) -> str:
    status = "no status" if request["status"] is None else str(request["status"])
    return status + (f" grpc {request['grpc_status_name']}" if request["grpc_status"] else "")


def end_words(request: Request) -> str:
    """How a request ended, or that it did not."""
    ended = request["ended"]
    if request["end_unseen"]:
        return "its end was not captured"
    return by_whom(ended) if ended["how"] in ENDS or not ended["side"] else f"not ended: {what_of(ended)}"


def by_whom(ended: Ended) -> str:
    return f"ended by {what_of(ended)}" if ended["side"] else "not ended: the capture ends"


def what_of(ended: Ended) -> str:
    return f"the {ended['side']}'s {ended['how']}" + (f" {ended['code_name']}" if ended["code_name"] else "")


def marks(one: Connection, stream: int, faults: Faults) -> list[list[object]]:
    """Faults by their time after the connection's SYN, their kinds, and whether they are certain."""
    found = faults.get((one["number"], stream), ())
    return [
        [fault["at"]["time"] - one["begin"], fault["kind"], int(fault["certainty"] == "certain")]
        for fault in islice(found, MOST_MARKS)
    ]


def direction(one: Direction, most: int) -> dict[str, object]:
    """What one side did: its spans one after the other, as durations and kinds; or shares alone."""
    if one["spans"] is None:
        spans = [number for name in NAMES for number in (one["shares"][name], KIND[name]) if one["shares"][name]]
        return {"content": one["content"], "spans": spans}
    return {"content": one["content"], "spans": packed_spans(one["spans"], most, KIND)}


def request_table(found: Waterfall, times: float) -> Markup:
    """The first of the requests, those with trouble first, for readers without scripts, and screen readers."""
    shown = found.requests[: max(int(MOST_ROWS * times), 10)]
    rows = [row(cells(one, request)) for one, request in shown]
    return shortened("Requests, those with trouble first", "requests", rows, found.whole)


def cells(one: Connection, request: Request) -> list[Content]:
    cause, asked = request["cause"], asked_of(request)
    more = [*lines_of(request), request["life"]]
    said = [element("p", line, class_="life") for line in more if line]
    return [
        name_of(request),
        str(request["stream"]),
        str(one["number"]),
        status_of(request),
        time_of(request["nanos"]),
        element("div", [cause["text"], *said]) if said else cause["text"],
        f"the {asked}" if asked else "",
        end_words(request),
    ]


def left_out(found: Waterfall) -> Markup:
    if found.shown == found.whole:
        return Markup("")
    said = f"The waterfall has {found.shown:,} of {found.whole:,} requests, those with most trouble."
    return element("p", said, class_="note")


def waterfall_section(found: Waterfall, times: float, controls: Markup) -> Markup:
    parts = [
        element("h2", "Requests", id="requests-head"),
        left_out(found),
        controls,
        element("p", BOTH_LEGS, class_="counts") if any(request["legs"] for _, request in found.requests) else "",
        element(
            "details", [element("summary", "As a table"), request_table(found, times)], open=True, id="requests-table"
        ),
        element("script", Markup(found.text), type="text/plain", id="request-data"),
    ]
    return element("section", markup(parts), id="requests", aria_labelledby="requests-head")
