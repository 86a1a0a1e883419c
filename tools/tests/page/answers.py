"""Reports with the answers of h2audit-why about them, made by hand for the tests of the page."""

import io
import json
from typing import Any

from h2audit.page.document import page
from h2audit.page.library import library
from h2audit.page.model import Audit, audit_of_answer, audit_of_report
from h2audit.page.waterfall import NAMES
from h2audit.report.charts import document_of_report

Json = dict[str, Any]

START = 1_700_000_000_000_000_000
MS = 1_000_000
HEAD = "capture records 99 segments 99 snapped 0 not-ipv4 0 fragments 0 not-tcp 0 refused 0\n"
FLOWS = "flow client bytes 9 gap none tail 0\nflow server bytes 9 gap none tail 0\n"


def at(packet: int, time: int, frame: int | None = None) -> Json:
    return {"packet": packet, "file": 1, "time": time, "frame": frame}


def direction(spans: list[list[Any]], content: int = 0) -> Json:
    shares = {name: sum(span[1] for span in spans if span[2] == name) for name in NAMES}
    nanos = sum(shares.values())
    return {"nanos": nanos, "content": content, "shares": shares, "stalls": 0, "first": None, "end": None,
            "spans": spans}  # fmt: skip


def cause(kind: str = "none", why: str | None = None, nanos: int = 0, text: str = "not stalled") -> Json:
    side = None if kind == "none" else "server"
    ask = None if kind == "none" else "client"
    return {"kind": kind, "why": why, "side": side, "ask": ask, "nanos": nanos, "first": None, "last": None,
            "text": text, "proved": False}  # fmt: skip


def request(stream: int, name: str, opened: int, spans: list[list[Any]], said: Json, hung: bool = False) -> Json:
    nanos = sum(span[1] for span in spans)
    ended = {"how": "capture" if hung else "END_STREAM", "side": None if hung else "server", "code": None,
             "code_name": None, "at": at(9, opened + nanos)}  # fmt: skip
    return {
        "stream": stream, "name": name, "method": "GET", "path": "/", "authority": None, "status": 200,
        "grpc_status": None, "grpc_status_name": None, "end_unseen": False, "life": None,
        "opened": at(3, opened, 3), "ended": ended, "nanos": nanos, "client": direction([]),
        "server": direction(spans, 1000), "hung": hung, "cause": said, "legs": None,
    }  # fmt: skip


def connection(number: int, nanos: int, requests: list[Json], stalls: list[Json] | None = None) -> Json:
    return {
        "number": number, "client": f"10.0.0.1:{number}", "server": "10.0.0.2:443", "opened": at(number, START),
        "outcome": "http2", "joined": None, "reason": None, "frames": 40, "begin": START, "nanos": nanos, "limits": [],
        "faults": [], "stalls": stalls or [], "requests": requests, "tls": None, "captured_at": None, "settings": [],
        "signals": [], "round_trip": {"nanos": None, "source": None}, "uncaptured": {"client": 0, "server": 0},
        "notes": [], "ended": {"how": "capture", "side": None, "code_name": None, "at": at(99, START + nanos)},
    }  # fmt: skip


def fault(kind: str, side: str, stream: int, value: int, where: Json, doubt: str | None = None) -> Json:
    """A fault of this side, certain unless there is a doubt."""
    return {"kind": kind, "side": side, "broke": side, "section": "6.9", "stream": stream, "value": value, "at": where,
            "certainty": "settings" if doubt else "certain", "doubt": doubt, "set_by": [],
            "set_by_text": "65,535 at first" if "overrun" in kind else None, "text": ""}  # fmt: skip


def document_of(connections: list[Json], text: str = "Flow control held back 1 request.") -> Json:
    requests = sum(len(one["requests"]) for one in connections)
    return {"files": ["a.pcap"], "summary": {"text": text, "requests": requests}, "warnings": [], "not_audited": [],
            "asked": [], "connections": connections, "hops": []}  # fmt: skip


def finding(frame: int, after: int, side: str, kind: str, stream: int, value: int) -> str:
    """A line of a report; `after` counts from the SYN."""
    return f"frame {frame} record {frame} time {START + after} {side} {kind} stream {stream} value {value}\n"


def opening(number: int, frames: int = 40) -> str:
    return f"connection {number} client 10.0.0.1:{number} server 10.0.0.2:443 record {number} http2 frames {frames}\n"


def audit_of(report: str, document: Json | None = None) -> Audit:
    reported = document_of_report(io.BytesIO(report.encode()))
    if not document:
        return audit_of_report(reported)
    said: Any = {"capture": reported["capture"], **json.loads(json.dumps(document))}
    for one, charted in zip(said["connections"], reported["connections"], strict=True):
        one["charts"] = charted["charts"]
        lasts(one)
    return audit_of_answer(said)


def lasts(one: Json) -> None:
    """The charts of a capture begin with its connection's SYN, and what is open lasts up to its last packet."""
    charts = one["charts"]
    charts["begin"], charts["until"] = one["begin"], one["begin"] + one["nanos"]
    open_stalls = [(stall["side"], stall["stream"]) for stall in one["stalls"] if stall["end"] is None]
    for window in charts["windows"]:
        if window["stream"] == 0:
            window["times"][0] = charts["begin"]
        if window["stream"] == 0 or (window["side"], window["stream"]) in open_stalls:
            window["frames"].append(max(charts["frames"], window["frames"][-1]))
            window["times"].append(charts["until"])
            window["credits"].append(window["credits"][-1])


def page_of(report: str, document: Json | None = None) -> str:
    return page(audit_of(report, document), "A page", library())


def stalled() -> tuple[str, Json]:
    """One connection: a request that hung by its window from 100 ms after the SYN on, up to the last packet at 2.1 s;
    one that was stalled for no time; and one without trouble. A fault of the client stands on stream 3.
    """
    report = HEAD + opening(1) + FLOWS
    report += finding(3, 50 * MS, "server", "stream-credit", 1, 2**31 - 1)
    report += finding(5, 60 * MS, "server", "connection-credit", 0, 900)
    report += finding(7, 80 * MS, "client", "zero-stream-grant", 3, 0)
    report += finding(8, 90 * MS, "server", "stream-stall-begin", 5, 0)
    report += finding(9, 90 * MS, "server", "stream-stall-end", 5, 10)
    report += finding(10, 100 * MS, "server", "stream-stall-begin", 1, 0)
    report += finding(10, 100 * MS, "server", "stream-credit", 1, 0)
    report += "stall server stream 5 from 8 to 9 nanos 0\nstall server stream 1 from 10 open\naudit of all frames\n"
    stall = {"side": "server", "stream": 1, "begin": at(10, START + 100 * MS, 10), "end": None, "nanos": 2000 * MS,
             "why": "granted-nothing"}  # fmt: skip
    hung = request(
        1, "GET /hung", START + 50 * MS, [[0, 50 * MS, "sending"], [50 * MS, 2000 * MS, "stream_stall"]],
        cause("stream-window", "granted-nothing", 2000 * MS, "HUNG for 2 s: the client granted nothing"), True,
    )  # fmt: skip
    calm = request(5, "GET /calm", START + 55 * MS, [[0, 5 * MS, "waiting"], [5 * MS, 300 * MS, "idle"]], cause())
    faulty = request(3, "GET /faulty", START + 70 * MS, [[0, 20 * MS, "tcp"], [20 * MS, MS, "unseen"]], cause())
    one = connection(1, 2100 * MS, [hung, faulty, calm], [stall])
    one["faults"] = [fault("zero-stream-grant", "client", 3, 0, at(7, START + 80 * MS, 7))]
    return report, document_of([one])


def doubtful(number: int = 18) -> tuple[str, Json]:
    """A connection with so many overruns of its server, each of which can be doubted, and one request."""
    report, faults = HEAD + opening(1) + FLOWS, []
    for place in range(number):
        frame, after = 10 + place, (100 + place) * MS
        report += finding(frame, after, "server", "stream-overrun", 1, -5 - place)
        report += finding(frame, after, "server", "stream-credit", 1, -5 - place)
        where = at(frame, START + after, frame)
        doubt = "it is gone if the SETTINGS in packet 4 count from there on: the server had not acknowledged them"
        faults.append(fault("stream-overrun", "server", 1, -5 - place, where, doubt))
    one = connection(1, 500 * MS, [request(1, "GET /a", START + MS, [[0, 400 * MS, "sending"]], cause())])
    one["faults"] = faults
    return report + "audit of all frames\n", document_of([one], "Doubtful: the server broke RFC 9113, 6.9.1.")


def many(connections: int, requests: int) -> tuple[str, Json]:
    """Many requests, of which every seventh was stalled."""
    report, said = [HEAD], []
    for number in range(1, connections + 1):
        report += [opening(number), FLOWS]
        made = []
        for place in range(requests):
            stream, opened = 2 * place + 1, (place * 7919 % 60000) * MS + MS
            report.append(finding(place + 1, opened, "server", "connection-credit", 0, 65535 - place))
            spans = [[0, (place % 9 + 1) * MS, "waiting"], [0, (place % 5 + 1) * MS, "sending"]]
            why = cause()
            if place % 7 == 0:
                spans.append([0, (place % 500 + 1) * MS, "stream_stall"])
                why = cause("stream-window", "granted-late", (place % 500 + 1) * MS, "stalled: the client granted late")
            name = f"GET /item/{place * 104729 % 10**6}"
            made.append(request(stream, name, START + opened, spans, why))
        report.append("audit of all frames\n")
        said.append(connection(number, 61000 * MS, made))
    return "".join(report), document_of(said)


def proxied() -> tuple[str, Json]:
    """Both legs of a proxy: a slow client, a request of another client that stood behind it, an upload that was tried
    twice, and one that the proxy answered itself.
    """
    report = HEAD + "".join(
        opening(number) + FLOWS + finding(3, 10 * MS, "server", "connection-credit", 0, 900) + "audit of all frames\n"
        for number in (1, 2, 3)
    )
    document = document_of([connection(1, 1000 * MS, [slow_client()]), connection(2, 1000 * MS, other_clients()),
                            connection(3, 1000 * MS, back_leg())], "No rule was broken.")  # fmt: skip
    time = {"client": 900 * MS, "front": MS, "proxy": 43 * MS, "other": 799 * MS, "back": 80 * MS, "upstream": 182 * MS,
            "unseen": 0}  # fmt: skip
    text = "proxy 10.0.0.2:443 to 10.0.0.2:443: 4 front requests, 4 back, 4 sure. Time: client 45 %, behind another "
    text += "request 40 %. Ask the client 10.0.0.1:1 of GET /slow."
    document["hops"] = [{"front": "10.0.0.2:443", "back": "10.0.0.2:443", "time": time, "text": text}]
    return report, document


def slow_client() -> Json:
    why = cause("stream-window", "granted-late", 900 * MS, "stalled 900 ms (100 %): the client granted late")
    spans = [[0, 2 * MS, "waiting"], [2 * MS, 900 * MS, "stream_stall"]]
    legs = front([(1, MS, 501 * MS)], [["proxy", "before", 1], ["upstream", None, 1], ["client", None, 900]],
                 ("client", "client"), "ask the client: 900 ms (100 %), its window was used up")  # fmt: skip
    return request(1, "GET /slow", START + 10 * MS, spans, why) | {"legs": legs}


def other_clients() -> list[Json]:
    why = cause("application", "before", 800 * MS, "not stalled: the server sent nothing for 800 ms")
    other = request(1, "GET /other", START + 20 * MS, [[0, 800 * MS, "waiting"], [800 * MS, MS, "sending"]], why)
    said = "ask the client of GET /slow (connection 1 stream 1): stood behind it"
    parts: list[list[Any]] = [["proxy", "before", 1], ["upstream", None, 1], ["other", "held", 799]]
    other["legs"] = front([(3, MS, 2 * MS)], parts, ("client", "other"), said)
    upload = request(3, "POST /up", START + 30 * MS, [[0, 300 * MS, "waiting"], [300 * MS, MS, "sending"]], cause())
    upload["client"] = direction([[0, 100 * MS, "sending"], [100 * MS, 200 * MS, "idle"]], 100_000)
    parts = [["upstream", "failed-try", 30], ["back", None, 80], ["upstream", None, 150], ["proxy", "held", 40],
             ["front", None, 1]]  # fmt: skip
    upload["legs"] = front([(5, MS, 20 * MS), (7, 30 * MS, 261 * MS)], parts, ("upstream", "upstream"),
                           "ask the upstream 10.0.0.2:443: 180 ms (60 %)")  # fmt: skip
    itself = request(5, "GET /cached", START + 40 * MS, [[0, MS, "waiting"]], cause())
    itself["legs"] = front([], [["proxy", "before", 1]], None, "the proxy answered itself")
    return [other, upload, itself]


def back_leg() -> list[Json]:
    backs = [
        request(1, "GET /slow", START + 11 * MS, [[0, MS, "waiting"], [MS, 500 * MS, "sending"]], cause()),
        request(3, "GET /other", START + 21 * MS, [[0, MS, "waiting"], [MS, MS, "sending"]], cause()),
        request(5, "POST /up", START + 31 * MS, [[0, 20 * MS, "waiting"]], cause()),
        request(7, "POST /up", START + 60 * MS, [[0, 260 * MS, "waiting"], [260 * MS, MS, "sending"]], cause()),
    ]
    backs[3]["client"] = direction([[0, 80 * MS, "sending"]], 100_000)
    for back, (number, stream) in zip(backs, ((1, 1), (2, 1), (2, 3), (2, 3))):
        carries = {"connection": number, "stream": stream, "grade": "sure", "why": "path"}
        back["legs"] = no_legs(carries, f"carries {back['name']} (connection {number} stream {stream}), sure")
    return backs


def no_legs(carries: Json | None, text: str) -> Json:
    """What is said of both legs of a request, but for whose its time was."""
    return {"carries": carries, "carried_by": None, "none_why": None, "parts": None, "sums": None, "ask": None,
            "text": [text]}  # fmt: skip


def front(tries: list[tuple[int, int, int]], parts: list[list[Any]], ask: tuple[str, str] | None, text: str) -> Json:
    """Both legs of a front request: tries as streams of connection 3, begins and durations; parts in milliseconds."""
    carried = [{"connection": 3, "stream": stream, "grade": "sure", "why": "path", "begin": begin, "nanos": nanos}
               for stream, begin, nanos in tries]  # fmt: skip
    begins = [sum(part[2] for part in parts[:at]) * MS for at in range(len(parts))]
    return no_legs(None, text) | {
        "carried_by": carried or None, "none_why": None if carried else "answered-itself",
        "parts": [[begin, nanos * MS, who, why] for begin, (who, why, nanos) in zip(begins, parts)],
        "sums": [{"who": who, "why": why, "nanos": nanos * MS} for who, why, nanos in parts],
        "ask": {"party": ask[0], "who": ask[1], "nanos": max(nanos for _, _, nanos in parts) * MS} if ask else None,
    }  # fmt: skip
