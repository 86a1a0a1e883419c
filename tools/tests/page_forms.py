"""What the page of a capture says, read from its HTML, beside the document of h2audit-why that says the same."""

import base64
import html.parser
import json
import unittest
import zlib
from collections.abc import Mapping
from typing import Any

from h2audit.page.document import page
from h2audit.page.library import library
from h2audit.page.program import arguments
from h2audit.page.sources import audit_of
from h2audit.report.words import time_of

Json = Mapping[str, Any]
Attributes = dict[str, str]
# A row with its attributes, and the texts of its cells.
Row = tuple[Attributes, list[str]]
STALLS = ("-stall-begin", "-stall-end")
PLACES = {"client": "Captured at the client.", "server": "Captured at the server.",
          "between": "Captured between the peers."}  # fmt: skip


class Shown(html.parser.HTMLParser):
    """The tables of a page, by their captions; the items of its lists, by their sections; and its sentence on top."""

    def __init__(self, text: str) -> None:
        super().__init__()
        self.tables: dict[str, list[Row]] = {}
        self.items: dict[str, list[str]] = {}
        self.headline = self.requests = self.section = self.caption = ""
        self.into: list[str] | None = None
        self.what = ""
        self.feed(text)

    def handle_starttag(self, tag: str, attributes: list[tuple[str, str | None]]) -> None:
        found = {name: value or "" for name, value in attributes}
        if tag == "section":
            self.section = found.get("id", found.get("aria-labelledby", ""))
        elif tag == "caption":
            self.begin(tag)
        elif tag == "tr":
            self.tables[self.caption].append((found, []))
        elif tag == "td":
            self.begin(tag)
        elif tag == "li" and not self.section == "requests":
            self.begin(tag)
        elif found.get("class") == "headline" or found.get("id") == "request-data":
            self.begin(found.get("id", "headline"))

    def begin(self, what: str) -> None:
        self.what, self.into = what, []

    def handle_data(self, data: str) -> None:
        if self.into is not None:
            self.into.append(data)

    def handle_endtag(self, tag: str) -> None:
        if self.into is None or tag not in ("caption", "td", "li", "script") and self.what != "headline":
            return
        text, self.into = "\n".join(self.into), None
        if self.what == "caption":
            self.caption = text
            self.tables[text] = []
        elif self.what == "td":
            self.tables[self.caption][-1][1].append(text)
        elif self.what == "li":
            self.items.setdefault(self.section, []).append(text)
        elif self.what == "headline":
            self.headline = text
        else:
            self.requests = text

    def cells(self, caption: str) -> list[list[str]]:
        """The rows of a table, without that of its heads."""
        return [cells for _, cells in self.tables.get(caption, ()) if cells]

    def drawn(self) -> list[Json]:
        """The requests of the waterfall."""
        found: list[Json] = json.loads(zlib.decompress(base64.b64decode(self.requests)))["requests"]
        return found


def page_of(words: list[str]) -> tuple[Json, str]:
    """What h2audit-why shows of a capture, and the page of it, as the program makes them."""
    audit = audit_of(arguments([*words, "-o", "-"]))
    assert audit.answer
    return audit.answer.document, page(audit, "A page", library())


def judge(case: unittest.TestCase, found: Json, text: str) -> None:
    """Whether a page says what the document says."""
    shown = Shown(text)
    case.assertEqual(shown.headline, found["summary"]["text"])
    case.assertEqual(limits_of(shown, found), shown.items.get("top", []))
    rules(case, found, shown)
    requests(case, found, shown)
    for one, cells in zip(found["connections"], listed(shown), strict=True):
        case.assertEqual(cells[1:3], [one["client"], one["server"]])
        connection(case, found, one, cells[-1], shown)


def listed(shown: Shown) -> list[list[str]]:
    """The connections, by number."""
    return sorted(shown.cells("All connections"), key=lambda cells: int(cells[0].removeprefix("connection ")))


def limits_of(shown: Shown, found: Json) -> list[str]:
    """The warnings, what limits connections, and what was not audited; behind that the page names connections."""
    said = [(f"Connection {one['connection']}: " if one["connection"] else "") + one["text"]
            for one in found["warnings"]]  # fmt: skip
    limits: dict[str, list[int]] = {}
    for one in found["connections"]:
        for limit in one["limits"]:
            limits.setdefault(limit, []).append(one["number"])
    for limit, (first, *more) in limits.items():
        said.append(f"Connection {first}" + f" and {len(more)} more" * bool(more) + f": {limit}")
    items = iter(shown.items.get("top", [])[len(said) :])
    whole = [sentence(text) for text in said]
    for one in found["not_audited"]:
        front, item = f"Not audited: {one['text']}", next(items, "")
        numbers = [of["number"] for of in found["connections"] if why_not(of) == one["reason"]]
        named = all(f"connection {number} (" in item for number in numbers[:8])
        whole.append(item if item.startswith(front) and named else front)
    return whole


def why_not(one: Json) -> str:
    """The word for why a connection was not audited."""
    return "" if one["outcome"] == "http2" else str(one["reason"] or one["outcome"])


def sentence(text: str) -> str:
    return text[:1].upper() + text[1:] + "." * (text[-1:] not in ".!?")


def rules(case: unittest.TestCase, found: Json, shown: Shown) -> None:
    """How often rules were broken for certain, and perhaps."""
    times = [
        sum(int(cells[3].replace(",", "")) for cells in shown.cells(caption))
        for caption in ("Who broke which rule", "Doubtful: who may have broken which rule")
    ]
    doubtful = found["summary"]["doubtful"]
    case.assertEqual(times, [found["summary"]["faults"] - doubtful, doubtful])


def requests(case: unittest.TestCase, found: Json, shown: Shown) -> None:
    """Each in the table and in the waterfall, with its sentence, whom to ask, and its whole life."""
    said = {(one["number"], request["stream"]): request
            for one in found["connections"] for request in one["requests"]}  # fmt: skip
    rows = {(int(cells[2]), int(cells[1])): cells for cells in shown.cells("Requests, those with trouble first")}
    case.assertEqual(rows.keys(), said.keys())
    drawn = shown.drawn() if said and shown.requests else []
    case.assertEqual(len(drawn), len(said) if shown.requests else 0)
    by_words = sorted([one["text"], one["life"] or "", one["ask"] or "", one["nanos"], one["hung"]] for one in drawn)
    wanted = []
    for key, request in said.items():
        cause, name = request["cause"], request["name"] or "(name unknown)"
        name = "pushed " * (request["stream"] % 2 == 0) + name
        legs = request["legs"]["text"] if request["legs"] else []
        sentences = "\n".join([cause["text"], *legs, *([request["life"]] if request["life"] else [])])
        asked = ask_of(request)
        ask = f"the {asked}" if asked else ""
        cells = rows[key]
        case.assertEqual([cells[0], *cells[4:7]], [name, time_of(request["nanos"]), sentences, ask])
        case.assertEqual(cells[3].split(" ")[0], str(request["status"] or "no"))
        case.assertEqual("grpc" in cells[3], bool(request["grpc_status"]))
        case.assertEqual("its end was not captured" == cells[7], request["end_unseen"])
        case.assertTrue(request["end_unseen"] or (request["ended"]["side"] or "the capture ends") in cells[7])
        wanted.append([cause["text"], request["life"] or "", asked, request["nanos"], request["hung"]])
    if drawn:
        case.assertEqual(by_words, sorted(wanted))


def ask_of(request: Json) -> str:
    """Whom to ask by both legs of a proxy, where they tell it, or by the cause."""
    if not request["legs"] or not request["legs"]["sums"]:
        return str(request["cause"]["ask"] or "")
    ask = request["legs"]["ask"]
    if not ask:
        return ""
    return f"{ask['party']} of another request" if ask["who"] == "other" else str(ask["party"] or "")


def connection(case: unittest.TestCase, found: Json, one: Json, verdict: str, shown: Shown) -> None:
    """Its verdict, its faults, and what else is known of it."""
    if why := why_not(one):
        (text,) = [of["text"] for of in found["not_audited"] if of["reason"] == why]
        case.assertEqual(verdict, "not audited: one " + text.split(" ", 2)[2])
    faults(case, one, verdict, shown)
    items, caption = shown.items.get(f"c{one['number']}", []), f"connection {one['number']}"
    for text in (*one["notes"], *one["limits"]):
        case.assertIn(sentence(text), items)
    trip, place = one["round_trip"], one["captured_at"]
    case.assertEqual([item.split(", ")[0] for item in items if item.startswith("Round trip ")],
                     [f"Round trip {time_of(trip['nanos'])}"] if trip["nanos"] is not None else [])  # fmt: skip
    case.assertEqual([item for item in items if item in PLACES.values()], [PLACES[place]] if place else [])
    windows = [[f"the {of['side']}", f"{of['initial_window']:,}", place_of(of["at"]),
                place_of(of["acknowledged"]) if of["acknowledged"] else "not acknowledged"]
               for of in one["settings"]]  # fmt: skip
    case.assertEqual(shown.cells(f"Initial windows of {caption}"), windows)
    signals = [[f"the {of['side']}", of["word"], of["code_name"], place_of(of["at"]), of["debug"] or ""]
               for of in one["signals"]]  # fmt: skip
    ended = [[*cells[:4], cells[5]] for cells in shown.cells(f"How {caption} ended")]
    case.assertEqual(ended[: len(signals)], signals)
    if one["ended"]["at"] and one["ended"]["how"] in ("FIN", "RST"):
        wanted = [f"the {one['ended']['side']}", one["ended"]["how"], "", place_of(one["ended"]["at"]), ""]
        case.assertEqual(ended[-1], wanted)


def faults(case: unittest.TestCase, one: Json, verdict: str, shown: Shown) -> None:
    """Each with what makes it doubtful, or certain; no doubtful one is counted as certain."""
    rows = [row for row in shown.tables.get(f"Findings of connection {one['number']}", ())
            if "data-kind" in row[0] and not row[0]["data-kind"].endswith(STALLS)]  # fmt: skip
    told = [[cells["data-frame"], cells["data-side"], cells["data-kind"], cells["data-stream"]] for cells, _ in rows]
    case.assertEqual(told, [[str(fault["at"]["frame"]), fault["side"], fault["kind"], str(fault["stream"])]
                            for fault in one["faults"]])  # fmt: skip
    for (attributes, cells), fault in zip(rows, one["faults"]):
        is_certain = fault["certainty"] == "certain"
        case.assertEqual(attributes["class"], "fault" if is_certain else "doubtful")
        case.assertEqual(cells[-1].startswith("Doubtful: "), not is_certain)
        case.assertEqual(cells[-1].endswith(". Certain."), is_certain)
        for text in (fault["text"], fault["set_by_text"], sentence(fault["doubt"] or "")[1:]):
            case.assertIn(text or "", cells[-1])
    doubtful = sum(fault["certainty"] != "certain" for fault in one["faults"])
    case.assertEqual("doubtful" in verdict, bool(doubtful))


def place_of(at: Json) -> str:
    return f"packet {at['packet']:,}" + (f" of file {at['file']}" if at["file"] > 1 else "")
