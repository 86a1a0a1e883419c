"""Both legs of a proxy on the page: a paragraph and a bar for each hop, and what the waterfall shows of a request.

What h2audit-why says of them is defined in docs/WHY.md, section 14.
"""

from h2audit.page.markup import Markup, element, markup
from h2audit.page.model import Audit
from h2audit.page.spans import Span, packed_spans
from h2audit.report.answer_types import Hop, Legs, Request

# Whose an instant is, in the order of their colours, and in words.
WHO = {
    "client": "the client",
    "front": "the way to the client",
    "proxy": "the proxy",
    "other": "behind another request",
    "back": "the way to the upstream",
    "upstream": "the upstream",
    "unseen": "not seen",
}
KIND = {who: at for at, who in enumerate(WHO)}
# Behind the client or the upstream that is asked, where it is another one's.
OTHERS = "of another request"
MOST_HOPS = 20
Place = tuple[int, int]


def hops_of(audit: Audit) -> list[Hop]:
    return audit.answer.document["hops"] if audit.answer else []


def hops_section(audit: Audit, patterns: Markup) -> Markup:
    """What is said of each proxy, with its time by who, and what the colours and their patterns mean."""
    hops = hops_of(audit)
    if not hops:
        return Markup("")
    said = [
        element("div", [element("p", hop["text"]), time_bar(hop["time"])], class_="hop") for hop in hops[:MOST_HOPS]
    ]
    more = len(hops) - len(said)
    parts = [
        element("h2", "Both legs of a proxy" if len(hops) == 1 else "Both legs of proxies", id="hops-head"),
        element("div", said, tabindex="0", role="region", aria_labelledby="hops-head", class_="hops"),
        element("p", f"{more:,} more.", class_="note") if more else Markup(""),
        legend(hops),
        patterns,
    ]
    return element("section", markup(parts), id="hops")


def time_bar(time: dict[str, int]) -> Markup:
    """Times side by side; the paragraph above says them in words."""
    whole, left, bars = sum(time.values()), 0, []
    for who, nanos in time.items():
        if nanos:
            x, width = (f"{100 * one / whole:.3f}%" for one in (left, nanos))
            bars.append(element("rect", class_=f"bar who-{who}", x=x, y=1, width=width, height=14))
        left += nanos
    return element("svg", bars, width="100%", height=16, aria_hidden="true", class_="time") if bars else Markup("")


def legend(hops: list[Hop]) -> Markup:
    """The legend: all whose time occurs."""
    found = [who for who in WHO if any(hop["time"][who] for hop in hops)]
    return element("ul", [element("li", [sample(who), WHO[who]]) for who in found], class_="legend",
                   aria_label="Whose the time was")  # fmt: skip


def sample(who: str) -> Markup:
    bar = element("rect", class_=f"bar who-{who}", x=1, y=1, width=32, height=12)
    return Markup(element("svg", bar, width=34, height=14, aria_hidden="true") + " ")


def lines_of(request: Request) -> list[str]:
    """What is said of both legs of a request, the worst first."""
    return request["legs"]["text"] if request["legs"] else []


def asked_of(request: Request) -> str:
    """Whom to ask about a request, or nobody: by both legs where they tell whose its time was, or else by its cause."""
    legs = request["legs"]
    if not legs or legs["sums"] is None:
        return request["cause"]["ask"] or ""
    if not (ask := legs["ask"]):
        return ""
    return f"{ask['party']} {OTHERS}" if ask["who"] == "other" else ask["party"] or ""


def by_legs(request: Request) -> tuple[bool, int]:
    """Whether a request is a back one alone, and the time that someone took of a front one."""
    if not (legs := request["legs"]):
        return False, 0
    return bool(legs["carries"] and not legs["carried_by"]), legs["ask"]["nanos"] if legs["ask"] else 0


def packed_legs(request: Request, places: dict[Place, int], most: int) -> dict[str, object] | None:
    """Whose each instant was, the back requests that carried it by their places among the rows, and the front one."""
    legs = request["legs"]
    if not legs:
        return None
    carries = legs["carries"]
    return {
        "whose": whose(legs, most),
        "tries": [
            [one["begin"], one["nanos"], places.get((one["connection"], one["stream"]), -1)]
            for one in legs["carried_by"] or ()
        ],
        "carries": places.get((carries["connection"], carries["stream"]), -1) if carries else -1,
        "who": legs["ask"]["who"] if legs["ask"] else None,
        "sums": [[KIND[one["who"]], one["why"], one["nanos"]] for one in legs["sums"] or ()],
        "text": legs["text"],
    }


def whose(legs: Legs, most: int) -> list[int]:
    """Whose each instant was, one after the other; or sums alone, where there are too many parts."""
    if legs["parts"] is None:
        return [number for one in legs["sums"] or () for number in (one["nanos"], KIND[one["who"]])]
    return packed_spans(parts_of(legs), most, KIND)


def parts_of(legs: Legs | None) -> list[Span]:
    """The parts of a life by who alone, as spans; those of one that follow each other are one."""
    found: list[Span] = []
    for begin, nanos, who, _ in legs["parts"] or () if legs else ():
        if found and found[-1][2] == who:
            before = found.pop()
            begin, nanos = before[0], before[1] + nanos
        found.append((begin, nanos, who))
    return found
