"""The whole page: one HTML file that loads nothing, since its policy lets it load nothing."""

import base64
import hashlib
from importlib import resources

from h2audit.page.chart_data import Packed, packed
from h2audit.page.heads import narrow
from h2audit.page.legs import hops_section
from h2audit.page.library import Library
from h2audit.page.markup import Markup, element
from h2audit.page.model import Audit
from h2audit.page.summary import summary, top
from h2audit.page.tables import Choice, chosen, connections, left_out, others, section, thinning
from h2audit.page.waterfall import Waterfall, waterfall, waterfall_section

MOST_BYTES = 4_950_000
# How many times their least size the tables may have, the first that fits.
ROWS = (4, 2, 1, 0.5, 0.1, 0.02)
SCRIPTS = ("data.js", "chart.js", "filters.js", "spans.js", "legs.js", "waterfall.js", "tables.js", "main.js")


def asset(name: str) -> str:
    return resources.files("h2audit.page").joinpath("assets", name).read_text(encoding="utf-8")


def source_hash(text: str) -> str:
    return f"'sha256-{base64.b64encode(hashlib.sha256(text.encode()).digest()).decode()}'"


def policy(scripts: list[str], styles: list[str]) -> str:
    """Only these scripts run and only these styles count; nothing is fetched, framed or sent (CSP level 3)."""
    return (
        "default-src 'none'; base-uri 'none'; form-action 'none'; "
        f"script-src {' '.join(map(source_hash, scripts))}; style-src {' '.join(map(source_hash, styles))}"
    )


def page(audit: Audit, title: str, library: Library) -> str:
    """The page with as much of the report in its tables as a size allows; at least it has very little."""
    requests = waterfall(audit) if audit.has_credit else None
    # What the waterfall takes is not there for charts.
    charts = packed(audit, len(requests.text) * 3 // 4 if requests else 0) if audit.has_credit else None
    for times in ROWS:
        text = page_with(audit, title, library, charts, times, requests)
        if len(text.encode()) <= MOST_BYTES:
            break
    return text


def page_with(
    audit: Audit, title: str, library: Library, charts: Packed | None, times: float, requests: Waterfall | None = None
) -> str:
    own = '(() => {\n"use strict";\n' + "\n".join(map(asset, SCRIPTS)) + "\n})();\n"
    scripts = [library.script, own] if charts else []
    styles = [library.style, asset("page.css") + narrow()]
    return "".join(
        [
            '<!DOCTYPE html>\n<html lang="en">\n',
            head(title, policy(scripts, styles), styles),
            body(audit, title, charts, chosen(audit, times), requests_markup(requests, times), library),
            *[element("script", Markup(script)) for script in scripts],
            "</body>\n</html>\n",
        ]
    )


def head(title: str, rules: str, styles: list[str]) -> Markup:
    return element(
        "head",
        [
            Markup('<meta charset="utf-8">\n'),
            Markup(f'<meta http-equiv="Content-Security-Policy" content="{rules}">\n'),
            Markup('<meta name="viewport" content="width=device-width, initial-scale=1">\n'),
            Markup('<meta name="referrer" content="no-referrer">\n<meta name="color-scheme" content="light dark">\n'),
            element("title", title),
            *[element("style", Markup(style)) for style in styles],
        ],
    )


def requests_markup(requests: Waterfall | None, times: float) -> Markup:
    return waterfall_section(requests, times, asset_markup("waterfall.html")) if requests else Markup("")


def body(audit: Audit, title: str, charts: Packed | None, choice: Choice, requests: Markup, library: Library) -> Markup:
    shown = [section(audit, one, choice) for one in audit.connections if id(one) in choice.sections]
    filters = asset_markup("filters.html") if charts else Markup("")
    sums = summary(audit, choice.notes)
    main = [
        top(audit),
        hops_section(audit, asset_markup("whose.html")),
        # What is seen without scrolling: requests over time, where there are some.
        *([filters, requests, sums] if requests else [sums, filters]),
        left_out(choice, charts),
        chart_section(audit, charts),
        connections(audit, choice),
        *shown,
        others(audit, choice),
    ]
    source = "a capture, by h2audit and h2audit-why" if audit.answer else "a report of h2audit"
    about = element("p", f"Made by h2audit-page from {source}. The rules are those of RFC 9113, HTTP/2.")
    return Markup(
        "<body>\n"
        + element("header", element("h1", title))
        + "\n"
        + element("main", main, class_="large" if choice.left_out else None)
        + "\n"
        + element("footer", [about, licence(library)] if charts else about)
    )


def chart_section(audit: Audit, charts: Packed | None) -> Markup:
    parts = [element("h2", "Credit of each window")]
    if charts is None:
        windows = not all(one.unaudited for one in audit.connections)
        said = "The report has no credit lines, so there are no charts. Make it with h2audit --frames to have them."
        return element("section", [*parts, element("p", said)], id="charts") if windows else Markup("")
    parts += [
        element("p", Markup("Charts need JavaScript; the tables below do not."), id="no-charts"),
        thinning(charts),
        asset_markup("help.html"),
        element("div", "", id="windows"),
        element("script", Markup(charts.text), type="text/plain", id="chart-data"),
    ]
    return element("section", parts, id="charts")


def asset_markup(name: str) -> Markup:
    return Markup(asset(name))


def licence(library: Library) -> Markup:
    said = [
        element("summary", f"Charts by dygraphs {library.version}, MIT licence"),
        element("pre", library.licence, tabindex="0"),
    ]
    return element("details", said)
