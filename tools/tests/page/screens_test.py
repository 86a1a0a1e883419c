"""Tests of how the page of a capture stands on screens and on paper: in Chromium, and that Firefox opens it too.

    python3 -m tools.tests.page.screens_test [H2AUDIT] [FirstScreen | Sentences | Narrow | Keyboard | ..]
"""

import base64
import subprocess
import sys
import unittest
from typing import Any

from selenium.webdriver.common.action_chains import ActionChains
from selenium.webdriver.common.keys import Keys

from tools.tests.browser import IS_READY
from tools.tests.packages import require
from tools.tests.page.answers import cause, doubtful, page_of, stalled
from tools.tests.page.firefox import PROGRAM, Firefox
from tools.tests.page.page_test import crowded
from tools.tests.page.waterfall_test import ACCESSIBLE, OfAnswers
from tools.tests.page_forms import page_of as page_of_capture
from tools.tests.why_tools import TOP, has_programs, programs_of, words_for

RUNS = ("$H2AUDIT",)
TIMED = True
CAPTURES = [path for folder in ("examples", "tests/answer") for path in sorted((TOP / folder).glob("*.pcap"))]
LONG = "stalled 2 s (98 %): the client's window of 65,535 bytes was used up again and again, " * 5 + "and that is all"
LIFE = "2.05 s: the client's window 2 s (98 %), the server 50 ms (2 %)"
# Rows that stand whole above the end of the first screen, and all of them.
ROWS = """
    const rows = [...document.querySelectorAll("#rows .row")];
    return [rows.filter(row => row.getBoundingClientRect().bottom <= innerHeight).length, rows.length];
"""
# For each row that is there: what it says, whether all of it is within the row, and whether the next row is below it.
SAID = """
    const rows = [...document.querySelectorAll("#rows .row")].sort((a, b) => a.dataset.at - b.dataset.at);
    return rows.map((row, at) => {
      const { left, right, bottom } = row.getBoundingClientRect(), next = rows[at + 1]?.getBoundingClientRect();
      const texts = [...row.querySelectorAll("p, .title, .facts")].map(one => [one, one.getBoundingClientRect()]);
      const isWhole = ([one, box]) => box.left >= left && box.right <= right + 1 && box.bottom <= bottom + 1
        && (one.tagName !== "P" || one.scrollWidth <= one.clientWidth + 1);
      return [texts.map(([one]) => one.textContent), texts.every(isWhole), !next || next.top >= bottom - 1];
    });
"""
# Cells that do not stand between the edges of the screen, and boxes that would have to be scrolled sideways.
OUT_OF_SIGHT = """
    document.querySelectorAll("details").forEach(one => { one.open = true; });
    const outside = [...document.querySelectorAll("td")].filter(cell => {
      const { left, right } = cell.getBoundingClientRect();
      return left < 0 || right > innerWidth;
    });
    const wide = [...document.querySelectorAll(".scroll, #rows")].filter(one => one.scrollWidth > one.clientWidth + 1);
    return outside.concat(wide).map(one => one.textContent.slice(0, 60));
"""
# Before the texts of cells on a narrow screen.
HEADS = """
    const cells = [...document.querySelectorAll(`table.${arguments[0]} tbody tr:first-child td`)];
    return cells.map(cell => getComputedStyle(cell, "::before").content.slice(1, -1));
"""
# What Tab has to reach: of the radio buttons the one that is chosen.
CONTROLS = """
    const found = "input, select, button, a[href], summary, [tabindex='0']";
    const isReached = one => one.tabIndex >= 0 && one.checkVisibility() && (one.type !== "radio" || one.checked);
    return [...document.querySelectorAll(found)].filter(isReached);
"""


def made(report: str, document: Any, text: str) -> str:
    """The page of an answer whose first request has this sentence."""
    request = document["connections"][0]["requests"][0]
    request["cause"] = cause("stream-window", "round-trip", 2000 * 10**6, text)
    request["life"] = LIFE
    return page_of(report, document)


class OnScreens(OfAnswers):
    def screen(self, width: int, height: int) -> None:
        self.browser.command(
            "Emulation.setDeviceMetricsOverride", width=width, height=height, deviceScaleFactor=1, mobile=False
        )


class FirstScreen(OnScreens):
    def test_rows_are_in_it(self) -> None:
        """At 1,280 x 800, of each capture with requests: three rows, or all, whatever warnings stand above them."""
        self.screen(1280, 800)
        judged = 0
        for capture in CAPTURES:
            document, text = page_of_capture(words_for(capture))
            if any(one["requests"] for one in document["connections"]):
                self.open(text)
                seen, whole = self.browser.run(ROWS)
                self.assertGreaterEqual(seen, min(3, whole), capture.name)
                judged += 1
        self.assertGreater(judged, 20)

    def test_many_warnings(self) -> None:
        self.screen(1280, 800)
        report, document = stalled()
        document["warnings"] = [{"text": f"bytes are missing from {at} on", "connection": 1} for at in range(200)]
        self.open(page_of(report, document))
        self.assertGreaterEqual(self.browser.run(ROWS)[0], 3)

    def test_it_stands_above_the_tables(self) -> None:
        self.screen(1280, 800)
        self.open(page_of(*stalled()))
        above = """
            const top = one => one.getBoundingClientRect().top, rows = document.getElementById("rows");
            return [...document.querySelectorAll("table")].filter(one => one.checkVisibility())
              .every(one => top(one) > top(rows));
        """
        self.assertTrue(self.browser.run(above))


class Sentences(OnScreens):
    """They are whole, on a screen of any width and on paper."""

    def test_on_screens(self) -> None:
        for width in (1280, 800, 390):
            self.screen(width, 1000)
            self.open(made(*stalled(), LONG))
            said = self.browser.run(SAID)
            texts = [text for texts, _, _ in said for text in texts]
            self.assertIn(LONG, texts)
            self.assertIn(LIFE, texts)
            self.assertIn("ask\u00a0the\u00a0client", "".join(texts))
            self.assertTrue(all(is_whole and is_above for _, is_whole, is_above in said), (width, said))

    def test_of_many_rows(self) -> None:
        """Where rows are of different heights, each comes into sight at its place."""
        report, document = stalled()
        (one,) = document["connections"]
        rows = [{**one["requests"][2], "stream": 2 * at + 7, "name": f"GET /{at}",
                 "cause": cause("application", "between", 10**6 + at, LONG[: 9 + at % 400])}
                for at in range(400)]  # fmt: skip
        one["requests"] += rows
        document["summary"]["requests"] = len(one["requests"])
        self.screen(1000, 800)
        self.open(page_of(report, document))
        seen: set[str] = set()
        for _ in range(200):
            said = self.browser.run(SAID)
            self.assertTrue(all(is_whole and is_above for _, is_whole, is_above in said))
            seen.update(texts[0] for texts, _, _ in said)
            if self.browser.run("const rows = document.getElementById('rows'); rows.scrollTop += 400;"
                                "return rows.scrollTop + rows.clientHeight >= rows.scrollHeight - 1"):  # fmt: skip
                break
        self.browser.until("return [...document.querySelectorAll('#rows .title')].length > 0")
        seen.update(texts[0] for texts, _, _ in self.browser.run(SAID))
        self.assertEqual(len(seen), 404)

    def test_on_paper(self) -> None:
        self.screen(1280, 800)
        self.open(made(*stalled(), LONG))
        words = " ".join("".join(paper(self, 11.7)).split())
        for text in (LONG, LIFE, "ask the client"):
            self.assertIn(text, words)


class Narrow(OnScreens):
    """At 800 and at 390 pixels no column is out of sight, and each cell has its head."""

    def test_columns(self) -> None:
        names = ("negative_window_tomcat", "stream_overrun_go", "leaked_connection_credit_nginx")
        pages = [page_of_capture([str(TOP / "examples" / f"{name}.pcap")])[1] for name in names]
        pages += [page_of(*stalled()), page_of(*doubtful()), page_of(crowded(700, 20, 2))]
        for number, text in enumerate(pages):
            for width in (800, 390):
                self.screen(width, 800)
                self.open(text)
                self.assertEqual(self.browser.run(OUT_OF_SIGHT), [], (number, width))

    def test_heads(self) -> None:
        self.screen(390, 800)
        self.open(page_of(*stalled()))
        self.assertEqual(self.browser.run(HEADS, "findings"), ["Frame", "Packet", "Time", "What happened"])
        self.assertEqual(self.browser.run(HEADS, "requests")[0::5], ["Request", "What held it back"])
        self.screen(1280, 800)
        self.assertEqual(self.browser.run(HEADS, "findings"), ["on"] * 4)  # none: "none" without its ends


class Keyboard(OnScreens):
    def test_each_control(self) -> None:
        """Tab reaches all that can be used, and the arrow keys each row."""
        self.screen(1280, 800)
        self.open(page_of(*stalled()))
        self.browser.run(f"window.controls = (() => {{ {CONTROLS} }})()")
        whole = self.browser.run("return controls.length")
        self.assertGreater(whole, 30)
        reached = set()
        for _ in range(2 * whole):
            ActionChains(self.browser.driver).send_keys(Keys.TAB).perform()
            reached.add(self.browser.run("return controls.indexOf(document.activeElement)"))
        missed = [self.browser.run("return controls[arguments[0]].outerHTML.slice(0, 90)", at)
                  for at in range(whole) if at not in reached]  # fmt: skip
        self.assertEqual(missed, [])

    def test_each_row(self) -> None:
        self.screen(1280, 800)
        self.open(page_of(*stalled()))
        self.browser.run("document.querySelector('#rows button').focus()")
        heard = []
        self.browser.driver.switch_to.active_element.send_keys(Keys.HOME)
        for _ in range(4):
            focus = self.browser.driver.switch_to.active_element
            heard.append(focus.get_attribute("aria-label").split(",")[0])
            focus.send_keys(Keys.ARROW_DOWN)
        self.assertEqual(heard, ["Connection 1", "GET /faulty", "GET /hung", "GET /calm"])

    def test_findings(self) -> None:
        """Each has a link, which leads to its chart."""
        self.open(page_of(*stalled()))
        rows = "return [...document.querySelectorAll('tr[data-frame]')].filter(row => !row.querySelector('a')).length"
        self.assertEqual(self.browser.run(rows), 0)


class Accessible(OnScreens):
    def test_doubts_and_limits(self) -> None:
        """What stands beside findings has names, heads in order, and contrast, in both schemes and on a phone."""
        report, document = doubtful()
        document["warnings"] = [{"text": "times go back", "connection": None}]
        one, where = document["connections"][0], {"packet": 4, "file": 1, "time": 0, "frame": 1}
        one["notes"] = ["the server answered by HTTP/1.1"]
        one["settings"] = [{"side": "client", "initial_window": 9, "at": where, "acknowledged": where}]
        one["signals"] = [{"word": "GOAWAY", "side": "server", "code": 3, "code_name": "FLOW_CONTROL_ERROR",
                           "stream": 0, "last_stream": 7, "debug": "too much", "at": where}]  # fmt: skip
        for width, scheme in ((1280, "light"), (1280, "dark"), (390, "light")):
            self.screen(width, 800)
            self.browser.scheme(scheme)
            self.open(page_of(report, document))
            self.assertEqual(self.browser.run(ACCESSIBLE + "return faults();"), [], width)
            self.assertEqual(self.browser.run(ACCESSIBLE + "return lowContrast().low;"), [], (width, scheme))
        self.assertIn("18 doubtful faults", self.find("#windows figcaption").text)
        self.assertIn("18 doubtful faults", self.find("#rows .row[data-at='1'] button").get_attribute("aria-label"))


def paper(case: OnScreens, height: float) -> list[str]:
    """The text of each page of paper, of so many inches."""
    printed = case.browser.command("Page.printToPDF", printBackground=True, paperWidth=8.27, paperHeight=height)
    case.browser.until("return !document.documentElement.hasAttribute('data-printing')")
    done = subprocess.run(["pdftotext", "-layout", "-", "-"], input=base64.b64decode(printed["data"]),
                          capture_output=True, check=True)  # fmt: skip
    return done.stdout.decode().split("\f")


class Pages(OnScreens):
    """No head stands alone at the end of a page of paper, wherever that ends."""

    def test_heads(self) -> None:
        self.screen(1280, 800)
        pages = 0
        for text in (page_of(*stalled()), page_of(*doubtful(60)), page_of(crowded(12, 6, 2))):
            self.open(text)
            heads = set(self.browser.run(
                "return [...document.querySelectorAll('h1, h2, h3, caption, thead')].map(one =>"
                "  one.innerText.trim().replace(/\\s+/g, ' '))"
            ))  # fmt: skip
            for height in (11.7, 11, 9.3, 8.1, 7.2, 6.4, 5.9):
                for page in paper(self, height)[:-2]:
                    lines = [" ".join(line.split()) for line in page.splitlines() if line.strip()]
                    pages += 1
                    self.assertNotIn(lines[-1], heads, (height, lines[-3:]))
        self.assertGreater(pages, 60)


class InFirefox(OnScreens):
    """The page opens there too: its rows, its charts, and what a click opens."""

    firefox: Firefox

    @classmethod
    def setUpClass(cls) -> None:
        super().setUpClass()
        require(cls(), PROGRAM)
        cls.firefox = Firefox()

    @classmethod
    def tearDownClass(cls) -> None:
        cls.firefox.close()
        super().tearDownClass()

    def test_opens(self) -> None:
        path = self.folder / "page.html"
        for text, row in ((made(*stalled(), LONG), 2), (page_of_capture([str(CAPTURES[0])])[1], 1)):
            path.write_text(text)
            self.firefox.load(path)
            self.firefox.until(IS_READY)
            said = self.firefox.run(SAID)
            self.assertGreater(len(said), 1)
            self.assertTrue(all(is_whole and is_above for _, is_whole, is_above in said), said)
            self.firefox.run("document.querySelector(`#rows .row[data-at='${arguments[0]}'] button`).click()", row)
            self.assertTrue(self.firefox.run("return document.querySelector('#request h3').textContent"))
            self.firefox.until("return !!document.querySelector('#request figure canvas')")
            self.firefox.run("document.querySelector('#windows figure').scrollIntoView()")
            self.firefox.until("return !!document.querySelector('#windows figure canvas')")


if __name__ == "__main__":
    words = programs_of(sys.argv)
    if not has_programs():
        sys.exit("page_screens_test: h2audit or h2audit-import is not built")
    unittest.main(argv=words)
