"""Tests of the page in a real headless Chromium: its waterfall of requests, three widths, and paper.

    python3 -m tools.tests.page.waterfall_test [Waterfall | Widths | Paper | Searches | Lists | Many]
"""

import base64
import pathlib
import re
import subprocess
import unittest
import zlib

from selenium.webdriver.common.by import By
from selenium.webdriver.common.keys import Keys
from selenium.webdriver.support.ui import Select

from tools.tests.page.answers import FLOWS, HEAD, MS, finding, many, opening, page_of, stalled
from tools.tests.page.browser_test import EXAMPLES, PIXELS, InBrowser, colour

TIMED = True
TOP = pathlib.Path(__file__).resolve().parents[3]

ACCESSIBLE = (TOP / "tools" / "tests" / "page" / "accessible.js").read_text()
NAMES = "return [...document.querySelectorAll('#rows .row')].sort((a, b) => a.dataset.at - b.dataset.at)"
NAMES += ".map(row => row.querySelector('.title').textContent)"
# Where a word of a table stands on two lines; hyphens may end a line.
BROKEN_WORDS = """
    const found = [], range = document.createRange();
    for (const cell of document.querySelectorAll("th, td")) {
      const walk = document.createTreeWalker(cell, NodeFilter.SHOW_TEXT);
      for (let node = walk.nextNode(); node; node = walk.nextNode()) {
        for (const word of node.data.matchAll(/[^\\s-]+/g)) {
          range.setStart(node, word.index);
          range.setEnd(node, word.index + word[0].length);
          if (new Set([...range.getClientRects()].map(one => Math.round(one.top))).size > 1) found.push(word[0]);
        }
      }
    }
    return found;
"""
# What is wider than the page, and no box that scrolls.
TOO_WIDE = """
    return [...document.querySelectorAll("body *")].filter(one => one.checkVisibility()
      && !one.closest(".scroll, #rows, svg") && one.getBoundingClientRect().right > innerWidth + 1)
      .map(one => one.outerHTML.slice(0, 80));
"""
LABELS_OF_HEIGHTS = "return [...document.querySelectorAll('.dygraph-axis-label-y')].map(one => one.textContent)"
CUT_LABELS = """
    return [...document.querySelectorAll("#windows .dygraph-axis-label-y")]
      .filter(one => one.scrollWidth > one.clientWidth + 1).map(one => one.textContent);
"""


def requests_of(text: str) -> str:
    (data,) = re.findall(r'<script type="text/plain" id="request-data">([^<]*)<', text)
    return zlib.decompress(base64.b64decode(data)).decode()


class OfAnswers(InBrowser):
    def open(self, text: str, name: str = "page.html") -> pathlib.Path:
        path = self.folder / name
        path.write_text(text)
        self.browser.load(path)
        return path

    def wide(self, width: int) -> None:
        self.browser.command(
            "Emulation.setDeviceMetricsOverride", width=width, height=1000, deviceScaleFactor=1, mobile=False
        )

    def names(self) -> list[str]:
        found: list[str] = self.browser.run(NAMES)
        return found


class Waterfall(OfAnswers):
    def setUp(self) -> None:
        super().setUp()
        self.wide(1200)
        self.open(page_of(*stalled()))

    def test_rows(self) -> None:
        """The connection's own row first, then its requests by trouble, each with its bars and marks."""
        self.assertEqual(self.names(), ["Connection 1", "GET /faulty", "GET /hung", "GET /calm"])
        bars = """
            return [...document.querySelectorAll('#rows .row')].map(row =>
              [...row.querySelectorAll('svg .bar, svg .mark')].map(one => one.getAttribute('class')).join(', '));
        """
        self.assertEqual(
            self.browser.run(bars),
            [
                "",
                "bar tcp, bar unseen, mark fault, mark end",
                "bar sending, bar stream_stall, mark hung",
                "bar waiting, bar idle, mark end",
            ],
        )

    def test_bars_stand_at_their_times(self) -> None:
        """By the scale of the curve: the stall is as wide as two of the 2.1 seconds of the connection."""
        wide = """
            const wide = (row, name) => Number(document.querySelectorAll('#rows .row')[row]
              .querySelector(name).getBoundingClientRect().width);
            const right = one => one.getBoundingClientRect().right, rows = document.getElementById('rows');
            const isWhole = right(document.querySelector('#rows .life')) < right(rows.querySelector('.row'));
            return [wide(2, '.stream_stall'), wide(0, '.life'), isWhole];
        """
        stall, life, is_whole = self.browser.run(wide)
        self.assertTrue(is_whole)
        self.assertAlmostEqual(stall / life, 2 / 2.1, delta=0.01)
        self.assertGreater(life, 400)

    def test_sorts(self) -> None:
        Select(self.find("#order")).select_by_value("time")
        self.assertEqual(self.names(), ["Connection 1", "GET /hung", "GET /calm", "GET /faulty"])
        Select(self.find("#order")).select_by_value("life")
        self.assertEqual(self.names(), ["Connection 1", "GET /hung", "GET /calm", "GET /faulty"])
        Select(self.find("#scale")).select_by_value("own")
        self.assertEqual(self.names(), ["GET /hung", "GET /calm", "GET /faulty"])

    def test_filters(self) -> None:
        Select(self.find("#held")).select_by_value("hung")
        self.assertEqual(self.names(), ["Connection 1", "GET /hung"])
        Select(self.find("#held")).select_by_value("")
        Select(self.find("#kind")).select_by_value("fault")
        self.assertEqual(self.names(), ["Connection 1", "GET /faulty"])
        Select(self.find("#kind")).select_by_value("stall")
        self.assertEqual(self.names(), ["Connection 1", "GET /hung"])
        Select(self.find("#kind")).select_by_value("")
        self.find("#search").send_keys("/CALM")
        self.assertEqual(self.names(), ["Connection 1", "GET /calm"])
        self.assertEqual(self.find("#rows-found").text, "1 of 3 requests")

    def test_a_click_opens_the_charts_beside_the_findings(self) -> None:
        self.find("#rows .row[data-at='2'] svg").click()
        panel = self.find("#request")
        said = "HUNG for 2 s: the client granted nothing. Ask the client. Opened in packet 3. Not ended:"
        self.assertIn(said, panel.text)
        self.assertIn("server used up its credit on stream 1", panel.text)
        heads = [one.text for one in panel.find_elements(By.CSS_SELECTOR, "figure h3")]
        self.assertEqual(heads, ["Connection 1, server, stream 1"])
        for name in ("line", "stall"):
            self.assertGreater(self.browser.run(PIXELS, "#request figure", *colour(name, "light")), 20, name)
        self.assertEqual(self.browser.run(ACCESSIBLE + "return faults();"), [])
        panel.find_element(By.TAG_NAME, "button").click()
        self.assertFalse(panel.is_displayed())

    def test_keys(self) -> None:
        """One stop for Tab; arrows go from row to row, Enter opens one, and to close it goes back."""
        stops = "return document.querySelectorAll('#rows button[tabindex=\"0\"]').length"
        self.assertEqual(self.browser.run(stops), 1)
        self.browser.run("document.querySelector('#rows button[tabindex=\"0\"]').focus()")
        focus = self.browser.driver.switch_to
        self.assertTrue(focus.active_element.get_attribute("aria-label").startswith("GET /faulty, connection 1"))
        focus.active_element.send_keys(Keys.ARROW_DOWN)
        self.assertIn("hung", focus.active_element.get_attribute("aria-label"))
        focus.active_element.send_keys(Keys.ENTER)
        self.assertEqual(focus.active_element.text, "GET /hung, stream 1 of connection 1")
        focus.active_element.send_keys(Keys.TAB)
        focus.active_element.send_keys(Keys.ENTER)
        self.assertTrue(focus.active_element.get_attribute("aria-label").startswith("GET /hung"))
        self.assertEqual(self.browser.run(stops), 1)

    def test_zoom(self) -> None:
        wide = "return document.querySelector('#rows .stream_stall').getBoundingClientRect().width"
        before = self.browser.run(wide)
        self.find("[data-zoom=out]").click()
        self.assertAlmostEqual(self.browser.run(wide), before / 2, delta=3)
        self.find("[data-zoom=whole]").click()
        self.assertAlmostEqual(self.browser.run(wide), before, delta=1)

    def test_accessible(self) -> None:
        for scheme in ("light", "dark"):
            self.browser.scheme(scheme)
            self.assertEqual(self.browser.run(ACCESSIBLE + "return faults();"), [])
            self.assertEqual(self.browser.run(ACCESSIBLE + "return lowContrast().low;"), [])

    def test_without_scripts(self) -> None:
        text = self.text_without_scripts(self.folder / "page.html")
        self.assertIn("HUNG for 2 s: the client granted nothing", text)
        self.assertNotIn("Zoom in", text)


class Widths(OfAnswers):
    """At three widths no word of a table is broken, and nothing stands beyond the page."""

    def test_tables(self) -> None:
        pages = [page_of(*stalled()), page_of((EXAMPLES / "negative_window_tomcat.frames.report").read_text())]
        for number, text in enumerate(pages):
            self.open(text)
            for width in (1280, 800, 390):
                self.wide(width)
                self.browser.run("document.querySelectorAll('#requests-table').forEach(one => { one.open = true; })")
                self.assertEqual(self.browser.run(BROKEN_WORDS), [], (number, width))
                self.assertEqual(self.browser.run(TOO_WIDE), [], (number, width))

    def test_a_narrow_waterfall(self) -> None:
        self.wide(390)
        self.open(page_of(*stalled()))
        self.assertEqual(len(self.names()), 4)
        self.assertEqual(self.browser.run(ACCESSIBLE + "return faults();"), [])

    def test_labels_of_the_greatest_window(self) -> None:
        """2,147,483,647 stands whole at the axis."""
        self.wide(800)
        line = finding(1, 5, "server", "stream-credit", 1, 2**31 - 1) + finding(
            2, 8 * MS, "server", "stream-credit", 1, -(2**31) + 1
        )
        self.open(page_of(HEAD + opening(1) + FLOWS + line + "audit of all frames\n"))
        self.drawn()
        labels = self.browser.run(LABELS_OF_HEIGHTS)
        self.assertIn("-2,000,000,000", labels)
        self.assertEqual(self.browser.run(CUT_LABELS), [])


class Paper(OfAnswers):
    """What is printed, from a dark screen too: light, with its charts, and nothing cut off."""

    def pages(self, pdf: bytes) -> list[tuple[int, int, bytes]]:
        """The pages as pixels: width, height, and three bytes for each."""
        (self.folder / "page.pdf").write_bytes(pdf)
        subprocess.run(["pdftoppm", "-r", "60", self.folder / "page.pdf", self.folder / "paper"], check=True)
        found = []
        for path in sorted(self.folder.glob("paper-*.ppm")):
            _, size, _, pixels = path.read_bytes().split(b"\n", 3)
            found.append((*map(int, size.split()), pixels))
            path.unlink()
        return found  # type: ignore[return-value]

    def near(self, pages: list[tuple[int, int, bytes]], name: str) -> int:
        """How many pixels have about this colour of the light scheme."""
        red, green, blue = colour(name, "light")
        return sum(
            abs(pixels[at] - red) + abs(pixels[at + 1] - green) + abs(pixels[at + 2] - blue) < 60
            for _, _, pixels in pages
            for at in range(0, len(pixels) - 2, 3)
        )

    def judge(self, pdf: bytes) -> None:
        pages = self.pages(pdf)
        self.assertGreater(self.near(pages, "stall"), 3000)
        self.assertGreater(self.near(pages, "line"), 100)
        self.assertGreater(self.near(pages, "stream-stall"), 100)
        for wide, high, pixels in pages:
            ground = sum(pixels[at : at + 3] == b"\xff\xff\xff" for at in range(0, len(pixels), 3))
            self.assertGreater(ground, wide * high // 2)  # it is light
            edges = (*range(8), *range(wide - 8, wide))
            margins = {pixels[3 * (row * wide + column)] for row in range(high) for column in edges}
            self.assertEqual(margins, {255})  # nothing goes on beyond the paper

    def test_from_a_dark_screen(self) -> None:
        for width in (1280, 390):
            self.wide(width)
            self.browser.scheme("dark")
            self.open(page_of(*stalled()))
            self.judge(base64.b64decode(self.browser.command("Page.printToPDF", printBackground=True)["data"]))
            self.browser.until("return !document.documentElement.hasAttribute('data-printing')")

    def test_as_soon_as_it_is_loaded(self) -> None:
        path = self.folder / "page.html"
        path.write_text(page_of(*stalled()))
        out = self.folder / "soon.pdf"
        words = ["chromium", "--headless=new", "--no-sandbox", "--disable-gpu", "--no-pdf-header-footer"]
        subprocess.run([*words, f"--user-data-dir={self.folder}/user", f"--print-to-pdf={out}", f"file://{path}"],
                       check=True, capture_output=True, timeout=100)  # fmt: skip
        self.judge(out.read_bytes())


class Searches(OfAnswers):
    def test_whole_numbers_addresses_and_kinds(self) -> None:
        report = HEAD
        for number in (7, 70):
            report += opening(number) + FLOWS + finding(2, 5, "client", "stream-overrun", 1, -1)
            report += finding(2, 5, "client", "stream-credit", 1, -1)
        self.open(page_of(report))
        for words, windows, findings in (
            ("connection 7", 1, 1),
            ("connection 70", 1, 1),
            ("10.0.0.1:7", 1, 1),
            ("10.0.0.2:443", 2, 2),
            ("stream-overrun", 2, 2),
            ("10.0.0.1", 2, 2),
            ("0.0.0.1", 0, 0),
        ):
            self.find("#search").clear()
            self.find("#search").send_keys(words)
            self.assertEqual(
                self.find("#found").text, f"{windows} of 2 windows, {findings} finding" + "s" * (findings != 1), words
            )


class Lists(OfAnswers):
    def test_connections_are_sorted_by_a_head(self) -> None:
        """By numbers, and not by letters: connection 9 stands before connection 10."""
        report = HEAD + "".join(
            opening(number, 5000 - number) + FLOWS + finding(2, number, "client", "connection-credit", 0, 9)
            for number in range(1, 13)
        )
        self.open(page_of(report))
        cells = "return [...document.querySelectorAll('#connections td:first-child')].map(cell => cell.textContent)"
        ordered = [f"connection {number}" for number in range(1, 13)]
        frames = self.find("#connections th:nth-child(5) button")
        frames.click()
        self.assertEqual(self.browser.run(cells), ordered[::-1])
        self.assertEqual(self.find("#connections th:nth-child(5)").get_attribute("aria-sort"), "ascending")
        frames.click()
        self.assertEqual(self.browser.run(cells), ordered)
        self.find("#connections th:nth-child(1) button").send_keys(Keys.ENTER)
        self.assertEqual(self.browser.run(cells), ordered)
        self.assertEqual(self.browser.run(ACCESSIBLE + "return faults();"), [])


class Many(OfAnswers):
    """As many requests as a page has: it is small enough, opens soon enough, and has few rows at a time."""

    def test_rows_come_into_sight(self) -> None:
        report, document = many(16, 64)
        text = page_of(report, document)
        self.assertLess(len(text.encode()), 5 * 10**5)
        path = self.open(text)
        before = self.browser.processor_seconds()
        self.browser.load(path)
        spent = max(seconds - before.get(number, 0) for number, seconds in self.browser.processor_seconds().items())
        self.assertLess(spent, 1.5)
        self.assertLess(len(self.names()), 40)
        first = self.names()[0]
        self.browser.run("document.getElementById('rows').scrollTop = 20000")
        self.browser.until(NAMES + ".every(name => name !== arguments[0])", first)
        self.assertLess(len(self.names()), 40)
        self.find("#search").send_keys("stream 99")
        kept = len(re.findall(r'"stream":99,', requests_of(text)))
        self.assertEqual(kept, 16)
        self.browser.until(f"return document.getElementById('rows-found').textContent.startsWith('{kept} of ')")


if __name__ == "__main__":
    unittest.main()
