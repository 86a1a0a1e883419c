"""Tests of both legs of a proxy on the page, in a real headless Chromium: the hops, the rows and what opens below them.

    python3 -m tools.tests.page.legs_test [H2AUDIT] [Hops | Rows | Opened | Screens | Captures]
"""

import base64
import json
import re
import sys
import unittest
import zlib
from typing import Any
from unittest import mock

from selenium.webdriver.common.by import By
from selenium.webdriver.support.ui import Select

from h2audit.page import waterfall
from h2audit.page.legs import WHO
from tools.tests.browser import IS_READY
from tools.tests.packages import require
from tools.tests.page.answers import MS, page_of, proxied, stalled
from tools.tests.page.firefox import PROGRAM as FIREFOX
from tools.tests.page.firefox import Firefox
from tools.tests.page.screens_test import OUT_OF_SIGHT, ROWS, SAID, OnScreens, paper
from tools.tests.page.waterfall_test import ACCESSIBLE, TOO_WIDE
from tools.tests.page_forms import page_of as page_of_capture
from tools.tests.why_tools import TOP, has_programs, programs_of

RUNS = ("$H2AUDIT",)
TIMED = True
EXAMPLE = TOP / "examples" / "slow_client_haproxy.pcap.gz"
MOST_BYTES = 5_000_000
# The bars of a row, by its title, that say whose an instant was: who, begin and end in parts of the row's life.
WHOSE = """
    const rows = [...document.querySelectorAll("#rows .row")];
    const row = rows.find(one => one.querySelector(".title").textContent === arguments[0]);
    const box = row.querySelector(".life").getBoundingClientRect();
    return [...row.querySelectorAll("[class*=who-]")].map(one => {
      const { left, right } = one.getBoundingClientRect();
      return [one.classList[1].slice(4), (left - box.left) / box.width, (right - box.left) / box.width];
    });
"""
# The begins and ends of back requests in parts of the row's life, and the bars that each has.
BACKS = """
    const rows = [...document.querySelectorAll("#rows .row")];
    const row = rows.find(one => one.querySelector(".title").textContent === arguments[0]);
    const [life, ...backs] = [...row.querySelectorAll("line.life")].map(one => one.getBoundingClientRect());
    const top = row.querySelector("svg").getBoundingClientRect().top + 49;
    const bars = [...row.querySelectorAll(".bar")].filter(one => one.getBoundingClientRect().top >= top - 1);
    return [backs.map(one => [(one.left - life.left) / life.width, (one.right - life.left) / life.width]),
      bars.map(one => one.classList[1])];
"""
LEGEND = "return [...document.querySelectorAll('#hops .legend li')].map(one => one.textContent.trim())"


def packed(text: str) -> Any:
    (data,) = re.findall(r'<script type="text/plain" id="request-data">([^<]*)<', text)
    return json.loads(zlib.decompress(base64.b64decode(data)))


class Packed(unittest.TestCase):
    """What the page carries of both legs."""

    def test_places(self) -> None:
        """Tries and front requests are named by the places of their rows, which are there."""
        said = packed(page_of(*proxied()))
        requests, connections = said["requests"], said["connections"]
        place = {(connections[one["of"]]["number"], one["stream"]): at for at, one in enumerate(requests)}
        up, tries = requests[place[2, 3]], [place[3, 5], place[3, 7]]
        self.assertEqual(up["legs"]["tries"], [[MS, 20 * MS, tries[0]], [30 * MS, 261 * MS, tries[1]]])
        self.assertEqual({requests[at]["legs"]["carries"] for at in tries}, {place[2, 3]})
        self.assertEqual(up["ask"], "upstream")
        self.assertEqual(requests[place[2, 1]]["ask"], "client of another request")

    def test_nobody_to_ask(self) -> None:
        """Where both legs name nobody, what one leg alone would ask is not asked."""
        report, document = proxied()
        other = document["connections"][1]["requests"][0]
        self.assertEqual(other["cause"]["ask"], "client")
        other["legs"]["ask"] = None
        asked = {(one["name"], bool(one["legs"]["tries"])): one["ask"]
                 for one in packed(page_of(report, document))["requests"]}  # fmt: skip
        self.assertEqual(asked["GET /other", True], "")

    def test_whose(self) -> None:
        """Each instant once; where there are too many parts sums alone, or stretches of several."""
        report, document = proxied()
        legs = document["connections"][1]["requests"][0]["legs"]
        whose = next(one["legs"]["whose"] for one in packed(page_of(report, document))["requests"] if one["legs"]
                     and one["name"] == "GET /other")  # fmt: skip
        self.assertEqual(whose, [MS, 2, MS, 5, 799 * MS, 3])
        self.assertEqual(sum(whose[::2]), sum(one["nanos"] for one in legs["sums"]))
        legs["parts"] = None
        again = next(one["legs"]["whose"] for one in packed(page_of(report, document))["requests"] if one["legs"]
                     and one["name"] == "GET /other")  # fmt: skip
        self.assertEqual(sum(again[::2]), sum(whose[::2]))

    def test_a_row_that_is_left_out(self) -> None:
        """What carried a request is there without its row, with its begin and its life."""
        report, document = proxied()
        document["connections"][2]["requests"] = []
        said = packed(page_of(report, document))["requests"]
        (slow,) = [one for one in said if one["name"] == "GET /slow"]
        self.assertEqual(slow["legs"]["tries"], [[MS, 501 * MS, -1]])

    def test_no_room(self) -> None:
        """Spans and parts are joined before requests are left out."""
        report, document = proxied()
        legs = document["connections"][0]["requests"][0]["legs"]
        legs["parts"] = [[0, MS + 7919**3 * at % MS, list(WHO)[at % 7], None] for at in range(500)]
        whole = sum(part[1] for part in legs["parts"])
        with mock.patch.object(waterfall, "MOST_BYTES", 2200):
            said = packed(page_of(report, document))["requests"]
        self.assertEqual(len(said), 8)
        (slow,) = [one for one in said if one["legs"]["tries"] and one["name"] == "GET /slow"]
        self.assertLess(len(slow["legs"]["whose"]), 2 * 65)
        self.assertEqual(sum(slow["legs"]["whose"][::2]), whole)


class Hops(OnScreens):
    def test_paragraph(self) -> None:
        """What is said of a hop stands above the rows, with its times side by side and what the colours mean."""
        report, document = proxied()
        self.screen(1280, 800)
        self.open(page_of(report, document))
        (hop,) = document["hops"]
        self.assertEqual(self.find("#hops .hop p").text, hop["text"])
        wide = "return [...document.querySelectorAll('.time rect')].map(one => one.getBoundingClientRect().width)"
        widths = self.browser.run(wide)
        whole = sum(hop["time"].values())
        for found, nanos in zip(widths, [nanos for nanos in hop["time"].values() if nanos], strict=True):
            self.assertAlmostEqual(found / sum(widths), nanos / whole, delta=0.002)
        wanted = [words for who, words in WHO.items() if hop["time"][who]]
        self.assertEqual(self.browser.run(LEGEND), wanted)
        self.assertNotIn("each leg of a proxy", page_of(*stalled()))
        above = "const top = one => document.getElementById(one).getBoundingClientRect().top;"
        self.assertTrue(self.browser.run(above + "return top('hops') < top('rows')"))

    def test_many(self) -> None:
        report, document = proxied()
        document["hops"] = [{**document["hops"][0], "text": f"proxy {at}"} for at in range(50)]
        self.screen(1280, 800)
        self.open(page_of(report, document))
        self.assertEqual(len(self.browser.driver.find_elements(By.CSS_SELECTOR, "#hops .hop")), 20)
        self.assertIn("30 more.", self.find("#hops").text)
        self.assertGreaterEqual(self.browser.run(ROWS)[0], 2)

    def test_none(self) -> None:
        """Without a proxy there is no word of one."""
        self.screen(1280, 800)
        self.open(page_of(*stalled()))
        self.assertEqual(self.browser.driver.find_elements(By.CSS_SELECTOR, "#hops, .lanes, [class*=who-]"), [])
        self.assertNotIn("proxy", self.find("body").text)


class Rows(OnScreens):
    def setUp(self) -> None:
        super().setUp()
        self.screen(1280, 1600)
        self.open(page_of(*proxied()))

    def test_whose(self) -> None:
        """One part after the other, as long as they took, to the scale of the front request."""
        found = self.browser.run(WHOSE, "POST /up")
        self.assertEqual([who for who, _, _ in found], ["upstream", "back", "upstream", "proxy", "front"])
        for (_, left, right), (begin, end) in zip(found, ((0, 30), (30, 110), (110, 260), (260, 300), (300, 301))):
            self.assertAlmostEqual(left, begin / 301, delta=0.02)
            self.assertAlmostEqual(right, end / 301, delta=0.02)
        names = [one.text for one in self.browser.driver.find_elements(By.CSS_SELECTOR, ".word-of")]
        self.assertIn("another request", names)
        self.assertIn("client", names)

    def test_back(self) -> None:
        """Below it each try at its time, with its own shares; of an upload in two lanes."""
        backs, bars = self.browser.run(BACKS, "POST /up")
        wanted = ((1, 21), (30, 291))
        for (left, right), (begin, end) in zip(backs, wanted, strict=True):
            self.assertAlmostEqual(left, begin / 301, delta=0.02)
            self.assertAlmostEqual(right, end / 301, delta=0.02)
        self.assertEqual(bars, ["waiting", "sending", "waiting", "sending"])
        high = "return [...document.querySelectorAll('#rows .row svg')].map(one => one.getBoundingClientRect().height)"
        self.assertEqual({*self.browser.run(high)}, {26, 49, 62, 75})

    def test_lanes(self) -> None:
        lanes = "return [...document.querySelectorAll('.lanes')].map(one => one.innerText.split(/\\s+/).join(' '))"
        self.assertEqual(sorted(self.browser.run(lanes)), ["front whose", *["front whose back"] * 3])
        apart = """
            const overlap = (a, b) => a.right > b.left && b.right > a.left && a.bottom > b.top && b.bottom > a.top;
            return [...document.querySelectorAll("#rows .row")].filter(row => {
              const boxes = names => [...row.querySelectorAll(names)].map(one => one.getBoundingClientRect());
              const texts = boxes(".title, .facts, p");
              return boxes(".lanes > span").some(lane => texts.some(text => overlap(lane, text)));
            }).length;
        """
        self.assertEqual(self.browser.run(apart), 0)

    def test_sentences(self) -> None:
        """They are whole, those on both legs first; whom both legs name is asked; the button's name says it too."""
        said = self.browser.run(SAID)
        self.assertTrue(all(is_whole and is_above for _, is_whole, is_above in said), said)
        (other,) = [texts for texts, _, _ in said if texts[0] == "GET /other" and "ask" in texts[1]]
        self.assertIn("ask\u00a0the\u00a0client\u00a0of\u00a0another\u00a0request", other[1])
        self.assertTrue(other[2].startswith("ask the client of GET /slow (connection 1 stream 1)"))
        heard = "return [...document.querySelectorAll('#rows button')].map(one => one.getAttribute('aria-label'))"
        self.assertTrue(any("stood behind it" in one for one in self.browser.run(heard)))
        self.assertTrue(any("carries GET" in one or "carries /other" in one for one in self.browser.run(heard)))

    def test_filters(self) -> None:
        options = [one.text for one in self.browser.driver.find_elements(By.CSS_SELECTOR, "#held optgroup option")]
        self.assertEqual(options, ["its client", "another request", "the upstream"])
        Select(self.find("#held")).select_by_value("who-other")
        self.assertEqual(self.names(), ["Connection 2", "GET /other"])

    def test_accessible(self) -> None:
        for width in (1280, 390):
            for scheme in ("light", "dark"):
                self.screen(width, 1000)
                self.browser.scheme(scheme)
                self.open(page_of(*proxied()))
                self.assertEqual(self.browser.run(ACCESSIBLE + "return faults();"), [], (width, scheme))
                self.assertEqual(self.browser.run(ACCESSIBLE + "return lowContrast().low;"), [], (width, scheme))

    def test_without_scripts(self) -> None:
        text = self.text_without_scripts(self.folder / "page.html")
        for words in (
            "Ask the client 10.0.0.1:1 of GET /slow.",
            "ask the client of GET /slow",
            "the proxy answered itself",
        ):
            self.assertIn(words, text)


class Opened(OnScreens):
    """What a click shows of both legs, and the way from one to the other."""

    def test_table_and_ways(self) -> None:
        self.screen(1280, 1600)
        self.open(page_of(*proxied()))
        (row,) = [row for row in self.browser.driver.find_elements(By.CSS_SELECTOR, "#rows .row")
                  if row.find_elements(By.CLASS_NAME, "lanes") and "POST /up" in row.text]  # fmt: skip
        row.find_element(By.CSS_SELECTOR, "svg").click()
        rows = "return [...document.querySelectorAll('#request .whose tbody tr')].map(row => "
        rows += "[...row.cells].map(cell => cell.textContent).join('|'))"
        wanted = ["the upstream||150 ms|50 %", "the way to the upstream||80 ms|27 %", "the proxy|held|40 ms|13 %",
                  "the upstream|failed-try|30 ms|10 %", "the way to the client||1 ms|0.33 %"]  # fmt: skip
        self.assertEqual(self.browser.run(rows), wanted)
        self.assertIn("Ask the upstream.", self.find("#request").text)
        self.assertEqual(self.browser.run(ACCESSIBLE + "return faults();"), [])
        ways = self.find("#request").find_elements(By.CSS_SELECTOR, "p.keys button")
        names = [one.text for one in ways if one.text.startswith("Back: ")]
        self.assertEqual(names, ["Back: POST /up, connection 3"] * 2)
        ways[0].click()
        self.assertIn("of connection 3", self.find("#request h3").text)
        (front,) = [one for one in self.find("#request").find_elements(By.CSS_SELECTOR, "p.keys button")
                    if one.text.startswith("Front: ")]  # fmt: skip
        front.click()
        self.assertIn("of connection 2", self.find("#request h3").text)


class Screens(OnScreens):
    def test_narrow(self) -> None:
        for width in (800, 390):
            self.screen(width, 800)
            self.open(page_of(*proxied()))
            self.assertEqual(self.browser.run(TOO_WIDE), [], width)
            self.assertEqual(self.browser.run(OUT_OF_SIGHT), [], width)
            said = self.browser.run(SAID)
            self.assertTrue(all(is_whole and is_above for _, is_whole, is_above in said), (width, said))

    def test_on_paper(self) -> None:
        self.screen(1280, 800)
        self.browser.scheme("dark")
        self.open(page_of(*proxied()))
        words = " ".join("".join(paper(self, 11.7)).split())
        for text in ("Ask the client 10.0.0.1:1 of GET /slow.", "behind another request", "stood behind it"):
            self.assertIn(text, words)


class Captures(OnScreens):
    """The page of a capture says of both legs what the document does."""

    def test_example(self) -> None:
        document, text = page_of_capture([str(EXAMPLE)])
        self.assertLess(len(text.encode()), MOST_BYTES)
        self.screen(1280, 800)
        self.open(text)
        self.assertEqual([one.text for one in self.browser.driver.find_elements(By.CSS_SELECTOR, "#hops .hop p")],
                         [hop["text"] for hop in document["hops"]])  # fmt: skip
        self.assertGreaterEqual(self.browser.run(ROWS)[0], 2)
        said = packed(text)
        lines = {(said["connections"][one["of"]]["number"], one["stream"]): one["legs"] for one in said["requests"]}
        for connection in document["connections"]:
            for request in connection["requests"]:
                legs = lines[connection["number"], request["stream"]]
                self.assertEqual(legs["text"], request["legs"]["text"])
                sums = request["legs"]["sums"]
                self.assertEqual(sum(legs["whose"][::2]), sum(one["nanos"] for one in sums or ()))
                self.assertEqual(len(legs["tries"]), len(request["legs"]["carried_by"] or ()))
                self.assertTrue(all(at >= 0 for _, _, at in legs["tries"]))


class InFirefox(OnScreens):
    def test_bars(self) -> None:
        """Parts and tries stand there at the same places."""
        require(self, FIREFOX)
        self.open(page_of(*proxied()))
        firefox = Firefox()
        self.addCleanup(firefox.close)
        firefox.load(self.folder / "page.html")
        firefox.until(IS_READY)
        found = firefox.run(WHOSE, "GET /other")
        self.assertEqual([who for who, _, _ in found][-1], "other")
        self.assertAlmostEqual(found[-1][2], 1, delta=0.02)
        self.assertAlmostEqual(found[-1][1], 2 / 801, delta=0.02)


if __name__ == "__main__":
    sys.argv = programs_of(sys.argv)
    if not has_programs():
        sys.exit("h2audit or h2audit-import is not built")
    unittest.main()
