"""Tests of h2audit-page in a real headless Chromium: what it shows of each example, and what clicks, keys and drags do.

    python3 -m tools.tests.page.browser_test            runs the tests
    python3 -m tools.tests.page.browser_test --write    takes the pictures of docs/ anew
"""

import base64
import io
import json
import pathlib
import re
import subprocess
import sys
import tempfile
import unittest
import zlib
from typing import Any
from unittest import mock

from selenium.webdriver.common.action_chains import ActionChains
from selenium.webdriver.common.by import By
from selenium.webdriver.common.keys import Keys
from selenium.webdriver.remote.webelement import WebElement
from selenium.webdriver.support.ui import Select

from h2audit.page import chart_data, document
from h2audit.page.library import library
from h2audit.page.model import read_audit
from h2audit.report.charts import document_of_report
from tools.tests.browser import Browser
from tools.tests.page.page_test import FINDING, crowded, large

RUNS = ("Examples Hands Schemes Hostile Merged", "Large", "Crowded")
TIMED = True
TOP = pathlib.Path(__file__).resolve().parents[3]
PROGRAM = TOP / "tools" / "h2audit-page"
EXAMPLES = TOP / "examples"
PICTURES = TOP / "docs" / "pictures"
PICTURED, TITLE = "leaked_connection_credit_nginx", "Downloads that stood still"
PROXIED = "slow_client_haproxy"


# How many pixels of the canvases of the first chart have about this colour.
PIXELS = """
    const [figure, red, green, blue] = arguments;
    let number = 0;
    for (const canvas of document.querySelectorAll(`${figure} canvas`)) {
      if (!canvas.width) continue;
      const copy = new OffscreenCanvas(canvas.width, canvas.height).getContext("2d", { willReadFrequently: true });
      copy.drawImage(canvas, 0, 0);
      const { data } = copy.getImageData(0, 0, canvas.width, canvas.height);
      for (let at = 0; at < data.length; at += 4) {
        const far = Math.abs(data[at] - red) + Math.abs(data[at + 1] - green) + Math.abs(data[at + 2] - blue);
        if (data[at + 3] > 200 && far < 30) number += 1;
      }
    }
    return number;
"""
IS_DRAWN = """
    const figure = document.querySelector(arguments[0]);
    figure?.scrollIntoView({ block: "center" });
    return !!figure?.querySelector("canvas");
"""
LABELS = """
    const labels = document.querySelectorAll(`${arguments[0]} .dygraph-axis-label-x`);
    return [...labels].map(one => one.textContent).join(" ");
"""
SAID = "return document.querySelector(`${arguments[0]} output`).textContent"
FIRST = "#chart-0"


def colour(name: str, scheme: str) -> list[int]:
    style = (TOP / "h2audit" / "page" / "assets" / "page.css").read_text()
    root = re.findall(r":root \{(.*?)\}", style, re.S)[0 if scheme == "light" else 1]
    value = re.findall(rf"--{name}: #([0-9a-f]{{6}})", root)[0]
    return [int(value[at : at + 2], 16) for at in (0, 2, 4)]


class InBrowser(unittest.TestCase):
    work: tempfile.TemporaryDirectory[str]
    folder: pathlib.Path
    browser: Browser

    @classmethod
    def setUpClass(cls) -> None:
        cls.work = tempfile.TemporaryDirectory()
        cls.folder = pathlib.Path(cls.work.name)
        cls.browser = Browser()

    @classmethod
    def tearDownClass(cls) -> None:
        cls.browser.close()
        cls.work.cleanup()

    def setUp(self) -> None:
        self.browser.scheme("light")
        self.browser.messages(), self.browser.requests()

    def tearDown(self) -> None:
        """No page says anything in the console, and none asks the network for anything."""
        self.assertEqual(self.browser.messages(), [])
        self.assertEqual([url for url in self.browser.requests() if not url.startswith(f"file://{self.folder}/")], [])

    def made(self, report: str, name: str = "page.html") -> pathlib.Path:
        path = self.folder / name
        subprocess.run([PROGRAM, "-", "-o", path, "--title", "A page"], input=report.encode(), check=True, timeout=200)
        return path

    def example(self, name: str) -> float:
        report = (EXAMPLES / f"{name}.frames.report").read_text()
        return self.browser.load(self.made(report, f"{name}.html"))

    def drawn(self, figure: str = FIRST) -> None:
        self.browser.until(IS_DRAWN, figure)

    def labels(self, figure: str = FIRST) -> str:
        return str(self.browser.run(LABELS, figure))

    def said(self, figure: str = FIRST) -> str:
        return str(self.browser.run(SAID, figure))

    def text_without_scripts(self, page: pathlib.Path) -> str:
        self.browser.scripts(False)
        try:
            self.browser.load(page, "return document.readyState === 'complete'")
            return str(self.find("body").text)
        finally:
            self.browser.scripts(True)

    def find(self, selector: str) -> WebElement:
        return self.browser.driver.find_element(By.CSS_SELECTOR, selector)


class Examples(InBrowser):
    def test_each(self) -> None:
        """Each finding stands in the page's text, and the chart has the colours of what is in it."""
        for report in sorted(EXAMPLES.glob("*.frames.report")):
            with self.subTest(report.name):
                text = report.read_text()
                self.example(report.name.removesuffix(".frames.report"))
                self.drawn()
                shown = self.browser.run("return document.body.innerText")
                (one,) = document_of_report(io.BytesIO(text.encode()))["connections"]
                for finding in one["charts"]["findings"]:
                    self.assertIn(finding["text"], shown)
                    self.assertIn(f"({finding['kind']})", shown)
                self.judge_colours(text)

    def judge_colours(self, text: str) -> None:
        pixels = {name: self.browser.run(PIXELS, FIRST, *colour(name, "light")) for name in ("line", "stall", "fault")}
        self.assertGreater(pixels["line"], 3)
        windows = set(re.findall(r"(?m)^stall (client|server) stream (\d+)", text))
        has_faults = any(
            not re.search("-(credit|stall-begin|stall-end)$", kind) for _, _, _, _, kind, _, _ in FINDING.findall(text)
        )
        self.assertEqual(pixels["fault"] > 20, has_faults)
        if not has_faults:
            self.assertEqual(pixels["stall"] > 20, bool(windows))

    def test_an_empty_canvas_differs(self) -> None:
        self.example("stream_stalls_nghttpd")
        self.drawn()
        same = self.browser.run(
            """
            const drawn = document.querySelector("figure.window canvas"), empty = document.createElement("canvas");
            Object.assign(empty, { width: drawn.width, height: drawn.height });
            return drawn.toDataURL() === empty.toDataURL();
        """
        )
        self.assertFalse(same)

    def test_trouble_comes_first(self) -> None:
        self.example("stream_overrun_go")
        heads = [one.text for one in self.browser.driver.find_elements(By.CSS_SELECTOR, "figure h3")]
        self.assertEqual(heads[0], "Connection 1, client, stream 1")
        self.assertEqual(len(heads), 3)


class Hands(InBrowser):
    """What a user does to a chart."""

    def setUp(self) -> None:
        super().setUp()
        self.example("negative_window_tomcat")
        self.drawn()
        self.whole = self.labels()
        self.canvas = self.find(f"{FIRST} canvas:last-of-type")

    def drag(self, begin: float, end: float, *keys: str) -> None:
        """Over the chart, from one part of its width to another."""
        wide = self.canvas.size["width"]
        chain = ActionChains(self.browser.driver)
        for key in keys:
            chain.key_down(key)
        chain.move_to_element_with_offset(self.canvas, int(wide * (begin - 0.5)), 0).click_and_hold()
        chain.move_by_offset(int(wide * (end - begin)), 0).release()
        for key in keys:
            chain.key_up(key)
        chain.perform()

    def changed(self, before: str) -> str:
        self.assertNotEqual(
            self.browser.until(
                f"const now = (() => {{ {LABELS} }})(); return now !== arguments[1] && now", FIRST, before
            ),
            before,
        )
        return self.labels()

    def seconds(self) -> list[float]:
        return [float(label) for label in self.labels().split()]

    def test_zoom_and_pan_and_whole(self) -> None:
        least, most = min(self.seconds()), max(self.seconds())
        self.drag(0.4, 0.6)
        zoomed = self.changed(self.whole)
        self.assertGreater(min(self.seconds()), least)
        self.assertLess(max(self.seconds()), most)
        place = min(self.seconds())
        self.drag(0.5, 0.2, Keys.SHIFT)
        panned = self.changed(zoomed)
        self.assertGreater(min(self.seconds()), place)
        ActionChains(self.browser.driver).double_click(self.canvas).perform()
        self.changed(panned)
        self.assertEqual(self.labels(), self.whole)

    def test_value_under_the_pointer(self) -> None:
        """The last point: the grant of a megabyte, at the end."""
        wide = self.canvas.size["width"]
        ActionChains(self.browser.driver).move_to_element_with_offset(self.canvas, wide // 2 - 12, 0).perform()
        report = (EXAMPLES / "negative_window_tomcat.frames.report").read_text()
        frame, value = [
            (one[0], one[6]) for one in FINDING.findall(report) if one[3:6] == ("server", "stream-credit", "1")
        ][-1]
        self.assertRegex(self.said(), rf"^Frame {frame}, 2\.\d+ s: credit {int(value):,} bytes$")

    def test_keys(self) -> None:
        figure = self.find(FIRST)
        figure.send_keys("+")
        zoomed = self.changed(self.whole)
        figure.send_keys(Keys.ARROW_RIGHT)
        self.changed(zoomed)
        figure.send_keys("0")
        self.assertEqual(self.labels(), self.whole)
        figure.send_keys(Keys.PAGE_DOWN)
        first = self.said()
        self.assertRegex(first, r"^Frame \d+, .*: credit [\d,-]+ bytes")
        figure.send_keys(Keys.PAGE_DOWN)
        self.assertNotEqual(self.said(), first)
        figure.send_keys(Keys.PAGE_UP)
        self.assertEqual(self.said(), first)

    def test_heights(self) -> None:
        def heights() -> list[str]:
            return [
                one.text for one in self.browser.driver.find_elements(By.CSS_SELECTOR, f"{FIRST} .dygraph-axis-label-y")
            ]

        before = heights()
        self.find(FIRST).send_keys(Keys.ARROW_UP)
        self.assertLess(
            max(int(one.replace(",", "")) for one in heights()), max(int(one.replace(",", "")) for one in before)
        )

    def test_buttons(self) -> None:
        for button in self.find(FIRST).find_elements(By.TAG_NAME, "button"):
            self.assertTrue(button.text)
            button.click()
        self.find(f"{FIRST} .keys button:first-child").click()
        self.changed(self.whole)

    def test_by_frame(self) -> None:
        self.find("input[value=frame]").click()
        self.assertEqual(self.find(f"{FIRST} .dygraph-xlabel").text, "frame")
        self.changed(self.whole)

    def test_a_finding_leads_to_its_place(self) -> None:
        """By mouse and by keyboard, from the findings, and from the summary to the finding."""
        row = self.find('tr[data-frame="17"][data-kind="stream-stall-begin"]')
        row.find_element(By.TAG_NAME, "a").click()
        self.changed(self.whole)
        self.assertRegex(self.said(), r"^Frame 17, .*: credit 0 bytes")
        self.assertEqual(self.browser.driver.switch_to.active_element.get_attribute("id"), "chart-0")
        self.find('tr[data-frame="10"] td:last-child').click()
        self.assertRegex(self.said(), r"^Frame 10, ")
        self.find('tr[data-frame="24"] a').send_keys(Keys.ENTER)
        place = self.browser.driver.switch_to.active_element
        self.assertIn("stream 3", place.text)
        self.assertRegex(place.find_element(By.TAG_NAME, "output").text, r"^Frame 24, ")
        self.find("#summary tbody a").click()
        self.assertTrue(self.browser.run("return location.hash").startswith("#c1-f10-server-stream-stall-begin"))

    def test_filters(self) -> None:
        def heads() -> list[str]:
            return [one.text for one in self.browser.driver.find_elements(By.CSS_SELECTOR, "figure h3")]

        def rows() -> int:
            return len(
                [
                    one
                    for one in self.browser.driver.find_elements(By.CSS_SELECTOR, "tr[data-kind]")
                    if one.is_displayed()
                ]
            )

        self.assertEqual(rows(), 8)
        self.find("#stream").send_keys("3")
        self.assertEqual((heads(), rows()), (["Connection 1, server, stream 3"], 2))
        self.find("#stream").clear()
        self.find("#search").send_keys("STREAM 1")
        self.assertEqual((heads(), rows()), (["Connection 1, server, stream 1"], 6))
        self.assertEqual(self.find("#found").text, "1 of 3 windows, 6 findings")
        self.find("#search").clear()
        self.find("#search").send_keys(Keys.BACKSPACE)
        Select(self.find("#side")).select_by_visible_text("client")
        self.assertEqual((heads(), rows()), ([], 0))
        Select(self.find("#side")).select_by_visible_text("both")
        Select(self.find("#kind")).select_by_value("stall")
        self.assertEqual((len(heads()), rows()), (2, 8))


class Schemes(InBrowser):
    """Light, dark, without scripts, and printed."""

    def test_colours_of_both(self) -> None:
        for scheme in ("light", "dark"):
            self.browser.scheme(scheme)
            self.example("stream_overrun_go")
            self.drawn()
            ground = self.browser.run("return getComputedStyle(document.body).backgroundColor")
            self.assertEqual(ground, "rgb({}, {}, {})".format(*colour("ground", scheme)))
            for name in ("line", "stall", "fault"):
                self.assertGreater(self.browser.run(PIXELS, FIRST, *colour(name, scheme)), 20, (scheme, name))

    def test_charts_follow_the_scheme(self) -> None:
        self.example("stream_overrun_go")
        self.drawn()
        self.browser.scheme("dark")
        self.browser.until(PIXELS, FIRST, *colour("fault", "dark"))

    def test_contrast_of_what_is_shown(self) -> None:
        """Each text that is shown, in both schemes, has 4.5 to its ground, or 3 where it is large (WCAG 2.2, 1.4.3)."""
        for scheme in ("light", "dark"):
            self.browser.scheme(scheme)
            self.example("stream_overrun_go")
            self.drawn()
            found = self.browser.run(
                (TOP / "tools" / "tests" / "page" / "accessible.js").read_text() + "return lowContrast();"
            )
            self.assertGreater(found["judged"], 100)
            self.assertEqual(found["low"], [], scheme)

    def test_accessible(self) -> None:
        """Names of controls and pictures, order of headings, sizes of targets, identifiers, language."""
        self.example("stream_overrun_go")
        self.drawn()
        self.assertEqual(
            self.browser.run((TOP / "tools" / "tests" / "page" / "accessible.js").read_text() + "return faults();"), []
        )

    def test_without_scripts(self) -> None:
        report = (EXAMPLES / "stream_overrun_go.frames.report").read_text()
        text = self.text_without_scripts(self.made(report))
        self.assertIn("client sent 5,000 bytes past its credit on stream 1", text)
        self.assertIn("Charts need JavaScript; the tables below do not.", text)
        self.assertNotIn("Charts over", text)
        self.assertIn("Windows of connection 1", text)

    def test_print(self) -> None:
        self.browser.scheme("dark", "print")
        self.example("stream_overrun_go")
        for hidden in ("#filters", ".keys", "footer details"):
            self.assertFalse(self.find(hidden).is_displayed(), hidden)
        self.assertTrue(self.find("footer p").is_displayed())
        self.assertEqual(
            self.browser.run("return getComputedStyle(document.body).backgroundColor"), "rgb(255, 255, 255)"
        )
        printed = base64.b64decode(self.browser.command("Page.printToPDF", printBackground=True)["data"])
        self.assertTrue(printed.startswith(b"%PDF"))
        self.assertEqual(
            self.browser.run("return document.querySelectorAll('figure').length"),
            self.browser.run(
                "return [...document.querySelectorAll('figure')].filter(one => one.querySelector('canvas')).length"
            ),
        )


class Hostile(InBrowser):
    def test_addresses(self) -> None:
        """Nothing of a report runs, and the console has nothing to say of it."""
        report = (EXAMPLES / "stream_overrun_go.frames.report").read_text()
        evil = "<img/src=x/onerror=document.title='owned'>"
        self.browser.load(self.made(report.replace("127.0.0.1:52616", evil)))
        self.drawn()
        self.assertIn(evil, self.browser.run("return document.body.innerText"))
        self.assertEqual(
            self.browser.run("return [document.title, document.querySelectorAll('img').length]"), ["A page", 0]
        )


class Large(InBrowser):
    """A million lines: the page opens within two seconds of the processor, and hundreds of streams can be searched."""

    def test_a_million_lines(self) -> None:
        report = large(400, 2400, 20)
        path = self.opened(report)
        self.judge_marks(path.read_text())
        self.drawn()
        self.assertEqual(self.find("#found").text.split(",")[0], "400 of 400 windows")
        self.find("#stream").send_keys("777")
        self.assertEqual(
            [one.text for one in self.browser.driver.find_elements(By.CSS_SELECTOR, "figure h3")],
            ["Connection 1, server, stream 777"],
        )
        self.drawn("figure.window")
        self.find("#stream").clear()
        self.find("#search").send_keys(" ")
        self.find("#more").click()
        self.assertEqual(len(self.browser.driver.find_elements(By.TAG_NAME, "figure")), 18)

    def opened(self, report: str) -> pathlib.Path:
        """The page of a report of a million lines, which is small enough and opens soon enough."""
        self.assertGreater(report.count("\n"), 10**6)
        path = self.made(report)
        self.assertLess(path.stat().st_size, 5 * 10**6)
        self.assertLess(min(self.work_of(path) for _ in range(3)), 2)
        return path

    def work_of(self, path: pathlib.Path) -> float:
        """The processor seconds in which the browser draws a page: the wall's say little on a busy machine."""
        before = self.browser.processor_seconds()
        self.browser.load(path)
        spent = max(seconds - before.get(number, 0) for number, seconds in self.browser.processor_seconds().items())
        self.assertGreater(spent, 0)
        return spent

    def judge_marks(self, text: str) -> None:
        """Every stall is in the charts: those of 400 windows, one for each 20 lines."""
        self.assertIn("The charts are thinned: of 960,000 credit lines", text)
        self.assertIn("The charts mark every fault and every stall.", text)
        said = data_of(text)
        self.assertEqual((len(said["points"]), sum(said["stalled"]), sum(said["stalls"][2::3])), (400, 48000, 48000))


class Crowded(Large):
    """A million lines of 60,000 connections: each window has a chart, and what the tables leave out is said."""

    def test_a_million_lines(self) -> None:
        path = self.opened(crowded(60000, 7, 50))
        text = path.read_text()
        self.assertIn("The charts mark every fault and every stall.", text)
        self.assertEqual(len(data_of(text)["points"]), 120000)
        self.assertIn(" of 60,000 connections in full", text)
        self.assertTrue(self.find("#found").text.startswith("120,000 of 120,000 windows, "))
        self.drawn()
        self.assertIn("1 stall, the longest ", self.find(f"{FIRST} figcaption").text)
        self.find("#search").send_keys("connection 59999, server, stream 1")
        self.drawn("figure.window")
        self.assertIn("no trouble", self.find("figure.window figcaption").text)
        self.assertEqual(
            self.browser.run((TOP / "tools" / "tests" / "page" / "accessible.js").read_text() + "return deadLinks();"),
            [],
        )


class Merged(InBrowser):
    """Marks that stand for several say so, and nothing else does."""

    def test_marks_that_are_shared(self) -> None:
        report = large(1, 4000, 4).replace(" stream-stall-begin ", " zero-stream-grant ", 300)
        with mock.patch.object(chart_data, "MOST_BYTES", 2000):
            text = document.page(read_audit(io.BytesIO(report.encode())), "A page", library())
        said = data_of(text)
        faults, stalls = sum(said["faults"][3::4]), sum(said["stalls"][2::3])
        self.assertEqual((faults, stalls), (300, 700))
        path = self.folder / "merged.html"
        path.write_text(text)
        self.browser.load(path)
        self.drawn()
        self.assertIn("300 faults; 700 stalls, the longest 1", self.find(f"{FIRST} figcaption").text)
        self.assertIn("share a mark that says how many it stands for", self.find("#thinned").text)
        heard = set()
        for _ in range(len(said["frames"])):
            self.find(FIRST).send_keys(Keys.PAGE_DOWN)
            heard.add(self.said())
        shared = [times for times in said["stalls"][2::3] if times > 1]
        for times in shared:
            self.assertTrue(any(f"; {times} stalls share this shade" in one for one in heard), times)
        more = {int(one) for said in heard for one in re.findall(r"and (\d+) more of this kind", said)}
        self.assertEqual(more, {times - 1 for times in said["faults"][3::4] if times > 1})


def data_of(text: str) -> dict[str, Any]:
    (data,) = re.findall(r'<script type="text/plain" id="chart-data">([^<]*)<', text)
    found: dict[str, Any] = json.loads(zlib.decompress(base64.b64decode(data)))
    return found


Shots = tuple[tuple[str, int, int, str, str], ...]
# Each picture's name, with the width and height of the window, the scheme, and a script before it is taken.
OPENED = "document.querySelector('#rows .row[data-at=\"1\"] svg').dispatchEvent(new Event('click', { bubbles: true }));"
SHOTS = (
    ("page_light", 1100, 1240, "light", "scrollTo(0, 0)"),
    ("page_dark", 1100, 1240, "dark", "scrollTo(0, 0)"),
    ("page_request", 1280, 900, "light", OPENED + "document.getElementById('request').scrollIntoView()"),
    ("page_800", 800, 1240, "dark", "document.getElementById('requests').scrollIntoView()"),
    ("page_390", 390, 1000, "light", "document.getElementById('overview').scrollIntoView()"),
)
SHOTS_OF_LEGS = (
    ("legs_light", 1000, 900, "light", "scrollTo(0, 0)"),
    ("legs_dark", 1000, 900, "dark", "scrollTo(0, 0)"),
)
# A third of the bytes; rare colours stay, as those of a legend.
COLOURS = 256


def write_pictures() -> None:
    with tempfile.TemporaryDirectory() as folder:
        path = pathlib.Path(folder, "page.html")
        browser = Browser()
        pictures_of(EXAMPLES / f"{PROXIED}.pcap.gz", "A gateway", SHOTS_OF_LEGS, browser, path)
        pictures_of(EXAMPLES / f"{PICTURED}.pcap", TITLE, SHOTS, browser, path)
        browser.scheme("dark")
        printed = pathlib.Path(folder, "page.pdf")
        printed.write_bytes(base64.b64decode(browser.command("Page.printToPDF", printBackground=True)["data"]))
        words = ["pdftoppm", "-png", "-r", "80", "-f", "1", "-singlefile"]
        subprocess.run([*words, printed, PICTURES / "page_printed"], check=True)
        browser.close()


def pictures_of(capture: pathlib.Path, title: str, shots: Shots, browser: Browser, path: pathlib.Path) -> None:
    """Pictures of the page of a capture."""
    from PIL import Image  # type: ignore[import]

    subprocess.run([PROGRAM, capture, "-o", path, "--title", title], check=True)
    for name, width, height, scheme, script in shots:
        browser.command(
            "Emulation.setDeviceMetricsOverride", width=width, height=height, deviceScaleFactor=1, mobile=False
        )
        browser.scheme(scheme)
        browser.load(path)
        browser.until(IS_DRAWN, FIRST)
        browser.run(script)
        shot = Image.open(io.BytesIO(browser.driver.get_screenshot_as_png())).convert("RGB")
        shot.quantize(COLOURS, Image.Quantize.MAXCOVERAGE, dither=Image.Dither.NONE).save(
            PICTURES / f"{name}.png", optimize=True
        )


if __name__ == "__main__":
    if sys.argv[1:] == ["--write"]:
        write_pictures()
    else:
        unittest.main()
