"""Measures h2audit-page and h2audit-comment: around.py PROGRAM

For captures of 40 and of 160 MB, prints the time and the peak of memory of h2audit-comment, and of editcap with one
comment beside it, which both write pcapng. Then, for captures of some shapes, whose reports of PROGRAM with --frames
have about a million lines, the same of h2audit-page, the size of its page, and the least of five times until Chromium
shows its charts.
"""
import os
import pathlib
import subprocess
import sys
import tempfile

from bench.measure import once
from bench.measure_companions import capture_of, report_of
from tools.tests.browser import Browser

TOP = pathlib.Path(__file__).resolve().parents[1]

PAGES = (("chatty", 10), ("small", 42), ("streams", 85), ("connections", 230), ("calls", 260))
CAPTURES = (("bulk", 40), ("bulk", 160), ("small", 40), ("small", 160))
OPENINGS = 5
# Reports of 400 windows with 48,000 stalls, and of 60,000 connections with 120,000 windows. A process of its own writes
# them: what it takes would count for the next.
WRITTEN = {"stalls": "large(400, 2400, 20)", "60,000": "crowded(60000, 7, 50)"}
WRITE = "import sys; from tools.tests.page.page_test import crowded, large; sys.stdout.write({})"


def measure_page(browser: Browser, shape: str, report: pathlib.Path) -> None:
    page = report.with_suffix(".html")
    wall, cpu, peak = once([str(TOP / "tools" / "h2audit-page"), "-", "-o", str(page)], report)
    with open(report, "rb") as file:
        lines = sum(1 for _ in file)
    opened = min(browser.load(page) for _ in range(OPENINGS))
    print(
        f"{shape:12} {lines:9,} lines {wall:6.1f} s {cpu:6.1f} s of processor {peak:6.0f} MB, page "
        f"{os.path.getsize(page) / 1e6:.2f} MB, opened in {opened:.2f} s",
        flush=True,
    )


def measure_comment(shape: str, capture: pathlib.Path, report: pathlib.Path) -> None:
    out = str(capture.with_suffix(".pcapng"))
    comment = [str(TOP / "companions" / "target" / "release" / "h2audit-comment"), "-", str(report), "-o", out]
    for name, words in (("h2audit-comment", comment), ("editcap -a", ["editcap", "-a", "1:one", "-", out])):
        wall, cpu, peak = once(words, capture)
        print(
            f"{shape:12} {os.path.getsize(capture) / 1e6:6.0f} MB, {name:15} "
            f"{wall:6.2f} s {cpu:6.2f} s of processor {peak:6.0f} MB",
            flush=True,
        )


def main() -> None:
    if len(sys.argv) != 2:
        sys.exit(__doc__)
    program = sys.argv[1]
    with tempfile.TemporaryDirectory() as name:
        folder = pathlib.Path(name)
        for shape, megabytes in CAPTURES:
            capture = capture_of(folder, shape, megabytes)
            measure_comment(shape, capture, report_of(program, capture))
        browser = Browser()
        for shape, megabytes in PAGES:
            measure_page(browser, shape, report_of(program, capture_of(folder, shape, megabytes), "--frames"))
        for shape, report in WRITTEN.items():
            with open(folder / "made.report", "wb") as file:
                words = [sys.executable, "-c", WRITE.format(report)]
                subprocess.run(words, cwd=TOP, stdout=file, check=True)
            measure_page(browser, shape, folder / "made.report")
        browser.close()


if __name__ == "__main__":
    main()
