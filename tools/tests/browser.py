"""A headless Chromium for tests, driven by Selenium, with what it said and what it asked the network for."""

import contextlib
import json
import os
import pathlib
import time
from typing import Any

from selenium import webdriver
from selenium.webdriver.chrome.options import Options
from selenium.webdriver.chrome.service import Service

WORDS = [
    "--headless=new",
    "--window-size=1200,1000",
    "--disable-gpu",
    "--disable-dev-shm-usage",
    "--hide-scrollbars",
    "--force-device-scale-factor=1",
    "--force-color-profile=srgb",
    "--no-first-run",
    "--disable-background-networking",
]
PATIENCE = 30
IS_READY = "return document.documentElement.dataset.ready === 'true'"


class Browser:
    def __init__(self) -> None:
        options = Options()
        options.binary_location = "/usr/bin/chromium"
        # Root has no sandbox of Chromium's.
        for word in WORDS + ["--no-sandbox"] * (os.geteuid() == 0):
            options.add_argument(word)
        options.set_capability("goog:loggingPrefs", {"browser": "ALL", "performance": "ALL"})
        self.driver = webdriver.Chrome(service=Service("/usr/bin/chromedriver"), options=options)
        self.driver.set_page_load_timeout(60)

    def close(self) -> None:
        self.driver.quit()

    def command(self, name: str, **words: object) -> Any:
        return self.driver.execute_cdp_cmd(name, words)

    def scheme(self, name: str, media: str = "") -> None:
        self.command(
            "Emulation.setEmulatedMedia", media=media, features=[{"name": "prefers-color-scheme", "value": name}]
        )

    def scripts(self, are_on: bool) -> None:
        self.command("Emulation.setScriptExecutionDisabled", value=not are_on)

    def load(self, path: pathlib.Path | str, is_ready: str = IS_READY) -> float:
        """Opens a page; answers the seconds until its charts are there."""
        start = time.monotonic()
        self.driver.get(f"file://{path}")
        self.until(is_ready)
        return time.monotonic() - start

    def processor_seconds(self) -> dict[int, float]:
        """What its processes that draw pages have taken of the processor, by their numbers (proc(5))."""
        parents, seconds = {}, {}
        for folder in pathlib.Path("/proc").glob("[0-9]*"):
            with contextlib.suppress(OSError):
                words = (folder / "stat").read_text().rpartition(")")[2].split()
                parents[int(folder.name)] = int(words[1])
                if b"--type=renderer" in (folder / "cmdline").read_bytes():
                    seconds[int(folder.name)] = (int(words[11]) + int(words[12])) / os.sysconf("SC_CLK_TCK")
        return {number: spent for number, spent in seconds.items() if self.has_made(number, parents)}

    def has_made(self, number: int, parents: dict[int, int]) -> bool:
        """Is a process below that of the driver?"""
        while number and number != self.driver.service.process.pid:
            number = parents.get(number, 0)
        return number != 0

    def run(self, script: str, *words: object) -> Any:
        return self.driver.execute_script(script, *words)

    def until(self, script: str, *words: object) -> Any:
        """Waits until a script answers something that is true."""
        end = time.monotonic() + PATIENCE
        while time.monotonic() < end:
            if found := self.run(script, *words):
                return found
            time.sleep(0.03)
        raise AssertionError(f"never true: {script}")

    def messages(self) -> list[str]:
        """What stands in the console since it was asked last."""
        return [entry["message"] for entry in self.driver.get_log("browser")]

    def requests(self) -> list[str]:
        """What was asked for since the last time, but for the pages themselves."""
        entries = [json.loads(entry["message"])["message"] for entry in self.driver.get_log("performance")]
        return [
            entry["params"]["request"]["url"] for entry in entries if entry["method"] == "Network.requestWillBeSent"
        ]
