"""A headless Firefox for tests, driven by its own protocol (Marionette), since Debian has no driver for Selenium."""

import json
import os
import pathlib
import socket
import subprocess
import tempfile
import time
from typing import Any

PROGRAM = "firefox-esr"
PATIENCE = 60
# A port that is free; nothing is asked of the network, and nothing of the user.
PREFERENCES = {
    "marionette.port": 0,
    "app.update.disabledForTesting": True,
    "browser.shell.checkDefaultBrowser": False,
    "datareporting.policy.dataSubmissionEnabled": False,
    "network.captive-portal-service.enabled": False,
    "network.connectivity-service.enabled": False,
    "toolkit.telemetry.reportingpolicy.firstRun": False,
}


class Firefox:
    def __init__(self) -> None:
        self.work = tempfile.TemporaryDirectory(ignore_cleanup_errors=True)
        folder = pathlib.Path(self.work.name)
        lines = [f"user_pref({json.dumps(name)}, {json.dumps(value)});" for name, value in PREFERENCES.items()]
        (folder / "user.js").write_text("\n".join(lines))
        words = [PROGRAM, "--headless", "--marionette", "--no-remote", "--profile", self.work.name]
        environment = {**os.environ, "HOME": self.work.name, "MOZ_CRASHREPORTER_DISABLE": "1"}
        self.program = subprocess.Popen(words, stdout=subprocess.DEVNULL, stderr=subprocess.DEVNULL, env=environment)
        self.number = 0
        self.socket = socket.create_connection(("127.0.0.1", self.port(folder / "MarionetteActivePort")), PATIENCE)
        self.file = self.socket.makefile("rb")
        self.heard()
        self.command("WebDriver:NewSession", capabilities={})

    def port(self, file: pathlib.Path) -> int:
        """The port that it writes into its profile."""
        end = time.monotonic() + PATIENCE
        while time.monotonic() < end and self.program.poll() is None:
            if file.exists() and (text := file.read_text()):
                return int(text)
            time.sleep(0.05)
        raise AssertionError("Firefox did not begin")

    def close(self) -> None:
        self.file.close()
        self.socket.close()
        self.program.terminate()
        self.program.wait()
        self.work.cleanup()

    def command(self, name: str, **words: object) -> Any:
        """What it answers to a command: its length, and a list whose third is an error, and whose last is a value."""
        self.number += 1
        text = json.dumps([0, self.number, name, words]).encode()
        self.socket.sendall(b"%d:%s" % (len(text), text))
        _, number, error, value = self.heard()
        assert (number, error) == (self.number, None), (name, error)
        return value

    def heard(self) -> Any:
        length = b""
        while (octet := self.file.read(1)) != b":":
            assert octet, "Firefox ended"
            length += octet
        return json.loads(self.file.read(int(length)))

    def load(self, path: pathlib.Path) -> None:
        self.command("WebDriver:Navigate", url=f"file://{path}")

    def run(self, script: str, *words: object) -> Any:
        return self.command("WebDriver:ExecuteScript", script=script, args=words)["value"]

    def until(self, script: str, *words: object) -> Any:
        end = time.monotonic() + PATIENCE
        while time.monotonic() < end:
            if found := self.run(script, *words):
                return found
            time.sleep(0.05)
        raise AssertionError(f"never true: {script}")
