"""Runs a program in Python within the test."""

import contextlib
import io
import sys
from collections.abc import Callable
from unittest import mock

from h2audit.report.command import run


def ran(name: str, main: Callable[[list[str]], int], *words: str) -> tuple[int, str]:
    """The status of a run and its line on standard error."""
    said = io.StringIO()
    with contextlib.redirect_stderr(said), mock.patch.object(sys, "argv", [name, *words]):
        try:
            run(main)
        except SystemExit as ended:
            return int(ended.code or 0), said.getvalue()
