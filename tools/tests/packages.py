"""What tests need of Debian. Where it is missing a test fails and says so; none is left out, and none installs it."""

import functools
import shutil
import unittest
from collections.abc import Callable
from typing import Any

Test = Callable[[Any], None]


def needs(program: str) -> Callable[[Test], Test]:
    """A test that needs a program, whose package has the same name."""

    def of_test(test: Test) -> Test:
        @functools.wraps(test)
        def tested(case: unittest.TestCase) -> None:
            require(case, program)
            test(case)

        return tested

    return of_test


def require(case: unittest.TestCase, program: str) -> None:
    if not shutil.which(program):
        case.fail(f"install the Debian package {program}, or run make deps as root")
