"""The programs that a test's command line names, by their paths, before the names of tests."""

import os
import sys


def named() -> list[str]:
    """Takes them off the command line, and leaves the rest to unittest."""
    found = []
    while len(sys.argv) > 1 and "/" in sys.argv[1] and os.access(sys.argv[1], os.X_OK):
        found.append(os.path.abspath(sys.argv.pop(1)))
    return found


def needed() -> list[str]:
    """One at least. Where none is named the test says how it is run."""
    return named() or sys.exit(sys.modules["__main__"].__doc__)
