"""Tests of the runner of tests: that it finds each, and that runs of one leave nothing of it out.

    python3 -m tools.tests.documents.rooms_test [Found | Stated | Made]
"""

import contextlib
import importlib
import io
import pathlib
import re
import tempfile
import unittest
from unittest import mock

from tools.tests import rooms, run
from tools.tests.rooms import Unclear, all_runs, chosen, runs_of, tests
from tools.tests.signals import until

QUICK = True


def names_in(suite: unittest.TestSuite | unittest.TestCase) -> set[str]:
    if isinstance(suite, unittest.TestCase):
        return {suite.id()}
    return {name for part in suite for name in names_in(part)}


class Found(unittest.TestCase):
    """The tests of the repository."""

    def test_all_are_in_rooms(self) -> None:
        """None is beside the rooms, in one without __init__.py, or a script that cannot be run."""
        files = {path for path in rooms.HERE.rglob("*_test*") if path.suffix in (".py", ".sh", "")}
        self.assertEqual(files, set(tests()))
        self.assertGreater(len(files), 70)

    def test_rooms_share_what_stands_beside_them(self) -> None:
        """No room takes anything from another."""
        names = {path.parent.name for path in tests()}
        for path in sorted(path for name in names for path in (rooms.HERE / name).glob("*.py")):
            others = "|".join(sorted(names - {path.parent.name}))
            found = re.findall(rf"^(?:from|import) tools\.tests(?:\.| import )(?:{others})\b.*", path.read_text(), re.M)
            with self.subTest(f"{path.parent.name}/{path.name}"):
                self.assertEqual(found, [])

    def test_runs_cover_each_class(self) -> None:
        """The runs of a module together are all of its tests, each once."""
        for path in [path for path in tests() if path.suffix == ".py"]:
            module = importlib.import_module(f"tools.tests.{path.parent.name}.{path.stem}")
            whole = unittest.defaultTestLoader.loadTestsFromModule(module)
            ran = list[str]()
            for one in runs_of(path):
                words = [word for word in one.words if not word.startswith("$")]
                if not words:
                    ran += names_in(whole)
                elif not words[0].startswith("--"):
                    ran += names_in(unittest.defaultTestLoader.loadTestsFromNames(words, module))
            with self.subTest(test=f"{path.parent.name}/{path.stem}"):
                if names_in(whole):
                    self.assertEqual(sorted(ran), sorted(names_in(whole)))
                else:
                    self.assertTrue(callable(getattr(module, "main", None)), "it has no test")

    def test_names_are_of_one_run(self) -> None:
        names = [one.name for one in all_runs()]
        self.assertEqual(len(names), len(set(names)))
        self.assertEqual(names, [one.name for one in all_runs()])

    def test_chosen(self) -> None:
        self.assertEqual(chosen([]), all_runs())
        self.assertEqual([one.name for one in chosen(["rust"])], ["rust/rust form", "rust/rust tests"])
        self.assertEqual(chosen(["rust/rust_test"]), chosen(["rust"]))
        with self.assertRaisesRegex(Unclear, "no room and no test: why/none; rooms are comment, core, "):
            chosen(["why/legs", "why/none"])


class InScratch(unittest.TestCase):
    """A room of its own, with scripts."""

    def setUp(self) -> None:
        folder = self.enterContext(tempfile.TemporaryDirectory())
        self.room = pathlib.Path(folder, "room")
        self.room.mkdir()
        (self.room / "__init__.py").touch()
        self.enterContext(mock.patch.object(rooms, "HERE", self.room.parent))
        self.enterContext(mock.patch.object(run, "programs", lambda is_quick: {"$H2AUDIT": "/h2audit"}))

    def script(self, name: str, *lines: str) -> pathlib.Path:
        path = self.room / f"{name}_test.sh"
        path.write_text("\n".join(["#!/bin/sh", *lines, ""]))
        path.chmod(0o755)
        return path

    def ran(self, *words: str) -> tuple[int, list[str]]:
        """The status, and what is said, without seconds."""
        said = io.StringIO()
        with contextlib.redirect_stdout(said):
            status = run.main(["room", *words])
        return status, said.getvalue().replace(" in 0 s", "").replace(" in 1 s", "").splitlines()


class Stated(InScratch):
    """What a test says of itself."""

    def test_once(self) -> None:
        (one,) = runs_of(self.script("a"))
        self.assertEqual((one.name, one.words, one.seconds, one.is_quick), ("room/a", (), 480, False))

    def test_runs(self) -> None:
        path = self.script("a", '# RUNS = ("$H2AUDIT one two", "--last")', "# LIMIT = 7", '# QUICK = ("--last",)')
        first, last = runs_of(path)
        self.assertEqual((first.name, first.seconds, first.is_quick), ("room/a one two", 7, False))
        self.assertEqual(first.command({"$H2AUDIT": "/h2audit"}), [str(path), "/h2audit", "one", "two"])
        self.assertEqual((last.name, last.command({}), last.is_quick), ("room/a --last", [str(path), "--last"], True))

    def test_module(self) -> None:
        path = self.room / "a_test.py"
        path.write_text('"""Says."""\nimport os\nRUNS = (\n    "$SPLIT",\n)\nLIMIT = QUICK = 1\n')
        (one,) = runs_of(path)
        self.assertEqual(one.command({"$SPLIT": "/s"}), ["/usr/bin/python3", "-m", "tools.tests.room.a_test", "/s"])

    def test_unclear(self) -> None:
        lists = ["# QUICK = 'one'", '# QUICK = ("one",)', "# TIMED = 1", '# TIMED = ("one",)']
        for line in ["# RUNS = WORDS", '# RUNS = "one"', "# LIMIT = None", *lists]:
            with self.subTest(line=line), self.assertRaises(Unclear):
                list(runs_of(self.script("a", line)))


class Made(InScratch):
    """Runs, one after another."""

    def test_passed(self) -> None:
        self.script("b", '[ "$1" = /h2audit ] && echo unseen', '# RUNS = ("$H2AUDIT",)')
        self.script("a", "! read line")
        self.assertEqual(self.ran(), (0, ["room/a: passed", "room/b: passed", "2 of 2 passed"]))

    def test_failed(self) -> None:
        """What it said is shown, the others are run, and its name comes last, with the end of what it said."""
        said = ["much", "why", "and", "how", "where"]
        self.script("a", "; ".join(f"echo {word}" for word in said), "exit 3")
        self.script("b")
        last = ["1 of 2 passed", "room/a: failed", *(f"    {word}" for word in said[1:])]
        self.assertEqual(self.ran(), (1, [*said, "room/a: failed, status 3", "room/b: passed", *last]))

    def test_once_more(self) -> None:
        """One that depends on time is made twice if it fails, when the others have ended; no other one is."""
        late = self.room / "late"
        self.script(
            "a", '# RUNS = ("one", "two")', '# TIMED = ("one",)', f"[ -e {late} ] || {{ touch {late}; exit 1; }}"
        )
        self.script("b")
        said = ["room/a one: failed, status 1", "room/a two: passed", "room/b: passed"]
        again = "room/a one: once more, since it depends on time"
        self.assertEqual(self.ran(), (0, [*said, again, "room/a one: passed", "3 of 3 passed"]))
        self.script("a", "# TIMED = True", "exit 1")
        said, again = ["room/a: failed, status 1", "room/b: passed"], "room/a: once more, since it depends on time"
        last = [again, "room/a: failed, status 1", "1 of 2 passed", "room/a: failed"]
        self.assertEqual(self.ran(), (1, [*said, *last]))

    def test_left_out(self) -> None:
        """A run that needs proved programs fails where there are none."""
        self.script("a", '# RUNS = ("$PROVED",)')
        self.script("b")
        said = ["room/b: passed", "did not run, for want of proved programs: room/a", "1 of 1 passed"]
        self.assertEqual(self.ran(), (1, said))

    def test_quick(self) -> None:
        self.script("a", "exit 1")
        self.script("b", "# QUICK = True")
        self.assertEqual(self.ran("--quick"), (0, ["room/b: passed", "1 of 1 passed"]))
        self.assertEqual(self.ran("--list"), (0, ["room/a", "room/b"]))

    def test_too_long(self) -> None:
        """It is ended with what it started."""
        self.script("a", "# LIMIT = 1", "sleep 1000 & echo $!", "wait")
        status, (started, *said) = self.ran()
        last = ["0 of 1 passed", "room/a: failed", f"    {started}"]
        self.assertEqual((status, said), (1, ["room/a: failed: it took more than 1 s", *last]))
        until(lambda: not is_running(started))
        self.assertFalse(is_running(started))


def is_running(process: str) -> bool:
    """Also where nobody waits for it, what has ended has no command line any more."""
    line = pathlib.Path("/proc", process, "cmdline")
    return line.exists() and line.read_bytes() != b""


if __name__ == "__main__":
    unittest.main()
