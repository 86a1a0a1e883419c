"""Tests of `make release`, in a scratch repository: python3 -m tools.tests.documents.release_test"""

import os
import pathlib
import shutil
import subprocess
import sys
import tempfile
import unittest

from tools import version

TOP = pathlib.Path(__file__).resolve().parents[3]
OWN = ("VERSION", "CHANGELOG.md", "tools/version.py", "tools/release.py", "tools/package/changelog")
# 2 January 2027, 00:00:05 UTC.
WHEN = 1_798_848_005
NUMBER = "3.2.1"


def files() -> list[pathlib.Path]:
    """What a release reads and writes."""
    found = [TOP / name for name in (*OWN, *(place.file for place in version.places()))]
    found += [*(TOP / "h2audit").glob("*.py"), *(TOP / "h2audit" / "report").glob("*.py")]
    return found + list((TOP / "companions").glob("*/Cargo.toml"))


class Release(unittest.TestCase):
    def setUp(self) -> None:
        self.top = pathlib.Path(self.enterContext(tempfile.TemporaryDirectory()), "scratch")
        for file in files():
            copy = self.top / file.relative_to(TOP)
            copy.parent.mkdir(parents=True, exist_ok=True)
            shutil.copyfile(file, copy)
        (self.top / ".gitignore").write_text("__pycache__/\n")
        self.git("init", "--quiet")
        # The version that is developed is one that no release has.
        (self.top / "VERSION").write_text(f"{NUMBER}-dev\n")
        self.change("CHANGELOG.md", "\n## ", f"\n## {NUMBER} (unreleased)\n\nNothing.\n\n## ")
        self.run_module("tools.version")
        self.commit()

    def git(self, *words: str) -> str:
        name = ("-c", "user.name=A maintainer", "-c", "user.email=one@example.org")
        run = subprocess.run(["git", *name, *words], cwd=self.top, check=True, capture_output=True, text=True)
        return run.stdout

    def commit(self) -> None:
        self.git("add", "--all")
        self.git("commit", "--quiet", "--message", "Before")

    def change(self, file: str, old: str, new: str) -> None:
        text = (self.top / file).read_text()
        self.assertIn(old, text)
        (self.top / file).write_text(text.replace(old, new, 1))

    def run_module(self, name: str) -> subprocess.CompletedProcess[str]:
        whose = {f"GIT_{who}_{what}": "a@example.org" for who in ("AUTHOR", "COMMITTER") for what in ("NAME", "EMAIL")}
        surroundings = {**os.environ, **whose, "SOURCE_DATE_EPOCH": str(WHEN), "PYTHONDONTWRITEBYTECODE": "1"}
        words = [sys.executable, "-m", name]
        return subprocess.run(words, cwd=self.top, env=surroundings, capture_output=True, text=True)

    def holding(self, text: str) -> list[str]:
        """The files with it."""
        run = subprocess.run(["git", "grep", "-lF", text], cwd=self.top, capture_output=True, text=True)
        return run.stdout.split()

    def test_developed(self) -> None:
        """What make version wrote before."""
        self.assertGreater(len(self.holding(f"{NUMBER}-dev")), 15)
        self.assertTrue((self.top / "tools/package/changelog").read_text().startswith(f"h2audit ({NUMBER}~dev) UNREL"))

    def test_released(self) -> None:
        before = set(self.holding(f"{NUMBER}-dev"))
        ran = self.run_module("tools.release")
        said = f"v{NUMBER} is a tag. When the gate passes in a clone of it: git push origin HEAD v{NUMBER}\n"
        self.assertEqual((ran.returncode, ran.stdout, ran.stderr), (0, said, ""))
        self.assertEqual((self.top / "VERSION").read_text(), f"{NUMBER}\n")
        self.assertIn(f"\n## {NUMBER} (2 January 2027)\n\nNothing.\n", (self.top / "CHANGELOG.md").read_text())
        listed = (self.top / "tools/package/changelog").read_text().splitlines()
        self.assertEqual(listed[0], f"h2audit ({NUMBER}) stable; urgency=medium")
        made = next(line for line in listed if line.startswith(" -- "))
        self.assertEqual(made.partition(">  ")[2], "Sat, 02 Jan 2027 00:00:05 +0000")
        self.assertEqual(self.holding("-dev)") + self.holding(f"{NUMBER}-dev") + self.holding(f"{NUMBER}~dev"), [])
        self.assertLessEqual(before, set(self.holding(NUMBER)))
        self.assertIn(".Dd January 2, 2027", (self.top / "tools/man/h2audit.1").read_text())

    def test_committed(self) -> None:
        """A commit with nothing left beside it, and a tag of it; nothing is pushed."""
        origin = self.top.with_name("origin.git")
        self.git("init", "--quiet", "--bare", str(origin))
        self.git("remote", "add", "origin", str(origin))
        self.run_module("tools.release")
        self.assertEqual(self.git("status", "--porcelain"), "")
        self.assertEqual(self.git("log", "--format=%s").split("\n"), [f"Version {NUMBER}", "Before", ""])
        self.assertEqual(self.git("cat-file", "-t", f"v{NUMBER}"), "tag\n")
        self.assertEqual(self.git("rev-parse", f"v{NUMBER}^{{}}"), self.git("rev-parse", "HEAD"))
        self.assertEqual(self.git("ls-remote", "origin"), "")

    def refused(self, why: str) -> None:
        """Nothing is changed then."""
        before = self.git("rev-parse", "HEAD"), self.git("status", "--porcelain"), self.git("tag")
        ran = self.run_module("tools.release")
        self.assertEqual((ran.returncode, ran.stdout), (1, ""))
        self.assertIn(why, ran.stderr)
        self.assertEqual((self.git("rev-parse", "HEAD"), self.git("status", "--porcelain"), self.git("tag")), before)

    def test_tree_with_changes(self) -> None:
        (self.top / "new").touch()
        self.refused("release: the tree has changes that are not committed\n")

    def test_not_developed(self) -> None:
        (self.top / "VERSION").write_text(f"{NUMBER}\n")
        self.commit()
        self.refused(f"release: VERSION says {NUMBER}, which is no version that is developed: it has no -dev\n")

    def test_tag_is_there(self) -> None:
        self.git("tag", f"v{NUMBER}")
        self.refused(f"release: v{NUMBER} is a tag already\n")

    def test_no_list_of_changes(self) -> None:
        self.change("CHANGELOG.md", "(unreleased)", "(1 January 2027)")
        self.commit()
        self.refused(f"release: CHANGELOG.md has no list of {NUMBER} (unreleased)\n")


if __name__ == "__main__":
    unittest.main()
