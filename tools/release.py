"""Makes a release of the version that is developed: python3 -m tools.release, by `make release`.

VERSION loses its -dev, the list of changes and that of the package get the date in UTC, and `make version` writes both
wherever else they stand. All is committed and tagged; a tag is signed where git's tag.gpgSign says so. Nothing is
pushed. The date is of SOURCE_DATE_EPOCH, where it is set.
"""

import datetime
import email.utils
import os
import pathlib
import re
import subprocess
import sys

from h2audit.report import VERSION
from tools.version import DEVELOPED, UNRELEASED

TOP = pathlib.Path(__file__).resolve().parents[1]
# Who made an entry of the package's list, and when.
MADE = re.compile(r"^( -- .*>  ).*$", re.M)


def refused(why: str) -> None:
    sys.exit(f"release: {why}")


def git(*words: str) -> str:
    return subprocess.run(["git", *words], cwd=TOP, check=True, stdout=subprocess.PIPE, text=True).stdout


def now() -> datetime.datetime:
    given = os.environ.get("SOURCE_DATE_EPOCH")
    return datetime.datetime.fromtimestamp(int(given), datetime.UTC) if given else datetime.datetime.now(datetime.UTC)


def check(version: str) -> None:
    """Nothing is changed before all of this holds."""
    if version == VERSION:
        refused(f"VERSION says {VERSION}, which is no version that is developed: it has no {DEVELOPED}")
    if git("status", "--porcelain"):
        refused("the tree has changes that are not committed")
    if git("tag", "--list", f"v{version}"):
        refused(f"v{version} is a tag already")
    if changes().count(heading(version, UNRELEASED)) != 1:
        refused(f"CHANGELOG.md has no list of {version} ({UNRELEASED})")


def changes() -> str:
    return (TOP / "CHANGELOG.md").read_text(encoding="utf-8")


def heading(version: str, when: str) -> str:
    return f"\n## {version} ({when})\n"


def write(version: str, when: datetime.datetime) -> None:
    (TOP / "VERSION").write_text(f"{version}\n", encoding="ascii")
    dated = changes().replace(heading(version, UNRELEASED), heading(version, f"{when.day} {when:%B} {when.year}"))
    (TOP / "CHANGELOG.md").write_text(dated, encoding="utf-8")
    listed = TOP / "tools" / "package" / "changelog"
    made = MADE.sub(lambda found: found[1] + email.utils.format_datetime(when), listed.read_text(encoding="utf-8"), 1)
    listed.write_text(made, encoding="utf-8")
    # By another process, since this one has read the old one.
    subprocess.run([sys.executable, "-m", "tools.version"], cwd=TOP, check=True)


def main() -> None:
    version = VERSION.removesuffix(DEVELOPED)
    check(version)
    write(version, now())
    git("commit", "--quiet", "--all", "--message", f"Version {version}")
    git("tag", "--annotate", f"v{version}", "--message", f"h2audit {version}")
    print(f"v{version} is a tag. When the gate passes in a clone of it: git push origin HEAD v{version}")


if __name__ == "__main__":
    main()
