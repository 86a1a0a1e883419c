"""Tests of the way without daemons: fleet_collect_test.py [PROGRAM]

The commands are those of docs/FLEET.md, run by bash and GNU parallel. With PROGRAM the captures go through h2audit-any;
without, a program that stands in for it answers what was written by hand.
"""

import os
import re
import subprocess
import unittest

from h2audit.fleet import names
from tools.tests.fleet.captures import PATIENCE, PROGRAM, TOP, Machine, beside, by_hand
from tools.tests.fleet.rows import lines_of, rows_by_hand

RUNS = ("$H2AUDIT",)
BLOCK = re.compile(r"^```\n(.*?)^```$", re.M | re.S)
EXAMPLES = (
    "stream_overrun_go",
    "use_after_reset",
    "connection_overflow_nginx",
    "lost_segment",
    "stream_stalls_nghttpd",
    "zero_increment_nginx",
)
# How long the last of them had a stall that did not end.
OPEN_NANOS = 201057000
PATHS = "replace(replace(path, '/captures/', ''), '.pcap', '')"


def block(word: str) -> str:
    """The commands of the document that hold this word."""
    return next(found[1] for found in BLOCK.finditer((TOP / "docs" / "FLEET.md").read_text()) if word in found[1])


class Collected(unittest.TestCase):
    def setUp(self) -> None:
        self.machine = Machine([sample for sample in by_hand() if sample.name in EXAMPLES], None)
        self.machine.__enter__()
        self.addCleanup(self.machine.__exit__)
        if PROGRAM:
            self.machine.link("h2audit", PROGRAM)
            self.machine.link("h2audit-any", beside("h2audit-any"))
            self.machine.link("h2audit-import", beside("h2audit-import"))
        self.machine.link("h2audit-fleet", TOP / "tools" / "h2audit-fleet")
        first = self.machine.samples[0]
        (self.machine.captures / f"{first.name}.pcap").rename(self.machine.captures / "a\n'b $(c).pcap")
        self.jobs = self.machine.folder / "jobs"

    def bash(self, commands: str, **more: str) -> subprocess.CompletedProcess[str]:
        self.machine.write_orders()
        surroundings = {**self.machine.surroundings, "HOME": str(self.machine.folder), **more}
        return subprocess.run(
            ["bash", "-c", commands],
            cwd=self.machine.folder,
            env=surroundings,
            capture_output=True,
            text=True,
            timeout=PATIENCE,
        )

    def name_of(self, place: int) -> str:
        name = "a\n'b $(c).pcap" if place == 0 else f"{self.machine.samples[place].name}.pcap"
        return names.word_of(os.fsencode(self.machine.captures / name))

    def check(self, place: int) -> None:
        """All rows of a capture are those that its report says."""
        sample = self.machine.samples[place]
        asked = "SELECT id, size, sha256, outcome, status FROM captures WHERE path = ?"
        row = self.machine.ask(asked, self.name_of(place))
        self.assertEqual([one[1:] for one in row], [(len(sample.capture), sample.digest, "audited", sample.status)])
        for table, rows in rows_by_hand(sample.report).items():
            found = [one[1:] for one in self.machine.ask(f"SELECT * FROM {table} WHERE capture = ?", row[0][0])]
            if table == "stalls":
                found = [one if one[5] else (*one[:6], None, *one[7:]) for one in found]
            self.assertEqual(found, rows, f"{sample.name}: {table}")

    def test_parallel(self) -> None:
        """GNU parallel, and then the same tables; what is changed and audited anew is collected anew."""
        commands = block("h2audit_job()") + block("export -f")
        ran = self.bash(commands.replace("--db audits.sqlite", f"--db {self.machine.database}"))
        wanted = "6 captures: 4 with faults, 0 in which nothing was audited\n"
        self.assertEqual((ran.returncode, ran.stdout), (1, wanted), ran.stderr)
        for place in range(6):
            self.check(place)
        self.assertIn((OPEN_NANOS if PROGRAM else None,), self.machine.ask("SELECT nanos FROM open_stalls"))
        again = self.machine.run("--collect", "jobs")
        self.assertEqual((again[0], again[2].count("\n")), (4, 1))
        self.assertEqual(self.machine.run("--collect", "jobs", "--resume")[:2], (1, ran.stdout))
        self.check(0)

    def test_array(self) -> None:
        """Two tasks of an array of Slurm."""
        self.jobs.mkdir()
        listed = "find \"$PWD/captures\" -name '*.pcap' -print0 | sort -z > captures.list\n"
        for task in ("1", "2"):
            ran = self.bash(block("h2audit_job()") + listed + block("SBATCH"), SLURM_ARRAY_TASK_ID=task)
            self.assertEqual((ran.returncode, ran.stdout, ran.stderr), (0, "", ""))
        self.assertEqual(len(list(self.jobs.glob("*.status"))), 2)
        self.assertEqual(self.machine.run("--collect", "jobs")[0], 1)
        self.assertEqual(self.machine.ask("SELECT COUNT(*) FROM captures WHERE outcome = 'audited'"), [(2,)])

    def job(self, name: str, status: str | None, rows: str = "", error: str = "") -> None:
        self.jobs.mkdir(exist_ok=True)
        (self.jobs / f"{name}.path").write_text(f"/captures/{name}.pcap")
        (self.jobs / f"{name}.report").write_text(self.machine.samples[0].report)
        (self.jobs / f"{name}.rows").write_text(rows)
        (self.jobs / f"{name}.error").write_text(error)
        if status is not None:
            (self.jobs / f"{name}.status").write_text(status)

    def test_misfortunes(self) -> None:
        """Time that is up, signals, refusals, what are no rows, and what did not come to its end."""
        rows = lines_of(self.machine.samples[0].report)
        self.job("late", "124 3600\n")
        self.job("killed", "137 3\n")
        self.job("poor", "5 3\n", error="h2audit-any: out of memory\n")
        self.job("odd", "3 1\n", error="h2audit-any: capture refused: link-type 105\n")
        self.job("torn", "1 1\n", rows[:-20])
        self.job("huge", "1 1\n", rows.replace('["findings", 1,', '["findings", 99999999999999999999,'))
        self.job("wide", "1 1\n", rows.replace('["findings", 1,', '["findings", 1, 1,'))
        self.job("bare", "1 1\n", rows.partition("\n")[0] + "\n")
        self.job("empty", "0 1\n")
        self.job("unended", None)
        self.job("unread", "no status\n")
        status, said, error = self.machine.run("--collect", "jobs")
        wanted = (
            "9 captures: 0 with faults, 9 in which nothing was audited (1 refused, 8 failed); "
            "2 did not come to their end\n"
        )
        self.assertEqual((status, said, error), (3, wanted, ""))
        said_of = self.machine.ask(f"SELECT {PATHS}, outcome || ' ' || reason FROM captures")
        found = {name: why for name, why in said_of}
        for name in ("torn", "wide"):
            self.assertRegex(found.pop(name), r"^failed bad-report: line \d+ of the rows is none$")
        self.assertEqual(
            found,
            {
                "late": "failed timeout",
                "killed": "failed signal 9",
                "poor": "failed out-of-memory",
                "odd": "refused link-type 105",
                "huge": "failed bad-report: a number is too large",
                "bare": "failed bad-report: the rows of no report",
                "empty": "failed bad-report: no rows, or those of another version",
            },
        )
        for table in ("connections", "findings", "stalls", "unopened", "passed_over"):
            self.assertEqual(self.machine.ask(f"SELECT * FROM {table}"), [])

    def test_odd_jobs(self) -> None:
        """A job without its report or rows, one with a folder or a pipe in its place, one of a name that no file has,
        and one of a time that no column holds: all others stand.
        """
        sample = self.machine.samples[0]
        for name in ("a", "b", "c", "d", "e", "f", "g"):
            self.job(name, f"{sample.status} 1\n", lines_of(sample.report))
        (self.jobs / "g.rows").unlink()
        for name in ("a", "b", "c"):
            (self.jobs / f"{name}.report").unlink()
        (self.jobs / "b.report").mkdir()
        os.mkfifo(self.jobs / "c.report")
        (self.jobs / "d.path").write_bytes(b"/captures/d.pcap\0")
        (self.jobs / "e.file").write_text("10 9999999999.999999999\n")
        status, said, error = self.machine.run("--collect", "jobs")
        wanted = "7 captures: 3 with faults, 4 in which nothing was audited (4 failed)\n"
        self.assertEqual((status, said, error), (3, wanted, ""))
        rows = self.machine.ask(f"SELECT {PATHS}, outcome, reason, size, modified FROM captures ORDER BY path")
        self.assertEqual(
            rows,
            [
                ("a", "failed", "bad-report: not-there", None, None),
                ("b", "failed", "bad-report: not-a-file", None, None),
                ("c", "failed", "bad-report: not-a-file", None, None),
                ("d%00", "audited", None, None, None),
                ("e", "audited", None, 10, (1 << 63) - 1),
                ("f", "audited", None, None, None),
                ("g", "failed", "bad-report: not-there", None, None),
            ],
        )


if __name__ == "__main__":
    unittest.main()
