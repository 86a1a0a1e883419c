"""Tests of what h2audit-any says of an original: why plaintext ends, fragments, times that go back, what was passed
over; and of how it ends where its own files fail.

    python3 -m tools.tests.imports.any_test [PROGRAM] [CLASS..]

PROGRAM is h2audit; without it the tests of reports are skipped.
"""

import os
import pathlib
import signal
import struct
import subprocess
import tempfile
import unittest

from tests.programs import named
from tools.tests import import_tools as tools
from tools.tests.companions import UNREAD
from tools.tests.signals import SIGNALS, until

RUNS = ("$H2AUDIT",)
QUICK = True
PROGRAM = next(iter(named()), None)
EXAMPLE = tools.EXAMPLES / "use_after_reset.pcap"
TLS = "nghttp-nghttpd-13"
NOTHING_READ = "h2audit-any: no connection could be read"
needs_program = unittest.skipUnless(PROGRAM, "h2audit is not built")


class InFolder(unittest.TestCase):
    def setUp(self) -> None:
        held = tempfile.TemporaryDirectory(prefix="h2audit-test-")
        self.addCleanup(held.cleanup)
        self.folder = pathlib.Path(held.name)

    def write(self, packets: list[tools.Packet], link: int) -> pathlib.Path:
        path = self.folder / "in.pcap"
        path.write_bytes(tools.pcap_of(packets, link))
        return path

    def both_ways(self, *words: tools.Word) -> tuple[str, int, str]:
        """What h2audit-any prints of captures, and of h2audit's report by a map: the same."""
        assert PROGRAM
        found = tools.report_of(PROGRAM, *words)
        made, made_map = self.folder / "made.pcap", self.folder / "made.map"
        subprocess.run([tools.IMPORT, "-o", made, "-m", made_map, *words], stderr=subprocess.DEVNULL)
        report = subprocess.run([PROGRAM, made], capture_output=True).stdout
        back = subprocess.run([tools.ANY, "--map", made_map], input=report, capture_output=True)
        self.assertEqual((back.stdout.decode(), back.returncode, back.stderr.decode()), found)
        return found


@needs_program
class Originals(InFolder):
    def test_why_plaintext_ends(self) -> None:
        """A record whose tag is wrong ends its flow, and later ones were captured."""
        packets, link = tools.read_pcap(tools.capture_named(TLS).read_bytes())
        keys = tools.key_log_of(TLS)
        whole = self.both_ways(*keys, self.write(packets, link))[0]
        (before,) = [line for line in whole.splitlines() if line.startswith("flow server ")]
        self.assertEqual(before.split()[4:], ["gap", "none", "tail", "0"])
        long = [number for number, one in enumerate(packets) if len(one.data) > 200][-2]
        damaged = packets[long].data[:-20] + bytes(byte ^ 1 for byte in packets[long].data[-20:])
        packets[long] = packets[long]._replace(data=damaged)
        found = self.both_ways(*keys, self.write(packets, link))[0]
        ended = [line.split()[4:] for line in found.splitlines() if line.endswith(" end bad-record")]
        self.assertEqual([(gap, tail) for gap, _, tail, _, _, _ in ended], [("gap", "tail")], found)

    def test_fragments(self) -> None:
        """Two fragments of one datagram are counted at their connection, and no fault is made of that."""
        packets, link = tools.read_pcap(EXAMPLE.read_bytes())
        number = max(range(len(packets)), key=lambda at: len(packets[at].data))
        start = 14 if link == 1 else 0
        head, payload = packets[number].data[: start + 20], packets[number].data[start + 20 :]
        self.assertGreater(len(payload), 40)
        pieces = [(0x2000, payload[:32]), (4, payload[32:])]
        parts = [
            head[: start + 2] + struct.pack(">HHH", 20 + len(piece), 7, offset) + head[start + 8 : start + 20] + piece
            for offset, piece in pieces
        ]
        packets[number : number + 1] = [packets[number]._replace(data=part, original=len(part)) for part in parts]
        report, _, said = self.both_ways(self.write(packets, link))
        lines = report.splitlines()
        self.assertEqual(said, "")
        self.assertIn(" fragments 2 ", lines[0])
        connection = next(at for at, line in enumerate(lines) if line.startswith("connection 1 "))
        self.assertEqual(lines[connection + 1], "fragments 2")

    def test_times_that_go_back(self) -> None:
        """Two files in the wrong order: a line says so, and --sort reads them in order."""
        packets, link = tools.read_pcap(EXAMPLE.read_bytes())
        wanted, status, said = tools.report_of(str(PROGRAM), EXAMPLE)
        self.assertEqual(said, "")
        half = len(packets) // 2
        names = [self.folder / "g.pcap2", self.folder / "g.pcap10"]
        for name, part in zip(names, (packets[:half], packets[half:])):
            name.write_bytes(tools.pcap_of(part, link))
        back = f"h2audit-any: times go back at packet {len(packets) - half + 1}: are the files in order? --reorder\n"
        self.assertTrue(tools.report_of(str(PROGRAM), *reversed(names))[2].startswith(back))
        self.assertEqual(tools.report_of(str(PROGRAM), "--sort", *reversed(names)), (wanted, status, ""))

    def test_late_packets(self) -> None:
        """Packets of two queues: in order of time, no fault is left, and numbers are the packets' own."""
        late = tools.TOP / "tests" / "answer" / "packets_late_in_file.pcap"
        status, said = self.both_ways(late)[1:]
        self.assertEqual((status, said.endswith(": are the files in order? --reorder\n")), (1, True))
        self.assertEqual(self.both_ways("--reorder", late)[1:], (0, ""))
        packets, link = tools.read_pcap(EXAMPLE.read_bytes())
        packets = [one._replace(nanos=one.nanos + 10**10) for one in packets]
        packets.append(packets[-1]._replace(nanos=packets[-1].nanos - 2 * 10**9))
        said = self.both_ways("--reorder", self.write(packets, link))[2]
        back = f"times go back at packet {len(packets)}: 1 packet too late for --reorder: reordercap"
        self.assertEqual(said, f"h2audit-any: {back}\n")

    def test_tunnels(self) -> None:
        """What was passed over is named; with a connection beside it tunnels alone are, and the status stays."""
        packets, _ = tools.read_pcap(EXAMPLE.read_bytes())
        mpls = tools.Packet(packets[0].nanos, bytes(12) + b"\x88\x47" + bytes(60), 74)
        arp = mpls._replace(data=bytes(12) + b"\x08\x06" + bytes(60))
        self.assertEqual(
            self.both_ways(self.write([mpls, arp, mpls], 1))[1:],
            (6, f"{NOTHING_READ}; passed over: 2 packets mpls, 1 packet arp\n"),
        )
        self.assertEqual(self.both_ways(self.write([], 1))[1:], (6, f"{NOTHING_READ}\n"))
        wanted = tools.report_of(str(PROGRAM), EXAMPLE)
        other = self.folder / "other.pcap"
        other.write_bytes(tools.pcap_of([mpls, arp], 1))
        report, status, said = tools.report_of(str(PROGRAM), other, EXAMPLE)
        self.assertEqual((status, said), (wanted[1], "h2audit-any: passed over: 1 packet mpls\n"))
        self.assertIn("http2", report)


class Endings(InFolder):
    def run_shell(self, script: str) -> tuple[str, str]:
        """What a line of the shell prints, and what it says on standard error."""
        names = {"ANY": str(tools.ANY), "P": str(EXAMPLE), "D": str(self.folder), "H2AUDIT": PROGRAM or "/bin/false"}
        done = subprocess.run(["bash", "-c", script], capture_output=True, text=True, env={**os.environ, **names})
        return done.stdout, done.stderr

    def test_output_that_takes_nothing(self) -> None:
        for words in (*["$P"] * bool(PROGRAM), "--help", "--version", "-V"):
            full = ("4\n", "h2audit-any: standard output: No space left on device\n")
            for output, wanted in (("> /dev/full", full), ("| true", (f"{UNREAD}\n", ""))):
                found = self.run_shell(f'( sleep 0.2; exec $ANY {words} ) {output}; echo "${{PIPESTATUS[0]}}"')
                self.assertEqual(found, wanted, words)

    def test_folder_of_temporary_files(self) -> None:
        """One that is full or is not there is named as what it is. What is put in order is always written."""
        named = "the folder of temporary files (TMPDIR)"
        for script, why in (
            ("TMPDIR=$D/none $ANY $P", f"{self.folder}/none, {named}: No such file or directory"),
            ("trap '' XFSZ; ulimit -f 0; TMPDIR=$D $ANY --reorder $P", f"{self.folder}, {named}: File too large"),
        ):
            self.assertEqual(self.run_shell(f"({script}); echo $?"), ("4\n", f"h2audit-any: {why}\n"))
        self.assertEqual(os.listdir(self.folder), [])

    def test_signals(self) -> None:
        """A signal ends h2audit too, says nothing, and leaves neither plaintext nor parts behind."""
        program, pid = self.folder / "waits", self.folder / "pid"
        program.write_text(f"#!/bin/sh\necho $$ > {pid}.new; mv {pid}.new {pid}; exec sleep 100\n")
        splits = self.folder / "h2audit-split"
        splits.write_text("#!/bin/sh\nmkdir $4; cp $5 $4/part-001.pcap\n")
        for path in (program, splits):
            path.chmod(0o755)
        temporary = self.folder / "temporary"
        temporary.mkdir()
        folders = f"{self.folder}:{os.environ['PATH']}"
        ways: tuple[list[str], ...] = ([], ["--parts", "1"])
        for more in ways:
            for number in SIGNALS:
                pid.unlink(missing_ok=True)
                words = ["env", f"TMPDIR={temporary}", f"PATH={folders}", tools.ANY, "--h2audit", program, *more, "-"]
                status, said = self.ended_by([*words], number, pid)
                self.assertEqual((status, said, os.listdir(temporary)), (-number, b"", []), (more, number))
                until(lambda: not pathlib.Path("/proc", pid.read_text().strip()).exists())
                self.assertFalse(pathlib.Path("/proc", pid.read_text().strip()).exists())

    def ended_by(self, words: list[object], number: signal.Signals, pid: pathlib.Path) -> tuple[int, bytes]:
        """What becomes of a program that gets a signal once the one that it runs is there."""
        if signal.getsignal(number) is signal.SIG_IGN:  # as of what a shell runs in the background
            signal.signal(number, signal.SIG_DFL)
        with open(EXAMPLE, "rb") as capture:
            child = subprocess.Popen([*map(str, words)], stdin=capture, stderr=subprocess.PIPE)
        until(pid.exists)
        child.send_signal(number)
        status = child.wait(60)
        assert child.stderr
        with child.stderr as said:
            return status, said.read()

    def test_names_are_escaped(self) -> None:
        said = self.run_shell("$ANY $'/nowhere/re\\e[31md\\n'; echo $?")
        self.assertEqual(said, ("4\n", "h2audit-any: /nowhere/re\\x1b[31md\\n: No such file or directory\n"))

    @needs_program
    def test_standard_input(self) -> None:
        """- is standard input, as a file of its own name is."""
        for words in ("- < $P", "< $P", "$P - < /dev/null"):
            report, said = self.run_shell(f"$ANY {words}; echo $?")
            self.assertIn(report[-2:], ("1\n", "3\n"), words)
            self.assertEqual(said != "", "null" in words)

    def test_statuses_in_help(self) -> None:
        for name in ("any", "comment", "import", "merge"):
            said, _ = self.run_shell(f'"$(dirname $ANY)"/h2audit-{name} --help')
            self.assertIn("Exit status: 0 if ", said)

    def test_version(self) -> None:
        for name in ("any", "comment", "import", "merge"):
            for word in ("--version", "-V"):
                said, _ = self.run_shell(f'"$(dirname $ANY)"/h2audit-{name} {word}')
                self.assertRegex(said, rf"^h2audit-{name} \d+\.\d+\.\d+\S*\n$")


if __name__ == "__main__":
    unittest.main()
