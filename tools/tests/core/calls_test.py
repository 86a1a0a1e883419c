"""What a program does with answers of its system that vary: python3 -m tools.tests.core.calls_test PROGRAM

Random bytes, with which tables are keyed so that nobody can choose colliding pairs; and reads of any length. No
contract says that the bytes that were drawn are those that a table takes, or that a read of each length is taken. Nor
does one say that nothing waits in vain: so the functions of the C library that the program may call are listed.
"""

import pathlib
import subprocess
import tempfile
import unittest

from tests.programs import needed
from tools.tests import cost_captures
from tools.tests.core.counting import Counter

RUNS = ("$H2AUDIT",)
# All that the program may call of the C library. None of it gives up the processor (sched_yield), sleeps, or waits for
# anything but a read, a write and the end of a thread. Those with `__` are of its start, which asks for the processor.
CALLED = set(
    """
    __errno_location __libc_start_main __sysv_signal __write __x86_get_cpuid_feature_leaf
    _exit abort close free getentropy malloc memcpy memmove memset open
    pthread_attr_destroy pthread_attr_init pthread_attr_setguardsize pthread_create pthread_detach pthread_join
    pthread_self read realloc sched_getaffinity sysconf write
    """.split()
)

# How much a read gives at most: beside powers of two lengths that are none. The greatest read asks for 1,048,576 bytes.
LENGTHS = (
    511,
    4096,
    8191,
    65_536,
    99_999,
    131_071,
    262_143,
    262_144,
    262_145,
    333_333,
    500_000,
    524_288,
    600_000,
    654_321,
    700_001,
    777_777,
    800_000,
    917_504,
    1_000_000,
    1_048_575,
)


class Calls(unittest.TestCase):
    counter: Counter
    folder: pathlib.Path

    @classmethod
    def setUpClass(cls) -> None:
        folder = tempfile.TemporaryDirectory()
        cls.addClassCleanup(folder.cleanup)
        cls.counter, cls.folder = Counter(PROGRAM, folder.name), pathlib.Path(folder.name)

    def capture(self, name: str) -> str:
        path = self.folder / name
        cost_captures.write(name, path)
        return str(path)

    def test_random_bytes(self) -> None:
        """They are drawn once, and decide where pairs and streams stand in a table, and so how fast they are found."""
        for name, workers, status in (("one_server_below", 1, 0), ("shuffled_streams", 2, 1)):
            with self.subTest(name):
                words = [f"--workers={workers}", self.capture(name)]
                ran = self.counter.run(words)
                self.assertEqual((status, b"", 1), (ran.status, ran.said, ran.counts.drawn))
                for key in ("1", "2", ""):
                    self.assertEqual(ran.text, self.counter.run(words, KEY=key).text)
                # Under one key the numbers of instructions differ by 30 at most.
                steps = [self.counter.instructions(words, key) for key in "12345"]
                self.assertLess(1000, max(steps) - min(steps))

    def test_what_is_called(self) -> None:
        words = ["nm", "--dynamic", "--undefined-only", "--format=posix", "--without-symbol-versions", PROGRAM]
        said = subprocess.run(words, check=True, capture_output=True, text=True).stdout
        called = {line.split()[0] for line in said.splitlines() if line.split()[1] == "U"}
        self.assertIn("pthread_join", called)
        self.assertEqual(set(), called - CALLED)

    def test_lengths_of_reads(self) -> None:
        path = self.capture("bulk")
        for workers in (1, 4):
            words = [f"--workers={workers}", path]
            whole = self.counter.run(words)
            self.assertEqual((0, b""), (whole.status, whole.said))
            for most in LENGTHS:
                with self.subTest(workers=workers, most=most):
                    ran = self.counter.run(words, READ_MOST=most)
                    self.assertEqual(whole[:3], ran[:3])


if __name__ == "__main__":
    (PROGRAM,) = needed()
    unittest.main()
