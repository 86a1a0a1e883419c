"""Tests that each storey of specs/ rests on those before it, and what ARCHITECTURE.md says of crates and lemmas."""

import pathlib
import re
import unittest
from collections.abc import Iterator

from tools import believed

QUICK = True
TOP = pathlib.Path(__file__).resolve().parents[3]

CRATES = TOP / "crates"
ARCHITECTURE = (TOP / "docs" / "ARCHITECTURE.md").read_text(encoding="utf-8")
# Each rests on itself and on those before it.
STOREYS = ["specs", "code", "laws", "examples"]
# What the toolchain makes of the code.
MADE = ("declared", "contracts")
CITED = re.compile(r"\bRattle\.(\w+)\.(specs|proofs)\.(\w+(?:\.\w+)*)|\b(\w+)::(specs|proofs)::(\w+(?:::\w+)*)")
# What a module names of another one of specs/.
NAMED = re.compile(r"\bRattle\.(\w+)\.specs\.(\w+(?:\.\w+)*)\.\{([^}]*)\}")
# A lemma is declared by its name and type alone, and its first equation follows.
LEMMA = re.compile(r"^( *)(?:pub )?([^\s:()]+) : .*(?:\n\1 +\S.*)*\n\1\2 ", re.M)
# Functions with empty bodies, whose contracts are laws and examples.
LAWS = re.compile(r"src/laws\.rt$|src/worked_\w+\.rt$")


def cited(file: pathlib.Path) -> Iterator[tuple[str, str, list[str]]]:
    """What a file names of crates: the crate, specs or proofs, and the path there."""
    own = file.relative_to(CRATES).parts[0]
    for found in CITED.finditer(file.read_text(encoding="utf-8")):
        crate, room, path = found[1] or found[4], found[2] or found[5], (found[3] or found[6]).replace("::", ".")
        crate = own if crate == "crate" else crate
        if (CRATES / crate).is_dir():
            yield crate, room, path.split(".")


def files(room: str, ending: str = "antt") -> list[pathlib.Path]:
    return sorted(CRATES.glob(f"*/{room}/**/*.{ending}"))


def storey(path: list[str]) -> int:
    return STOREYS.index(path[0]) if len(path) > 1 and path[0] in STOREYS else 0


def rows(heading: str) -> list[list[str]]:
    """The cells of the table under a line of head cells."""
    table = re.search(rf"^{re.escape(heading)}\n\|[-|]+\n((?:\|.*\n)+)", ARCHITECTURE, re.M)
    assert table, f"docs/ARCHITECTURE.md has no table with the heads {heading}"
    return [[cell.strip() for cell in line.strip("|").split("|")] for line in table[1].splitlines()]


class Storeys(unittest.TestCase):
    def test_definitions_rest_on_those_before(self) -> None:
        for file in files("specs"):
            own = storey(list(file.relative_to(CRATES).with_suffix("").parts[2:]))
            self.rests(file, own)

    def test_code_cites_no_law(self) -> None:
        """Contracts of code cite neither laws nor examples."""
        for file in files("src", "rt"):
            is_law = LAWS.search(file.relative_to(CRATES).as_posix())
            self.rests(file, STOREYS.index("examples" if is_law else "code"))

    def test_statements_of_laws(self) -> None:
        """The statement of a law stands in laws/, and none of them in code/."""
        for file in CRATES.glob("*/src/laws.rt"):
            crates = {crate for crate, room, path in cited(file) if room == "specs" and storey(path) == 1}
            self.assertEqual(crates, set(), file.relative_to(CRATES))

    def rests(self, file: pathlib.Path, highest: int) -> None:
        """The file names no definition of a storey past this one."""
        for crate, room, path in cited(file):
            if room == "specs" and path[0] not in MADE:
                where = f"{file.relative_to(CRATES)} names {crate}.{'.'.join(path)}"
                self.assertLessEqual(storey(path), highest, where)

    def test_lemmas(self) -> None:
        """The storey code/ alone has lemmas, in the crates that ARCHITECTURE.md names."""
        crates = set()
        for file in files("specs"):
            crate, _, *path = file.relative_to(CRATES).with_suffix("").parts
            if lemmas(crate, path):
                self.assertEqual(path[0], "code", file.relative_to(CRATES))
                crates.add(crate)
        (said,) = re.findall(r"obeys the laws: those of ([^.]*)\.", " ".join(ARCHITECTURE.split()))
        self.assertEqual(crates, set(re.findall(r"`(\w+)`", said)))


class Documents(unittest.TestCase):
    def test_believed_crates(self) -> None:
        """The table of crates has each of crates.txt, and says of which something is believed."""
        said = {row[0].strip("`"): row[3] for row in rows("| crate | takes | answers | believed |")}
        self.assertEqual(set(said), set(uses()))
        reading = believed.read(CRATES, believed.CALLS | believed.VIEWS)
        believed.read(CRATES, believed.SPLITTER_CALLS, reading)
        crates = {module.crate for file, module in reading.read.items() if file in reading.reached}
        self.assertEqual({crate for crate, cell in said.items() if cell != "none"}, crates)

    def test_pairs(self) -> None:
        """Proofs cite lemmas along the pairs of the table, and along no others."""
        said = set()
        for cells in rows("| proofs of | cite lemmas of | on |"):
            crates, others = (re.findall(r"`(\w+)`", cell) for cell in cells[:2])
            said |= {(crate, other) for crate in crates for other in others}
        self.assertEqual(sorted(pairs()), sorted(said))


class Lemmas(unittest.TestCase):
    def test_proofs_by_hand(self) -> None:
        """Only the functions that make the list of calls, which is for proofs alone, are proved by hand."""
        by_hand = {file.parent.relative_to(CRATES).as_posix() for file in CRATES.glob("*/proofs/**/Proof.antt")}
        self.assertEqual(by_hand, {f"input_output/proofs/calls/Calls/{name}" for name in ("new", "then")})

    def test_proofs_alone_cite_them(self) -> None:
        for file in files("specs") + files("src", "rt"):
            own = file.relative_to(CRATES).parts[0]
            others = {crate for crate, room, _ in cited(file) if room == "proofs" and crate != own}
            self.assertEqual(others, set(), file.relative_to(CRATES))

    def test_along_uses(self) -> None:
        """A proof cites lemmas of crates that its line in crates.txt names, in public modules right in proofs/."""
        for file in files("proofs"):
            own = file.relative_to(CRATES).parts[0]
            for crate, room, path in cited(file):
                if room == "proofs" and crate != own:
                    public = (CRATES / crate / "proofs" / "Lib.antt").read_text(encoding="utf-8").splitlines()
                    self.assertIn(crate, uses()[own], file.relative_to(CRATES))
                    self.assertIn(f"pub mod {path[0]}", public, file.relative_to(CRATES))
                    self.assertTrue((CRATES / crate / "proofs" / f"{path[0]}.antt").is_file(), file.relative_to(CRATES))


def uses() -> dict[str, list[str]]:
    """Each crate with the libraries that its line in crates.txt names."""
    text = re.sub(r"#.*", "", (TOP / "crates.txt").read_text(encoding="utf-8"))
    return {line.partition(":")[0]: line.partition(":")[2].split() for line in text.splitlines() if line.strip()}


def pairs() -> set[tuple[str, str]]:
    """The crates whose proofs cite lemmas of others, or any module those of specs/."""
    found = set()
    for file in files("proofs"):
        own = file.relative_to(CRATES).parts[0]
        found |= {(own, crate) for crate, room, _ in cited(file) if room == "proofs" and crate != own}
    for file in files("proofs") + files("specs") + files("src", "rt"):
        own = file.relative_to(CRATES).parts[0]
        for crate, path, names in NAMED.findall(file.read_text(encoding="utf-8")):
            if crate != own and set(re.split(r",\s*", names)) & lemmas(crate, path.split(".")):
                found.add((own, crate))
    return found


def lemmas(crate: str, path: list[str]) -> set[str]:
    """The lemmas of a module of specs/."""
    file = CRATES.joinpath(crate, "specs", *path).with_suffix(".antt")
    return {name for _, name in LEMMA.findall(file.read_text(encoding="utf-8"))} if file.is_file() else set()


class Depth(unittest.TestCase):
    """No proof speaks of the stack: what calls itself is for each worker or halves its work, or it might overflow."""

    # The folder of the proof of calls that go round, and how deep they go.
    BOUNDS = {
        "audit_rounds/batch/+by_shares+fn-by_shares-join+arg2+fn-by_shares-join+arg3": "the workers, 64 at most",
        "audit_rounds/prepared/+fn-prepare_each-join+arg2+fn-prepare_each-join+arg3+prepare_each": "the workers",
        "report_pages/filling/+pages": "the pages, one for each worker",
        "split_merge/ranges/+fn-in_ranges-join+arg3+in_ranges": "the workers",
        "stop_desk/crews/+fn-fork-join+arg3+fork": "the workers",
    }

    def test_each_is_bounded(self) -> None:
        folders = (folder for folder in CRATES.glob("*/proofs/**/+*") if folder.is_dir())
        found = {str(folder.relative_to(CRATES)).replace("/proofs/", "/") for folder in folders}
        self.assertEqual(found, set(self.BOUNDS), "say how deep it goes")


if __name__ == "__main__":
    unittest.main()
