"""Tests of tools/believed.py: what it reaches and refuses in small definitions, and that documents agree with it."""

import ast
import pathlib
import re
import subprocess
import sys
import tempfile
import unittest

from tests import reports_test
from tools import believed, spec_modules

QUICK = True
TOP = pathlib.Path(__file__).resolve().parents[3]

CODE = """\
ghost use Rattle.std.specs.Prelude.{◌≡◌};
ghost use Rattle.app.specs.Answer.{answer, unasked};
ghost use Rattle.app.specs.Other as other;

/// Not called: its contract is none of the program's.
pub fn idle() -> u8
    ensures { result ≡ unasked }
{
    0
}

pub fn call(input: u8) -> u8
    requires { other.IsAllowed input }
    ensures { result ≡ answer input }
{
    input
}
"""

ANSWER = """\
-- What is answered.
use Rattle.std.specs.Prelude.{ℕ, ◌+◌}
use Rattle.base.specs.Words.{twice as double, thrice}
use Rattle.app.specs.declared.shapes.Shape.{Shape}

-- not reached
abbrev pub unasked : ℕ
unasked = thrice 1

-- `step` is reached through this one, `width` is a variable here, and `height` a field
abbrev pub answer : (width : ℕ) → ℕ
answer width =
    -- a comment within
    let shape : Shape = record { height = double width; depth = 1 } in
    step shape.height  -- and one behind it

abbrev step : ℕ → ℕ
step n = n + 1

abbrev pub width : ℕ
width = 1

abbrev pub height : ℕ
height = 2
"""

OTHER = """\
use Rattle.std.specs.Prelude.{ℕ, ◌≡◌}

module _ {A : Type 0} where
  -- of a group
  pub record IsAllowed (input : ℕ) : Type 0 where
    pub small : input ≡ 0
    pub even : input ≡ 2

  abbrev pub IsOther : A → Type 0
  IsOther a = a ≡ a
"""

WORDS = """\
use Rattle.std.specs.Prelude.{ℕ, ◌+◌}

abbrev pub twice : ℕ → ℕ
twice n = n + n

abbrev pub thrice : ℕ → ℕ
thrice n = n + (n + n)
"""

FILES = {
    "app/src/lib.rt": CODE,
    "app/src/shapes.rt": "",
    "app/specs/Answer.antt": ANSWER,
    "app/specs/Other.antt": OTHER,
    "base/specs/Words.antt": WORDS,
    "base/specs/code/Steps.antt": "abbrev pub inner : Type 1\ninner = Type 0\n",
}


class Reach(unittest.TestCase):
    def setUp(self) -> None:
        room = tempfile.TemporaryDirectory()
        self.addCleanup(room.cleanup)
        self.crates = pathlib.Path(room.name)
        for name, text in FILES.items():
            self.write(name, text)

    def write(self, name: str, text: str) -> None:
        file = self.crates / name
        file.parent.mkdir(parents=True, exist_ok=True)
        file.write_text(text, encoding="utf-8")

    def rows(self) -> list[tuple[str, list[str], int]]:
        reading = believed.read(self.crates, {"app/src/lib.rt": ["call"]})
        return [
            (f"{crate}.{believed.shown(module.file)}", [one.name for one in mine], count)
            for crate, modules in reading.by_crate()
            for module, mine, count in modules
        ]

    def test_reached(self) -> None:
        """The base comes first; counted are signatures, clauses and fields, and the line that opens a group."""
        self.assertEqual(
            self.rows(),
            [("base.Words", ["twice"], 2), ("app.Answer", ["answer", "step"], 6), ("app.Other", ["IsAllowed"], 4)],
        )

    def test_further_list(self) -> None:
        """A further list has what the first one does not hold, of the same modules too."""
        self.write("app/src/more.rt", CODE.replace("IsAllowed", "IsOther"))
        reading = believed.read(self.crates, {"app/src/lib.rt": ["call"]})
        added = believed.read(self.crates, {"app/src/more.rt": ["idle", "call"]}, reading).by_crate()
        self.assertEqual(
            [([one.name for one in mine], count) for _, rows in added for _, mine, count in rows],
            [(["thrice"], 2), (["unasked"], 2), (["IsOther"], 2)],
        )
        self.assertEqual(believed.sums_of(added), (6, 3))

    def test_types(self) -> None:
        self.assertEqual(believed.read(self.crates, {"app/src/lib.rt": ["call"]}).types, {"app/src/shapes.rt"})

    def refused(self, reason: str) -> None:
        with self.assertRaisesRegex(spec_modules.Astray, reason):
            self.rows()

    def test_bookkeeping(self) -> None:
        words = WORDS.replace("use ", "use Rattle.base.specs.code.Steps.{inner}\nuse ", 1)
        self.write("base/specs/Words.antt", words.replace("n + n\n", "inner\n", 1))
        self.refused("^base/specs/Words.antt:4 rests on bookkeeping of code: base.code.Steps.inner$")

    def test_folders_beside(self) -> None:
        """No definition rests on a law or on an example."""
        for folder, said in (("laws", "the statement of a law"), ("examples", "a worked example")):
            self.write(f"base/specs/{folder}/Steps.antt", FILES["base/specs/code/Steps.antt"])
            words = WORDS.replace("use ", f"use Rattle.base.specs.{folder}.Steps.{{inner}}\nuse ", 1)
            self.write("base/specs/Words.antt", words.replace("n + n\n", "inner\n", 1))
            self.refused(f"^base/specs/Words.antt:4 rests on {said}: base.{folder}.Steps.inner$")

    def test_law(self) -> None:
        """The statement of a law is reached from the law, and what it is made of."""
        law = "use Rattle.base.specs.laws.Numbers.{twice}\n\nabbrev pub Law : Type 1\nLaw = twice\n"
        self.write("app/specs/laws/Laws.antt", law)
        self.write("base/specs/laws/Numbers.antt", WORDS)
        contract = "ghost use Rattle.app.specs.laws.Laws.{Law};\n\npub fn law()\n    ensures { Law }\n{}\n"
        self.write("app/src/laws.rt", contract)
        rows = believed.read(self.crates, {"app/src/laws.rt": ["law"]}).by_crate()
        self.assertEqual(
            [believed.shown(module.file) for _, modules in rows for module, _, _ in modules],
            ["laws/Numbers", "laws/Laws"],
        )

    def test_no_definition(self) -> None:
        self.write("base/specs/Words.antt", WORDS.replace("twice", "double"))
        self.refused("names twice of base/specs/Words.antt, which does not define it")

    def test_no_module(self) -> None:
        (self.crates / "base/specs/Words.antt").unlink()
        self.refused("names base.Words, and there is no such module")

    def test_no_call(self) -> None:
        with self.assertRaisesRegex(spec_modules.Astray, "app/src/lib.rt has no contract or view of gone"):
            believed.read(self.crates, {"app/src/lib.rt": ["gone"]})


class Documents(unittest.TestCase):
    def test_few(self) -> None:
        """A reader has to believe no more than 1,350 lines of the report."""
        rows = believed.read(TOP / "crates", believed.CALLS | believed.VIEWS).by_crate()
        self.assertLessEqual(believed.sums_of(rows)[0], 1350)

    def test_rules(self) -> None:
        """The column "definition" of docs/AUDIT_RULES.md names definitions that are believed."""
        reached = believed.read(TOP / "crates", believed.CALLS | believed.VIEWS).reached
        names = {name for definitions in reached.values() for name in definitions}
        column = 0
        found: set[str] = set()
        for line in (TOP / "docs" / "AUDIT_RULES.md").read_text(encoding="utf-8").splitlines():
            cells = [cell.strip() for cell in line.strip("|").split("|")] if line.startswith("| ") else []
            if "definition" in cells:
                column = cells.index("definition")
            elif cells:
                found |= set(re.findall(r"`([^`]*)`", cells[column]))
        self.assertGreater(len(found), 70)
        self.assertEqual(found - names, set())

    def test_written(self) -> None:
        """README.md and docs/PROOFS.md say what is reached today."""
        run = subprocess.run([sys.executable, "-m", "tools.believed", "--check"], capture_output=True, text=True)
        self.assertEqual((run.returncode, run.stderr), (0, ""))


class Folders(unittest.TestCase):
    """specs/ itself holds what is believed, and nothing else."""

    def setUp(self) -> None:
        self.reading = believed.read(TOP / "crates", believed.CALLS | believed.VIEWS)
        believed.read(TOP / "crates", believed.SPLITTER_CALLS, self.reading)

    def test_modules(self) -> None:
        """Believed is each module outside of code/, laws/ and examples/, and those of laws/ that the lists name."""
        of_laws = {file for file in self.reading.reached if "laws" in file.parts}
        named = {name.partition("/")[0] for name in believed.SPLITTER_CALLS if name.endswith("/src/laws.rt")}
        self.assertEqual({self.reading.read[file].crate for file in of_laws}, named)
        self.assertEqual(names_of(set(self.reading.reached) - of_laws), names_of(own_modules()))

    def test_definitions(self) -> None:
        """No such module holds a definition that is not believed."""
        for file in own_modules() & set(self.reading.reached):
            definitions = self.reading.read[file].definitions.values()
            self.assertEqual({one.name for one in definitions} - self.reading.reached[file], set(), file)


def own_modules() -> set[pathlib.Path]:
    """The modules of specs/ outside of its folders code/, laws/ and examples/ that define something."""
    found = set()
    for file in (TOP / "crates").glob("*/specs/**/*.antt"):
        is_list = not re.sub(r"^pub mod \w+$", "", file.read_text(encoding="utf-8"), flags=re.M).strip()
        folder = file.relative_to(TOP / "crates").parts[2]
        if not is_list and folder not in believed.BESIDE:
            found.add(file)
    return found


def names_of(files: set[pathlib.Path]) -> list[str]:
    return sorted(file.relative_to(TOP / "crates").as_posix() for file in files)


class Definitions(unittest.TestCase):
    """What docs/PROOFS.md says of the definitions that are run."""

    PROOFS = (TOP / "docs" / "PROOFS.md").read_text(encoding="utf-8")
    WORDS = " ".join(PROOFS.split())
    NEVER_RUN = {f"h2audit/specs/{name}.antt" for name in ("Account", "Asked", "CommandLine", "Program")}

    def test_modules_within_reach(self) -> None:
        """The reports of a capture with a stall, of one with a packet that is refused, and the refusal of an empty one
        use all that it says."""
        rows = believed.read(TOP / "crates", believed.CALLS | believed.VIEWS).by_crate()
        names = {believed.name_of(module) for _, modules in rows for module, _, _ in modules}
        never = {name for name in names if name.startswith(("input_output/", "report_pages/"))} | self.NEVER_RUN
        (row,) = [row for name, row in reports_test.rows() if name == "short_ethernet"]
        script = row.partition("-- ")[0].encode()
        used = self.used("examples/negative_window.pcap") | self.used("--script", given=script)
        used |= self.used("/dev/null", status=3)
        self.assertEqual(used, names - never)
        self.assertIn(f"{len(used)} of the {len(names)} are within its reach", self.WORDS)

    def used(self, *words: str, given: bytes = b"", status: int = 0) -> set[str]:
        program = TOP / "tools" / "by-definition"
        run = subprocess.run([program, "--modules", *words], input=given, capture_output=True, cwd=TOP, timeout=120)
        self.assertEqual((run.returncode, run.stderr), (status, b""))
        return set(run.stdout.decode().split())

    def test_lines(self) -> None:
        """The lines of each module of the interpreter, their sums, and those of the search."""
        rows = re.findall(r"^\| [^|]* \| ((?:`\w+` \d+,? ?)+) \| (\d+) \|$", self.PROOFS, re.M)
        said = [re.findall(r"`(\w+)` (\d+)", modules) for modules, _ in rows]
        folder = TOP / "tools" / "definitions"
        for modules, (_, number) in zip(said, rows, strict=True):
            self.assertEqual(sum(int(lines) for _, lines in modules), int(number))
            for name, lines in modules:
                self.assertEqual(lines_of(folder / f"{name}.py"), int(lines), name)
        named = {name for modules in said for name, _ in modules}
        self.assertEqual({file.stem for file in folder.glob("*.py")}, named | {"search", "__init__"})
        self.assertIn(f"none of the {lines_of(folder / 'search.py')} lines of `search`", self.WORDS)


def lines_of(file: pathlib.Path) -> int:
    """The lines of a module but blank ones, comments and docstrings."""
    text = file.read_text(encoding="utf-8")
    said: set[int] = set()
    for node in ast.walk(ast.parse(text)):
        if isinstance(node, ast.Expr) and isinstance(node.value, ast.Constant) and isinstance(node.value.value, str):
            said.update(range(node.lineno, (node.end_lineno or 0) + 1))
    lines = enumerate(text.splitlines(), 1)
    return sum(number not in said and bool(re.match(r"\s*[^\s#]", line)) for number, line in lines)


if __name__ == "__main__":
    unittest.main()
