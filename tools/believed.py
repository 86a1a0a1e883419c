"""Lists the definitions that the contracts of the programs' calls rest on, in reading order: those of h2audit's
calls, and then what those of the splitter rest on beside them.

    python3 -m tools.believed            prints each module that is reached, and in it each definition with its lines
    python3 -m tools.believed --write    puts list and sums into README.md and docs/PROOFS.md
    python3 -m tools.believed --check    fails where these two say something else
    python3 -m tools.believed --used     marks the modules that standard input names in lines (by-definition --modules)

The exit status is 1 where a name cannot be followed, or a document says something else; 2 for wrong words, 4 where
reading or writing failed, and 5 for want of memory.

It begins at the names in the contracts of the calls that the programs make (CALLS, SPLITTER_CALLS) and in the views of
the types that these contracts show (VIEWS), and follows each name to its definition, by the imports of the file in
which it stands. So exactly the definitions that are reached are listed, whatever else their files hold. A crate comes
after those that it cites, a module after those that it imports. Lines are counted without imports, blank lines and
comments. No definition may rest on specs/code/, specs/laws/ or specs/examples/: that is an error. A law that a list of
calls names has its statement listed, by its module of specs/laws/. The structs and enums of which the definitions speak
are named at the end, by the files that declare them, and so are the toolchain's modules; neither is counted.
"""

import argparse
import pathlib
import re
import sys

from h2audit.report.command import Words, failed, run
from tools.spec_modules import Astray, Definition, Module, bound, clauses_of, read_imports, read_module, words_of

CALLS = {
    "h2audit/src/auditing.rt": ["audit"],
    "h2audit/src/running.rt": ["run"],
    "h2audit/src/program.rt": ["program_words", "run_program"],
    "h2audit/src/status.rt": ["ending"],
    "h2audit/src/command_line/words.rt": ["parse"],
}
SPLITTER_CALLS = {
    "capture_parts/src/files.rt": ["split_capture"],
    "capture_parts/src/finishing.rt": ["flush_parts"],
    "capture_parts/src/laws.rt": ["one_part", "segments_name", "either_order", "same_records"],
    "split_program/src/program.rt": ["run_program"],
}
VIEWS = {"input_output/src/kept_bytes.rt": ["KeptBytes"]}
# The folders of specs/ that hold what is not believed.
BESIDE = {"code": "bookkeeping of code", "laws": "the statement of a law", "examples": "a worked example"}

TOP = pathlib.Path(__file__).resolve().parent.parent
LIST = re.compile(r"(<!-- believed -->\n).*?(<!-- end of believed -->)", re.S)
SUMS = re.compile(r"[\d,]+ lines in [\d,]+ modules")
MORE = re.compile(r"[\d,]+ lines more in [\d,]+ modules")

# The modules of a crate, each with its definitions that are listed and how many lines these are.
Rows = list[tuple[str, list[tuple[Module, list[Definition], int]]]]


class Reading:
    """What is reached from some names: modules, each with the definitions that are reached in it."""

    def __init__(self, crates: pathlib.Path) -> None:
        self.crates = crates
        self.read: dict[pathlib.Path, Module] = {}
        self.reached: dict[pathlib.Path, set[str]] = {}
        self.listed: dict[pathlib.Path, set[str]] = {}
        self.types: set[str] = set()
        self.library: set[str] = set()

    def module(self, crate: str, path: str, where: str) -> Module:
        file = (self.crates / crate / "specs").joinpath(*path.split(".")).with_suffix(".antt")
        if not file.is_file():
            raise Astray(f"{where} names {crate}.{path}, and there is no such module")
        if file not in self.read:
            self.read[file] = read_module(self.crates, crate, file)
        return self.read[file]

    def follow(self, asking: Module, crate: str, path: str, name: str, where: str) -> None:
        """Takes what an import leads to: a definition, a type of the code, or a word of the toolchain."""
        folder = path.partition(".")[0]
        is_law = folder == "laws" and "laws" in asking.file.with_suffix("").parts
        if not (self.crates / crate).is_dir():
            self.library.add(f"{crate}.{path}")
        elif path.startswith("declared"):
            self.types.add(declared(self.crates, crate, path))
        elif folder in BESIDE and not is_law:
            raise Astray(f"{where} rests on {BESIDE[folder]}: {crate}.{path}.{name}")
        else:
            self.take(self.module(crate, path, where), name, where)

    def take(self, module: Module, name: str, where: str) -> None:
        if name not in module.definitions:
            raise Astray(f"{where} names {name} of {module.file.relative_to(self.crates)}, which does not define it")
        one = module.definitions[name]
        reached = self.reached.setdefault(module.file, set())
        if one.name in reached:
            return
        reached.add(one.name)
        here = f"{module.file.relative_to(self.crates)}:{one.at}"
        for line in one.around:
            self.names(module, module.around[line], set(), here)
        for clause in clauses_of(one.lines):
            self.names(module, clause, bound(clause) - {one.name}, here)

    def names(self, module: Module, text: str, variables: set[str], here: str) -> None:
        """Follows each name of a text that is not one of its variables."""
        for word in sorted(words_of(text) - variables):
            head, _, name = word.partition(".")
            if word in module.definitions:
                self.take(module, word, here)
            elif word in module.names:
                self.follow(module, *module.names[word], here)
            elif name and head in module.aliases and head not in variables:
                self.follow(module, *module.aliases[head], name.partition(".")[0], here)

    def root(self, file: str, name: str) -> None:
        """Begins at the contract of a function of this name, or at the view of a type."""
        text = (self.crates / file).read_text(encoding="utf-8")
        module = Module(file.partition("/")[0], self.crates / file)
        read_imports(text, module)
        begins = re.search(rf"^(?:pub fn {name}\b|impl Model for {name}\b)", text, re.M)
        if not begins:
            raise Astray(f"{file} has no contract or view of {name}")
        ends = re.compile(r"^\}|^\{", re.M).search(text, begins.end())
        said = clause(text[begins.start() : ends.start() if ends else None])
        self.names(module, " ".join(said), set(), f"{file}: {name}")

    def go_on(self) -> None:
        """Begins a further list: by_crate then leaves out what was reached so far."""
        self.listed = {file: set(names) for file, names in self.reached.items()}

    def by_crate(self) -> Rows:
        """Each crate with its modules, their definitions that this list reaches and how many lines these are."""
        order: list[pathlib.Path] = []
        done: set[pathlib.Path] = set()

        def visit(file: pathlib.Path) -> None:
            if file in done:
                return
            done.add(file)
            module = self.read[file]
            for crate, path in [named[:2] for named in module.names.values()] + list(module.aliases.values()):
                below = (self.crates / crate / "specs").joinpath(*path.split(".")).with_suffix(".antt")
                if below in self.reached:
                    visit(below)
            order.append(file)

        for file in self.reached:
            visit(file)
        order = [file for file in order if self.row(file)[1]]
        crates = list(dict.fromkeys(self.read[file].crate for file in order))
        return [(crate, [self.row(file) for file in order if self.read[file].crate == crate]) for crate in crates]

    def row(self, file: pathlib.Path) -> tuple[Module, list[Definition], int]:
        module = self.read[file]
        listed = self.listed.get(file, set())
        reached = [one for name, one in module.definitions.items() if name == one.name and name in self.reached[file]]
        mine = [one for one in reached if one.name not in listed]
        around = {line for one in mine for line in one.around}
        around -= {line for one in reached if one.name in listed for line in one.around}
        return module, mine, len(around) + sum(len(one.lines) for one in mine)


def clause(text: str) -> list[str]:
    """What stands in the clauses and members of a declaration, between its braces."""
    found, at = [], 0
    for begins in re.finditer(r"\b(?:requires|ensures|ghost)\b[^{};\n]*\{", text):
        if begins.start() < at:
            continue
        depth, at = 1, begins.end()
        while depth and at < len(text):
            depth += {"{": 1, "}": -1}.get(text[at], 0)
            at += 1
        found.append(text[begins.end() : at - 1])
    return found


def declared(crates: pathlib.Path, crate: str, path: str) -> str:
    """The file of the code that declares the type of a path declared.MODULE..TYPE."""
    parts = path.split(".")[1:]
    for length in range(len(parts) - 1, 0, -1):
        file = (crates / crate / "src").joinpath(*parts[:length]).with_suffix(".rt")
        if file.is_file():
            return file.relative_to(crates).as_posix()
    return f"{crate}/src/lib.rt"


def table(rows: Rows, more: Rows) -> str:
    """The crates of the report, and under a line for the splitter those that it adds."""
    lines = ["| crate | modules of its `specs/` | lines |", "|---|---|---|"]
    lines += [row_of(*row) for row in rows]
    lines += ["| | **the splitter adds** | |"] + [row_of(*row) for row in more]
    return "\n".join(lines) + "\n"


def row_of(crate: str, modules: list[tuple[Module, list[Definition], int]]) -> str:
    names = ", ".join(shown(module.file) for module, _, _ in modules)
    return f"| `{crate}` | {names} | {sum(count for _, _, count in modules)} |"


def sums_of(rows: Rows) -> tuple[int, int]:
    """How many lines, and how many modules."""
    counts = [count for _, modules in rows for _, _, count in modules]
    return sum(counts), len(counts)


def shown(file: pathlib.Path) -> str:
    """The name of a module in its crate's specs/."""
    return file.as_posix().rpartition("/specs/")[2].removesuffix(".antt")


def written(text: str, rows: str, sums: str, more: str) -> str:
    return MORE.sub(more, SUMS.sub(sums, LIST.sub(lambda it: it[1] + rows + it[2], text)))


def read(crates: pathlib.Path, calls: dict[str, list[str]], reading: Reading | None = None) -> Reading:
    """What these calls reach: all of it, or what an earlier reading does not hold."""
    if reading is None:
        reading = Reading(crates)
    else:
        reading.go_on()
    for file, names in calls.items():
        for name in names:
            reading.root(file, name)
    return reading


def name_of(module: Module) -> str:
    return module.file.relative_to(TOP / "crates").as_posix()


def print_modules(modules: list[tuple[Module, list[Definition], int]], used: set[str]) -> None:
    """Each module with its definitions and their lines, and a mark where it is one of those used."""
    for module, mine, count in modules:
        mark = "*" if name_of(module) in used else " " if used else ""
        print(f"{count:5} {mark}{name_of(module)}")
        for one in mine:
            print(f"{len(one.lines):9} {one.name}, line {one.at}")


def write(rows: str, sums: str, more: str) -> int:
    for file in (TOP / "README.md", TOP / "docs" / "PROOFS.md"):
        file.write_text(written(file.read_text(encoding="utf-8"), rows, sums, more), encoding="utf-8")
    return 0


def check(rows: str, sums: str, more: str) -> int:
    for file in (TOP / "README.md", TOP / "docs" / "PROOFS.md"):
        text = file.read_text(encoding="utf-8")
        if text != written(text, rows, sums, more):
            print(f"believed.py: {file.relative_to(TOP)} does not say {sums}, and {more}: run --write", file=sys.stderr)
            return 1
    return 0


def wanted(words: list[str]) -> argparse.Namespace:
    parser = Words(prog="believed.py", description=__doc__, formatter_class=argparse.RawDescriptionHelpFormatter)
    one = parser.add_mutually_exclusive_group()
    for option in ("--write", "--check", "--used"):
        one.add_argument(option, action="store_true")
    parser.add_version()
    return parser.parse_args(words)


def main(words: list[str]) -> int:
    asked = wanted(words)
    try:
        reading = read(TOP / "crates", CALLS | VIEWS)
        rows = reading.by_crate()
        added = read(TOP / "crates", SPLITTER_CALLS, reading).by_crate()
        return answered(asked, reading, rows, added)
    except Astray as reason:
        return failed("believed.py", 1, str(reason))


def answered(asked: argparse.Namespace, reading: Reading, rows: Rows, added: Rows) -> int:
    lines, modules = sums_of(rows)
    lines_added, modules_added = sums_of(added)
    sums = f"{lines:,} lines in {modules} modules"
    more = f"{lines_added:,} lines more in {modules_added} modules"
    if asked.write or asked.check:
        return (write if asked.write else check)(table(rows, added), sums, more)
    used = set(sys.stdin.read().split()) if asked.used else set()
    for _, found in rows:
        print_modules(found, used)
    if used:
        marked = sum(name_of(module) in used for _, found in rows for module, _, _ in found)
        print(f"* {marked} modules, which tools/by-definition used in a run")
    print("the splitter adds:")
    for _, found in added:
        print_modules(found, set())
    print(f"{sums}, and for the splitter {more}, without imports, blank lines and comments")
    print("types:", *sorted(reading.types))
    print("of the toolchain:", *sorted(reading.library))
    return 0


if __name__ == "__main__":
    run(main)
