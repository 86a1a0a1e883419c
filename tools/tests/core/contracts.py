"""The functions of the crates, with the definitions that their contracts answer by, and what these name in turn."""

import pathlib
import re
from collections.abc import Iterator
from typing import NamedTuple

from tools import believed, spec_modules

TOP = pathlib.Path(__file__).resolve().parents[3]

FUNCTION = re.compile(r"^( *)(?:pub(?:\(crate\))? )?(?:const )?fn (\w+)", re.M)
IMPL = re.compile(r"^impl(?:<[^>]*>)? (?:(?P<trait>\w+)(?:<.*?>)? for )?(?P<owner>\w+)", re.M)
# What an instance of a trait says for all of its functions.
GHOST = re.compile(r"^    ghost \w+ = \{(.*?)\};", re.M | re.S)


# A function: its file below src/, with its crate before that, and its name.
Key = tuple[str, str]


class Definition(NamedTuple):
    """A definition, by the file that it stands in and its name."""

    file: pathlib.Path
    name: str


class Function(NamedTuple):
    """A function: the definitions that its contract answers by, the names that it calls, and the crates of these."""

    names: frozenset[Definition]
    calls: frozenset[str]
    crates: frozenset[str]


class Sources:
    """All functions and definitions of some crates."""

    def __init__(self, crates: pathlib.Path) -> None:
        self.crates = crates
        self.modules: dict[tuple[str, str], spec_modules.Module | None] = {}
        self.edges: dict[Definition, set[Definition]] = {}
        self.reached: dict[Definition, set[Definition]] = {}
        self.functions: dict[Key, Function] = {}
        for file in sorted(crates.glob("*/src/**/*.rt")):
            crate, _, *path = file.relative_to(crates).parts
            for name, function in self.functions_of(crate, file):
                self.functions["/".join([crate, *path]), name] = function
        # The functions of a name in a crate.
        self.named: dict[tuple[str, str], list[Key]] = {}
        for key in self.functions:
            self.named.setdefault((key[0].partition("/")[0], key[1].rpartition("::")[2]), []).append(key)

    def module(self, crate: str, path: str) -> spec_modules.Module | None:
        """A module of specs/, where there is one."""
        if (crate, path) not in self.modules:
            file = self.crates.joinpath(crate, "specs", *path.split(".")).with_suffix(".antt")
            made = spec_modules.read_module(self.crates, crate, file) if file.is_file() else None
            self.modules[crate, path] = made
        return self.modules[crate, path]

    def functions_of(self, crate: str, file: pathlib.Path) -> Iterator[tuple[str, Function]]:
        """The functions of a file by name, those of a type as TYPE::NAME."""
        text = file.read_text(encoding="utf-8")
        module = spec_modules.Module(crate, file)
        spec_modules.read_imports(text, module)
        impls = list(IMPL.finditer(text))
        crates = frozenset([crate, *re.findall(r"^use (\w+)::", text, re.M)])
        for begins in FUNCTION.finditer(text):
            ends = re.compile(rf"^{begins[1]}\{{|^{begins[1]}\S.*\{{$|;$", re.M).search(text, begins.start())
            if not ends:
                continue
            # What it asks of its callers says nothing of what it does.
            clauses = believed.clause(text[begins.start() : ends.end()].replace("requires", "asks"))
            impl = [one for one in impls if one.start() < begins.start()][-1:] if begins[1] else []
            clauses += [said for one in impl if one["trait"] for said in GHOST.findall(block_at(text, one.start(), ""))]
            names = {named for said in clauses for named in self.named_in(module, said, spec_modules.bound(said))}
            called = re.findall(r"\b(\w+)(?:::<.*?>)?\(", block_at(text, ends.start(), begins[1]))
            name = "::".join([*(one["owner"] for one in impl), begins[2]])
            yield name, Function(frozenset(names), frozenset(called), crates)

    def named_in(self, module: spec_modules.Module, text: str, variables: set[str]) -> set[Definition]:
        """The definitions that a text in a module names."""
        found: set[Definition] = set()
        for word in spec_modules.words_of(text) - variables:
            head, _, name = word.partition(".")
            if word in module.definitions:
                found.add(Definition(module.file, module.definitions[word].name))
            elif word in module.names:
                found |= self.defined(*module.names[word])
            elif name and head in module.aliases:
                found |= self.defined(*module.aliases[head], name.partition(".")[0])
        return found

    def defined(self, crate: str, path: str, name: str) -> set[Definition]:
        module = self.module(crate, path)
        is_here = module is not None and name in module.definitions
        return {Definition(module.file, module.definitions[name].name)} if module and is_here else set()

    def named_by(self, one: Definition) -> set[Definition]:
        """The definitions that a definition names."""
        if one not in self.edges:
            crate, _, *path = one.file.relative_to(self.crates).with_suffix("").parts
            module = self.module(crate, ".".join(path))
            assert module
            self.edges[one] = {
                named
                for clause in spec_modules.clauses_of(module.definitions[one.name].lines)
                for named in self.named_in(module, clause, spec_modules.bound(clause) - {one.name})
            }
        return self.edges[one]

    def reached_from(self, one: Definition) -> set[Definition]:
        """All definitions that a definition rests on, and it."""
        if one not in self.reached:
            reached, front = {one}, [one]
            while front:
                further = self.named_by(front.pop()) - reached
                reached |= further
                front += further
            self.reached[one] = reached
        return self.reached[one]

    def called_from(self, function: Key) -> set[Key]:
        """The functions to which calls lead from one. If a crate has several of one name, all are taken."""
        called: set[Key] = set()
        front = [function]
        while front:
            one = self.functions[front.pop()]
            further = {key for crate in one.crates for name in one.calls for key in self.named.get((crate, name), ())}
            front += further - called
            called |= further
        return called


def block_at(text: str, start: int, indentation: str) -> str:
    """The lines from a place to the brace that closes them at an indentation."""
    ends = text.find(f"\n{indentation}}}\n", start)
    return text[start:] if ends < 0 else text[start:ends]
