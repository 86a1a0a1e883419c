"""Reads the files of definitions in specs/: what each imports, its definitions, and the names in them."""

import pathlib
import re
from dataclasses import dataclass, field

IMPORT = re.compile(
    r"^[ \t]*(?:ghost[ \t]+|pub[ \t]+)*use[ \t]+Rattle\.(?P<crate>\w+)\.(?P<room>\w+)\.(?P<path>\w+(?:\.\w+)*)"
    r"(?:[ \t]+as[ \t]+(?P<alias>\w+)|\.\{(?P<names>[^}]*)\})?;?[ \t]*$",
    re.M,
)
NAME = re.compile(r"^\s*(?:(?:abbrev|unfoldable|pub|record|data)\s+)*(?P<name>[^\s(){}:=]+)")
TOKEN = re.compile(r"[^\s(){}\[\];,]+")


class Astray(Exception):
    """A name or a module that cannot be followed."""


@dataclass
class Definition:
    """One definition of a module: where it begins, and its lines without comments."""

    name: str
    at: int
    lines: list[str]
    around: tuple[int, ...] = ()


@dataclass
class Module:
    """One file of definitions. `around` are lines of the file that open a group, as `module _ .. where`."""

    crate: str
    file: pathlib.Path
    names: dict[str, tuple[str, str, str]] = field(default_factory=dict)
    aliases: dict[str, tuple[str, str]] = field(default_factory=dict)
    definitions: dict[str, Definition] = field(default_factory=dict)
    around: dict[int, str] = field(default_factory=dict)


def bare(line: str) -> str:
    """The line without its comment."""
    return re.sub(r"(^|\s)--(\s.*)?$", "", line).rstrip()


def read_imports(text: str, module: Module) -> str:
    """Notes what the imports of a file name, and gives the rest of it, line by line. Others are the toolchain's."""
    for found in IMPORT.finditer(text):
        crate, path = found["crate"], found["path"]
        if found["room"] != "specs":
            continue
        if found["alias"] or found["names"] is None:
            module.aliases[found["alias"] or path.rpartition(".")[2]] = (crate, path)
        for name in (found["names"] or "").split(","):
            own, _, here = (part.strip() for part in name.partition(" as "))
            if own:
                module.names[here or own] = (crate, path, own)
    rest = IMPORT.sub("", text)
    for line in re.findall(r"^[ \t]*(?:pub[ \t]+)?use[ \t]+Rattle\..*", rest, re.M):
        raise Astray(f"{module.file} has an import that is not understood: {line.strip()}")
    return re.sub(r"^[ \t]*(?:pub[ \t]+)?use[ \t].*", "", rest, flags=re.M)


def read_module(crates: pathlib.Path, crate: str, file: pathlib.Path) -> Module:
    """The definitions of a file: each is a run of lines between blank ones, and named at its first line."""
    module = Module(crate, file)
    rest = read_imports(file.read_text(encoding="utf-8"), module).splitlines()
    here: Definition | None = None
    groups: tuple[int, ...] = ()
    for at, line in enumerate(map(bare, rest), 1):
        if not line:
            here = here if rest[at - 1].strip() else None
        elif line.startswith("module _") or goes_on(module, groups, at):
            groups = (at,) if line.startswith("module _") else groups + (at,)
            module.around[at] = line
            here = None
        elif here:
            here.lines.append(line)
        else:
            named = NAME.match(line)
            if not named:
                raise Astray(f"{file.relative_to(crates)}:{at} begins no definition")
            here = Definition(named["name"], at, [line], groups if line.startswith(" ") else ())
            if here.name in module.definitions:
                raise Astray(f"{file.relative_to(crates)}:{at} defines {here.name} again")
            module.definitions[here.name] = here
    for one in list(module.definitions.values()):
        if re.match(r"\s*pub data ", one.lines[0]):
            for line in one.lines[1:]:
                made = NAME.match(line)
                if made and line.startswith("  "):
                    module.definitions.setdefault(made["name"], one)
    return module


def goes_on(module: Module, groups: tuple[int, ...], at: int) -> bool:
    """Is this line a further one of those that open a group?"""
    return bool(groups) and groups[-1] == at - 1 and not module.around[at - 1].endswith("where")


def bound(clause: str) -> set[str]:
    """The variables that a clause binds: in the patterns before its `=`, by λ, by `let`, and as (name : type)."""
    names: set[str] = set()
    head, equals, _ = clause.partition(" =")
    if equals and ":" not in head.split("λ")[0]:
        names.update(TOKEN.findall(head)[1:])
    for group in re.findall(r"[({]([^(){}:]*?) : ", clause) + re.findall(r"λ ([^.]*)\.", clause):
        names.update(re.findall(r"[^\s(){},]+", group))
    names.update(re.findall(r"\blet (\S+)", clause))
    return names


def clauses_of(lines: list[str]) -> list[str]:
    """A definition's signature and its clauses: each begins at the least indentation."""
    least = min(len(line) - len(line.lstrip()) for line in lines)
    found: list[str] = []
    for line in lines:
        if found and len(line) - len(line.lstrip()) > least:
            found[-1] += "\n" + line
        else:
            found.append(line)
    return found


def words_of(text: str) -> set[str]:
    """The names in a text: no fields behind a dot, no fields of a record that is made, no variables that it binds."""
    free: set[str] = set()
    text = re.sub(r"λ ([^.]*)\.(?=\s)", r"λ \1 .", text)
    text = re.sub(r"(?:(?<=[{;])|^) +[^\s(){};:]+(?= = )", " ", text, flags=re.M)
    for token in TOKEN.findall(text):
        free.add(token.partition(".")[0] if not token.startswith(".") else "")
        free.add(token)
    return free
