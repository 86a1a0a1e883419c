"""Reads modules of definitions: from the text of a file to terms.

The language is antt. This reads the part of it that the definitions of a report use: functions by cases, records,
lists, numbers, `let`, `λ`, infix words, and the types `(x : A) → B` and `(x : A) × B`. Signatures are passed over: a
definition that was proved is well typed. What is written otherwise is an error that names file and line.
"""

import pathlib
import re
from typing import Any, NamedTuple, NoReturn

TOKEN = re.compile(r'(?P<space>\s+|--[^\n]*)|"(?:[^"\\\n]|\\[n"\\])*"|[(){};,@.«»]|[^\s(){}.;,@"«»]+')
NUMBER = re.compile(r"(0x)?[0-9a-fA-F_]+")
USE = re.compile(r"(?:pub )?use ([^\s{]+?)\.?(?:\{([^}]*)\}| as (\S+))?")
ESCAPES = {"n": "\n", '"': '"', "\\": "\\"}
MARKS = ("pub", "abbrev", "unfoldable")
RESERVED = set(
    "data record deriving module where use mod package open as unfolding ruleset mutual infix infixl infixr elim"
    " let in do λ ∀ Type = : → [ ] | then else if . ; , ( ) { } @ « »".split()
)

# Infix words: how tightly each binds, and the side to which it groups.
STRENGTHS = [
    (1, "right", "⊎"),
    (2, "right", "×"),
    (4, "", "≡"),
    (6, "left", "+ℤ -ℤ"),
    (30, "left", "||"),
    (35, "left", "&&"),
    (40, "", "=="),
    (50, "", "< ≤"),
    (65, "left", "+ - ++"),
    (67, "right", "∷"),
    (70, "left", "* / %"),
    (75, "right", "^"),
]
INFIX = {word: (strength, side) for strength, side, words in STRENGTHS for word in words.split()}
IF = 5  # `if a then b else c` binds as tightly


class Unreadable(Exception):
    """Text outside of the part that is read, or a name without a meaning."""


class Token(NamedTuple):
    text: str
    line: int
    column: int
    joined: bool  # is there no space before it?


def tokens_of(text: str, name: str) -> list[Token]:
    tokens, line, begin, end, joined = [], 1, 0, 0, False
    for found in TOKEN.finditer(text):
        if found.start() != end:
            break
        end = found.end()
        if not found["space"]:
            tokens.append(Token(found[0], line, found.start() - begin, joined))
        joined = not found["space"]
        if "\n" in found[0]:
            line, begin = line + found[0].count("\n"), found.start() + found[0].rindex("\n") + 1
    if end != len(text):
        raise Unreadable(f"{name}:{line}: no word of the language: {text[end:end + 20].split()[0]}")
    return tokens


def items_of(tokens: list[Token]) -> list[list[Token]]:
    """The items of a block: each begins a line, in the column of the first."""
    items: list[list[Token]] = []
    for before, token in zip([None, *tokens], tokens):
        if before is None or token.line > before.line and token.column <= tokens[0].column and token.text != "}":
            items.append([])
        items[-1].append(token)
    return items


class Term(NamedTuple):
    kind: str  # name, number, text, call, lambda, let, if, record, field, tuple, binder, function type, product
    parts: tuple[Any, ...]  # by its kind: terms, names, lists of them
    line: int


class Function(NamedTuple):
    name: str
    clauses: list[tuple[tuple[Term, ...], Term]]  # patterns, and what the function is where they match


class Record(NamedTuple):
    name: str
    parameters: list[str]
    fields: list[tuple[str, Term]]


class Module(NamedTuple):
    name: str  # CRATE/specs/PATH.antt
    definitions: dict[str, Function | Record]
    uses: dict[str, tuple[tuple[str, ...], str | None]]  # of a name its module and name there; None for a module itself


class Reader:
    """Reads the tokens of one item."""

    def __init__(self, tokens: list[Token], name: str) -> None:
        self.tokens, self.name, self.at = tokens, name, 0

    def fail(self, why: str) -> NoReturn:
        raise Unreadable(f"{self.name}:{self.tokens[min(self.at, len(self.tokens) - 1)].line}: {why}")

    def peek(self, ahead: int = 0) -> str:
        return self.tokens[self.at + ahead].text if self.at + ahead < len(self.tokens) else ""

    def take(self, wanted: str) -> None:
        if self.peek() != wanted:
            self.fail(f"{wanted} is missing before {self.peek() or 'the end'}")
        self.at += 1

    def is_name(self, text: str) -> bool:
        return bool(text) and text not in RESERVED and text not in INFIX and text[0] != '"' and text != "¬"

    def word(self) -> str:
        text = self.peek()
        if not self.is_name(text):
            self.fail(f"a name is missing before {text or 'the end'}")
        self.at += 1
        return text

    def words(self, end: str) -> list[str]:
        names = []
        while self.peek() != end:
            names.append(self.word())
        self.take(end)
        return names

    def made(self, kind: str, *parts: Any) -> Term:
        return Term(kind, parts, self.tokens[max(0, self.at - 1)].line)

    # ---- terms

    def binds(self) -> bool:
        """Whether a group `(x y : A)` stands here."""
        ahead = 1
        while self.is_name(self.peek(ahead)):
            ahead += 1
        return self.peek() == "(" and ahead > 1 and self.peek(ahead) == ":"

    def groups(self) -> list[tuple[str, Term]]:
        """The names of such groups, each with its type."""
        found = []
        while self.binds():
            self.take("(")
            names, kind = self.words(":"), self.upto(")")
            found += [(name, kind) for name in names]
        return found

    def term(self) -> Term:
        left = self.infix(0)
        if self.peek() != "→":
            return self.fail("→ or × is missing") if left.kind == "binder" else left
        self.at += 1
        return self.made("function type", left.parts[0] if left.kind == "binder" else [(None, left)], self.term())

    def upto(self, end: str) -> Term:
        found = self.term()
        self.take(end)
        return found

    def infix(self, least: int) -> Term:
        left = self.operand()
        while (word := self.peek()) in INFIX and INFIX[word][0] >= least:
            self.at += 1
            strength, side = INFIX[word]
            right = self.infix(strength + (side != "right"))
            if word == "×":
                factors = right.parts[0] if right.kind == "product" else self.factor(right)
                left = self.made("product", [*self.factor(left), *factors])
            else:
                left = self.made("call", self.made("name", f"◌{word}◌"), [left, right])
            if not side and INFIX.get(self.peek(), (None, ""))[0] == strength:
                self.fail(f"{word} and {self.peek()} without parentheses")
        return left

    def factor(self, term: Term) -> list[tuple[str | None, Term]]:
        return [*term.parts[0]] if term.kind == "binder" else [(None, term)]

    def operand(self) -> Term:
        if self.binds():
            return self.made("binder", self.groups())
        start, self.at = self.peek(), self.at + (self.peek() in ("if", "λ", "let", "¬"))
        if start == "if":
            test = self.upto("then")
            then = self.upto("else")
            return self.made("if", test, then, self.infix(IF))
        if start == "λ":
            names = []
            while self.peek() != ".":
                names += [name for name, _ in self.groups()] if self.binds() else [self.word()]
            self.take(".")
            return self.made("lambda", names, self.term())
        if start == "let":
            name = self.word()
            self.take("=")
            value = self.upto("in")
            return self.made("let", name, value, self.term())
        return self.made("call", self.made("name", "¬◌"), [self.operand()]) if start == "¬" else self.call()

    def call(self) -> Term:
        head, arguments = self.atom(), []
        while self.peek() in ("(", "record") or self.is_name(self.peek()) or self.peek()[:1] == '"':
            arguments.append(self.atom())
        return self.made("call", head, arguments) if arguments else head

    def atom(self) -> Term:
        text, self.at = self.peek(), self.at + 1
        if text == "(":
            parts = [self.term()]
            while self.peek() == ",":
                self.at += 1
                parts.append(self.term())
            self.take(")")
            made = parts[0] if len(parts) == 1 else self.made("tuple", parts)
        elif text == "record":
            base = None if self.peek() == "{" else self.atom()
            made = self.made("record", base, self.fields())
        elif text[:1] == '"':
            made = self.made("text", re.sub(r"\\(.)", lambda it: ESCAPES[it[1]], text[1:-1]))
        elif text[:1].isdecimal() and NUMBER.fullmatch(text):
            made = self.made("number", int(text.replace("_", ""), 0))
        else:
            self.at -= 1
            made = self.made("name", self.word())
        while self.peek() == "." and [token.joined for token in self.tokens[self.at : self.at + 2]] == [True, True]:
            self.at += 2
            made = self.made("field", made, self.peek(-1))
        return made

    def fields(self) -> dict[str, Term]:
        """The fields of a record's value."""
        found = {}
        self.take("{")
        while self.peek() != "}":
            name = self.word()
            self.take("=")
            found[name] = self.term()
            if self.peek() == ";":
                self.at += 1
        self.take("}")
        return found

    # ---- items

    def item(self, module: Module) -> None:
        while self.peek() in MARKS:
            self.at += 1
        if self.peek() == "record":
            self.record(module)
        elif self.peek(1) != ":":  # a signature has no effect on a value
            self.clause(module)

    def record(self, module: Module) -> None:
        self.take("record")
        name, parameters, fields = self.word(), self.groups(), []
        while self.peek() != "where":
            self.peek() or self.fail("where is missing")
            self.at += 1
        for item in items_of(self.tokens[self.at + 1 :]):
            reader = Reader(item, self.name)
            reader.at += reader.peek() == "pub"
            names, kind = reader.words(":"), reader.term()
            reader.end()
            fields += [(field, kind) for field in names]
        module.definitions[name] = Record(name, [parameter for parameter, _ in parameters], fields)

    def clause(self, module: Module) -> None:
        head = self.call()
        name, patterns = head.parts if head.kind == "call" else (head, ())
        self.take("=")
        if name.kind != "name":
            self.fail("no name of a function")
        function = module.definitions.setdefault(name.parts[0], Function(name.parts[0], []))
        if isinstance(function, Record):
            self.fail(f"{name.parts[0]} is a record")
        if function.clauses and len(function.clauses[0][0]) != len(patterns):
            self.fail(f"clauses of {name.parts[0]} with different numbers of arguments")
        function.clauses.append((patterns, self.term()))
        self.end()

    def end(self) -> None:
        if self.peek():
            self.fail(f"{self.peek()} is not expected here")


def in_group(term: Term, siblings: set[str], given: list[Term]) -> Term:
    """A term of a group, whose definitions get what the group is given."""

    def inner(part: Any) -> Any:
        if isinstance(part, Term):
            return in_group(part, siblings, given)
        if isinstance(part, dict):
            return {key: inner(value) for key, value in part.items()}
        return type(part)(map(inner, part)) if isinstance(part, list) or type(part) is tuple else part

    if term.kind == "name" and term.parts[0] in siblings:
        return Term("call", (term, given), term.line)
    made = Term(term.kind, tuple(map(inner, term.parts)), term.line)
    head = made.parts[0] if made.kind == "call" else None
    if isinstance(head, Term) and head.kind == "call":
        return Term("call", (head.parts[0], [*head.parts[1], *made.parts[1]]), term.line)
    return made


def read_group(tokens: list[Token], name: str, module: Module) -> None:
    """Reads `module _ (x : A) .. where` with its definitions, each of which gets the group's parameters first."""
    reader = Reader(tokens, name)
    reader.at += 2
    parameters: list[str] = []
    while reader.peek() != "where":
        if reader.peek() == "{":  # no value has what is implicit
            while reader.peek() != "}":
                reader.at += 1
            reader.at += 1
        else:
            found = reader.groups() or reader.fail("where is missing")
            parameters += [parameter for parameter, _ in found]
    inside = Module(name, {}, module.uses)
    for item in items_of(tokens[reader.at + 1 :]):
        Reader(item, name).item(inside)
    given = [Term("name", (parameter,), tokens[0].line) for parameter in parameters]
    for defined in inside.definitions.values():
        if isinstance(defined, Record):
            fields = [(field, in_group(kind, {*inside.definitions}, given)) for field, kind in defined.fields]
            module.definitions[defined.name] = Record(defined.name, [*parameters, *defined.parameters], fields)
        else:
            clauses = [
                ((*given, *patterns), in_group(body, {*inside.definitions}, given))
                for patterns, body in defined.clauses
            ]
            module.definitions[defined.name] = Function(defined.name, clauses)


def read_item(tokens: list[Token], name: str, module: Module) -> None:
    if tokens[0].text == "module":
        return read_group(tokens, name, module)
    if not any(token.text == "use" for token in tokens[:2]):
        return Reader(tokens, name).item(module)
    found = USE.fullmatch(" ".join(token.text for token in tokens).replace(" . ", ".").replace("{ ", "{"))
    if not found:
        raise Unreadable(f"{name}:{tokens[0].line}: no import that can be read")
    path = tuple(found[1].split("."))
    if found[2] is None:
        module.uses[found[3] or path[-1]] = path, None
    for pair in filter(None, map(str.split, (found[2] or "").split(","))):
        module.uses[pair[-1]] = path, pair[0]


def read(file: pathlib.Path, name: str) -> Module:
    """The module of a file."""
    module = Module(name, {}, {})
    for item in items_of(tokens_of(file.read_text(encoding="utf-8"), name)):
        read_item(item, name, module)
    return module
