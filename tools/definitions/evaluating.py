"""Evaluates definitions. A definition becomes a function of Python's, a claim what finds whether it is shown.

A term becomes what gives its value from the values at hand: those of a clause's arguments, and of what `let`, `λ` and
patterns name. Each name has a place among these, which is known before anything is evaluated.
"""

import pathlib
from operator import itemgetter
from typing import Any, Callable, NoReturn, Sequence

from tools.definitions.claims import Claim, Claims, Factor, Values
from tools.definitions.ranges import Kept, Key, Remembering
from tools.definitions.reading import Function as Clauses
from tools.definitions.reading import Module, Record, Term, Unreadable, read
from tools.definitions.values import Data, Function, Made, Stuck, Value, apply, filled, known
from tools.definitions.words import LOOPS, word

Test = Callable[[Value, Values], bool]  # puts the parts of a value that a pattern names among the values at hand
CONSTANTS: dict[str, Value] = {"true": True, "false": False, "zero": 0, "[]": ()}


class Scope:
    """The names of a clause, each with its place among the values at hand."""

    def __init__(self, module: Module, owner: str, names: dict[str, int], size: int) -> None:
        self.module, self.owner, self.names, self.size = module, owner, dict(names), size

    def place(self, name: str) -> int:
        self.names[name], self.size = self.size, self.size + 1
        return self.size - 1

    def inner(self) -> "Scope":
        return Scope(self.module, self.owner, self.names, self.size)

    def fail(self, term: Term, why: str) -> NoReturn:
        raise Unreadable(f"{self.module.name}:{term.line}: {why}")


class Definitions(Claims):
    """The definitions in a folder of crates."""

    def __init__(self, folder: pathlib.Path) -> None:
        super().__init__()
        self.folder = folder
        self.modules: dict[str, Module] = {}
        self.meanings: dict[tuple[str, str], Value | None] = {}
        self.used: set[str] = set()  # the modules of what was evaluated
        self.kept: dict[Key, Kept] = {}  # what functions that recur gave

    # ---- names

    def module(self, path: tuple[str, ...]) -> tuple[Module, tuple[str, ...]] | None:
        """The longest front of a path that is a module, and the names behind it; None where there is none."""
        for end in range(len(path), 3, -1):
            name = f"{path[1]}/specs/{'/'.join(path[3:end])}.antt"
            if name not in self.modules and (self.folder / name).is_file():
                self.modules[name] = read(self.folder / name, name)
            if name in self.modules:
                return self.modules[name], path[end:]
        return None

    def imported(self, path: tuple[str, ...], name: str) -> Value | None:
        """The meaning of a name of a module: a type or a constructor of the code, a word, or a definition."""
        if "TheVariants" in path:
            return Made(name)
        if path[0] != "Rattle" or not (self.folder / path[1] / "specs").is_dir():
            return Data(name) if "declared" in path else word(name)
        if path[3:4] == ("declared",):
            return Data(name)
        found = self.module((*path, name))
        return self.meaning(found[0], found[1][0]) if found and found[1] else None

    def meaning(self, module: Module, name: str) -> Value | None:
        """The meaning of a name in a module, None where it has none."""
        key = module.name, name
        if key not in self.meanings:
            path, inner = module.uses.get(name, ((), None))
            definition = module.definitions.get(name)
            if isinstance(definition, Record):
                self.meanings[key] = self.record(module, definition)
            elif definition is not None:
                self.meanings[key] = self.function(module, definition)
            else:
                self.meanings[key] = self.imported(path, inner) if inner else None
        return self.meanings[key]

    def named(self, label: str) -> Value:
        """The meaning of CRATE.MODULE.NAME."""
        crate, *path, name = label.split(".")
        found = self.imported(("Rattle", crate, "specs", *path), name)
        if found is None:
            raise Unreadable(f"{label}: there is no such definition")
        return found

    def constructor(self, module: Module, term: Term) -> str | None:
        """The own name of the constructor that a pattern names, None for a variable."""
        name, behind = (term.parts[0].parts[0], term.parts[1]) if term.kind == "field" else (term.parts[0], None)
        path, inner = module.uses.get(name, ((), None))
        found = inner or behind
        if found is None or found in ("◌∷◌", "suc", *CONSTANTS):
            return "◌∷◌" if name == "◌∷◌" else found
        meaning = self.imported(path, found)
        if meaning is None:
            raise Unreadable(f"{module.name}:{term.line}: {found} has no meaning here")
        return found if isinstance(meaning, Made) else None

    # ---- definitions

    def function(self, module: Module, definition: Clauses) -> Value:
        arity = len(definition.clauses[0][0])
        function = Function(arity, undefined)
        self.meanings[module.name, definition.name] = function  # its clauses may name it
        clauses, size = [], 0
        for patterns, body in definition.clauses:
            scope = Scope(module, definition.name, {}, arity)
            tests = [(place, self.argument(pattern, scope, place)) for place, pattern in enumerate(patterns)]
            clauses.append(([(place, test) for place, test in tests if test], self.term(body, scope)))
            size = max(size, scope.size)

        def run(*arguments: Value) -> Value:
            self.used.add(module.name)
            values = [*arguments, *[None] * (size - arity)]
            for tests, body in clauses:
                for place, test in tests:
                    if not test(arguments[place], values):
                        break
                else:
                    return body(values)
            raise Stuck(f"{module.name}: no clause of {definition.name} for {arguments}")

        function.run = run
        if any(mentions(body, {definition.name, *LOOPS}) for _, body in definition.clauses):
            function.run = Remembering(run, self.kept, number_in(definition))
        return function if arity else run()

    def argument(self, pattern: Term, scope: Scope, place: int) -> Test | None:
        """Whether an argument has a form; None for any value, which has its place among the values at hand already."""
        if pattern.kind != "name" or self.constructor(scope.module, pattern):
            return self.pattern(pattern, scope)
        scope.names[pattern.parts[0]] = place
        return None

    def pattern(self, pattern: Term, scope: Scope) -> Test:
        """Whether a value has a form. What it names is put among the values at hand."""
        head, parts = pattern.parts if pattern.kind == "call" else (pattern, ())
        name = self.constructor(scope.module, head)
        if name:
            return made_by(name, [self.pattern(part, scope) for part in parts])
        if pattern.kind != "name":
            scope.fail(pattern, "no pattern of the language")
        return put(scope.place(pattern.parts[0]))

    def record(self, module: Module, definition: Record) -> Value:
        scope = Scope(module, definition.name, {}, 0)
        for parameter in definition.parameters:
            scope.place(parameter)
        arity, factors = scope.size, self.factors(definition.fields, scope)

        def run(*arguments: Value) -> Value:
            self.used.add(module.name)
            return self.holds(factors, [*arguments, *[None] * (scope.size - arity)])

        if arity or not all(isinstance(factor.kind([None] * scope.size), Data) for factor in factors):
            return Function(arity, run) if arity else run()
        return Data(definition.name)

    # ---- terms

    def term(self, term: Term, scope: Scope) -> Claim:
        """What gives the term's value, from the values at hand."""
        made: Claim = getattr(self, "term_" + term.kind.replace(" ", "_"))(term, scope, *term.parts)
        return made

    def term_name(self, term: Term, scope: Scope, name: str) -> Claim:
        if name in scope.names:
            return itemgetter(scope.names[name])
        found = self.meaning(scope.module, name)
        return (lambda values: found) if found is not None else scope.fail(term, f"{name} has no meaning here")

    def term_number(self, term: Term, scope: Scope, value: int | str) -> Claim:
        return lambda values: value

    term_text = term_number

    def term_tuple(self, term: Term, scope: Scope, parts: list[Term]) -> Claim:
        return self.term_record(term, scope, None, {str(at): part for at, part in enumerate(parts)})

    def term_record(self, term: Term, scope: Scope, base: Term | None, fields: dict[str, Term]) -> Claim:
        parts = [(label, self.term(part, scope)) for label, part in fields.items()]
        of = self.term(base, scope) if base else lambda values: {}
        return lambda values: {**known(of(values)), **{label: part(values) for label, part in parts}}

    def term_field(self, term: Term, scope: Scope, of: Term, label: str) -> Claim:
        path, inner = scope.module.uses.get(of.parts[0], ((), "")) if of.kind == "name" else ((), "")
        if inner is None and of.parts[0] not in scope.names:  # a module, and not a value
            found = self.imported(path, label)
            return (lambda values: found) if found is not None else scope.fail(term, f"{label} has no meaning here")
        whole = self.term(of, scope)

        def field(values: Values) -> Value:
            value = known(whole(values))
            if type(value) is not dict or label not in value:
                raise Stuck(f"{scope.module.name}:{term.line}: no field {label} in {value}")
            return filled(value[label])

        return field

    def term_let(self, term: Term, scope: Scope, name: str, value: Term, body: Term) -> Claim:
        given, inner = self.term(value, scope), scope.inner()
        place = inner.place(name)
        rest, scope.size = self.term(body, inner), inner.size

        def let(values: Values) -> Value:
            values[place] = given(values)
            return rest(values)

        return let

    def term_lambda(self, term: Term, scope: Scope, names: list[str], body: Term) -> Claim:
        inner, base, arity = scope.inner(), scope.size, len(names)
        for name in names:
            inner.place(name)
        rest = self.term(body, inner)
        more = [None] * (inner.size - base - arity)
        return lambda values: Function(arity, lambda *arguments: rest([*values[:base], *arguments, *more]))

    def term_if(self, term: Term, scope: Scope, *parts: Term) -> Claim:
        test, then, otherwise = (self.term(part, scope) for part in parts)
        return lambda values: then(values) if test(values) else otherwise(values)

    def term_call(self, term: Term, scope: Scope, head: Term, arguments: list[Term]) -> Claim:
        parts = [self.term(part, scope) for part in arguments]
        special = head.kind == "name" and SPECIAL.get((head.parts[0], len(parts)))
        if special:
            return special(self, *parts)
        function = self.term(head, scope)
        known_now = function([]) if head.kind == "name" and head.parts[0] not in scope.names else None
        if not isinstance(known_now, Data) and any(map(is_claim, arguments)):
            scope.fail(term, "a claim as an argument")
        if isinstance(known_now, Function) and known_now.arity == len(parts):
            return called(known_now, parts)
        return lambda values: apply(function(values), *[part(values) for part in parts])

    # ---- claims

    def equation(self, a: Claim, b: Claim) -> Claim:
        return lambda values: self.same(a(values), b(values))

    def denial(self, claim: Claim) -> Claim:
        return lambda values: {True: False, False: True, None: None}[self.aside(claim, values)]

    def one_of(self, a: Claim, b: Claim) -> Claim:
        return lambda values: self.either(a, b, values)

    def factors(self, factors: Sequence[tuple[str | None, Term]], scope: Scope) -> list[Factor]:
        found = []
        for name, kind in factors:
            claim, names = self.term(kind, scope), dict(scope.names)
            label = f"{scope.owner}.{name}" if name else scope.owner
            found.append(Factor(scope.place(name or "_"), name, label, names, claim))
        return found

    def term_product(self, term: Term, scope: Scope, factors: list[tuple[str | None, Term]]) -> Claim:
        inner = scope.inner()
        found = self.factors(factors, inner)
        scope.size = inner.size
        return lambda values: self.holds(found, values, of_numbers=True)

    def term_function_type(self, term: Term, scope: Scope, bound: list[tuple[str | None, Term]], body: Term) -> Claim:
        """`(x : A) → B`: a claim of all values or, where A is a claim, under that condition."""
        inner = scope.inner()
        (name, kind), *others = bound
        condition, place = self.term(kind, scope), inner.place(name or "_")
        rest = self.term(term._replace(parts=(others, body)) if others else body, inner)
        scope.size = inner.size

        def claim(values: Values) -> Value:
            found = self.aside(condition, values)

            def of(value: Value) -> Value:
                values[place] = value
                return rest(values)

            if not isinstance(found, Data):
                return self.under(found, rest, values)
            return self.every(found, of) if name else rest(values)

        return claim


def called(function: Function, parts: list[Claim]) -> Claim:
    """A function at all of its arguments, as `apply` has it; of one or two it is written out, which is quicker."""
    if len(parts) == 1:
        (a,) = parts
        return lambda values: function.run(a(values))
    if len(parts) == 2:
        a, b = parts
        return lambda values: function.run(a(values), b(values))
    return lambda values: function.run(*[part(values) for part in parts])


def undefined(*arguments: Value) -> Value:
    raise Stuck("a definition that needs itself")


def parts_of(name: str, value: Value) -> Sequence[Value] | None:
    """The parts of which a constructor of this name made a value; None if it did not make it."""
    if name in CONSTANTS:
        return () if value == CONSTANTS[name] else None
    if name == "suc":
        return (value - 1,) if value > 0 else None
    if name == "◌∷◌":
        return (value[0], value[1:]) if value else None
    return value.parts if value.name == name else None


def made_by(name: str, tests: list[Test]) -> Test:
    """Whether a constructor of this name made a value, of parts that have the forms of its own parts."""

    def test(value: Value, values: Values) -> bool:
        found = parts_of(name, value if type(value) is Made else known(value))
        return found is not None and all([test(part, values) for test, part in zip(tests, found, strict=True)])

    return test


def put(place: int) -> Test:
    """Any value, which has this place among the values at hand."""

    def test(value: Value, values: Values) -> bool:
        values[place] = filled(value)
        return True

    return test


def number_in(definition: Clauses) -> int | None:
    """The place of an argument that is a number, over which the definition recurs."""
    for patterns, _ in definition.clauses:
        for place, pattern in enumerate(patterns):
            if pattern.kind == "call" and pattern.parts[0].parts[0] == "suc":
                return place
    return None


def is_claim(term: Term) -> bool:
    """Whether a term is a claim by its form. As an argument it would be evaluated though it is not made."""
    if term.kind == "call" and term.parts[0].kind == "name":
        return term.parts[0].parts[0] in ("◌≡◌", "◌⊎◌", "¬◌")
    return term.kind in ("product", "function type")


def mentions(term: Any, names: set[str]) -> bool:
    if isinstance(term, Term) and term.kind == "name":
        return term.parts[0] in names
    parts = term.values() if isinstance(term, dict) else term if isinstance(term, (tuple, list)) else ()
    return any(mentions(part, names) for part in parts)


SPECIAL: dict[tuple[str, int], Callable[..., Claim]] = {
    ("◌&&◌", 2): lambda self, a, b: lambda values: a(values) and b(values),
    ("◌||◌", 2): lambda self, a, b: lambda values: a(values) or b(values),
    ("◌≡◌", 2): Definitions.equation,
    ("◌⊎◌", 2): Definitions.one_of,
    ("¬◌", 1): Definitions.denial,
}
