"""When a claim is shown.

The value of a claim is whether it is shown: True, False where it is refuted, None for neither. That something is there
is shown by a witness: the value that an equation gives, or one that `propose` says; or, of numbers, by some range.
Whatever is proposed, a claim that it does not bear out is not shown; since another witness might, it is not refuted.
"""

from collections.abc import Callable, Iterable
from functools import partial
from typing import NamedTuple

from tools.definitions.ranges import Range, answers
from tools.definitions.values import Data, Function, Hole, Joined, Made, NotYet, Stuck, Value

Values = list[Value]  # the values at hand, by their places
Claim = Callable[[Values], Value]


class Factor(NamedTuple):
    """One of the claims that have to hold together, or a value that they speak of."""

    place: int  # of the value
    name: str | None
    label: str  # names the witness
    names: dict[str, int]  # the places of what it may speak of
    kind: Claim  # the claim, or the type of the value


def least(claims: Iterable[bool | None]) -> bool | None:
    """Whether all hold."""
    found = set(claims)
    return False if False in found else None if None in found else True


def greatest(claims: Iterable[bool | None]) -> bool | None:
    """Whether some holds."""
    found: bool | None = False
    for claim in claims:
        if claim is True:
            return True
        found = None if claim is None else found
    return found


class Claims:
    def __init__(self) -> None:
        self.propose: Callable[[str, dict[str, Value]], Value | None] = lambda label, values: None
        self.depth, self.proposed = 0, 0
        self.failed: list[str] = []

    def aside(self, claim: Callable[..., Value], *values: Value) -> Value:
        """A claim that is considered and not made: its equations give no value to what stands outside of it."""
        self.depth += 1
        try:
            return claim(*values)
        finally:
            self.depth -= 1

    def same(self, a: Value, b: Value) -> bool | None:
        """Whether two values are one. A hole takes the other's value."""
        for value, other in ((a, b), (b, a)):
            if type(value) is Joined and type(other) is tuple:
                front = len(value.front)
                return self.same(other[:front], value.front) and self.same(value.hole, other[front:])
            if type(value) is Hole:
                if value.value is None and (value.depth != self.depth or type(other) in (Hole, Joined)):
                    raise NotYet
                value.value = other if value.value is None else value.value
                return value.value is other or self.same(value.value, other)
        if a is b or a == b:
            return True
        if isinstance(a, (Function, Joined)):
            raise Stuck("functions are not compared")
        if type(a) is not type(b) or type(a) not in (tuple, dict, Made):
            return False
        if type(a) is Made:
            return a.name == b.name and self.same(a.parts, b.parts)
        if type(a) is dict:
            return a.keys() == b.keys() and least(self.same(a[label], b[label]) for label in a)
        return len(a) == len(b) and least(map(self.same, a, b))

    def holds(self, factors: list[Factor], values: Values, of_numbers: bool = False) -> bool | None | Data:
        """Whether the factors hold together. Those that wait for a value come later. Without claims it is a type."""
        waiting, proposed = factors, self.proposed
        results: list[bool | None] = []
        for factor in factors:
            values[factor.place] = Hole(self.depth)
        while waiting:
            later: list[Factor] = []
            for at, factor in enumerate(waiting):
                try:
                    found = factor.kind(values)
                    is_number = of_numbers and isinstance(found, Data) and found.name == "ℕ" and factor.name
                    if isinstance(found, Data) and not is_number:
                        self.witness(factor, values)
                except NotYet:
                    later.append(factor)
                    continue
                if is_number:
                    return least([*results, self.some(factor, later + waiting[at + 1 :], values)])
                if not isinstance(found, Data):
                    results.append(found)
                if found in (False, None):
                    self.failed += [] if self.depth else [factor.label]
                if found is False:
                    return False if proposed == self.proposed else None
            if len(later) == len(waiting):
                raise NotYet
            waiting = later
        return least(results) if results else Data("record")

    def witness(self, factor: Factor, values: Values) -> None:
        hole = values[factor.place]
        if factor.name and hole.value is None:
            hole.value = self.propose(factor.label, {name: values[place] for name, place in factor.names.items()})
            self.proposed += hole.value is not None

    def some(self, factor: Factor, factors: list[Factor], values: Values) -> bool | None:
        """Whether the factors hold of some number."""

        def claim(number: int | Range) -> Value:
            values[factor.place] = number
            return self.aside(self.holds, factors, values)

        return greatest(answers(claim))

    def every(self, kind: Data, claim: Callable[[Value], Value]) -> Value:
        """Whether a claim holds of all values of a type; of no number, where it need not look at the value."""
        if kind.name != "ℕ":
            return self.aside(claim, Hole(None))
        for found in answers(partial(self.aside, claim)):
            if found is not True:
                return found
        return True

    def either(self, a: Claim, b: Claim, values: Values) -> bool | None:
        """Whether one of two claims holds."""
        return greatest(self.aside(claim, values) for claim in (a, b))

    def under(self, condition: bool | None, claim: Claim, values: Values) -> Value:
        """Whether a claim holds under a condition."""
        if condition is False:
            return True
        found = claim(values) if condition else self.aside(claim, values)
        return found if condition or found is True else None
