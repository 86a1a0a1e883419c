"""Claims of all numbers, range by range.

A definition is asked of a whole range of numbers at once. Where its answer is one and the same for each, that is the
answer; where it is not, the range is split, and the definition is asked anew. So a claim of all offsets below 2^31 is
a matter of its cases.
"""

import itertools
from collections.abc import Callable, Iterator
from typing import NoReturn

from tools.definitions.values import Value

EVER = float("inf")
Key = tuple[Value, ...]  # a function, and what stands for each of its arguments
Kept = tuple[tuple[Value, ...], Value]  # arguments, and what the function gave for them
PIECES = 100_000  # a claim of more pieces is not shown
VARIABLES = itertools.count()


class Split(Exception):
    """A question with more than one answer on a range: it is asked anew on both sides of `at`, or number by number."""

    def __init__(self, variable: int, at: int | None = None) -> None:
        self.variable, self.at = variable, at


class AtOnce:
    """Something of each number of a range at once. What has no rule of its own is asked number by number."""

    def __init__(self, variable: int) -> None:
        self.variable = variable

    def each(self, *_: Value) -> NoReturn:
        raise Split(self.variable)

    ask: Callable[..., Value] = each  # in the place of any of these
    __eq__ = __lt__ = __le__ = __gt__ = __ge__ = __hash__ = __bool__ = __str__ = __index__ = __len__ = __iter__ = ask
    __add__ = __radd__ = __sub__ = __rsub__ = __mul__ = __rmul__ = __pow__ = __rpow__ = __and__ = __rand__ = ask
    __mod__ = __rmod__ = __floordiv__ = __rfloordiv__ = ask


class Range(AtOnce):
    """The numbers from low up to high: each is one of a variable, plus `more`."""

    def __init__(self, variable: int, low: int, high: float, more: int = 0) -> None:
        super().__init__(variable)
        self.low, self.high, self.more = low, high, more
        self.bounds = variable, low, high, more

    def __add__(self, by: Value) -> "Range":
        return Range(self.variable, self.low + by, self.high + by, self.more + by) if type(by) is int else self.each()

    __radd__ = __add__

    def __sub__(self, by: Value) -> "Range":
        return self + -by if type(by) is int else self.each()

    def __mod__(self, by: int) -> "Range":
        start = self.low - self.low % by
        return self - start if self < start + by else self.each()

    def __lt__(self, bound: Value) -> bool:
        if type(bound) is Range:
            if bound.variable == self.variable:
                return self.more < bound.more
            raise Split(min(self, bound, key=lambda range: range.high - range.low).variable)
        if self.low < bound < self.high:
            raise Split(self.variable, bound - self.more)
        return bool(self.high <= bound)

    def __ge__(self, bound: Value) -> bool:
        return not self < bound

    def __le__(self, bound: Value) -> bool:
        return bool(self < bound + 1)

    def __gt__(self, bound: Value) -> bool:
        return not self < bound + 1

    def __eq__(self, other: Value) -> bool:
        return not self < other and self < other + 1

    __hash__ = AtOnce.ask


class Each(AtOnce):
    """The elements of a list at a range of places."""

    def __init__(self, places: Range, elements: tuple[Value, ...]) -> None:
        super().__init__(places.variable)
        self.elements = elements

    def __eq__(self, other: Value) -> bool:
        same = type(other) is Each and other.variable == self.variable and other.elements == self.elements
        return same or self.each()

    __hash__ = AtOnce.ask

    def __getattr__(self, name: str) -> NoReturn:
        raise Split(self.variable)


def element(items: tuple[Value, ...], place: int | Range) -> Value:
    """The element of a list at a place below its length."""
    return Each(place, items[place.low : int(place.high)]) if isinstance(place, Range) else items[place]


def answers(claim: Callable[[int | Range], bool | None]) -> Iterator[bool | None]:
    """What a claim is of all numbers, from 0 on, range by range; None where it is not known of some."""
    variable = next(VARIABLES)
    ranges: list[tuple[int, float]] = [(0, EVER)]
    for _ in range(PIECES):
        if not ranges:
            return
        low, high = ranges.pop()
        try:
            yield claim(low if low + 1 == high else Range(variable, low, high))
        except Split as split:
            if split.variable != variable:
                raise
            if split.at is not None:
                ranges += [(split.at, high), (low, split.at)]
            elif high - low > PIECES:
                break
            else:
                ranges += [(at, at + 1) for at in reversed(range(low, int(high)))]
    yield None


def identity(value: Value) -> Value:
    return value if type(value) is int else value.bounds if type(value) is Range else id(value)


class Remembering:
    """A function that goes over lists or, where its argument of this place is one, over a number. What it gave for the
    same arguments is kept. On a range of numbers it is what it is at the least, where it is that at each further one,
    supposed that it is at the one before."""

    def __init__(self, run: Callable[..., Value], kept: dict[Key, Kept], place: int | None) -> None:
        self.run, self.kept, self.place, self.busy, self.supposes = run, kept, place, False, False

    def key_of(self, arguments: tuple[Value, ...]) -> Key:
        return self, *map(identity, arguments)

    def __call__(self, *arguments: Value) -> Value:
        key = self.key_of(arguments)
        if key in self.kept:
            return self.kept[key][1]
        if self.place is not None and type(arguments[self.place]) is Range:
            return self.on_range(arguments, self.place)
        if self.busy:
            return self.run(*arguments)
        self.busy = True
        try:
            self.kept[key] = arguments, self.run(*arguments)  # the arguments too, for the sake of their identities
        finally:
            self.busy = False
        return self.kept[key][1]

    def on_range(self, arguments: tuple[Value, ...], place: int) -> Value:
        number = arguments[place]

        def at(value: int | Range) -> tuple[Value, ...]:
            return *arguments[:place], value, *arguments[place + 1 :]

        if self.supposes:
            number.each()
        first = self(*at(number.low))
        if number.low + 1 == number.high:
            return first
        further = Range(number.variable, number.low + 1, number.high, number.more)
        supposed = self.key_of(at(further - 1))
        self.kept[supposed] = arguments, first
        self.supposes = True
        try:
            if self.run(*at(further)) != first:
                raise Split(number.variable, number.low + 1 - number.more)
        finally:
            self.supposes = False
            del self.kept[supposed]
        if number.high != EVER:
            self.kept[self.key_of(at(number.high - 1))] = arguments, first
        return first
