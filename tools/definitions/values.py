"""Values of definitions, and what is not known of a value yet.

Numbers, truth values and texts are those of Python, a list is a tuple, a record and a pair are dicts. The rest is here.
"""

from typing import Any, Callable

Value = Any


class Stuck(Exception):
    """A definition that says nothing of its arguments."""


class NotYet(Exception):
    """A value is asked for that no equation has given yet."""


class Data:
    """A type of data. A claim is a type too, but its value is whether it is shown: True, False, or None for neither."""

    def __init__(self, name: str) -> None:
        self.name = name


class Made:
    """What a constructor makes of its arguments."""

    __slots__ = ("name", "parts")

    def __init__(self, name: str, *parts: Value) -> None:
        self.name, self.parts = name, parts

    def __eq__(self, other: object) -> bool:
        return isinstance(other, Made) and self.name == other.name and self.parts == other.parts

    def __hash__(self) -> int:
        return hash(self.name)

    def __repr__(self) -> str:
        return f"({' '.join([self.name, *map(repr, self.parts)])})" if self.parts else self.name


class Function:
    """A function, and the first of its arguments, as far as it has them. What it gave for a number is kept."""

    __slots__ = ("arity", "run", "held", "kept")

    def __init__(self, arity: int, run: Callable[..., Value], held: tuple[Value, ...] = ()) -> None:
        self.arity, self.run, self.held = arity, run, held
        self.kept: dict[int, Value] = {}


class Hole:
    """A value that an equation of this depth may give. No equation gives one of depth None: it is any value."""

    def __init__(self, depth: int | None) -> None:
        self.depth = depth
        self.value: Value = None

    def __bool__(self) -> bool:
        return bool(known(self))


class Joined:
    """A list that ends with a hole."""

    def __init__(self, front: tuple[Value, ...], hole: Hole) -> None:
        self.front, self.hole = front, hole


def known(value: Value) -> Value:
    """The value itself, or that of a hole."""
    if type(value) is Hole:
        if value.value is None:
            raise NotYet
        return value.value
    return value.front + known(value.hole) if type(value) is Joined else value


def filled(value: Value) -> Value:
    """The value of a hole that has one, or else the value itself."""
    return value.value if type(value) is Hole and value.value is not None else value


def joined(xs: Value, ys: Value) -> Value:
    """One list after the other. The second may end with a hole."""
    xs, ys = known(xs), filled(ys)
    if type(ys) is Joined:
        return Joined(xs + ys.front, ys.hole)
    return Joined(xs, ys) if type(ys) is Hole else xs + ys


def apply(function: Value, *arguments: Value) -> Value:
    """A function at arguments: at fewer than it takes it is a function again, at more what it gives is one."""
    while arguments:
        function = known(function)
        if isinstance(function, Data):
            return function
        if isinstance(function, Made):
            return Made(function.name, *function.parts, *arguments)
        if not isinstance(function, Function):
            raise Stuck(f"no function: {function}")
        wanted = function.arity - len(function.held)
        if len(arguments) < wanted:
            return Function(function.arity, function.run, (*function.held, *arguments))
        if wanted == 1 and type(arguments[0]) is int:
            if arguments[0] not in function.kept:
                function.kept[arguments[0]] = function.run(*function.held, arguments[0])
            function, arguments = function.kept[arguments[0]], arguments[1:]
        else:
            function, arguments = function.run(*function.held, *arguments[:wanted]), arguments[wanted:]
    return function
