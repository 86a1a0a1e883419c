"""The words of the standard prelude, each with its meaning. Definitions import them, and their own text is not read.

A claim's value is True where it holds, False where it does not, and None where neither is shown.
"""

import inspect
from functools import partial
from typing import Callable, Iterable

from tools.definitions.claims import least
from tools.definitions.ranges import element
from tools.definitions.values import Data, Function, Made, Stuck, Value, apply, joined, known

NONE, LESS, EQUAL, GREATER = (Made(name) for name in ("None", "Less", "Equal", "Greater"))
TYPES = "ℕ ℤ Bool List Option".split()
CONSTRUCTORS = "Some None Ok Err".split()


def some(value: Value) -> Made:
    return Made("Some", value)


def option(value: Made, otherwise: Value, then: Callable[[Value], Value]) -> Value:
    """What `then` makes of a value, if there is one."""
    return then(*value.parts) if value.name == "Some" else otherwise


def compared(a: int, b: int) -> Made:
    return LESS if a < b else GREATER if b < a else EQUAL


def after_equal(first: Made, second: Made) -> Made:
    return second if first == EQUAL else first


def digits(n: int) -> tuple[int, ...]:
    if not 0 <= n < 10**64:
        raise Stuck(f"no decimal of {n}")
    return tuple(str(n).encode())


def positive(n: int) -> int:
    if n == 0:
        raise Stuck("division by 0")
    return n


def folded(f: Value, a: Value, xs: tuple[Value, ...]) -> Value:
    for x in xs:
        a = apply(f, a, x)
    return a


def number(xs: tuple[int, ...], places: Iterable[int]) -> int:
    """The number whose digits to base 256 stand at these places, the highest first; past the end a digit is 0."""
    return folded_number(xs[place] if place < len(xs) else 0 for place in places)


def folded_number(octets: Iterable[int]) -> int:
    value = 0
    for octet in octets:
        value = value * 256 + octet
    return value


WORDS: dict[str, Callable[..., Value]] = {
    # numbers
    "◌+◌": lambda a, b: a + b,
    "◌-◌": lambda a, b: a - b if b <= a else 0,  # 0 where b is greater
    "◌*◌": lambda a, b: a * b,
    "◌/◌": lambda a, b: a // positive(b),
    "◌%◌": lambda a, b: a % positive(b),
    "◌^◌": lambda a, b: a**b,
    "min": lambda a, b: a if a <= b else b,
    "max": lambda a, b: b if a <= b else a,
    "◌<◌": lambda a, b: a < b,
    "◌≤◌": lambda a, b: a <= b,
    "nat_lt": lambda a, b: a < b,
    "nat_le": lambda a, b: a <= b,
    "◌==◌": lambda a, b: a == b,
    "bit_and": lambda a, b: a & b,
    "bit_at": lambda a, i: a // 2**i % 2,  # bit i, from the lowest, which is 0
    "pos": lambda n: n,  # a number as an integer
    "◌+ℤ◌": lambda a, b: a + b,
    "◌-ℤ◌": lambda a, b: a - b,
    "int_lt": lambda a, b: a < b,
    "int_le": lambda a, b: a <= b,
    "int_eq": lambda a, b: a == b,
    "big_number": lambda n, xs: number(xs, range(n)),  # of the first n bytes, the highest first
    "little_number": lambda n, xs: number(xs, reversed(range(n))),  # of the first n bytes, the lowest first
    "big_bytes": lambda n, x: tuple([x // 256**place % 256 for place in reversed(range(n))]),  # of n bytes
    "zero": lambda: 0,
    "suc": lambda n: n + 1,
    # truth values
    "true": lambda: True,
    "false": lambda: False,
    "not": lambda a: not a,
    # orders
    "nat_cmp": compared,
    "int_cmp": compared,
    "then_cmp": lambda r, s, x, y: after_equal(apply(r, x, y), apply(s, x, y)),  # by r, then by s
    "on": lambda f, r, x, y: apply(r, apply(f, x), apply(f, y)),  # r of what f makes of both
    "is_gt": lambda a: a == GREATER,
    # lists
    "[]": lambda: (),
    "◌∷◌": lambda x, xs: (x, *known(xs)),  # one element and then the others
    "◌++◌": joined,
    "length": len,
    "concat": lambda xs: tuple([y for x in xs for y in known(x)]),
    "map": lambda f, xs: tuple([apply(f, x) for x in xs]),
    "flat_map": lambda f, xs: tuple([y for x in xs for y in known(apply(f, x))]),
    "filter_map": lambda f, xs: tuple([y for x in xs for y in known(apply(f, x)).parts]),  # the values that f gives
    "filter": lambda p, xs: tuple([x for x in xs if apply(p, x)]),
    "find": lambda p, xs: next((some(x) for x in xs if apply(p, x)), NONE),  # the first that passes
    "list_any": lambda p, xs: any(apply(p, x) for x in xs),
    "count_by": lambda p, xs: len([x for x in xs if apply(p, x)]),
    "fold": folded,  # f over the items, from a
    "enumerate_from": lambda n, xs: tuple([{"0": at, "1": x} for at, x in enumerate(xs, n)]),  # with numbers from n on
    "take": lambda n, xs: xs[:n],
    "drop": lambda n, xs: xs[n:],
    "slice_range": lambda xs, a, b: xs[a:b] if a < b else (),  # from a up to b
    "slice_get": lambda xs, i: some(element(xs, i)) if i < len(xs) else NONE,  # the element at place i
    "slice_index": lambda xs, i: element(xs, i) if i < len(xs) else 0,  # the number at place i, 0 past the end
    # options
    "is_some": lambda o: o != NONE,
    "is_none": lambda o: o == NONE,
    "unwrap_or": lambda o, d: option(o, d, lambda x: x),
    "option_or": lambda o, p: o if o != NONE else p,
    "option_map": lambda f, o: option(o, NONE, lambda x: some(apply(f, x))),
    "option_and_then": lambda f, o: option(o, NONE, lambda x: apply(f, x)),
    "option_map_or": lambda f, o, d: option(o, d, lambda x: apply(f, x)),
    "option_to_list": lambda o: option(o, (), lambda x: (x,)),
    # texts, in bytes
    "codes": lambda text: tuple(text.encode()),
    "decimal": digits,
    "signed_decimal": lambda n: digits(n) if n >= 0 else tuple(b"-") + digits(-n),
    # claims
    "IsTrue": lambda a: a,
    "IsFalse": lambda a: not a,
    "IsSome": lambda o: o != NONE,
    "IsSomeAnd": lambda o, claim: option(o, False, lambda x: apply(claim, x)),  # there is a value, and it holds of that
    "AllByRecursion": lambda claim, xs: least(map(partial(apply, claim), xs)),  # of each element
    "AllZip": lambda claim, xs, ys: len(xs) == len(ys) and least(map(partial(apply, claim), xs, ys)),  # at each place
}
LAZY = ("◌∷◌", "◌++◌")  # these take what is not known yet
LOOPS = {"map", "flat_map", "filter_map", "filter", "find", "list_any", "count_by", "fold"}


def strict(run: Callable[..., Value], arity: int) -> Callable[..., Value]:
    """The word on what is known of its arguments."""
    if arity == 2:  # as most have, often for numbers
        return lambda a, b: run(a, b) if type(a) is int is type(b) else run(known(a), known(b))
    return lambda *arguments: run(*map(known, arguments))


def word(name: str) -> Value | None:
    """The meaning of a word, None where it has none here."""
    if name in TYPES or name in CONSTRUCTORS:
        return Data(name) if name in TYPES else Made(name)
    if name not in WORDS:
        return None
    run = WORDS[name]
    arity = len(inspect.signature(run).parameters)
    return Function(arity, run if name in LAZY else strict(run, arity)) if arity else run()
