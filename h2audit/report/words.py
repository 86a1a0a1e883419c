"""How times and numbers are worded: durations, counts, lists of streams."""

from collections.abc import Sequence

OTHER_SIDE = {"client": "server", "server": "client"}
MOST_NAMED = 8


def time_of(nanos: int) -> str:
    """A duration as a person says it: four digits from a second on, three below."""
    for unit, size in (("s", 10**9), ("ms", 10**6), ("µs", 10**3)):
        if nanos >= size:
            if nanos >= 100 * size:
                return f"{(nanos + size // 2) // size:,} {unit}"
            digits = 3 if unit == "s" and nanos < 10 * size else 2 if nanos < 10 * size else 1
            whole, rest = divmod((nanos * 10**digits + size // 2) // size, 10**digits)
            return f"{whole}.{rest:0{digits}}".rstrip("0").rstrip(".") + f" {unit}"
    return f"{nanos} ns"


def count(number: int, one: str, many: str = "") -> str:
    return f"{number:,} {one if number == 1 else many or one + 's'}"


def were(number: int) -> str:
    """The verb behind a count."""
    return "was" if number == 1 else "were"


def streams_named(streams: Sequence[int]) -> str:
    """The streams by their numbers: "stream 3", "streams 1, 3, 5", or so many from one to another."""
    if len(streams) == 1:
        return f"stream {streams[0]}"
    if len(streams) <= MOST_NAMED:
        return "streams " + ", ".join(map(str, streams))
    return f"{len(streams):,} streams, {streams[0]} to {streams[-1]}"


def duration(nanos: int) -> str:
    """A time in a unit that fits, exactly."""
    for unit, size in (("s", 10**9), ("ms", 10**6), ("µs", 10**3)):
        if abs(nanos) >= size:
            whole, rest = divmod(abs(nanos), size)
            digits = f"{rest:0{len(str(size)) - 1}}".rstrip("0")
            return "-" * (nanos < 0) + f"{whole:,}" + f".{digits}" * bool(digits) + f" {unit}"
    return f"{nanos} ns"
