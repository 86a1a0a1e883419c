"""Spans of time: their begins, their durations, and what each was."""

Span = tuple[int, int, str]


def joined(spans: list[Span], most: int) -> list[Span]:
    """At most so many spans: of each stretch of several that kind which takes the most of it."""
    length = -(-len(spans) // most)
    found: list[Span] = []
    for at in range(0, len(spans), max(length, 1)):
        part = spans[at : at + length]
        longest = max(part, key=lambda span: span[1])
        found.append((part[0][0], sum(span[1] for span in part), longest[2]))
    return found


def packed_spans(spans: list[Span], most: int, kinds: dict[str, int]) -> list[int]:
    """One after the other, as durations and the numbers of their kinds."""
    found = joined(spans, most) if len(spans) > most else spans
    return [number for _, nanos, kind in found for number in (nanos, kinds[kind])]
