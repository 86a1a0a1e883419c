"""What h2audit-why says of a capture beside its charts."""

from dataclasses import dataclass

from h2audit.report.answer_types import Answer, Connection
from h2audit.report.words import count

# So many warnings, reasons and different limits of what can be seen stand at the top.
MOST, MOST_LIMITS = 100, 8


@dataclass
class WhyDocument:
    """The document, of which the page reads what docs/JSON.md names."""

    document: Answer

    @property
    def headline(self) -> str:
        return self.document["summary"]["text"]

    @property
    def limits(self) -> list[str]:
        """What stands before all else, and what cannot be seen where it was captured."""
        warnings = [
            (f"Connection {one['connection']}: " if one["connection"] else "") + one["text"]
            for one in self.document["warnings"]
        ]
        seen: dict[str, list[int]] = {}
        for one in self.connections:
            for text in one["limits"]:
                seen.setdefault(text, []).append(one["number"])
        limited = [f"Connection {of[0]}" + f" and {len(of) - 1:,} more" * (len(of) > 1) + f": {text}"
                   for text, of in list(seen.items())[:MOST_LIMITS]]  # fmt: skip
        return [ended(text) for text in first_of(warnings, "warning") + limited]

    @property
    def connections(self) -> list[Connection]:
        return self.document["connections"]


def first_of(lines: list[str], what: str) -> list[str]:
    """As many as stand in a page, and how many more there are."""
    more = len(lines) - MOST
    return lines[:MOST] + [f"{count(more, what)} more, which h2audit-why tells"] * (more > 0)


def ended(text: str) -> str:
    """A sentence, from its capital to its point."""
    return text[:1].upper() + text[1:] + "." * (text[-1:] not in ".!?")
