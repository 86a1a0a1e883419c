"""HTML of which no text can become markup: what is written is escaped, unless it is markup already."""

from collections.abc import Iterable
from html import escape

from h2audit.page.heads import HEADS


class Markup(str):
    """Text that is HTML already."""


Content = str | int | Iterable["Content"]


def markup(content: Content) -> Markup:
    """HTML of a text, of a number, or of several contents one after the other."""
    if type(content) is Markup:
        return content
    if isinstance(content, int):
        return Markup(f"{content:,}")
    if isinstance(content, str):
        return Markup(escape(printable(content)))
    return Markup("".join(map(markup, content)))


def printable(text: str) -> str:
    """Without what no page may hold, or what turns the order of letters: shown by its number."""
    if text.isprintable():
        return text
    return "".join(letter if letter.isprintable() or letter == "\n" else f"\\u{{{ord(letter):x}}}" for letter in text)


def element(name: str, content: Content = "", /, **attributes: str | int | bool | None) -> Markup:
    """An element; for an attribute's name, class_ is class, and data_side is data-side."""
    words = "".join(attribute(key, value) for key, value in attributes.items())
    return Markup(f"<{name}{words}>{markup(content)}</{name}>")


def attribute(key: str, value: str | int | bool | None) -> str:
    name = key.rstrip("_").replace("_", "-")
    if value is None or value is False:
        return ""
    return f" {name}" if value is True else f' {name}="{escape(printable(str(value)))}"'


def table(caption: str, name: str, rows: Iterable[Markup]) -> Markup:
    """A table that a screen reader can name, in a box of its own that can be scrolled by keyboard. Its name is that of
    its heads, and its class.
    """
    head = element("thead", element("tr", [element("th", one, scope="col") for one in HEADS[name]]))
    whole = element("table", [element("caption", caption), head, element("tbody", list(rows))], class_=name)
    return element("div", whole, class_="scroll", tabindex="0", role="region", aria_label=caption)


def shortened(caption: str, name: str, rows: list[Markup], whole: int) -> Markup:
    """A table of the first rows, if there are any; where they are not all, the last says how many more there are."""
    if not rows:
        return Markup("")
    if more := whole - len(rows):
        rows.append(row([f"{more:,} more", *[""] * (len(HEADS[name]) - 1)]))
    return table(caption, name, rows)


def row(cells: Iterable[Content], **attributes: str | int | None) -> Markup:
    return element("tr", Markup("".join(f"<td>{markup(cell)}</td>" for cell in cells)), **attributes)


def items(lines: Iterable[Content]) -> Markup:
    found = [element("li", line) for line in lines]
    return element("ul", found) if found else Markup("")
