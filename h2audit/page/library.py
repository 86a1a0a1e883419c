"""The plotting library of the page: dygraphs (MIT licence), from the Debian package libjs-dygraphs."""

import os
import re
from dataclasses import dataclass

from h2audit.report.command import MISSING, Failed

FOLDER = "/usr/share/javascript/dygraphs"
PACKAGE = "libjs-dygraphs"


class Missing(Failed):
    """The library is not installed."""

    def __init__(self, why: str) -> None:
        super().__init__(MISSING, why)


@dataclass(frozen=True)
class Library:
    version: str
    script: str
    style: str
    licence: str


def library(folder: str = FOLDER) -> Library:
    """The library's files. Its licence stands at the head of the script that is not shortened."""
    try:
        whole = text_of(folder, "dygraph.js")
        script, style = text_of(folder, "dygraph.min.js"), text_of(folder, "dygraph.min.css")
    except FileNotFoundError as why:
        raise Missing(f"{why.filename} is missing (Debian: apt-get install {PACKAGE})") from None
    licence = re.search(r"dygraphs is MIT-licenced.*?(?=\*/)", whole, re.S)
    version = re.search(r'Dygraph\.VERSION = "([0-9.]+)"', whole)
    if not licence or not version or "</script" in script.lower():
        raise Missing(f"{folder} has another library than {PACKAGE}")
    return Library(version[1], without_map(script), without_map(style), re.sub(r"(?m)^ \* ?", "", licence[0]).strip())


def text_of(folder: str, name: str) -> str:
    with open(os.path.join(folder, name), encoding="utf-8") as file:
        return file.read()


def without_map(text: str) -> str:
    """Without the comment that names a map for debuggers, which a page has not beside it."""
    return re.sub(r"(?://|/\*)# sourceMappingURL=\S+(?: ?\*/)?\s*\Z", "", text)
