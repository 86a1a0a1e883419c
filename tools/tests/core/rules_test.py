"""Tests which functions decide by which rule (rules_in_code.txt) against docs/AUDIT_RULES.md and against the sources.

    python3 -m tools.tests.core.rules_test [Table | Refused]
    python3 -m tools.tests.core.rules_test --write

Each rule has a row there, and each function of a row is tied to one of the rule's definitions. Each rule of a section
of RFC 9113 has a sentence of it beside one of its definitions, in the form that duvet reads (.duvet/config.toml).
Where Debian's doc-rfc-std-proposed (non-free) is installed, each sentence is looked for in the section that it names.
--write makes out/rules_in_code.md, which has each rule with its definitions and functions.
"""

import gzip
import pathlib
import re
import sys
import unittest

from tools.tests.core import rules_in_code
from tools.tests.core.contracts import Definition
from tools.tests.core.rules_in_code import (
    FUNCTION,
    RULES,
    TABLE,
    TOP,
    Fault,
    Row,
    Rule,
    Ties,
    definitions_of,
    line_of,
    rooms_of,
    rules_of,
    sources,
    table_of,
    unmatched,
)

QUICK = True
MADE = TOP / "out" / "rules_in_code.md"
URL = "https://www.rfc-editor.org/rfc/rfc9113#section-"
RFC, HEAD = pathlib.Path("/usr/share/doc/RFC/proposed-standard/rfc9113.txt.gz"), re.compile(r"(\d+(?:\.\d+)*)\.  \S")
MARK, WORDS = re.compile(re.escape(f"-- //= {URL}") + r"\d+(\.\d+)+"), re.compile(r"-- //# \S.*")


def why_untied(row: Row) -> str:
    """Why some function of the row is not tied, or nothing."""
    try:
        Ties(sources(), row).check()
    except Fault as why:
        return str(why)
    return ""


def left_out(row: Row, rooms: list[str]) -> list[str]:
    """Functions whose contract names a definition of the row, which are not in it and call none that is."""
    keys = {(one["file"], one["name"]) for entry in row.functions if (one := FUNCTION.fullmatch(entry))}
    return [
        " ".join(key)
        for key, function in sources().functions.items()
        if key not in keys
        and not re.search(r"/laws\.rt|/worked_", key[0])
        and any(one.name in row.definitions and is_in(one, rooms) for one in function.names)
        and not keys & sources().called_from(key)
    ]


def is_in(one: Definition, rooms: list[str]) -> bool:
    return one.file.relative_to(TOP).parent.as_posix() in rooms


def comment_of(one: Definition) -> list[str]:
    """The comment above a definition."""
    lines, at = one.file.read_text(encoding="utf-8").splitlines(), line_of(one)
    first = at
    while first and lines[first - 1].startswith("--"):
        first -= 1
    return lines[first:at]


def quotes_in(comment: list[str]) -> list[tuple[str, str]]:
    """The sections that a comment quotes, each with its words."""
    found: list[tuple[str, str]] = []
    for line in comment:
        if line.startswith("-- //= "):
            found.append((line.removeprefix("-- //= "), ""))
        elif line.startswith("-- //# ") and found:
            where, words = found.pop()
            found.append((where, f"{words} {line.removeprefix('-- //# ')}".strip()))
    return found


def without_spaces(text: str) -> str:
    return "".join(text.split())


def rfc_sections() -> dict[str, str]:
    """The text of each section of RFC 9113, without spaces, since its lines are broken within words too."""
    found: dict[str, str] = {}
    section = ""
    for line in gzip.decompress(RFC.read_bytes()).decode("utf-8-sig").splitlines():
        head = HEAD.match(line)
        section = URL + head[1] if head else section
        found[section] = found.get(section, "") + without_spaces(line)
    return found


class Table(unittest.TestCase):
    def setUp(self) -> None:
        text = RULES.read_text(encoding="utf-8")
        self.rules, self.rooms = rules_of(text), rooms_of(text)
        self.rows = table_of(TABLE.read_text(encoding="utf-8"), self.rules)

    def test_each_rule_has_a_row(self) -> None:
        self.assertEqual(list(self.rules), list(self.rows))
        for number, rules in self.rules.items():
            self.assertEqual(unmatched(rules, self.rows[number]), [], f"section {number}")

    def test_each_function_is_tied(self) -> None:
        for number, rows in self.rows.items():
            for row in rows:
                self.assertEqual(why_untied(row), "", f"section {number}, {row.rules[0]}")

    def test_no_function_is_left_out(self) -> None:
        """From frames on: before them, contracts name a definition to say whose answer they hand on."""
        for number, rows in list(self.rows.items())[3:]:
            for row in rows:
                self.assertEqual(left_out(row, self.rooms[number]), [], f"section {number}, {row.rules[0]}")

    def test_each_rule_is_quoted(self) -> None:
        """A sentence of the RFC, of one of the rule's sections, stands beside one of its definitions."""
        for number, rules in self.rules.items():
            for rule in rules:
                if not rule.is_of_rfc or not rule.sections:
                    continue
                places = definitions_of(rule.definitions, self.rooms[number])
                quoted = [where for one in places for where, words in quotes_in(comment_of(one)) if words]
                wanted = [URL + section for section in rule.sections]
                self.assertTrue(set(quoted) & set(wanted), f"section {number}, {rule.words}: no sentence of {wanted}")

    def test_made(self) -> None:
        """What --write makes has each rule once, and names files that are there."""
        lines = list(rules_in_code.tables_of_code())
        wanted = [f"**{rule.words}**\n" for rules in self.rules.values() for rule in rules]
        self.assertEqual(sorted(line for line in lines if line.startswith("**")), sorted(wanted))
        files = {found[1] for line in lines if (found := re.search(r": (crates/[\w/]+\.\w+)(?::\d+)?$", line))}
        self.assertEqual([file for file in files if not (TOP / file).is_file()], [])
        self.assertGreater(len(files), 50)

    def test_quotes_have_the_form(self) -> None:
        """A line with the section, and then its words; nothing else begins as these do."""
        files = sorted((TOP / "crates").glob("*/specs/**/*.antt"))
        count = 0
        for file in files:
            lines = [line for line in file.read_text(encoding="utf-8").splitlines() if "//" in line]
            kinds = "".join("=" if MARK.fullmatch(line) else "#" if WORDS.fullmatch(line) else "?" for line in lines)
            self.assertRegex(kinds, r"^(=#+)*$", file.relative_to(TOP).as_posix())
            count += kinds.count("=")
        self.assertGreater(count, 30)

    def test_quotes_stand_in_the_rfc(self) -> None:
        """Word for word, each in the section that it names."""
        if not RFC.exists():
            self.skipTest("doc-rfc-std-proposed is not installed")
        sections = rfc_sections()
        for file in sorted((TOP / "crates").glob("*/specs/**/*.antt")):
            for where, words in quotes_in(file.read_text(encoding="utf-8").splitlines()):
                stands = without_spaces(words) in sections.get(where, "")
                self.assertTrue(stands, f"{file.relative_to(TOP)}: {where}: {words}")


class Refused(unittest.TestCase):
    """What the tests of the table refuse, each planted in a copy of what stands there."""

    def setUp(self) -> None:
        rules = rules_of(RULES.read_text(encoding="utf-8"))
        self.rules, self.rows = rules["8"], table_of(TABLE.read_text(encoding="utf-8"), rules)["8"]
        self.row = next(row for row in self.rows if row.rules[0].startswith("stream-overflow"))

    def test_rule_without_row(self) -> None:
        more = Rule("stream-underrun: less content than credit", ["underruns"], ["6.9.1"], True)
        self.assertEqual(unmatched([*self.rules, more], self.rows), [f"{more.words}: 0 rows"])
        missing = unmatched(self.rules, [row for row in self.rows if row is not self.row])
        self.assertEqual(len(missing), 1)

    def test_row_without_rule(self) -> None:
        found = unmatched(self.rules, [*self.rows, Row(["stream-underrun"], ["underruns"], [])])
        self.assertEqual(found[0], "stream-underrun: not the beginning of one rule")

    def test_other_definition(self) -> None:
        self.assertEqual(why_untied(self.row._replace(definitions=["window_stride"])), self.rests("window_stride"))

    def rests(self, name: str) -> str:
        return f"window_after does not rest on {name}"

    def test_functions(self) -> None:
        for entry, why in (
            ("fault_rules/window.rt say_live: window_step", "fault_rules/window.rt has no function say_live"),
            (
                "fault_rules/window_rules.rt say_life: window_step",
                "fault_rules/window_rules.rt has no function say_life",
            ),
            ("fault_rules/window_rules.rt say_live: stream_said", "say_live: stream_said is not named there"),
            ("fault_rules/window_rules.rt say_live: WindowHasRoom", "WindowHasRoom does not rest on window_step"),
            ("fault_rules/window_rules.rt is_used_up in moved_side", "not tied: is_used_up"),
            ("fault_rules/window_rules.rt at_opening in LiveStep::of", "LiveStep::of does not call at_opening"),
            ("conn_scan/cleared.rt clear by items_are_the_pass", "clear and items_are_the_pass speak of nothing"),
            ("say_live", "cannot be read: say_live"),
        ):
            said = why_untied(self.row._replace(functions=[*self.row.functions, entry]))
            self.assertIn(why, said)

    def test_left_out(self) -> None:
        few = self.row._replace(functions=["quiet_pass/opened_rows.rt Row::after_change in step"])
        self.assertIn("fault_rules/window_rules.rt say_live", left_out(few, ["crates/audit_terms/specs"]))


def write() -> None:
    MADE.parent.mkdir(exist_ok=True)
    MADE.write_text("\n".join(rules_in_code.tables_of_code()) + "\n", encoding="utf-8")
    print(MADE.relative_to(TOP))


if __name__ == "__main__":
    if sys.argv[1:] == ["--write"]:
        write()
    else:
        unittest.main()
