"""The types of what h2audit-why says to machines, made of its schema: python3 -m tools.answer_types [--write]

Without --write it prints them; with it they are in h2audit/report/answer_types.py.
"""

import json
import pathlib
import sys
from collections.abc import Iterator
from keyword import iskeyword
from typing import Any

TOP = pathlib.Path(__file__).resolve().parents[1]
SCHEMA = TOP / "companions" / "why" / "schema.json"
WRITTEN = TOP / "h2audit" / "report" / "answer_types.py"
HEAD = '''"""What h2audit-why says to machines (docs/JSON.md), as types.

Made of companions/why/schema.json by `python3 -m tools.answer_types --write`.
"""

from typing import NotRequired, TypedDict
'''
ROOT = json.loads(SCHEMA.read_text())
PLAIN = {"integer": "int", "string": "str", "boolean": "bool", "null": "None"}
Schema = dict[str, Any]
DEFINITIONS: dict[str, Schema] = ROOT["$defs"]


def main(words: list[str]) -> None:
    if words == ["--write"]:
        WRITTEN.write_text(made())
    else:
        print(made(), end="")


def made() -> str:
    return HEAD + "".join(classes())


def classes() -> Iterator[str]:
    """A class for each kind of object, each behind those that it names."""
    named = {"Answer": ROOT} | {class_name(key): one for key, one in DEFINITIONS.items()}
    written: set[str] = set()
    for name, one in named.items():
        yield from classes_of(name, one, written)


def classes_of(name: str, one: Schema, written: set[str]) -> Iterator[str]:
    """Its class, if it is one, behind those of what is in it. A class can have no member `or`."""
    if "$ref" in one:
        name, one = referred(one)
    for inner in [*one.get("anyOf", ()), *([one["items"]] if one.get("items") else [])]:
        yield from classes_of(name, inner, written)
    if name in written or not is_record(one):
        return
    written.add(name)
    for key, member in one["properties"].items():
        yield from classes_of(name + class_name(key), member, written)
    fields = [f"    {key}: {field(name, key, one)}\n" for key in one["properties"] if not iskeyword(key)]
    yield f"\n\nclass {name}(TypedDict):\n{''.join(fields)}"


def referred(one: Schema) -> tuple[str, Schema]:
    key = one["$ref"].rpartition("/")[2]
    return class_name(key), DEFINITIONS[key]


def field(name: str, key: str, one: Schema) -> str:
    text = " | ".join(dict.fromkeys(types(name + class_name(key), one["properties"][key])))
    return text if key in one["required"] else f"NotRequired[{text}]"


def types(name: str, one: Schema) -> Iterator[str]:
    """What a value may be, None last."""
    if "$ref" in one:
        yield from types(*referred(one))
    elif "anyOf" in one:
        for inner in one["anyOf"]:
            yield from types(name, inner)
    elif "const" in one or "enum" in one:
        values = one.get("enum", [one.get("const")])
        yield from sorted({type(value).__name__ for value in values} - {"NoneType"})
        yield from ["None"] * (None in values)
    elif "prefixItems" in one:
        yield f"tuple[{', '.join(' | '.join(types(name, part)) for part in one['prefixItems'])}]"
    elif one["type"] == "array":
        yield f"list[{' | '.join(types(name, one['items']))}]"
    elif one["type"] == "object":
        yield name if is_record(one) else "dict[str, int]"
    else:
        kinds = one["type"] if isinstance(one["type"], list) else [one["type"]]
        yield from (PLAIN[kind] for kind in kinds)


def is_record(one: Schema) -> bool:
    """Whether it is an object whose members are not all numbers, by their names: those are a dictionary."""
    members = one.get("properties", {}).values()
    return one.get("type") == "object" and any(member.get("type") != "integer" for member in members)


def class_name(name: str) -> str:
    return "".join(part.capitalize() for part in name.split("_"))


if __name__ == "__main__":
    main(sys.argv[1:])
