"""What a field may be, by docs/scenario.schema.json, which is the one table of ops and fields.

Each part of the schema becomes a test of a value and of the names that were given so far. It is quick where nothing is wrong; what is wrong is
said by the place of the value in the text, which is read once more for that.
"""
from __future__ import annotations

import json
import re
from collections.abc import Callable, Iterator
from functools import cached_property
from pathlib import Path
from typing import Any, NamedTuple, Optional

from scenarios.json_text import Key, Node
from shown import count, listed, near_hint, one_line, quoted

SCHEMA = Path(__file__).resolve().parent.parent.parent / "docs/scenario.schema.json"
Part = dict[str, Any]
Names = dict[str, Any]

# the sort of a name is that of the innermost of these parts that it stands in, and else it is a number's
SORT_OF_PART = {"handle": "handle", "atom": "atom"}

QUOTED_NUMBER = re.compile(r"-?(?:0|[1-9][0-9]{0,18})")
TYPES = {"null": "null", "boolean": "true or false", "integer": "a whole number", "string": "a string", "array": "an array", "object": "an object"}
CLASSES = {"null": type(None), "boolean": bool, "integer": int, "string": str, "array": list, "object": dict}
ENDLESS = float("inf")


class NoSchema(Exception):
    """Why there is no schema, in one line."""


class Place(NamedTuple):
    """Where a value stands in a text, and what says why a name doesn't stand for a value of a sort."""

    text: str
    node: Node
    name_wrong: Callable[[str, str], str]

    @property
    def shown(self) -> str:
        return one_line(self.text[self.node.start : min(self.node.end, self.node.start + 80)])

    @property
    def kind(self) -> str:
        """What a value is, in words."""
        if not isinstance(self.node.value, float):
            return next(TYPES[it] for it, of in CLASSES.items() if type(self.node.value) is of)
        token = self.text[self.node.start : self.node.end]
        if token == "-0":
            return "no whole number here"
        return "a number with a fraction or an exponent" if set(".eE") & set(token) else "a number of more than 64 bits"


class Fault(NamedTuple):
    """What isn't as a part of the schema says: the way to the value, what says why by its place, and what the schema says of it."""

    why: Callable[[Place], str]
    path: tuple[Any, ...] = ()
    about: str = ""

    def inside(self, part: Any) -> Fault:
        return self._replace(path=(part, *self.path))


Test = Callable[[Any, Names], Optional[Fault]]


def as_json(value: object) -> str:
    return json.dumps(value, ensure_ascii=False)


def in_quotes(value: object) -> str | None:
    """Says of a string that its quotes should go, where it would be a number or a truth value without them."""
    if isinstance(value, str) and QUOTED_NUMBER.fullmatch(value):
        return f"is a number between quotes; without them it is the number {value}"
    return f"is a truth value between quotes; without them it is {value}" if value in ("true", "false") else None


# ---- the tests of a part


def test_of(holds: Callable[[Any], bool], why: Callable[[Any, Place], str]) -> Test:
    """The test that this holds of a value. Why it doesn't is said by the value and its place."""
    return lambda value, names: None if holds(value) else Fault(lambda place: why(value, place))


def all_of(tests: list[Test]) -> Test:
    """The test that all of these have to pass, in their order."""
    if not tests:
        return lambda value, names: None
    first, *others = tests
    if not others:
        return first
    rest = all_of(others)
    return lambda value, names: first(value, names) or rest(value, names)


def name_test(sort: str) -> Test:
    wanted = sort, None

    def test(value: Any, names: Names) -> Fault | None:
        is_given = value in names and names[value].sort in wanted
        return None if is_given else Fault(lambda place: place.name_wrong(value, sort))

    return test


def type_test(wanted: list[str]) -> Test:
    classes, due = frozenset(CLASSES[it] for it in wanted), " or ".join(TYPES[it] for it in wanted)
    may_be_quoted = bool({"integer", "boolean"} & set(wanted))

    def why(value: Any, place: Place) -> str:
        told = in_quotes(value) if may_be_quoted and isinstance(value, str) else None
        return f"{place.shown} {told or f'is {place.kind}'}, and {due} is wanted"

    return test_of(lambda value: type(value) in classes, why)


def bytes_of(value: Any) -> int:
    return len(value.encode("utf-8")) if type(value) is str else 0


def plain_tests(part: Part) -> Iterator[Test]:
    """The tests of which words a value may be, and of how large or long it may be."""
    if "const" in part:
        const = part["const"]
        wanted = f"stands here, and {'a name or 0' if const == 0 else as_json(const)} is wanted"
        is_const: Callable[[Any], bool] = lambda value: type(value) is type(const) and value == const  # noqa: E731
        yield test_of(is_const, lambda value, place: f"{place.shown} {in_quotes(value) or wanted}")
    if "enum" in part:
        words, known = frozenset(part["enum"]), listed(map(as_json, part["enum"]))
        near: Callable[[Any], str] = lambda value: near_hint(value.lower(), words) if isinstance(value, str) else ""  # noqa: E731
        is_word: Callable[[Any], bool] = lambda value: type(value) is str and value in words  # noqa: E731
        yield test_of(is_word, lambda value, place: f"{place.shown} is none of {known}{near(value)}")
    if "pattern" in part:
        fits = re.compile(part["pattern"]).fullmatch
        is_made: Callable[[Any], bool] = lambda value: type(value) is not str or fits(value) is not None  # noqa: E731
        yield test_of(is_made, lambda value, place: f"{place.shown} isn't made as a name is")
    if "minimum" in part or "maximum" in part:
        low, high = part.get("minimum", -ENDLESS), part.get("maximum", ENDLESS)
        yield test_of(lambda value: type(value) is not int or low <= value <= high, lambda value, place: f"{value} is out of range")
    if "maxLength" in part:
        longest = part["maxLength"]
        said = f"bytes, and {longest} are the most"
        yield test_of(lambda value: bytes_of(value) <= longest, lambda value, place: f"the string has {bytes_of(value)} {said}")
    if {"minItems", "maxItems", "prefixItems"} & part.keys():
        is_closed = part.get("items") is False
        least, most = part.get("minItems", 0), len(part["prefixItems"]) if is_closed else part.get("maxItems", ENDLESS)
        due = f"{least} are wanted" if least == most else f"{least} to {most} are wanted"
        is_due: Callable[[Any], bool] = lambda value: type(value) is not list or least <= len(value) <= most  # noqa: E731
        yield test_of(is_due, lambda value, place: f"the array has {count(len(value), 'item')}, and {due}")


class Schema:
    """The schema, as it was read from its file, and the tests of its parts."""

    def __init__(self, whole: Part) -> None:
        self.whole = whole
        self.parts: dict[str, Part] = whole["$defs"]
        self.rows: dict[str, Test] = {}

    @staticmethod
    def of_file(file: Path = SCHEMA) -> Schema:
        try:
            return Schema(json.loads(file.read_text(encoding="utf-8")))
        except (OSError, ValueError, KeyError) as e:
            raise NoSchema(f"{file} has the table of fields and can't be read: {e}") from None

    @cached_property
    def ops(self) -> list[str]:
        return self.parts["op"]["properties"]["op"]["enum"]

    def row(self, op: str) -> Part:
        """What the schema says of an op."""
        return self.parts[f"op_{op}"]

    def fields(self, op: str) -> list[str]:
        """The fields of an op, in the order of its row."""
        return [name for name in self.row(op)["properties"] if name != "op"]

    @cached_property
    def fields_by_op(self) -> dict[str, frozenset[str]]:
        return {op: frozenset(self.fields(op)) for op in self.ops}

    def part_of(self, reference: Part) -> Part:
        return self.parts[reference["$ref"].rpartition("/")[2]] if "$ref" in reference else reference

    def may_be(self, part: Part) -> str:
        """What a value of a part may be, in the schema's own words."""
        words = [part["description"]] if "description" in part else []
        words += [f"One of {listed(map(as_json, part['enum']))}."] if "enum" in part else []
        words += ["True or false, without quotes."] if part.get("type") == "boolean" else []
        return " ".join(words) if words or "$ref" not in part else self.may_be(self.part_of(part))

    # ---- tests

    def op_of(self, value: Any, names: Names) -> str | None:
        """The name of an op that nothing is wrong of; None where something may be."""
        op = value.get("op") if type(value) is dict else None
        if type(op) is not str or op not in self.fields_by_op:
            return None
        if op not in self.rows:
            self.rows[op] = self.test(self.row(op))
        return op if self.rows[op](value, names) is None else None

    def test(self, part: Part, sort: str = "number") -> Test:
        """The test of a part, in which a name without a sort of its own has this one."""
        test, about = all_of(self.tests(part, sort)), part.get("description")
        if about is None:
            return test

        def described(value: Any, names: Names) -> Fault | None:
            found = test(value, names)
            return found._replace(about=about) if found and not found.path else found

        return described

    def tests(self, part: Part, sort: str) -> list[Test]:
        tests: list[Test] = []
        if "$ref" in part:
            name = part["$ref"].rpartition("/")[2]
            if name == "name":
                return [name_test(sort)]
            tests.append(self.test(self.parts[name], SORT_OF_PART.get(name, sort)))
        if "type" in part:
            tests.append(type_test([part["type"]] if isinstance(part["type"], str) else part["type"]))
        tests += plain_tests(part)
        if "if" in part:
            holds, one, other = (self.test(part.get(key, {}), sort) for key in ("if", "then", "else"))
            tests.append(lambda value, names: one(value, names) if holds(value, names) is None else other(value, names))
        if part.get("items") or "prefixItems" in part:
            tests.append(self.items_test(part, sort))
        if "properties" in part or "required" in part:
            tests.append(self.members_test(part, sort))
        return tests

    def items_test(self, part: Part, sort: str) -> Test:
        """The test of an array's items: of the first ones that are listed, and of all others."""
        first = [self.test(it, sort) for it in part.get("prefixItems", ())]
        each = self.test(part.get("items") or {}, sort)

        def test(value: Any, names: Names) -> Fault | None:
            if type(value) is not list:
                return None
            found = [look(it, names) for look, it in zip(first, value)] + [each(it, names) for it in value[len(first) :]]
            return next((it.inside(place) for place, it in enumerate(found) if it), None) if any(found) else None

        return test

    def members_test(self, part: Part, sort: str) -> Test:
        """The test of an object's members."""
        known = part.get("properties", {})
        tests = {key: self.test(it, sort) for key, it in known.items()}
        is_closed, required = part.get("additionalProperties") is False, part.get("required", ())

        def missing(key: str, value: Part) -> str:
            near = near_hint(key, [it for it in value if it not in known], asks="is it written")
            return f"the key {quoted(key)} is missing in this object{near}"

        def extra(key: str) -> str:
            return f"{quoted(key)} is no key of this object, which has {listed(known)}{near_hint(key.lower(), known)}"

        def test(value: Any, names: Names) -> Fault | None:
            if type(value) is not dict:
                return None
            for key in required:
                if key not in value:
                    return Fault(lambda place: missing(key, value))
            for key, it in value.items():
                if key in tests:
                    found = tests[key](it, names)
                    if found:
                        return found.inside(key)
                elif is_closed:
                    return Fault(lambda place: extra(key), (Key(key),))
            return None

        return test
