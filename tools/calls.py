"""What tools/calls.table says: the calls with the fields of their ops, their groups, and the core's functions that decide them."""
from __future__ import annotations

import re
from functools import lru_cache
from pathlib import Path
from typing import NamedTuple

TABLE = Path(__file__).resolve().parent / "calls.table"
COLUMNS = {"groups": 4, "core": 4, "calls": 7}
FIELD = re.compile(r"(\w+)(?:=(\w+))?(?:>(\w+))?:(\w+)(\?)?$")
MARKS, OPTIONS = {"getter", "uncounted", "ending", "inner"}, {"lent", "adds", "behind"}
GIVEN = ("", "handle", "atom", "number", "marked")

# a field of an op: its key in scenarios, what code and the call call it, its sort, and whether it may be left out
Field = NamedTuple("Field", [("key", str), ("code", str), ("called", str), ("sort", str), ("is_optional", bool)])
# a row of the calls: `op` is its variant of `CallName`, and of `Op` where scripts have it, and `variant` that of `Call`
Call = NamedTuple("Call", [
    ("op", str), ("variant", str), ("is_op", bool), ("name", str), ("code", str), ("fields", "tuple[Field, ...]"), ("gives", str), ("group", str),
    ("core", str), ("values", str), ("marks", "frozenset[str]"), ("options", "dict[str, str]"),
])
# a group of ops, and a function of the core: the columns of their rows
Group = NamedTuple("Group", [("name", str), ("readers", str), ("order", str), ("what", str)])
Core = NamedTuple("Core", [("function", str), ("handed", "tuple[str, ...]"), ("group", str), ("what", str)])


class NoTable(Exception):
    """The table has no form; the words say where and why."""


class Table(NamedTuple):
    """The whole table."""

    groups: tuple[Group, ...]
    core: tuple[Core, ...]
    calls: tuple[Call, ...]

    @property
    def ops(self) -> list[Call]:
        """The ops in the order of the format."""
        return [it for it in self.calls if it.is_op]

    @property
    def listed(self) -> list[Call]:
        """All calls in the order of `Call` and of reports."""
        order = [it for it in self.calls if "behind" not in it.options]
        for late in (it for it in self.calls if "behind" in it.options):
            order.insert([it.name for it in order].index(late.options["behind"]) + 1, late)
        return order

    def of_group(self, group: Group) -> list[Call]:
        """The ops of a group in its order."""
        return [it for it in (self.ops if group.order == "rows" else self.listed) if it.group == group.name]

    def decided_by(self, core: Core) -> list[Call]:
        """The calls that a function of the core decides, in the order of `Call`."""
        return [it for it in self.listed if it.core == core.function]


def camel(name: str) -> str:
    """A name as types and variants have it."""
    return "".join(word.capitalize() for word in name.split("_"))


def rows_of(text: str) -> dict[str, list[tuple[int, list[str]]]]:
    """The rows of each part with their lines, cut into columns."""
    parts, part = {name: [] for name in COLUMNS}, ""
    for number, line in enumerate(text.split("\n"), 1):
        if line.startswith("["):
            part = line.strip()[1:-1]
            if part not in COLUMNS:
                raise NoTable(f"line {number}: there is no part {line.strip()}")
        elif line.strip() and not line.startswith("#"):
            columns = [it.strip() for it in line.split("|")]
            if len(columns) != COLUMNS.get(part):
                raise NoTable(f"line {number}: a row of {part or 'no part'} with {len(columns)} columns")
            parts[part].append((number, columns))
    return parts


def call_of(number: int, columns: list[str]) -> Call:
    """The call of a row."""
    name, words, gives, group, core, values, rest = columns
    key, _, code = name.partition("=")
    if not re.fullmatch(r"[a-z][a-z_]*", key):
        raise NoTable(f"line {number}: no name of a call: {name}")
    options = dict(it.split("=", 1) for it in rest.split() if "=" in it)
    marks = frozenset(it for it in rest.split() if "=" not in it)
    if unknown := (marks - MARKS) | (set(options) - OPTIONS):
        raise NoTable(f"line {number}: unknown words: {' '.join(sorted(unknown))}")
    fields, code, is_op = [], code or key, not marks & {"inner", "ending"}
    for word in words.split():
        if not (found := FIELD.match(word)):
            raise NoTable(f"line {number}: no field: {word}")
        fields.append(Field(found[1], found[2] or found[1], found[3] or found[2] or found[1], found[4], bool(found[5])))
    return Call(camel(key), camel(code), is_op, key, code, tuple(fields), gives, group, core, values, marks, options)


def check(table: Table) -> None:
    """Each name stands once, what rows name is there, and each row says what tables can be written from."""
    behind = {it.name: it.options["behind"] for it in table.calls if "behind" in it.options}
    for what, known, used in (
        ("call", [it.name for it in table.calls], behind.values()),
        ("group", [it.name for it in table.groups], [it.group for it in table.ops]),
        ("function", [it.function for it in table.core], [it.core for it in table.calls if it.core]),
    ):
        for name in [*known, *used]:
            if known.count(name) != 1:
                raise NoTable(f"the {what} {name} stands twice" if name in known else f"there is no {what} {name}")
    for call in table.calls:
        if call.gives not in GIVEN:
            raise NoTable(f"{call.name} gives no {call.gives}")
        if behind.get(call.name) in behind:
            raise NoTable(f"{call.name} stands behind {behind[call.name]}, which is moved itself")
    for core in table.core:
        many = len(table.decided_by(core))
        if not many or many > 1 and "call" not in core.handed:
            raise NoTable(f"the function {core.function} decides {many} calls")


def table_of(text: str) -> Table:
    """The table that a text says."""
    parts = rows_of(text)
    core = (Core(name, tuple(it.strip() for it in handed.split(",")), *rest) for _, (name, handed, *rest) in parts["core"])
    table = Table(tuple(Group(*it) for _, it in parts["groups"]), tuple(core), tuple(call_of(*it) for it in parts["calls"]))
    check(table)
    return table


@lru_cache(maxsize=None)
def calls() -> Table:
    """The repository's own table."""
    return table_of(TABLE.read_text(encoding="utf-8"))


def ops_in_format() -> list[str]:
    """The ops' names in the order of the format."""
    return [it.name for it in calls().ops]


def ops_in_reports() -> list[str]:
    """The names that calls of scripts have in reports, in the order that reports list them; the last is `leave`."""
    return [it.name for it in calls().listed if "inner" not in it.marks]


def getters() -> list[str]:
    """The names of the calls that answer from what was published last, in the order of the format."""
    return [it.name for it in calls().ops if "getter" in it.marks]
