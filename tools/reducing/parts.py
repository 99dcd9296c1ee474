"""Leaves out what a scenario and its device's text don't need to show something: ops, with those that use what they name, and lines."""
from __future__ import annotations

from collections.abc import Callable
from typing import Any, NamedTuple

from machine.turns import USES
from scenarios.reading import Op, Scripts


class Parts(NamedTuple):
    """What may be left out: the ops, each with its script from 0 and in their order, and the lines of the device."""

    ops: list[tuple[int, Op]]
    lines: list[str]

    def scripts(self, many: int) -> Scripts:
        """The scripts that are left, of so many; a script without ops stays while it isn't the last one."""
        return [[op for at, op in self.ops if at == script] for script in range(many)]


Shows = Callable[[Parts], bool]


def names_in(value: Any) -> set[str]:
    """The names that stand in a field, also in what stands in it."""
    if isinstance(value, (list, dict)):
        return {name for it in (value.values() if isinstance(value, dict) else value) for name in names_in(it)}
    return {value} if isinstance(value, str) else set()


def without(ops: list[tuple[int, Op]], gone: set[int]) -> list[tuple[int, Op]]:
    """The ops without those at these places, and without what uses a name that isn't given any more."""
    given: dict[int, set[str]] = {}
    kept = []
    for at, (script, op) in enumerate(ops):
        names = given.setdefault(script, set())
        uses = {name for key, it in op.arguments.items() if key in USES for name in names_in(it)}
        is_kept = at not in gone and uses <= names
        # a name stands for what was given last, which may be of another sort
        if "as" in op.fields:
            (names.add if is_kept else names.discard)(op.fields["as"])
        kept += [(script, op)] if is_kept else []
    return kept


def cut(parts: Parts, first: int, many: int, is_line: bool) -> Parts:
    """The parts without so many ops or lines from a place on."""
    if is_line:
        return parts._replace(lines=parts.lines[:first] + parts.lines[first + many :])
    return parts._replace(ops=without(parts.ops, {*range(first, first + many)}))


def reduced(parts: Parts, shows: Shows) -> Parts:
    """The parts without all that can be left out: halves first, then smaller pieces, and at last one op or line after another, until none can be."""
    many = max(len(parts.ops), len(parts.lines))
    while many:
        has_more = False
        for is_line in (False, True):
            first = 0
            while first < len(parts.lines if is_line else parts.ops):
                less = cut(parts, first, many, is_line)
                if shows(less):
                    parts, has_more = less, True
                else:
                    first += many
        many = 1 if many == 1 and has_more else many // 2
    return parts
