"""Which calls tables are of, and how definitions and code match and tell one."""
from __future__ import annotations

from collections.abc import Callable, Iterable
from functools import partial
from operator import attrgetter
from typing import Any

from calls import Call, Group, Table

Which = Callable[[Table], "list[Call]"]
Text = Callable[[Table], "Iterable[str]"]
CALLS: Which = attrgetter("calls")
OPS: Which = attrgetter("ops")
LISTED: Which = attrgetter("listed")


def having(*words: str) -> Which:
    """The calls with one of these marks or options."""
    return lambda table: [it for it in table.calls if it.marks.union(it.options) & set(words)]


def of_groups(*names: str) -> Which:
    """The ops of some groups, in the order of the format."""
    return lambda table: [it for it in table.ops if it.group in names]


def valued(table: Table) -> list[Call]:
    """The calls of which a report prints values, by the kinds of these."""
    return sum(together((it for it in table.listed if it.values), lambda it: it.values).values(), [])


def together(its: Iterable[Any], key: Callable[[Any], Any]) -> dict[Any, list[Any]]:
    """Things by their keys, those with the same one where the first of them stands."""
    found: dict[Any, list[Any]] = {}
    for it in its:
        found.setdefault(key(it), []).append(it)
    return found


def bound(variant: str, fields: list[str], other: dict[str, str]) -> str:
    """A variant as definitions match it, in parentheses where it has fields. Where a field's name means something else, it has another there."""
    return f"({' '.join([variant, *(other.get(it, it) for it in fields)])})" if fields else variant


def matched(call: Call, **other: str) -> str:
    """An op: `op.X field ..`."""
    return bound(f"op.{call.op}", [it.code for it in call.fields], other)


def asked(call: Call, **other: str) -> str:
    """A call: `ask.X field ..`."""
    fields = ["what"] if call.name == "device" else [it.called for it in call.fields]
    return bound(f"ask.{call.variant}", fields + [it for name, it in call.options.items() if name == "adds"], other)


# a call where `mark` means something else
numbered = partial(asked, mark="number")


def any_op(call: Call) -> str:
    """An op in code whatever its fields hold."""
    return f"Op::{call.op}" + " { .. }" * bool(call.fields)


def any_call(call: Call) -> str:
    """A call in code whatever its fields hold."""
    return f"Call::{call.variant}" + " { .. }" * (bool(call.fields) or call.name == "device")


def fields_told(call: Call) -> str:
    """The keys of an op's object as comments and documents tell them."""
    return ", ".join([f"`{it.key}`" + "?" * it.is_optional for it in call.fields] + ["`as`?"] * bool(call.gives))


def kind_of(group: Group) -> str:
    """What definitions call the ops of a group."""
    return f"Is{group.name.capitalize()}Op"
