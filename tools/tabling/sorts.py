"""The sorts of an op's fields: how code has, reads and passes on each, and what definitions say of it."""
from __future__ import annotations

from typing import NamedTuple

from calls import Field, NoTable, camel


class Sort(NamedTuple):
    """A sort. `{}` stands for a field: in `reads` for its key in code, else for what it is called there."""

    type: str  # its type in `Op`
    reads: str  # how its reader takes it from an object
    row: str  # how the row of the op in the definitions does
    passes: str = "*{}"  # its value in the call, in code
    asks: str = "{}"  # and in definitions
    holds: str = ""  # its range
    weaker: str = "h"  # the proof of that anew where less is asked of places, from `h`


def _use(reader: str, value: str = "value_of") -> Sort:
    """A name, or a number in its place."""
    return Sort("Use", f"{reader}(named_ops, value, {{}})", f"{reader}_in", f"names.{value}(*{{}})", f"({value} values {{}})",
                f"Is{camel(reader)} P {{}}", "use-weaker _ _ _ {} h")


def _number(type_name: str, reads: str, limit: str) -> Sort:
    """A number up to a limit."""
    return Sort(type_name, reads, f"plain (number_in {limit})", holds=f"({{}} ≤ {limit})")


def _word(type_name: str, word: str) -> Sort:
    """A word of a list of words."""
    return Sort(type_name, "word(value, {})", f"plain (word_in {word}_name all_{word}s)")


def _list(item: str, limit: str, count: int, part: str, asks: str, scratch: str) -> Sort:
    """A list of so many items at most. `scratch` is where the call's list is made up."""
    filler = "layers_for" if scratch == "layers" else "list_for"
    each = f"Is{camel(part)}" + ("Part" if part in ("handle", "atom") else "")
    return Sort(f"Several<{item}>", f"list(alloc, named_ops, value, {{}}, {limit})", f"list_by {part}_part {limit}",
                f"Items::new({filler}(&mut scratch.{scratch}, names, {{}}.as_slice()))", f"(map {asks} {{}})",
                f"AreAtMost {limit} ({each} P) {{}}", f"list-weaker {count} ({each} P) ({each} Q) {part}-weaker {{}} h")


SORTS = {
    **{it: _use(it) for it in ("handle", "atom", "system")},
    "time": _use("time", "time_of"),
    "value": Sort("Use", "mark_value(named_ops, value, {}, mark)", "value_in", "names.value_of(*{})", "(value_of values {})",
                  "IsValue P mark {}", "value-weaker (nat_le mark 32) {} h"),
    "mark": Sort("u8", "mark_number(value, {})", "plain mark_in", holds="IsMark {}"),
    "u32": _number("u32", "small(value, {})", "most_u32"),
    "u63": _number("u64", "number(value, {}, MOST)", "most"),
    "capacity": _number("u64", "number(value, {}, MOST_CAPACITY)", "MOST_CAPACITY"),
    "text": Sort("Bytes", "text(alloc, value, {})", "plain text_in", "Items::new({}.as_slice())", holds="IsText {}"),
    "truth": Sort("bool", "truth(value, {})", "plain as_bool"),
    "timeout": Sort("i64", "timeout(value, {})", "plain timeout_in", holds="IsTimeout {}"),
    "form": _word("Form", "form"),
    "view": _word("ViewConfig", "view"),
    "kind": _word("RefKind", "kind"),
    "type": _word("ActionType", "action_type"),
    "blend": _word("Blend", "blend"),
    "subactions": _list("AtomUse", "MOST_SUBACTIONS", 8, "atom", "(λ u. value_of values u.atom)", "numbers"),
    "sets": _list("HandleUse", "MOST_ATTACHED", 32, "handle", "(λ u. value_of values u.handle)", "numbers"),
    "bindings": _list("BindingUse", "MOST_BINDINGS", 600, "binding", "(binding_for values)", "bindings"),
    "active": _list("ActiveSetUse", "MOST_ACTIVE", 128, "active_set", "(active_set_for values)", "active"),
    "layers": _list("LayerUse", "MOST_LISTED", 32, "layer", "(layer_for values)", "layers"),
}


def sort_of(field: Field) -> Sort:
    """The sort of a field."""
    if field.sort not in SORTS:
        raise NoTable(f"there is no sort {field.sort}")
    return SORTS[field.sort]


def key_of(field: Field) -> str:
    """A field's name in code, which has no `Type`."""
    return "ActionType" if field.key == "type" else camel(field.key)
