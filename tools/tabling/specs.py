"""The tables of definitions and proofs, and the parts of their rows."""
from __future__ import annotations

from collections.abc import Callable

from calls import Call, Core, Field, Table
from tabling.layout import fill
from tabling.patterns import asked, kind_of, matched, numbered
from tabling.sorts import key_of, sort_of

ROW = 140
GIVEN = {"handle": "Handle", "atom": "Atom", "number": "Number", "marked": "(mark_sort mark)"}


def by_kind(of_text: str, of_mark: str, other: str) -> Callable[[Call], str]:
    """What the row of a call with values says of them, by their kind."""
    return lambda call: {"text": of_text, "mark": of_mark}.get(call.values, other).format(call.values)


printed = by_kind("m.reply.gives m.text", "m.mark m.reply.gives", "m.reply.gives")
plain = by_kind("m.reply.gives m.text none", "m.mark m.reply.gives", "m.reply.gives")
# what was printed tells what was given: of a text that is its size, of a mark's value that the mark has one too
told = by_kind(
    "size_tells m.reply.gives n.reply.gives m.text n.text first second",
    "mark_tells m.mark n.mark m.reply.gives n.reply.gives first.0 second.0 first.1 second.1",
    "{}_tells m.reply.gives n.reply.gives first second",
)


def renamed(field: Field) -> str:
    """What a field is called where `name` means something else."""
    return "called" if field.code == "name" else field.code


def request(call: Call) -> str:
    """What an op asks."""
    given = [sort_of(it).asks.format("number" if it.code == "mark" else renamed(it)) for it in call.fields]
    return " ".join([f"ask.{call.variant}", *given, *["(pos 0)"] * ("adds" in call.options)])


def row_of(call: Call) -> str:
    """The row of an op, broken before a field where it is too long."""
    tail, its = "may_name" if call.gives else "no_name", [(f"key.{key_of(it)}", sort_of(it).row) for it in call.fields]
    if call.fields[-1].is_optional:
        read = " ".join(f"{key} ({row})" if " " in row else f"{key} {row}" for key, row in its)
        parts = [f"op.{call.op} of optional_after {read} (Number (pos 0)) {tail}"]
    else:
        first, *rest = (f"{key} by {row}" for key, row in its)
        parts = [f"op.{call.op} of {first}", *(f"then {it}" for it in [*rest, tail])]
    one = f"row_of call.{call.op} = {' '.join(parts)}"
    return one if len(one) <= ROW else "\n".join([f"row_of call.{call.op} =", *fill(4, parts, ROW, "")])


def ranged(call: Call) -> list[Field]:
    """The fields that have a range."""
    return [it for it in call.fields if sort_of(it).holds]


def formed(call: Call) -> str:
    """That an op has the ranges of its row."""
    held = " × ".join(sort_of(it).holds.format(renamed(it)) for it in ranged(call))
    return held[1:].removesuffix(")") if len(ranged(call)) == 1 and held.startswith("(") else held


def weaker(call: Call) -> str:
    """The proof of that where less is asked of places: the parts of `h` in order, of which the last is the rest."""
    its = ranged(call)
    proofs = [sort_of(it).weaker.format(renamed(it)) + f".{place}" * (len(its) > 1) for place, it in enumerate(its)]
    return proofs[0] if len(proofs) == 1 else f"({', '.join(proofs)})"


def kind(name: str, of: str, what: str, patterns: list[str]) -> str:
    """The definition of a kind of ops or calls."""
    rows = [f"abbrev pub {name} : {of} → Type 0", *(f"{name} {it} = Unit {{0}}" for it in patterns), f"{name} _ = ⊥"]
    return "\n".join([f"-- {what}"] * bool(what) + rows)


def groups_of_ops(table: Table) -> list[str]:
    return ["\n\n".join(kind(kind_of(it), "Op", it.what, list(map(matched, table.of_group(it)))) for it in table.groups if it.what)]


def groups_of_calls(table: Table) -> list[str]:
    return ["\n\n".join(kind(it.group, "Call", it.what, list(map(numbered, table.decided_by(it)))) for it in table.core if it.group)]


def quiet_groups(table: Table) -> list[Core]:
    """The core's groups that aren't given cells."""
    return [it for it in table.core if it.group and "cells" not in it.handed]


def quiet(table: Table) -> list[str]:
    """The proofs that these touch none."""
    texts = []
    for it in quiet_groups(table):
        its, name = table.decided_by(it), "quiet_" + it.function.removesuffix("_call")
        rows = [f"pub {name} : (r : Call) → {it.group} r → IsQuiet r", *(f"{name} {numbered(call)} group = tt" for call in its)]
        others = [asked(call) for call in table.calls if "ending" in call.marks and call not in its]
        texts.append("\n".join(rows + [f"{name} {pattern} group = absurd group" for pattern in [*others, "_"]]))
    return ["\n\n".join(texts)]
