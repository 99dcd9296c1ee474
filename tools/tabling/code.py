"""The tables of code, as their lines, but for those that `rows` makes alone."""
from __future__ import annotations

from collections.abc import Iterator

from calls import Call, Group, Table
from tabling.layout import LISTED, WIDTH, arm, braced, either, enclosed, fill, last_column
from tabling.patterns import Text, Which, any_call, any_op, fields_told, kind_of, together, valued
from tabling.sorts import key_of, sort_of

ARGUMENTS = {"alloc": "Global", "named_ops": "&NamedOps<'_>", "value": "&'v Value"}
READER = """\
/// Reads `{call.name}`: {told}.
#[inline(never)]
{head}
    ensures reads {{ {every}ReadsOp result (op_in {names} (view value.now) call.{call.op}) }}
    ensures formed {{ IfOk result (λ l. {every}IsFormed (IsKnownPlace {names}) l.op) }}
{only_wrong}{{
{body}
}}"""
MAKER = """\
/// The call of an op on {group.what}.
fn {group.name}_call<'a>(op: &'a Op, names: &Names{scratch}) -> Call<'a>
    requires group {{ {kind} op.now }}
{ranged}    ensures {{ result ≡ request_for names.now op.now }}
{{
    match op {{
{arms}
        _ => unreachable!(),
    }}
}}"""
# what prints the values of a success, by their kind: that of all but these is given what the call gave alone
PUSHED = {
    "number": "push_number_given(out, gives)",
    "text": "push_text_given(out, gives, made.text.as_slice())",
    "mark": "push_mark(out, made.mark, gives)",
}


def names(calls: list[Call]) -> list[str]:
    return [f"CallName::{it.op}" for it in calls]


def no_ops(table: Table) -> list[str]:
    return names([it for it in table.calls if not it.is_op])


def sorts_given(table: Table) -> Iterator[str]:
    """What the names stand for that ops give, but for that of a mark."""
    for gives in ("handle", "atom", "number"):
        yield f"{either(12, [any_op(it) for it in table.ops if it.gives == gives])} Some(Sort::{gives.capitalize()}),"


def matches(front: str, which: Which) -> Text:
    """Whether a call is one of some."""
    def matched(table: Table) -> list[str]:
        one = " | ".join(map(any_call, which(table)))
        if len(f"self, {one}") <= LISTED:
            return [f"        {front}(self, {one})"]
        one = one if len(one) + 12 <= WIDTH else one.replace(" | ", f"\n{' ' * 16}| ")
        return [f"        {front}(", "            self,", f"            {one}", "        )"]
    return matched


def pushed(table: Table) -> Iterator[str]:
    """How the values are printed."""
    for kind, its in together(valued(table), lambda it: it.values).items():
        front, body = either(8, names(its)), PUSHED.get(kind, f"push_{kind}(out, gives)")
        yield f"{front} {body}," if last_column(f"{front} {body},") <= WIDTH else f"{front} {{\n            {body}\n        }}"


# ---- reading ops


def by_size(table: Table) -> Iterator[str]:
    """The ops by the sizes of their names."""
    for size, its in sorted(together(table.ops, lambda it: len(it.name)).items()):
        yield arm(8, [str(size)], "&[", names(its), "]")


def read_by(table: Table, crate: str) -> list[Call]:
    """The ops that a crate reads."""
    groups = [it.name for it in table.groups if it.readers == crate]
    return [it for it in table.ops if it.group in groups]


def imports_of_readers(table: Table) -> Iterator[str]:
    """The imports of all readers, by their crates."""
    for crate in sorted({it.readers for it in table.groups}):
        yield from [f"use {crate}::{{", *fill(4, sorted(it.code for it in read_by(table, crate)), WIDTH - 1), "};"]


def arguments(call: Call) -> list[str]:
    """What the reader of an op is given: memory, and the names of earlier ops, where it takes them."""
    return [it for it in ARGUMENTS if it == "value" or any(it in sort_of(field).reads for field in call.fields)]


def calls_of_readers(table: Table) -> list[str]:
    arms = [arm(8, names([it]), f"{it.code}(", arguments(it), ")") for it in table.ops]
    return [*arms, arm(8, no_ops(table), "Err(", ["Fault::Wrong(What::Op)"], ")")]


def keys_of_ops(table: Table) -> list[str]:
    """The keys of all ops. Ops with the same keys are put together where the first of them stands."""
    keys = together(table.ops, lambda call: ("Op", *map(key_of, call.fields), *["As"] * bool(call.gives)))
    arms = [arm(8, names(ops), "&[", [f"FieldName::{it}" for it in its], "]") for its, ops in keys.items()]
    return [*arms, either(8, no_ops(table)) + " &[],"]


def reader(call: Call) -> str:
    """The reader of an op, with its contract. The words `name` and `value` mean something else there."""
    given, rows, fields = arguments(call), [], []
    head = enclosed(0, 0, f"pub fn {call.code}<'v>(", [f"{it}: {ARGUMENTS[it]}" for it in given], ") -> Result<ReadOp<'v>, Fault>", WIDTH)
    every, known = ("", "named_ops.now") if "named_ops" in given else ("(names : List NamedOp) → ", "names")
    for it in call.fields:
        local = {"name": "called", "value": "marked"}.get(it.code, it.code)
        read, _, args = sort_of(it).reads.format(f"FieldName::{key_of(it)}").removesuffix(")").partition("(")
        front = f"    let {local} = "
        rows.append(front + enclosed(4, len(front), f"{read}(", args.split(", "), ")?;"))
        fields.append(it.code if local == it.code else f"{it.code}: {local}")
    rows += ["    let name = name(value)?;"] * bool(call.gives)
    rows += [f"    let op = {braced(4, 'Op::' + call.op, fields)};", f"    Ok(ReadOp {{ op, name{'' if call.gives else ': None'} }})"]
    only_wrong = "" if "alloc" in given else "    ensures only_wrong { IfErr result IsWrong }\n"
    return READER.format(call=call, told=fields_told(call), head=head, every=every, names=known, only_wrong=only_wrong, body="\n".join(rows))


def readers_in(crate: str) -> Text:
    """The readers of a crate."""
    return lambda table: ["\n\n".join(map(reader, read_by(table, crate)))]


# ---- the calls of ops


def made(call: Call) -> str:
    """The arm that makes up the call of an op."""
    given = [f"{it.called}: {sort_of(it).passes.format(it.code)}" for it in call.fields]
    given += [f"{it}: 0" for name, it in call.options.items() if name == "adds"]
    front = braced(8, f"Op::{call.op}", [it.code for it in call.fields])
    return f"        {front} => {braced(8, f'Call::{call.variant}', given)},"


def has_lists(table: Table, group: Group) -> bool:
    """Whether a call of the group has a list, which is made up in scratch memory."""
    return any("scratch" in sort_of(field).passes for it in table.of_group(group) for field in it.fields)


def makers(table: Table) -> list[str]:
    """The functions that make up the calls of groups."""
    texts = []
    for it in (it for it in table.groups if it.what):
        more = (", scratch: &'a mut Scratch", "    requires ranged { IsInRange op.now }\n") if has_lists(table, it) else ("", "")
        arms = "\n".join(map(made, table.of_group(it)))
        texts.append(MAKER.format(group=it, kind=kind_of(it), scratch=more[0], ranged=more[1], arms=arms))
    return ["\n\n".join(texts)]


def calls_by_group(table: Table) -> Iterator[str]:
    """The arms of `call_of`: first the ops that have no function."""
    yield from (made(it) for group in table.groups if not group.what for it in table.of_group(group))
    for group in (it for it in table.groups if it.what):
        args = ["op", "names"] + ["scratch"] * has_lists(table, group)
        yield arm(8, list(map(any_op, table.of_group(group))), f"{group.name}_call(", args, ")")


def decided(table: Table) -> Iterator[str]:
    """The arms of `decide`."""
    for core in table.core:
        its = table.decided_by(core)
        patterns, fields = list(map(any_call, its)), [it.called for it in its[0].fields]
        if "call" not in core.handed:
            patterns = [braced(12, f"Call::{its[0].variant}", fields) if fields else f"Call::{its[0].variant}(event)"]
        yield arm(12, patterns, f"self.{core.function}(", list(core.handed), ")")
    yield either(12, [any_call(it) for it in table.calls if not it.core]) + " unreachable!(),"
