"""All tables that tools/rows writes, in the order of their files."""
from __future__ import annotations

import json
from collections.abc import Callable
from functools import partial

from calls import Call, Table
from tabling import code, docs, specs
from tabling.patterns import CALLS, LISTED, OPS, Text, Which, any_call, any_op, asked, having, kind_of, matched, numbered, of_groups, valued
from tabling.places import Written
from tabling.sorts import sort_of

REPORT, SCENARIO = "docs/report.schema.json", "docs/scenario.schema.json"
GETTERS, NOT_LOCKED, LENT = having("getter"), having("getter", "uncounted"), having("lent")
GIVING: Which = lambda table: [it for it in table.ops if it.gives]
# what a report may name as a call that was made, and as one that waits
REPORTED: Which = lambda table: [it for it in table.listed if "inner" not in it.marks]
STUCK: Which = lambda table: [it for it in table.listed if it.is_op]
# what templates may name of a call beside its columns and its options: `renamed` is the op where `name` means something else, and
# `renumbered` where `mark` does too
PARTS: dict[str, Callable[[Call], str]] = {
    "any_op": any_op, "any_call": any_call, "typed": lambda call: "\n".join(f"        {it.code}: {sort_of(it).type}," for it in call.fields),
    "matched": matched, "renamed": partial(matched, name="called"), "renumbered": partial(matched, name="called", mark="number"),
    "asked": asked, "numbered": numbered, "request": specs.request, "row": specs.row_of, "formed": specs.formed, "weaker": specs.weaker,
    "given": lambda call: specs.GIVEN[call.gives], "printed": specs.printed, "plain": specs.plain, "told": specs.told,
}


class Named(dict):
    """What a template names of a call. A part is made where it is named."""

    def __missing__(self, name: str) -> str:
        return PARTS[name](self["call"])


def rows(which: Which, template: str, head: str = "", tail: str = "", joint: str = "\n") -> Text:
    """A table with a row for each of some calls, between a head and a tail."""
    return lambda table: [head + joint.join(template.format_map(Named(it._asdict(), **it.options, call=it)) for it in which(table)) + tail]


# the tables that stand between marks, by file and name
MARKED: dict[str, Text] = {
    "crates/xr_types/src/names.rt: the names": rows(CALLS, "    {op},"),
    "crates/xr_types/src/names.rt: the ops": rows(OPS, "            CallName::{op},", "        &[\n", "\n        ]"),
    "crates/xr_types/src/names.rt: names written": rows(CALLS, '            CallName::{op} => "{name}",'),
    "crates/xr_types/src/scenario.rt: the ops": rows(OPS, "    {op} {{\n{typed}\n    }},"),
    "crates/xr_types/src/scenario.rt: names by op": rows(OPS, "            {any_op} => CallName::{op},"),
    "crates/xr_types/src/scenario.rt: sorts given": code.sorts_given,
    "crates/xr_types/src/call_kinds.rt: the getters": code.matches("matches!", GETTERS),
    "crates/xr_types/src/call_kinds.rt: the counted": code.matches("!matches!", NOT_LOCKED),
    "crates/xr_types/src/call_kinds.rt: the lent": rows(LENT, "            Call::{variant} {{ {lent}, .. }} => *{lent},"),
    "crates/xr_types/src/call_kinds.rt: the names": rows(LISTED, "            {any_call} => CallName::{op},"),
    "crates/xr_types/specs/Op.antt: import of names":
        rows(CALLS, "{op}", "use Rattle.xr_types.specs.declared.names.CallName.TheVariants.{", "}", ", "),
    "crates/xr_types/specs/Op.antt: call_name": rows(OPS, "call_name {matched} = {op}"),
    "crates/xr_types/specs/Op.antt: name_of_call": rows(CALLS, 'name_of_call {op} = codes "{name}"'),
    "crates/xr_types/specs/Op.antt: all_ops": rows(OPS, "{op} ∷ ", "    ", "[]", ""),
    "crates/xr_types/specs/Op.antt: sort_of": rows(GIVING, "sort_of {matched} = Some {given}"),
    "crates/xr_types/specs/CallKinds.antt: is_getter": rows(GETTERS, "is_getter {asked} = true"),
    "crates/xr_types/specs/CallKinds.antt: is_locked": rows(NOT_LOCKED, "is_locked {asked} = false"),
    "crates/xr_types/specs/CallKinds.antt: lent_size": rows(LENT, "lent_size {asked} = {lent}"),
    "crates/xr_types/specs/CallKinds.antt: listed_name": rows(LISTED, "listed_name {numbered} = call.{op}"),
    "crates/xr_model/specs/runs/Scripts.antt: request_for": rows(OPS, "request_for values {renumbered} = {request}"),
    "crates/xr_model/specs/scenario/OpRows.antt: row_of, chapters 2 to 9": rows(of_groups("instance", "session"), "{row}"),
    "crates/xr_model/specs/scenario/OpRows.antt: row_of, chapters 7 and 10": rows(of_groups("space", "image", "frame"), "{row}"),
    "crates/xr_model/specs/scenario/OpRows.antt: row_of, chapter 11": rows(of_groups("action", "state"), "{row}"),
    "crates/xr_model/specs/scenario/OpRows.antt: row_of, marks": rows(of_groups("mark"), "{row}"),
    "crates/xr_model/specs/scenario/InRange.antt: IsFormed": rows(OPS, "IsFormed P {renamed} = {formed}"),
    "crates/xr_model/specs/report/ReportValues.antt: success_values": rows(valued, "success_values call.{op} m = {values}_values {printed}"),
    "crates/xr_model/proofs/InRange.antt: formed-weaker": rows(OPS, "  formed-weaker {renamed} h = {weaker}"),
    "crates/xr_model/proofs/ReportsTell.antt: success_plain": rows(valued, "success_plain call.{op} m none = {values}_plain {plain}"),
    "crates/xr_model/proofs/ValuesTell.antt: success_tells": rows(valued, "success_tells call.{op} m n first second e = {told} e"),
    "crates/xr_core/src/decide.rt: the arms": code.decided,
    "crates/xr_core/specs/inside/Groups.antt: the groups": specs.groups_of_calls,
    "crates/xr_core/proofs/Quiet.antt: import of groups":
        lambda table: [f"use Rattle.xr_core.specs.inside.Groups.{{{', '.join(it.group for it in specs.quiet_groups(table))}}}"],
    "crates/xr_core/proofs/Quiet.antt: quiet groups": specs.quiet,
    "crates/xr_report/src/values.rt: the values": code.pushed,
    "crates/xr_scenario/src/read_op.rt: import of readers": code.imports_of_readers,
    "crates/xr_scenario/src/read_op.rt: ops by size": code.by_size,
    "crates/xr_scenario/src/read_op.rt: the readers": code.calls_of_readers,
    "crates/xr_scenario/src/row_keys.rt: the keys": code.keys_of_ops,
    "crates/xr_scenario_frame/src/lib.rt: the readers": code.readers_in("xr_scenario_frame"),
    "crates/xr_scenario_input/src/lib.rt: the readers": code.readers_in("xr_scenario_input"),
    "crates/xr_scenario_session/src/lib.rt: the readers": code.readers_in("xr_scenario_session"),
    "crates/xr_scenario_calls/src/call.rt: import of groups":
        lambda table: [f"ghost use Rattle.xr_scenario_calls.specs.inside.Groups.{{{', '.join(kind_of(it) for it in table.groups if it.what)}}};"],
    "crates/xr_scenario_calls/src/call.rt: calls of groups": code.makers,
    "crates/xr_scenario_calls/src/call.rt: the groups": code.calls_by_group,
    "crates/xr_scenario_calls/specs/inside/Groups.antt: the groups": specs.groups_of_ops,
    "docs/FORMATS.md: the ops": docs.rows_of_format,
}


def under(file: str, name: str, text: Text, *keys: str | int) -> Written:
    """A table of a schema, under these keys."""
    return Written(file, name, text, "key", ("$defs", *keys))


def all_tables(table: Table) -> list[Written]:
    """All tables. The ops' forms in the schema of scenarios have two each."""
    parts = {"properties": docs.fields_of, "required": docs.needed}
    return [
        *(Written(*place.split(": "), text) for place, text in MARKED.items()),
        Written("crates/xrsim/src/help.rt", "the ops", docs.helped, "words", ("These ops are run:", ".")),
        under(REPORT, "ops of calls", docs.strings(10, REPORTED), "call", "properties", "op", "enum"),
        under(REPORT, "values of calls", docs.values, "call", "allOf"),
        under(REPORT, "ops of the stuck", docs.strings(14, STUCK), "stuck", "oneOf", 0, "properties", "op", "enum"),
        under(SCENARIO, "the ops", docs.strings(10, OPS, 0), "op", "properties", "op", "enum"),
        under(SCENARIO, "forms of ops", rows(OPS, docs.FORM, "[\n", "\n      ]", ",\n"), "op", "allOf"),
        *(under(SCENARIO, f"{key} of op_{it.name}", lambda _, it=it, text=text: [text(it)], f"op_{it.name}", key)
          for it in table.ops for key, text in parts.items()),
    ]


def stray_forms(text: str, table: Table) -> list[str]:
    """The forms in the schema of scenarios that are of no op."""
    known = {f"op_{it.name}" for it in table.ops}
    try:
        return [it for it in json.loads(text)["$defs"] if it.startswith("op_") and it not in known]
    except (ValueError, KeyError, TypeError):
        return ["this text: it is no schema"]
