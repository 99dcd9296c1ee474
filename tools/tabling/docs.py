"""The tables of the help, the schemas and the documents, as their lines, but for those that `rows` makes alone."""
from __future__ import annotations

import json

from calls import Call, Table
from tabling.layout import fill
from tabling.patterns import Text, Which, fields_told, together, valued

HELP, SCHEMA = 78, 116
FORM = '        {{"if": {{"properties": {{"op": {{"const": "{name}"}}}}, "required": ["op"]}}, "then": {{"$ref": "#/$defs/op_{name}"}}}}'
VALUED = """\
        {{
          "if": {{"properties": {{"op": {{"const": "{0}"}}}}}},
          "then": {{"properties": {{"values": {{"$ref": "#/$defs/values_{0}"}}}}}}
        }},
"""
VALUES = """\
[
%s        {
          "if": {
            "properties": {
              "op": {
                "enum": %s
              }
            }
          },
          "else": {"properties": {"values": {"maxProperties": 0}}}
        }
      ]"""


def helped(table: Table) -> list[str]:
    """The sentence of --help on the ops."""
    *most, last = (it.name for it in table.listed if it.is_op)
    return fill(0, f"These ops are run: {', '.join(most)} and {last}.".split(" "), HELP, "")


def rows_of_format(table: Table) -> list[str]:
    """The table of ops; those with the same fields stand together where the first of them stands."""
    its = together(table.ops, fields_told)
    rows = [f"| {', '.join(f'`{it.name}`' for it in ops)} | {fields} |" for fields, ops in its.items()]
    return ["| op | fields in order |", "|---|---|", *rows]


# ---- the schemas, each a value with the indent of its key


def strings(indent: int, which: Which, width: int = SCHEMA) -> Text:
    """A list of names, as many on a line as fit."""
    def made(table: Table) -> list[str]:
        *rows, last = fill(indent + 2, [json.dumps(it.name) for it in which(table)], width)
        return ["[", *rows, last.removesuffix(","), " " * indent + "]"]
    return made


def values(table: Table) -> list[str]:
    """What values a call has."""
    return [VALUES % ("".join(VALUED.format(it.name) for it in valued(table)), "\n".join(strings(16, valued)(table)))]


def fields_of(call: Call) -> str:
    """The fields of an op's object: up to two on one line."""
    keys = [it.key for it in call.fields] + ["as"] * bool(call.gives)
    fields = [f'"op": {{"const": "{call.name}"}}', *(f'"{it}": {{"$ref": "#/$defs/field_{it}"}}' for it in keys)]
    return f"{{{', '.join(fields)}}}" if len(keys) <= 2 else "{\n        " + ",\n        ".join(fields) + "\n      }"


def needed(call: Call) -> str:
    """The fields that an op's object can't lack."""
    return json.dumps(["op", *(it.key for it in call.fields if not it.is_optional)])
