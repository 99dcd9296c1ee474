"""What stands in a scenario's text: its ops, or the first wrong place in the program's own words, and why."""
from __future__ import annotations

import json
from dataclasses import dataclass, field
from typing import Any, NamedTuple

from calls import calls
from scenarios.findings import Finding, encoding_of, line_and_column
from scenarios.json_text import JsonFault, Node, Reader, plain
from scenarios.schema import NoSchema, Part, Place, Schema, in_quotes
from shown import listed, near_hint, nearest, one_line, quoted, with_article

MOST_BYTES = 1_048_576
MOST_HANDLE_MARK = 32
MOST_FINDINGS = 5

MOST_OP_SHOWN = 640

# an op stands in a script, which stands in the scripts of the top object
DEPTH_OF_OPS = 3

# the sorts of the names that ops give
GIVES = {it.name: it.gives for it in calls().calls}


class Op(NamedTuple):
    """An op: its name, its fields as they are written, its place in the text of the scenario, and this text."""

    name: str
    fields: dict[str, Any]
    at: int = 0
    whole: str = ""

    @property
    def arguments(self) -> dict[str, Any]:
        """Its fields without its name."""
        return {key: value for key, value in self.fields.items() if key != "op"}

    @property
    def text(self) -> str:
        """Its JSON on one line."""
        if not self.whole:
            return "the end of the script"
        end = json.JSONDecoder().raw_decode(self.whole, self.at)[1]
        return one_line(self.whole[self.at : min(end, self.at + MOST_OP_SHOWN)])


Scripts = list[list[Op]]
LEAVE = Op("leave", {})


class NoScenario(Exception):
    """Why a text is no scenario that is run, in the program's own words for its first wrong place."""


class WrongKey(NamedTuple):
    """What of an op is wrong: the program's word for it, its place, why, and lines that say what it may be."""

    part: str
    at: int
    why: str
    may_be: list[str]


class Given(NamedTuple):
    """Which op gave a name: its place in its script, its own name, and the sort, which is None where that isn't known."""

    place: int
    op: str
    sort: str | None


@dataclass
class ScenarioFound:
    """What was found: the program's reason to refuse the text, if it does, how many wrong places are told, and the scripts where all of them
    are read."""

    text: str = ""
    refusal: str | None = None
    findings: list[Finding] = field(default_factory=list)
    wrong: int = 0
    scripts: Scripts = field(default_factory=list)

    def refuse(self, reason: str, at: int, words: str, more: list[str] | None = None) -> ScenarioFound:
        """Keeps a reason. The first one that is kept is the program's."""
        self.refusal = self.refusal or reason
        self.wrong += 1
        return self.find(at, words, more)

    def refuse_place(self, place: str, at: int, why: str, more: list[str]) -> None:
        """Keeps a place that is wrong, by its name."""
        self.refuse(place, at, f"{place}: {why}", more)

    def find(self, at: int, words: str, more: list[str] | None = None, is_warning: bool = False) -> ScenarioFound:
        self.findings.append(Finding(*line_and_column(self.text, at), words, more or [], is_warning))
        return self


def read_scenario(text: bytes, schema: Schema) -> ScenarioFound:
    """What stands in a scenario's text."""
    found, looks = ScenarioFound(), encoding_of(text)
    if len(text) > MOST_BYTES:
        return found.refuse("too long", 0, f"the text has more than {MOST_BYTES} bytes, which are the most")
    try:
        found.text = text.decode("utf-8")
    except UnicodeDecodeError as e:
        found.text = text[: e.start].decode("utf-8")
        guess = f"it looks like {looks}" if looks else "perhaps it is of an encoding of single bytes, as Latin-1"
        byte = f"the byte 0x{text[e.start]:02X} at byte {e.start + 1} of the file has no place in it"
        return found.refuse("json", len(found.text), f"the text isn't UTF-8: {byte}; {guess}")
    if looks:
        return found.refuse("json", 0, f"this is no JSON: the text looks like {looks}")
    if found.text.startswith("\ufeff"):
        return found.refuse("json", 0, "the text begins with a byte-order mark (EF BB BF), which no scenario has")
    reader = Reader(found.text)
    try:
        top = reader.read()
    except JsonFault as e:
        return found.refuse("json", e.at, f"this is no JSON: {e.why}")
    for key, at in reader.repeated[:MOST_FINDINGS]:
        found.find(at, f"the key {quoted(key)} stands here once more in its object; the last one counts", is_warning=True)
    read_top(found, schema, top)
    return found


def scenario_in(text: bytes) -> ScenarioFound:
    """What stands in a scenario's text, by the schema that there is."""
    try:
        return read_scenario(text, Schema.of_file())
    except NoSchema as e:
        raise NoScenario(str(e)) from None


def scripts_in(text: bytes) -> Scripts:
    """The scripts of a scenario that is run."""
    found = scenario_in(text)
    if found.refusal is not None:
        raise NoScenario(found.refusal)
    return found.scripts


def read_top(found: ScenarioFound, schema: Schema, top: Node) -> None:
    """Looks at the top value, the version and the scripts."""
    parts = schema.whole["properties"]
    wrong = None if isinstance(top.value, dict) else (top.start, "the top value is no object")
    for key, (at, _) in () if wrong else top.value.items():
        if key not in parts:
            wrong = wrong or (at, f"the key {quoted(key)} stands here")
    if wrong:
        more = f"The top value is an object with just the keys {listed(schema.whole['required'])}."
        return found.refuse_place("script 0 op 0 top", *wrong, [more])
    for key in ("version", "scripts"):
        # of the list of scripts the list itself is looked at here
        node = top.value[key][1] if key in top.value else None
        part = {name: it for name, it in parts[key].items() if name != "items"}
        fault = schema.test(part)(node.value, {}) if node else None
        if node is None or fault:
            why = fault.why(Place(found.text, node, lambda value, sort: "")) if node and fault else "the key is missing"
            return found.refuse_place(f"script 0 op 0 {key}", (node or top).start, why, [f"{key} may be: {schema.may_be(parts[key])}"])
    return read_scripts(found, schema, top.value["scripts"][1].value)


def read_scripts(found: ScenarioFound, schema: Schema, scripts: list[Node]) -> None:
    """Reads the scripts, until there are enough wrong places."""
    for number, script in enumerate(scripts, 1):
        if not isinstance(script.value, list):
            more = "A script may be: " + schema.whole["properties"]["scripts"]["items"]["description"]
            found.refuse_place(f"script {number} op 0 script", script.start, "the script is no array", [more])
            continue
        reader = ScriptReader(found, schema, number, scripts)
        for place, node in enumerate(script.value, 1):
            if found.wrong == MOST_FINDINGS:
                found.findings[-1].more.append("The text isn't looked at behind this place.")
                return
            reader.read_op(place, node)
        found.scripts.append(reader.steps)


class ScriptReader:
    """Reads the ops of one script, with the names that they give."""

    def __init__(self, found: ScenarioFound, schema: Schema, number: int, scripts: list[Node]) -> None:
        self.found, self.schema, self.number, self.scripts = found, schema, number, scripts
        self.names: dict[str, Given] = {}
        self.steps: list[Op] = []

    def read_op(self, place: int, skimmed: Node) -> None:
        """Reads an op: which one it is, its fields in order, and that it has no other key."""
        op, fields = self.schema.op_of(skimmed.value, self.names), skimmed.value
        if op is None:
            node = Reader(self.found.text).value(skimmed.start, DEPTH_OF_OPS)
            named = self.name_of(node)
            op = named if isinstance(named, str) else None
            wrong = named if isinstance(named, WrongKey) else self.wrong_field(named, node) or self.extra_key(named, node.value)
            if wrong:
                said = one_line(self.found.text[node.start : node.end])
                more = [f"op {place} is {said}", *wrong.may_be]
                self.found.refuse_place(f"script {self.number} op {place} {wrong.part}", wrong.at, wrong.why, more)
        if op is None or "as" in self.schema.fields_by_op[op]:
            # the name of a wrong op is kept too, so that the ops that use it aren't wrong
            name = fields.get("as") if isinstance(fields, dict) else None
            if isinstance(name, str):
                mark, sort = fields.get("mark", 0), GIVES[op] if op else None
                if sort == "marked":
                    sort = None if type(mark) is not int else "handle" if mark <= MOST_HANDLE_MARK else "atom"
                self.names[name] = Given(place, op or "no known op", sort)
        if op:
            self.steps.append(Op(op, fields, skimmed.start, self.found.text))

    def name_of(self, node: Node) -> str | WrongKey:
        """The name of an op, or why it has none."""
        more = ['An op is an object: the op\'s name under "op", and the op\'s own fields.']
        if not isinstance(node.value, dict):
            return WrongKey("op", node.start, "the op is no object", more)
        if "op" not in node.value:
            return WrongKey("op", node.start, 'the key "op" is missing', more)
        named = node.value["op"][1]
        if isinstance(named.value, str) and named.value in self.schema.ops:
            return named.value
        near = near_hint(named.value, self.schema.ops)
        why = f"{self.place_of(named).shown} is the name of no op{near}"
        return WrongKey("op", named.start, why, [] if near else [f"The ops are {listed(self.schema.ops)}."])

    def field_part(self, row: Part, key: str, members: dict[str, Any]) -> Part:
        """What the schema says of a field, with what it says of it beside the op's other fields."""
        part = row["properties"][key]
        if "if" not in row:
            return part
        beside = {name: plain(it) for name, (_, it) in members.items() if name != key}
        holds = self.schema.test(row["if"])(beside, self.names) is None
        more = row.get("then" if holds else "else", {}).get("properties", {}).get(key)
        return {**self.schema.part_of(part), **(more or {})}

    def wrong_field(self, op: str, node: Node) -> WrongKey | None:
        """The first field of an op that is wrong."""
        members, row, fields = node.value, self.schema.row(op), self.schema.fields(op)
        for key in fields:
            may_be = [f"{key} may be: {self.schema.may_be(row['properties'][key])}"]
            if key in members:
                value = members[key][1]
                fault = self.schema.test(self.field_part(row, key, members))(plain(value), self.names)
                if fault:
                    found, at = value.inside(fault.path)
                    inside = [f"In it: {fault.about}"] if fault.about and at != value.start else []
                    return WrongKey(key, at, fault.why(self.place_of(found)), may_be + inside)
            elif key in row["required"]:
                near = near_hint(key, [it for it in members if it not in {"op", *fields}], asks="is it written")
                return WrongKey(key, node.start, f"the field {key} is missing{near}", may_be)
        return None

    def place_of(self, node: Node) -> Place:
        return Place(self.found.text, node, self.name_wrong)

    def extra_key(self, op: str, members: dict[str, Any]) -> WrongKey | None:
        """The first key of an op that its row doesn't have."""
        fields = self.schema.fields(op)
        for key, (at, _) in members.items():
            if key != "op" and key not in fields:
                optional = [it for it in fields if it not in self.schema.row(op)["required"]]
                may = f"; of these {listed(optional)} may be missing" if optional else ""
                why = f"{op} has no field {quoted(key)}{near_hint(key, fields)}"
                return WrongKey("extra key", at, why, [f"The fields of {op} are {listed(fields)}{may}."])
        return None

    def name_wrong(self, value: str, sort: str) -> str:
        """Why a name doesn't stand for a value of a sort."""
        name, given = quoted(value), self.names.get(value)
        if given is None:
            number = in_quotes(value)
            if number:
                may = "" if sort != "handle" or value == "0" else ", and 0 is the only number that a handle may be"
                return f"{name} {number}{may}; between quotes it is a name, which no earlier op of script {self.number} gives"
            hint = self.elsewhere(value) or self.near(value, sort)
            return f"no earlier op of script {self.number} gives the name {name}; {hint}"
        front = f"{name} is {with_article(given.sort or 'value')} that op {given.place} ({given.op}) gave"
        return f"{front}, and {with_article(sort)} is wanted; {self.near(value, sort)}"

    def elsewhere(self, name: str) -> str | None:
        """Which op gives a name where it isn't known: a later one, or one of another script."""
        for number, script in enumerate(self.scripts, 1):
            for place, op in enumerate(script.value if isinstance(script.value, list) else [], 1):
                if isinstance(op.value, dict) and op.value.get("as") == name:
                    if number == self.number:
                        return f"op {place} does, and doesn't stand before this one"
                    return f"script {number} op {place} does, and gives it to its own script alone"
        return None

    def near(self, name: str, sort: str) -> str:
        """The nearest name of a sort that was given, or the first of them."""
        of_sort = [it for it, given in self.names.items() if given.sort in (sort, None)]
        if not of_sort:
            return f"no {sort} was named so far"
        found = nearest(name, of_sort)
        if found is None:
            return f"{sort}s so far: {listed(map(quoted, of_sort[:8]))}{' ..' * (len(of_sort) > 8)}"
        given = self.names[found]
        return f"the nearest {sort} is {quoted(found)}, which op {given.place} ({given.op}) gave"
