"""What is legal in a scenario and still suspicious. Nothing is run: what is told stands in the texts."""
from __future__ import annotations

import re
from checking.arguments import never_taken
from checking.prediction import unset
from checking.sequence import names_of, out_of_order
from checking.things import ASKED_OF, MADE_FROM, WANTED, Path, Thing, kind_given, kinds_of_marks, uses_of
from scenarios.devices import CONTROLLERS, END, DeviceFound, Told
from scenarios.findings import Finding, line_and_column
from scenarios.json_text import Reader
from scenarios.reading import DEPTH_OF_OPS, MOST_HANDLE_MARK, Op, ScenarioFound
from shown import count, quoted, with_article

MOST_WARNINGS = 100
ENDING = "end_session", "destroy_session", "destroy_instance"

class Lint:
    """Looks through the scripts, each with what its names stand for. `device` has the first line of the device's text for each mark that is set or
    awaited; it is None where a text was given that can't be read, so that nobody knows what it sets. Nothing is said of the ops whose refusal is
    `expected`, each a script and its place."""

    def __init__(self, found: ScenarioFound, device: dict[tuple[str, int], Told] | None, has_device: bool, expected: set[tuple[int, int]]) -> None:
        self.found, self.device, self.has_device, self.expected = found, device, has_device, expected
        self.warnings: dict[int, Finding] = {}
        self.more = 0
        self.kinds = kinds_of_marks(found.scripts)
        every = [op for ops in found.scripts for op in ops]
        # the marks that are set with a value, and whether any script attaches sets
        self.valued = {op.fields["mark"] for op in every if op.name == "mark" and op.fields.get("value", 0) != 0}
        self.attaches = any(op.name == "attach_sets" for op in every)
        self.setters: dict[int, list[tuple[int, int]]] = {}
        for number, ops in enumerate(found.scripts, 1):
            for place, op in enumerate(ops, 1):
                if op.name == "mark":
                    self.setters.setdefault(op.fields["mark"], []).append((number, place))

    def warn(self, op: Op, place: int, words: str, path: Path) -> None:
        """Keeps a warning of an op, at a value in it."""
        if (self.number, place) in self.expected:
            return
        if len(self.warnings) == MOST_WARNINGS:
            self.more += 1
            return
        at = Reader(self.found.text).value(op.at, DEPTH_OF_OPS).inside(path)[1]
        said = f"script {self.number} op {place} {path[0]}: {words}"
        self.warnings.setdefault(at, Finding(*line_and_column(self.found.text, at), said, [], True))

    def look(self) -> list[Finding]:
        """All warnings, in the order of their places."""
        for number, ops in enumerate(self.found.scripts, 1):
            self.look_at_script(number, ops)
        found = [it for _, it in sorted(self.warnings.items())]
        if self.more:
            found[-1].more.append(f"{count(self.more, 'more warning')} can be given.")
        return found

    def look_at_script(self, number: int, ops: list[Op]) -> None:
        self.number = number
        self.names: dict[str, Thing] = {}
        self.said: set[tuple[str, ...]] = set()
        things: list[Thing] = []
        for place, op in enumerate(ops, 1):
            for path, name, kind in uses_of(op):
                if name in self.names:
                    self.look_at_use(op, place, path, name, kind)
            for path, words in (*never_taken(op, self.made), *out_of_order(op, place, self.named, self.attaches)):
                self.warn(op, place, words, path)
            if op.name == "await":
                self.look_at_await(op, place)
            self.follow(op, place)
            things += [self.names[op.fields["as"]]] if "as" in op.fields else []
        others_end = any(op.name in ENDING for other, ops in enumerate(self.found.scripts, 1) if other != number for op in ops)
        for thing in things:
            has_end = thing.gone() or thing.is_handed and others_end
            if thing.begun and not has_end and any(it.name.startswith("destroy_") for it in ops[thing.begun_at :]):
                words = f"{quoted(thing.begun.fields['session'])} is begun here, and what is destroyed behind this op is something else"
                self.warn(thing.begun, thing.begun_at, words, ("session",))

    def look_at_use(self, op: Op, place: int, path: Path, name: str, kind: str | None) -> None:
        """Whether a name may stand where it is used."""
        thing = self.names[name]
        gone = thing.gone()
        if thing.is_none:
            self.warn(op, place, f"{quoted(name)} stands for no handle: the mark that gave it is set without a value", path)
        elif kind and thing.kind and thing.kind != kind:
            words = f"{quoted(name)} is {with_article(thing.kind)}, and {with_article(kind)} is wanted here"
            self.warn(op, place, words, path)
        elif gone and (name, gone.destroyed) not in self.said:
            self.said.add((name, gone.destroyed))
            what = "it" if gone is thing else f"the {gone.kind} that it was made from"
            self.warn(op, place, f"{quoted(name)} is used behind {gone.destroyed}, which destroys {what}", path)

    def look_at_await(self, op: Op, place: int) -> None:
        """Whether a mark may be set before the script comes to wait for it."""
        mark = op.fields["mark"]
        setters = self.setters.get(mark, [])
        is_set = any(number != self.number or at < place for number, at in setters)
        if self.device is None or is_set or ("mark", mark) in self.device or ("await", str(mark)) in self.said:
            return
        self.said.add(("await", str(mark)))
        other = "the device's text has no such line" if self.has_device else "no device's text is given"
        words = f"nobody sets mark {mark}: no script has such an op, and {other}"
        if setters:
            words = f"mark {mark} is set by op {setters[0][1]} of this script alone, which stands behind this one"
        self.warn(op, place, words, ("mark",))

    def look_at_name(self, op: Op, place: int) -> None:
        """Whether a name is given again though the script hasn't destroyed what it stood for, nor what that was asked of."""
        name = op.fields["as"]
        old = self.named(name)
        if not old or not old.made or old.is_over():
            return
        words = f"{quoted(name)} is given again behind op {old.made_at} ({old.made.name})"
        if old.made.name.startswith("create_") and not old.is_handed and (self.number, old.made_at) not in self.expected:
            words += f", and nothing names that {old.kind} any longer"
        self.warn(op, place, words, ("as",))

    def named(self, name: object) -> Thing | None:
        """What a name stands for."""
        return self.names.get(name) if isinstance(name, str) else None

    def made(self, name: object) -> Op | None:
        """The op that made what a name stands for."""
        thing = self.named(name)
        return thing.made if thing else None

    def thing(self, op: Op, field: str) -> Thing | None:
        """What a field of an op names, unless it is of another kind than is wanted there: the call is refused then."""
        found = self.named(op.fields.get(field))
        return found if found and found.kind in (None, WANTED.get(field, found.kind)) else None

    def follow(self, op: Op, place: int) -> None:
        """What an op does to what its names stand for."""
        field = next((it for it in op.fields if it in WANTED or it == "value"), "")
        used = self.thing(op, field)
        if used:
            if op.name.startswith("destroy_"):
                used.destroyed = used.destroyed or f"op {place} ({op.name})"
            elif op.name in ("begin_session", "end_session"):
                used.begun, used.begun_at = (op, place) if op.name == "begin_session" else (None, 0)
            elif op.name == "mark":
                used.is_handed = True
        kind = kind_given(op, self.kinds)
        parent = self.thing(op, MADE_FROM.get(kind or "", ""))
        is_await = op.name == "await" and op.fields["mark"] <= MOST_HANDLE_MARK
        is_none = is_await and op.fields["mark"] not in self.valued
        new = Thing(kind, op, place, parent, self.thing(op, ASKED_OF.get(op.name, "")), is_handed=op.name == "await", is_none=is_none)
        if "as" in op.fields:
            self.look_at_name(op, place)
            self.names[op.fields["as"]] = new
        for it in names_of(op) if parent else []:
            if it not in parent.beside or parent.beside[it].gone():
                parent.beside[it] = new


def marks_of(device: DeviceFound) -> dict[tuple[str, int], Told]:
    """The first line of a device's text for each mark that is set or awaited."""
    first: dict[tuple[str, int], Told] = {}
    at = 0
    while True:
        new = (f"{name} (?:{unset([mark for it, mark in first if it == name])})" for name in ("mark", "await"))
        found = re.compile(rf"\n(?:{'|'.join(new)}){END}".encode()).search(device.text, at)
        told = device.event(found.start()) if found else None
        if told is None:
            return first
        first[told.name, int(told.words)] = told
        at = told.at + 1


# the lines that connect a controller or tell of an input
OF_INPUTS = re.compile(rf"\n(?:profile (?P<user>\S+) (?P<profile>\S+)|input (?P<at>/user(?:/hand)?/\w+)/input/(?P<entry>\S+) \S+){END}".encode())


def inputs_lacking(device: DeviceFound) -> list[Finding]:
    """The inputs that the controller which is connected there lacks, each once."""
    connected: dict[str, str] = {}
    found: dict[tuple[str, str, str], Finding] = {}
    for line in OF_INPUTS.finditer(device.text):
        user, profile, at, entry = (it.decode() if it else "" for it in line.group("user", "profile", "at", "entry"))
        if user:
            connected[user] = profile
            continue
        there = connected.get(at, "none")
        if there == "none" or entry in CONTROLLERS.get((there, at), ((), ()))[0] or (there, at, entry) in found or len(found) == MOST_WARNINGS:
            continue
        number = device.text.count(b"\n", 0, line.start() + 1)
        found[there, at, entry] = Finding(number, len("input ") + 1, f"{there}, which is connected at {at}, has no {entry}", [], True)
    return [*found.values()]


def lint(
    scenario: ScenarioFound, device: DeviceFound | None, is_known: bool, expected: set[tuple[int, int]]
) -> tuple[list[Finding], list[Finding]]:
    """The warnings of a scenario, and those of a device's text, which are of an `await` of a mark that nobody sets before, and of inputs that nobody
    has; `is_known` is false where such a text was given and not read."""
    marks = marks_of(device) if device else {}
    looked = Lint(scenario, marks if is_known else None, device is not None, expected)
    warnings, found = looked.look(), []
    for (name, mark), told in sorted(marks.items(), key=lambda it: it[1].at):
        setter = marks.get(("mark", mark))
        if device and name == "await" and mark not in looked.setters and not (setter and setter.at < told.at):
            words = f"nobody sets mark {mark}: no script has such an op, and the device's text has no such line"
            if setter:
                words = f"mark {mark} is set by line {device.line_of(setter)} alone, which stands behind this one"
            found.append(Finding(device.line_of(told), len("await ") + 1, words, [], True))
    return warnings, found + (inputs_lacking(device) if device else [])
