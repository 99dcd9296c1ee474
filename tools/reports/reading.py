"""Reads a report, with places or without, and refuses every other text in one line. Gives its calls the arguments of its scenario, and refuses
a scenario that can't be the report's."""
from __future__ import annotations

import re
from dataclasses import dataclass, field
from typing import Any

from reports.values import CODES, GETTERS, MARK, MET, OPS, Values, of_call, of_event, of_frame
from scenarios.reading import LEAVE, MOST_HANDLE_MARK, Op, Scripts

MOST_SCRIPTS = 8
MOST_REPORT = 1 << 30
FIRST_LINE = b"xrsim report 1"
COMPOSITOR, DEVICE = "compositor", "device"

_CALL = re.compile(r"([1-9]\d{0,8}) ([a-z_]{1,40}) (XR_[A-Z_]{1,60})(?: (.+))?")
_STUCK = re.compile(rf"thread ([1-8]) ([1-9]\d{{0,8}}) ([a-z_]{{1,40}})|device await ({MARK})|compositor next_frame")
_PLACE = re.compile(r"(.*) @(0|[1-9]\d{0,17})")

# the kinds of faults, each with the words that say it
WORDS = {
    "empty": "it is empty; where a run prints no report, its line on standard error and its status say why",
    "first": "its first line isn't `xrsim report 1`",
    "returns": "its lines end in carriage returns; tr -d '\\r' takes them away",
    "utf8": "its line {line} isn't UTF-8",
    "cut": "it is cut: its last line, {line}, has no line feed",
    "no status": "it is cut behind its line {line}: no line says the status",
    "due": "its line {line}: {due} is due here",
    "end due": "its line {line}: an event, `stuck` or the status is due here",
    "more": "its line {line}: nothing is due here",
    "place": "its line {line}: it has {has} place, and the lines before it have {others}",
    "call": "its line {line}: no line of a call of {who}",
    "values": "its line {line}: no line of a call: {op} gives no such values at {code}",
    "number": "its line {line}: call {number} of {who} stands where its call {due} is due",
    "leave": "its line {line}: {who} makes a call behind its leave",
    "frame": "its line {line}: no line of a frame",
    "frame's number": "its line {line}: frame {number} stands where frame {due} is due",
    "ended": "its line {line}: the compositor goes on behind `ended`",
    "event": "its line {line}: no line of a device's event",
    "event's number": "its line {line}: event {number} stands where event {due} is due",
    "garbled": "its line {line}: no line of a garbled device",
    "fault": "its line {line}: the device goes on behind `{what}`",
    "stuck": "its line {line}: no line of who is stuck",
    "nobody": "its line {line}: nobody stands behind `stuck`",
    "waiters": "it is broken: its lines behind `stuck` name an actor twice, or a script that isn't there",
    "stuck too": "it is broken: {the_who} has ended and is stuck",
    "no end": "it is broken: {the_who} is neither ended nor stuck",
    "next": "it is broken: {who} is stuck at call {number}, which isn't its next",
    "status": "it is broken: its status is {status}, and its lines say {due}",
    "order": "it is broken: the places of {the_who} don't ascend",
    "places": "it is broken: its places aren't those from 1 on, each once",
    "other scripts": "it has {number} scripts, and the scenario has {due}",
    "other op": "call {number} of {who} is {op}, and the scenario has {due} there",
    "other mark": "call {number} of {who} isn't of mark {due}, which the scenario has there",
    "other capacity": "call {number} of {who} isn't of capacity {due}, which the scenario has there",
}


class NoReport(Exception):
    """Why a text is no report, in one line. A fault of the text has a kind, and what stands in its words."""

    def __init__(self, words: str = "", kind: str = "", **given: Any) -> None:
        who = given.get("who", "")
        self.kind, self.given = kind, {**given, "the_who": who if who.startswith("script") else f"the {who}"}
        super().__init__(words or WORDS[kind].format(**self.given))


@dataclass(eq=False)
class Call:
    """What a line of a report tells: `what` is call, frame, ended, event, fault, garbled or stuck. `number` counts the ops
    of the script, the events or the frames, from 1. `text` has the words behind the code, the event's name or the frame's
    number. `line` is its number in the report. `arguments` and `note` are for who knows the scenario."""

    what: str
    actor: str
    op: str = ""
    script: int = 0
    number: int = 0
    code: str = ""
    text: str = ""
    values: Values = field(default_factory=dict)
    place: int | None = None
    line: int = 0
    arguments: dict[str, Any] | None = None
    note: str = ""

    @property
    def who(self) -> str:
        """Its actor by name."""
        return f"script {self.script}" if self.script else self.actor

    @property
    def name(self) -> str:
        """The name of its op or event, or else what it is."""
        return self.op if self.what in ("call", "event", "stuck") else self.what

    @property
    def waits(self) -> str:
        """The line behind `stuck` of a call that waits for ever."""
        front = f"thread {self.script} {self.number} {self.op}" if self.script else f"{self.actor} {self.op}"
        return f"{front} {self.text}".rstrip()

    @property
    def is_counted(self) -> bool:
        return self.op not in GETTERS

    @property
    def is_met(self) -> bool:
        return self.code in MET


@dataclass
class Report:
    """A whole report. `stuck` has the next call of each actor that waits for ever. `ends` has for each block, by its actor or
    `stuck`, the number of the line behind it; behind `stuck` stands the status."""

    scripts: list[list[Call]] = field(default_factory=list)
    compositor: list[Call] = field(default_factory=list)
    device: list[Call] = field(default_factory=list)
    stuck: list[Call] = field(default_factory=list)
    status: int = 0
    ends: dict[str, int] = field(default_factory=dict)

    @property
    def frames(self) -> list[Call]:
        return [it for it in self.compositor if it.what == "frame"]

    @property
    def events(self) -> list[Call]:
        return [it for it in self.device if it.what == "event"]

    @property
    def has_ended(self) -> bool:
        return any(it.what == "ended" for it in self.compositor)

    @property
    def actors(self) -> dict[str, list[Call]]:
        """Each actor's calls by its name, in the report's order."""
        scripts = {f"script {number}": calls for number, calls in enumerate(self.scripts, 1)}
        return {**scripts, COMPOSITOR: self.compositor, DEVICE: self.device}

    @property
    def calls(self) -> list[Call]:
        return [it for calls in self.actors.values() for it in calls]

    @property
    def lines(self) -> list[Call]:
        return [*self.calls, *self.stuck]

    def ordered(self) -> list[Call]:
        """The counted calls in the order of their places."""
        return sorted((it for it in self.calls if it.is_counted), key=lambda it: it.place or 0)


def text_of(data: bytes) -> str:
    """The text of a report's bytes, as far as they can be some."""
    if not data.startswith(FIRST_LINE + b"\n"):
        raise NoReport(kind="returns" if data.startswith(FIRST_LINE + b"\r") else "first" if data else "empty")
    try:
        text = data.decode("utf-8")
    except UnicodeDecodeError as e:
        raise NoReport(kind="utf8", line=data.count(10, 0, e.start) + 1) from None
    if not text.endswith("\n"):
        raise NoReport(kind="cut", line=text.count("\n") + 1)
    return text


class Reader:
    """Takes the lines of a report one after another. Whether they have places is known behind the first line of a call, unless all have to:
    then a line's form is looked at before its place."""

    def __init__(self, data: bytes, has_places: bool | None) -> None:
        self.lines = text_of(data).split("\n")[:-1]
        self.at = 1
        self.has_places, self.is_due = has_places, has_places is True

    def peek(self) -> str:
        return self.lines[self.at] if self.at < len(self.lines) else ""

    def take(self) -> str:
        if self.at == len(self.lines):
            raise NoReport(kind="no status", line=self.at)
        self.at += 1
        return self.lines[self.at - 1]

    def must(self, holds: object, kind: str, **given: Any) -> None:
        """What has to hold of the line that was taken last."""
        if not holds:
            raise NoReport(kind=kind, line=self.at, **given)

    def starts(self, line: str, due: str) -> None:
        """The next line begins a block."""
        self.must(self.take() == line, "due", due=due)

    def take_call(self) -> tuple[str, int | None]:
        """The next line without its place, and the place."""
        line = self.take()
        found = _PLACE.fullmatch(line)
        if self.has_places is None:
            self.has_places = bool(found)
        is_same = self.has_places == bool(found) or self.is_due
        self.must(is_same, "place", has="a" if found else "no", others="theirs" if self.has_places else "none")
        return (found[1], int(found[2])) if found else (line, None)

    def check_place(self, place: int | None) -> None:
        self.must(not self.is_due or place is not None, "place", has="no", others="theirs")

    def script(self, number: int) -> list[Call]:
        """The calls of a script."""
        calls: list[Call] = []
        who = f"script {number}"
        while self.peek()[:1].isdigit():
            line, place = self.take_call()
            found, due = _CALL.fullmatch(line), len(calls) + 1
            counted, op, code, text = found.groups("") if found else ("", "", "", "")
            self.must(op in OPS and code in CODES, "call", who=who)
            self.check_place(place)
            values = of_call(op, code, text)
            self.must(values is not None, "values", op=op, code=code)
            self.must(int(counted) == due, "number", who=who, number=counted, due=due)
            self.must(not calls or calls[-1].op != "leave", "leave", who=who)
            calls.append(Call("call", "script", op, number, due, code, text, values or {}, place, self.at))
        return calls

    def compositor(self) -> list[Call]:
        """The frames that were taken, and the end where it was told."""
        calls: list[Call] = []
        while self.peek().startswith(("frame ", "ended")):
            line, place = self.take_call()
            self.must(not calls or calls[-1].what != "ended", "ended")
            if line == "ended":
                self.check_place(place)
                calls.append(Call("ended", COMPOSITOR, "next_frame", place=place, line=self.at))
                continue
            counted, _, text = line[len("frame ") :].partition(" ")
            values, due = of_frame(text), len(calls) + 1
            self.must(values is not None, "frame")
            self.check_place(place)
            self.must(counted == str(due), "frame's number", number=counted, due=due)
            calls.append(Call("frame", COMPOSITOR, "next_frame", 0, due, "", text, values or {}, place, self.at))
        return calls

    def device(self) -> list[Call]:
        """The events that happened, and what ended the device."""
        calls: list[Call] = []
        while self.peek()[:1].isdigit() or self.peek().startswith(("fault", "garbled")):
            line, place = self.take_call()
            self.must(not calls or calls[-1].what == "event", "fault", what=calls[-1].what if calls else "")
            counted, _, words = line.partition(" ")
            op, _, text = words.partition(" ")
            what, number = "event", len(calls) + 1
            values = of_event(op, text) if words == f"{op} {text}".rstrip() else None
            if line == "fault":
                what, op, number, values = "fault", "", 0, {}
            elif counted == "garbled":
                is_line = re.fullmatch(r"[1-9]\d{0,8}", words)
                what, op, text, number, values = "garbled", "", words, 0, {"line": int(words)} if is_line else None
            self.must(values is not None, what)
            self.check_place(place)
            self.must(not number or counted == str(number), "event's number", number=counted, due=number)
            calls.append(Call(what, DEVICE, op, 0, number, "", text, values or {}, place, self.at))
        return calls

    def stuck(self) -> list[Call]:
        """The next call of each actor that waits for ever."""
        calls: list[Call] = []
        while not self.peek().startswith("status "):
            found = _STUCK.fullmatch(self.take())
            self.must(found, "stuck")
            script, number, op, mark = found.groups()  # type: ignore[union-attr]
            actor, op = ("script", op) if script else (DEVICE, "await") if mark else (COMPOSITOR, "next_frame")
            values = {"mark": int(mark)} if mark else {}
            calls.append(Call("stuck", actor, op, int(script or 0), int(number or 0), "", mark or "", values, None, self.at))
        self.must(calls, "nobody")
        return calls


def read_report(data: bytes) -> Report:
    """The report that these bytes are, whose lines agree on who has ended, and on places."""
    report = read_lines(data)
    check_ends(report)
    check_places(report)
    return report


def read_lines(data: bytes, has_places: bool | None = None) -> Report:
    """The report that these bytes have the form of, with places or without. Whether its lines agree isn't looked at."""
    reader, report = Reader(data, has_places), Report()
    for number in range(1, MOST_SCRIPTS + 1):
        if number > 1 and reader.peek() != f"thread {number}":
            break
        reader.starts(f"thread {number}", "`thread 1`")
        report.scripts.append(reader.script(number))
        report.ends[f"script {number}"] = reader.at + 1
    for actor, due in ((COMPOSITOR, "a call, the next thread or `compositor`"), (DEVICE, "a frame, `ended` or `device`")):
        reader.starts(actor, due)
        setattr(report, actor, getattr(reader, actor)())
        report.ends[actor] = reader.at + 1
    if reader.peek() == "stuck":
        reader.take()
        report.stuck = reader.stuck()
    report.ends["stuck"] = reader.at + 1
    status = re.fullmatch("status ([0-9])", reader.take())
    reader.must(status, "end due")
    report.status = int(status[1])  # type: ignore[index]
    if reader.at < len(reader.lines):
        reader.take()
        reader.must(False, "more")
    return report


def check_ends(report: Report) -> None:
    """Who hasn't ended is stuck, and the status is what the lines say."""
    actors, stuck = report.actors, [it.who for it in report.stuck]
    if len(set(stuck)) < len(stuck) or not set(stuck) <= set(actors):
        raise NoReport(kind="waiters")
    for who, calls in actors.items():
        has_ended = bool(calls) and (calls[-1].op == "leave" or calls[-1].what == "ended")
        if who != DEVICE and has_ended == (who in stuck):
            raise NoReport(kind="stuck too" if has_ended else "no end", who=who)
    for it in report.stuck:
        if it.script and it.number != len(actors[it.who]) + 1:
            raise NoReport(kind="next", who=it.who, number=it.number)
    last = report.device[-1].what if report.device else ""
    due = {"fault": 5, "garbled": 6}.get(last, 7 if report.stuck else 0)
    if report.status != due:
        raise NoReport(kind="status", status=report.status, due=due)


def check_places(report: Report) -> None:
    """Each count of calls from 1 on is the place of one call, and those of an actor ascend. Getters aren't counted."""
    counted = []
    for who, calls in report.actors.items():
        places = [it.place for it in calls if it.place is not None and it.is_counted]
        if places != sorted(set(places)):
            raise NoReport(kind="order", who=who)
        counted += places
    for due, place in enumerate(sorted(counted), 1):
        if place != due:
            raise NoReport(kind="places", place=min(due, place), what="there twice" if place < due else "missing")


# ---- the scenario


def op_at(scripts: Scripts, script: int, number: int) -> Op | None:
    """The op at a place of a script; behind the last one stands `leave`."""
    ops = scripts[script - 1]
    return ops[number - 1] if number <= len(ops) else LEAVE if number == len(ops) + 1 else None


def check_call(call: Call, op: Op | None) -> None:
    """A call is an op's of the scenario, as far as a report tells that."""
    named = {"who": call.who, "number": call.number, "op": call.op, "came": f"{call.code} {call.text}".rstrip()}
    if op is None or op.name != call.op:
        raise NoReport(kind="other op", due=op.name if op else "no op", **named)
    if call.what == "call" and op.name == "await" and bool(call.values) != (op.fields["mark"] > MOST_HANDLE_MARK):
        raise NoReport(kind="other mark", due=op.fields["mark"], **named)
    if "size" in call.values and call.code != "XR_ERROR_SIZE_INSUFFICIENT":
        if ("text" in call.values) != (op.fields["capacity"] > 0):
            raise NoReport(kind="other capacity", due=op.fields["capacity"], **named)


def join(report: Report, scripts: Scripts) -> None:
    """The report is this scenario's, as far as it tells that: its ops are, and their arguments where they show. Each call of
    a script gets its arguments."""
    if len(report.scripts) != len(scripts):
        raise NoReport(kind="other scripts", number=len(report.scripts), due=len(scripts))
    for it in report.lines:
        if it.script:
            op = op_at(scripts, it.script, it.number)
            check_call(it, op)
            it.arguments = op.arguments if op else {}
