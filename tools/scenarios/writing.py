"""Writes scenarios and devices' texts from Python: a call is a method, and what it gives is a name for later calls.

    scenario, device = Scenario(), Device()
    app = scenario.script()
    instance = app.create_instance(1, 0)
    session = app.create_session(instance, app.get_system(instance, "head"))
    app.mark(1)
    device.await_mark(1).wish("ready").mark(2)
    app.await_mark(2)
    app.begin_session(session, "stereo")
    scenario.write("first.json")
    device.write("first.device")

The methods are those of tools/calls.table, with the fields of an op in order or by their names; `as_` names what a call gives where its own
name won't do, and what an await gives. What the program would refuse is refused as it is written.
"""
from __future__ import annotations

import json
from collections.abc import Callable
from typing import Any

from calls import Call, calls
from files import put
from scenarios.devices import FORMS, read_device
from scenarios.reading import NoScenario, scenario_in

OPS = {it.code: it for it in calls().ops}
# a word of Python, which no method has as its name
AWAIT = next(it for it in calls().ops if it.name == "await")


def scenario_text(scripts: list[list[dict[str, Any]]]) -> str:
    """The text of a scenario, which has a line for each op."""
    lines = [",\n".join(f"  {json.dumps(op, ensure_ascii=False, separators=(',', ':'))}" for op in ops) for ops in scripts]
    return '{"version":1,"scripts":[%s]}\n' % ", ".join(f"[\n{it}]" if it else "[]" for it in lines)


class Script:
    """The calls of one application."""

    def __init__(self) -> None:
        self.ops: list[dict[str, Any]] = []
        self.given: dict[str, int] = {}

    def __getattr__(self, name: str) -> Callable[..., str]:
        if name not in OPS:
            raise AttributeError(f"there is no call {name}")
        return lambda *values, as_="", **fields: self.make(OPS[name], values, fields, as_)

    def make(self, call: Call, values: tuple[Any, ...], fields: dict[str, Any], name: str) -> str:
        """A call, and the name of what it gives, if it gives something."""
        keys = [it.key for it in call.fields]
        more = [it for it in fields if it not in keys[len(values) :]]
        missing = [it.key for it in call.fields[len(values) :] if it.key not in fields and not it.is_optional]
        if len(values) > len(keys) or more or missing:
            raise TypeError(f"{call.code} has the fields {', '.join(keys)}")
        op = {"op": call.name, **dict(zip(keys, values)), **{it: fields[it] for it in keys if it in fields}}
        if name or call.gives not in ("", "marked"):
            op["as"] = name or self.next_name(call)
        self.ops.append(op)
        return op.get("as", "")

    def next_name(self, call: Call) -> str:
        """A name that says what a call gives: the first of its sort has no number."""
        what = {"string_to_path": "path", "wait_frame": "time"}.get(call.name, call.name.partition("_")[2] or call.name)
        self.given[what] = self.given.get(what, 0) + 1
        return what if self.given[what] == 1 else f"{what}{self.given[what]}"


class Scenario:
    """The scripts of a scenario."""

    def __init__(self) -> None:
        self.scripts: list[Script] = []

    def script(self) -> Script:
        """One script more."""
        self.scripts.append(Script())
        return self.scripts[-1]

    def text(self) -> str:
        """The scenario, which is one that the program runs. NoScenario says where it isn't."""
        text = scenario_text([it.ops for it in self.scripts])
        found = scenario_in(text.encode("utf-8"))
        if found.refusal is not None:
            raise NoScenario("; ".join([found.refusal, *(it.words for it in found.findings)]))
        return text

    def write(self, name: str) -> None:
        put(name, self.text().encode("utf-8"))


class Device:
    """The lines of a device's text. A method of the name of a line's first word tells an event, by the words behind it."""

    def __init__(self) -> None:
        self.lines: list[str] = []

    def __getattr__(self, name: str) -> Callable[..., Device]:
        first = AWAIT.name if name == AWAIT.code else name
        if first not in FORMS:
            raise AttributeError(f"there is no line {name}")
        return lambda *words: self.tell(" ".join(map(str, (first, *words))))

    def tell(self, line: str) -> Device:
        """A line more, which may be a comment."""
        self.lines.append(line)
        return self

    def text(self) -> str:
        """The text, which is one that the program reads whole. ValueError says where it isn't."""
        text = "".join(f"{it}\n" for it in self.lines)
        found = read_device(text.encode("utf-8"))
        if found.findings:
            raise ValueError(f"line {found.findings[0].line}: {found.findings[0].words}")
        return text

    def write(self, name: str) -> None:
        put(name, self.text().encode("utf-8"))
