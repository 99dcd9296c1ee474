"""suites PROGRAM: tries tools/dump, tools/coverage, tools/reduce and the module that writes scenarios. PROGRAM is what tools/reduce compares
with. What differs is told, and the last line counts.
"""
from __future__ import annotations

import json
import sys
from pathlib import Path

from helpers import EXAMPLES, Tally, main, rows_of, run, sessions
from runs import made_text

import by_chance
from calls import calls
from machine.history import History
from reducing.parts import Parts, cut, reduced
from scenarios.reading import NoScenario, scenario_in, scripts_in
from scenarios.writing import Device, Scenario, scenario_text

BY_CHANCE = 6


def commands(tally: Tally, program: str, room: Path) -> None:
    """What the tools print."""
    sessions(tally, "suites", room)


def codes(parts: Parts, many: int) -> set[tuple[str, str]]:
    history = History(parts.scripts(many), parts.lines)
    history.in_rounds()
    return {(it.name, it.answer.code) for it in history.entries if isinstance(it.actor, int)}


def least(tally: Tally, program: str, room: Path) -> None:
    """Of a scenario by chance what is left shows the code still, is a scenario, and has no op and no line that could go."""
    for number in range(BY_CHANCE):
        text = made_text(room, "least", *by_chance.scenario(number))
        many, whole = len(text.scripts), Parts([(at, op) for at, ops in enumerate(text.scripts) for op in ops], text.device.all)
        wanted = sorted(it for it in codes(whole, many) if it[1].startswith("XR_ERROR_"))[:1]
        if not wanted:
            continue
        left = reduced(whole, lambda parts: wanted[0] in codes(parts, many))
        tally.check(wanted[0] in codes(left, many), f"{number}: what is left doesn't show {wanted}")
        found = scenario_in(scenario_text([[op.fields for op in ops] for ops in left.scripts(many)]).encode())
        tally.same(found.refusal, None, f"{number}: what is left is no scenario")
        smaller = [cut(left, at, 1, is_line) for is_line in (False, True) for at in range(len(left.lines if is_line else left.ops))]
        tally.check(not any(wanted[0] in codes(it, many) for it in smaller), f"{number}: {wanted} is shown by less")


def again(tally: Tally, program: str, room: Path) -> None:
    """Each example is written by the calls of the module as it stands, and so is its device."""
    named = {it.name: it.code for it in calls().ops}
    for file in sorted(EXAMPLES.glob("*.json")):
        scenario, device = Scenario(), Device()
        for ops in scripts_in(file.read_bytes()):
            script = scenario.script()
            for op in ops:
                fields = {key: it for key, it in op.arguments.items() if key != "as"}
                script.make(next(it for it in calls().ops if it.name == op.name), (), fields, op.fields.get("as", ""))
                if "as" not in op.fields:
                    script.ops[-1].pop("as", None)
                tally.check(callable(getattr(script, named[op.name])), f"{op.name} is no method")
        tally.same(json.loads(scenario.text()), json.loads(file.read_text(encoding="utf-8")), file.name)
        lines = file.with_suffix(".device")
        for line in lines.read_text(encoding="utf-8").splitlines() if lines.exists() and file.stem != "garbled" else []:
            device.tell(line)
        tally.same(device.text(), lines.read_text(encoding="utf-8") if device.lines else "", lines.name)


def client(tally: Tally, program: str, room: Path) -> None:
    """The example of a usual client is what its calls write."""
    run([sys.executable, EXAMPLES / "client.py", room])
    for name in ("client.json", "client.device"):
        tally.same((room / name).read_bytes(), (EXAMPLES / name).read_bytes(), f"examples/{name}")


def words(tally: Tally, program: str, room: Path) -> None:
    """Calls and lines that are written, and those that aren't any."""
    for code, due in rows_of("written"):
        scenario, device = Scenario(), Device()
        app = scenario.script()
        try:
            exec(code, {"app": app, "device": device})
            said = scenario.text().replace("\n", "") + device.text()
        except (TypeError, AttributeError, NoScenario, ValueError) as e:
            said = f"{type(e).__name__}: {e}"
        tally.check(said.startswith(due), f"{code!r} writes {said!r}")


if __name__ == "__main__":
    main("suites", commands, least, again, client, words)
