"""why PROGRAM: tries tools/why. It runs no program. Of each refusal of the cases, of the examples and of scenarios by chance the reason is one
line, its code is one of the table of answers, and the row that is told has it. A table has the words. What differs is told, and the last line
counts.
"""
from __future__ import annotations

import re
from pathlib import Path

from helpers import Tally, main, rows_of, scenario_of, tool
from runs import Text, made_text, stored_runs

import by_chance
from explaining.answers import answers
from explaining.reasons import Reasons
from explaining.rules import ORDER, behind, rule_of

BY_CHANCE = 300
# so many pairs of a call and a code of the table of answers come nowhere, at most
MOST_UNMET = 5


def look(tally: Tally, text: Text, met: set[tuple[str, str]]) -> None:
    """What is told of each refusal of a text."""
    run = Reasons(text.scripts, text.device.all)
    run.in_rounds()
    for entry, why in run.found:
        code = entry.answer.code
        met.add((entry.name, code))
        rule = rule_of(entry.name, code, entry.answer.items)
        is_order = any(it.text == rule.text for it in behind(ORDER)[:9]) and f"`{entry.name}`" in rule.text
        words = f"{text.name}: {run.shown(entry)} {code}: {why!r} by {rule.told()!r}"
        tally.check(code in answers()[entry.name], f"{words} is none of the table of answers")
        tally.check(is_order if code == "XR_ERROR_CALL_ORDER_INVALID" else f"`{code}`" in rule.text, f"{words}: the row hasn't the code")
        tally.check(why and "\n" not in why and "None" not in why, f"{words} is no reason")
        named = re.match(r"[a-z_]+", rule.text.removeprefix("`"))
        tally.check(not named or named[0] in (entry.name, "create_action_set") or f"`{entry.name}`" in rule.text, f"{words} is another call's row")


def refusals(tally: Tally, program: str, room: Path) -> None:
    """The refusals of cases, examples and scenarios by chance."""
    met: set[tuple[str, str]] = set()
    for text in [*(it for it, _, _ in stored_runs()), *(made_text(room, "why", *by_chance.scenario(it)) for it in range(BY_CHANCE))]:
        look(tally, text, met)
    due = {(op, code) for op, codes in answers().items() for code in codes} - {(op, "XR_SUCCESS") for op in answers()}
    unmet = sorted(it for it in due - met if it[1] != "XR_ERROR_OUT_OF_MEMORY")
    tally.check(len(unmet) <= MOST_UNMET, f"no case has {unmet}")


def words(tally: Tally, program: str, room: Path) -> None:
    """What is told of some scenarios, and the row."""
    for scripts, device, given, *said in rows_of("why", 4):
        (room / "why.json").write_text(scenario_of(scripts), encoding="utf-8")
        (room / "why.device").write_text(device.strip("-"), encoding="utf-8")
        ran = tool("why", ["why.json", "--device", "why.device", *(given.split() if given != "-" else [])], cwd=room)
        told = re.sub(r"^  docs/MACHINE.md:\d+: ", "  ", ran.stdout.decode(), flags=re.M)
        tally.check(ran.returncode == 0 and all(it in told for it in said), f"{scripts!r}: {told!r} {ran.stderr!r} hasn't {said}")


if __name__ == "__main__":
    main("why", refusals, words)
