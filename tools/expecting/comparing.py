"""Compares what is expected with what came, and tells it: in plain lines, in TAP, and as a JUnit file."""
from __future__ import annotations

import xml.etree.ElementTree as xml
from typing import NamedTuple

from expecting.expectations import Wanted
from expecting.running import Run, why_illegal
from expecting.words import differing
from reports.reading import DEVICE, Call, Report, op_at
from shown import listed, visible

NOTHING_RAN = "nothing, since no call was made: the scenario is refused"


class Looked(NamedTuple):
    """One thing that was looked at: its name, the place of the line that expects it, or 0 where none does, whether it holds, what came, what was
    expected, and an op's own JSON."""

    name: str
    line: int
    column: int
    holds: bool
    came: str
    expected: str
    op: str = ""

    def told(self, file: str) -> str:
        """What came otherwise, on one line that begins with its place."""
        place = f"{file}:{self.line}:{self.column}" if self.line else file
        op = f": {self.op}" if self.op else ""
        return f"{place}: {self.name}{op}: expected {self.expected}, came {self.came}"


def looked_at(name: str, wanted: Wanted, expected: str, came: str | None, missing: str, op: str = "") -> Looked:
    """Compares the words of a line with what came, which is nothing where this is missing."""
    if came is None:
        return Looked(name, wanted.line, wanted.column, False, missing, expected, op)
    word = differing(wanted.words, came) if wanted.words else None
    return Looked(name, wanted.line, word.column if word else wanted.column, word is None, came, expected, op)


def words_of_call(made: Call) -> str:
    return f"{made.code} {made.text}".rstrip()


def look_at_call(wanted: Wanted, script: int, number: int, run: Run) -> Looked:
    """Compares one call. Where only its code is expected, only that is compared."""
    assert run.report and run.scripts
    calls, op, name = run.report.scripts[script - 1], op_at(run.scripts, script, number), f"script {script} op {number}"
    if number > len(calls):
        waits = next(it for it in run.report.stuck if it.script == script)
        stuck = f"nothing: script {script} waits for ever at its op {waits.number}, {waits.op}"
        return looked_at(name, wanted, wanted.text, None, stuck, op.text)
    made = calls[number - 1]
    looked = looked_at(name, wanted, wanted.text, made.code if len(wanted.words) == 1 else words_of_call(made), "", op.text)
    return looked._replace(came=words_of_call(made))


def look_at_numbered(wanted: Wanted, report: Report) -> Looked:
    """Compares a frame or an event, or says why there is none."""
    is_frame, name = wanted.what == "frame", f"{wanted.what} {wanted.number}"
    made = report.frames if is_frame else report.events
    waits = [it for it in report.stuck if it.actor == DEVICE and not is_frame]
    happened = f"frame{'s were' if len(made) != 1 else ' was'} taken" if is_frame else f"event{'s' * (len(made) != 1)} happened"
    missing = f"nothing: {len(made)} {happened}" + (f", and the device waits for ever for mark {waits[0].text}" if waits else "")
    came = None
    if wanted.number <= len(made):
        it = made[wanted.number - 1]
        came = it.text if is_frame else f"{it.op} {it.text}".rstrip()
    return looked_at(name, wanted, wanted.text or f"that there is {'a' if is_frame else 'an'} {name}", came, missing)


def ended_with(run: Run) -> str:
    """The status and the program's line, and who waits for ever."""
    waits = listed(it.waits for it in run.report.stuck) if run.report else ""
    return run.words + (f" ({waits})" if waits else "")


def look_at_status(wanted: Wanted | None, run: Run) -> Looked:
    """Compares the status, which is 0 where no line says another, and the program's line where one is expected."""
    if wanted is None:
        came = "0" if run.status == 0 else f"{ended_with(run)}, which no line expects"
        return Looked("status", 0, 0, run.status == 0, came, "0")
    is_same = run.status == wanted.number
    word = differing(wanted.words, run.words.partition(" ")[2]) if is_same and wanted.words else None
    column = (word or wanted.front[-1]).column
    return Looked("status", wanted.line, column, is_same and word is None, ended_with(run), f"{wanted.number} {wanted.text}".rstrip())


def look_at_rest(wanted: Wanted, report: Report) -> Looked:
    """Compares what isn't a script's: a frame or an event, how many there were, how the compositor and the device ended, and who is stuck."""
    what, column = wanted.what, wanted.front[-1].column
    if what in ("frame", "event"):
        return look_at_numbered(wanted, report)
    if what in ("frames", "events"):
        name, came, expected = what, str(len(report.frames if what == "frames" else report.events)), str(wanted.number)
    elif what == "ended":
        name, expected = "compositor", "ended"
        came = "ended" if report.has_ended else "no end: the compositor waits for ever for a frame"
    elif what == "stuck":
        found = [it.waits for it in report.stuck]
        return Looked("stuck", wanted.line, wanted.words[0].column, wanted.text in found, listed(found) or "nobody", wanted.text)
    else:
        last = report.device[-1] if report.device else None
        name, expected = "device", f"{what} {wanted.number or ''}".rstrip()
        came = "neither fault nor garbled" if last is None or last.what == "event" else f"{last.what} {last.text}".rstrip()
    return Looked(name, wanted.line, column, came == expected, came, expected)


def name_of(wanted: Wanted) -> str:
    """What a line is about, where no call was made."""
    if wanted.what != "call":
        return f"{wanted.what} {wanted.number or ''}".rstrip()
    return f"script {wanted.script} op {wanted.number}" + (f"-{wanted.last or ''}" if wanted.is_range else "")


def compare(found: list[Wanted], calls: dict[tuple[int, int], Wanted], run: Run) -> list[Looked]:
    """All that is looked at, in the order of the file, and at last the status."""
    status = next((it for it in found if it.what == "status"), None)
    if run.report is None:
        looked = [looked_at(name_of(it), it, it.text or "this", None, NOTHING_RAN) for it in found if it.what != "status"]
    else:
        looked = [look_at_call(wanted, *place, run) for place, wanted in calls.items()]
        looked += [look_at_rest(it, run.report) for it in found if it.what not in ("status", "call")]
    return sorted(looked, key=lambda it: it.line) + [look_at_status(status, run)]


def look_at_threads(runs: int, name: str, run: Run, device: str | None) -> list[Looked]:
    """Whether so many runs on threads end and are legal. Where the round robin is stuck nobody knows that one ends, and none is tried."""
    if run.report is None or run.scripts is None or run.report.stuck:
        return []
    whys = (why_illegal(name, run.scripts, device) for _ in range(runs))
    return [Looked(f"threads run {it}", 0, 0, not why, why or "legal", "a legal report") for it, why in enumerate(whys, 1)]


# ---- how it is told


class Told(NamedTuple):
    """What a run came to: the scenario, the file of expectations, what was looked at, how the run ended, a hint where there
    is one, and why nothing was compared where that is so."""

    scenario: str
    file: str
    looked: list[Looked]
    status: str = ""
    hint: str = ""
    refusal: str = ""

    @property
    def wrong(self) -> list[Looked]:
        return [it for it in self.looked if not it.holds]

    @property
    def tests(self) -> int:
        """How many things were looked at, of which a refusal is one."""
        return len(self.looked) or 1

    @property
    def summary(self) -> str:
        """A line that counts."""
        held = len(self.looked) - len(self.wrong)
        how = f"the run ended with status {self.status}" + (f"; {self.hint}" if self.hint else "")
        return f"{self.scenario}: {held} of {len(self.looked)} expectations hold; {how}"


def point(number: int, name: str, told: Told, it: Looked) -> list[str]:
    """A point of the Test Anything Protocol, with what came otherwise."""
    if it.holds:
        return [f"ok {number} - {name}"]
    parts = {"at": f"{told.file}:{it.line}:{it.column}", "op": it.op, "expected": it.expected, "came": it.came}
    texts = {name: visible(text).replace("'", "''") for name, text in parts.items() if text}
    return [f"not ok {number} - {name}", "  ---", *(f"  {name}: '{text}'" for name, text in texts.items()), "  ..."]


def tap(suite: list[Told], is_folder: bool) -> list[str]:
    """The Test Anything Protocol, version 13: a point for each thing that was looked at. Where nothing was compared, one scenario bails out, and one
    of a folder is a point."""
    if not is_folder and suite[0].refusal:
        return ["TAP version 13", f"Bail out! {suite[0].refusal}"]
    lines, number = ["TAP version 13", f"1..{sum(it.tests for it in suite)}"], 0
    for told in suite:
        for number, it in enumerate(told.looked, number + 1):
            lines += point(number, f"{told.scenario}: {it.name}" if is_folder else it.name, told, it)
        if told.refusal:
            number += 1
            lines.append(f"not ok {number} - {told.scenario}")
        lines.append(f"# {told.refusal or told.summary}")
    return lines


def junit(suite: list[Told]) -> bytes:
    """A JUnit file of a suite for each scenario, with a case for each thing that was looked at, or one error where nothing was compared."""
    def counts(found: list[Told]) -> dict[str, str]:
        numbers = [(it.tests, len(it.wrong), bool(it.refusal)) for it in found]
        return {name: str(sum(it)) for name, it in zip(("tests", "failures", "errors"), zip(*numbers))}

    top = xml.Element("testsuites", counts(suite))
    for told in suite:
        element = xml.SubElement(top, "testsuite", {"name": told.scenario, **counts([told])})
        for it in told.looked:
            case = xml.SubElement(element, "testcase", {"classname": told.scenario, "name": it.name})
            if not it.holds:
                message = visible(f"expected {it.expected}, came {it.came}")
                xml.SubElement(case, "failure", {"type": "mismatch", "message": message}).text = visible(it.told(told.file))
        if told.refusal:
            case = xml.SubElement(element, "testcase", {"classname": told.scenario, "name": "run"})
            xml.SubElement(case, "error", {"type": "refused", "message": visible(told.refusal)})
    return xml.tostring(top, encoding="utf-8", xml_declaration=True) + b"\n"
