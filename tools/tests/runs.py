"""Runs for the tests: the texts of cases and examples, those made by chance, and what the machine makes of them in any order."""
from __future__ import annotations

import random
from pathlib import Path
from typing import NamedTuple

from helpers import CASES, EXAMPLES, Ops, scenario_of, with_device

import by_chance
from checking import orders
from checking.prediction import answer_of
from judging.replay import NotLegal, has_places, judge
from machine import reporting
from reports.reading import FIRST_LINE, NoReport, read_lines
from scenarios.devices import FAILED_DEVICE, NO_DEVICE, DeviceText, device_in, read_device
from scenarios.reading import Scripts, read_scenario, scripts_in
from scenarios.schema import Schema

Lines = list[str]
SCHEMA = Schema.of_file()
# the statuses under which a report is written
REPORTED = (0, *reporting.STATUSES.values(), reporting.STUCK)


class Ran(NamedTuple):
    """How a run ended: its status, which a run that hangs hasn't, what it printed, and its line on standard error."""

    status: int | None
    output: bytes
    line: str


class Text(NamedTuple):
    """A scenario with its device, the folder that it is run in, and the words of the run."""

    name: str
    scripts: Scripts
    device: DeviceText
    folder: Path
    words: list[str]


# ---- texts


def content(path: Path) -> bytes:
    return path.read_bytes() if path.is_file() else b""


def rows_in(folder: Path) -> Iterator[tuple[str, bytes, bytes, bytes]]:
    """The rows of a table: what is said, the text, and the scenario and the device that it makes."""
    scenario, device = content(folder / "scenario.json"), content(folder / "device.txt")
    for row in content(folder / "rows").split(b"\n"):
        if row and not row.startswith(b"#"):
            said, _, text = row.partition(b"\t")
            yield said.decode(), text, scenario.replace(b"%", text), device.replace(b"%", text)


def text_of(name: str, folder: Path, words: list[str]) -> Text:
    """The texts that a run's words name."""
    words = [it for it in words if it != "--places"]
    scenario, device, left = "", NO_DEVICE, [*words]
    while left:
        word = left.pop(0)
        if word.startswith("--device"):
            file = folder / (word[len("--device=") :] or left.pop(0))
            device = FAILED_DEVICE if file.is_dir() else device_in(file.read_bytes())
        else:
            scenario = left.pop(0) if word == "--" else word
    return Text(name, scripts_in((folder / scenario).read_bytes()), device, folder, words)


def made_text(room: Path, name: str, scripts: str | list[Ops], device: list[str] | None) -> Text:
    """A text whose files are written."""
    (room / f"{name}.json").write_text(scenario_of(scripts), encoding="utf-8")
    if device is not None:
        (room / f"{name}.device").write_text("".join(f"{it}\n" for it in device), encoding="utf-8")
    return text_of(name, room, [f"{name}.json", *(["--device", f"{name}.device"] if device is not None else [])])


def stored_runs() -> list[tuple[Text, bool, bytes]]:
    """The cases and the examples whose runs make a report, whether that has places, and the report that is stored."""
    found = []
    for file in sorted(CASES.glob("*/stdout")):
        words, stored = content(file.parent / "args").decode().splitlines(), content(file)
        if words[:1] == ["serial"] and stored.startswith(FIRST_LINE + b"\n"):
            found.append((text_of(file.parent.name, CASES, words[1:]), "--places" in words, stored))
    for file in sorted(EXAMPLES.glob("*.json")):
        found.append((text_of(f"examples/{file.name}", EXAMPLES, with_device(file)), False, content(file.with_suffix(".report"))))
    return found


def marks_by_chance(chance: random.Random, most: int) -> tuple[list[Ops], list[str]]:
    """Up to so many scripts, and a device, that set marks and wait for some."""
    highest = chance.randint(2, 6)

    def some(longest: int) -> list[tuple[str, int]]:
        return [(chance.choice(("mark", "await")), chance.randint(1, highest)) for _ in range(chance.randint(0, longest))]

    scripts: list[Ops] = [[{"op": op, "mark": mark} for op, mark in some(6)] for _ in range(chance.randint(1, most))]
    return scripts, [f"{op} {mark}" for op, mark in some(5)]


def spoilt_by_chance(number: int) -> tuple[list[Ops], list[str] | None]:
    """The scenario by chance of this number without a few of its ops and lines, so that somebody mostly waits for ever."""
    chance, (scripts, device) = random.Random(number), by_chance.scenario(number)
    kept = [[op for op in ops if "as" in op or chance.random() < 0.96] for ops in scripts]
    more = ("clock 1", "clock 90000000", "wish ready", "wish rest", "wish focused", "mark 40", "await 41")
    lines = [line for line in device or [] if chance.random() < 0.9]
    for _ in range(chance.randint(0, 9)):
        lines.insert(chance.randint(0, len(lines)), chance.choice(more))
    return kept, None if device is None else lines


# ---- runs of the machine


def in_rounds(text: Text) -> Lines:
    """The report of the round robin."""
    return reporting.in_rounds(text.scripts, text.device.all)


def due_of(scenario: bytes, device: bytes | None) -> Ran:
    """What `serial --places` answers to these bytes, by the tools' machine."""
    found, told = read_scenario(scenario, SCHEMA), device or b""
    answer = answer_of(found, read_device(told))
    report = reporting.in_rounds(found.scripts, device_in(told).all) if answer.status in REPORTED else []
    return Ran(answer.status, joined(report), f"{answer.line}\n" if answer.line else "")


def in_any_order(text: Text, chance: random.Random) -> Lines:
    """The report of a run in which chance says whose turn is next."""
    return orders.in_any_order(text.scripts, text.device.all, chance)[0].report()


def lines_of(report: bytes) -> Lines:
    return report.decode().split("\n")[:-1]


def joined(lines: Lines) -> bytes:
    return "".join(f"{it}\n" for it in lines).encode()


def judged(text: Text, printed: bytes) -> str:
    """Why a report is refused; nothing where it is legal."""
    try:
        report = read_lines(printed)
        if not has_places(report):
            return "it has no places"
        judge(text.scripts, text.device, report)
    except (NoReport, NotLegal) as e:
        return str(e)
    return ""
