"""hostile PROGRAM: tries PROGRAM with broken texts, under `serial` and under `threads`. Nothing is printed where a scenario is refused,
and else a report: that of the tools' machine, or on threads a legal one.

1. The texts of tables/hostile.txt, which are as long, as deep and as wrong as texts may just be, and one more.
2. Each front of the first worked row's scenario, and of a device's text beside one.
3. On threads each text of the cases that is refused or garbled; .ci/cases runs them under `serial`.
4. The machine says the same of all of these, but for the cases, which texts.py reads.

What differs is told, and the last line counts.
"""
from __future__ import annotations

import re
from collections.abc import Iterator
from concurrent.futures import ThreadPoolExecutor
from functools import partial
from pathlib import Path
from typing import NamedTuple

from helpers import CASES, EXAMPLES, Tally, main, rows_of, run
from runs import Ran, Text, content, due_of, text_of

from checking.hanging import cannot_hang
from threads import ran, wrong_with

FORMS = ("serial", "threads")
SIDE_BY_SIDE = 4
REFUSED, GARBLED = 4, 6
NO_OPS = b"xrsim report 1\nthread 1\n1 leave XR_SUCCESS\ncompositor\nended\ndevice\n"


class Broken(NamedTuple):
    """Texts, a name for them, and the line that is due on standard error, where it isn't only the machine's."""

    name: str
    scenario: bytes
    device: bytes | None = None
    line: str | None = None


def repeated(text: str) -> bytes:
    """The text of a table, in which <3*ab> stands for ababab."""
    found = 1
    while found:
        text, found = re.subn(r"<(\d+)\*([^<>]*)>", lambda it: int(it[1]) * it[2], text)
    return text.encode("latin-1")


def in_files(room: Path, name: str, it: Broken) -> list[str]:
    """The words that name these texts, which are written."""
    names = [f"{name}.json", *([f"{name}.device"] if it.device is not None else [])]
    for file, text in zip(names, (it.scenario, it.device)):
        (room / file).write_bytes(text or b"")
    return [names[0], *(["--device", names[1]] if it.device is not None else [])]


def wrong_on_threads(room: Path, name: str, words: list[str], due: Ran, made: Ran) -> str:
    """What is wrong of a run on threads, where `due` comes under `serial`."""
    if due.status == REFUSED:
        return "" if made == due else f"it ends with {made.status} and {made.line!r}, and {due.line!r} is due"
    return wrong_with(text_of(name, room, words), made)[0]


def wrong_in(program: str, room: Path, numbered: tuple[int, Broken]) -> list[str]:
    """What is wrong of both runs of some texts."""
    number, it = numbered
    words, due = in_files(room, f"hostile{number}", it), due_of(it.scenario, it.device)
    text, found = Text(it.name, [], None, room, words), []
    if it.line is not None and due.line != it.line:
        found.append(f"the machine says {due.line!r}, and {it.line!r} is due")
    serial = ran(program, "serial", text, "--places")
    if serial != due:
        found.append(f"serial: {serial.status}, {serial.line!r}, {serial.output[-300:]!r}; the machine: {due.status}, {due.line!r}")
    if due.status == REFUSED or cannot_hang(text_of(it.name, room, words).scripts, b"\nstuck\n" in due.output):
        why = wrong_on_threads(room, it.name, words, due, ran(program, "threads", text, "--places"))
        found += [f"threads: {why}"] if why else []
    for file in words[::2]:
        (room / file).unlink()
    return [f"{it.name}: {why}" for why in found]


def tried(tally: Tally, program: str, room: Path, texts: list[Broken]) -> None:
    with ThreadPoolExecutor(SIDE_BY_SIDE) as pool:
        for wrong in pool.map(partial(wrong_in, program, room), enumerate(texts)):
            tally.check(not wrong, "; ".join(wrong))


# ---- texts


def table(tally: Tally, program: str, room: Path) -> None:
    """The texts of the table. Beside a script of no ops each device has just one report, but for its places."""
    texts = []
    for said, scenario, *device in rows_of("hostile"):
        line = f"{said}\n" if said else ""
        texts.append(Broken(f"{scenario[:60]} beside {device[:1]}", repeated(scenario), *map(repeated, device[:1] or []), line=line))
    tried(tally, program, room, texts)
    for it in (it for it in texts if it.device is not None and it.scenario.count(b"[") == 2):
        words, garbled = in_files(room, "bare", it), re.search(r"line (\d+) garbled", it.line or "")
        events = [b"1 clock 1"] if it.device == b"clock 1" else []
        last = [b"garbled %s" % garbled[1].encode(), b"status 6"] if garbled else [b"status 0"]
        due = NO_OPS + b"".join(b"%s\n" % line for line in [*events, *last])
        for form in FORMS:
            tally.same(run([program, form, *words], cwd=room).stdout, due, f"{form} {it.name}")


def fronts(tally: Tally, program: str, room: Path) -> None:
    """Each front of a scenario is no JSON, and each front of a device's text is one of the machine's."""
    scenario, beside = (content(EXAMPLES / name) for name in ("row1.json", "life.json"))
    device, whole = content(EXAMPLES / "life.device"), scenario.rstrip()
    texts = [Broken(f"row1.json to {at}", whole[:at], None, "xrsim: scenario refused: json\n") for at in range(len(whole))]
    texts += [Broken(f"life.device to {at}", beside, device[:at]) for at in range(len(device))]
    tried(tally, program, room, [*texts, Broken("row1.json", whole, None, "")])


# ---- cases


def refused_rows() -> Iterator[tuple[str, list[str], Broken]]:
    """The rows of the cases that are refused or garbled, with their words."""
    for file in sorted(CASES.glob("*/rows")):
        folder = file.parent
        words = content(folder / "args").decode().splitlines()
        for row in content(file).split(b"\n") if words[:1] == ["serial"] else []:
            said, _, text = row.partition(b"\t")
            if said.startswith(b"xrsim: "):
                scenario, device = (content(folder / it).replace(b"%", text) for it in ("scenario.json", "device.txt"))
                yield f"{folder.name}: {text[:100]!r}", words, Broken("", scenario, device, f"{said.decode()}\n")


def cases(tally: Tally, program: str, room: Path) -> None:
    """Each text of the cases that is refused or garbled says the same on threads."""

    def wrong(numbered: tuple[int, tuple[str, list[str], Broken]]) -> str:
        number, (name, words, it) = numbered
        its = in_files(room, f"case{number}", it)
        made = ran(program, "threads", Text(name, [], None, room, its if "--device" in words else its[:1]), "--places")
        status = GARBLED if " garbled" in (it.line or "") else REFUSED
        why = wrong_on_threads(room, name, its, Ran(status, b"", it.line or ""), made)
        for file in its[::2]:
            (room / file).unlink()
        return why or ("" if made.line == it.line else f"{made.line!r}, and {it.line!r} is due")

    rows = list(refused_rows())
    with ThreadPoolExecutor(SIDE_BY_SIDE) as pool:
        for (name, _, _), why in zip(rows, pool.map(wrong, enumerate(rows))):
            tally.check(not why, f"threads {name}: {why}")
    for file in sorted(CASES.glob("*/args")):
        words, status = content(file).decode().splitlines(), content(file.parent / "status")
        if words[:1] == ["serial"] and status in (b"1\n", b"2\n", b"3\n", b"4\n"):
            it = run([program, "threads", *words[1:]], cwd=CASES)
            found = b"%d\n" % it.returncode, it.stdout, it.stderr
            tally.same(found, (status, b"", content(file.parent / "stderr")), f"threads {file.parent.name}")


if __name__ == "__main__":
    main("hostile", table, fronts, cases)
