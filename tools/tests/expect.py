"""expect PROGRAM: tries tools/expect over the examples, over expectations that are wrong by one word, and over lines that have no
form. PROGRAM makes the reports. The first failures are told, and the last line counts.
"""
from __future__ import annotations

import os
import random
import re
import signal
from pathlib import Path

from helpers import EXAMPLES, ROOT, Tally, fake_program, main, places_of, rows_of, scenario_of, seconds_of, sessions, spoilt_text, tool, with_device

from expecting.comparing import Looked, compare
from expecting.expectations import calls_wanted, read_expectations
from expecting.running import PROGRAM, Run, run_scenario
from expecting.running import ran as ran_for
from expecting.words import words_of
from expecting.writing import written
from reports.values import CODES

MUTATIONS = 1500
MOST_LINES = 100
# so many lines take 2 s; a busy machine has three times as much
MANY, LONGEST = 20_000, 6
LIFE = with_device(EXAMPLES / "life.json")


def run_of(file: Path) -> Run:
    name, *device = with_device(file)
    return run_scenario(name, file.read_bytes(), device[-1] if device else None)


def compared(run: Run, text: str) -> tuple[list[Looked], list]:
    """What is looked at by these expectations, and what is wrong of them."""
    found, wrong = read_expectations(text.encode())
    if wrong:
        return [], wrong
    calls, wrong = calls_wanted(found, run.scripts or [])
    return ([], wrong) if wrong else (compare(found, calls, run), [])


# ---- expectations


def spoilt_word(word: str) -> str:
    """Another word of the same kind."""
    if word in CODES:
        return "XR_ERROR_LIMIT_REACHED" if word != "XR_ERROR_LIMIT_REACHED" else "XR_SUCCESS"
    return str(int(word) + 1) if word.isdigit() else f"{word}x"


def front_of(words: list[str]) -> int:
    """How many words of a written line say what it is about."""
    if words[0].isdigit():
        return 3
    return 1 if words[0] in ("frames", "events", "status", "stuck") or words[:2] == ["device", "garbled"] else 2


def spoil(tally: Tally, name: str, run: Run, text: str) -> None:
    """Each word in another's place is told, by the place of that word where it says what is to come: of each line, or of some of a long file."""
    lines = text.split("\n")
    for number, line in [*enumerate(lines, 1)][:: 1 + len(lines) // MOST_LINES]:
        words = words_of(line)
        for at, word in enumerate(words):
            if (word.text, at) == ("ended", 0):
                continue
            other = line[: word.column - 1] + spoilt_word(word.text) + line[word.column - 1 + len(word.text) :]
            looked, wrong = compared(run, "\n".join([*lines[: number - 1], other, *lines[number:]]))
            places = [(it.line, it.column) for it in looked if not it.holds] or [(it.line, it.column) for it in wrong]
            is_told = bool(places)
            if looked and at >= front_of([it.text for it in words]):
                is_told = set(places) == {(number, word.column)} or (words[0].text == "stuck" and len(places) == 1)
            tally.check(is_told, f"{name}: {other!r} is told at {places} and not at {number}, {word.column}")


def examples(tally: Tally, program: str, room: Path) -> None:
    """Each example answers what is expected of it, what is written of it holds, and no word of that may be another."""
    for file in sorted(EXAMPLES.glob("*.json")):
        ran = tool("expect", with_device(file))
        summary = re.fullmatch(rb"[^\n]*: (\d+) of \1 expectations hold; [^\n]*\n", ran.stdout)
        tally.check(ran.returncode == 0 and summary and not ran.stderr, f"{file.name}: {ran.stdout!r} {ran.stderr!r}")
        run = run_of(file)
        text = written(run, file.name, None)
        looked, wrong = compared(run, text)
        tally.check(looked and not wrong and all(it.holds for it in looked), f"{file.name}: what is written doesn't hold")
        calls = sum(it.op != "leave" for script in run.report.scripts for it in script)
        tally.same(sum(it.name.startswith("script") for it in looked), calls, f"{file.name}: how many calls are written")
        spoil(tally, file.name, run, text)
        spoil(tally, f"{file.stem}.expect", run, file.with_suffix(".expect").read_text(encoding="utf-8"))


def lines(tally: Tally, program: str, room: Path) -> None:
    """Lines without a form, lines that aren't of the scenario, and the places of both."""
    run = run_of(EXAMPLES / "life.json")
    for marked, said in rows_of("wrong_lines") + rows_of("unfit_lines"):
        _, wrong = compared(run, marked.replace("^", ""))
        told = [(it.line, it.column) for it in wrong] == places_of(marked) and wrong[0].words.startswith(said)
        tally.check(told, f"{marked!r}: {wrong} is told")
    for (text,) in rows_of("holding_lines"):
        looked, wrong = compared(run, text)
        tally.check(looked and not wrong and all(it.holds for it in looked), f"{text!r} doesn't hold: {looked} {wrong}")
    for text, line, column, came in rows_of("failing_lines"):
        found = [(it.line, it.column, it.came) for it in compared(run, text)[0] if not it.holds]
        tally.same(found, [(int(line), int(column), came)], text)


# ---- how it ends


def commands(tally: Tally, program: str, room: Path) -> None:
    """Files of expectations that are refused, TAP, JUnit, and what is written."""
    sessions(tally, "expect", room)


def statuses(tally: Tally, program: str, room: Path) -> None:
    """Runs that end otherwise than with 0: told where no line says so, and where nothing was run; and a device that isn't given."""
    scenario = room / "status.json"
    for ops, device, text, status, told in rows_of("statuses", 5):
        scenario.write_text(f'{{"version":1,"scripts":[{ops}]}}', encoding="utf-8")
        scenario.with_suffix(".expect").write_text(text, encoding="utf-8")
        if device == "beside":
            scenario.with_suffix(".device").write_text("mark 1\n", encoding="utf-8")
        words = [] if device in ("-", "beside") else ["--device", device.format(room=room)]
        tally.ends(f"{ops!r} of {text!r}", tool("expect", [scenario, *words]), status, told)


def long(tally: Tally, program: str, room: Path) -> None:
    """Many lines take a time that grows with them, and not with their square."""
    scenario = room / "long.json"
    scenario.write_text(scenario_of(f"{MANY} mark mark=1"), encoding="utf-8")
    tool("expect", [scenario, "--write"])
    ran = tool("expect", [scenario])
    took = seconds_of(lambda: tool("expect", [scenario]), LONGEST)
    tally.check(ran.returncode == 0 and took < LONGEST, f"{MANY} lines take {took:.1f} s: {ran.stdout!r} {ran.stderr!r}")


# ---- programs


def programs(tally: Tally, program: str, room: Path) -> None:
    """Programs that aren't there, that print no report, or that end early."""
    fake = room / "fake"
    for row in rows_of("programs"):
        body, front = (it.format(fake=fake, examples=EXAMPLES) for it in row)
        given = fake_program(room, body) if body != "-" else {"env": {**os.environ, "XRSIM": str(fake)}}
        ran = tool("expect", LIFE, **given)
        tally.ends(body, ran, 2, "", front)
        tally.same(ran.stdout, b"", body)
    given = fake_program(room, f"echo one >&2; echo two >&2; cat {EXAMPLES}/life.report")
    for closed in ("2>&-", "<&- 2>&-"):
        tally.ends(f"words of the program under {closed}", tool("expect", LIFE, shell=f'"$@" {closed}', **given), 0, "")
    os.environ["XRSIM"] = fake_program(room, "exec sleep 60")["env"]["XRSIM"]
    tally.same(ran_for(["threads"], 0.2)[0], -signal.SIGKILL, "a run that hangs")
    os.environ["XRSIM"] = program
    tally.same(PROGRAM, str(ROOT / "xrsim"), "the program where no XRSIM names one")


# ---- texts that a few changes have spoilt


def fuzz(tally: Tally, program: str, room: Path) -> None:
    """Changed files of expectations raise nothing, and are told in one line each."""
    files = sorted(EXAMPLES.glob("*.json"))
    runs = [(run_of(file), file.with_suffix(".expect").read_text(encoding="utf-8")) for file in files]

    def said_of(chance: random.Random, number: int) -> str:
        run, text = chance.choice(runs)
        text = spoilt_text(chance, spoilt_text(chance, text))
        looked, wrong = compared(run, text)
        tally.check(looked or wrong, f"change {number}: nothing is told of {text!r}")
        return "\n".join(it.told("x") for it in looked if "\n" in it.told("x"))

    tally.raises_nothing(5, MUTATIONS, said_of)


if __name__ == "__main__":
    main("expect", examples, lines, commands, statuses, long, programs, fuzz)
