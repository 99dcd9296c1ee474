"""texts PROGRAM: whether tools/check says of texts what the program says of them.

The texts are those of the cases, whose files say what is expected, and others that are made here and that the program is run
over: the examples, scripts and devices that wait for each other, long devices, and texts that a few
changes have spoilt. Of scenarios by chance, whose devices are long, what is told is what the machine comes to turn by turn;
legal.py shows that the program comes to the same. Then come the places that are told of some wrong texts, what a validator of
JSON Schema takes of the same cases, and the commands of docs/TOOLS.md with what they print. What differs is told, and the
last line counts.
"""
from __future__ import annotations

import json
import os
import random
import re
import runpy
import shutil
import subprocess
from collections.abc import Iterator
from concurrent.futures import ThreadPoolExecutor
from pathlib import Path

from helpers import CASES, EXAMPLES, ROOT, TOOLS, Tally, linked, main, places_of, rows_of, run, scenario_of, validator
from runs import content, in_rounds, made_text, marks_by_chance, rows_in, spoilt_by_chance

from checking.prediction import answer_of
from scenarios.devices import read_device
from scenarios.reading import read_scenario
from scenarios.schema import Schema

LOOK = runpy.run_path(str(TOOLS / "check"))["look"]
SCHEMA = Schema.of_file()
NAME = re.compile(r"[a-z0-9_]{1,32}")
REFUSED = re.compile(r"xrsim: scenario refused: script ([0-9]+) op ([0-9]+) (.*)")
LONG = 120
# a session that is begun once the device says so, and is stuck at its second frame where that succeeded; and one beside another that had
# a frame before, and is stuck at two more where it couldn't be ended
WAITING = (
    "{INSTANCE}; await mark=1; {SESSION}; await mark=2; {RUN}; 2 wait_frame session=s",
    "{INSTANCE}; create_session instance=i system=1 as=u; await mark=1; begin_session session=u view=stereo; wait_frame session=u as=t; "
    "begin_frame session=u; end_frame session=u time=t blend=opaque layers=[]; {SESSION}; await mark=2; {RUN}; end_session session=u; "
    "2 wait_frame session=u; 2 wait_frame session=s",
)
Texts = tuple[bytes, bytes]


def told_of(scenario: bytes, device: bytes = b"") -> tuple[int, str]:
    """The status and the line that the tool tells of two texts."""
    answer = answer_of(read_scenario(scenario, SCHEMA), read_device(device))
    return answer.status, answer.line


def told_of_files(name: str | None, device: str | None) -> tuple[int, str]:
    answer = LOOK(name, device, SCHEMA).answer
    return answer.status, answer.line


# ---- cases


def cases(tally: Tally, program: str, room: Path) -> None:
    """Compares all cases whose words name a scenario, and perhaps a device, with their files read as the tool reads them."""
    for file in sorted(CASES.glob("*/args")):
        folder, words = file.parent, [word for word in content(file).decode().splitlines() if word != "--places"]
        if words[:1] != ["serial"] or not (len(words) == 2 or len(words) == 4 and words[2] == "--device"):
            continue
        for said, text, scenario, device in rows_in(folder):
            status, line = told_of(scenario, device)
            tally.same("read" if status in (0, 7) else line, said, f"{folder.name}: what is told of {text[:100]!r}")
        if not (folder / "rows").exists():
            scenario, device = [*(str(CASES / it) for it in words[1::2]), None][:2]
            wanted = int(content(folder / "status")), content(folder / "stderr").decode().rstrip("\n")
            tally.same(told_of_files(scenario, device), wanted, folder.name)


# ---- texts that are made here


def waiting_texts(chance: random.Random, count: int) -> Iterator[Texts]:
    """Scripts and devices of marks, some of which wait for ever, and some of whose devices have a garbled line."""
    for _ in range(count):
        scripts, lines = marks_by_chance(chance, 4)
        for _ in range(chance.randint(0, 2)):
            lines.insert(chance.randint(0, len(lines)), chance.choice(("clock 1", "#", "mark 0", "stage on", "wish", "loss ")))
        yield scenario_of(scripts).encode(), "\n".join(lines).encode()


def spoilt_texts(chance: random.Random, examples: list[Texts], count: int) -> Iterator[Texts]:
    """Examples one of whose texts has one to three small changes; two of the pieces that are put in are nothing."""
    pieces = [[b"", b"", *(piece.encode("latin-1") for row in rows_of(name) for piece in row)] for name in ("json_pieces", "device_pieces")]
    for _ in range(count):
        texts, kind = [*chance.choice(examples)], chance.randint(0, 1)
        for _ in range(chance.randint(1, 3)):
            at, cut = chance.randint(0, len(texts[kind])), chance.choice((0, 0, 1, 1, 2, 8))
            texts[kind] = texts[kind][:at] + chance.choice(pieces[kind]) + texts[kind][at + cut :]
        yield texts[0], texts[1]


def made_texts() -> Iterator[Texts]:
    """The examples, those by chance, and devices that have the most bytes, and one more."""
    chance, longest = random.Random(1), (b"#" * 255 + b"\n") * 65536
    examples = [(content(it), content(it.with_suffix(".device"))) for it in sorted(EXAMPLES.glob("*.json"))]
    yield from examples
    yield from ((b'{"version":1,"scripts":[[]]}', device) for device in (longest, longest + b"\n"))
    yield from waiting_texts(chance, 250)
    yield from spoilt_texts(chance, examples, 500)


def run_differs(program: str, files: list[str], told: tuple[int, str]) -> str:
    """Runs the program over files, and compares its status and its line with what is told of them."""
    ran = run([program, "serial", *files])
    said = ran.returncode, ran.stderr.decode().rstrip("\n")
    return "" if told == said else f"told {told}, said {said}: {files}"[-300:]


def programs(tally: Tally, program: str, room: Path) -> None:
    """Runs the program over texts, and over files that aren't there, aren't read, or have no name."""

    def differs(numbered: tuple[int, Texts]) -> str:
        number, texts = numbered
        names = [f"{room}/{number}.{kind}" for kind in ("json", "device")]
        for name, text in zip(names, texts):
            Path(name).write_bytes(text)
        found = run_differs(program, [names[0], "--device", names[1]], told_of(*texts))
        return found and f"{found}: {texts[0][:1000]} {texts[1][:1000]}"

    with ThreadPoolExecutor(os.cpu_count()) as pool:
        for found in pool.map(differs, enumerate(made_texts())):
            tally.check(not found, found)
    names = ["", "x" * 4096, "x/" * 2047 + "x", f"{room}/none", f"{room}/0.json/x", str(room), "/dev/null", f"{room}/0.json"]
    for name in names:
        for device in names:
            found = run_differs(program, [f"--device={device}", "--", name], told_of_files(name, device))
            tally.check(not found, f"{name[-20:]!r} with {device[-20:]!r}: {found}")


def waiting_device(chance: random.Random) -> list[str]:
    """A device that wishes this and that, before a session waits for it and meanwhile."""
    wishes = ["wish ready", "wish rest", "wish rest", "wish focused", "clock 1"] * 4 + ["loss"]
    before, between, behind = (chance.choices(wishes, k=chance.randint(0, most)) for most in (6, 15, 9))
    return [*before, "mark 1", *between, "mark 2", *behind]


def long_devices(tally: Tally, program: str, room: Path) -> None:
    """Beside a long device, which is told in large steps, those are stuck that are in the round robin."""
    chance = random.Random(6)
    more = ("wish ready", "wish rest", "wish focused", "wish visible", "clock 1", "loss", "stage on", "mark 40", "grid 3 5")
    for number in range(LONG):
        scripts, lines = spoilt_by_chance(number) if number % 2 else (WAITING[number // 2 % 2], waiting_device(chance))
        most = 12 if number % 2 else 0
        told = [it for line in lines or [] for it in (*chance.choices(more, k=chance.randint(0, most)), line)]
        text = made_text(room, "long", scripts, told)
        answer = answer_of(read_scenario(content(room / "long.json"), SCHEMA), read_device(content(room / "long.device")))
        *report, status = in_rounds(text)
        due = [it if it[0] == "t" else "device" for it in report if re.match("thread . |device await", it)]
        stuck = [re.match(r"script (\d) op (\d+)|the device", it) for it in answer.more if " waits " in it]
        names = [f"thread {it[1]} {it[2]} {text.scripts[int(it[1]) - 1][int(it[2]) - 1].name}" if it[1] else "device" for it in stuck]
        tally.same((names, f"status {answer.status}"), (due, status), f"by chance {number}: who is stuck")


def places(tally: Tally, program: str, room: Path) -> None:
    """Compares the place that is told last of each text with its last ^."""
    for (marked,) in rows_of("places"):
        last = read_scenario(marked.replace("^", "").encode(), SCHEMA).findings[-1]
        tally.same((last.line, last.column), places_of(marked)[-1], f"the place in {marked}")


# ---- the schema by itself


class Odd(float):
    """A number that is written as no whole number is."""


def is_beyond(value: object) -> bool:
    """Whether what is wrong of a value, or of one in it, may be what no schema knows: a name that no op gave or that has another
    sort, a number that is written with a fraction, an exponent or as -0, or the length of a text in bytes."""
    if isinstance(value, (dict, list)):
        return any(map(is_beyond, value.values() if isinstance(value, dict) else value))
    if isinstance(value, str):
        return NAME.fullmatch(value) is not None or len(value.encode("utf-8", "surrogatepass")) > 1024
    return isinstance(value, Odd)


def is_refused_by(scenario: dict, said: str) -> bool:
    """Whether a schema can know why a scenario is refused at an op or a field."""
    found = REFUSED.fullmatch(said)
    if not found:
        return False
    script, op, part = found.groups()
    if op == "0":
        return part != "version" or not is_beyond(scenario.get("version"))
    return not is_beyond(scenario["scripts"][int(script) - 1][int(op) - 1].get(part))


def schema(tally: Tally, program: str, room: Path) -> None:
    """A validator takes by the schema each text that a table of cases reads, and none that is refused at an op or a field, unless
    no schema knows what is wrong there. It takes the schema's own examples."""
    takes = validator("texts", SCHEMA.whole)
    if not takes:
        return
    for file in sorted(EXAMPLES.glob("*.json")):
        tally.check(takes(json.loads(content(file))), f"{file.name} is not valid against the schema")
    for name, part in SCHEMA.parts.items():
        one = validator("texts", {"$schema": SCHEMA.whole["$schema"], "$ref": f"#/$defs/{name}", "$defs": SCHEMA.parts}, is_part=True)
        tally.check(all(map(one, part.get("examples", ()))), f"an example of {name} is not valid")
    for file in (it for it in sorted(CASES.glob("*/rows")) if b"%" in content(it.parent / "scenario.json")):
        for said, text, scenario, _ in rows_in(file.parent):
            try:
                value = json.loads(scenario, parse_float=Odd, parse_int=lambda it: Odd(it) if it == "-0" else int(it))
            except (ValueError, RecursionError):
                continue
            is_good = takes(value) if said == "read" else not takes(value) or not is_refused_by(value, said)
            tally.check(is_good, f"{file.parent.name}: the schema says otherwise of {text[:200]!r}")


# ---- the recipes


def recipes(tally: Tally, program: str, room: Path) -> None:
    """Tries the blocks of commands of docs/TOOLS.md in a folder that has the links that the page tells of: each prints what
    it is said to print. One that sends a report through a pipe looks at the status of what it runs."""
    missing = [it for it in ("bash", "awk", "jq") if shutil.which(it) is None]
    if missing:
        return print(f"texts: skipped: no {', '.join(missing)} for docs/TOOLS.md")
    folder, page = linked(room, "recipes"), content(ROOT / "docs/TOOLS.md").decode()
    blocks = re.findall(r"^```(\w*)\n(.*?)^```$", page, re.M | re.S)
    for (kind, commands), (next_kind, printed) in zip(blocks, blocks[1:] + [("", "")]):
        if kind == "sh":
            said = run(["bash", "-c", commands], cwd=folder, stderr=subprocess.STDOUT).stdout.decode()
            tally.same(said, printed if next_kind == "text" else "", f"docs/TOOLS.md: what {commands[:200]!r} prints")
            is_piped = re.search(r"\./xrsim serial [^\n|;&]*\|(?!\|)[^\n]*", commands)
            tally.check(not is_piped or "pipefail" in commands, f"docs/TOOLS.md doesn't look at the status: {commands[:200]!r}")
    tally.check("| grep XR_ERROR_" not in page, "docs/TOOLS.md looks for refusals where nothing may have been run")
    return None


if __name__ == "__main__":
    main("texts", cases, schema, programs, long_devices, places, recipes)
