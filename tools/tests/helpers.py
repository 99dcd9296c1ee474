"""What the tests of the tools share: the tally, tables, texts of ops, and running a tool, a shell or the program."""
from __future__ import annotations

import json
import os
import random
import re
import subprocess
import sys
import tempfile
from collections.abc import Callable, Iterator
from pathlib import Path
from typing import Any

sys.dont_write_bytecode = True
TOOLS = Path(__file__).resolve().parent.parent
ROOT = TOOLS.parent
EXAMPLES, CASES = ROOT / "examples", ROOT / "cases"
TABLES = TOOLS / "tests/tables"
sys.path.insert(1, str(TOOLS))
MOST_SHOWN = 12
LONGEST = 60
LOOP, SECONDS_OF_LOOP = "for _ in range(5_000_000): pass", 0.24

Ended = subprocess.CompletedProcess
Ops = list[dict[str, Any]]


class Tally:
    """How many checks passed, and the words of those that failed."""

    def __init__(self) -> None:
        self.passed = 0
        self.failed: list[str] = []

    def check(self, holds: object, words: str) -> None:
        if holds:
            self.passed += 1
        else:
            self.failed.append(words)

    def same(self, found: object, due: object, words: object) -> None:
        self.check(found == due, f"{words}: it is {found!r}, and {due!r} is due")

    def complains(self, what: object, ran: Ended, front: str, status: int = 2) -> None:
        """A tool printed nothing, and ended with this status and with one line on standard error that begins so."""
        said = ran.stderr.decode("utf-8", "replace")
        is_one = said.startswith(front) and said.count("\n") == 1 and said.endswith("\n")
        self.check(ran.returncode == status and is_one and not ran.stdout, f"{what}: status {ran.returncode}, {said[:300]!r}")

    def ends(self, what: object, ran: Ended, status: int | str, said: str, front: str = "") -> None:
        """A tool ended with this status, said these words on standard output or error, and began the latter so."""
        told, errors = ((ran.stdout + ran.stderr).decode("utf-8", "replace"), ran.stderr.decode("utf-8", "replace"))
        is_good = ran.returncode == int(status) and said in told and errors.startswith(front) and "Traceback" not in told
        self.check(is_good, f"{what}: status {ran.returncode}, {told[-1000:]!r}")

    def raises_nothing(self, seed: int, most: int, said_of: Callable[[random.Random, int], str]) -> None:
        """Of so many texts by chance one line is said, or none, and nothing is raised."""
        chance = random.Random(seed)
        for number in range(most):
            try:
                said = said_of(chance, number)
            except Exception as e:
                said = f"\n{type(e).__name__} {e}"
            self.check("\n" not in said, f"change {number}: {said!r} is said")


# ---- tables, and texts of ops


def rows_of(name: str, width: int = 0) -> list[list[str]]:
    """The rows of a table of tables/, with at least so many fields. They stand apart by ` | `, in which escapes are those of
    Python; a line that begins with `# ` is a comment."""
    lines = (TABLES / f"{name}.txt").read_text(encoding="utf-8").split("\n")
    rows = [line.encode().decode("unicode_escape").split(" | ") for line in lines if line and not line.startswith("# ")]
    return [row + [""] * (width - len(row)) for row in rows]


def replaced(text: bytes, old: str, new: str) -> bytes:
    """A text in which a piece, which stands there once, is another one."""
    piece = old.encode("latin-1")
    assert text.count(piece) == 1, old
    return text.replace(piece, new.encode("latin-1"))


def places_of(marked: str) -> list[tuple[int, int]]:
    """The lines and columns of the ^ of a text, as they are where no ^ stands."""
    fronts = (marked[: it.start()].replace("^", "") for it in re.finditer(r"\^", marked))
    return [(front.count("\n") + 1, len(front) - front.rfind("\n")) for front in fronts]


def value_of(text: str) -> Any:
    """A value of JSON, or a text that is none."""
    try:
        return json.loads(text)
    except ValueError:
        return text


def filled(text: str) -> str:
    """A text in which names in capitals and braces stand for those of tables/named.txt."""
    return re.sub(r"\{([A-Z_\d]+)\}", lambda it: NAMED[it[1]], text)


def calls_of(text: str, result: str = "+SUCCESS") -> Iterator[tuple[dict, str]]:
    """The ops of a text, which stand apart by `; `, each with the words that its line in a report has to have.

    An op is its name and fields as `key=value`; a number in front of it says how often it stands there. Behind | stand ends of
    an op, each an op of its own. A result behind ! is XR_ERROR_.., one behind + is XR_.., and `result` stands where none does."""
    for op in filter(None, filled(text).split("; ")):
        first, *ends = op.split(" | ")
        for words in [f"{first} {end}".split(" ") for end in ends] or [first.split(" ")]:
            times = int(words.pop(0)) if words[0].isdecimal() else 1
            fields = [word.split("=", 1) for word in words if "=" in word]
            said = " ".join(words[len(fields) + 1 :]) or result
            call = {"op": words[0], **{key: value_of(value) for key, value in fields}}
            yield from [(call, f"{words[0]} {said.replace('!', 'XR_ERROR_').replace('+', 'XR_')}")] * times


def ops_of(text: str) -> Ops:
    return [op for op, _ in calls_of(text)]


def scripts_of(text: str) -> list[Ops]:
    """Scripts that stand apart by ` / `."""
    return [ops_of(it) for it in re.split(r"(?:^|\s)/(?:\s|$)", text)]


def scenario_of(scripts: str | list[Ops]) -> str:
    """The text of a scenario, which has a line for each op."""
    given = scripts_of(scripts) if isinstance(scripts, str) else scripts
    lines = [",\n ".join(json.dumps(op, separators=(",", ":")) for op in ops) for ops in given]
    return '{"version":1,"scripts":[%s]}' % ",\n".join(f"[{it}]" for it in lines)


NAMED: dict[str, str] = {}
NAMED.update((name, filled(text)) for name, text in rows_of("named"))


# ---- running


def run(words: list, text: bytes = b"", **more: Any) -> Ended:
    """Runs a command, which is given a text."""
    pipe = subprocess.PIPE
    return subprocess.run(list(map(os.fsdecode, words)), **{"input": text, "stdout": pipe, "stderr": pipe, "timeout": LONGEST, **more})


def tool(name: str, words: list, text: bytes = b"", shell: str = "", **more: Any) -> Ended:
    """Runs a tool, or a shell that has it as its arguments."""
    return run([*(["bash", "-c", shell, "bash"] if shell else []), sys.executable, TOOLS / name, *words], text, **more)


# ---- time


def used() -> float:
    """The processor time of all that was run, in seconds."""
    return sum(os.times()[2:4])


def slowness() -> float:
    """How much slower this machine is now than the one that limits of time are for, by a loop that takes that one so many seconds."""
    before = used()
    run([sys.executable, "-c", LOOP])
    return max(1.0, (used() - before) / SECONDS_OF_LOOP)


def seconds_of(work: Callable[[], object], enough: float, most_tries: int = 5) -> float:
    """The processor time that what is run takes, on the machine that limits are for: that of the first of some tries that is little enough, or
    else of the last."""
    for _ in range(most_tries):
        slow, before = slowness(), used()
        work()
        taken = (used() - before) / slow
        if taken < enough:
            break
    return taken


def with_device(scenario: Path) -> list[str]:
    """A scenario as words, with the device that stands beside it where one does."""
    device = scenario.with_suffix(".device")
    return [str(scenario), *(["--device", str(device)] if device.exists() else [])]


def linked(room: Path, name: str) -> Path:
    """A folder of this name with links to the program, the tools and the examples."""
    folder = room / name
    folder.mkdir()
    for name, target in (("xrsim", os.environ["XRSIM"]), ("tools", TOOLS), ("examples", EXAMPLES)):
        os.symlink(target, folder / name)
    return folder


def sessions(tally: Tally, name: str, room: Path) -> None:
    """The commands of a table, each behind a `$ `, print what stands behind them, and end with the status behind that."""
    folder, text = linked(room, name), (TABLES / f"{name}.txt").read_text(encoding="utf-8")
    for block in re.split(r"^\$ ", re.sub(r"^(?:## .*)?\n", "", text, flags=re.M), flags=re.M)[1:]:
        command, _, due = block.partition("\n")
        ran = run(["bash", "-c", command], cwd=folder, stderr=subprocess.STDOUT)
        said = ran.stdout.decode() + (f"[{ran.returncode}]\n" if ran.returncode else "")
        pattern = ".*".join(map(re.escape, due.split("..")))
        tally.check(re.fullmatch(pattern, said, re.S), f"{command} prints {said!r}")


def fake_program(room: Path, body: str) -> dict[str, dict[str, str]]:
    """How a tool is run with a program that does this."""
    fake = room / "fake"
    fake.write_text(f"#!/bin/sh\n{body}\n", encoding="utf-8")
    fake.chmod(0o755)
    return {"env": {**os.environ, "XRSIM": str(fake)}}


def validator(name: str, schema: dict, is_part: bool = False) -> Callable[[Any], bool] | None:
    """Whether a value is valid by a schema, or by a part of one, or nothing where that can't be told here."""
    try:
        from jsonschema import Draft202012Validator
    except ImportError:
        return print(f"{name}: skipped: no jsonschema, so nothing was compared with a schema")
    if not is_part:
        Draft202012Validator.check_schema(schema)
    return Draft202012Validator(schema).is_valid


def spoilt_text(chance: random.Random, text: str) -> str:
    """A text in which a piece is cut out, doubled, or has other characters in its place."""
    at, end = sorted(chance.randrange(len(text) + 1) for _ in range(2))
    end = min(end, at + chance.choice((0, 1, 1, 2, 5, 40)))
    piece = chance.choice(("", "", " ", "\n", "*", "#", "-", "0", "7", "@", "XR_", text[at:end] * 2, "\u00e9", "\0"))
    return text[:at] + piece + text[end:]


def end(name: str, tally: Tally) -> None:
    """Tells what differs and how many checks passed, and ends."""
    for words in tally.failed[:MOST_SHOWN]:
        print(f"{name}: {words}")
    print(f"{name}: {tally.passed} passed, {len(tally.failed)} failed")
    sys.exit(1 if tally.failed or not tally.passed else 0)


def main(name: str, *trials: Callable[[Tally, str, Path], object], more: str = "") -> None:
    """Makes the trials of the program that the words name, each with a folder that all share, and tells what differs and how many
    checks passed. One word more may be taken."""
    if len(sys.argv) not in ((2, 3) if more else (2,)):
        sys.exit(f"usage: tools/tests/{name}.py PROGRAM {more}".rstrip())
    program = os.path.realpath(sys.argv[1])
    if not os.path.isfile(program) or not os.access(program, os.X_OK):
        sys.exit(f"{name}: no program at {program}")
    os.environ["XRSIM"] = program
    tally = Tally()
    with tempfile.TemporaryDirectory() as room:
        for trial in trials:
            trial(tally, program, Path(room))
    end(name, tally)
