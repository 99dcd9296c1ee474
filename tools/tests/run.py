"""run PROGRAM [RUNS]: tries tools/run, which has to print what PROGRAM prints, and to end as it does.

1. Cases and examples by their words, some of them by the command line: output, status, and the line on standard error.
2. Each row of the cases' tables: the same, with places.
3. So many scenarios by chance (2,000, if not said), each beside a device or none.

What differs is told, and the last line counts.
"""
from __future__ import annotations

import sys
from concurrent.futures import ThreadPoolExecutor
from pathlib import Path

from helpers import CASES, EXAMPLES, Ended, Tally, main, rows_of, run, seconds_of, tool, with_device
from runs import Ran, content, due_of, in_rounds, lines_of, made_text, rows_in, spoilt_by_chance

import by_chance

RUNS, MOST_RUNS = 2000, 1_000_000
SIDE_BY_SIDE = 4
# each so-manieth case is run by the command line
EACH = 6
# an example takes half a second; a busy machine has three times as much
LONGEST = 1.5
# the words of a table whose rows are texts, and how many rows there are at least
TABLE_WORDS, LEAST_ROWS = b"serial\nscenario.json\n--device\ndevice.txt\n", 4_000
UNPROVED = b"run: unproved: "


def told(ran: Ended) -> tuple[int, bytes, bytes]:
    """How a run ended and what it printed, without what the tool says for itself."""
    lines = ran.stderr.split(b"\n")
    return ran.returncode, ran.stdout, b"\n".join(it for it in lines if not it.startswith(b"run: "))


def stored_words() -> list[tuple[Path, list[str]]]:
    """The folders and words of the cases that `serial` runs, and of the examples."""
    words = [(CASES, content(file).decode().splitlines()) for file in sorted(CASES.glob("*/args"))]
    cases = [(folder, it[1:]) for folder, it in words if it[:1] == ["serial"] and "--" not in it]
    return cases[::EACH] + [(EXAMPLES, with_device(file)) for file in sorted(EXAMPLES.glob("*.json"))]


def by_words(tally: Tally, program: str, room: Path) -> None:
    """Cases and examples by the command line."""
    def both(given: tuple[Path, list[str]]) -> tuple[Ended, Ended]:
        folder, words = given
        return tool("run", words, cwd=folder), run([program, "serial", *words], cwd=folder)

    stored = stored_words()
    with ThreadPoolExecutor(SIDE_BY_SIDE) as pool:
        for (_, words), (own, its) in zip(stored, pool.map(both, stored)):
            tally.same(told(own), told(its), f"tools/run {' '.join(words)}")
            is_said = own.stderr.startswith(UNPROVED) == bool(own.stdout)
            tally.check(is_said, f"tools/run {' '.join(words)} says that a report isn't proved: {own.stderr!r}")
    for words, status, said in rows_of("run_words"):
        tally.ends(f"run {words}", tool("run", words.split(), cwd=EXAMPLES), status, said)
    took = seconds_of(lambda: tool("run", with_device(EXAMPLES / "life.json")), LONGEST)
    tally.check(took < LONGEST, f"tools/run takes {took:.1f} s for an example")


def tables(tally: Tally, program: str, room: Path) -> None:
    """Each row of the tables: the whole report with places, the status, and the line on standard error."""
    found = [file.parent for file in sorted(CASES.glob("*/rows")) if content(file.parent / "args") == TABLE_WORDS]
    rows = [(folder.name, *it[1:]) for folder in found for it in rows_in(folder)]

    def printed(number: int) -> Ran:
        files = room / f"row{number}.json", room / f"row{number}.device"
        for file, text in zip(files, rows[number][2:]):
            file.write_bytes(text)
        ran = run([program, "serial", "--places", files[0], "--device", files[1]])
        for file in files:
            file.unlink()
        return Ran(ran.returncode, ran.stdout, ran.stderr.decode(errors="replace"))

    with ThreadPoolExecutor(SIDE_BY_SIDE) as pool:
        for (name, text, *texts), its in zip(rows, pool.map(printed, range(len(rows)))):
            own = due_of(*texts)
            tally.check(own == its, f"{name}: of {text[:100]!r} the machine says {str(own)[:300]}, and the program {str(its)[:300]}")
    tally.check(len(rows) > LEAST_ROWS, f"only {len(rows)} rows of tables were looked at")


def chance(tally: Tally, program: str, room: Path) -> None:
    """Scenarios by chance, of which every fourth is spoilt, so that somebody mostly waits for ever."""
    runs = int(sys.argv[2]) if len(sys.argv) > 2 else RUNS
    if not 1 <= runs <= MOST_RUNS:
        sys.exit(f"run: RUNS is from 1 to {MOST_RUNS}")
    made = (made_text(room, f"chance{it}", *(spoilt_by_chance(it) if it % 4 == 0 else by_chance.scenario(it))) for it in range(runs))
    with ThreadPoolExecutor(SIDE_BY_SIDE) as pool:
        texts = list(made)
        printed = pool.map(lambda it: run([program, "serial", "--places", *it.words], cwd=room).stdout, texts)
        for text, due in zip(texts, printed):
            tally.check(in_rounds(text) == lines_of(due), f"{text.name}: the machine prints another report")


if __name__ == "__main__":
    main("run", by_words, tables, chance, more="[RUNS]")
