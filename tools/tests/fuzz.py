"""fuzz PROGRAM [GOOD:BAD[:SEED]]: tries PROGRAM with so many good and so many bad texts by chance (500:200:1, if not said) of all that
both formats have (any_text.py). What `serial --places` prints, says on standard error and ends with has to be what the tools' machine
answers, byte for byte. Every tenth text that can't hang is run on threads too: refused the same, or with a legal report.

What differs is told with its number, and its texts are kept. The last line counts.
"""
from __future__ import annotations

import os
import random
import re
import signal
import sys
import tempfile
from collections import Counter
from collections.abc import Iterator
from concurrent.futures import ProcessPoolExecutor
from pathlib import Path
from typing import NamedTuple

from helpers import Tally, main
from runs import REPORTED, Ran, Text, due_of, text_of

import any_text
from checking.hanging import cannot_hang
from reports.values import OPS
from threads import keep, ran, wrong_with

USUAL = "500:200:1"
MOST_TEXTS = 10_000_000
GOOD, BAD = "good", "bad"
EACH, ON_THREADS = 20, 10
REFUSED = 4
SIDE_BY_SIDE = os.cpu_count() or 1
SUCCESS = re.compile(rb"^\d+ (\S+) (XR_\S+)", re.M)


class Found(NamedTuple):
    """What differs of some texts, how they ended, which calls came with which results, and in how many ways scenarios were refused."""

    wrong: list[str]
    endings: Counter
    answers: set[tuple[bytes, bytes]]
    refusals: set[str]


def texts_of(kind: str, seed: int, number: int) -> tuple[bytes, bytes | None]:
    """The texts of a number, which are the same each time."""
    chance = random.Random(f"{seed} {kind} {number}")
    return (any_text.good_text if kind == GOOD else any_text.bad_text)(chance, number)


def wrong_on_threads(program: str, text: Text, due: Ran) -> str:
    """What is wrong of a run on threads, where it can't hang."""
    if due.status == REFUSED:
        made = ran(program, "threads", text, "--places")
        return "" if made == due else f"on threads it ends with {made.status} and {made.line!r}, and {due.line!r} is due"
    whole = text_of(text.name, text.folder, text.words)
    if not cannot_hang(whole.scripts, b"\nstuck\n" in due.output):
        return ""
    why, _ = wrong_with(whole, ran(program, "threads", text, "--places"))
    return f"on threads: {why}" if why else ""


def first_difference(made: Ran, due: Ran) -> str:
    """Where two runs differ first."""
    if (made.status, made.line) != (due.status, due.line):
        return f"it ends with {made.status} and {made.line!r}, and the machine with {due.status} and {due.line!r}"
    pairs = enumerate(zip([*made.output.split(b"\n"), b"END"], [*due.output.split(b"\n"), b"END"]), 1)
    at, (one, other) = next(it for it in pairs if it[1][0] != it[1][1])
    return f"line {at} is {one!r}, and {other!r} is the machine's"


def tried(given: tuple[str, str, int, int, int]) -> Found:
    """Tries some texts: those of a kind and a seed from a number to another."""
    program, kind, seed, first, last = given
    found = Found([], Counter(), set(), set())
    with tempfile.TemporaryDirectory() as name:
        room = Path(name)
        for number in range(first, last):
            scenario, device = texts_of(kind, seed, number)
            (room / "a.json").write_bytes(scenario)
            (room / "a.device").write_bytes(device or b"")
            text = Text(f"{kind} {number}", [], None, room, ["a.json", *(["--device", "a.device"] if device is not None else [])])
            due, made = due_of(scenario, device), ran(program, "serial", text, "--places")
            why = first_difference(made, due) if made != due else wrong_on_threads(program, text, due) if number % ON_THREADS == 0 else ""
            why = why or (f"a good text is refused: {due.line!r}" if kind == GOOD and due.status not in (0, 7) else "")
            found.wrong.extend([f"seed {seed} {text.name}: {why}; its texts are kept in {keep(text, made)}"] if why else [])
            found.endings[due.status] += 1
            found.answers.update(SUCCESS.findall(due.output))
            found.refusals.update([re.sub(r"\d+", "N", due.line)] if due.status not in REPORTED else [])
    return found


def each_of(pool: ProcessPoolExecutor, batches: list) -> Iterator[Found]:
    """What is found in each batch. At Ctrl-C those that aren't begun are left."""
    try:
        yield from pool.map(tried, batches)
    except KeyboardInterrupt:
        pool.shutdown(wait=False, cancel_futures=True)
        raise


def all_texts(tally: Tally, program: str, room: Path) -> None:
    """All texts, some at a time."""
    words = re.fullmatch(r"(\d{1,8}):(\d{1,8})(?::(\d{1,8}))?", sys.argv[2] if len(sys.argv) > 2 else USUAL)
    if not words or not 0 < int(words[1]) + int(words[2]) <= MOST_TEXTS:
        sys.exit(f"fuzz: the numbers are as {USUAL}, {MOST_TEXTS} at most together")
    good, bad, seed = (int(it or 1) for it in words.groups())
    whole = Found([], Counter(), set(), set())
    # Ctrl-C is the first process's to heed
    with ProcessPoolExecutor(SIDE_BY_SIDE, initializer=signal.signal, initargs=(signal.SIGINT, signal.SIG_IGN)) as pool:
        for kind, many in ((GOOD, good), (BAD, bad)):
            endings: Counter = Counter()
            batches = [(program, kind, seed, it, min(it + EACH, many)) for it in range(0, many, EACH)]
            for batch, found in zip(batches, each_of(pool, batches)):
                tally.passed += batch[4] - batch[3] - len(found.wrong)
                tally.failed.extend(found.wrong)
                endings.update(found.endings)
                whole.answers.update(found.answers)
                whole.refusals.update(found.refusals)
            print(f"fuzz: {many} {kind} texts: {', '.join(f'{count} with status {it}' for it, count in sorted(endings.items()))}")
            whole.endings.update({(kind, it): count for it, count in endings.items()})
    print(f"fuzz: {len(whole.answers)} pairs of call and result came, and scenarios were refused in {len(whole.refusals)} ways")
    if good >= 500 and bad >= 200:
        succeeded = {op.decode() for op, code in whole.answers if code == b"XR_SUCCESS"}
        tally.same(sorted(it for it in OPS if it not in succeeded), [], "ops that never succeeded")
        spoilt = sum(whole.endings[BAD, it] for it in (REFUSED, 6))
        tally.check(spoilt * 2 > bad, f"only {spoilt} of {bad} bad texts are refused or garbled")


if __name__ == "__main__":
    try:
        main("fuzz", all_texts, more="[GOOD:BAD[:SEED]]")
    except KeyboardInterrupt:
        sys.exit("fuzz: interrupted")
