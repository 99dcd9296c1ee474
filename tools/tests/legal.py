"""legal PROGRAM: tries tools/legal, and the machine, over the runs of PROGRAM, over other orders of calls, and over changed
reports.

1. Each case of files whose run makes a report, each example, and scenarios by chance are run with --places: each report has to be
   legal, and the machine's round robin has to print the same bytes.
2. The machine makes calls of the same texts in orders by chance: their reports are legal too.
3. Reports are changed by chance, in one way each, and have to be refused (changes.py).
4. What is said of faults that are made by hand.

What differs is told, and the last line counts.
"""
from __future__ import annotations

import random
import re
from pathlib import Path

from helpers import TABLES, Tally, main, replaced, rows_of, run, tool
from runs import Lines, Text, content, in_any_order, in_rounds, joined, judged, lines_of, made_text, spoilt_by_chance, stored_runs, text_of

from changes import changed_reports, close_ranks
from judging.replay import stripped

ORDERS = 300
CHANGES = 2200
BY_CHANCE = 120


def looked_at(tally: Tally, program: str, text: Text) -> tuple[Text, Lines]:
    """What the program prints of a text is legal, and is what the machine prints."""
    printed = run([program, "serial", "--places", *text.words], cwd=text.folder).stdout
    lines, why = lines_of(printed), judged(text, printed)
    tally.check(not why, f"{text.name}: its report is refused: {why}")
    tally.check(in_rounds(text) == lines, f"{text.name}: the machine prints another report")
    return text, lines


def program_runs(tally: Tally, program: str, room: Path) -> list[tuple[Text, Lines]]:
    """The runs of cases and examples, which without places are what is stored, and of scenarios by chance."""
    found = []
    for text, has_places, stored in stored_runs():
        found.append(looked_at(tally, program, text))
        is_stored = stripped(joined(found[-1][1])) == (stripped(stored) if has_places else lines_of(stored))
        tally.check(is_stored, f"{text.name}: without places it is another report than the stored one")
    texts = [made_text(room, f"chance{number}", *spoilt_by_chance(number)) for number in range(BY_CHANCE)]
    return found + [looked_at(tally, program, text) for text in texts]


def other_orders(tally: Tally, texts: list[Text]) -> list[tuple[Text, Lines]]:
    """Reports of other orders than the round robin's, above all of several scripts."""
    chance, found = random.Random(48), []
    several = [it for it in texts if len(it.scripts) > 1]
    others = [it for it in texts if len(it.scripts) == 1 and it.device.events]
    for number in range(ORDERS):
        text = several[number % len(several)] if number < 2 * ORDERS // 3 else chance.choice(several + others)
        found.append((text, in_any_order(text, chance)))
        why = judged(text, joined(found[-1][1]))
        tally.check(not why, f"{text.name}, order {number}: its report is refused: {why}")
    tally.check(len({"\n".join(lines) for _, lines in found}) > ORDERS // 2, "the orders are mostly the same")
    return found


def reports(tally: Tally, program: str, room: Path) -> None:
    """Reports of the program and of other orders are legal, and changed ones are not."""
    runs = program_runs(tally, program, room)
    orders = other_orders(tally, [text for text, _ in runs])
    print(f"legal: {len(runs)} runs and {len(orders)} other orders judged")
    changed_reports(tally, "legal", runs + orders, CHANGES)


def faults(tally: Tally, program: str, room: Path) -> None:
    """The line that is said of each fault, where the report is as it should be but for that. Where a piece is left out, the places
    behind its own are one less."""
    words = ["by_hand.json", "--device", "by_hand.device"]
    text, report = text_of("by hand", TABLES, words), content(TABLES / "by_hand.report")
    tally.check(in_rounds(text) != lines_of(report), "the report by hand is the round robin's")
    for number, (old, new, due) in enumerate(rows_of("faults")):
        lines = lines_of(replaced(report, old, new) if old else report)
        for gone in [int(it) for it in re.findall(r" @(\d+)$", old, re.MULTILINE) if not new]:
            close_ranks(lines, gone)
        why = judged(text, joined(lines))
        tally.check(why == due or not why and due.startswith("legal"), f"{why!r} is said for {due!r}")
        if number % 5 == 0:
            ran = tool("legal", [*words, "-"], joined(lines), cwd=TABLES)
            is_fault = due.startswith("line")
            said = f"report: {due}\n" if is_fault else f"{due}\n"
            tally.same((ran.returncode, ran.stdout.decode(), ran.stderr), (int(is_fault), said, b""), due)


if __name__ == "__main__":
    main("legal", reports, faults)
