"""orders PROGRAM: tries tools/orders over examples and a table of scenarios. It runs no program. What differs is told, and the last line
counts.
"""
from __future__ import annotations

import random
from pathlib import Path

from helpers import EXAMPLES, Tally, main, rows_of, scenario_of, seconds_of, tool, with_device
from runs import joined, judged, made_text, marks_by_chance

from checking.orders import in_any_order

BY_CHANCE = 200
# 500 orders of fifty calls take a second; a busy machine has three times as much
ORDERS, LONGEST = 500, 3


def scenarios(tally: Tally, program: str, room: Path) -> None:
    """What is told of scenarios, and the status."""
    for scripts, words, status, said in rows_of("orders"):
        (room / "orders.json").write_text(scenario_of(scripts), encoding="utf-8")
        tally.ends(f"{scripts!r} {words}", tool("orders", ["orders.json", *words.split()], cwd=room), status, said)
        again = [tool("orders", ["orders.json", *words.split(), "--seed", seed], cwd=room).stdout for seed in "33"]
        tally.check(again[0] == again[1], f"{scripts!r}: the same seed tells other orders")


def speed(tally: Tally, program: str, room: Path) -> None:
    """So many orders of an example of fifty calls."""
    words = [*with_device(EXAMPLES / "threads.json"), "--runs", str(ORDERS)]
    ran = tool("orders", words)
    took = seconds_of(lambda: tool("orders", words), LONGEST)
    tally.check(b"op 5 locate_space" in ran.stdout and took < LONGEST, f"{ORDERS} orders take {took:.1f} s: {ran.stdout!r}")


def stuck_orders(tally: Tally, program: str, room: Path) -> None:
    """An order that hangs is legal, and made once more it hangs again."""
    chance, hung = random.Random(7), 0
    for number in range(BY_CHANCE):
        text = made_text(room, f"marks{number}", *marks_by_chance(chance, 4))
        run, made = in_any_order(text.scripts, text.device.all, chance)
        report = run.report()
        hung += "stuck" in report
        why = judged(text, joined(report))
        tally.check(not why, f"{text.name}: its report is refused: {why}")
        tally.check(len(made) == sum(it.made for it in run.scripts) + run.told + run.has_ended, f"{text.name}: {len(made)} turns")
    tally.check(0 < hung < BY_CHANCE, f"{hung} orders hang")


if __name__ == "__main__":
    main("orders", scenarios, speed, stuck_orders)
