"""Orders of calls by chance: what each call answers in them, and where all that haven't ended wait."""
from __future__ import annotations

import random
from collections import Counter
from typing import NamedTuple

from judging.replay import without_places
from machine.reporting import Run
from machine.turns import is_made
from scenarios.reading import Scripts

# an actor has up to so many turns in a row, as chance says for each order
IN_A_ROW = (1, 1, 3, 12)


def in_any_order(scripts: Scripts, events: list[str], chance: random.Random) -> tuple[Run, list[int]]:
    """A run in which chance says whose turn is next, and how many turns it takes; and the turns in which a call was made."""
    run, made, waiting, most = Run(scripts, events), [], set(), chance.choice(IN_A_ROW)
    turns = run.turns()
    while len(waiting) < len(turns):
        at = chance.choice([it for it in range(len(turns)) if it not in waiting])
        for _ in range(chance.randint(1, most)):
            if not is_made(turns[at]):
                waiting.add(at)
                break
            made.append(at)
            waiting.clear()
    return run, made


class Hang(NamedTuple):
    """An order in which somebody waits for ever: the turns that were made, and the lines of a report that say who waits."""

    turns: list[int]
    waits: list[str]


class Tried:
    """What orders came to: how many there were and how many hung, the shortest that did, and how often each line of a block came."""

    def __init__(self, scripts: Scripts, events: list[str]) -> None:
        self.scripts, self.events = scripts, events
        self.orders = self.hung = 0
        self.shortest: Hang | None = None
        self.lines: dict[tuple[str, int], Counter[str]] = {}

    def actor(self, turn: int) -> str:
        """Whose turn this is, by its place in a round."""
        at = turn - len(self.scripts)
        return f"script {turn + 1}" if at < 0 else ("the device", "the compositor")[at]

    def keep(self, run: Run, turns: list[int]) -> None:
        """Counts what an order came to. The device's events are the same in each."""
        self.orders += 1
        report = run.report()
        if "stuck" in report:
            self.hung += 1
            if self.shortest is None or len(turns) < len(self.shortest.turns):
                self.shortest = Hang(turns, report[report.index("stuck") + 1 : -1])
        for head, block in run.blocks.items():
            for number, line in enumerate(block if head != "device" else [], 1):
                self.lines.setdefault((head, number), Counter())[without_places(line)] += 1

    def try_one(self, chance: random.Random) -> None:
        """Makes the calls in an order by chance."""
        self.keep(*in_any_order(self.scripts, self.events, chance))

    def differing(self) -> list[tuple[str, int, Counter[str]]]:
        """The lines that weren't the same in each order, with how often each came."""
        return [(head, number, found) for (head, number), found in self.lines.items() if len(found) > 1]


def tried(scripts: Scripts, events: list[str], many: int, seed: int = 1) -> Tried:
    """So many orders by chance; the same seed has the same ones."""
    orders, chance = Tried(scripts, events), random.Random(seed)
    for _ in range(many):
        orders.try_one(chance)
    return orders
