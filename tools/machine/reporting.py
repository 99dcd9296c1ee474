"""A run of the machine whose report is kept, as the program prints it with places."""
from __future__ import annotations

from machine.turns import Turns
from scenarios.devices import FAULT
from scenarios.reading import Scripts

GARBLED = "garbled"
STATUSES = {FAULT: 5, GARBLED: 6}
STUCK = 7


class Run(Turns):
    """The actors on their way, and the lines of each. The events end with a fault or a garbled line, where the device ends so."""

    def __init__(self, scripts: Scripts, events: list[str]) -> None:
        super().__init__(scripts, events)
        self.blocks: dict[str, list[str]] = {f"thread {it.number}": [] for it in self.scripts}
        self.blocks.update(compositor=[], device=[])

    def note(self, actor: str, line: str) -> None:
        block = self.blocks[actor]
        is_numbered = actor != "compositor" and not line.startswith((FAULT, f"{GARBLED} "))
        block.append(f"{len(block) + 1} {line}" if is_numbered else line)

    def report(self) -> list[str]:
        """The lines of the report, once nobody can go on."""
        lines = [line for head, block in self.blocks.items() for line in (head, *block)]
        stuck = [f"thread {it.number} {it.made + 1} {it.next.name}" for it in self.scripts if not it.is_done]
        stuck += [f"device {it}" for it in self.events[self.told :][:1]]
        stuck += [] if self.has_ended else ["compositor next_frame"]
        last = self.blocks["device"][-1].split(" ")[0] if self.blocks["device"] else ""
        status = STATUSES.get(last, STUCK if stuck else 0)
        return ["xrsim report 1", *lines, *(["stuck", *stuck] if stuck else []), f"status {status}"]


def in_rounds(scripts: Scripts, events: list[str]) -> list[str]:
    """The report of the round robin: a turn to each actor, round after round, until nobody can go on."""
    run = Run(scripts, events)
    run.in_rounds()
    return run.report()
