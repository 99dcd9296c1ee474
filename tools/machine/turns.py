"""Scripts on their way, and a run of the machine turn by turn: a turn is a call of an actor, unless it has to wait."""
from __future__ import annotations

from collections.abc import Callable
from typing import Any

from machine.answers import Answer, Fields, HeldBack
from machine.frames import MOST_TIME
from machine.machine import ENDED, Machine
from reports.values import GETTERS
from scenarios.reading import LEAVE, Op, Scripts

# the fields that may have names, also in lists within them
USES = frozenset("instance session space base set action chain system time path sub profile value layers subactions sets bindings active".split())


def named(value: Any, values: dict[str, int]) -> Any:
    """What stands in a field, with values in the place of names."""
    if isinstance(value, str):
        return values.get(value, 0)
    if isinstance(value, list):
        return [named(it, values) for it in value]
    return {key: named(it, values) for key, it in value.items()} if isinstance(value, dict) else value


class Script:
    """A script by its number from 1, which ends in `leave`: how many of its ops were made, the clock after the last locked one, and what
    its names stand for."""

    def __init__(self, number: int, ops: list[Op]) -> None:
        self.number, self.ops = number, [*ops, LEAVE]
        self.made = self.clock = 0
        self.values: dict[str, int] = {}
        self.known: Fields | None = None
        self.answer = Answer()

    @property
    def is_done(self) -> bool:
        return self.made == len(self.ops)

    @property
    def next(self) -> Op:
        return self.ops[self.made]

    def fields(self) -> Fields:
        """The fields of the next call by their values, which stay as long as it waits."""
        if self.known is None:
            given = {key: it for key, it in self.next.arguments.items() if key != "as"}
            self.known = {key: named(it, self.values) if key in USES else it for key, it in given.items()}
            if self.next.name == "wait_image":
                timeout = self.known["timeout"]
                self.known.update(timeout=MOST_TIME if timeout == "inf" else timeout, since=self.clock)
        return self.known

    def keep(self, answer: Answer, clock: int) -> None:
        """The next call was made and answered so; the clock shows this. A getter isn't locked."""
        op = self.next
        if "as" in op.fields:
            self.values[op.fields["as"]] = answer.given
        if op.name not in GETTERS:
            self.clock = clock
        self.made += 1
        self.known, self.answer = None, answer


class Turns:
    """The scripts, the device and the compositor on their way. A turn gives whether a call was made; what waits raises HeldBack. Each
    call is handed to `note` with its actor: a script's number, `device` or `compositor`."""

    def __init__(self, scripts: Scripts, events: list[str]) -> None:
        self.machine = Machine(len(scripts))
        self.scripts = [Script(number, ops) for number, ops in enumerate(scripts, 1)]
        self.events = events
        self.told = 0
        self.has_ended = False

    def note(self, actor: str, line: str) -> None:
        """A call was made; the line is what a report has of it behind its number."""

    def call(self, script: Script) -> bool:
        if script.is_done:
            return False
        op = script.next.name
        answer = self.machine.make(op, script.fields())
        script.keep(answer, self.machine.device.clock)
        self.note(f"thread {script.number}", f"{op} {answer.told()} @{self.machine.place_of(op)}")
        return True

    def tell(self) -> bool:
        if self.told == len(self.events):
            return False
        event = self.events[self.told]
        self.machine.tell_event(event)
        self.told += 1
        self.note("device", f"{event} @{self.machine.locked}")
        return True

    def compose(self) -> bool:
        """The compositor gives back an image while it holds any, and else asks for a frame."""
        if self.has_ended:
            return False
        if self.machine.frames.held:
            self.machine.image_done()
            return True
        told = self.machine.ask_for_frame()
        self.has_ended = told == ENDED
        self.note("compositor", f"{told} @{self.machine.locked}")
        return True

    def turns(self) -> list[Callable[[], bool]]:
        """A turn for each actor, in the order of a round."""
        return [*(lambda script=it: self.call(script) for it in self.scripts), self.tell, self.compose]


    def in_rounds(self) -> None:
        """A turn to each actor, round after round, until nobody can go on."""
        turns = self.turns()
        while any([is_made(turn) for turn in turns]):
            pass


def is_made(turn: Callable[[], bool]) -> bool:
    """Makes a call where there is one that needn't wait."""
    try:
        return turn()
    except HeldBack:
        return False
