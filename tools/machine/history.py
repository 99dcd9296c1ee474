"""A run of the machine whose calls are kept as entries, in the order in which they are made."""
from __future__ import annotations

from typing import Any, NamedTuple

from machine.answers import Answer, Fields
from machine.turns import Script, Turns
from scenarios.reading import Scripts

DEVICE, COMPOSITOR = "device", "compositor"


class Entry(NamedTuple):
    """A call that was made: its place, its actor, which is a script's number from 1, `device` or `compositor`, and its number there; its op or line;
    of a script's its arguments as they are written, their values, and the answer; and the state of the live session behind it, if there is
    one, or those of several with their ordinals."""

    place: int
    actor: int | str
    number: int
    name: str
    arguments: dict[str, Any] = {}
    fields: Fields = {}
    answer: Answer = Answer()
    state: str = ""

    @property
    def is_plain(self) -> bool:
        return self.answer.code == "XR_SUCCESS"


class History(Turns):
    """The actors on their way, and what they did."""

    def __init__(self, scripts: Scripts, events: list[str]) -> None:
        super().__init__(scripts, events)
        self.entries: list[Entry] = []
        self.composed = 0

    def keep(self, entry: Entry) -> None:
        """A call was made."""
        self.entries.append(entry)

    @property
    def state(self) -> str:
        sessions = self.machine.sessions
        return ", ".join(f"{it.ordinal} {it.state}" for it in sessions) if len(sessions) > 1 else "".join(it.state for it in sessions)

    def call(self, script: Script) -> bool:
        if script.is_done:
            return False
        op, fields, number = script.next, script.fields(), script.made + 1
        super().call(script)
        place = self.machine.place_of(op.name)
        self.keep(Entry(place, script.number, number, op.name, op.arguments, fields, script.answer, self.state))
        return True

    def note(self, actor: str, line: str) -> None:
        if actor in (DEVICE, COMPOSITOR):
            self.composed += actor == COMPOSITOR
            number = self.told if actor == DEVICE else self.composed
            self.keep(Entry(self.machine.locked, actor, number, line.rpartition(" @")[0], state=self.state))
