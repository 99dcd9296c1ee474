"""A run that keeps which of its entries made things what they are, and how those are told."""
from __future__ import annotations

from typing import Any

from machine.answers import Fields
from machine.history import DEVICE, Entry, History
from machine.sessions import Session
from machine.turns import Script
from scenarios.reading import Scripts
from shown import quoted

# the codes with which a call does what it is there for
DONE = ("XR_SUCCESS", "XR_SESSION_LOSS_PENDING", "XR_FRAME_DISCARDED", "XR_SESSION_NOT_FOCUSED")
# the fields that are handles, which are looked at in the order of an op's fields
HANDLES = ("instance", "session", "space", "base", "set", "action", "chain")


def written(value: Any) -> str:
    """A value as a sentence has it: a name or a text between quotes."""
    return quoted(value) if isinstance(value, str) else str(value)


class Kept(History):
    """A run with the entries that gave a handle or a name, that took a handle away, that did something to a handle last or were a line of the
    device last, that brought each session to its state, and that lost it."""

    def __init__(self, scripts: Scripts, events: list[str]) -> None:
        super().__init__(scripts, events)
        self.has_many = len(scripts) > 1
        self.made: dict[int, Entry] = {}
        self.named: dict[tuple[int | str, str], Entry] = {}
        self.gone: dict[int, Entry] = {}
        self.last: dict[tuple[str, int], Entry] = {}
        self.kinds: dict[int, str] = {}
        self.since: dict[int, tuple[str, Entry]] = {}
        self.lost: dict[int, Entry] = {}

    def call(self, script: Script) -> bool:
        if not script.is_done and script.next.name.startswith("destroy_"):
            self.before = self.live()
        return super().call(script)

    def keep(self, entry: Entry) -> None:
        if isinstance(entry.actor, int):
            self.follow(entry)
        else:
            self.last[entry.name.partition(" ")[0], 0] = entry
        for it in self.machine.sessions:
            if it.handle not in self.since or self.since[it.handle][0] != it.state:
                self.since[it.handle] = it.state, entry
            if it.is_lost:
                self.lost.setdefault(it.handle, entry)
        super().keep(entry)

    def follow(self, entry: Entry) -> None:
        """What a script's call made, named and took away."""
        if "as" in entry.arguments:
            self.named[entry.actor, entry.arguments["as"]] = entry
        if entry.answer.code not in DONE:
            return
        if entry.name.startswith("create_"):
            self.made[entry.answer.given] = entry
            self.live()
        if entry.name.startswith("destroy_"):
            self.gone.update(dict.fromkeys(self.before.keys() - self.live().keys(), entry))
        for handle in {*(entry.fields[it] for it in HANDLES if it in entry.fields), *entry.fields.get("sets", ())}:
            self.last[entry.name, handle] = entry

    def live(self) -> dict[int, str]:
        """The kinds of the live handles."""
        its = self.machine
        found = {its.instance: "instance", **{it.handle: "session" for it in its.sessions}}
        for kind, those in (("action set", its.sets), ("action", its.actions), ("space", its.spaces), ("swapchain", its.chains)):
            found.update(dict.fromkeys(those, kind))
        found.pop(0, None)
        self.kinds.update(found)
        return found

    # ---- how entries are told

    def shown(self, entry: Entry) -> str:
        """An entry in a sentence."""
        if isinstance(entry.actor, int):
            return (f"script {entry.actor} " if self.has_many else "") + f"op {entry.number} {entry.name}"
        return f"the device's event {entry.number} ({entry.name})" if entry.actor == DEVICE else f"the compositor ({entry.name})"

    def by(self, done: str, entry: Entry | None) -> str:
        """What was done, and by which entry."""
        return f"{done} by {self.shown(entry)}" if entry else done

    def story(self, of: int, *steps: tuple[str, str]) -> str:
        """The last entry of the first of these ops on a handle, and the next one of the others, with what they did to it."""
        known = sorted(((self.last[op, of], done) for op, done in steps if (op, of) in self.last), key=lambda it: it[0].place)
        begun = next((at for at, (_, done) in enumerate(known) if done == steps[0][1]), len(known))
        parts = [self.by(done, entry) for entry, done in known[begun : begun + 2]]
        return f"; it was {' and '.join(parts)}" if parts else "; it never was"

    def session_of(self, its: Fields) -> Session:
        """The session of a call with these fields, which is live."""
        known = self.machine
        if "session" in its:
            return known.live_session(its["session"])
        return known.live_session((known.spaces[its["space"]] if "space" in its else known.chains[its["chain"]]).session)

    def state_since(self, its: Fields) -> str:
        """The state of the session of a call with these fields, and what brought it there."""
        session = self.session_of(its)
        since = self.since.get(session.handle)
        return f"the session is {session.state}" + (f" since {self.shown(since[1])}" if since else "")

    def gave_none(self, name: str, entry: Entry, what: str) -> str:
        """Why a name stands for 0."""
        given = self.named[entry.actor, name]
        answered = "" if given.is_plain else f", which was answered {given.answer.code},"
        return f"{self.shown(given)}{answered} gave no {what}"
