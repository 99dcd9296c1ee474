"""Replays what a report doesn't print: sessions' states, waits, which mark released which await, frames, the clock."""
from __future__ import annotations

from collections.abc import Iterable
from dataclasses import dataclass

from machine import sessions
from reports.reading import COMPOSITOR, DEVICE, Call, Report

STATES = ("IDLE", "READY", "SYNCHRONIZED", "VISIBLE", "FOCUSED", "STOPPING", "EXITING", "LOSS_PENDING")

# the calls that may have to wait; `frame` and `ended` are what `next_frame` told
MAY_WAIT = frozenset(("await", "wait_frame", "wait_image", "frame", "ended"))
# the calls that do something to a session, beside those that create and destroy
OF_SESSIONS = ("begin_session", "end_session", "request_exit_session", "end_frame")
AWAITED = {"next_frame": "a frame, or for all scripts to leave", "wait_frame": "the frames before its own", "wait_image": "an image"}


def is_refused(call: Call) -> bool:
    return call.code.startswith("XR_ERROR_")


def is_fault(call: Call) -> bool:
    """Whether this is no event of the device, but its end: it couldn't be read on, or a line is malformed."""
    return call.what in ("fault", "garbled")


def is_bad(call: Call) -> bool:
    return is_refused(call) or is_fault(call)


@dataclass
class Change:
    """What a session is from a place on: the states that it goes through there, and what is told of it in a drawing."""

    place: int
    states: list[str]
    told: list[str]
    is_running: bool = False
    is_lost: bool = False


class Session(sessions.Session):
    """A session as the machine has it: derived, since a report prints only what was polled."""

    def __init__(self, ordinal: int) -> None:
        super().__init__(ordinal, ordinal)
        self.changes: list[Change] = []
        self.ended: int | None = None

    def note(self, place: int, events: list[str]) -> None:
        """Keeps what these events tell of it, and whether it runs and is lost."""
        passed = [it.rpartition(" ")[2] for it in events]
        was = self.changes[-1] if self.changes else Change(0, [], [])
        told = passed + (["device lost"] if self.is_lost and not was.is_lost else [])
        if told or was.is_running != self.is_running:
            self.changes.append(Change(place, passed, told, self.is_running, self.is_lost))

    def fits(self, name: str) -> bool:
        """Whether a call of this name may be met by it."""
        if name in ("begin_session", "end_session"):
            return self.is_running == (name == "end_session") and self.state == ("STOPPING" if self.is_running else "READY")
        return self.is_running or name == "destroy_session"

    def follows(self, name: str) -> list[str]:
        """What a call of this name that was met does to it, before all settle."""
        first = ""
        if name in ("begin_session", "end_session"):
            self.set_running(name == "begin_session")
            first = "IDLE" if name == "end_session" and self.state == "STOPPING" else ""
        elif name == "request_exit_session":
            self.is_asked_to_exit = True
        elif name == "end_frame" and self.is_running and self.state == "READY":
            first = "SYNCHRONIZED"
        return self.enter(first) if first else []


class Sessions:
    """The sessions of a run: those that there were, those that are live, and what the names of scripts and the marks stand for, which is
    the ordinal of a session or nothing."""

    def __init__(self) -> None:
        self.found: list[Session] = []
        self.live: list[Session] = []
        self.names: dict[tuple[int, str], int] = {}
        self.marks: dict[int | None, int] = {}
        self.wish = "rest"

    def settle(self, place: int, told: Iterable[str] = ()) -> None:
        """All live sessions settle behind these events, and keep what is told of each."""
        events = [*told, *sessions.settled(self.live, self.wish)]
        for it in self.live:
            it.note(place, [event for event in events if event.startswith(f"state {it.ordinal} ")])

    def tell(self, call: Call) -> None:
        """A line of the device."""
        self.wish = call.text if call.name == "wish" else self.wish
        if call.name == "mark":
            self.marks[mark_of(call)] = 0
        for it in self.live:
            it.is_lost = it.is_lost or call.name == "lost" or is_fault(call)
        self.settle(call.place, [event for it in self.live for event in it.lose()] if call.name == "loss" else ())

    def call(self, call: Call) -> None:
        """A call of a script."""
        is_new = call.is_met and call.name == "create_session"
        if is_new:
            self.found.append(Session(len(self.found) + 1))
            self.live.append(self.found[-1])
            self.settle(call.place, self.live[-1].enter("IDLE"))
        elif call.is_met and call.name in ("destroy_session", "destroy_instance"):
            gone = [self.of(call)] if call.name == "destroy_session" and self.live else self.live
            self.live = [it for it in self.live if it not in gone]
            for it in gone:
                it.ended = call.place
            self.settle(call.place)
        elif call.is_met and call.name in OF_SESSIONS and self.live:
            self.settle(call.place, self.of(call).follows(call.name))
        self.name(call, len(self.found) if is_new else 0)

    def of(self, call: Call) -> Session:
        """The live session of a call: the one that it names. Where the scenario isn't known it is the first that the call fits."""
        ordinal = self.names.get((call.script, (call.arguments or {}).get("session", "")), 0)
        named = next((it for it in self.live if it.ordinal == ordinal), None)
        return named or next((it for it in self.live if it.fits(call.name)), self.live[0])

    def name(self, call: Call, new: int) -> None:
        """Keeps what a call gives a name or a mark."""
        given = call.arguments or {}
        if call.name == "mark":
            self.marks[given.get("mark")] = self.names.get((call.script, given.get("value", "")), 0)
        elif "as" in given:
            self.names[call.script, given["as"]] = self.marks.get(given["mark"], 0) if call.name == "await" else new


def sessions_of(ordered: Iterable[Call]) -> list[Session]:
    """The sessions of a run with the states that they go through."""
    its = Sessions()
    for call in ordered:
        if call.actor == DEVICE:
            its.tell(call)
        elif call.actor != COMPOSITOR:
            its.call(call)
    return its.found


def scripts_of(report: Report) -> list[str]:
    """The names of the scripts."""
    return [it for it in report.actors if it not in (DEVICE, COMPOSITOR)]


@dataclass
class Wait:
    """A bar: an actor was held back from its previous place to its own, or is for ever where the run is stuck."""

    actor: str
    start: int
    end: int | None
    text: str


@dataclass
class Arrow:
    """From the mark that released an await to it, or from where a frame ended to where it was taken.

    It is early where the mark was set when the awaiting actor had its turn, so that nothing was held back.
    """

    source: Call
    target: Call
    text: str
    is_frame: bool = False
    is_early: bool = False


def mark_of(call: Call) -> int | None:
    """The mark that a call sets or awaits, where it is known."""
    if call.name not in ("mark", "await"):
        return None
    if call.actor == DEVICE:
        return int(call.text)
    return call.arguments["mark"] if call.arguments else None


def setters_of(ordered: Iterable[Call]) -> dict[int, Call]:
    """The call that set each mark first."""
    found: dict[int, Call] = {}
    for call in ordered:
        mark = mark_of(call) if call.name == "mark" else None
        if mark:
            found.setdefault(mark, call)
    return found


def arrows_of(ordered: list[Call], waits: Iterable[Wait]) -> list[Arrow]:
    """An arrow for each await whose mark is known, from the call that set it first, and one for each frame."""
    held_back = {(wait.actor, wait.end) for wait in waits}
    setters = setters_of(ordered)
    ends: list[Call] = []
    arrows = []
    for call in ordered:
        mark = mark_of(call)
        if call.name == "await" and mark in setters and setters[mark].place < call.place:
            source = setters[mark]
            text = f"mark {mark}: set by {source.who} at place {source.place}, awaited by {call.who} at {call.place}"
            arrows.append(Arrow(source, call, text, is_early=(call.who, call.place) not in held_back))
        elif call.name == "end_frame" and call.is_met:
            ends.append(call)
        elif call.name == "frame" and call.number <= len(ends):
            source = ends[call.number - 1]
            text = f"frame {call.number}: ended at place {source.place}, taken at {call.place}"
            arrows.append(Arrow(source, call, text, is_frame=True))
    return arrows


def _turns_passed(order: dict[str, int], actor: str, start: int, between: list[Call]) -> int:
    """How many turns of an actor went by at least between its call at a place, where 0 is the start, and its next one; turns go round in this order.

    Others make at most a call each until its next turn, in the order of turns behind its own.
    """
    own, count = order[actor], len(order)
    last = 0 if start else count - 1 - own
    passed = 0
    for call in between:
        behind = (order[call.who] - own) % count
        passed += behind <= last
        last = behind
    return passed


def waits_of(report: Report) -> list[Wait]:
    """The bars of all actors: who was held back until when, and who is stuck. A call that could have been made at its first turn has none."""
    order = {actor: i for i, actor in enumerate((*scripts_of(report), DEVICE, COMPOSITOR))}
    ordered, waits = report.ordered(), []
    setters = setters_of(ordered)
    for actor, calls in report.actors.items():
        last = unseen = 0
        for call in calls:
            mark = mark_of(call)
            is_set = mark in setters and setters[mark].place <= last
            if call.name in MAY_WAIT and not is_set and _turns_passed(order, actor, last, ordered[last : call.place - 1]) > unseen:
                what = "the next frame" if actor == COMPOSITOR else awaited(call.name, mark)
                waits.append(Wait(actor, last, call.place, f"{actor} waits for {what}"))
            # behind a frame the compositor gives back each image in a turn, at most, which has no place; and one turn more
            gives = 1 + sum(len(layer["stamps"]) for layer in call.values["layers"]) if call.name == "frame" else 0
            last, unseen = (call.place, gives) if call.is_counted else (last, unseen + 1)
    for waiter in report.stuck:
        last = max((call.place for call in report.actors[waiter.who] if call.is_counted), default=0)
        waits.append(Wait(waiter.who, last, None, f"waits for {awaited(waiter.name, mark_of(waiter))}"))
    return waits


def awaited(name: str, mark: int | None) -> str:
    """What an actor waits for in a call."""
    if name == "await":
        return f"mark {mark}" if mark else "a mark"
    return AWAITED.get(name, f"{name} to be ready")


def clock_of(report: Report) -> list[tuple[int, int]]:
    """The places at which the device's clock goes on, and what it shows from there."""
    shown = [(0, 0)]
    for call in report.device:
        if call.name == "clock" and int(call.text) > shown[-1][1]:
            shown.append((call.place, int(call.text)))
    return shown


def in_units(ns: int) -> str:
    """A time of the device, exact: in ns below a million, else in ms."""
    whole, rest = divmod(abs(ns), 1_000_000)
    return f"{'-' if ns < 0 else ''}{whole:,}{f'.{rest:06}'.rstrip('0') if rest else ''} ms" if whole else f"{ns:,} ns"
