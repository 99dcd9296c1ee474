"""Sessions with their states (OpenXR 1.0 chapter 9, "Session Lifecycle"), and a space (chapter 7, "Spaces"). Poses and offsets are
numbers."""
from __future__ import annotations

from collections.abc import Sequence
from typing import NamedTuple

from machine.answers import LOSS_PENDING, SUCCESS, Answer, refuse
from machine.inputs import Columns

# so many sessions are live at most
MOST_SESSIONS = 4

# the states that a loss doesn't change, and those of a session that the wish may be for
LAST = "EXITING", "LOSS_PENDING"
BEGUN = "SYNCHRONIZED", "VISIBLE", "FOCUSED"


def next_state(state: str, wish: str, exits: bool) -> str | None:
    """Where the first row that fits leads, if one fits."""
    rows = {
        "IDLE": ((exits, "EXITING"), (wish != "rest", "READY")),
        "SYNCHRONIZED": ((exits or wish == "rest", "STOPPING"), (wish in ("visible", "focused"), "VISIBLE")),
        "VISIBLE": ((exits or wish in ("rest", "ready"), "SYNCHRONIZED"), (wish == "focused", "FOCUSED")),
        "FOCUSED": ((exits or wish != "focused", "VISIBLE"),),
    }
    return next((it for fits, it in rows.get(state, ()) if fits), None)


class Session:
    """A live session with its life, the action sets that it has attached, if it has, its frame loop, and what actions show in it."""

    def __init__(self, handle: int, ordinal: int) -> None:
        self.handle, self.ordinal, self.state, self.predicted = handle, ordinal, "", 0
        self.is_running = self.is_asked_to_exit = self.is_lost = self.has_waited = self.has_begun = False
        self.attached: set[int] | None = None
        self.columns: Columns = {}

    @property
    def may_be_target(self) -> bool:
        return self.state in BEGUN and not self.is_asked_to_exit

    def told(self, states: list[str]) -> list[str]:
        """The events that tell states."""
        return [f"state {self.ordinal} {it}" for it in states]

    def settle(self, wish: str) -> list[str]:
        """Goes on by the table of states, until no row fits."""
        through = []
        while following := next_state(self.state, wish, self.is_asked_to_exit):
            self.state = following
            through.append(following)
        return self.told(through)

    def enter(self, state: str) -> list[str]:
        """Comes to a state."""
        self.state = state
        return self.told([state])

    def lose(self) -> list[str]:
        """Its loss is pending from now on, unless it is in one of the last states."""
        return [] if self.state in LAST else self.enter("LOSS_PENDING")

    def check_loss(self) -> None:
        refuse(self.is_lost, "XR_ERROR_SESSION_LOST")

    def answer(self, words: str = "", given: int = 0) -> Answer:
        """A plain success, which says so where the session's loss is pending."""
        return Answer(LOSS_PENDING if self.state == "LOSS_PENDING" else SUCCESS, words, given)

    def set_running(self, is_running: bool) -> None:
        """A running period begins or ends. A frame that is waited for or begun is forgotten."""
        self.is_running = is_running
        self.has_waited = self.has_begun = False


def target_of(sessions: Sequence[Session]) -> Session | None:
    """The session that the wish is for: of those that it may be for, the one that was created last."""
    return next((it for it in reversed(sessions) if it.may_be_target), None)


def settled(sessions: Sequence[Session], wish: str) -> list[str]:
    """All live sessions settle, in the order of their creation: the others, for which nobody wishes the focus, and then the target; and
    again where that has changed meanwhile."""
    target, others = target_of(sessions), "visible" if wish == "focused" else wish
    told = [event for it in sessions if it is not target for event in it.settle(others)]
    told += target.settle(wish) if target else []
    return told if target_of(sessions) is target else [*told, *settled(sessions, wish)]


class Space(NamedTuple):
    """A live space: the session that it is of, its offset, and what it moves with, which is the origin of its kind, or a column of an
    action: for all user paths by None, or for one."""

    session: int
    offset: int
    kind: str = ""
    action: int = 0
    user: str | None = None
