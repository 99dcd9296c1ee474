"""Path texts and names, interaction profiles, action sets and actions, and what a sync makes of a device's inputs (OpenXR 1.0 sections
6.2 to 6.4, and chapter 11 with xrSyncActions and "Resolution of action bindings")."""
from __future__ import annotations

import re
from collections.abc import Iterable
from dataclasses import dataclass, field
from typing import NamedTuple, Optional

from machine.answers import OUT_OF_MEMORY, due, each, refuse
from scenarios.devices import CONTROLLERS, POSES, USERS

MOST_PATH = 255
MOST_ATOMS = 1024
MOST_NAME = 63
MOST_LOCALIZED = 127
MOST_SETS = 16
MOST_ACTIONS = 64
MOST_SUGGESTED = 512
MOST_SYNCED = 96

# each name behind a slash has a byte that is no period
PATH = re.compile(r"(?:/\.*[a-z0-9_-][a-z0-9_.-]*)+")
NAME = re.compile(r"[a-z0-9_.-]+")
PICKED = re.compile(rf"({'|'.join(USERS)})/(input|output)/(.*)")

DIGITAL = ("click", "touch")
PRESSED_FROM = 20480
RELEASED_BELOW = 12288
DOWN = 32768

# the components that an identifier alone may stand for, by the action's type; the first that is there is picked
ALONE = {"boolean": ("click", "value"), "float": ("value", "click"), "pose": ("pose",)}


# ---- texts


class Atoms:
    """The distinct path texts in the order in which they came. The k-th of them has the atom k."""

    def __init__(self) -> None:
        self.texts: list[str] = []
        self.atoms: dict[str, int] = {}

    def text_of(self, atom: int) -> str | None:
        return self.texts[atom - 1] if 1 <= atom <= len(self.texts) else None

    def known(self, atom: int) -> str:
        """The text of an atom; what is no atom is refused."""
        return due(self.text_of(atom), "XR_ERROR_PATH_INVALID")

    def atom_of(self, text: str, is_short: bool) -> int:
        """The atom of a text, which is kept where it is new."""
        refuse(PATH.fullmatch(text) is None or len(text) > MOST_PATH, "XR_ERROR_PATH_FORMAT_INVALID")
        if text not in self.atoms:
            refuse(len(self.texts) >= MOST_ATOMS, "XR_ERROR_PATH_COUNT_EXCEEDED")
            refuse(is_short, OUT_OF_MEMORY)
            self.texts.append(text)
            self.atoms[text] = len(self.texts)
        return self.atoms[text]


def check_name(name: str, taken: Iterable[str]) -> None:
    """A name of an action set or an action, where these are taken."""
    refuse(not 1 <= len(name.encode()) <= MOST_NAME or not name.strip("."), "XR_ERROR_NAME_INVALID")
    refuse(not NAME.fullmatch(name), "XR_ERROR_PATH_FORMAT_INVALID")
    refuse(name in taken, "XR_ERROR_NAME_DUPLICATED")


def check_localized(localized: str, taken: Iterable[str]) -> None:
    """A localized name, where these are taken. What a scenario has is UTF-8."""
    refuse(not 1 <= len(localized.encode()) <= MOST_LOCALIZED, "XR_ERROR_LOCALIZED_NAME_INVALID")
    refuse(localized in taken, "XR_ERROR_LOCALIZED_NAME_DUPLICATED")


# ---- what a suggested path picks of a controller


class Pick(NamedTuple):
    """What a path picks: a user path, an identifier or an output, and inputs, which are two axes of a vector, and of an output none."""

    user: str
    source: str
    inputs: tuple[str, ...]


def inputs_picked(kind: str, known: tuple[str, ...], entry: str) -> tuple[str, ...]:
    """The inputs that an entry behind `/input/` picks for an action's type, of those that are known; none where it doesn't fit."""
    if kind == "vector":
        axes = f"{entry}/x", f"{entry}/y"
        return axes if set(axes) <= set(known) else ()
    if kind in ALONE and entry in known and (entry in POSES) == (kind == "pose"):
        return (entry,)
    return tuple([f"{entry}/{it}" for it in ALONE.get(kind, ()) if f"{entry}/{it}" in known][:1])


def pick_of(profile: str, kind: str, path: str) -> Pick | None:
    """What a suggested path picks of a profile's controller for an action's type, where something fits."""
    found = PICKED.fullmatch(path)
    if not found:
        return None
    user, side, entry = found.groups()
    inputs, outputs = CONTROLLERS.get((profile, user), ((), ()))
    if side == "output":
        return Pick(user, entry, ()) if kind == "vibration" and entry in outputs else None
    picked = inputs_picked(kind, inputs, entry)
    return Pick(user, entry.partition("/")[0], picked) if picked else None


# ---- action sets and actions


@dataclass
class ActionSet:
    """A live action set. It is sealed from its first attaching on."""

    handle: int
    name: str
    localized: str
    priority: int
    is_sealed: bool = False


class Column(NamedTuple):
    """What an action shows since the last sync, for all user paths or for one. A pose has an origin."""

    x: int = 0
    y: int = 0
    has_changed: bool = False
    time: int = 0
    is_active: bool = False
    origin: str | None = None


INACTIVE = Column()
# the columns that are active, by an action and a user path, or None for all; every other one is inactive
Columns = dict[tuple[int, Optional[str]], Column]


@dataclass(eq=False)
class Action:
    """A live action. It has a column for all user paths, and one for each that it declares."""

    handle: int
    set: ActionSet
    name: str
    kind: str
    users: list[str]
    localized: str


class Suggestion(NamedTuple):
    """An action, and what its path picks of the profile's controller."""

    action: Action
    pick: Pick

    @property
    def source(self) -> tuple[str, str]:
        """Its path up to the identifier."""
        return self.pick.user, self.pick.source


def users_of(atoms: Atoms, subactions: list[int]) -> list[str]:
    """The user paths that an action declares by these atoms, each once."""
    users: list[str] = []

    def declare(atom: int) -> None:
        user = atoms.known(atom)
        refuse(user not in USERS or user in users, "XR_ERROR_PATH_UNSUPPORTED")
        users.append(user)

    each(subactions, declare)
    return users


def column_of(atoms: Atoms, action: Action, sub: int) -> str | None:
    """Which column of an action a number names: that of all user paths by 0, or that of a user path by its atom."""
    user = atoms.text_of(sub) if sub else None
    refuse(sub != 0 and user not in action.users, "XR_ERROR_PATH_UNSUPPORTED")
    return user


# ---- inputs, and a sync


def is_digital(entry: str) -> bool:
    return entry.partition("/")[2] in DIGITAL


@dataclass
class Device:
    """What the device has told of itself: its clock, its grid, its wish, whether it has a stage, the profiles that are connected, what each input
    shows, and which analogue ones count as pressed."""

    clock: int = 0
    base: int = 0
    period: int = 11_111_111
    wish: str = "rest"
    has_stage: bool = False
    connected: dict[str, str] = field(default_factory=dict)
    values: dict[tuple[str, str], int] = field(default_factory=dict)
    pressed: set[tuple[str, str]] = field(default_factory=set)

    def connect(self, user: str, profile: str) -> None:
        """A controller is connected at a user path, or `none`: its inputs are 0 there."""
        self.connected[user] = profile
        self.values = {at: value for at, value in self.values.items() if at[0] != user}
        self.pressed = {at for at in self.pressed if at[0] != user}

    def show(self, user: str, entry: str, value: int) -> None:
        """An input shows a value, of which its component says what is stored."""
        at = user, entry
        if is_digital(entry):
            self.values[at] = int(value >= 1)
            return
        self.values[at] = max(value, 0) if entry.endswith("/value") else value
        if self.values[at] >= PRESSED_FROM:
            self.pressed.add(at)
        elif self.values[at] < RELEASED_BELOW:
            self.pressed.discard(at)

    def found(self, kind: str, picks: list[Pick]) -> tuple[int, int, str | None]:
        """The value of an action by its live bindings, and a pose's origin: of equal ones the first is taken. A click or a touch is down or 32768,
        and an analogue input is down where it counts as pressed."""
        places = [[(it.user, entry) for entry in it.inputs] for it in picks]
        if kind == "boolean":
            return int(any(self.values.get(at, 0) != 0 if is_digital(at[1]) else at in self.pressed for at, *_ in places)), 0, None
        if kind == "float":
            return max((self.values.get(at, 0) * (DOWN if is_digital(at[1]) else 1) for at, *_ in places), key=abs), 0, None
        if kind == "vector":
            x, y = max(([self.values.get(at, 0) for at in axes] for axes in places), key=lambda it: it[0] ** 2 + it[1] ** 2)
            return x, y, None
        return 0, 0, "/input/".join(places[0][0]) if kind == "pose" else None

    def sync(
        self, actions: Iterable[Action], before: Columns, suggestions: dict[str, list[Suggestion]], listed: set[tuple[int, str | None]]
    ) -> Columns:
        """What each column of each action becomes, which is what its live bindings show. These are the suggestions for the controllers that
        are connected, in the order of the user paths and then of the suggestions, whose sets are listed, each for all user paths by None or
        for one, and that none of the same source and a larger priority outranks."""
        found = [it for user in USERS for it in suggestions.get(self.connected.get(user, ""), []) if it.pick.user == user]
        heard = [it for it in found if {(it.action.set.handle, None), (it.action.set.handle, it.pick.user)} & listed]
        largest: dict[tuple[str, str], int] = {}
        for it in heard:
            largest[it.source] = max(largest.get(it.source, 0), it.action.set.priority)
        live = [it for it in heard if it.action.set.priority == largest[it.source]]
        columns: Columns = {}
        for action in actions:
            mine = [it.pick for it in live if it.action is action]
            for user in (None, *action.users):
                at, picks = (action.handle, user), [it for it in mine if user in (None, it.user)]
                if picks:
                    x, y, origin = self.found(action.kind, picks)
                    was = before.get(at, INACTIVE)
                    has_changed = (x, y) != (was.x, was.y)
                    columns[at] = Column(x, y, has_changed, self.clock if has_changed else was.time, True, origin)
        return columns
