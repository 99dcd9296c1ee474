"""Scenarios and devices by chance, in which each wait ends, so that a run of them on threads comes to its end.

Marks have ranks. An actor sets its marks of a rank before it waits for any of this rank, and comes to a rank once it is through
with those below. Each mark that is waited for is set by an op or a line that nothing leaves out. So by induction all awaits
end: once they have on all ranks below, everyone comes to its marks of this one. Each `wait_frame` stands in one piece with its
begin, with no wait for a mark or a frame between, and there is no other one. Why that is enough is said in threads.py, which
looks at each text that is made once more.
"""
from __future__ import annotations

import random
from collections.abc import Callable
from typing import Any, NamedTuple

from helpers import Ops, rows_of, value_of

# a call as tables/ops.txt has it: its op, and the sorts or the values of its fields
WEIGHTS, CALLS = zip(*(row.split(" ", 1) for (row,) in rows_of("ops")))
FOUNDED = [row for (row,) in rows_of("founds")]
OF_SHORT = 10
# so many sessions a founder may create beside its first one
FURTHER = 0, 0, 0, 1, 1, 2, 3
WITH_FRAME = ("poll_event instance", "locate_space space base:space time", "get_float session action:float sub", "get_system instance form as:system")
EXITS = ("request_exit_session session", "end_session session", "poll_event instance", "destroy_session session", "destroy_instance instance")
ACTIONS = ("boolean", "float", "vector", "pose")
HANDLES = ("instance", "session", "space", "set", *ACTIONS, "chain")
TEXTS = ("user", "profile", *(f"to_{it}" for it in ACTIONS), "text")
GROUPS = {"action": ACTIONS, "handle": HANDLES, "atom": TEXTS}
VALUES = {sort: [value_of(it) for it in its] for sort, *its in rows_of("values")}
LINES_OF_DEVICE = [line for row in rows_of("device_lines") for line in row]
ENDS_OF_DEVICE = ("loss", "lost", "no line", "wish rest")


class Mark(NamedTuple):
    """A mark with its rank, who sets it (the device is 0), and the sort of its value, which is empty where it has none."""

    number: int
    rank: int
    owner: int
    sort: str


class Writer:
    """A script that is written, and the names that it has given, by their sorts. While it is sure it uses the last of them."""

    def __init__(self, chance: random.Random, number: int) -> None:
        self.chance, self.number = chance, number
        self.ops: Ops = []
        self.names: dict[str, list[str]] = {}
        self.count = 0
        self.is_sure = False

    def known(self, *sorts: str) -> list[str]:
        return [name for sort in sorts for name in self.names.get(sort, [])]

    def give(self, sort: str) -> str:
        """A new name."""
        self.count += 1
        self.names.setdefault(sort, []).append(f"n{self.count}")
        return f"n{self.count}"

    def some(self, least: int, most: int, value: Callable[[], Any]) -> list:
        return [value() for _ in range(self.chance.randint(least, most))]

    def named(self, sort: str) -> str | int:
        """A handle or an atom of a sort, mostly; else another one, or none."""
        others, nothing = (HANDLES, [0]) if sort in (*HANDLES, "action", "handle") else (TEXTS, [0, 1, 500])
        found = self.known(*GROUPS.get(sort, (sort,)))
        if self.is_sure:
            return found[-1]
        return self.chance.choice((found if self.chance.random() < 0.95 else [*self.known(*others), *nothing]) or nothing)

    def bindings(self) -> list[list]:
        kinds = ACTIONS if self.is_sure else self.some(0, 4, lambda: self.chance.choice([it for it in ACTIONS if self.known(it)] or ["boolean"]))
        return [[self.named(it), self.named(f"to_{it}")] for it in kinds]

    def layers(self) -> list[dict]:
        if not self.known("chain") or self.chance.random() < 0.3:
            return []
        image, space = [self.chance.choice(self.known("chain")), 0, 0, 8, 8], self.named("space")
        return [self.chance.choice(({"projection": space, "views": [image, image]}, {"quad": space, "image": image, "pose": 1}))]

    def value(self, sort: str) -> Any:
        """A value of a field."""
        chance, users = self.chance, self.known("user")
        made: dict[str, Callable[[], Any]] = {
            "low": lambda: chance.randint(1, 32),
            "high": lambda: chance.randint(33, 64),
            "name": lambda: chance.choice((f"x{self.number}_{self.count}",) * 9 + ("x", "X y")),
            "sub": lambda: chance.choice([0, 0, *users]),
            "users": lambda: users[:2] if chance.random() < 0.7 else [],
            "sets": lambda: self.some(1, 2, lambda: self.named("set")),
            "active": lambda: self.some(0, 2, lambda: [self.named("set"), chance.choice([0, 0, *users])]),
            "bindings": self.bindings,
            "layers": self.layers,
        }
        if sort in made:
            return made[sort]()
        if sort in VALUES:
            return self.known(sort)[-1] if self.known(sort) and chance.random() < 0.8 else chance.choice(VALUES[sort])
        return self.named(sort)

    def call(self, row: str) -> None:
        """A call whose fields have these values, or values of these sorts by chance."""
        op, *fields = row.split(" ")
        made: dict[str, Any] = {"op": op}
        for it in fields:
            key, is_fixed, fixed = it.partition("=")
            key, _, sort = key.partition(":")
            made[key] = value_of(fixed) if is_fixed else self.give(sort) if key == "as" else self.value(sort or key)
        self.ops.append(made)

    def calls(self, most: int) -> None:
        """Some calls by chance, and frames where there may be a session."""
        for row in self.chance.choices(CALLS, list(map(int, WEIGHTS)), k=self.chance.randint(0, most)):
            self.call(row)
        if self.known("session") and self.chance.random() < 0.5:
            self.frame()

    def frame(self, of: str = "") -> None:
        """A frame of a session in one piece, so that nothing but an image holds it up before its begin."""
        session = f"session={of or self.chance.choice(self.known('session'))}"
        self.call(f"wait_frame {session} as:time")
        for row in self.chance.choices(WITH_FRAME, k=self.chance.randint(0, 2)):
            self.call(row)
        self.call(f"begin_frame {session}")
        if self.known("chain") and self.chance.random() < 0.7:
            chain = f"chain={self.chance.choice(self.known('chain'))}"
            for row in ("acquire_image", "wait_image timeout", "paint stamp", "release_image"):
                self.call(f"{row} {chain}")
        self.call(f"end_frame {session} time={self.known('time')[-1]} blend=opaque layers")

    def founds(self) -> None:
        """Makes what the others are handed."""
        self.is_sure = True
        for row in FOUNDED[:OF_SHORT] if self.chance.random() < 0.2 else FOUNDED:
            self.call(row)
        self.is_sure = False


def marks_by_chance(chance: random.Random, scripts: int, founder: int, has_device: bool) -> list[Mark]:
    """Marks of ranks 0 to 5: all scripts begin together; the device is ready; what the founder hands over; that its sessions are
    begun; some others; and that a script is through."""
    everyone = range(1, scripts + 1)
    numbers, others = chance.sample(range(1, 33), 32), chance.sample(range(33, 65), 32)
    marks = [Mark(others.pop(), 0, it, "") for it in everyone] if chance.random() < 0.8 else []
    marks += [Mark(others.pop(), 1, 0, "")] if has_device else []
    marks += [Mark(numbers.pop(), 2, founder, sort) for sort in HANDLES]
    marks += [Mark(others.pop(), 2, founder, sort) for sort in ("user", "profile")] + [Mark(others.pop(), 3, founder, "")]
    for _ in range(chance.randint(0, 6)):
        sort = chance.choice(("", "", *HANDLES, *TEXTS))
        number = others.pop() if sort in ("", *TEXTS) else numbers.pop()
        marks.append(Mark(number, 4, chance.randint(0 if has_device and not sort else 1, scripts), sort))
    return marks + [Mark(others.pop(), 5, it, "") for it in everyone]


def script_by_chance(chance: random.Random, number: int, founder: int, marks: list[Mark]) -> Ops:
    """A script that sets its marks and waits for others', rank by rank."""
    writer, is_founder = Writer(chance, number), number == founder
    for rank in range(6):
        if is_founder and rank == 2:
            writer.founds()
        if is_founder and rank == 3:
            for _ in range(chance.choice(FURTHER)):
                writer.call("create_session instance system as:session")
            for it in writer.known("session"):
                writer.call(f"begin_session session={it} view=stereo")
                writer.frame(it)
        writer.calls(4 if rank > 2 else 1)
        for mark in sorted((it for it in marks if it.rank == rank), key=lambda it: it.owner != number):
            if mark.owner == number:
                known = writer.known(mark.sort)
                writer.call(" ".join([f"mark mark={mark.number}", *(f"value={it}" for it in (known[:1] if rank < 4 else known[-1:]))]))
            elif chance.random() < (0.9 if rank in (0, 2, 3) else is_founder if rank in (1, 5) else 0.4):
                writer.call(f"await mark={mark.number}" + (f" as:{mark.sort}" if mark.sort else ""))
        writer.calls(4 if rank > 1 else 1)
    if is_founder and chance.random() < 0.7:
        for row in EXITS:
            writer.call(row)
    return writer.ops


def device_by_chance(chance: random.Random, marks: list[Mark]) -> list[str]:
    """A device's lines. It sets its marks and waits for others' as a script does."""
    lines = ["wish focused"]
    for rank in range(6):
        lines += chance.choices(LINES_OF_DEVICE, k=chance.randint(0, 5))
        lines += [f"mark {it.number}" for it in marks if it.rank == rank and it.owner == 0]
        lines += [f"await {it.number}" for it in marks if it.rank == rank and it.owner and chance.random() < 0.15]
    return [*lines, *([chance.choice(ENDS_OF_DEVICE)] if chance.random() < 0.3 else [])]


def scenario(number: int) -> tuple[list[Ops], list[str] | None]:
    """The scripts and the device of this number."""
    chance = random.Random(number)
    scripts, has_device = chance.choice((1, 2, 2, 3, 3, 4, 5, 6, 7, 8)), chance.random() < 0.85
    founder = chance.randint(1, scripts)
    marks = marks_by_chance(chance, scripts, founder, has_device)
    written = [script_by_chance(chance, it, founder, marks) for it in range(1, scripts + 1)]
    return written, device_by_chance(chance, marks) if has_device else None
