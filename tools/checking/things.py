"""What the names of a script stand for, as far as its texts tell."""
from __future__ import annotations

from collections.abc import Iterator
from dataclasses import dataclass, field
from typing import Any

from scenarios.reading import MOST_HANDLE_MARK, Op

# what a name stands for by the op that gives it, and what is wanted in a field or as a part of one
GIVEN = {
    **{f"create_{it}": it for it in ("instance", "session", "action", "swapchain")},
    **{"create_action_set": "action set", "create_reference_space": "space", "create_action_space": "space"},
    **{"get_system": "system", "wait_frame": "time"},
}
WANTED = {
    **{it: it for it in ("instance", "session", "space", "action", "system", "time")},
    **{"base": "space", "set": "action set", "chain": "swapchain", "projection": "space", "quad": "space"},
    **{"sets": "action set", "bindings": "action", "active": "action set", "image": "swapchain", "views": "swapchain"},
}
PARTS_OF_LAYERS = ("projection", "quad", "image", "views")

# the field that names what a thing of a kind is made from, and that which an op asks for something without an end of its own
MADE_FROM = {"session": "instance", "action set": "instance", "action": "set", "space": "session", "swapchain": "session"}
ASKED_OF = {"get_system": "instance", "string_to_path": "instance", "wait_frame": "session"}

Path = tuple[Any, ...]


@dataclass(eq=False)
class Thing:
    """What a name stands for: its kind where that is known, the op that made it and its place, what it is made from or asked of, the op that destroys
    it, the op that begins it where it is a session, whether it goes from script to script or stands for no handle, what was made from it last by its
    names, whether an image of it is waited for, and the op that attached it or attached sets to it."""

    kind: str | None
    made: Op | None = None
    made_at: int = 0
    parent: Thing | None = None
    asked: Thing | None = None
    destroyed: str = ""
    begun: Op | None = None
    begun_at: int = 0
    is_handed: bool = False
    is_none: bool = False
    beside: dict[tuple[str, str], Thing] = field(default_factory=dict)
    has_waited: bool = False
    attached: str = ""

    def gone(self) -> Thing | None:
        """The thing whose end is its end too, if it has come to an end."""
        return self if self.destroyed else self.parent.gone() if self.parent else None

    def is_over(self) -> bool:
        """Whether it has come to an end, or what it was asked of has."""
        return bool(self.gone() or self.asked and self.asked.gone())


def uses_of(op: Op) -> Iterator[tuple[Path, str, str | None]]:
    """The names that an op uses for what has a kind: where each stands in the op, and the kind that is wanted there. Of a list in a list the first
    item is one."""
    parts: list[tuple[Path, Any]] = []
    for key, it in op.fields.items():
        if key == "layers":
            parts += [((key, at, part), layer[part]) for at, layer in enumerate(it) for part in PARTS_OF_LAYERS if part in layer]
        elif key in WANTED or key == "value":
            parts.append(((key,), it))
    for path, value in parts:
        items = [(path, value)]
        if isinstance(value, list):
            items = [((*path, at, 0), it[0]) if isinstance(it, list) else ((*path, at), it) for at, it in enumerate(value)]
        yield from ((place, name, WANTED.get(path[-1])) for place, name in items if isinstance(name, str))


def kinds_of_marks(scripts: list[list[Op]]) -> dict[int, set[str | None]]:
    """The kinds of what the scripts hand over by each mark. They follow from each other, so this goes on until they stay."""
    known: dict[int, set[str | None]] = {}
    for _ in range(MOST_HANDLE_MARK + 1):
        found: dict[int, set[str | None]] = {}
        for ops in scripts:
            kinds: dict[str, str | None] = {}
            for op in ops:
                value = op.fields.get("value")
                if op.name == "mark" and isinstance(value, str):
                    found.setdefault(op.fields["mark"], set()).add(kinds.get(value))
                if "as" in op.fields:
                    kinds[op.fields["as"]] = kind_given(op, known)
        if found == known:
            break
        known = found
    return known


def kind_given(op: Op, marks: dict[int, set[str | None]]) -> str | None:
    """The kind of what an op gives, where there is one kind that it may be of."""
    kinds = marks.get(op.fields["mark"], set()) if op.name == "await" else {GIVEN.get(op.name)}
    return next(iter(kinds)) if len(kinds) == 1 else None
