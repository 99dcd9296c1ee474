"""What a call is answered, and the two ways in which it isn't carried out: it is refused, or it has to wait."""
from __future__ import annotations

from collections.abc import Callable, Iterable
from typing import Any, NamedTuple, TypeVar

SUCCESS, LOSS_PENDING, NOT_FOCUSED = "XR_SUCCESS", "XR_SESSION_LOSS_PENDING", "XR_SESSION_NOT_FOCUSED"
OUT_OF_MEMORY, NO_HANDLE = "XR_ERROR_OUT_OF_MEMORY", "XR_ERROR_HANDLE_INVALID"

# the values of a call's fields, by their names
Fields = dict[str, Any]
FoundT = TypeVar("FoundT")
ItemT = TypeVar("ItemT")


class Answer(NamedTuple):
    """A call's code, its values as a report prints them, what a name stands for that the call gives, and which item of a list, from 1, and which
    one in it refuses the call, where one does."""

    code: str = SUCCESS
    words: str = ""
    given: int = 0
    items: tuple[int, ...] = ()

    def told(self) -> str:
        """The code and the values, as they stand in a report."""
        return f"{self.code} {self.words}".rstrip(" ")


class Refused(Exception):
    """A refusal holds. It changes nothing."""

    def __init__(self, code: str, words: str = "") -> None:
        super().__init__(code)
        self.answer = Answer(code, words)


class HeldBack(Exception):
    """Nothing refuses the call, and it has to wait."""


def refuse(holds: bool, code: str) -> None:
    """Refuses the call by this code, where the condition holds."""
    if holds:
        raise Refused(code)


def each(items: Iterable[ItemT], ask: Callable[[ItemT], FoundT]) -> list[FoundT]:
    """What this comes to of each item of a list. A refusal says which item it is of."""
    found = []
    for number, it in enumerate(items, 1):
        try:
            found.append(ask(it))
        except Refused as e:
            e.answer = e.answer._replace(items=(number, *e.answer.items))
            raise
    return found


def due(found: FoundT | None, code: str) -> FoundT:
    """What has to be there; the call is refused by this code where it isn't."""
    if found is None:
        raise Refused(code)
    return found


def live(found: dict[int, FoundT], handle: int) -> FoundT:
    """What a call's handle names, which has to be live."""
    return due(found.get(handle), NO_HANDLE)
