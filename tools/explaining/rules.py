"""The rows of docs/MACHINE.md by which calls are refused."""
from __future__ import annotations

import re
from functools import lru_cache
from pathlib import Path
from typing import NamedTuple

PAGE = Path(__file__).resolve().parents[2] / "docs/MACHINE.md"
SHOWN = "docs/MACHINE.md"
LAYERS, ORDER, CALLS = "## Layers", "**Call order.**", "## Calls"
FIRST_CODES = ("XR_ERROR_HANDLE_INVALID", "XR_ERROR_SESSION_LOST")
FIRST, PENDING = "Two refusals come first", "**Calls on a session**"


class Rule(NamedTuple):
    """What the page says, and on which line."""

    line: int
    text: str

    def told(self) -> str:
        return f"{SHOWN}:{self.line}: {self.text}"


@lru_cache(maxsize=None)
def pieces() -> list[Rule]:
    """The paragraphs, the items of lists and the rows of tables of the page, each on one line."""
    found: list[list[str]] = []
    lines: list[int] = []
    is_open = False
    for number, line in enumerate(PAGE.read_text(encoding="utf-8").split("\n"), 1):
        text = line.strip()
        if not is_open or not text or re.match(r"[-#|]|\d\. ", text):
            found.append([])
            lines.append(number)
        found[-1].append(text)
        is_open = bool(text)
    return [Rule(at, " ".join(it)) for at, it in zip(lines, found) if it != [""]]


def behind(front: str) -> list[Rule]:
    """What stands behind the piece that begins so."""
    found = pieces()
    return found[next(at for at, it in enumerate(found) if it.text.startswith(front)) + 1 :]


def cut(rule: Rule, code: str, is_each: bool) -> Rule:
    """A paragraph or a row of a call, as far as it is about a code; of a row that names it twice, once for each item of a list, one of both."""
    front, _, refusals = rule.text.removeprefix("- ").partition(": ") if rule.text.startswith("- ") else ("", "", rule.text)
    parts = [it for it in re.split(r"; |\. (?=[A-Z`])", refusals) if f"`{code}`" in it]
    return rule._replace(text=f"{front}: {parts[-is_each].rstrip('.')}".removeprefix(": "))


def rule_of(op: str, code: str, items: tuple[int, ...]) -> Rule:
    """The row by which a call is answered so: perhaps for an item of a list, or for a part of that."""
    if code == "XR_ERROR_CALL_ORDER_INVALID":
        return next(it for it in behind(ORDER) if it.text.startswith("|") and f"`{op}`" in it.text.split("|")[1])
    if code == "XR_SESSION_LOSS_PENDING" or code in FIRST_CODES and not items:
        front = PENDING if code == "XR_SESSION_LOSS_PENDING" else FIRST
        return cut(next(it for it in pieces() if it.text.startswith(front)), code, False)
    layers = [it for it in behind(LAYERS) if re.match(r"\d\. ", it.text) and f"`{code}`" in it.text] if op == "end_frame" else []
    if layers:
        # a handle is that of the layer's space, or that of a swapchain
        return layers[-1 if len(items) > 1 else 0]
    rows = [it for it in behind(CALLS) if it.text.startswith("- `")]
    own = next(at for at, it in enumerate(rows) if f"`{op}`" in it.text.split(":")[0])
    # what a row has as above stands in one before it
    return cut(next(it for it in rows[own::-1] if f"`{code}`" in it.text), code, bool(items))
