"""The layout that `rt fmt` gives code, as far as tables need it."""
from __future__ import annotations

WIDTH = 100
BRACED, LISTED, SHORT = 18, 60, 10


def fill(indent: int, words: list[str], width: int = WIDTH, joint: str = ",") -> list[str]:
    """As many words on a line as fit, each with a joint behind it."""
    rows: list[str] = []
    for word in words:
        if rows and len(f"{rows[-1]} {word}{joint}") <= width:
            rows[-1] += f" {word}{joint}"
        else:
            rows.append(" " * indent + word + joint)
    return rows


def enclosed(indent: int, column: int, head: str, items: list[str], tail: str, most: int = LISTED) -> str:
    """Items between a head, which begins at a column, and a tail: on one line where they are short and it holds them. Else they have lines of
    their own, but for short arguments, which have one."""
    inner = ", ".join(items)
    if len(inner) <= most and column + len(head + inner + tail) <= WIDTH:
        return head + inner + tail
    if most == LISTED and len(items) > 1 and all(len(it) <= SHORT for it in items):
        items = [inner]
    return "\n".join([head.rstrip(), *(f"{' ' * (indent + 4)}{it}," for it in items), " " * indent + tail.lstrip()])


def braced(indent: int, head: str, fields: list[str]) -> str:
    """A variant with fields, on one line where they are short."""
    return enclosed(indent, 0, head + " { ", fields, " }", BRACED)


def either(indent: int, patterns: list[str]) -> str:
    """Patterns of one arm with its arrow, on one line where it holds them."""
    one = " " * indent + " | ".join(patterns) + " =>"
    return one if len(one) <= WIDTH else one.replace(" | ", f"\n{' ' * indent}| ")


def last_column(text: str) -> int:
    """The column behind a text."""
    return len(text.rsplit("\n", 1)[-1])


def arm(indent: int, patterns: list[str], head: str, items: list[str], tail: str) -> str:
    """An arm that is a call or an array."""
    front = either(indent, patterns)
    column = last_column(front) + 1
    if column + len(head) > WIDTH:
        return f"{front}\n{' ' * (indent + 4)}{enclosed(indent + 4, indent + 4, head, items, tail + ',')}"
    return f"{front} {enclosed(indent, column, head, items, tail + ',')}"
