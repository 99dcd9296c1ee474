"""How pieces of a text, counts and names are shown on a terminal."""
from __future__ import annotations

import difflib
import re
from collections.abc import Iterable

MOST_SHOWN = 160


def clipped(text: str) -> str:
    return text if len(text) <= MOST_SHOWN else text[: MOST_SHOWN - 3] + " .."


def visible(text: str) -> str:
    """A text in which each character that has no shape of its own is written as an escape."""
    return "".join(it if it.isprintable() else it.encode("unicode_escape", "replace").decode() for it in text)


def one_line(piece: str) -> str:
    """A piece of JSON on one line. A line feed in it stands between values, since no string has one."""
    return visible(clipped(re.sub(r" *[\t\n\r][ \t\n\r]*", " ", piece[: 4 * MOST_SHOWN])))


def quoted(text: str, quote: str = '"') -> str:
    return f"{quote}{visible(clipped(text))}{quote}"


def count(number: int, word: str) -> str:
    return f"{number} {word}{'s' * (number != 1)}"


def with_article(word: str) -> str:
    return f"{'an' if word[0] in 'aeiou' else 'a'} {word}"


def listed(words: Iterable[str]) -> str:
    return ", ".join(words)


def nearest(word: str, known: Iterable[str]) -> str | None:
    """The known word that a word is most like, if it is like one."""
    found = difflib.get_close_matches(word[:64], sorted(set(known))[:2000], n=1, cutoff=0.5)
    return found[0] if found else None


def near_hint(word: object, known: Iterable[str], quote: str = '"', asks: str = "did you mean", otherwise: str = "") -> str:
    """Asks whether a known word was meant, if one is like this word, and else says this."""
    near = nearest(word, known) if isinstance(word, str) else None
    return f"; {asks} {quoted(near, quote)}?" if near else otherwise
