"""The words of a line of expectations, and how they are compared with those of a report."""
from __future__ import annotations

import re
from itertools import takewhile
from typing import NamedTuple


class Word(NamedTuple):
    """A word and its column, from 1."""

    text: str
    column: int


def words_of(line: str) -> list[Word]:
    """The words of a line, up to one that begins with `#`."""
    found = takewhile(lambda it: not it[0].startswith("#"), re.finditer(r"[^ \t\r]+", line))
    return [Word(it[0], it.start() + 1) for it in found]


def fits(word: str, came: str) -> bool:
    """Whether a word is what came; `*` stands for any characters."""
    return word == came or "*" in word and re.fullmatch(re.escape(word).replace(r"\*", ".*"), came) is not None


def differing(words: list[Word], came: str) -> Word | None:
    """The first word that isn't what came, or nothing where all are. Where more came, it is the last word."""
    came_words = came.split(" ") if came else []
    other = next((word for word, it in zip(words, came_words) if not fits(word.text, it)), None)
    return other or (None if len(words) == len(came_words) else words[min(len(came_words), len(words) - 1)])
