"""Where a table stands in a file: between marks, behind words that begin it, or under a key of JSON."""
from __future__ import annotations

import json
import re
from functools import lru_cache
from typing import Any, NamedTuple

from calls import Table
from tabling.patterns import Text

MARK = re.compile(r"^[ \t]*(?://|--|<!--) rows: (.*?)(?: -->)?[ \t]*$", re.M)
BLANK = re.compile(r"[ \t\r\n]*")
END = "end"


class Lost(Exception):
    """A table's place isn't found; the words say why."""


class Written(NamedTuple):
    """A table: its file, its name, what it is, and how its place is found: `marks`, `words` with those that begin and end it, or `key`
    with the keys of JSON that lead to it."""

    file: str
    name: str
    lines: Text
    how: str = "marks"
    path: tuple = ()

    def text(self, table: Table) -> str:
        return "\n".join(self.lines(table))

    def place(self, text: str) -> tuple[int, int]:
        """From where to where the table stands in its file's text."""
        find = {"marks": between_marks, "words": between_words, "key": under_key}[self.how]
        return find(text, *(self.path or [self.name]))


def only(found: list[Any], what: str, none: str) -> Any:
    """What is found where it stands once."""
    if len(found) != 1:
        raise Lost(f"{what} stands {len(found)} times" if found else none)
    return found[0]


def between_marks(text: str, name: str) -> tuple[int, int]:
    """The place behind the mark of this name and ahead of the end that follows it. An empty line ahead of that stays."""
    marks = list(MARK.finditer(text))
    at = only([at for at, it in enumerate(marks) if it[1] == name], f"the mark 'rows: {name}'", f"there is no mark 'rows: {name}'")
    if [it[1] for it in marks[at + 1 : at + 2]] != [END]:
        raise Lost(f"the mark 'rows: {name}' has no 'rows: {END}' ahead of the next mark")
    body = text[marks[at].end() + 1 : marks[at + 1].start()]
    start = marks[at].end() + 1 + len(body) - len(body.lstrip("\n"))
    return start, start + len(body.strip("\n"))


def between_words(text: str, first: str, last: str) -> tuple[int, int]:
    """From the words that begin the table to those that end it."""
    start = only([it.start() for it in re.finditer(re.escape(first), text)], f"'{first}'", f"'{first}' stands 0 times")
    end = text.find(last, start)
    if end < 0:
        raise Lost(f"there is no '{last}' behind '{first}'")
    return start, end + len(last)


def under_key(text: str, *path: str | int) -> tuple[int, int]:
    """Where the value stands that the keys, and the places in lists, lead to. Each key has to stand once."""
    place = BLANK.match(text).end(), len(text)
    for key in path:
        try:
            found = [it for name, it in members(text, place[0]) if name == key]
        except (json.JSONDecodeError, IndexError) as e:
            raise Lost(f"it is no JSON: {e}") from None
        place = only(found, f"its key {key}", f"there is no key {key}")
    return place


@lru_cache(maxsize=512)
def members(text: str, at: int) -> list[tuple[str | int, tuple[int, int]]]:
    """The keys of the object that begins there, or the places of a list's items, each with where its value stands."""
    def behind(at: int) -> int:
        return BLANK.match(text, at).end()

    read, found, is_object = json.JSONDecoder().raw_decode, [], text[at] == "{"
    at = behind(at + 1)
    while text[at] not in "]}":
        name, at = read(text, at) if is_object else (len(found), at)
        start = behind(behind(at) + 1) if is_object else at
        end = read(text, start)[1]
        found.append((name, (start, end)))
        at = behind(end)
        at = behind(at + 1) if text[at] == "," else at
    return found


def stray_marks(text: str, names: list[str]) -> list[str]:
    """What is wrong with marks of a file that are none of these tables': a name that no table has, and an end without one."""
    marks = [it[1] for it in MARK.finditer(text)]
    return [f"there is a mark 'rows: {END}' too much" if it == END else f"there is no table for the mark 'rows: {it}'"
            for before, it in zip([END, *marks], marks) if it == END == before or it not in (END, *names)]
