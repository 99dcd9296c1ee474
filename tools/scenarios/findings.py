"""Places in a text, and what is found there."""
from __future__ import annotations

import json
import re
from dataclasses import dataclass, field

MOST_LOOKED = 1024
UTF16_MARKS = ((b"\xff\xfe", "UTF-16, little end first", "utf-16-le"), (b"\xfe\xff", "UTF-16, big end first", "utf-16-be"))

# bytes that no text has
CONTROLS = re.compile(rb"[\x00-\x08\x0e-\x1a\x1c-\x1f]")


@dataclass
class Finding:
    """One thing that is wrong in a text, or that is to be known of it: its place, its words, and lines that say more."""

    line: int
    column: int
    words: str
    more: list[str] = field(default_factory=list)
    is_warning: bool = False

    def lines(self, file: str) -> list[str]:
        """The finding as editors read it."""
        kind = "warning: " if self.is_warning else ""
        return [f"{file}:{self.line}:{self.column}: {kind}{self.words}", *(f"  {it}" for it in self.more)]

    def as_json(self, file: str) -> str:
        kind = "warning" if self.is_warning else "error"
        place = {"kind": kind, "file": file, "line": self.line, "column": self.column}
        return json.dumps({**place, "words": self.words, "more": self.more})


def line_and_column(text: str, at: int) -> tuple[int, int]:
    """The line and the column of a character, both from 1. Columns count characters."""
    return text.count("\n", 0, at) + 1, at - text.rfind("\n", 0, at)


def encoding_of(text: bytes) -> str | None:
    """What a text seems to be, where it seems to be no UTF-8."""
    for mark, name, codec in UTF16_MARKS:
        front = text[:MOST_LOOKED].removeprefix(mark)
        has_zeros = front[0 if mark == b"\xfe\xff" else 1 :: 2].count(0) * 2 > len(front) // 2
        if len(front) > 3 and (text.startswith(mark) or has_zeros) and is_readable(front, codec):
            return name
    controls, front = len(CONTROLS.findall(text[:MOST_LOOKED])), len(text[:MOST_LOOKED])
    return "a binary file, and no text" if controls > max(1, front // 20) else None


def is_readable(text: bytes, codec: str) -> bool:
    """Whether a text can be read in this encoding and has no control characters then."""
    found = text[: len(text) & ~1].decode(codec, "replace")
    return "\ufffd" not in found[:-1] and CONTROLS.search(found.encode()) is None
