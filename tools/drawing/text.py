"""Texts as they are shown: escaped, without characters that can't be seen, and measured."""
from __future__ import annotations

import json
import re
from collections.abc import Iterator
from html import escape
from typing import Any

from machine.turns import USES

MOST = 160
_UNSEEN = re.compile("[\x00-\x1f\x7f-\x9f\xad\u061c\u200b-\u200f\u2028-\u202e\u2060-\u206f\ud800-\udfff\ufeff\ufff0-\uffff]")
_NARROW = frozenset("ijltfI.,:;'|!()[]/ \u00b7")
_WIDE = frozenset("mwMW@%\u2026")


def seen(text: str) -> str:
    """The text with each character that can't be seen, or that XML has not, as an escape of JSON."""
    return _UNSEEN.sub(lambda found: f"\\u{ord(found[0]):04x}", text)


def escaped(text: str) -> str:
    """The text for XML and HTML, in content and in quoted attributes."""
    return escape(seen(text)).replace("&#x27;", "&#39;")


def cut(text: str, most: int = MOST) -> str:
    """The text, or its front and a sign that more follows."""
    return text if len(text) <= most else text[: most - 1] + "\u2026"


def cut_inside(text: str, most: int) -> str:
    """The text, or its front and its end with a sign that something is left out between them. Ends tell names apart."""
    front = most * 2 // 5
    return text if len(text) <= most else f"{text[:front]}\u2026{text[len(text) - most + front + 1 :]}"


# what is the same of many paths, which is left out of a label first
_SAME = re.compile(r"/user/(?:hand/)?"), re.compile(r"/input/"), re.compile(r"(?<= )\w+/(?=\w+_controller)|/interaction_profiles/\w+/")


def cut_paths(text: str, most: int) -> str:
    """The text, or what tells it apart: its paths without what many have, so that the hand and the end stay; and with something left out inside where
    that is too long still."""
    for same in _SAME:
        text = text if len(text) <= most else same.sub("\u2026", text)
    return cut_inside(text, most).replace("\u2026\u2026", "\u2026")


def names_in(args: dict[str, Any] | None) -> list[str]:
    """The names of arguments in their order, each once, but for what the op itself names or writes."""
    def strings(value: Any) -> Iterator[str]:
        for it in value.values() if isinstance(value, dict) else value if isinstance(value, list) else ():
            yield from strings(it)
        if isinstance(value, str):
            yield value

    return list(dict.fromkeys(it for key, value in (args or {}).items() if key in USES for it in strings(value)))


def width_of(text: str, size: float) -> float:
    """About how wide a text is in a plain sans-serif of this size: rather too much than too little."""
    units = 0.0
    for letter in text:
        is_wide = letter in _WIDE or ord(letter) > 0x2000
        units += 0.34 if letter in _NARROW else 0.92 if is_wide else 0.7 if letter.isupper() else 0.58
    return units * size


def arguments(args: dict[str, Any] | None) -> str:
    """The arguments of an op as words, `as` last."""
    words = []
    for key, value in (args or {}).items():
        if key not in ("op", "as"):
            plain = isinstance(value, str) and re.fullmatch(r"[A-Za-z0-9_./-]+", value)
            words.append(f"{key}={value if plain else json.dumps(value, ensure_ascii=False, separators=(',', ':'))}")
    if args and isinstance(args.get("as"), str):
        words.append(f"as {args['as']}")
    return cut(" ".join(words))


def counted(count: int, one: str, many: str = "") -> str:
    """A count with its word, as `1 call` or `2 calls`."""
    return f"{count:,} {one if count == 1 else many or one + 's'}"
