"""Reads JSON and keeps the place of each value. It takes just the texts that serde_json takes.

Most of a text is read by Python's own reader, which keeps no places and takes some texts more. Where it may have done so, or where a place is
asked for, a value is read once more by this one.
"""
from __future__ import annotations

import re
from collections.abc import Callable
from json import JSONDecoder
from typing import Any, NamedTuple, NoReturn

MOST_DEPTH = 127
MOST_REPEATED = 5
BLANKS = re.compile(r"[ \t\n\r]*")
NUMBER = re.compile(r"-?(?:0|[1-9][0-9]*)(?:\.[0-9]+)?(?:[eE][+-]?[0-9]+)?")
LIKE_NUMBER = re.compile(r"[-+.0-9][-+.0-9A-Za-z_]*")
IN_NUMBER = re.compile(r"[-+.0-9A-Za-z_]")
LIKE_WORD = re.compile(r"\w+")
PLAIN = re.compile(r'[^"\\\x00-\x1f]*')
HEX = re.compile(r"[0-9a-fA-F]{4}")
ESCAPES = {'"': '"', "\\": "\\", "/": "/", "b": "\b", "f": "\f", "n": "\n", "r": "\r", "t": "\t"}
LITERALS = (("null", None), ("true", True), ("false", False))
CONTROLS = {"\n": "a line feed", "\t": "a tab", "\r": "a carriage return", "\0": "a NUL"}
STRANGE = {
    "'": ": a string stands between double quotes",
    "/": ": JSON has no comments",
    "#": ": JSON has no comments",
    "\ufeff": ": a byte-order mark stands here, which no JSON text has",
    "\u201c": ": a string stands between straight double quotes",
    "\u00a0": ": a no-break space stands here, which is no blank of JSON",
}


# escapes of which Python's own reader takes too many, and what stands between values
SURROGATE = re.compile(r"\\u[dD][89a-fA-F]")
BRACKET = re.compile(r'"[^"\\]*(?:\\.[^"\\]*)*"|([\[{])|([\]}])')
BEHIND = re.compile(r"[ \t\n\r]*([,\]}]?)[ \t\n\r]*")


class JsonFault(Exception):
    """Where a text stops to be JSON, and why."""

    def __init__(self, at: int, why: str) -> None:
        super().__init__(why)
        self.at, self.why = at, why


class Key(str):
    """A key of an object, where its own place is meant."""


class Node(NamedTuple):
    """A value and its place. The value is None, a bool, an int that is whole and has 64 bits, a float for any other number, a str, a list of
    nodes, or a dict from each key to the place of the key and the node. One that was only skimmed has plain values in its list or dict."""

    value: Any
    start: int
    end: int

    def inside(self, path: tuple[Any, ...]) -> tuple[Node, int]:
        """The value that a way through it leads to, and the place that is meant."""
        node = self
        for part in path:
            if isinstance(part, Key):
                return node, node.value[part][0]
            node = node.value[part][1] if isinstance(part, str) else node.value[part]
        return node, node.start


def number_of(text: str, at: int) -> int | float:
    """The number of a token. One that isn't whole or takes more than 64 bits is a float, and so is -0."""
    if len(text) <= 20 and text != "-0" and text.lstrip("-").isdigit() and -(2**63) <= int(text) < 2**64:
        return int(text)
    value = float(text)
    if value in (float("inf"), float("-inf")):
        raise JsonFault(at, "this number is too large for any number")
    return value


def plain(node: Node) -> Any:
    """A value without the places of what stands in it."""
    if isinstance(node.value, list):
        return [plain(it) for it in node.value]
    return {key: plain(it) for key, (_, it) in node.value.items()} if isinstance(node.value, dict) else node.value


def is_deep(text: str, most: int) -> bool:
    """Whether more arrays and objects than this stand in one another in a value."""
    depth = 0
    for found in BRACKET.finditer(text):
        depth += (found[1] is not None) - (found[2] is not None)
        if depth > most:
            return True
    return False


class Reader:
    """Reads one text. `repeated` has the keys that stand more than once in an object, with their last places."""

    def __init__(self, text: str) -> None:
        self.text = text
        self.repeated: list[tuple[str, int]] = []
        self.has_repeated = False

    def read(self) -> Node:
        """The value of the whole text. What stands in the arrays of the top object's key `scripts` is skimmed, and so are the other values of
        the top object."""
        self.has_surrogates = SURROGATE.search(self.text) is not None
        brackets = re.sub(r"[^\[\]{}]+", "", self.text)
        for _ in range(MOST_DEPTH - 3):
            brackets = brackets.replace("[]", "").replace("{}", "")
        self.may_be_deep = bool(brackets)
        self.scan = JSONDecoder(
            object_pairs_hook=self.members,
            parse_int=lambda it: int(it) if len(it) < 19 and it != "-0" else number_of(it, 0),
            parse_float=lambda it: number_of(it, 0),
            # NaN and Infinity are no whole numbers, so this raises a ValueError
            parse_constant=int,
        ).scan_once

        def script(at: int) -> Node:
            return self.array(at, lambda place: self.skimmed(place, 3)) if self.first(at) == "[" else self.skimmed(at, 2)

        def member(key: str, at: int) -> Node:
            return self.array(at, script) if key == "scripts" and self.first(at) == "[" else self.skimmed(at, 1)

        at = self.skip(0)
        node = self.object(at, member) if self.first(at) == "{" else self.skimmed(at, 0)
        at = self.skip(node.end)
        if at < len(self.text):
            raise JsonFault(at, f"the value has ended, and {self.seen(at)} stands behind it")
        return node

    def first(self, at: int) -> str:
        return self.text[at : at + 1]

    def skip(self, at: int) -> int:
        """The place behind blanks."""
        return BLANKS.match(self.text, at).end()

    def seen(self, at: int) -> str:
        """What stands at a place, in words."""
        first = self.first(at)
        shown = f"`{first}`" if first.isprintable() else f"the character U+{ord(first):04X}"
        return shown if first else "the end of the text"

    def refuse(self, at: int, wanted: str) -> NoReturn:
        """Says what is wanted at a place where something else stands."""
        raise JsonFault(at, f"{wanted} is wanted here, and {self.seen(at)} stands here{STRANGE.get(self.first(at), '')}")

    def value(self, at: int, depth: int) -> Node:
        first = self.first(at)
        if first == '"':
            value, end = self.string(at)
            return Node(value, at, end)
        if first in ("{", "[") and depth == MOST_DEPTH:
            raise JsonFault(at, f"more than {MOST_DEPTH} arrays and objects stand in one another here")
        if first == "[":
            return self.array(at, lambda place: self.value(place, depth + 1))
        if first == "{":
            return self.object(at, lambda _, place: self.value(place, depth + 1))
        return self.number(at) if LIKE_NUMBER.match(first) else self.literal(at)

    def number(self, at: int) -> Node:
        like = LIKE_NUMBER.match(self.text, at).group()
        if NUMBER.fullmatch(like):
            return Node(number_of(like, at), at, at + len(like))
        why = "a number has digits, then perhaps a point and digits, then perhaps an exponent"
        if re.match(r"-?0[0-9]", like):
            why = "a number has no leading zero"
        elif like.startswith("+"):
            why = "a number has no `+` before it"
        raise JsonFault(at, f"`{like if len(like) <= 40 else like[:38] + '..'}` is no number of JSON: {why}")

    def literal(self, at: int) -> Node:
        for literal, value in LITERALS:
            if self.text.startswith(literal, at):
                return Node(value, at, at + len(literal))
        found = LIKE_WORD.match(self.text, at)
        if not found:
            self.refuse(at, "a value")
        word = found.group() if len(found.group()) <= 40 else found.group()[:38] + ".."
        raise JsonFault(at, f"`{word}` is no value of JSON: a word stands between double quotes, but for true, false and null")

    def members(self, pairs: list[tuple[str, Any]]) -> dict[str, Any]:
        """The members of an object that is skimmed, and whether one has a key twice."""
        found = dict(pairs)
        self.has_repeated = self.has_repeated or len(found) != len(pairs)
        return found

    def skim(self, at: int, depth: int) -> tuple[Any, int]:
        """The value at a place that so many arrays and objects are around, with all that is in it, and the place behind it. A ValueError says that
        this one may be wrong."""
        value, end = self.scan(self.text, at)
        is_cut = type(value) in (int, float) and IN_NUMBER.match(self.text, end)
        has_surrogate = self.has_surrogates and SURROGATE.search(self.text, at, end)
        if is_cut or has_surrogate or self.may_be_deep and is_deep(self.text[at:end], MOST_DEPTH - depth):
            raise ValueError
        return value, end

    def skimmed(self, at: int, depth: int) -> Node:
        """A value that has no places in it. Where Python's own reader may be wrong of it, it is read here."""
        try:
            value, end = self.skim(at, depth)
        except (ValueError, StopIteration, RecursionError, JsonFault):
            node = self.value(at, depth)
            return node._replace(value=plain(node))
        if self.has_repeated:
            self.has_repeated = False
            if len(self.repeated) < MOST_REPEATED:
                self.value(at, depth)
        return Node(value, at, end)

    def items(self, at: int, close: str, what: str, read_item: Callable[[int], int]) -> int:
        """Reads the items of an array or object, each of which ends at the place that this gives, and gives the place behind all."""
        place = self.skip(at + 1)
        if self.first(place) == close:
            return place + 1
        while True:
            found = BEHIND.match(self.text, read_item(place))
            if found[1] == close:
                return found.end(1)
            if found[1] != ",":
                self.refuse(found.start(1), f"`,` or `{close}`")
            place = found.end()
            if self.first(place) == close:
                raise JsonFault(place, f"a comma stands before this `{close}`, with no {what} behind it")

    def array(self, at: int, read: Callable[[int], Node]) -> Node:
        """An array, whose items are read by this."""
        items: list[Node] = []

        def item(place: int) -> int:
            items.append(read(place))
            return items[-1].end

        return Node(items, at, self.items(at, "]", "value", item))

    def object(self, at: int, read: Callable[[str, int], Node]) -> Node:
        """An object, whose values are read by this."""
        members: dict[str, tuple[int, Node]] = {}

        def member(key_at: int) -> int:
            if self.first(key_at) != '"':
                self.refuse(key_at, "a key between double quotes")
            key, end = self.string(key_at)
            colon = self.skip(end)
            if self.first(colon) != ":":
                self.refuse(colon, "`:`")
            found = read(key, self.skip(colon + 1))
            if key in members:
                self.repeated.append((key, key_at))
            members[key] = (key_at, found)
            return found.end

        return Node(members, at, self.items(at, "}", "key", member))

    def string(self, at: int) -> tuple[str, int]:
        """The string that begins at this quote, and the place behind it."""
        pieces, place = [], at + 1
        while True:
            end = PLAIN.match(self.text, place).end()
            pieces.append(self.text[place:end])
            stop = self.first(end)
            if stop == '"':
                return "".join(pieces), end + 1
            if stop == "":
                raise JsonFault(at, "the string that begins here has no closing quote")
            if stop != "\\":
                what = CONTROLS.get(stop, f"the control character U+{ord(stop):04X}")
                raise JsonFault(end, f"{what} stands in a string; is a closing quote missing before it?")
            piece, place = self.escape(end)
            pieces.append(piece)

    def escape(self, at: int) -> tuple[str, int]:
        """The character of an escape, and the place behind it."""
        kind = self.first(at + 1)
        if kind in ESCAPES:
            return ESCAPES[kind], at + 2
        if kind != "u":
            raise JsonFault(at, f"`\\` stands before {self.seen(at + 1)}, and this is no escape")
        unit = self.hex(at, at + 2)
        if 0xDC00 <= unit < 0xE000:
            raise JsonFault(at, "the second half of a surrogate pair stands without the first")
        if not 0xD800 <= unit < 0xDC00:
            return chr(unit), at + 6
        low = self.hex(at, at + 8) if self.text[at + 6 : at + 8] == "\\u" else 0
        if not 0xDC00 <= low < 0xE000:
            raise JsonFault(at, "the first half of a surrogate pair stands without the second")
        return chr(0x10000 + ((unit - 0xD800) << 10) + (low - 0xDC00)), at + 12

    def hex(self, at: int, digits: int) -> int:
        found = HEX.match(self.text, digits)
        if found is None:
            raise JsonFault(at, "`\\u` has four hexadecimal digits behind it")
        return int(found.group(), 16)
