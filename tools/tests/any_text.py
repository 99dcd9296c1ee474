"""Scenarios and devices of the whole formats by chance: all ops with all values of their fields, written in all ways that JSON has,
and all lines of a device; and such texts that are spoilt.

by_chance.py makes runs that get far. Here each value is as likely at an end of its range as within, and as likely wrong as right
where a text is to be spoilt. What comes of a text is the machine's to say.
"""
from __future__ import annotations

import copy
import json
import random
from collections.abc import Callable
from typing import Any

from helpers import Ops, rows_of

import by_chance
from calls import Call, Field, calls
from scenarios.devices import FORMS, NUMBERS, WORDS

OPS = calls().ops
GIVES = {it.name: it.gives for it in OPS}
ENDING = ("await", "wait_frame", "destroy_instance", "destroy_session", "request_exit_session", "end_session", "create_instance")
MOST = 2**63 - 1
CHOICES = {
    "form": ("head", "hand"), "view": ("mono", "stereo"), "kind": ("view", "local", "stage"),
    "type": ("boolean", "float", "vector", "pose", "vibration"), "blend": ("opaque", "additive", "alpha"), "truth": (True, False)}
# values of no field, and of few
ODD = (
    None, True, -1, 1.0, 1e3, -0.0, 65, 1025, 2**31, 2**32, 2**63, 2**64, -(2**63) - 1, "", "inf", "no such name", "X", "a" * 33, "a" * 1025,
    "\u00e9" * 513, "\u00e9" * 512, "leave", [], [0], [[]], {}, {"op": 0}, {"op": "leave"})
PIECES = [piece for row in rows_of("json_pieces") for piece in row]
DEVICE_PIECES = [piece for row in rows_of("device_pieces") for piece in row]
TEXTS = ("/a", "/user/hand/left", "/menu", "a", "", "x" * 1024, "/" + "a" * 255, "\u00e9\u20ac\U0001f600", "\x00", "\\\"/\b\f\n\r\t", "A", "/a//b")


def odd(chance: random.Random) -> Any:
    return copy.deepcopy(chance.choice(ODD))


def near(chance: random.Random, least: int, most: int) -> int:
    """A number of a range: one of its ends, a small one, or any."""
    value = chance.choice((least, most, least + 1, most - 1, 0, 1, 2, 3, chance.randint(least, most)))
    return min(max(value, least), most)


class Maker:
    """A script of ops by chance, with the names that it has given, by what they stand for."""

    def __init__(self, chance: random.Random) -> None:
        self.chance = chance
        self.names: dict[str, list[str]] = {"handle": [], "atom": [], "number": []}

    def use(self, sort: str, least: int, most: int) -> Any:
        """A name of a sort mostly, or a number in its place."""
        known = self.names[sort]
        return self.chance.choice(known) if known and self.chance.random() < 0.8 else near(self.chance, least, most)

    def atom(self) -> Any:
        return self.use("atom", 0, MOST)

    def handle(self) -> Any:
        return self.use("handle", 0, 0)

    def some(self, most: int, item: Callable[[], Any]) -> list:
        """A list that mostly is short, and sometimes has as many items as it may."""
        many = self.chance.choice((0, 0, 1, 1, 2, 3)) if self.chance.random() < 0.97 else self.chance.choice((most, most - 1))
        return [item() for _ in range(many)]

    def image(self) -> list:
        sides = [self.chance.choice((0, 1, 8, -1, 2**31 - 1, -(2**31))) for _ in range(4)]
        return [self.handle(), *(sides if self.chance.random() < 0.3 else [0, 0, 1, 1])]

    def layer(self) -> dict:
        if self.chance.random() < 0.5:
            return {"projection": self.handle(), "views": [self.image() for _ in range(self.chance.choice((2, 2, 0, 1, 4)))]}
        return {"quad": self.handle(), "image": self.image(), "pose": near(self.chance, 0, MOST)}

    def text(self) -> str:
        if self.chance.random() < 0.5:
            return self.chance.choice(TEXTS)
        return "".join(self.chance.choice("/abz_09.-") for _ in range(self.chance.choice((1, 5, 12))))

    def value(self, field: Field, made: dict[str, Any]) -> Any:
        """A value that a field may have."""
        chance = self.chance
        ways: dict[str, Callable[[], Any]] = {
            "handle": self.handle, "atom": self.atom, "text": self.text,
            "system": lambda: self.use("number", 0, MOST), "time": lambda: self.use("number", -MOST - 1, MOST),
            "u32": lambda: near(chance, 0, 2**32 - 1), "u63": lambda: near(chance, 0, MOST), "capacity": lambda: near(chance, 0, 1024),
            "timeout": lambda: chance.choice(("inf", near(chance, 0, MOST))), "mark": lambda: near(chance, 1, 64),
            "value": lambda: self.handle() if made["mark"] <= 32 else self.atom(),
            "subactions": lambda: self.some(8, self.atom), "sets": lambda: self.some(32, self.handle),
            "bindings": lambda: self.some(600, lambda: [self.handle(), self.atom()]),
            "active": lambda: self.some(128, lambda: [self.handle(), self.atom()]),
            "layers": lambda: self.some(32, self.layer)}
        return ways[field.sort]() if field.sort in ways else chance.choice(CHOICES[field.sort])

    def op(self, call: Call) -> dict[str, Any]:
        """An op with all its fields, but perhaps for those that may be left out."""
        made: dict[str, Any] = {"op": call.name}
        for field in call.fields:
            if not field.is_optional or self.chance.random() < 0.7:
                made[field.key] = self.value(field, made)
        if call.gives and self.chance.random() < 0.85:
            made["as"] = self.chance.choice(("a", "b2", "_", "z" * 32, f"q{self.chance.randint(0, 9)}"))
            self.note(made, call.gives)
        return made

    def note(self, made: dict[str, Any], gives: str) -> None:
        """A name stands for what gave it last."""
        for names in self.names.values():
            names[:] = [it for it in names if it != made["as"]]
        sort = gives if gives != "marked" else "handle" if made["mark"] <= 32 else "atom"
        self.names[sort].append(made["as"])

    def ops(self, most: int) -> Ops:
        return [self.op(self.chance.choice(OPS)) for _ in range(self.chance.randint(0, most))]


# ---- JSON as it may be written


def string(chance: random.Random, text: str) -> str:
    """A string of JSON, some of whose characters are escapes."""
    def one(char: str) -> str:
        if chance.random() < 0.9 and char not in '"\\' and ord(char) >= 32:
            return char
        short = {'"': '\\"', "\\": "\\\\", "/": "\\/", "\b": "\\b", "\f": "\\f", "\n": "\\n", "\r": "\\r", "\t": "\\t"}
        if char in short and chance.random() < 0.5:
            return short[char]
        whole = json.dumps(char)[1:-1]
        if len(whole) < 6:
            whole = f"\\u{ord(char):04x}"
        return "".join(chance.choice((it.lower(), it.upper())) if it in "abcdefABCDEF" else it for it in whole)

    return f'"{"".join(map(one, text))}"'


def written(chance: random.Random, value: Any, loose: float) -> str:
    """A value of JSON, with blanks, escapes, keys in any order and keys that stand twice, of which the last counts."""
    def blank() -> str:
        return chance.choice(("", " ", "\n", "\t", "\r\n  ")) if chance.random() < loose else ""

    if isinstance(value, str):
        return string(chance, value) if chance.random() < loose else json.dumps(value, ensure_ascii=False)
    if isinstance(value, list):
        return f"[{blank()}{','.join(blank() + written(chance, it, loose) + blank() for it in value)}]"
    if isinstance(value, dict):
        pairs = list(value.items())
        if chance.random() < loose:
            chance.shuffle(pairs)
            pairs = [*((key, chance.choice(ODD)) for key, _ in chance.sample(pairs, min(len(pairs), chance.choice((0, 0, 1))))), *pairs]
        both = [(written(chance, key, loose), written(chance, it, loose)) for key, it in pairs]
        return "{%s}" % ",".join(f"{blank()}{key}{blank()}:{blank()}{it}{blank()}" for key, it in both)
    return json.dumps(value)


# ---- devices


def device_line(chance: random.Random) -> str:
    """A line of a device: an event, a comment or nothing."""
    if chance.random() < 0.15:
        return chance.choice(("", "#", "# clock 1", "#" * 255, "#\u00e9\x00"))
    first = chance.choice([*FORMS])
    words, numbers = WORDS.get(first, {}), {place: ends for place, *ends in NUMBERS.get(first, ())}
    if first == "await" and chance.random() < 0.7:
        first = "mark"
    places = range(1, len(FORMS[first].split(" ")))
    return " ".join([first, *(str(chance.choice(words[it]) if it in words else near(chance, *numbers[it])) for it in places)])


def device_text(chance: random.Random, lines: list[str]) -> bytes:
    """The text of lines, the last of which may lack its line feed, and mostly has one."""
    text = "".join(f"{it}\n" for it in lines).encode("latin-1")
    return text[:-1] if chance.random() < 0.2 else text


# ---- whole texts


def scripts_by_chance(chance: random.Random) -> list[Ops]:
    """Scripts of ops by chance alone."""
    return [Maker(chance).ops(chance.choice((3, 12, 30))) for _ in range(chance.choice((1, 1, 1, 2, 3, 8)))]


def grown(chance: random.Random, ops: Ops) -> Ops:
    """A script of a run that gets far, with ops by chance between its own. Few of these end what is there, or wait."""
    maker, made = Maker(chance), []
    for op in ops:
        while chance.random() < 0.3:
            call = chance.choice(OPS)
            if call.name not in ENDING or chance.random() < 0.03:
                made.append(maker.op(call))
        made.append(op)
        if "as" in op:
            maker.note(op, GIVES[op["op"]])
    return made


def good(chance: random.Random, number: int) -> tuple[list[Ops], list[str] | None]:
    """Scripts and a device that are of their formats."""
    if chance.random() < 0.4:
        return scripts_by_chance(chance), [device_line(chance) for _ in range(chance.randint(0, 20))] if chance.random() < 0.7 else None
    scripts, told = by_chance.scenario(number)
    # the device may be one that ends with a garbled line
    lines = [it for it in told or [] if it != "no line"]
    for at in range(len(lines)):
        if chance.random() < 0.3:
            lines.insert(at, device_line(chance))
    return [grown(chance, it) for it in scripts], None if told is None else lines


def in_text(chance: random.Random, scripts: Any) -> str:
    """A scenario as it may be written."""
    whole: dict[str, Any] = {"version": 1, "scripts": scripts}
    return written(chance, whole, chance.choice((0, 0, 0.1, 0.5)))


def good_text(chance: random.Random, number: int) -> tuple[bytes, bytes | None]:
    """The bytes of both texts."""
    scripts, lines = good(chance, number)
    return in_text(chance, scripts).encode(), None if lines is None else device_text(chance, lines)


# ---- spoilt


def places_in(value: Any) -> list[tuple[Any, Any]]:
    """Each place of a value: what holds it, and its key or index there."""
    keys = list(value) if isinstance(value, dict) else range(len(value)) if isinstance(value, list) else ()
    return [place for key in keys for place in [(value, key), *places_in(value[key])]]


def spoilt_value(chance: random.Random, scripts: list[Ops]) -> Any:
    """A scenario one of whose values is wrong, missing, too many or of another place."""
    whole: Any = {"version": 1, "scripts": scripts}
    places = places_in(whole)
    holder, key = chance.choice(places)
    way = chance.randrange(6)
    if way == 0:
        del holder[key]
    elif way == 1:
        holder[key] = odd(chance)
    elif way == 2:
        other, at = chance.choice(places)
        holder[key] = copy.deepcopy(other[at])
    elif way == 3:
        holder[key] = [holder[key]] * chance.choice((1, 9, 33, 129, 601))
    elif isinstance(holder, dict):
        holder[chance.choice(("x", "as", "op", "value", "", "mark", "version"))] = chance.choice((odd(chance), "n1", "q1", "mark"))
    else:
        holder.insert(key, odd(chance))
    return whole


def cut_and_put(chance: random.Random, text: bytes, pieces: list[str]) -> bytes:
    """A text with one to three small changes."""
    for _ in range(chance.randint(1, 3)):
        at, cut = chance.randint(0, len(text)), chance.choice((0, 0, 1, 1, 2, 8, len(text)))
        put = chance.choice(pieces).encode("latin-1") if chance.random() < 0.8 else bytes([chance.randrange(256)])
        text = text[:at] + put + text[at + cut :]
    return text


def spoilt_lines(chance: random.Random, lines: list[str]) -> list[str]:
    """Lines one of which has a word too many, too few or of another line, or a number in another form or out of its range."""
    lines = lines or ["clock 1"]
    at = chance.randrange(len(lines))
    words = (lines[at] or "clock 1").split(" ")
    place = chance.randrange(len(words))
    forms = ("0{}", "+{}", "-{}", "{}0", "{} ", " {}", "{}\t", "{}.0", "{}\r", "0x{}", "{}{}", "", "-0", "\u00b2", "{}" + " 1", "{}" + "9" * 20)
    words[place] = chance.choice(forms).format(words[place], words[place])
    lines[at] = " ".join(words) + ("x" * 256 if chance.random() < 0.05 else "")
    return lines


def bad_text(chance: random.Random, number: int) -> tuple[bytes, bytes | None]:
    """Both texts, one of which is spoilt."""
    scripts, lines = good(chance, number)
    way = chance.randrange(6)
    if way < 3:
        scenario = written(chance, spoilt_value(chance, scripts), chance.choice((0, 0, 0.1)))
        return scenario.encode("utf-8", "surrogatepass"), None if lines is None else device_text(chance, lines)
    scenario, device = in_text(chance, scripts).encode(), device_text(chance, lines or ["wish focused", "clock 1"])
    if way == 3:
        return cut_and_put(chance, scenario, PIECES), device
    if way == 4:
        return scenario, cut_and_put(chance, device, DEVICE_PIECES)
    return scenario, device_text(chance, spoilt_lines(chance, lines or []))
