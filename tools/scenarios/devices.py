"""What stands in a device's text: its events, or the lines that are garbled, and why."""
from __future__ import annotations

import heapq
import re
from collections.abc import Iterator
from dataclasses import dataclass, field
from typing import NamedTuple

from scenarios.findings import Finding, encoding_of
from shown import MOST_SHOWN, count, listed, near_hint

MOST_TEXT = 16_777_216
MOST_LINE = 255
MOST_FINDINGS = 5
MOST_LISTED = 10
LAST_TIME = 2**62 - 1

# what stands in a report where a device's file can't be read on
FAULT = "fault"

HANDS = ("/user/hand/left", "/user/hand/right")
USERS = (*HANDS, "/user/head", "/user/gamepad", "/user/treadmill")
PROFILES = ("khr/simple_controller", "oculus/touch_controller", "htc/vive_controller", "microsoft/xbox_controller")
# the inputs and the outputs of a controller, by its profile and the user path
_TOUCH = "squeeze/value trigger/value trigger/touch thumbstick/x thumbstick/y thumbstick/click thumbstick/touch thumbrest/touch"
_VIVE = "system/click squeeze/click menu/click trigger/click trigger/value trackpad/x trackpad/y trackpad/click trackpad/touch"
_XBOX = """menu/click view/click a/click b/click x/click y/click dpad_up/click dpad_down/click dpad_left/click dpad_right/click
    shoulder_left/click shoulder_right/click thumbstick_left/click thumbstick_right/click trigger_left/value trigger_right/value
    thumbstick_left/x thumbstick_left/y thumbstick_right/x thumbstick_right/y"""
_OF_HANDS = {
    "khr/simple_controller": ("select/click menu/click", "select/click menu/click"),
    "oculus/touch_controller": (f"x/click x/touch y/click y/touch menu/click {_TOUCH}", f"a/click a/touch b/click b/touch system/click {_TOUCH}"),
    "htc/vive_controller": (_VIVE, _VIVE),
}
POSES = ("grip/pose", "aim/pose")
CONTROLLERS = {
    **{(it, hand): ((*its.split(), *POSES), ("haptic",)) for it, both in _OF_HANDS.items() for hand, its in zip(HANDS, both)},
    (PROFILES[-1], "/user/gamepad"): ((*_XBOX.split(),), ("haptic_left", "haptic_right", "haptic_left_trigger", "haptic_right_trigger")),
}
INPUTS = tuple(dict.fromkeys(it for inputs, _ in CONTROLLERS.values() for it in inputs if it not in POSES))
ORIGINS = ("view", "local", "stage", *(f"{hand}/input/{pose}" for hand in HANDS for pose in POSES))

# the lines by their first word: the words that may stand at a place behind it, and its numbers, each with its place and range;
# tools/tests/texts.py compares them with the program
WORDS = {
    "wish": {1: ("rest", "ready", "visible", "focused")},
    "stage": {1: ("on", "off")},
    "profile": {1: USERS, 2: (*PROFILES, "none")},
    "input": {1: tuple(f"{user}/input/{name}" for user in USERS for name in INPUTS)},
    "pose": {1: ORIGINS},
}
NUMBERS = {
    "clock": ((1, 0, LAST_TIME),),
    "grid": ((1, 0, LAST_TIME), (2, 1, 1_000_000_000)),
    "input": ((2, -32768, 32768),),
    "pose": ((2, 0, LAST_TIME), (3, 1, 2**63 - 1)),
    "mark": ((1, 1, 64),),
    "await": ((1, 1, 64),),
}
_LINES = "clock T, grid B P, wish W, loss, lost, stage S, profile USER NAME, input USER/input/ENTRY V, pose O T N, mark M, await M"
FORMS = {it.partition(" ")[0]: it for it in _LINES.split(", ")}

# what begins a comment elsewhere
COMMENTS = ("//", ";", "--", "/*", "%")

# what of its blanks and strange bytes makes a line none, of which the first that is found is told
BLANKS = (
    ("\\A\xef\xbb\xbf", "a byte-order mark (EF BB BF) stands before it"),
    (r"\r\Z", "a carriage return stands at its end: lines end in a line feed alone, without one before it"),
    (r"\t", "a tab stands in it: words stand apart by single spaces"),
    (r"[^ -~]", "the byte 0x{:02X} stands in it, which no line has"),
    (r"\A +#", "a space stands before its first word: `#` is the first byte of a comment"),
    (r"\A ", "a space stands before its first word"),
    (r" +\Z", "a space stands behind its last word"),
    (r"(?<= ) ", "two spaces stand together: words stand apart by single spaces"),
)

DIGITS = re.compile(r"0|-?[1-9][0-9]*")
BEHIND_WORDS = re.compile(r"(\S)[ \t]+(?:#|//|;)")
ESCAPES = {"\t": "\\t", "\r": "\\r", "\0": "\\0", "\\": "\\\\"}


def numbers_between(least: int, most: int) -> str:
    """A pattern of the numbers of a range whose ends are on either side of zero, or that begins at 0 or 1, without leading zeros."""
    digits = str(most)
    parts = [f"[1-9][0-9]{{0,{len(digits) - 2}}}"] if len(digits) > 1 else []
    for place, digit in enumerate(digits):
        first = 0 if place else 1
        if int(digit) > first:
            parts.append(f"{digits[:place]}[{first}-{int(digit) - 1}][0-9]{{{len(digits) - place - 1}}}")
    below = [f"-(?:{numbers_between(1, -least)})"] if least < 0 else []
    return "|".join([*parts, digits, *below, *(["0"] if least <= 0 else [])])


def pattern_of(first: str) -> str:
    """A pattern of the lines that begin with this word."""
    words = {place: "|".join(map(re.escape, known)) for place, known in WORDS.get(first, {}).items()}
    words.update((place, numbers_between(least, most)) for place, least, most in NUMBERS.get(first, ()))
    return " ".join([first, *(f"(?:{words[place]})" for place in sorted(words))])


# lines are looked for behind a line feed, which stands before the first one too
END = r"(?=\n|\Z)"
EVENT = "|".join(map(pattern_of, FORMS))
GARBLED = re.compile(rf"\n(?![\n#]|\Z|(?:{EVENT}){END})".encode())
LONG_COMMENT = re.compile(rf"\n#[^\n]{{{MOST_LINE}}}".encode())
NEXT_EVENT = re.compile(rb"\n(?=[a-z])")
FIRST_LETTERS = {b"\n" + it[:1].encode() for it in FORMS}


class Told(NamedTuple):
    """An event: the first word of its line, the words behind it, and where its line begins."""

    name: str
    words: str
    at: int


@dataclass
class DeviceFound:
    """What was found: the good lines before the first garbled one, behind a line feed; how many these are; the number of that
    line, if there is one."""

    text: bytes = b""
    lines: int = 0
    garbled: int | None = None
    findings: list[Finding] = field(default_factory=list)

    @property
    def events(self) -> int:
        """How many events the good lines tell. Each begins with a letter."""
        return sum(map(self.text.count, FIRST_LETTERS))

    def event(self, at: int) -> Told | None:
        """The first event at or behind a place."""
        found = NEXT_EVENT.search(self.text, at)
        if found is None:
            return None
        end = self.text.find(b"\n", found.end())
        name, _, words = self.text[found.end() : end if end > 0 else None].decode().partition(" ")
        return Told(name, words, found.start())

    def line_of(self, event: Told) -> int:
        return self.text.count(b"\n", 0, event.at + 1)


# why something is wrong, and at which byte of its line
Why = tuple[int, str]


def wrong_number(word: str, least: int, most: int) -> str | None:
    """Why a word is no number of a range, if it is none."""
    if DIGITS.fullmatch(word) is None:
        if word == "-0":
            return "the number `-0` is written `0`"
        for form, why in ((r"-?0[0-9]+", "a leading zero"), (r"[+][0-9]+", "a plus")):
            if re.fullmatch(form, word):
                return f"the number `{word}` has {why}"
        return f"`{word}` is no number: a number is decimal digits{', behind a minus where it is below 0' * (least < 0)}"
    if least >= 0 and word.startswith("-"):
        return f"the number `{word}` has a sign"
    if len(word) > 19 or not least <= int(word) <= most:
        return f"the number `{word}` is out of range: it may be {least} to {most}"
    return None


def wrong_words(line: str) -> Why | None:
    """Why the words of a line are none of an event, if they are none. A long list of words is told by what is near."""
    words = line.split(" ")
    first, places = words[0], [0, *(it.end() for it in re.finditer(" ", line))]
    if first not in FORMS:
        near = near_hint(first.lower(), FORMS, "`", otherwise=f": a line begins with one of {listed(FORMS)}")
        is_comment = first.startswith(COMMENTS)
        return 0, "a comment begins with `#`, the first byte of its line" if is_comment else f"`{first}` begins no line{near}"
    wanted = FORMS[first].count(" ") + 1
    if len(words) != wanted:
        at = places[wanted] if len(words) > wanted else len(line)
        return at, f"the line has {count(len(words), 'word')}, and `{FORMS[first]}` has {wanted}"
    for place, known in WORDS.get(first, {}).items():
        if words[place] not in known:
            none = f"none of {listed(known)}"
            if len(known) > MOST_LISTED:
                none = f"no input: one is a user path, `/input/` and an entry, as `{known[0]}`"
            return places[place], f"`{words[place]}` is {none}{near_hint(words[place].lower(), known, '`')}"
    for place, least, most in NUMBERS.get(first, ()):
        why = wrong_number(words[place], least, most)
        if why:
            return places[place], why
    return None


def why_garbled(line: bytes, left: int) -> Why:
    """Why a line is none, where so many bytes are left for it and its line feed."""
    if left < len(line):
        return left, f"it goes past the {MOST_TEXT} bytes that a device's text may have"
    if len(line) > MOST_LINE:
        return MOST_LINE, f"it has {len(line)} bytes, and {MOST_LINE} are the most, also where it begins with `#`"
    shown = line.decode("latin-1")
    found = BEHIND_WORDS.search(shown)
    if found and not shown.startswith("#"):
        why = f"a comment stands behind `{shown[: found.end(1)]}`: a comment has a line of its own, which begins with `#`"
        return len(shown[: found.end()].rstrip("#/;")), why
    for pattern, why in BLANKS:
        blank = re.search(pattern, shown)
        if blank:
            return blank.start(), why.format(ord(blank[0][0]))
    return wrong_words(shown) or (0, "it is no line of the format")


def garbled_lines(text: bytes) -> Iterator[int]:
    """Where the lines begin that are garbled. One that goes past the limit is the last."""
    is_long = len(text) > MOST_TEXT
    limit = text.rfind(b"\n", 0, MOST_TEXT) + 1 if is_long else len(text)
    whole = b"\n" + text
    places = (map(re.Match.start, it.finditer(whole, 0, limit + 1)) for it in (GARBLED, LONG_COMMENT))
    yield from heapq.merge(*places, [limit] * is_long)


def read_device(text: bytes) -> DeviceFound:
    """What stands in a device's text, up to its end or to enough garbled lines."""
    found, good = DeviceFound(), len(text)
    for at in garbled_lines(text):
        good = min(good, at)
        number = text.count(b"\n", 0, at) + 1
        found.garbled = found.garbled or number
        end = text.find(b"\n", at) + 1 or len(text)
        found.findings.append(finding_of(text, at, end, number))
        if number == 1 and encoding_of(text):
            break
        if len(found.findings) == MOST_FINDINGS:
            if end < len(text):
                found.findings[-1].more.append("The text isn't looked at behind this line.")
            break
    found.text = b"\n" + text[:good]
    found.lines = found.text.count(b"\n") - found.text.endswith(b"\n")
    return found


def finding_of(text: bytes, at: int, end: int, number: int) -> Finding:
    """What is wrong of the line that ends before a byte. Its column counts characters."""
    line = text[at:end].removesuffix(b"\n")
    other = encoding_of(text) if number == 1 else None
    # its line feed counts, where it has one
    left = MOST_TEXT - at - (end - at - len(line))
    place, why = (0, f"the text looks like {other}") if other else why_garbled(line, left)
    column = len(line[:place].decode("utf-8", "replace")) + 1
    # each byte that can't be seen is written as an escape
    seen = (ESCAPES.get(it, it if " " <= it <= "~" else f"\\x{ord(it):02x}") for it in line[:MOST_SHOWN].decode("latin-1"))
    shown = re.sub(r"^ +| +$|  +", lambda spaces: "\\x20" * len(spaces.group()), "".join(seen))
    return Finding(number, column, f'"{shown}{" .." if len(line) > MOST_SHOWN else ""}" is garbled: {why}')


class DeviceText(NamedTuple):
    """What a device tells: its events by their lines, the number of its garbled line, if it has one, whether its file couldn't
    be read, and whether there is one."""

    events: list[str]
    garbled: int | None = None
    has_failed: bool = False
    is_there: bool = True

    @property
    def all(self) -> list[str]:
        """Its events, and what ends it early."""
        garbled = [f"garbled {self.garbled}"] if self.garbled else []
        return [*self.events, *([FAULT] if self.has_failed else garbled)]


NO_DEVICE = DeviceText([], is_there=False)
FAILED_DEVICE = DeviceText([], has_failed=True)


def device_in(text: bytes) -> DeviceText:
    """What a device's text tells."""
    found = read_device(text)
    lines = found.text.decode("utf-8", "replace").split("\n")
    return DeviceText([it for it in lines if it and not it.startswith("#")], found.garbled)
