"""Reads a file of expectations, and says where a line has no form."""
from __future__ import annotations

import re
from collections.abc import Iterable
from typing import Any, NamedTuple

from expecting.words import Word, fits, words_of
from reports.reading import MOST_SCRIPTS
from reports.values import CODES, OPS
from scenarios.reading import Scripts
from shown import listed, near_hint, visible

# the statuses that a text can bring about
STATUSES = ("0", "4", "5", "6", "7")
FIRST_WORDS = ("frame", "frames", "ended", "device", "events", "stuck", "status", "label")
FORMS = {
    "frame": "frame N, and perhaps its time and layers as a report has them",
    "frames": "frames COUNT",
    "ended": "ended",
    "device": "device N, and perhaps the event; or device garbled LINE; or device fault",
    "events": "events COUNT",
    "stuck": "stuck thread SCRIPT OP NAME, stuck device await MARK, or stuck compositor next_frame",
    "status": "status S, where S is 0, 4, 5, 6 or 7, and perhaps the program's line behind `xrsim: `",
    "label": "label WORD SCRIPT NAME, and perhaps which op of this name it is there, from 1",
    "call": "SCRIPT OP CODE, and perhaps the op's name before CODE and what it gives behind it",
}
_COUNT = re.compile(r"0|[1-9]\d{0,8}")
_OPS = re.compile(r"([1-9]\d{0,8})(?:(-)([1-9]\d{0,8})?)?")
_STUCK = re.compile(r"thread [1-8] [1-9]\d{0,8} [a-z_]+|device await \d{1,2}|compositor next_frame")

# how many words stand before what is compared, the least number that the last of them is, if it is one, and whether no more words may stand behind
PLAIN = {
    "frame": (2, 1, False),
    "frames": (2, 0, True),
    "ended": (1, None, True),
    "event": (2, 1, False),
    "events": (2, 0, True),
    "garbled": (3, 1, True),
    "fault": (2, None, True),
}


class Wrong(NamedTuple):
    """What is wrong of a line, and where."""

    line: int
    column: int
    words: str


class WrongLine(Exception):
    """A line that has no form, with what is wrong of it."""


class Wanted(NamedTuple):
    """What a line expects: `what` is call, frame, frames, ended, event, events, garbled, fault, stuck or status; or label, of which `number` says
    which op of its name in the script it is. Else `number` is the first op, the frame, the event, the count, the garbled line or the status. A range
    of ops has the last one too, and 0 where it goes to the script's end. `words` are to be compared, for a call its code and what it gives, and
    `front` are the words before them. A call that is named by a label has it until the scenario is known."""

    what: str
    line: int
    front: list[Word]
    words: list[Word]
    number: int = 0
    script: int = 0
    last: int = 0
    name: str = ""
    label: Wanted | None = None

    @property
    def column(self) -> int:
        return self.front[0].column

    @property
    def is_range(self) -> bool:
        return self.last != self.number

    @property
    def rank(self) -> int:
        """A call's own line goes before a range with an op's name, and that before a range without one."""
        return 0 if not self.is_range else 1 if self.name else 2

    @property
    def key(self) -> object:
        """What no two lines may have alike. Ranges are looked at with the scenario."""
        is_whole = self.is_range or self.label
        numbers = {"call": ("line", self.line) if is_whole else (self.script, self.number), "stuck": self.text, "label": self.front[-1].text}
        return self.what, numbers.get(self.what, self.number if self.what in ("frame", "event") else 0)

    @property
    def text(self) -> str:
        return " ".join(it.text for it in self.words)


class LineReader:
    """Reads the words of one line."""

    def __init__(self, line: int, words: list[Word], labels: dict[str, Wanted]) -> None:
        self.line, self.words, self.labels = line, words, labels
        self.texts = [it.text for it in words]

    def must(self, holds: object, at: int, why: str) -> None:
        """What has to hold of a word, or of what is missing behind the last."""
        if not holds:
            last = self.words[-1]
            column = self.words[at].column if at < len(self.words) else last.column + len(last.text)
            raise WrongLine(Wrong(self.line, column, why))

    def must_be(self, known: Iterable[str], at: int, what: str) -> None:
        """A word of these has to stand there, or a pattern of some."""
        word = self.texts[at]
        if not any(fits(word, it) for it in known):
            self.must(False, at, f"`{visible(word)}` is no {what}{near_hint(word, known, '`')}")

    def wanted(self, what: str, behind: int, **more: Any) -> Wanted:
        return Wanted(what, self.line, self.words[:behind], self.words[behind:], **more)

    def read(self) -> Wanted:
        what, second = self.texts[0], self.texts[1] if len(self.texts) > 1 else ""
        if what[0].isdigit():
            return self.call()
        if what in self.labels:
            label = self.labels[what]
            return self.answered(1, script=label.script, name=label.name, label=label)
        if what == "label":
            return self.labelled(second)
        if what == "stuck":
            is_it = _STUCK.fullmatch(" ".join(self.texts[1:]))
            self.must(is_it, 1, f"who is stuck is due here, as a report has it: {FORMS['stuck']}")
            return self.wanted("stuck", 1)
        if what == "status":
            self.must(second in STATUSES, 1, f"a status is due here that texts can bring about: {FORMS['status']}")
            return self.wanted("status", 2, number=int(second))
        if what == "device":
            what = second if second in ("fault", "garbled") else "event"
            is_known = what != "event" or _COUNT.fullmatch(second)
            self.must(is_known, 1, f"an event's number, `garbled` or `fault` is due here: {FORMS['device']}")
        elif what not in FIRST_WORDS:
            self.must(what != "thread", 0, "`thread` begins no line here: each call has its script before it, as `1 4 XR_SUCCESS`")
            otherwise = f": a script's number is due, or one of {listed(FIRST_WORDS)}"
            self.must(False, 0, f"`{visible(what)}` begins no line{near_hint(what, (*FIRST_WORDS, *self.labels), '`', otherwise=otherwise)}")
        return self.plain(what, FORMS[self.texts[0]])

    def plain(self, what: str, form: str) -> Wanted:
        """A line of few words."""
        behind, least, is_whole = PLAIN[what]
        text = self.texts[behind - 1] if behind <= len(self.texts) else ""
        is_number = least is None or _COUNT.fullmatch(text) and int(text) >= least
        self.must(is_number, behind - 1, f"a number from {least} on is due here: {form}")
        self.must(not is_whole or len(self.words) <= behind, behind, f"nothing more is due here: {form}")
        return self.wanted(what, behind, number=0 if least is None else int(text))

    def call(self) -> Wanted:
        """Script, ops, perhaps the op's name, code, and values."""
        script, ops, third = (*self.texts, "", "")[:3]
        self.must(re.fullmatch(f"[1-{MOST_SCRIPTS}]", script), 0, f"`{visible(script)}` is no script: they are 1 to {MOST_SCRIPTS}")
        found = _OPS.fullmatch(ops)
        self.must(found, 1, f"an op's number is due here, or a range as 4-9 or 4-: {FORMS['call']}")
        first, has_range, end = found.groups("")  # type: ignore[union-attr]
        last = int(end or 0) if has_range else int(first)
        self.must(not end or last >= int(first), 1, f"the range {ops} ends before it begins")
        self.must(third.upper() not in CODES or third in CODES, 2, f"a result stands in capitals: {third.upper()}")
        name = third if re.fullmatch("[a-z_0-9]+", third) else ""
        if name:
            self.must_be(OPS, 2, "op")
        return self.answered(3 if name else 2, number=int(first), script=int(script), last=last, name=name)

    def answered(self, at: int, **more: Any) -> Wanted:
        """A call, whose code stands at this place."""
        self.must(at < len(self.words), at, f"a result is due here: {FORMS['call']}")
        self.must_be(CODES, at, "result")
        return self.wanted("call", at, **more)

    def labelled(self, label: str) -> Wanted:
        """A word for an op of a script."""
        script, name, which = (*self.texts[2:], "", "", "")[:3]
        self.must(re.fullmatch("[a-z][a-z0-9_]*", label) and label not in FIRST_WORDS, 1, f"a word that begins no line is due here: {FORMS['label']}")
        self.must(re.fullmatch(f"[1-{MOST_SCRIPTS}]", script), 2, f"a script's number is due here: {FORMS['label']}")
        self.must(name, 3, f"an op's name is due here: {FORMS['label']}")
        self.must_be(OPS, 3, "op")
        self.must(not which or _COUNT.fullmatch(which) and which != "0", 4, f"a number from 1 on is due here: {FORMS['label']}")
        self.must(len(self.words) <= 5, 5, f"nothing more is due here: {FORMS['label']}")
        return Wanted("label", self.line, self.words[:2], self.words[2:], int(which or 1), int(script), name=name)


def read_expectations(data: bytes) -> tuple[list[Wanted], list[Wrong]]:
    """What the lines of a file expect, and what is wrong of them."""
    try:
        text = data.decode("utf-8-sig")
    except UnicodeDecodeError as e:
        column = len(data[data.rfind(b"\n", 0, e.start) + 1 : e.start].decode("utf-8", "replace")) + 1
        return [], [Wrong(data.count(10, 0, e.start) + 1, column, "this isn't UTF-8, so it is no file of expectations")]
    found: list[Wanted] = []
    wrong: list[Wrong] = []
    seen: dict[object, int] = {}
    labels: dict[str, Wanted] = {}
    for number, line in enumerate(text.split("\n"), 1):
        try:
            words = words_of(line)
            if not words:
                continue
            wanted = LineReader(number, words, labels).read()
        except WrongLine as e:
            wrong.append(e.args[0])
            continue
        if seen.setdefault(wanted.key, number) != number:
            wrong.append(Wrong(number, wanted.column, f"the same is expected by line {seen[wanted.key]} already"))
        if wanted.what == "label":
            labels[wanted.front[1].text] = wanted
        else:
            found.append(wanted)
    if not found and not wrong:
        wrong.append(Wrong(1, 1, "no line expects anything; tools/expect --write makes the lines from a run"))
    return found, wrong


def unlabelled(wanted: Wanted, scripts: Scripts) -> Wanted:
    """A call by its number, where its label is one of this scenario."""
    label = wanted.label
    ops = scripts[label.script - 1] if label and label.script <= len(scripts) else []
    numbers = [at for at, op in enumerate(ops, 1) if label and op.name == label.name]
    if not label or label.number > len(numbers):
        return wanted
    return wanted._replace(number=numbers[label.number - 1], last=numbers[label.number - 1], label=None)


def wrong_ops(wanted: Wanted, scripts: Scripts) -> tuple[int, str] | None:
    """Which word of a call's line isn't of this scenario, from 0, and why, if one isn't."""
    if wanted.label:
        return 0, f"script {wanted.script} hasn't as many ops {wanted.name} as line {wanted.label.line} says"
    if wanted.script > len(scripts):
        return 0, f"the scenario has no script {wanted.script}: its last one is {len(scripts)}"
    ops = scripts[wanted.script - 1]
    number = max(wanted.number, wanted.last)
    if number > len(ops) + (not wanted.is_range):
        return 1, f"script {wanted.script} has no op {number}: its last one is {len(ops)}"
    if wanted.name and not ops_of(wanted, scripts):
        if wanted.is_range:
            return 2, f"none of these ops of script {wanted.script} is {wanted.name}"
        name = ops[number - 1].name if number <= len(ops) else "leave"
        return 2, f"op {number} of script {wanted.script} is {name}, and not {wanted.name}"
    return None


def ops_of(wanted: Wanted, scripts: Scripts) -> list[int]:
    """The numbers of the ops that a line is about."""
    ops = scripts[wanted.script - 1]
    numbers = range(wanted.number, (wanted.last or len(ops)) + 1)
    return [it for it in numbers if wanted.name in ("", ops[it - 1].name if it <= len(ops) else "leave")]


def refused_in(data: bytes, scripts: Scripts) -> set[tuple[int, int]]:
    """The calls of which a file of expectations expects that they are refused, each by its script and its place; none where it is wrong."""
    found, wrong = read_expectations(data)
    calls, more = ({}, wrong) if wrong else calls_wanted(found, scripts)
    return set() if more else {place for place, it in calls.items() if it.words[0].text.startswith("XR_ERROR_")}


def calls_wanted(found: list[Wanted], scripts: Scripts) -> tuple[dict[tuple[int, int], Wanted], list[Wrong]]:
    """Which line each call is compared with. Two lines of one rank that have a call in common are wrong."""
    calls: dict[tuple[int, int], Wanted] = {}
    wrong: list[Wrong] = []
    named = [unlabelled(it, scripts) for it in found if it.what == "call"]
    for rank in (0, 1, 2):
        here: dict[tuple[int, int], Wanted] = {}
        for wanted in (it for it in named if it.rank == rank):
            why = wrong_ops(wanted, scripts)
            places = [] if why else [(wanted.script, it) for it in ops_of(wanted, scripts)]
            twice = next((it for it in places if it in here), None)
            if twice:
                is_one = "in the range" if here[twice].is_range else "the op"
                why = len(wanted.front) - 1 and 1, f"op {twice[1]} of script {twice[0]} is {is_one} of line {here[twice].line} already"
            elif places and all(it in calls for it in places):
                why = 1, "nothing is left for this range: each call in it has a line that goes before it"
            if why:
                wrong.append(Wrong(wanted.line, wanted.front[why[0]].column, why[1]))
            here.update(dict.fromkeys(places, wanted))
        calls = {**here, **calls}
    return calls, wrong
