"""The replay of a report: its calls are made by the machine in the order of their places, and each has to be answered so.

A getter isn't counted, and has the place of the call that published what it answers from: it is made as soon as that is
published, and has to be made before anything else is. An image that the compositor gives back has no line: it is given back
once a call of the report asks for that, which is a wait for the image that succeeds, or the compositor's next frame.
"""
from __future__ import annotations

import re
from collections.abc import Callable
from typing import NamedTuple, TypeVar

from machine.answers import OUT_OF_MEMORY, Answer, Fields, HeldBack
from machine.machine import ENDED
from machine.turns import Script, Turns
from reports.reading import COMPOSITOR, DEVICE, Call, Report
from reports.values import MET
from scenarios.devices import FAULT, DeviceText
from scenarios.reading import Scripts

MadeT = TypeVar("MadeT")

# the calls that take memory, and may be answered by want of it where nothing else refuses them
TAKES_MEMORY = ("string_to_path", "suggest_bindings")


class NotLegal(Exception):
    """The first line of a report that the machine couldn't have made, and why, in one line; and the call of the line and what
    the machine answers there, where it makes that call."""

    def __init__(self, line: int, words: str, call: Call | None = None, answer: Answer | None = None) -> None:
        super().__init__(f"line {line}: {words}")
        self.call, self.answer = call, answer


def wrong(call: Call, why: str, answer: Answer | None = None) -> NotLegal:
    """What is wrong of a line: whose call it is, and why."""
    who = f"{call.who} op {call.number} {call.op}" if call.script else call.who
    return NotLegal(call.line, f"{f'device event {call.number}' if call.what == 'event' else who}: {why}", call, answer)


def told_by(call: Call) -> str:
    """What stands in a line behind the numbers and the name of an op, without its place."""
    front = {"call": call.code, "event": call.op, "frame": f"frame {call.number}"}.get(call.what, call.what)
    return f"{front} {call.text}".rstrip()


def in_order(report: Report) -> list[Call]:
    """All counted calls by their places, which are those from 1 on, each once, and ascend for each actor. Getters aren't counted."""
    found: dict[int, Call] = {}
    for calls in report.actors.values():
        before = 0
        for call in (it for it in calls if it.is_counted):
            place = call.place or 0
            if place in found:
                raise wrong(call, f"its place {place} is that of line {found[place].line} too")
            if place < before:
                raise wrong(call, f"its place {place} lies before {before}, that of the call before it")
            found[place], before = call, place
    for due, place in enumerate(sorted(found), 1):
        if place != due:
            raise wrong(found[place], f"its place is {place}, and the next one that is due is {due}")
    return [found[place] for place in sorted(found)]


def without_places(line: str) -> str:
    """A line of a report without the place of its call."""
    return re.sub(" @[0-9]+$", "", line)


def stripped(data: bytes) -> list[str]:
    """The lines of a report without the places of its calls."""
    return [without_places(it) for it in data.decode("utf-8").split("\n")[:-1]]


class Judged(NamedTuple):
    """How many calls a legal report tells, and how many frames."""

    calls: int
    frames: int


class Replay(Turns):
    """A report on its way through the machine. A script's next line is that of the call which it makes next."""

    def __init__(self, scripts: Scripts, device: DeviceText, report: Report) -> None:
        """Makes all calls, and looks at how the run ended."""
        super().__init__(scripts, device.all)
        self.device, self.report, self.has_faulted = device, report, False
        self.make_getters()
        for call in in_order(self.report):
            if call.script:
                self.make_counted(call)
            elif call.actor == COMPOSITOR:
                self.ask_for_frame(call)
            else:
                self.tell_event(call)
            self.make_getters()
        self.check_ending()

    def made(self, call: Call, attempt: Callable[[], MadeT]) -> MadeT:
        """What a call comes to, which mustn't wait."""
        try:
            return attempt()
        except HeldBack:
            raise wrong(call, f"{told_by(call)}, and the machine has it wait there") from None

    # ---- scripts

    def make_counted(self, call: Call) -> None:
        """A script's call, before which all its getters have been made."""
        due = self.report.scripts[call.script - 1][self.scripts[call.script - 1].made]
        if due is not call:
            last = f"what was published last before its script's call at {call.place} has {self.machine.published}"
            raise wrong(due, f"its place is {due.place}, and {last}")
        self.make(call)

    def make_getters(self) -> None:
        """Each getter that is next in its script, and answers from what was published last."""
        for script, calls in zip(self.scripts, self.report.scripts):
            while script.made < len(calls) and not calls[script.made].is_counted:
                call, published = calls[script.made], self.machine.published
                place = call.place or 0
                if place > published:
                    break
                if place < published:
                    raise wrong(call, f"its place is {place}, and what was published last when it can be made has {published}")
                self.make(call)

    def make(self, call: Call) -> None:
        """A script's next call."""
        script, told = self.scripts[call.script - 1], told_by(call)
        if script.is_done or script.next.name != call.op:
            raise wrong(call, f"the scenario has {'no op' if script.is_done else script.next.name} there")
        answer = self.made(call, lambda: self.machine.make(call.op, self.fields_of(script, call)))
        if answer.told() != told:
            raise wrong(call, f"{told}, and the machine answers {answer.told()} there", answer)
        script.keep(answer, self.machine.device.clock)

    def fields_of(self, script: Script, call: Call) -> Fields:
        """The fields of a script's next call. Where its answer tells of an image that is given back, this is; and where it
        tells a want of memory, there is one."""
        fields = script.fields()
        if call.op == "wait_image" and call.code in MET:
            image = self.machine.image_waited_for(fields["chain"])
            while image in self.machine.frames.held:
                self.machine.image_done()
        if call.op in TAKES_MEMORY and call.code == OUT_OF_MEMORY:
            return {**fields, "is_short": True}
        return fields

    # ---- compositor and device

    def ask_for_frame(self, call: Call) -> None:
        """The compositor gives back what it holds, and asks for a frame."""
        self.give_back_all()
        told = self.made(call, self.machine.ask_for_frame)
        if told != told_by(call):
            raise wrong(call, f"{told_by(call)}, and the machine tells it {told} there", Answer(words=told))
        self.has_ended = told == ENDED

    def give_back_all(self) -> None:
        while self.machine.frames.held:
            self.machine.image_done()

    def tell_event(self, call: Call) -> None:
        """The device's next event, or what ends it early. A file may fail at each place."""
        due, told = self.events[self.told : self.told + 1], told_by(call)
        if told == FAULT and self.device.is_there:
            self.has_faulted = True
        elif [told] != due:
            raise wrong(call, f"{told}, and the device's text has {due[0] if due else 'nothing'} there")
        self.made(call, lambda: self.machine.tell_event(told))
        self.told += 1

    # ---- the end

    def waiting(self) -> list[str]:
        """Who isn't finished, as a report prints them behind `stuck`. Each of them has to wait."""
        found = []
        for script in (it for it in self.scripts if not it.is_done):
            who, what = f"script {script.number}", f"{script.made + 1} {script.next.name}"
            self.check_waits(who, f"{who} op {what}", lambda: self.machine.make(script.next.name, script.fields()))
            found.append(f"thread {script.number} {what}")
        for event in [] if self.has_faulted else self.events[self.told :][:1]:
            self.check_waits(DEVICE, f"the device's {event}", lambda: self.machine.tell_event(event))
            found.append(f"device {event}")
        if not self.has_ended:
            self.check_waits(COMPOSITOR, "the compositor's next_frame", self.machine.ask_for_frame)
            found.append("compositor next_frame")
        return found

    def check_waits(self, who: str, what: str, attempt: Callable[[], object]) -> None:
        """A call for which no line stands has to wait in the end."""
        try:
            attempt()
        except HeldBack:
            return
        waits = next((it for it in self.report.stuck if it.who == who), None)
        raise NotLegal(self.report.ends[who], f"{what} is missing: nothing holds it back in the end", waits)

    def check_ending(self) -> None:
        """No getter is left, and the lines behind `stuck` and the status are what the end makes them."""
        for script, calls in zip(self.scripts, self.report.scripts):
            if script.made < len(calls):
                raise wrong(calls[script.made], f"its place is {calls[script.made].place}, and nothing was published there")
        self.give_back_all()
        due, stuck, end = self.waiting(), self.report.stuck, self.report.ends["stuck"]
        for call, words in zip(stuck, due):
            if call.waits != words:
                raise NotLegal(call.line, f"{call.waits} is stuck, where {words} is due")
        if len(due) > len(stuck):
            raise NotLegal(end, f"{due[len(stuck)]} is stuck, and has no line")
        if len(due) < len(stuck):
            raise NotLegal(stuck[len(due)].line, f"{stuck[len(due)].waits} isn't stuck")
        is_garbled = self.device.garbled and self.told == len(self.events)
        status = 5 if self.has_faulted else 6 if is_garbled else 7 if stuck else 0
        if self.report.status != status:
            raise NotLegal(end, f"the status is {self.report.status}, and the run ends with {status}")


def has_places(report: Report) -> bool:
    """Whether nothing is told without its place."""
    return all(it.place is not None for it in report.calls)


def judge(scripts: Scripts, device: DeviceText, report: Report) -> Judged:
    """Whether a report that has places is that of a legal history of these scripts and this device. NotLegal says where not."""
    if len(report.scripts) != len(scripts):
        raise NotLegal(1, f"the report has {len(report.scripts)} scripts, and the scenario has {len(scripts)}")
    Replay(scripts, device, report)
    return Judged(len(report.calls), len(report.frames))
