"""How a run of texts ends, which the texts tell: the machine makes it turn by turn. Where all others wait, the device goes on at once to its first
event that may release somebody."""
from __future__ import annotations

import re
from collections.abc import Callable, Container
from dataclasses import dataclass

from machine.turns import Script, Turns, is_made
from scenarios.devices import END, DeviceFound
from scenarios.findings import line_and_column
from scenarios.reading import Op, ScenarioFound, Scripts

# the lines on standard error; tools/tests/texts.py compares them with the program
USAGE = "xrsim: usage: xrsim serial FILE, xrsim threads FILE, with --device FILE and --places; xrsim load N"
CANNOT_OPEN = "xrsim: cannot open"
CANNOT_READ = "xrsim: cannot read the scenario"
DEVICE_FAILED = "xrsim: device failed"
STUCK = "xrsim: stuck"

MOST_MARK = 64

# a pattern that fits nothing
NOTHING = "(?!)"


@dataclass
class Answer:
    """What the program answers: its exit status, which a run that hangs hasn't, its line on standard error where it has one, lines that say why, and
    what holds of the order of calls on threads."""

    status: int | None
    line: str = ""
    more: tuple[str, ...] = ()
    order: str = ""


def unset(marks: Container[int]) -> str:
    """A pattern of the marks that aren't set."""
    tens: dict[str, list[str]] = {}
    for mark in range(1, MOST_MARK + 1):
        if mark not in marks:
            tens.setdefault(str(mark)[:-1], []).append(str(mark)[-1])
    return "|".join(f"{ten}[{''.join(ones)}]" for ten, ones in tens.items()) or NOTHING


def would_be(done: str, does: str, found: list[str]) -> str:
    """Who would do what somebody waits for, if somebody could go on to it."""
    return f"it would be {done} by {' and by '.join(found)}, which nobody gets to" if found else f"nobody {does} it"


class Prediction(Turns):
    """All actors on their way, until nobody can go on. Behind its events the device has a fault or a garbled line, if it ends early."""

    def __init__(self, scripts: Scripts, device: DeviceFound, is_failing: bool) -> None:
        super().__init__(scripts, [])
        self.device = device
        self.next = device.event(0)
        self.ends_early = is_failing or device.garbled is not None
        *calls, tell, compose = self.turns()
        is_moving = True
        while is_moving:
            has_moved = any([is_made(it) for it in calls])
            if not has_moved and self.machine.frames.are_done:
                self.tell_quiet()
            has_told = is_made(tell)
            is_moving = is_made(compose) or has_moved or has_told

    # ---- the device

    def tell(self) -> bool:
        if self.next:
            self.machine.tell_event(f"{self.next.name} {self.next.words}".rstrip())
            self.next = self.device.event(self.next.at + 1)
            return True
        had_more, self.ends_early = self.ends_early, False
        if had_more:
            self.machine.tell_loss(is_pending=False)
        return had_more

    def tell_quiet(self) -> None:
        """Tells all events up to the first one that may release somebody who waits for a mark or a frame. A mark may, where it isn't set yet, and a
        loss may. At an `await` of a mark that isn't set the device waits itself. Nobody waits for an image, since no frame uses any."""
        if self.next is None:
            return
        lost = "lost|" if any(not it.is_lost for it in self.machine.sessions) else ""
        stop = re.compile(rf"\n(?:{lost}(?:mark|await) (?:{unset(self.machine.marks)})){END}".encode())
        found = stop.search(self.device.text, self.next.at)
        end = found.start() if found else len(self.device.text)
        self.tell_all(self.device.text[self.next.at : end])
        self.next = self.device.event(end)

    def tell_all(self, text: bytes) -> None:
        """What the lines do that stand each behind a line feed, as if they were told one by one, as far as it decides who
        waits. None of them is `lost` while a session could be lost by it."""
        machine = self.machine
        for mark in [mark for mark, value in machine.marks.items() if value]:
            if f"\nmark {mark}\n".encode() in text + b"\n":
                machine.marks[mark] = 0
        if b"\nclock " in text:
            times = re.findall(rb"\nclock ([0-9]+)", text)
            longest = max(map(len, times))
            machine.tell_event(f"clock {max(it for it in times if len(it) == longest).decode()}")
        for name in ("grid", "stage") if machine.sessions else ("grid", "stage", "wish"):
            last = text.rfind(f"\n{name} ".encode())
            if last >= 0:
                machine.tell_event(text[last + 1 :].partition(b"\n")[0].decode())
        if machine.sessions and (b"\nwish " in text or b"\nloss" in text):
            self.tell_states(re.findall(rb"\n(?:wish ([a-z]+)|loss)", text))

    @property
    def states(self) -> tuple[str, ...]:
        """The states of all sessions."""
        return tuple(it.state for it in self.machine.sessions)

    def bring(self, states: tuple[str, ...]) -> None:
        """Brings the sessions to these states."""
        for session, state in zip(self.machine.sessions, states):
            session.state = state

    def tell_states(self, wishes: list[bytes]) -> None:
        """The wishes and losses of a device in their order; a loss is empty here. A step that was made once is made again without following it."""
        made: dict[tuple[tuple[str, ...], bytes], tuple[str, ...]] = {}
        states = self.states
        for wish in wishes:
            step = states, wish
            if step not in made:
                self.bring(states)
                self.machine.tell_event(f"wish {wish.decode()}" if wish else "loss")
                made[step] = self.states
            states = made[step]
        self.bring(states)
        device = self.machine.device
        device.wish = next((it.decode() for it in reversed(wishes) if it), device.wish)

    # ---- who is stuck

    def left(self, does: Callable[[Script, Op], bool]) -> list[str]:
        """The first op of each script that does something and isn't made."""
        ahead = [(it, enumerate(it.ops[it.made :], it.made + 1)) for it in self.scripts]
        places = [(it.number, next((at for at, op in ops if does(it, op)), 0)) for it, ops in ahead]
        return [f"script {number} op {place}" for number, place in places if place]

    def setters(self, mark: int) -> str:
        """Who would set a mark: ops, and an event of those that weren't told."""
        found = self.left(lambda _, it: it.name == "mark" and it.fields["mark"] == mark)
        at = self.next.at if self.next else len(self.device.text)
        line = re.compile(rf"\nmark {mark}{END}".encode()).search(self.device.text, at)
        found += [f"the device's line {self.device.text.count(10, 0, line.start() + 1)}"] if line else []
        return would_be("set", "sets", found)

    def beginners(self, session: int) -> list[str]:
        """Who would begin a frame of a session, as far as is known: not by a name of another live session that isn't given again."""
        others = {it.handle for it in self.machine.sessions} - {session}

        def may_begin(script: Script, op: Op) -> bool:
            name = op.fields["session"] if op.name == "begin_frame" else 0
            is_given = any(it.fields.get("as") == name for it in script.ops[script.made :])
            return name != 0 and (is_given or script.values.get(name) not in others)

        return self.left(may_begin)

    def waiting(self, text: str) -> list[str]:
        """A line for each script that waits for ever, and one for the device: for what, and who would give it. In the end a frame waits only for the
        one before it of its session, and nobody waits for an image."""
        lines = []
        for script in (it for it in self.scripts if not it.is_done):
            if script.next.name == "await":
                mark = script.next.fields["mark"]
                why = f"for mark {mark}: {self.setters(mark)}"
            else:
                begins = self.beginners(script.fields()["session"])
                why = f"until the frame before its own is begun: {would_be('begun', 'begins', begins)}"
            line, column = line_and_column(text, script.next.at)
            lines.append(f"script {script.number} op {script.made + 1} (line {line}, column {column}) waits {why}")
        event = self.next
        if event:
            line = self.device.line_of(event)
            lines.append(f"the device's line {line} waits for mark {event.words}: {self.setters(int(event.words))}")
        return lines


def answer_of(scenario: ScenarioFound, device: DeviceFound, is_failing: bool = False) -> Answer:
    """What the program answers to a scenario and a device's text, or to a device whose file can't be read."""
    if scenario.refusal is not None:
        return Answer(4, f"xrsim: scenario refused: {scenario.refusal}")
    run = Prediction(scenario.scripts, device, is_failing)
    waiting = tuple(run.waiting(scenario.text))
    if is_failing:
        return Answer(5, DEVICE_FAILED, waiting)
    if device.garbled is not None and run.next is None and not run.ends_early:
        return Answer(6, f"xrsim: device line {device.garbled} garbled", waiting)
    if not waiting:
        return Answer(0)
    if device.garbled is not None:
        waiting += (f"the device's line {device.garbled}, which is garbled, isn't asked for",)
    return Answer(7, STUCK, waiting)
