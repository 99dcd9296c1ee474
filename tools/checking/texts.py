"""The two texts of a run, opened and read as the program does it, and what it answers to them."""
from __future__ import annotations

import os
from dataclasses import replace

from checking import prediction
from checking.hanging import frames_come
from checking.orders import tried
from checking.prediction import Answer
from ends import Refused, named
from files import INPUT, FileFault, text_of
from scenarios.devices import FAILED_DEVICE, MOST_TEXT, NO_DEVICE, DeviceText, device_in, read_device
from scenarios.reading import MOST_BYTES, Scripts, read_scenario
from scenarios.schema import NoSchema, Schema
from shown import clipped, count, visible

STUCK = 7
ALWAYS, NEVER = "whatever the order of calls", "hangs whatever the order of calls"
PERHAPS = "or hangs, where somebody waits for ever in the order that calls come in"
HERE = "or hangs, as it does in the order of the round robin"
NO_DEVICE_GIVEN = "no --device is given"
# how many orders are tried, with how many calls in all
MOST_ORDERS, MOST_CALLS = 300, 20_000


def read(name: str, most: int) -> tuple[bytes, FileFault | None]:
    """The text of a file, and why it has none."""
    try:
        return text_of(name, most), None
    except FileFault as fault:
        return b"", fault


def texts_of(name: str, device_name: str | None) -> Texts:
    """The texts of these names, for a tool that makes their calls."""
    try:
        return Texts(name, device_name, Schema.of_file())
    except NoSchema as e:
        raise Refused(str(e)) from None


def device_named(name: str | None) -> DeviceText:
    """The device of a file, which may be one that can be opened and not read, as a folder is."""
    text, fault = read(name, MOST_TEXT + 1) if name is not None else (b"", None)
    if fault and fault.part != "read":
        raise Refused(f"{named(name or '')} can't be read: {fault.why}")
    return FAILED_DEVICE if fault else device_in(text) if name is not None else NO_DEVICE


def device_beside(name: str) -> str:
    """The device's text that stands beside a scenario of this name, or nothing."""
    stem, _, ending = name.rpartition(".")
    return f"{stem}.device" if stem and ending == "json" and os.path.isfile(f"{stem}.device") else ""


class Texts:
    """What stands in the files of these names. The scenario's is None where its file can't be read, and a device's is empty then."""

    def __init__(self, name: str, device_name: str | None, schema: Schema) -> None:
        if name == device_name == INPUT:
            raise Refused("standard input can't be the scenario and the device's text too")
        self.names = [name, *([device_name] if device_name is not None else [])]
        text, self.fault = read(name, MOST_BYTES + 1)
        self.events, self.device_fault = read(device_name, MOST_TEXT + 1) if device_name is not None else (b"", None)
        self.device = read_device(self.events)
        self.scenario = None if self.fault else read_scenario(text, schema)

    @property
    def faults(self) -> list[tuple[str, FileFault]]:
        """The files that can't be read."""
        return [(name, it) for name, it in zip(self.names, (self.fault, self.device_fault)) if it]

    @property
    def beside(self) -> str:
        """A device's text that stands beside the scenario and isn't named, as far as this is told by its name."""
        return device_beside(self.names[0]) if len(self.names) == 1 else ""

    @property
    def forgotten(self) -> str:
        """That no device is given, where its text stands beside the scenario, or where a mark is awaited that no script sets."""
        if self.beside:
            return f"{visible(clipped(self.beside))} stands beside it, and {NO_DEVICE_GIVEN}"
        every = [op for ops in self.scenario.scripts for op in ops] if self.scenario and len(self.names) == 1 else []
        marks = {it: {op.fields["mark"] for op in every if op.name == it} for it in ("mark", "await")}
        return NO_DEVICE_GIVEN if marks["await"] - marks["mark"] else ""

    @property
    def told(self) -> list[str]:
        """What the device tells, and what ends it early."""
        return (FAILED_DEVICE if self.device_fault else device_in(self.events)).all

    @property
    def scripts(self) -> Scripts:
        """The scripts of a scenario that is run."""
        found = self.scenario
        for name, fault in self.faults:
            if fault is self.fault or fault.part != "read":
                raise Refused(f"{named(name)} can't be read: {fault.why}")
        if found is None or found.refusal is not None:
            raise Refused(f"{named(self.names[0])} is no scenario: {found.refusal if found else ''}; tools/check says more")
        return found.scripts

    def answer(self) -> Answer | None:
        """What the program answers, where that can be told: of a pipe that is to be read once only it can't."""
        parts = [it.part for _, it in self.faults]
        if "words" in parts or "open" in parts:
            return Answer(1, prediction.USAGE) if "words" in parts else Answer(2, prediction.CANNOT_OPEN)
        if self.fault and self.fault.part == "read":
            return Answer(3, prediction.CANNOT_READ)
        if self.scenario and (self.scenario.refusal or "waits" not in parts):
            answer = prediction.answer_of(self.scenario, self.device, self.device_fault is not None)
            return replace(answer, more=(*answer.more, self.forgotten)) if answer.status == STUCK and self.forgotten else answer
        return None

    def answer_on_threads(self) -> Answer | None:
        """What the program answers where each script has a thread. How a run ends is up to the device alone, and whether it does to the order. Where it
        hangs in each there is no status."""
        answer = self.answer()
        if answer is None or self.scenario is None or self.scenario.refusal is not None or answer.status in (1, 2, 3):
            return answer
        is_stuck, garbled = bool(answer.more), self.device.garbled
        comes = frames_come(self.scenario.scripts)
        if comes and is_stuck:
            return replace(answer, status=None, line="", order=NEVER)
        order, waits = (ALWAYS, ()) if comes else self.in_orders(HERE if is_stuck else PERHAPS)
        answer = replace(answer, more=(*answer.more, *waits), order=order)
        if self.device_fault:
            return replace(answer, status=5, line=prediction.DEVICE_FAILED)
        return replace(answer, status=6, line=f"xrsim: device line {garbled} garbled") if garbled is not None else replace(answer, status=0, line="")

    def in_orders(self, otherwise: str) -> tuple[str, tuple[str, ...]]:
        """How many orders by chance hang, and who waits in the shortest of them; of long texts none is tried, and this is said."""
        calls = sum(len(it) + 1 for it in self.scripts) + self.device.events
        many = min(MOST_ORDERS, MOST_CALLS // calls)
        if not many:
            return otherwise, ()
        orders = tried(self.scripts, self.told, many)
        hung = "none" if not orders.hung else "all" if orders.hung == many else str(orders.hung)
        does = "does" if orders.hung < 2 else "do"
        told = f"or hangs, {'as' if orders.hung else 'which'} {hung} of {count(many, 'order')} tried {does}"
        waits = orders.shortest.waits if orders.shortest else []
        return told, (f"in the shortest of them waits: {', '.join(waits)}; tools/orders shows it",) if waits else ()
