"""The report and the scenario of a drawing. The report has places; what is wrong of either is told in words of this tool. A scenario is a
report's as far as the report tells: the machine makes its calls with the scenario's arguments."""
from __future__ import annotations

import re

from drawing.owners import Owners, OwnersReplay
from ends import Refused
from judging.replay import NotLegal, told_by
from machine.answers import Answer
from reports.reading import DEVICE, FIRST_LINE, WORDS, Call, NoReport, Report, check_ends, check_places, join, read_lines, text_of
from scenarios.devices import DeviceText
from scenarios.reading import MOST_BYTES, NoScenario, Scripts, scenario_in

UNTOLD = (
    "A report has no arguments: those shown are the scenario's. The two agree in ops, handles, marks, path texts, the times and"
    " layers of frames, and arguments that a call is refused for; what else was given a report can't tell."
)
OTHER = "the report is another scenario's: "
OWN_WORDS = {
    "empty": "the report is empty",
    "first": "this is no report: its first line isn't `xrsim report 1`",
    "no status": "it is cut behind its line {line}: it has no `status` line",
    "end due": "its line {line}: an event, `stuck` or `status` is due here",
    "more": "its line {line}: nothing is due behind the status",
    "place": "its line {line}: the call has no place; make the report with --places",
    "values": "its line {line}: `{op}` at {code} has no such values",
    "number": "its line {line}: the call of {who} has the number {number}, and {due} is due",
    "leave": "its line {line}: {who} makes a call behind its `leave`",
    "frame's number": "its line {line}: frame {number} comes where {due} is due",
    "event": "its line {line}: no line of a device event",
    "event's number": "its line {line}: the event has the number {number}, and {due} is due",
    "garbled": "its line {line}: no line of a device event",
    "fault": "its line {line}: the device goes on behind its fault",
    "waiters": "it is broken: its `stuck` lines name a script that isn't there, or one twice",
    "stuck too": "it is broken: {who} has ended and is stuck too",
    "no end": "it is broken: {who} has neither ended nor is it stuck",
    "order": "it is broken: the places of {who} don't ascend",
    "places": "it is broken: place {place} is {what}",
    "other scripts": OTHER + WORDS["other scripts"],
    "other op": OTHER + "call {number} of {who} is `{op}`, and the scenario has `{due}`",
    "other mark": OTHER + "call {number} of {who} is of another mark, and the scenario has mark {due}",
    "other capacity": OTHER + "call {number} of {who}, `{op}`, came to {came}, which the scenario's capacity doesn't give",
}

# what a scenario is refused for, and how that is said
REFUSALS = (
    (r"too long", f"the scenario has more than {MOST_BYTES} bytes"),
    (r"script 0 op 0 (?:top|scripts)", "the scenario has no key `scripts` with 1 to 8 scripts"),
    (r"script (\d) op 0 script", r"the scenario's script \1 is no array"),
    (r"script (\d) op (\d+) op", r"the scenario's script \1 has no op at \2"),
    (r"script (\d) op (\d+) mark", r"the scenario's script \1 has no mark from 1 to 64 at \2"),
)

# the fields of handles, what a call is answered for a field, and the field whose value an op's answer tells
OWN_HANDLES = ("instance", "session", "space", "set", "action", "chain")
FIELD_OF = dict(
    it.split(":")
    for it in """XR_ERROR_API_VERSION_UNSUPPORTED:version XR_ERROR_FORM_FACTOR_UNSUPPORTED:form XR_ERROR_SYSTEM_INVALID:system
    XR_ERROR_VIEW_CONFIGURATION_TYPE_UNSUPPORTED:view XR_ERROR_POSE_INVALID:offset XR_ERROR_PATH_FORMAT_INVALID:text
    XR_ERROR_PATH_INVALID:path XR_ERROR_TIME_INVALID:time XR_ERROR_SWAPCHAIN_FORMAT_UNSUPPORTED:format
    XR_ERROR_ENVIRONMENT_BLEND_MODE_UNSUPPORTED:blend XR_ERROR_LAYER_LIMIT_EXCEEDED:layers XR_TIMEOUT_EXPIRED:timeout""".split()
)
TOLD_BY = {"await": "mark", "string_to_path": "text", "path_to_string": "path", "locate_space": "space", "create_swapchain": "size"}


class Unreadable(Refused):
    """What is wrong with an input, in one line."""


def own_words(e: NoReport) -> Unreadable:
    """A fault of a report, in words of this tool."""
    said = OWN_WORDS.get(e.kind, WORDS[e.kind]).format(**e.given)
    return Unreadable(re.sub("^it is ", "the report is ", re.sub("^its ", "the report's ", said)))


def _check_text(data: bytes) -> None:
    """A report that a shell or an editor has rewritten is told apart from no report."""
    if data.startswith(b"\xef\xbb\xbf" + FIRST_LINE):
        raise Unreadable("the report has a byte order mark in front, which a report hasn't")
    if data.startswith((b"\xff\xfex\x00r\x00", b"\xfe\xff\x00x\x00r")):
        raise Unreadable("the report was written over as UTF-16, as some shells do at `>`; a report is UTF-8")
    is_first = data.startswith(FIRST_LINE + b"\r")
    if is_first or "\r" in text_of(data):
        line = 1 if is_first else data.count(b"\n", 0, data.index(b"\r")) + 1
        raise Unreadable(f"the report's line {line} has a carriage return: a report's lines end in a line feed alone; tr -d '\\r' mends it")


def read_report(data: bytes) -> Report:
    """The report that these bytes are."""
    try:
        _check_text(data)
        report = read_lines(data, has_places=True)
        check_places(report)
        check_ends(report)
    except NoReport as e:
        raise own_words(e) from None
    for number, call in enumerate(report.compositor, 1):
        call.number = number
    return report


def read_scenario(data: bytes) -> Scripts:
    """The scripts of a scenario."""
    try:
        found = scenario_in(data)
    except NoScenario as e:
        raise Unreadable(str(e)) from None
    if found.refusal is None:
        return found.scripts
    if found.refusal == "json":
        first = found.findings[0]
        if first.words.startswith("the text isn't UTF-8"):
            raise Unreadable(f"the scenario isn't UTF-8 in its line {first.line}")
        place = f"line {first.line} column {first.column}"
        raise Unreadable(f"the scenario is no JSON: {first.words.removeprefix('this is no JSON: ')}: {place}")
    for pattern, said in REFUSALS:
        if re.fullmatch(pattern, found.refusal):
            raise Unreadable(re.sub(pattern, said, found.refusal))
    raise Unreadable(f"the scenario is refused: {found.refusal}; tools/check says more")


def field_of(call: Call, answer: Answer | None) -> str:
    """The argument by which a call can't have been answered so."""
    handle = next((it for it in OWN_HANDLES if it in (call.arguments or {})), "")
    for code in (answer.code if answer else "", call.code):
        field = handle if code == "XR_ERROR_HANDLE_INVALID" else FIELD_OF.get(code)
        if field is not None:
            return field
    return TOLD_BY.get(call.op) or handle


def words_of(e: NotLegal) -> str:
    """Why a line can't be the scenario's."""
    call, answer = e.call, e.answer
    if call is None:
        return str(e)
    if call.what == "stuck" and call.op == "await":
        return f"{call.who} is stuck at mark {(call.arguments or call.values)['mark']}, which was set"
    if call.what == "frame" and answer:
        is_late = answer.words.split(" ")[3:4] != [str(call.values["time"])]
        return f"frame {call.number} has {'another time' if is_late else 'other layers'} than its end_frame"
    if call.what == "event" and call.op == "await":
        return f"the device's event {call.number} awaited mark {call.text}, which nobody set"
    if not call.script:
        return str(e)
    field = field_of(call, answer)
    whose = f"the scenario's {field}" if field else "the scenario"
    return f"call {call.number} of {call.who}, `{call.name}`, came to {told_by(call)}, which {whose} doesn't give"


def join_scenario(report: Report, scripts: Scripts) -> list[Owners]:
    """Gives each call of a script its arguments, where the scenario is the report's, as far as that tells of the arguments; and the owners of the
    images of its swapchains. Of the device the report tells the events, the one that it waits for, and what ended it."""
    events = [told_by(it) for it in report.events] + [f"await {it.text}" for it in report.stuck if it.actor == DEVICE]
    last = report.device[-1] if report.device else Call("", DEVICE)
    device = DeviceText(events, last.values["line"] if last.what == "garbled" else None, has_failed=last.what == "fault")
    try:
        join(report, scripts)
        return [*OwnersReplay(scripts, device, report).chains.values()]
    except NoReport as e:
        raise own_words(e) from None
    except NotLegal as e:
        raise Unreadable(f"{OTHER}{words_of(e)}") from None
