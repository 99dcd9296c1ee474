"""several.py: tries what the tools' machine does with four sessions. It runs no program.

1. Runs of a table: each call is answered as the table says, and so are the frames that are taken. They are legal, end as is told
   beforehand, and the timeline derives the states that the machine tells.
2. Up to nine frames are pending, and a wait for one is held back by those of other sessions.
3. What tools/why, tools/check and tools/dump say of several sessions.
4. Calls by chance: at most one session is focused, which is the target, nothing is left to settle, and no more than nine frames are
   pending.

What differs is told, and the last line counts.
"""
from __future__ import annotations

import random
import re
import tempfile
from pathlib import Path

from helpers import Tally, calls_of, end, rows_of
from runs import Text, due_of, joined, judged, made_text

from checking.lint import lint
from checking.prediction import Prediction
from drawing.report import join_scenario, read_report
from drawing.scene import Scene
from explaining.reasons import Reasons
from machine import sessions
from machine.history import History
from machine.machine import Machine
from machine.reporting import Run
from machine.turns import is_made
from scenarios.devices import read_device
from scenarios.reading import read_scenario
from scenarios.schema import Schema

FOUR = 4
RUNS, CALLS = 60, 400
EXIT = ("request_exit_session",)
SCHEMA = Schema.of_file()

OF_ONE = {
    "NEW": "create_session instance=i system=1 as={0}",
    "RUN": "begin_session session={0} view=stereo",
    "BEGIN": "wait_frame session={0} as=t +SUCCESS ..; begin_frame session={0}",
    "END": "end_frame session={0} blend=opaque",
    "FRAME": "{{BEGIN_{1}}}; {{END_{1}}} time=t layers=[]",
    "ON": "{{NEW_{1}}}; {{RUN_{1}}}; {{FRAME_{1}}}",
    "EXIT": "request_exit_session session={0}",
    "ENDS": "end_session session={0}",
    "GONE": "destroy_session session={0}",
    "LOCAL": "create_reference_space session={0} kind=local offset=1",
    "CHAIN": "create_swapchain session={0} format=1 width=1 height=1 static=false",
    "ATTACH": "attach_sets session={0}",
    "SYNC": "sync_actions session={0}",
    "GET": "get_boolean session={0} action=b sub=0",
}
ACTS = (
    "{A_SET}; {AN_ACTION}; {A_POSE}; string_to_path instance=i text=/interaction_profiles/khr/simple_controller as=f +SUCCESS ..; "
    "string_to_path instance=i text=/user/hand/left/input/menu/click as=m +SUCCESS ..; "
    "string_to_path instance=i text=/user/hand/left/input/grip/pose as=g +SUCCESS ..; "
    'suggest_bindings instance=i profile=f bindings=[["b","m"],["p","g"]]'
)
ALSO = {
    "ON_BOTH": "{AT 1}; {INSTANCE}; {ON_S}; {ON_U}; ? 1 IDLE, 1 READY, 1 SYNCHRONIZED, 1 VISIBLE, 1 FOCUSED, 2 IDLE, 2 READY, "
    "2 SYNCHRONIZED, 1 VISIBLE, 2 VISIBLE, 2 FOCUSED; ?",
    "TWO": "wish focused, mark 1",
    "FRAMES 2": "frame 1 .., frame 2 ..",
    "SHOWN": "acquire_image chain=c +SUCCESS 0; wait_image chain=c timeout=0; release_image chain=c",
    "TOUCH": "wish focused, profile /user/hand/left khr/simple_controller, input /user/hand/left/input/menu/click 1, clock 9, "
    "pose local 0 7, pose /user/hand/left/input/grip/pose 0 8, mark 1",
    "ACTING": f"{{ON_BOTH}}; {ACTS}; {{ATTACH_S}} sets=[\"d\"]; {{ATTACH_U}} sets=[\"d\"]",
    **{f"AND {it}": f"mark mark={it}" for it in range(1, 9)},
    **{f"AT {it}": f"await mark={it}" for it in range(1, 9)},
}
OWN = {**{f"{name}_{it.upper()}": text.format(it, it.upper()) for name, text in OF_ONE.items() for it in "suvw"}, **ALSO}


def own(text: str) -> str:
    """A text with what the names of this test stand for, and polls in the place of what they tell."""
    before = ""
    while before != text:
        before, text = text, re.sub(r"\{([A-Z_]+(?: \d)?)\}", lambda it: OWN.get(it[1], it[0]), text)
    text = re.sub(r"\? ([^;]*)", lambda it: "; ".join(f"poll_event instance=i +SUCCESS state {one}" for one in it[1].split(", ")), text)
    return re.sub(r"\?(?=;|$)", "poll_event instance=i +EVENT_UNAVAILABLE", text)


def listed(text: str) -> list[str]:
    """What stands apart by commas, or nothing where a stroke does."""
    return own(text).split(", ") if text != "-" else []


def is_said(line: str, due: str) -> bool:
    """Whether a line is what is due, or begins so where that ends in `..`."""
    return line.startswith(due[:-2]) if due.endswith("..") else line == due


class Told(Run):
    """A run that keeps the states which each call told, by its place and a session's ordinal."""

    def __init__(self, text: Text) -> None:
        super().__init__(text.scripts, text.device.all)
        self.states: dict[tuple[int, int], list[str]] = {}
        self.tell_machine, self.machine.tell = self.machine.tell, self.keep
        self.in_rounds()

    def keep(self, events: list[str]) -> None:
        self.tell_machine(events)
        for _, ordinal, state in (it.split(" ") for it in events):
            self.states.setdefault((self.machine.locked + 1, int(ordinal)), []).append(state)


def calls_due(text: str) -> list[str]:
    """What the calls of a script come to. A + within a location is written as ~."""
    return [*(words.replace("~", "+") for _, words in calls_of(own(text))), "leave XR_SUCCESS"]


def compare(tally: Tally, name: str, found: list[str], due: list[str]) -> None:
    for number, (line, words) in enumerate(zip(found, due), 1):
        tally.check(is_said(line, words), f"{name}: {number} {line!r}, and {words!r} is due")
    tally.same(len(found), len(due), f"{name}: the count of lines")


def derived(tally: Tally, run: Told, text: Text) -> None:
    """The timeline derives the states that were told, and draws a report alone."""
    report = joined(run.report())
    for scripts in (text.scripts, None):
        read = read_report(report)
        chains = join_scenario(read, scripts) if scripts else []
        scene = Scene(read, scripts, "several", chains)
        drawn = {(it.place, of.ordinal): it.states for of in scene.sessions for it in of.changes if it.states}
        if scripts:
            tally.same(drawn, run.states, f"{text.name}: the states drawn")
        tally.check(len(scene.sessions) == run.machine.sessions_created, f"{text.name}: {len(scene.sessions)} sessions are drawn")


def table(tally: Tally, room: Path) -> None:
    """Each run of the table."""
    for name, device, frames, script in rows_of("several"):
        text = made_text(room, "several", own(script), listed(device))._replace(name=name)
        run = Told(text)
        blocks = {head: [re.sub(r"^\d+ (?=[a-z])| @\d+$", "", it) for it in block] for head, block in run.blocks.items()}
        compare(tally, name, blocks["thread 1"], calls_due(script))
        compare(tally, f"{name}: the compositor", blocks["compositor"], [*listed(frames), "ended"])
        tally.same(judged(text, joined(run.report())), "", f"{name}: its report is refused")
        files = (room / "several.json").read_bytes(), (room / "several.device").read_bytes()
        tally.same(due_of(*files).status, 0, f"{name}: what is told of its end")
        derived(tally, run, text)


def frames(tally: Tally, room: Path) -> None:
    """Nine frames are pending, of which each of three sessions had two on the way."""
    machine = Machine(1)
    machine.tell_event("wish ready")

    def call(op: str, *its: int, **fields: object) -> int:
        made = [machine.make(op, {**fields, "session": it} if its else fields) for it in its or (0,)]
        tally.check(all(it.code == "XR_SUCCESS" for it in made), f"frames: {op} {its} came to {made}")
        return made[-1].given

    def is_held_back(session: int) -> bool:
        return not is_made(lambda: bool(machine.make("wait_frame", {"session": session})))

    instance = call("create_instance", major=1, minor=0)
    first, *others = [call("create_session", instance=instance, system=1) for _ in range(FOUR)]
    call("begin_session", first, *others, view="stereo")
    ended = {"time": 1, "blend": "opaque", "layers": []}
    for op in ("wait_frame", "begin_frame", "wait_frame"):
        call(op, *others)
    tally.check(all(map(is_held_back, others)), "a second frame is waited for beside one that is")
    for number in range(3):
        call("wait_frame", first)
        call("begin_frame", first)
        tally.check(number < 2 or is_held_back(first), "a wait beside two pending frames and one of its own that is begun")
        call("end_frame", first, **ended)
    tally.check(is_held_back(first), "a wait beside three pending frames of its own")
    call("end_frame", *others, **ended)
    call("begin_frame", *others)
    call("end_frame", *others, **ended)
    tally.same(len(machine.frames.pending), 9, "frames that are pending")
    tally.check(all(map(is_held_back, (first, *others))), "a wait beside nine pending frames")
    for left in reversed(range(2, 9)):
        tally.check(all(map(is_held_back, (first, *others))), f"a wait beside {left + 1} pending frames")
        machine.ask_for_frame()
    call("wait_frame", *others)
    call("begin_frame", *others)
    call("wait_frame", first)
    tally.check(all(map(is_held_back, others)), "a wait beside two pending frames and its own that is begun")


# scripts, and what tools/why and --lint of tools/check tell of them, or who waits, each behind the words that say which
SAID = (
    ("{INSTANCE}; {NEW_S}; {NEW_U}; {NEW_V}; {NEW_W}; {NEW_S}",
     "op 6 create_session XR_ERROR_LIMIT_REACHED: 4 such handles are live, which are the most"),
    ("{ON_BOTH}; {SYNC_S} active=[]",
     "sync_actions XR_SESSION_NOT_FOCUSED: the session is VISIBLE since op 12 end_frame, and FOCUSED is due"),
    ("{ON_BOTH}; {EXIT_U}; {ENDS_S}",
     "end_session XR_ERROR_SESSION_NOT_STOPPING: the session is FOCUSED since op 25 request_exit_session, and STOPPING is due"),
    ("{ON_BOTH}; {ENDS_U}", "end_session XR_ERROR_SESSION_NOT_STOPPING: the session is FOCUSED since op 12 end_frame, and STOPPING is due"),
    ("{INSTANCE}; {NEW_S}; {NEW_U}; {LOCAL_S} as=x; {LOCAL_U} as=o; locate_space space=x base=o time=1",
     'op 6 locate_space XR_ERROR_HANDLE_INVALID: "o" is no live space of the session: it is another session\'s, made by op 5 create_refer',
     'script 1 op 6 base: "o" is another session\'s: XR_ERROR_HANDLE_INVALID'),
    ("{AT 1}; {INSTANCE}; {NEW_S}; {NEW_U}; {RUN_U}; {CHAIN_S} as=c; {LOCAL_U} as=o; {BEGIN_U}; "
     '{END_U} time=1 layers=[{"quad":"o","image":["c",0,0,1,1],"pose":1}]; {GONE_U}; {GONE_S}',
     'XR_ERROR_HANDLE_INVALID: item 1 view 1: "c" is no live swapchain of the session: it is another session\'s, made by op 6 create_swap',
     'script 1 op 10 layers: "c" is another session\'s: XR_ERROR_HANDLE_INVALID'),
    ("{AT 1}; {INSTANCE}; {NEW_S}; {NEW_U}; {RUN_U}; {LOCAL_S} as=x; {BEGIN_U}; "
     '{END_U} time=1 layers=[{"quad":"x","image":[0,0,0,1,1],"pose":1}]; {GONE_U}; {GONE_S}',
     'XR_ERROR_HANDLE_INVALID: item 1: "x" is no live space of the session: it is another session\'s, made by op 6 create_reference_space'),
    ("{INSTANCE}; {NEW_S}; mark mark=2; {AT 3}; {NEW_U}; {RUN_S}; {RUN_U}; {LOCAL_S}",
     "begin_session XR_ERROR_SESSION_LOST: the session was lost by the device's event 4 (lost)"),
    ("{INSTANCE}; {NEW_S}; {NEW_U}; {ATTACH_S} sets=[]; {A_SET}; {AN_ACTION}; {ATTACH_S} sets=[\"d\"]; {GET_U}",
     "get_boolean XR_ERROR_ACTIONSET_NOT_ATTACHED: the session attached no sets"),
    ("{AT 1}; {INSTANCE}; {NEW_S}; {RUN_S}; {NEW_U}; {RUN_U}; wait_frame session=s; wait_frame session=s; begin_frame session=u; "
     "begin_frame session=s",
     "waits until the frame before its own is begun: it would be begun by script 1 op 10, which nobody gets to"),
    ("{AT 1}; {INSTANCE}; {NEW_S}; {RUN_S}; {NEW_U}; wait_frame session=s; wait_frame session=s; begin_frame session=u",
     "waits until the frame before its own is begun: nobody begins it"),
)


def said(tally: Tally, room: Path) -> None:
    """What tools/why and tools/check tell, and the states that tools/dump prints."""
    for scripts, *words in SAID:
        text = made_text(room, "said", own(scripts), ["wish focused", "mark 1", "await 2", "lost", "mark 3"])
        run, found = Reasons(text.scripts, text.device.all), read_scenario((room / "said.json").read_bytes(), SCHEMA)
        run.in_rounds()
        told = [f"{run.shown(entry)} {entry.answer.code}: {why}" for entry, why in run.found]
        device = read_device((room / "said.device").read_bytes())
        told += [it.words for it in lint(found, device, True, set())[0]] + Prediction(found.scripts, device, False).waiting(found.text)
        for it in words:
            tally.check(any(it in line for line in told), f"{scripts!r}: {told} hasn't {it!r}")
    text = made_text(room, "said", own("{INSTANCE}; {NEW_S}; {NEW_U}; {GONE_S}; {GONE_U}"), ["wish focused"])
    run = History(text.scripts, text.device.all)
    run.in_rounds()
    states = [it.state for it in run.entries if isinstance(it.actor, int)]
    tally.same(states, ["", "READY", "1 READY, 2 READY", "READY", "", ""], "the states of a dump")


def chance(tally: Tally, room: Path) -> None:
    """Calls by chance on up to four sessions."""
    some = random.Random(61)
    focused = most = 0
    for _ in range(RUNS):
        machine = Machine(1)
        instance = machine.make("create_instance", {"major": 1, "minor": 0}).given
        for number in range(CALLS):
            its = [it.handle for it in machine.sessions]
            if len(its) < some.randint(0, FOUR):
                machine.make("create_session", {"instance": instance, "system": 1})
            elif some.random() < 0.05:
                machine.tell_event(some.choice(("wish focused",) * 8 + ("wish visible", "wish ready", "wish rest", "loss")))
            elif some.random() < 0.1:
                is_made(lambda: bool(machine.ask_for_frame()))
            elif its:
                op = some.choice(("wait_frame", "begin_frame", "end_frame") * 6 + ("begin_session", "end_session") * 2 + EXIT)
                op = "destroy_session" if some.random() < 0.01 else op
                more = {"begin_session": {"view": "stereo"}, "end_frame": {"time": 1, "blend": "opaque", "layers": []}}.get(op, {})
                is_made(lambda: bool(machine.make(op, {"session": some.choice(its), **more})))
            have = [it for it in machine.sessions if it.state == "FOCUSED"]
            target = sessions.target_of(machine.sessions)
            is_due = [*have] == [it for it in (target,) if it and machine.device.wish == "focused"]
            tally.check(is_due, f"call {number}: sessions {[it.ordinal for it in have]} are focused, and the target is another")
            tally.same(sessions.settled(machine.sessions, machine.device.wish), [], f"call {number}: what is left to settle")
            busy = sum(it.has_waited + it.has_begun for it in machine.sessions)
            most, focused = max(most, len(machine.frames.pending) + busy), focused + len(have)
    tally.check(4 <= most <= 9 and focused > CALLS, f"{most} frames at most are on the way, and {focused} times a session is focused")


if __name__ == "__main__":
    tally = Tally()
    with tempfile.TemporaryDirectory() as folder:
        for trial in (table, frames, said, chance):
            trial(tally, Path(folder))
    end("several.py", tally)
