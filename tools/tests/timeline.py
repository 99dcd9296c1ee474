"""timeline PROGRAM: tries tools/timeline over examples, cases, scenarios by chance, long reports, and inputs that can't be drawn.

PROGRAM makes the reports. Where a headless Chromium is installed, it opens pages too. The first failures are told, and the last
line counts.
"""
from __future__ import annotations

import json
import math
import os
import random
import re
import shutil
import xml.etree.ElementTree as xml
from collections.abc import Callable
from itertools import combinations
from operator import mul
from pathlib import Path

from helpers import EXAMPLES, ROOT, TABLES, TOOLS, Tally, main, rows_of, run, spoilt_text, tool, with_device
from runs import Text, content, in_rounds, joined, made_text, marks_by_chance, spoilt_by_chance, stored_runs

import by_chance
from browser import browser
from drawing.chart import MOST_CHANGES, ways
from drawing.columns import ASIDE, IN_A_PIECE
from drawing.page import page
from drawing.picture import picture
from drawing.replay import STATES, Change
from drawing.report import Unreadable, join_scenario, read_report, read_scenario
from drawing.scene import INSIDE, MORE_SIZE, MOST_LABEL, Scene, label_of
from drawing.text import width_of
from machine.answers import HeldBack
from machine.reporting import Run
from reports.values import GETTERS
from scenarios.devices import CONTROLLERS, FAILED_DEVICE, HANDS, POSES, PROFILES, USERS

# the stored pictures, the last of which is of a stored run on threads
PICTURES = ("life", "frames", "handover", "stuck", "threads")
# the most heights of a session's lane in which no word leans, and in which some do
PLAIN_LANE, LEANING = 56, 125
BY_CHANCE = 150
MUTATIONS = 400
MOST_ROWS = 20_000
EXTERNAL = re.compile(r"""(?:src|href)=(?!["']?(?:#|data:,))|url\((?!#)|@import|https?://(?!www\.w3\.org/2000/svg")""")
SVG = "{http://www.w3.org/2000/svg}"
# what an actor waits for
WAITS = {"next_frame": "the next frame", "wait_frame": "the frames before its own", "wait_image": "an image", "await": "mark {}"}
# paths that calls give, and how they are shown at them
PATHS = {
    "/user/hand/left": "size 16 /user/hand/left",
    "/user/hand/left/input/trigger/value": "size 36 \u2026left/input/trigger/value",
    "/user/hand/right/input/trigger/value": "size 37 \u2026right/input/trigger/value",
    "/interaction_profiles/oculus/touch_controller": "size 46 \u2026touch_controller",
}
WORDS_OF_INPUTS = [f"input {user}/input/{it}" for (_, user), (inputs, _) in CONTROLLERS.items() for it in inputs if it not in POSES]
# calls that a sum has many kinds of
DULL = (
    "string_to_path instance=i text=/user as=p", "path_to_string instance=i path=p capacity=9", "poll_event instance=i",
    "{SET} name=a localized=a as=d", "{ACTION} name=a localized=a subactions=[]", "create_action set=d type=pose name=p localized=p subactions=[]",
    "{SET} name=b localized=b as=e", "destroy_action_set set=e",
)
FRAMES = 2_500
# a bar of an await, whose mark isn't known without the scenario
WITHOUT = re.compile(r"^(script \d waits for )mark \d+")


# ---- what stands in a page


def svgs_of(html: str) -> list[xml.Element]:
    return [xml.fromstring(it) for it in re.findall(r"<svg.*?</svg>", html, re.S)]


def having(roots: list[xml.Element], name: str) -> list[xml.Element]:
    """The elements with this class."""
    return [it for root in roots for it in root.iter() if name in it.get("class", "").split()]


def title_of(element: xml.Element) -> str:
    return element.findtext(f"{SVG}title", "")


def scene_of(report: bytes, scenario: bytes | None, title: str = "report") -> Scene:
    read = read_report(report)
    scripts = None if scenario is None else read_scenario(scenario)
    if scripts is not None:
        join_scenario(read, scripts)
    return Scene(read, scripts, title)


def check_page(tally: Tally, name: str, html: str, report: bytes) -> None:
    """What each page must have that sums nothing up: each call, each await's arrow, each frame, who is stuck, a lane for each
    actor, and a row of the table for each call, in which refusals stand out."""
    text = report.decode()
    calls, getters, awaits, frames, refused, faults = (
        len(re.findall(it, text, re.M))
        for it in (r" @\d+$", r"^\d+ get_(?!system).* @", r"^\d+ await .*@", "^frame ", " XR_ERROR_.* @", "^(?:fault|garbled)")
    )
    tally.check(not EXTERNAL.search(html), f"{name}: a reference outside the page")
    last = 0
    for bracket, place in re.findall(r"<tr[^>]*><td class=n>(\(?)(\d+)", html):
        tally.check(int(place) <= last if bracket else int(place) == last + 1, f"{name}: row {bracket}{place} stands behind {last}")
        last = last if bracket else int(place)
    roots = [it for it in svgs_of(html) if it.get("class") == "timeline"]
    lanes = [f"script {it}" for it in re.findall(r"^thread (\d)$", text, re.M)] + ["device", "compositor"]
    tally.same(re.findall(r'class="lane-name"[^>]*>([^<]*)<', html)[: len(lanes)], lanes, f"{name}: its lanes")
    drawn = having(roots, "call")
    aside = sum("getter" in title_of(it) or "publication" in title_of(it) for it in drawn)
    for what, found, due in (
        ("calls", len(drawn) - aside, calls - getters),
        ("arrows of awaits", len(having(roots, "mark-arrow")), awaits),
        ("lines of frames", len(having(roots, "frame-arrow")), frames),
        ("open bars", len(having(roots, "open")), max(0, text.partition("\nstuck\n")[2].count("\n") - 1)),
        ("rows", html.count("<tr") - 1, calls),
        ("marked rows", html.count("<tr class=r>"), refused + faults),
        ("refusals", having(roots, "refused") != [], refused > 0),
        ("faults", having(roots, "fault") != [], faults > 0),
    ):
        tally.same(found, due, f"{name}: the count of {what}")


# ---- runs that are drawn


def examples(tally: Tally, program: str, room: Path) -> None:
    """Each example's page by the command line, beside its device where it has one."""
    for scenario in sorted(EXAMPLES.glob("*.json")):
        report, output = room / f"{scenario.stem}.report", room / f"{scenario.stem}.html"
        report.write_bytes(run([program, "serial", *with_device(scenario), "--places"]).stdout)
        ran = tool("timeline", [scenario, report, "-o", output])
        tally.same((ran.returncode, ran.stdout, ran.stderr), (0, b"", b""), f"{scenario.stem}: how drawing it ends")
        if output.exists():
            check_page(tally, scenario.stem, output.read_text(encoding="utf-8"), report.read_bytes())
    html = (room / "life.html").read_text(encoding="utf-8")
    tally.check("what else was given a report can" in html, "a page doesn't say what a report can't tell")


def pictures(tally: Tally, program: str, room: Path) -> None:
    """The stored pictures are what is drawn today."""
    for name in PICTURES:
        report = next(it for it in (EXAMPLES / f"{name}.places", room / f"{name}.report") if it.exists())
        drawn = tool("timeline", [EXAMPLES / f"{name}.json", report, "--svg"]).stdout
        is_stored = drawn == content(ROOT / f"docs/pictures/{name}.svg")
        tally.check(is_stored, f"docs/pictures/{name}.svg isn't what tools/timeline draws with --svg")
        is_small = len(drawn) < 60_000 and not EXTERNAL.search(drawn.decode())
        tally.check(is_small, f"{name}.svg is too large, or refers to another file")
        xml.fromstring(drawn)


class Held(Run):
    """A run that keeps its counted calls: the actor, the op and its mark, the place, the actor's place before it, and what the actor
    waited for there, if it was held back; and the states that sessions went through at each place."""

    def __init__(self, text: Text) -> None:
        super().__init__(text.scripts, text.device.all)
        self.made: list[tuple[str, str, str, int, int, str]] = []
        self.held: dict[str, str] = {}
        self.places: dict[str, int] = {}
        self.states: dict[int, list[str]] = {}
        self.passed: list[str] = []
        tell = self.machine.tell
        self.machine.tell = lambda events: (self.passed.extend(events), tell(events))
        names = [*(f"script {it.number}" for it in self.scripts), "device", "compositor"]
        while any([self.is_made(name, turn) for name, turn in zip(names, self.turns())]):
            pass

    def step(self, name: str, back: int) -> list[str]:
        """The op and the mark of the call that an actor makes next, or of the one before it."""
        if name == "compositor":
            return ["next_frame", ""]
        if name == "device":
            return [*self.events[self.told - back].split(" "), ""][:2]
        script = self.scripts[int(name[-1]) - 1]
        op = script.ops[script.made - back]
        return [op.name, str(op.fields.get("mark", ""))]

    def is_made(self, name: str, turn: Callable[[], bool]) -> bool:
        try:
            return turn()
        except HeldBack:
            op, mark = self.step(name, 0)
            self.held[name] = WAITS[op].format(mark)
            return False

    def note(self, actor: str, line: str) -> None:
        super().note(actor, line)
        name, place = actor.replace("thread", "script"), int(line.rpartition("@")[2])
        op, mark = self.step(name, 1)
        if op not in GETTERS:
            self.made.append((name, op, mark, place, self.places.get(name, 0), self.held.pop(name, "")))
            self.places[name] = place
            if self.passed:
                self.states[place], self.passed = self.passed, []


def drawn_as_it_was(tally: Tally, text: Text, is_exact: bool) -> bool:
    """Draws a run, and compares that with what the machine had of it. Gives whether it is drawn whole."""
    run = Held(text)
    report, scenario = joined(run.report()), next(it for it in text.words if it.endswith(".json"))
    scene = scene_of(report, (text.folder / scenario).read_bytes())
    html = page(scene)
    arrows = {(it.source.place, it.target.place, it.is_early) for it in scene.arrows if not it.is_frame}
    first = {mark: place for _, op, mark, place, _, _ in reversed(run.made) if op == "mark"}
    due = {(first[mark], place, not waited) for _, op, mark, place, _, waited in run.made if op == "await"}
    is_same = arrows == due if is_exact else {it[:2] for it in arrows} == {it[:2] for it in due}
    tally.check(is_same, f"{text.name}: the arrows {arrows ^ due} are drawn otherwise")
    states = {(it.place, s.ordinal): it.states for s in scene.sessions for it in s.changes if it.states}
    told: dict[tuple[int, int], list[str]] = {}
    for place, (_, ordinal, state) in ((place, it.split(" ")) for place, events in run.states.items() for it in events):
        told.setdefault((place, int(ordinal)), []).append(state)
    tally.same(states, told, f"{text.name}: the states")
    if any(column.is_bin for column in scene.columns) or len(scene.pieces) > 1:
        return False
    check_page(tally, text.name, html, report)
    held = [(it, f"from place {it[4]} to {it[3]}" if it[4] else f"from the start to place {it[3]}") for it in run.made if it[5]]
    due = {f"{it[0]} waits for {it[5]}, {where}" for it, where in held}
    for shown, due in ((html, due), (page(scene_of(report, None)), {WITHOUT.sub(r"\1a mark", it) for it in due})):
        bars = {title_of(it) for it in having(svgs_of(shown), "wait")} - {""}
        is_same = bars == due if is_exact else bars <= due
        tally.check(is_same, f"{text.name}: the bars {bars ^ due} are there too much or too little")
    return True


def held_back(tally: Tally, program: str, room: Path) -> None:
    """A bar stands only where an actor had a turn and couldn't make its call, with the scenario and without, and in runs of marks
    wherever one had; an arrow is dotted exactly where its await wasn't held back; a session goes through the states that the
    machine has it go through. The runs are those of cases, and by chance; tools/tests/legal.py shows that the program makes
    them so."""
    chance = random.Random(5)
    texts = [(text, False) for text, _, stored in stored_runs() if len(stored) < 20_000]
    texts += [(made_text(room, f"held{number}", *spoilt_by_chance(number)), False) for number in range(BY_CHANCE)]
    texts += [(made_text(room, f"marks{number}", *marks_by_chance(chance, 8)), True) for number in range(BY_CHANCE)]
    drawn = sum(drawn_as_it_was(tally, *it) for it in texts)
    tally.check(drawn > 200, f"only {drawn} runs are drawn whole")


# ---- what stands out, what is summed up, and what is left out


def drawn_of(room: Path, scripts: str, told: str) -> str:
    """The page of a run that the machine makes."""
    text = made_text(room, "drawn", scripts, told.split(", ") if told else [])
    text = text._replace(device=FAILED_DEVICE) if told == "folder" else text
    return page(scene_of(joined(in_rounds(text)), content(room / "drawn.json"), "a<b>&\ud800"))


def by_hand(tally: Tally, program: str, room: Path) -> None:
    """Getters, a pending loss, texts of strangers, who is stuck, how a device ended, and refusals."""
    for scripts, told, *shown in rows_of("drawn"):
        html = re.sub("</?b>", "", drawn_of(room, scripts, told))
        for words in shown:
            pattern = ".*?".join(map(re.escape, words.lstrip("!").split(" .. ")))
            is_due = not words.startswith("!")
            tally.check(bool(re.search(pattern, html, re.S)) == is_due, f"{words!r} of {scripts[:99]!r} beside {told!r}")


class Published(Run):
    """A run that keeps the places of the calls that publish what getters answer from."""

    def __init__(self, text: Text) -> None:
        super().__init__(text.scripts, text.device.all)
        self.publications = {0}
        self.in_rounds()

    def note(self, actor: str, line: str) -> None:
        super().note(actor, line)
        self.publications.add(self.machine.published)


def getters_between(tally: Tally, text: Text) -> int:
    """How many getters a run has. Each is drawn and listed behind the publication that it read, and before the next one; and all calls are listed in
    the order of their places."""
    run = Published(text)
    scene = scene_of(joined(run.report()), None)
    last = len(scene.ordered) + 1
    behind = {it: min(filter(lambda other: other > it, run.publications), default=last) for it in run.publications}
    found = [(bracket, int(it)) for bracket, it in re.findall(r"<tr[^>]*><td class=n>(\(?)(\d+)", page(scene))]
    at = {place: row for row, (bracket, place) in enumerate(found) if not bracket}
    tally.same([place for bracket, place in found if not bracket], [*range(1, last)], f"{text.name}: the rows in order of place")
    rows = [(row, place) for row, (bracket, place) in enumerate(found) if bracket]
    is_listed = all(at.get(it, -1) < row < at.get(behind[it], len(found)) for row, it in rows)
    tally.check(is_listed, f"{text.name}: a getter isn't listed behind its publication and before the next")
    for node in (it for lane in scene.lanes for it in lane.nodes if it.is_aside):
        place, piece = node.calls[-1].place, node.column // IN_A_PIECE
        here = piece, scene.columns[node.column].x + ASIDE
        edges = {it: (scene.index[it] // IN_A_PIECE, scene.columns[scene.index[it]].x) for it in (place, behind[place]) if 0 < it < last}
        is_drawn = edges.get(place, here[:1]) < here < edges.get(behind[place], (piece + 1,))
        tally.check(is_drawn, f"{text.name}: getters of {place} are drawn elsewhere than behind it and before {behind[place]}")
    return len(rows)


def getters(tally: Tally, program: str, room: Path) -> None:
    """Getters of cases, of examples and by chance."""
    texts = [text for text, _, stored in stored_runs() if b" get_" in stored and len(stored) < 20_000]
    texts += [made_text(room, f"getters{number}", *by_chance.scenario(number)) for number in range(BY_CHANCE // 3)]
    count = sum(getters_between(tally, it) for it in texts)
    tally.check(count > 300, f"only {count} getters were looked at")


def labels(tally: Tally, program: str, room: Path) -> None:
    """The label of each input tells whose it is, which and what came, and no two are the same."""
    lines = [f"{line} {value}" for line in WORDS_OF_INPUTS for value in (-32768, 0, 24000)]
    lines += [f"profile {user} {name}" for user in USERS for name in (*PROFILES, "none")]
    lines += [f"pose {user}/input/{pose} {time} 21" for user in HANDS for pose in POSES for time in (0, 1_000_000)]
    report = read_report(joined(in_rounds(made_text(room, "labels", "", lines))))
    shown = [label_of(it)[0] for it in report.device]
    for line, label in zip(lines, shown):
        _, path, *rest = line.split(" ")
        wanted = path.split("/")[2 + ("/hand/" in path)], path.rpartition("/")[2], rest[-1].rpartition("/")[2]
        tally.check(len(label) <= MOST_LABEL and all(it in label for it in wanted), f"{line} is shown as {label}")
    tally.same(len(set(shown)), len(set(lines)), "labels: how many differ")
    ops = [f"string_to_path instance=i text={it} as=p; path_to_string instance=i path=p capacity=99" for it in PATHS]
    report = read_report(joined(in_rounds(made_text(room, "labels", "; ".join(["{INSTANCE}", *ops]), None))))
    shown = [label_of(it)[1] for it in report.scripts[0] if it.name == "path_to_string"]
    tally.same(shown, [*PATHS.values()], "labels: the paths that calls give")


def tips(tally: Tally, program: str, room: Path) -> None:
    """A tip that leaves something out says so and how much."""
    changes = [Change(place, [], ["VISIBLE", "FOCUSED"] * (1 + 5 * (place == 2))) for place in range(1, 10)]
    told = ways(changes)
    tally.check(told[1].endswith("FOCUSED, then VISIBLE, and 3 states more"), f"tips: {told[1]!r}")
    tally.same((len(told), told[-1]), (MOST_CHANGES + 1, "and at 3 other places"), "tips: the changes of a session")
    html = drawn_of(room, f"{{INSTANCE}}; {'; '.join(DULL)}; 400 get_system instance=i form=head; 12 get_boolean session=0 action=0 sub=0", "")
    nodes = [title_of(it) for it in having(svgs_of(html), "sum")]
    tally.check(any(it.endswith("and 2 other kinds") for it in nodes), f"tips: {nodes}")


def eight_stuck(tally: Tally, program: str, room: Path) -> None:
    """Eight who are stuck are a folded list, with each of them in it."""
    scripts = " / ".join(f"mark mark={10 + i}; await mark={i}; mark mark={i % 8 + 1}" for i in range(1, 9))
    html = drawn_of(room, scripts, "await 9")
    (room / "eight.html").write_text(html, encoding="utf-8", errors="replace")
    inside = re.search(r'<div class="status[^>]*>.*?</div>', html, re.S)[0]
    folded = inside.partition("<details>")[2].partition("</details>")[0]
    tally.check(folded.count("<li>") == inside.count("<li>") == 10, "eight stuck: the list isn't folded")
    tally.check("10 actors wait" in folded, "eight stuck: it isn't said how many wait")


def pieces(tally: Tally, program: str, room: Path) -> None:
    """A run in two pieces: each call and each arrow is drawn once."""
    sets, awaits = ("; ".join(f"{op} mark={mark}" for mark in range(1, 61)) for op in ("mark", "await"))
    roots = svgs_of(drawn_of(room, f"60 mark mark=64; {sets} / {awaits}", ""))
    drawn = len(having(roots, "mark-arrow")), sum("place " in title_of(it) for it in having(roots, "call"))
    tally.same(len([it for it in roots if it.get("class") == "timeline"]), 2, "pieces")
    tally.same(drawn, (60 + 2, 183), "pieces: arrows and calls")  # two more are in the legend


def filters(tally: Tally, program: str, room: Path) -> None:
    """A filter leaves the rows and the calls that have an actor, an op, a code and some words."""
    html = (room / "handover.html").read_text(encoding="utf-8")
    rows = [re.findall(r"<td(?: class=n)?>([^<]*)", it) for it in re.findall(r"<tr(?: class=.)?>(<td.*)", html)]
    labels = [title_of(it).replace("\n", ". ") for it in having([it for it in svgs_of(html) if it.get("class") == "timeline"], "call")]
    for name in ("script 2", "poll_event", "XR_EVENT_UNAVAILABLE"):
        tally.check(f"<option>{name}" in html, f"the filter has no {name}")
    if not shutil.which("node"):
        return print("timeline: skipped: no node, so no filter was tried")
    for actor, op, code, search, due, calls in rows_of("filters", 6):
        chosen = {"actor": actor.strip("-"), "op": op.strip("-"), "code": code.strip("-"), "search": search.strip("-")}
        given = json.dumps({"rows": rows, "labels": labels, "chosen": chosen}).encode()
        ran = run(["node", TABLES / "filtering.js", TOOLS / "drawing/filter.js"], given)
        left = json.loads(ran.stdout or b"{}")
        tally.same((len(left.get("rows", "")), len(left.get("calls", ""))), (int(due), int(calls)), f"{chosen}: rows and calls {ran.stderr[:300]!r}")
        tally.same((left.get("told"), left.get("hidden")), (f"{due} of {len(rows)} rows", False), f"{chosen}: what is told")
    return None


def owners(tally: Tally, program: str, room: Path) -> None:
    """An image is the application's from a wait that succeeded to its release or the end of its swapchain, and the compositor's from the end of a
    frame on; no two owners have it at once, and each is drawn."""
    drawn = 0
    for text in (it for it, _, stored in stored_runs() if b" acquire_image " in stored and len(stored) < 20_000):
        report = read_report(joined(in_rounds(text)))
        chains = join_scenario(report, text.scripts)
        named = {it.place: it.name for it in report.ordered()}
        made = sum(it.name == "create_swapchain" and it.is_met for it in report.ordered())
        tally.same(len(chains), made, f"{text.name}: its swapchains")
        for chain in chains:
            for image in chain.images:
                places = [it.place for it in image]
                tally.same(places, sorted(set(places)), f"{text.name}: the changes of an image of {chain.name}")
                for one, other in zip(image, image[1:] + [None]):
                    begins = {"application": ("wait_image",), "compositor": ("end_frame",)}.get(one.owner, (named.get(one.place),))
                    tally.check(named.get(one.place) in begins, f"{text.name}: {one} begins at {named.get(one.place)}")
                    is_released = other is None or one.owner != "application" or named[other.place] == "release_image"
                    tally.check(is_released, f"{text.name}: {one} ends at {other}")
        scene = Scene(report, text.scripts, text.name, chains)
        bars = [it for it in having([it for it in svgs_of(page(scene)) if it.get("class") == "timeline"], "owner")]
        drawn += len(bars)
        tally.check(not chains or "swapchain" in page(scene), f"{text.name}: no lane of a swapchain")
    tally.check(drawn > 50, f"only {drawn} bars of images are drawn")
    titles = [title_of(it) for it in having(svgs_of((room / "images.html").read_text(encoding="utf-8")), "owner")]
    wanted = "swapchain world \u00b7 image 0\nis the application's, which waited for it, from place 12 to 14"
    tally.check(wanted in titles, f"images: {titles}")


def one_script(calls: list[str], end: str = "status 0") -> bytes:
    """The report of one script with these calls, whose device ends so."""
    lines = "\n".join(f"{i} {it} @{i}" for i, it in enumerate([*calls, "leave XR_SUCCESS"], 1))
    return f"xrsim report 1\nthread 1\n{lines}\ncompositor\nended @{len(calls) + 2}\ndevice\n{end}\n".encode()


def long_runs(tally: Tally, program: str, room: Path) -> None:
    """Runs of many calls are summed up, and their pages stay small."""
    for kind, lines in (
        ("polls", ["poll_event XR_EVENT_UNAVAILABLE"]),
        ("refusals", ["create_session XR_ERROR_HANDLE_INVALID", "mark XR_SUCCESS"]),
    ):
        for count in (7_000, 20_000):
            html = page(scene_of(one_script((lines * count)[: count - 1]), None))
            tally.check(len(html) < 5_000_000, f"{count} {kind}: the page has {len(html)} bytes")
            nodes = having(svgs_of(html), "call")
            tally.same(sum(map(node_count, nodes)), count + 1, f"{count} {kind}: the calls that are drawn or summed up")
            tally.check(kind != "polls" or len(nodes) < 5, f"{count} {kind}: they are drawn as {len(nodes)} and not as one")


def long_frames(tally: Tally, program: str, room: Path) -> None:
    """The frames of a long run are told as frames."""
    html = drawn_of(room, f"{{INSTANCE}}; await mark=1; {{SESSION}}; {{RUN}}; {'; '.join(['{FRAME}'] * FRAMES)}", "wish focused, mark 1")
    told = [title_of(it) for it in having(svgs_of(html), "sum") if "\u00b7 compositor" in title_of(it)]
    frames = [int(it.replace(",", "")) for it in re.findall(r"\n([\d,]+) frames?\n", "\n\n".join(told))]
    tally.check(FRAMES - 20 < sum(frames) <= FRAMES, f"{sum(frames)} of {FRAMES} frames are summed up as frames: {told[:1]}")


def node_count(node: xml.Element) -> int:
    """How many calls a drawn node stands for."""
    found = re.search(r"\n([\d,]+) (?:call|event|frame|turn)s?(?:,|\n)", title_of(node))
    return int(found[1].replace(",", "")) if "sum" in node.get("class", "").split() else 1


def rows(tally: Tally, program: str, room: Path) -> None:
    """However long a run is, each refused call and each fault has its row, and it is said how many others are left out."""
    refused = [5, MOST_ROWS + 1, MOST_ROWS + 77, *range(MOST_ROWS + 1_000, MOST_ROWS + 1_700), MOST_ROWS + 4_000]
    calls = ["mark XR_SUCCESS"] * (MOST_ROWS + 4_000)
    for i in refused:
        calls[i - 1] = "create_session XR_ERROR_HANDLE_INVALID"
    last = len(calls) + 3
    html = page(scene_of(one_script(calls, f"garbled 1 @{last}\nstatus 6"), None))
    shown = {int(it) for it in re.findall(r"<tr class=r><td class=n>(\d+)<", html)}
    tally.check(shown == {*refused, last}, f"rows: of {len(refused) + 1} refused calls and faults {len(shown)} are shown")
    tally.check(html.count("<tr><td") == MOST_ROWS - 1, "rows: other rows are shown than the first ones")
    left_out = f"; {last - MOST_ROWS - len(refused):,} other rows there are in the report alone"
    tally.check(left_out in html, f"rows: it isn't said: {left_out}")


def luv(colour: str) -> list[float]:
    """A colour by lightness, red to green, and yellow to blue, about as far apart as they look."""
    light = [pow(int(colour[i : i + 2], 16) / 255, 2.2) for i in (1, 3, 5)]
    shares = (0.434, 0.376, 0.19), (0.213, 0.715, 0.072), (0.018, 0.109, 0.873)
    x, y, z = (pow(sum(map(mul, it, light)), 1 / 3) for it in shares)
    return [116 * y - 16, 500 * (x - y), 200 * (y - z)]


def colours(tally: Tally, program: str, room: Path) -> None:
    """Each state has a colour of its own, in light and in dark."""
    style = (TOOLS / "drawing/style.css").read_text(encoding="utf-8")
    variables = dict(re.findall(r"\.s-([A-Z_]+) \{ fill: var\((--[a-z-]+)\)", style))
    tally.same(set(variables), set(STATES), "colours: the states")
    light, _, dark = style.partition("@media (prefers-color-scheme: dark)")
    for theme, part in (("light", light), ("dark", dark)):
        found = {it: re.search(variables.get(it, "none") + r": (#[0-9a-f]{6})", part) for it in STATES}
        points = {state: luv(it[1]) for state, it in found.items() if it}
        near = [(one, other) for one, other in combinations(points, 2) if math.dist(points[one], points[other]) < 12]
        tally.check(len(points) == 8 and not near, f"colours: in {theme} {near} are too near to each other")


def drawn_scene(room: Path, name: str) -> Scene:
    """The scene of an example."""
    file = next(it for it in (EXAMPLES / f"{name}.places", room / f"{name}.report") if it.exists())
    report, scripts = read_report(file.read_bytes()), read_scenario((EXAMPLES / f"{name}.json").read_bytes())
    join_scenario(report, scripts)
    return Scene(report, scripts, name)


def state_words(tally: Tally, program: str, room: Path) -> None:
    """A state's word stands in its bar where that has room, and leans above it else; a lane is no higher than leaning words need."""
    count = 0
    for name in PICTURES:
        scene = drawn_scene(room, name)
        for lane in (it for it in scene.lanes if it.sessions):
            most = PLAIN_LANE if all(is_inside for _, is_inside in scene.words_of_lane(lane)) else LEANING
            tally.check(lane.height <= most, f"{name}: the lane of {lane.name} is {lane.height} high, and {most} are enough")
            tally.check(lane.height < scene.height * 0.4, f"{name}: the lane of {lane.name} is {lane.height} of {scene.height}")
        for bar in having([xml.fromstring(picture(scene))], "state"):
            count += 1
            rect, inside, leaning = bar.find(f"{SVG}rect"), having([bar], "in"), having([bar], "l")
            words, wide = [it.text or "" for it in (*inside, *leaning)], float(rect.get("width", 0))
            state = rect.get("class", "").partition("s-")[2]
            # where only whether it runs or is lost changes, no state is told
            due = [state] if "\nat place " in title_of(bar) else []
            tally.same([it[-len(state) :] for it in words], due, f"{name}: the words of a bar of {state}")
            tally.check(all(width_of(it.text or "", MORE_SIZE) <= wide for it in inside), f"{name}: {words} is wider than its bar, {wide}")
            # a bar that goes on has as much room as what stands above it needs
            is_open = title_of(bar).split("\n")[1].endswith(" on")
            has_room = not is_open and width_of(state, MORE_SIZE) + 2 * INSIDE <= wide
            tally.check(inside or not (due and has_room), f"{name}: {state} leans above a bar of {wide}")
    tally.check(count > 12, f"only {count} bars were looked at")


def legend_states(tally: Tally, program: str, room: Path) -> None:
    """The legend has each state of the run by its own colour and word, the stripes of a pending loss, and a lost device."""
    seen: dict[str, str] = {}
    for more in ("{EXIT}; {ENDS}", "mark mark=2; await mark=3"):
        scripts = f"{{INSTANCE}}; await mark=1; {{SESSION}}; {{RUN}}; {{FRAME}}; {more}"
        html = drawn_of(room, scripts, "wish focused, mark 1, await 2, loss, lost, mark 3")
        legend = html[html.find('<ul class="legend states">') :].partition("</ul>")[0]
        shown = {word: bar for bar, word in re.findall(r"<li>(<svg.*?</svg>)([^<]*)</li>", legend)}
        drawn = {it for it in STATES if f'class="shape s-{it}"' in html.partition('<ul class="legend')[0]}
        tally.check(drawn <= set(shown), f"{more}: the legend has {sorted(shown)}, and {sorted(drawn)} are drawn")
        wrong = [state for state in drawn & set(shown) if f"s-{state}" not in shown[state]]
        tally.check(not wrong, f"{more}: the legend shows {wrong} by another colour")
        seen.update(shown)
    tally.check('class="loss"' in shown.get("LOSS_PENDING", ""), "the legend lacks the stripes of a pending loss")
    is_lost = any("device is lost" in word and 'class="lost"' in bar for word, bar in shown.items())
    tally.check(is_lost, "the legend lacks a lost device")
    tally.check(set(STATES) <= set(seen), f"legend: only {sorted(seen)} were seen")


# ---- what can't be drawn


GOOD, GOOD_SCENARIO = ((TABLES / f"good.{it}").read_bytes() for it in ("report", "json"))
STUCK = b"xrsim report 1\nthread 1\n1 mark XR_SUCCESS @1\ncompositor\ndevice\nstuck\nthread 1 2 await\ncompositor next_frame\nstatus 7\n"


def why_not(report: bytes, scenario: bytes | None) -> str:
    """Why a run can't be drawn; else its page and its picture are well formed."""
    try:
        scene = scene_of(report, scenario)
        svgs_of(page(scene))
        xml.fromstring(picture(scene))
        return "it is drawn"
    except Unreadable as wrong:
        return str(wrong)


def refuses(tally: Tally, program: str, room: Path) -> None:
    """Bad scenarios, and scenarios whose arguments can't be the report's: one line, and an output that was there stays."""
    other = "the report is another scenario's: "
    rows = [(GOOD, given.encode("latin-1"), why, "") for given, why in rows_of("bad_scenarios")]
    rows.append((GOOD, b"[" * 100_000, "the scenario is no JSON: ", ""))
    rows.append((GOOD, GOOD_SCENARIO + b" " * 1_048_576, "the scenario has more than 1048576 bytes", ""))
    rows.append((STUCK, GOOD_SCENARIO, other + "script 1 is stuck at mark 1, which was set", ""))
    for name, old, new, field in rows_of("otherwise", 4):
        given = (EXAMPLES / f"{name}.json").read_bytes()
        tally.check(old.encode() in given, f"{name}: its scenario has no {old}")
        told = f"which the scenario's {field} doesn't give" if field else ""
        rows.append((content(room / f"{name}.report"), given.replace(old.encode(), new.encode(), 1), other, told))
    for report, given, front, told in rows:
        said = why_not(report, given)
        tally.check(said.startswith(front) and told in said and "\n" not in said, f"{front}{told}: {said}")
    (room / "kept.html").write_bytes(b"kept")
    before = sorted(os.listdir(room))
    ran = tool("timeline", [TABLES / "good.report", TABLES / "good.report", "-o", room / "kept.html"])
    tally.complains("a bad scenario", ran, "timeline: the scenario is no JSON: ")
    is_kept = content(room / "kept.html") == b"kept" and sorted(os.listdir(room)) == before
    tally.check(is_kept, "something was written where nothing could be drawn")


def fuzz(tally: Tally, program: str, room: Path) -> None:
    """Changed reports and scenarios are drawn well formed, or refused by one line; nothing else is raised."""
    files = [it for it in sorted(room.glob("*.report")) if (EXAMPLES / f"{it.stem}.json").exists()]

    def said_of(chance: random.Random, number: int) -> str:
        file = chance.choice(files)
        texts = [it.read_text(encoding="utf-8") for it in (file, EXAMPLES / f"{file.stem}.json")]
        at = number % 4 == 0
        texts[at] = spoilt_text(chance, texts[at])
        return why_not(texts[0].encode(), texts[1].encode() if number % 3 else None)

    tally.raises_nothing(7, MUTATIONS, said_of)


if __name__ == "__main__":
    trials = examples, pictures, filters, owners, held_back, by_hand, getters, labels, tips, eight_stuck
    more = pieces, long_runs, long_frames, rows, colours, state_words, legend_states
    main("timeline", *trials, *more, refuses, fuzz, browser)
