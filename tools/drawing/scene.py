"""All that a drawing of one run needs: its calls with what is said of them, its lanes, columns and pieces."""
from __future__ import annotations

from collections.abc import Iterator, Sequence
from dataclasses import dataclass, field
from math import cos, radians, sin

from drawing import columns as cols
from drawing import replay, text
from drawing.owners import Owners
from drawing.replay import is_fault, is_refused, scripts_of
from reports.reading import COMPOSITOR, DEVICE, Call, Report
from scenarios.reading import Scripts

SLANT = 40
SIN, COS = sin(radians(SLANT)), cos(radians(SLANT))
NAME_SIZE, MORE_SIZE, BOLD = 11.5, 10.5, 1.08
# what stands before and behind a word in a session's bar, and how high a lane is at least above its line
INSIDE, LEAST_ABOVE = 5, 24
MOST_SESSION_LANES = 6
MOST_CHAIN_LANES = 6
MOST_PATHS = 4
# how many letters of an event or of a path stand at a call, and of other values
MOST_LABEL, MOST_VALUES = 37, 24
AXIS_HEIGHT, CLOCK_HEIGHT = 24, 24
HEAD_HEIGHT = AXIS_HEIGHT + CLOCK_HEIGHT

GIVEN = ("atom", "image", "size")
UNTOLD = ("await", "get_system")
WHAT = {DEVICE: "event", COMPOSITOR: "turn"}

MEANINGS = {
    0: "The run ended: every script has left, and all was read.",
    5: "The device's text couldn't be read on. The run went on without the device.",
    6: "A line of the device's text is malformed. The run went on without the device.",
    7: "The run is stuck: somebody is unfinished, and nobody's next call is ready.",
}


@dataclass
class Node:
    """What is drawn at one column of one lane: a call, a few getters behind one, or a sum."""

    column: int
    calls: list[Call]
    is_aside: bool = False

    @property
    def refused(self) -> int:
        return sum(map(is_refused, self.calls))

    @property
    def pending(self) -> int:
        return sum(call.code == "XR_SESSION_LOSS_PENDING" for call in self.calls)


@dataclass
class Lane:
    """A row of the drawing: an actor's calls, a session's states, or whose a swapchain's images are."""

    name: str
    more: str
    nodes: list[Node] = field(default_factory=list)
    sessions: list[replay.Session] = field(default_factory=list)
    chain: Owners | None = None
    top: float = 0
    line: float = 0
    height: float = 0


def label_of(call: Call) -> tuple[str, str]:
    """The two lines that stand at a call: its name, and what it came to where that tells more."""
    name, mark = call.name, replay.mark_of(call)
    if mark:
        name = f"{name} {mark}"
    elif name == "clock":
        return f"clock {replay.in_units(int(call.text))}", ""
    elif name == "frame":
        return f"frame {call.number}", replay.in_units(call.values["time"])
    elif call.who in WHAT:
        return text.cut_paths(f"{name} {call.text}".strip(), MOST_LABEL), ""
    if call.code != "XR_SUCCESS":
        return name, call.code.removeprefix("XR_").removeprefix("ERROR_")
    if name == "wait_frame":
        return name, f"for {replay.in_units(call.values['time'])}"
    given = "".join(f"{it} " for it in GIVEN if it in call.values)
    most = MOST_LABEL if "/" in call.text else MOST_VALUES
    return name, text.cut_paths(f"{given}{call.text}", most) if call.name not in UNTOLD else ""


def reach(lines: tuple[str, str]) -> tuple[float, float]:
    """How far a slanted label goes up and to the right."""
    long = max(text.width_of(lines[0], NAME_SIZE), text.width_of(lines[1], MORE_SIZE)) * BOLD
    return long * SIN + (22 if lines[1] else 12), long * COS + 14


def way_of(states: list[str]) -> str:
    """The states that a session goes through at a place; of many the first and the last."""
    return " \u2192 ".join(states if len(states) < 4 else [states[0], "\u2026", states[-1]])


def words_of(call: Call) -> str:
    """The arguments of a call, or what a report has of an event or a frame behind its name."""
    told = f"{call.number} {call.text}" if call.what == "frame" else call.text
    return text.arguments(call.arguments) if call.arguments else "" if call.code else told


def faults_of(calls: list[Call]) -> list[str]:
    """Words for what isn't an event but the end of a device's text."""
    return ["1 fault" if call.what == "fault" else "1 garbled line" for call in calls if is_fault(call)]


def said_of(call: Call) -> str:
    """What is shown of a call where one points at it: place, actor, name, arguments, code, values."""
    number = f" {call.number:,}" if call.number else ""
    front = f"{'place' if call.is_counted else 'publication'} {call.place:,} \u00b7 {call.who}"
    if is_fault(call):
        why = f"line {call.text} of its text is malformed" if call.text else "its text couldn't be read on"
        return f"{front}\n{call.name} {call.text}".strip() + f"\n{why}; the run went on without the device"
    front += f", {WHAT.get(call.who, 'call')}{number}"
    if call.name == "clock":
        return f"{front}\nclock {call.text}\n{replay.in_units(int(call.text))} of device time"
    came = f"{call.code} {text.cut(call.text)}".strip() if call.code else ""
    return "\n".join(line for line in (front, f"{call.name} {words_of(call)}".strip(), came, call.note) if line)


def places_of(calls: list[Call]) -> Iterator[tuple[Call, int]]:
    """The calls of an actor with the places that they stand at: a getter's is that of the publication that it read, or of the call before it."""
    last = 0
    for call in calls:
        last = max(last, call.place)
        yield call, last


def rows_of(sessions: Sequence[replay.Session]) -> list[list[replay.Session]]:
    """Sessions in rows, in each of which one begins where those before it have ended."""
    rows: list[list[replay.Session]] = []
    for it in sessions:
        row = next((row for row in rows if row[-1].ended is not None and row[-1].ended <= it.changes[0].place), None)
        if row is None:
            rows.append(row := [])
        row.append(it)
    return rows


class Scene:
    """A run, laid out."""

    def __init__(self, report: Report, scripts: Scripts | None, title: str, chains: Sequence[Owners] = ()) -> None:
        self.report, self.scripts, self.title = report, scripts, title
        self.ordered = report.ordered()
        self.sessions = replay.sessions_of(self.ordered)
        self.waits = replay.waits_of(report)
        self.arrows = replay.arrows_of(self.ordered, self.waits)
        self.clock = replay.clock_of(report)
        self.columns = cols.columns_of(self.ordered)
        self.index = cols.index_of(self.columns)
        self._note_calls()
        self._note_paths()
        self.lanes = [self._lane(actor) for actor in (*scripts_of(report), DEVICE, COMPOSITOR)]
        if len(self.sessions) > MOST_SESSION_LANES:
            for it in rows_of(self.sessions):
                self.lanes.append(Lane("sessions", f"{it[0].ordinal:,} to {it[-1].ordinal:,}, derived", sessions=it))
        else:
            self.lanes += [Lane(f"session {it.ordinal}", "states, derived", sessions=[it]) for it in self.sessions]
        shown = chains[:MOST_CHAIN_LANES]
        more = f"swapchain, {f'first {len(shown)} of {len(chains)}, ' * (len(chains) > len(shown))}images derived"
        self.lanes += [Lane(text.cut_inside(it.name, 12), more, chain=it) for it in shown]
        self.pieces = cols.pieces_of(self.columns, self._lines_of_labels())
        self.height = self._place_lanes()

    def bars_of(self, session: replay.Session) -> list[tuple[list[replay.Change], int]]:
        """The parts of a session's bar: the changes of a column, and the place where the next part begins."""
        groups: dict[int, list[replay.Change]] = {}
        for change in session.changes:
            groups.setdefault(self.index[change.place], []).append(change)
        starts = [changes[0].place for changes in groups.values()]
        return list(zip(groups.values(), [*starts[1:], session.ended or len(self.ordered) + 1]))

    def is_inside(self, words: str, first: int, end: int) -> bool:
        """Whether words have room in a part of a bar, from a place to another, as far as it goes in the piece of the first one."""
        piece = next((it for it in self.pieces if first <= it.last), self.pieces[-1])
        start = 0.0 if first < piece.first else self.columns[self.index[first]].x
        right = self.columns[self.index[end]].x if end <= piece.last else piece.right
        return start + text.width_of(words, MORE_SIZE) + 2 * INSIDE <= right

    def words_of_bar(self, lane: Lane, session: replay.Session, changes: list[replay.Change], end: int) -> tuple[str, bool]:
        """What stands at a part of a bar, and whether it stands in it: the states on the way where they have room, else the last one, which leans
        above the bar where that has none either."""
        told = [it for change in changes for it in change.told]
        front = f"{session.ordinal} " if told and len(lane.sessions) > 1 else ""
        for words in (way_of(told), way_of(told[-1:])):
            if self.is_inside(front + words, changes[0].place, end):
                return front + words, True
        return front + way_of(told[-1:]), False

    def _note_calls(self) -> None:
        """Says of each await how long it waited and what released it, and of each frame where it comes from."""
        starts = {(wait.actor, wait.end): wait.start for wait in self.waits}
        for arrow in self.arrows:
            way = "its mark was set already, by" if arrow.is_early else "released by the mark of"
            way = "from the end_frame of" if arrow.is_frame else way
            arrow.target.note = f"{way} {arrow.source.who} at place {arrow.source.place:,}"
        for call in self.report.calls:
            start = starts.get((call.who, call.place))
            if start is not None and not call.note.startswith("its"):
                since = f"waited from place {start:,}" if start else "waited from the start"
                call.note = f"{since}; {call.note}" if call.note else since

    def _note_paths(self) -> None:
        """Says of each call that names atoms the paths that its script has them from."""
        for calls in self.report.scripts:
            named: dict[str, str] = {}
            for call in calls:
                paths = [f"{it} is {named[it]}" for it in text.names_in(call.arguments) if it in named]
                more = len(paths) - MOST_PATHS
                told = ", ".join(paths[:MOST_PATHS] + ([f"and {text.counted(more, 'path')} more"] if more > 0 else []))
                call.note = "; ".join(filter(None, (call.note, told)))
                given = call.arguments.get("as") if call.arguments else None
                named.pop(given or "", None)
                if given and call.name == "string_to_path":
                    named[given] = call.arguments["text"]

    def _lane(self, actor: str) -> Lane:
        calls = self.report.actors[actor]
        refused, faults = sum(map(is_refused, calls)), faults_of(calls)
        more = [text.counted(len(calls) - len(faults), WHAT.get(actor, "call"))]
        lane = Lane(actor, ", ".join(more + ([f"{refused:,} refused"] if refused else []) + faults))
        for call, place in places_of(calls):
            column = self.index[place] if self.columns else 0
            is_aside = not call.is_counted and not (self.columns and self.columns[column].is_bin)
            node = lane.nodes[-1] if lane.nodes else None
            if node and (node.column, node.is_aside) == (column, is_aside):
                node.calls.append(call)
            else:
                lane.nodes.append(Node(column, [call], is_aside))
        return lane

    def _lines_of_labels(self) -> list[list[tuple[int, int]]]:
        """For each column the lanes that have a label there, and how many lines it has."""
        lines: list[list[tuple[int, int]]] = [[] for _ in self.columns]
        for number, lane in enumerate(self.lanes):
            for node in lane.nodes:
                lines[node.column].append((number, 0 if node.is_aside else 2 if label_of(node.calls[0])[1] else 1))
            for change in (it for session in lane.sessions for it in session.changes):
                lines[self.index[change.place]].append((number, 1))
        return lines

    def words_of_lane(self, lane: Lane) -> list[tuple[str, bool]]:
        """What stands at the bars of a lane, and whether it stands in them."""
        return [self.words_of_bar(lane, it, *bar) for it in lane.sessions for bar in self.bars_of(it)]

    def _place_lanes(self) -> float:
        top: float = HEAD_HEIGHT
        for lane in self.lanes:
            heights = [40.0 if self.columns[n.column].is_bin else reach(label_of(n.calls[0]))[0] for n in lane.nodes]
            heights += [reach((words, ""))[0] + 12 for words, is_inside in self.words_of_lane(lane) if not is_inside]
            lane.top = top
            lane.line = round(top + max([LEAST_ABOVE, *heights]) + 12)
            lane.height = lane.line + 20 - top
            top += lane.height
        return top
