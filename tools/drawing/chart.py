"""Draws one piece of a scene as SVG."""
from __future__ import annotations

from collections import Counter

from drawing import text
from drawing.columns import ASIDE, BIN_WIDTH, LEFT, Column, Piece
from drawing.owners import OWNERS, Owners
from drawing.replay import Arrow, Change, Session, Wait, in_units, is_bad, is_fault
from drawing.scene import AXIS_HEIGHT, BOLD, CLOCK_HEIGHT, HEAD_HEIGHT, INSIDE, MORE_SIZE, NAME_SIZE, WHAT, Lane, Node, Scene
from drawing.scene import faults_of, label_of, reach, said_of
from drawing.text import escaped
from reports.reading import Call

SHAPES = {
    "met": '<circle class="shape" r="5"/>',
    "other": '<circle class="shape" r="4.5"/>',
    "mark": '<rect class="shape" x="-4.5" y="-4.5" width="9" height="9"/>',
    "end": '<path class="shape" d="M0-8V8"/>',
    "pending": '<path class="shape" d="M0-8.5L8.5 0L0 8.5L-8.5 0Z"/><path class="inner" d="M0-4V1.5M0 3.4V4"/>',
    "refused": '<path class="shape" d="M0-8.5L9 7.5H-9Z"/>',
    "fault": '<path class="shape" d="M-3.5-8.5H3.5L8.5-3.5V3.5L3.5 8.5H-3.5L-8.5 3.5V-3.5Z"/><path class="inner" d="M-4-4L4 4M4-4L-4 4"/>',
}
DEFS = """<defs>
<pattern id="hatch" width="4" height="4" patternUnits="userSpaceOnUse" patternTransform="rotate(45)">
<rect class="h-back" width="4" height="4"/><path class="h-refused" d="M0 0V4"/>
</pattern>
<pattern id="stripes" width="7" height="7" patternUnits="userSpaceOnUse" patternTransform="rotate(45)">
<path class="h-stuck" d="M0 0V7"/>
</pattern>
<pattern id="loss" width="6" height="6" patternUnits="userSpaceOnUse" patternTransform="rotate(-45)">
<path class="h-loss" d="M0 0V6"/>
</pattern>
<pattern id="stopping" width="8" height="4" patternUnits="userSpaceOnUse"><path class="h-state" d="M0 2H8"/></pattern>
<pattern id="exiting" width="5" height="14" patternUnits="userSpaceOnUse"><path class="h-state" d="M2.5 0V14"/></pattern>
<pattern id="lost" width="7" height="7" patternUnits="userSpaceOnUse">
<path class="h-lost" d="M0 0L7 7M7 0L0 7"/>
</pattern>
<marker id="mark-head" viewBox="0 0 8 8" refX="7" refY="4" markerWidth="8" markerHeight="8"
 markerUnits="userSpaceOnUse" orient="auto"><path class="mark-head" d="M0 0L8 4L0 8Z"/></marker>
<marker id="frame-head" viewBox="0 0 8 8" refX="7" refY="4" markerWidth="8" markerHeight="8"
 markerUnits="userSpaceOnUse" orient="auto"><path class="frame-head" d="M0 0L8 4L0 8Z"/></marker>
</defs>"""
NEAR_EDGE = 12
MOST_TOLD = 8
# of a session's changes in one part of its bar so many are told, and so many states of each
MOST_CHANGES, MOST_STATES = 6, 9
IMAGE_HEIGHT = 13
PATTERNS = {"STOPPING": "stopping", "LOSS_PENDING": "loss", "EXITING": "exiting"}


def num(value: float) -> str:
    """A coordinate, short."""
    return f"{value:.1f}".removesuffix(".0")


def titled(words: str) -> str:
    lines = "\n".join(map(escaped, words.split("\n")))
    return f"<title>{lines}</title>"


def group(kind: str, x: float, y: float, inside: str) -> str:
    """What one can point at, or come to by keys."""
    return f'<g class="{kind}" tabindex="0" transform="translate({num(x)} {num(y)})">{inside}</g>'


def kind_of(call: Call) -> str:
    """The shape that a call is drawn by."""
    if is_bad(call):
        return "fault" if is_fault(call) else "refused"
    if call.code == "XR_SESSION_LOSS_PENDING":
        return "pending"
    named = {"leave": "end", "ended": "end", "mark": "mark"}.get(call.name)
    return named or ("met" if call.code in ("", "XR_SUCCESS") else "other")


def slanted(lines: tuple[str, str]) -> str:
    """The label of a node, which leans to the right."""
    first, second = lines
    if not second:
        return f'<text class="l">{escaped(first)}</text>'
    return f'<text class="l" x="6" y="-12">{escaped(first)}</text><text class="l more">{escaped(second)}</text>'


def summed(calls: list[Call]) -> str:
    """The kinds of calls in a sum, the most frequent first."""
    kinds = Counter(f"{call.name} {call.code}".strip() for call in calls)
    lines = [f"{count:,} \u00d7 {kind}" for kind, count in kinds.most_common(6)]
    left = len(kinds) - len(lines)
    return "\n".join(lines + ([f"and {text.counted(left, 'other kind')}"] if left > 0 else []))


def state_bar(state: str | None, width: float, is_running: bool = False, is_lost: bool = False) -> str:
    """A piece of a session's bar: its state by a colour and, where it is on its way out, a pattern of its own."""
    size = f'y="-8" width="{num(width)}" height="14"'
    bar = f'<rect class="shape s-{state or "none"}" {size}/>'
    if state in PATTERNS:
        bar += f'<rect class="{PATTERNS[state]}" {size}/>'
    if is_lost:
        bar += f'<rect class="lost" {size}/>'
    return bar + (f'<path class="running" d="M0 10h{num(width)}"/>' if is_running else "")


def ways(changes: list[Change]) -> list[str]:
    """What a session goes through at each place, and how many places and states are left out of many."""
    lines = []
    for it in changes[:MOST_CHANGES]:
        more = len(it.told) - MOST_STATES
        lines.append(f"at place {it.place}: {', then '.join(it.told[:MOST_STATES])}" + (f", and {text.counted(more, 'state')} more" if more > 0 else ""))
    left = len(changes) - MOST_CHANGES
    return lines + ([f"and at {text.counted(left, 'other place')}"] if left > 0 else [])


class Chart:
    """One piece of a scene, and the elements that are drawn for it."""

    def __init__(self, scene: Scene, piece: Piece) -> None:
        self.scene, self.piece = scene, piece
        self.lines = {lane.name: lane.line for lane in scene.lanes}
        start = scene.index[piece.first] if piece.columns else 0
        here = range(start, start + len(piece.columns))
        self.nodes = [(lane, [node for node in lane.nodes if node.column in here]) for lane in scene.lanes]
        self.right = self._right()

    def _right(self) -> float:
        """Where the drawing ends, so that no label is cut."""
        ends = [self.piece.right + 12]
        for lane, nodes in self.nodes:
            plain = (node for node in nodes[-NEAR_EDGE:] if not self.scene.columns[node.column].is_bin)
            ends += [self._x(node) + reach(label_of(node.calls[0]))[1] for node in plain]
            near = [(it, *bar) for it in lane.sessions for bar in self.scene.bars_of(it)[-NEAR_EDGE:] if self._is_here(bar[0][0].place)]
            told = [(its[0].place, *self.scene.words_of_bar(lane, it, its, end)) for it, its, end in near]
            ends += [self.x_of(place) + reach((words, ""))[1] for place, words, is_inside in told if not is_inside]
        open_waits = [wait for wait in self.scene.waits if wait.end is None and self._is_last()]
        return max([*ends, *(self.piece.right + 44 + text.width_of(wait.text, NAME_SIZE) * BOLD for wait in open_waits)])

    def _is_last(self) -> bool:
        return self.piece.number == len(self.scene.pieces)

    def _is_here(self, place: int) -> bool:
        return bool(self.piece.columns) and self.piece.first <= place <= self.piece.last

    def x_of(self, place: int) -> float:
        """The x of a place; an edge where the place is in another piece."""
        if place < self.piece.first:
            return LEFT / 2 if place == 0 and self.piece.number == 1 else 0
        return self.right if place > self.piece.last else self.scene.columns[self.scene.index[place]].x

    def _x(self, node: Node) -> float:
        return self.scene.columns[node.column].x + (ASIDE if node.is_aside else 0)

    def clock(self) -> list[str]:
        """What the device's clock shows: a band that is divided where it goes on."""
        y, height = AXIS_HEIGHT, CLOCK_HEIGHT - 6
        before = [time for place, time in self.scene.clock if place < self.piece.first]
        here = {self.x_of(place): time for place, time in self.scene.clock if self._is_here(place)}
        shown = [(0.0, before[-1]), *here.items()]
        out = [f'<rect class="clock" y="{y}" width="{num(self.right)}" height="{height}"/>']
        free = 0.0
        for (x, time), (end, _) in zip(shown, [*shown[1:], (self.right, 0)]):
            words = in_units(time)
            need = x + 8 + text.width_of(words, MORE_SIZE)
            if x:
                out.append(f'<path class="tick" d="M{num(x)} {y}v{height}"/>')
            if x >= free and need <= end:
                out.append(f'<text class="time" x="{num(x + 6)}" y="{y + 13}">{words}</text>')
                free = need
        return out

    def wait(self, wait: Wait) -> str:
        """A bar; that of who is stuck is open to the right."""
        x, line = self.x_of(wait.start), self.lines[wait.actor]
        if wait.end is not None:
            size = f'x="{num(x)}" y="{num(line - 3)}" width="{num(max(self.x_of(wait.end) - x, 1))}" height="6"'
            places = f"from place {wait.start} to {wait.end}" if wait.start else f"from the start to place {wait.end}"
            return f'<rect class="wait" {size} rx="3">{titled(f"{wait.text}, {places}")}</rect>'
        words = f'<text class="stuck-words" x="{num(self.piece.right + 30 - x)}" y="-14">{escaped(wait.text)}</text>'
        wide = num(self.right - 2 - x)
        bar = f'<path class="stuck-back" d="M0-7H{wide}V7H0Z"/><path class="stuck" d="M{wide}-7H0V7H{wide}"/>'
        said = titled(f"{wait.actor} {wait.text}\nstuck since {f'place {wait.start}' if wait.start else 'the start'}")
        return group("open", x, line, f"{said}{bar}{words if self._is_last() else ''}")

    def waits(self) -> list[str]:
        """The bars that are in this piece; those of one actor between the same two columns are one."""
        first, last = self.piece.first, self.piece.last
        drawn: dict[tuple[str, float, float], str] = {}
        for wait in self.scene.waits:
            if wait.start <= last and (wait.end is None or wait.end >= first):
                ends = wait.actor, self.x_of(wait.start), self.x_of(wait.end) if wait.end else -1
                if ends not in drawn and ends[1] != ends[2]:
                    drawn[ends] = self.wait(wait)
        return list(drawn.values())

    def arrow(self, arrow: Arrow, x: float, y: float, end_x: float, end_y: float) -> str:
        if y == end_y:
            start, end, low = f"{num(x)} {num(y + 6)}", f"{num(end_x)} {num(y + 8)}", y + 17
            path = f"M{start}C{num(x)} {num(low)} {num(end_x)} {num(low)} {end}"
        else:
            way = 1 if end_y > y else -1
            middle, end = num((y + end_y) / 2), f"{num(end_x)} {num(end_y - way * 8)}"
            start = f"{num(x)} {num(y + way * 6)} C{num(x)} {middle}" if x else f"0 {num(y)}C{num(end_x)} {num(y)}"
            path = f"M{start} {num(end_x)} {middle} {end}"
        kind, early = "frame" if arrow.is_frame else "mark", " early" if arrow.is_early else ""
        return f'<path class="{kind}-arrow{early}" marker-end="url(#{kind}-head)" d="{path}">{titled(arrow.text)}</path>'

    def arrows(self) -> list[str]:
        """The arrows that end in this piece; those between the same two columns and lanes are one. An early one that begins in another piece, or is
        between sums, isn't drawn."""
        drawn: dict[tuple[float, float, float, float], str] = {}
        for arrow in (it for it in self.scene.arrows if self._is_here(it.target.place)):
            calls = arrow.source, arrow.target
            columns = [self.scene.columns[self.scene.index[it.place]] for it in calls]
            (x, y), end = ((self.x_of(it.place), self.lines[it.who]) for it in calls)
            is_left_out = arrow.is_early and (not self._is_here(arrow.source.place) or any(it.is_bin for it in columns))
            if not is_left_out and (x, y) != end and (x, y, *end) not in drawn:
                drawn[(x, y, *end)] = self.arrow(arrow, x, y, *end)
        return list(drawn.values())

    def node(self, lane: Lane, node: Node) -> str:
        if self.scene.columns[node.column].is_bin:
            return self._sum(lane, node, self.scene.columns[node.column])
        call = node.calls[0]
        kind, said, label = kind_of(call), said_of(call), label_of(call)
        if len(node.calls) > 1:
            kind, label = "refused" if node.refused else kind, (f"{len(node.calls)} getters", "")
            told = [f"{it.name} {it.code} {it.text}".strip() for it in node.calls[:MOST_TOLD]]
            more = len(node.calls) - MOST_TOLD
            told += [f"and {text.counted(more, 'getter')} more"] if more > 0 else []
            said = "\n".join((f"{text.counted(len(node.calls), 'getter')} of {lane.name}", *told))
        return group(f"call {kind}", self._x(node), lane.line, f"{titled(said)}{SHAPES[kind]}{slanted(label)}")

    def _sum(self, lane: Lane, node: Node, column: Column) -> str:
        """A block for many calls, with their number and how many were refused."""
        width, names, faults = BIN_WIDTH - 10, {call.name for call in node.calls}, faults_of(node.calls)
        are_frames = all(it.what == "frame" for it in node.calls)
        what = "call" if node.calls[0].code else "frame" if are_frames else WHAT.get(lane.name, "event")
        words = text.counted(len(node.calls) - len(faults), what)
        name = node.calls[0].name if len(names) == 1 else f"{len(names)} kinds"
        bad = [f"{node.refused:,} refused"] if node.refused else []
        bad += faults + ([f"{node.pending:,} loss pending"] if node.pending else [])
        place = f"places {column.first:,} to {column.last:,} \u00b7 {lane.name}"
        said = titled(f"{place}\n{', '.join([words] + bad)}\n{summed(node.calls)}")
        back = f'<rect class="shape" x="{num(-width / 2)}" y="-9" width="{width}" height="18" rx="4"/>'
        above = f'<text class="sum-name" y="-14">{escaped(text.cut_inside(name, 21))}</text>'
        warn = f'<text class="sum-bad" y="-27">\u25b2 {", ".join(bad)}</text>' if bad else ""
        inside = f'{back}<text class="sum-count" y="4">{words}</text>{above}{warn}'
        return group("call sum", column.x, lane.line, f"{said}{inside}")

    def session(self, lane: Lane, session: Session) -> list[str]:
        """The bar of a session, divided where its state changes, and a line below it while it runs."""
        out: list[str] = []
        state = ""
        for changes, end in self.scene.bars_of(session):
            state, start, last = next((it.states[-1] for it in reversed(changes) if it.states), state), changes[0].place, changes[-1]
            if end < self.piece.first or start > self.piece.last:
                continue
            words = self.words(lane, session, changes, end, "" if out else state)
            flags = ["running"] * last.is_running + ["device lost"] * last.is_lost
            is_open = session.ended is None and end > len(self.scene.ordered)
            said = f"session {session.ordinal}: {', '.join([state] + flags)}\nfrom place {start} {'on' if is_open else f'to {end}'}"
            said += "".join(f"\n{it}" for it in ways([it for it in changes if it.told]))
            x = self.x_of(start)
            bar = state_bar(state, max(self.x_of(end) - x, 2), last.is_running, last.is_lost)
            out.append(group("state", x, lane.line, f"{titled(said)}{bar}{words}"))
        return out

    def words(self, lane: Lane, session: Session, changes: list[Change], end: int, state: str) -> str:
        """What stands at a part of a bar; at one that goes on from another piece its state, where that has room."""
        is_here = self._is_here(changes[0].place)
        words, is_inside = self.scene.words_of_bar(lane, session, changes, end)
        if not is_here:
            words = f"{session.ordinal} {state}" if state and len(lane.sessions) > 1 else state
            is_inside = text.width_of(words, MORE_SIZE) + 2 * INSIDE <= self.x_of(end)
        if is_inside and words:
            return f'<text class="in" x="{INSIDE}" y="3">{escaped(words)}</text>'
        return f'<g transform="translate(0 -6)">{slanted((words, ""))}</g>' if words and is_here else ""

    def owners(self, lane: Lane, chain: Owners) -> list[str]:
        """A bar for each time that an image of a swapchain is somebody's: one row an image."""
        out = []
        for image, owned in enumerate(chain.images):
            ends = [it.place for it in owned[1:]] + [chain.end or len(self.scene.ordered) + 1]
            for it, end in zip(owned, ends):
                if it.owner and it.place <= self.piece.last and end >= self.piece.first and end > it.place:
                    x, places = self.x_of(it.place), f"from place {it.place} {f'to {end}' if end <= len(self.scene.ordered) else 'on'}"
                    said = titled(f"swapchain {chain.name} \u00b7 image {image}\n{OWNERS[it.owner]}, {places}")
                    size = f'width="{num(max(self.x_of(end) - x, 2))}" height="{IMAGE_HEIGHT - 2}"'
                    bar = f'<rect class="shape o-{it.owner}" {size} rx="2"/>'
                    out.append(group("owner", x, lane.line - 24 + IMAGE_HEIGHT * image, f"{said}{bar}"))
        return out

    def head(self) -> str:
        """The places and the clock."""
        shown = ((it.x, f"{it.first}\u2013{it.last}" if it.is_bin else it.first) for it in self.piece.columns)
        places = [f'<text class="place" x="{num(x)}" y="16">{words}</text>' for x, words in shown]
        return "\n".join(places + self.clock())

    def body(self) -> str:
        """All elements of the lanes, the hindmost first: their backgrounds, with a fine line at each column."""
        backs = [back_of(lane, i, self.right) for i, lane in enumerate(self.scene.lanes)]
        lines = "".join(f"M{num(column.x)} {HEAD_HEIGHT}V{num(self.scene.height)}" for column in self.piece.columns)
        backs += [f'<path class="grid" d="{lines}"/>'] if lines else []
        states = [it for lane in self.scene.lanes for session in lane.sessions for it in self.session(lane, session)]
        states += [it for lane in self.scene.lanes if lane.chain for it in self.owners(lane, lane.chain)]
        nodes = [self.node(lane, node) for lane, nodes in self.nodes for node in nodes]
        return "\n".join([*backs, *self.waits(), *states, *self.arrows(), *nodes])


def back_of(lane: Lane, number: int, width: float) -> str:
    size = f'width="{num(width)}" height="{num(lane.height)}"'
    return f'<rect class="lane{" odd" if number % 2 else ""}" y="{num(lane.top)}" {size}/>'


def names_of_axis(width: int) -> str:
    """What stands left of the places and of the clock."""
    place = '<text class="axis-name" x="12" y="16">place</text>'
    clock = f'<text class="axis-name" x="12" y="{AXIS_HEIGHT + 13}">device clock</text>'
    return f'<rect class="names" width="{width}" height="{HEAD_HEIGHT}"/>\n{place}\n{clock}'


def names_of_lanes(scene: Scene, width: int) -> str:
    """The column of lanes' names, which stays where it is when one scrolls sideways."""
    out = [f'<rect class="names" y="{HEAD_HEIGHT}" width="{width}" height="{num(scene.height - HEAD_HEIGHT)}"/>']
    for i, lane in enumerate(scene.lanes):
        parts = lane.more.split(", ")
        y = lane.line + 5 - 13 * len(parts)
        out += [back_of(lane, i, width), f'<text class="lane-name" x="12" y="{num(y)}">{escaped(lane.name)}</text>']
        shown = ((num(y + 15 + 13 * line), escaped(part)) for line, part in enumerate(parts))
        out += [f'<text class="lane-more" x="12" y="{at}">{words}</text>' for at, words in shown]
    return "\n".join(out)
