"""What stands around the pictures of a page: how the run ended, what was refused, counts, what the shapes, bars and colours say, and all calls as
tables of HTML in order of place."""
from __future__ import annotations

from collections import Counter

from drawing import text
from drawing.chart import SHAPES, kind_of, state_bar
from drawing.owners import OWNERS
from drawing.replay import STATES, awaited, in_units, is_bad, is_fault, is_refused, mark_of, scripts_of
from drawing.report import UNTOLD
from drawing.scene import MEANINGS, Scene, faults_of, places_of, words_of
from drawing.text import counted, escaped
from reports.reading import Call

MOST_OPEN = 3
MOST_CODES = 4
WIDE = 42
KINDS = {
    "met": "success, or an event of the device",
    "refused": "refused, with its code",
    "fault": "the end of a device's text that couldn't be read on, or has a malformed line",
    "pending": "success, while the session's loss is pending",
    "other": "neither plain success nor error, as where no event waits",
    "mark": "sets a mark",
    "end": "leaves, or is told the end",
}
WAIT = '<rect class="wait" x="-20" y="-3" width="40" height="6" rx="3"/>'
MARK_ARROW = '<path class="mark-arrow{}" marker-end="url(#mark-head)" d="M-18 0H18"/>'
FRAME_ARROW = '<path class="frame-arrow" marker-end="url(#frame-head)" d="M-18 0H18"/>'
STUCK = '<path class="stuck-back" d="M-19-6H19V6H-19Z"/><path class="stuck" d="M19-6H-19V6H19"/>'
SUM = '<g class="sum"><rect class="shape" x="-19" y="-8" width="38" height="16" rx="4"/></g>'
OWNER = '<g class="owner"><rect class="shape o-{}" x="-19" y="-5" width="38" height="11" rx="2"/></g>'
MOST_ROWS = 20_000
ROWS_IN_A_PART = 500
ROW_HEIGHT = 26
HEADS = {"place": 7, "actor": 9, "call": 6, "name and arguments": 29, "code": 26, "values, and what it waited for": 23}


def _why_stuck(scene: Scene, waiter: Call) -> str:
    """Who waits for what, and which ops that were not made would have given it."""
    mark = mark_of(waiter)
    words = f"<b>{escaped(waiter.who)}</b> waits for {awaited(waiter.name, mark)}"
    words += f" in its call {waiter.number:,}" if waiter.number else ""
    if not mark or not scene.scripts:
        return f"<li>{words}.</li>"
    setters = [
        f"script {script} in its call {at:,}"
        for script, (ops, made) in enumerate(zip(scene.scripts, scene.report.scripts), 1)
        for at, op in enumerate(ops, 1)
        if at > len(made) and op.name == "mark" and op.fields["mark"] == mark
    ]
    if setters:
        return f"<li>{words}, which {' or '.join(setters[:3])} would set, and didn't get to.</li>"
    rest = "What the device's text has behind its last event isn't in a report."
    return f"<li>{words}, which no script's later call sets. {rest}</li>"


def _refusals(scene: Scene, calls: list[Call]) -> str:
    """How many calls were refused, by which codes, and where the first stands; in a run of many pieces as a link to its piece."""
    refused = sorted(filter(is_refused, calls), key=lambda call: (call.place, call.number))
    if not refused:
        return ""
    codes, is_one, first = Counter(call.code for call in refused).most_common(), len(refused) == 1, refused[0]
    listed = [code if is_one else f"{count:,} \u00d7 {code}" for code, count in codes[:MOST_CODES]]
    left = len(codes) - MOST_CODES
    listed += [f"and {counted(left, 'other code')}"] if left > 0 else []
    words = f"<b>\u25b2 {len(refused):,} of {counted(len(calls), 'script call')} {'was' if is_one else 'were'} refused</b>"
    where = f"call {first.number:,} of {first.who}" + (f" at place {first.place:,}" if first.is_counted else "")
    before = [it.place for it in scene.report.actors[first.who][: first.number] if it.is_counted]
    piece = next((it for it in scene.pieces if before and it.first <= before[-1] <= it.last), None)
    where = f'<a href="#piece-{piece.number}">{where}</a>' if piece and len(scene.pieces) > 1 else where
    return f'<p class="refusals">{words}: {", ".join(listed)}; {"" if is_one else "the first is "}{where}.</p>'


def status_of(scene: Scene) -> str:
    """The box that says how the run ended, with who is stuck; a long list of them is folded, so that the picture stays near."""
    status, stuck = scene.report.status, scene.report.stuck
    refusals = _refusals(scene, [call for calls in scene.report.scripts for call in calls])
    kind = "status bad" if status else "status refused" if refusals else "status"
    sign = "\u25a0 " if status else ""
    items = f"<ul>{''.join(_why_stuck(scene, waiter) for waiter in stuck)}</ul>" if stuck else ""
    if len(stuck) > MOST_OPEN:
        items = f"<details><summary>{len(stuck):,} actors wait: who, and for what</summary>{items}</details>"
    also = "<p>Some actors are stuck too:</p>" if stuck and status != 7 else ""
    return f'<div class="{kind}">{sign}<b>Status {status}.</b> {escaped(MEANINGS[status])}{refusals}{also}{items}</div>'


def facts_of(scene: Scene) -> str:
    """Counts of what there is in the run."""
    calls, device = [call for calls in scene.report.scripts for call in calls], scene.report.device
    pending = sum(call.code == "XR_SESSION_LOSS_PENDING" for call in calls)
    facts = [
        counted(len(scene.ordered), "place"),
        counted(len(calls), "script call"),
        counted(sum(map(is_refused, calls)), "refused", "refused"),
        counted(pending, "with the loss pending", "with the loss pending") if pending else "",
        counted(sum(not is_fault(call) for call in device), "device event"),
        *faults_of(device),
        counted(len(scene.report.frames), "frame taken", "frames taken"),
        counted(len(scene.sessions), "session"),
    ]
    shown = [fact.partition(" ") for fact in facts if fact and not fact.startswith(("0 f", "0 se"))]
    items = [f"<li><b>{count}</b> {word}</li>" for count, _, word in shown]
    return f'<ul class="facts">{"".join(items)}<li>device clock <b>{in_units(scene.clock[-1][1])}</b></li></ul>'


def _item(inside: str, width: int, words: str) -> str:
    sample = f'<svg width="{width}" height="22" viewBox="{-width / 2:g} -11 {width} 22" aria-hidden="true">{inside}</svg>'
    return f"<li>{sample}{words}</li>"


def _signs(scene: Scene) -> list[str]:
    """Each kind of call that is drawn, and each kind of bar and arrow."""
    kinds, early = set(map(kind_of, scene.report.calls)), {arrow.is_early for arrow in scene.arrows if not arrow.is_frame}
    signs = (
        (any(it.end for it in scene.waits), WAIT, "was held back, from the actor's previous place to its own"),
        (False in early, MARK_ARROW.format(""), "from the mark to the await that it released"),
        (True in early, MARK_ARROW.format(" early"), "from the mark to an await that it didn't hold back: it was set by then"),
        (any(arrow.is_frame for arrow in scene.arrows), FRAME_ARROW, "a frame, from its end to the compositor"),
        (scene.report.stuck, STUCK, "stuck: waits for ever"),
        (any(column.is_bin for column in scene.columns), SUM, "many calls, summed up"),
    )
    shapes = [_item(f'<g class="{kind}">{SHAPES[kind]}</g>', 22, words) for kind, words in KINDS.items() if kind in kinds]
    owners = {it.owner for lane in scene.lanes if lane.chain for image in lane.chain.images for it in image}
    bars = [_item(OWNER.format(it), WIDE, f"an image {words}") for it, words in OWNERS.items() if it in owners]
    return shapes + [_item(inside, WIDE, words) for is_there, inside, words in signs if is_there] + bars


def _states(scene: Scene) -> list[str]:
    """Each state that a session has, by its colour and its word, and what is drawn on top of a state."""
    changes = [change for session in scene.sessions for change in session.changes]
    states = {state for change in changes for state in change.states}
    items = [(state_bar(state, WIDE - 4), state) for state in STATES if state in states]
    if any(change.is_lost for change in changes):
        items.append((state_bar(None, WIDE - 4, is_lost=True), "crossed out: the session's device is lost"))
    if any(change.is_running for change in changes):
        items.append((state_bar(None, WIDE - 4, is_running=True), "the line below: the session runs"))
    return [_item(f'<g transform="translate({2 - WIDE // 2} 0)">{bar}</g>', WIDE, words) for bar, words in items]


def legend_of(scene: Scene) -> str:
    """The legend: a list of calls and lines, and one of sessions' states."""
    states = "".join(_states(scene))
    more = f'<p>A session\'s states:</p><ul class="legend states">{states}</ul>' if states else ""
    return f'<section class="key" aria-label="Legend"><ul class="legend">{"".join(_signs(scene))}</ul>{more}</section>'


def _row(call: Call) -> str:
    kind = " class=r" if is_bad(call) else " class=p" if call.code == "XR_SESSION_LOSS_PENDING" else ""
    values = in_units(int(call.text)) if call.name == "clock" else text.cut(call.text) if call.code else ""
    more = "; ".join(it for it in (values, call.note) if it)
    name = escaped(f"{call.name} {words_of(call)}".strip())
    place = call.place if call.is_counted else f"({call.place})"
    front = f"<tr{kind}><td class=n>{place}<td>{call.who}<td class=n>{call.number or ''}"
    return f"{front}<td>{name}<td>{call.code}<td>{escaped(more)}"


def _all_calls(scene: Scene) -> list[Call]:
    """All calls in the order of their places; a getter behind the publication that it read, and behind the call of its script before it."""
    getters: dict[int, list[Call]] = {}
    for actor in scripts_of(scene.report):
        for call, place in places_of(scene.report.actors[actor]):
            if not call.is_counted:
                getters.setdefault(place, []).append(call)
    return [*getters.get(0, []), *(it for call in scene.ordered for it in (call, *getters.get(call.place, [])))]


def _filter(rows: list[Call]) -> str:
    """What rows and calls are looked for by; the page's script shows it."""
    def choice(name: str, known: set[str]) -> str:
        options = "".join(f"<option>{escaped(it)}" for it in sorted(known))
        return f'<label>{name} <select name="{name}"><option value="">all{options}</select></label>'

    choices = choice("actor", {it.who for it in rows}) + choice("op", {it.name for it in rows}) + choice("code", {it.code for it in rows} - {""})
    search = '<label>search <input type="search" name="search"></label>'
    return f'<form class="filter" aria-label="Filter" hidden>{choices}{search}<output name="shown"></output></form>'


def _parts(rows: list[Call], words: str) -> str:
    """The rows in parts, so that a long run opens soon: a browser may lay each out once it is scrolled to. The words have places for the first and
    the last row's number."""
    widths = "".join(f'<col style="width:{width}%">' for width in HEADS.values())
    heads = "".join(f"<th scope=col{' class=n' if name in ('place', 'call') else ''}>{name}" for name in HEADS)
    out = []
    for start in range(0, max(len(rows), 1), ROWS_IN_A_PART):
        part = rows[start : start + ROWS_IN_A_PART]
        caption = words.format(start + 1, start + len(part)) if part else "No call was made."
        late = f' style="contain-intrinsic-size:auto {ROW_HEIGHT * (len(part) + 2)}px"' if len(rows) > ROWS_IN_A_PART else ""
        front = f"<table><caption>{caption}</caption><colgroup>{widths}</colgroup><thead><tr>{heads}</thead>"
        body = "\n".join(map(_row, part))
        out.append(f'<div class="part"{late}>{front}<tbody>\n{body}\n</tbody></table></div>')
    return "".join(out)


def table_of(scene: Scene) -> str:
    """All calls as text. Behind the most rows that are shown stand those alone that were refused or are a fault."""
    rows = _all_calls(scene)
    bad = list(filter(is_bad, rows[MOST_ROWS:]))
    left_out = len(rows[MOST_ROWS:]) - len(bad)
    notes = [UNTOLD] if scene.scripts else []
    if any(not it.is_counted for it in rows):
        notes.append("A place in brackets is the publication that a getter read.")
    if left_out:
        left = f"{counted(left_out, 'other row')} there {'is' if left_out == 1 else 'are'} in the report alone."
        notes.append(f"Behind row {MOST_ROWS:,} only refused calls and faults are shown; {left}")
    said = f"<p>{' '.join(notes)}</p>" if notes else ""
    parts = _parts(rows[:MOST_ROWS], f"Rows {{:,}} to {{:,}} of {len(rows):,}")
    if bad:
        what = counted(len(bad), "refused call or fault", "refused calls and faults")
        parts += _parts(bad, f"Behind row {MOST_ROWS:,}: {{:,}} to {{:,}} of {what}")
    return f'<section aria-label="All calls"><h2>All calls in order of place</h2>{said}{_filter(rows)}{parts}</section>'
