"""What a file of expectations would have to say of a run, line beside line, for a reader to take or to leave."""
from __future__ import annotations

from collections.abc import Callable
from difflib import SequenceMatcher
from typing import NamedTuple

from expecting.comparing import compare
from expecting.expectations import Wanted, calls_wanted
from expecting.running import Run
from scenarios.reading import Scripts
from shown import count

ASKS = "take it? [y]es, [n]o, [a]ll, [q]uit: "
WIDTH = 60
MOST_SHOWN = 6


class Change(NamedTuple):
    """What lines of the file, counted from 1, say and would have to say. A line is put before another one where it has no old text, and goes where it
    has no new one. Line 0 stands behind the last one."""

    edits: dict[int, tuple[str, str]]

    def shown(self, file: str) -> list[str]:
        """Old and new side by side, or one below the other where the old one is long."""
        lines = []
        for at, (old, new) in [*self.edits.items()][:MOST_SHOWN]:
            texts = old or "(no line)", new or "(no line)"
            lines += [f"{file}:{at}" if at else f"{file}: a new last line"]
            lines += [f"  {texts[0]:{WIDTH}} | {texts[1]}"] if len(old) <= WIDTH else [f"  {it}" for it in texts]
        more = len(self.edits) - MOST_SHOWN
        return lines + [f"and {count(more, 'line')} more that the same ops move"] * (more > 0)


# ---- ops that stand elsewhere now


def moves_of(found: list[Wanted], scripts: Scripts, text: list[str]) -> list[Change]:
    """Of each script the lines whose ops stand elsewhere now, as the names in the file and those in the scenario tell it. They move together."""
    changes = []
    for number, ops in enumerate(scripts, 1):
        lines = [it for it in found if it.what == "call" and it.script == number and not it.label]
        was = {it.number: it.name for it in lines if it.name and not it.is_range}
        names = [*(it.name for it in ops), "leave"]
        if all(at <= len(names) and names[at - 1] == name for at, name in was.items()):
            continue
        places = sorted(was)
        blocks = SequenceMatcher(None, [was[it] for it in places], names, autojunk=False).get_matching_blocks()
        there = {places[a + at]: b + at + 1 for a, b, size in blocks for at in range(size)}
        edits = {}
        for it in lines:
            if it.number in was and it.number not in there:
                new = ""
            else:
                first, last = (at and at + shift(there, at) for at in (it.number, it.last))
                new = f"{front_of(it._replace(number=first, last=last))} {it.text}"
            if new != f"{front_of(it)} {it.text}":
                edits[it.line] = text[it.line - 1], with_comment(new, text[it.line - 1])
        changes.append(Change(edits))
    return changes


def shift(there: dict[int, int], number: int) -> int:
    """How far an op was moved: as far as the last known one that doesn't stand behind it."""
    at = max((it for it in there if it <= number), default=None)
    return there[at] - at if at is not None else 0


def front_of(wanted: Wanted) -> str:
    """The words of a call's line before its code."""
    if wanted.label:
        return wanted.front[0].text
    numbers = f"{wanted.script} {wanted.number}" + (f"-{wanted.last or ''}" if wanted.is_range else "")
    return f"{numbers} {wanted.name}".rstrip()


# ---- answers that came otherwise


def taken(wanted: Wanted, came: str, run: Run) -> str:
    """What a line would have to say, or nothing where it would have to go."""
    what = wanted.what
    if what == "status":
        return f"status {run.words if wanted.words else run.status}"
    if what in ("stuck", "ended") or came.startswith(("nothing", "neither")):
        return ""
    if what == "call":
        return f"{front_of(wanted)} {came if len(wanted.words) > 1 else came.partition(' ')[0]}"
    return f"{wanted.front[0].text} {came}" if what not in ("frame", "event") else f"{wanted.front[0].text} {wanted.number} {came}"


def changes_of(found: list[Wanted], run: Run, text: list[str]) -> list[Change]:
    """All that came otherwise. Of a range each op that did gets a line of its own."""
    calls, _ = calls_wanted(found, run.scripts or [])
    places = {f"script {script} op {number}": (script, number) for script, number in calls}
    by_line, changes = {it.line: it for it in found}, []
    for it in (it for it in compare(found, calls, run) if not it.holds):
        wanted = by_line.get(it.line)
        if wanted is None:
            changes.append(Change({0: ("", f"status {run.status}")}))
        elif wanted.is_range and it.name in places and not it.came.startswith("nothing"):
            script, number = places[it.name]
            own = wanted._replace(script=script, number=number, last=number)
            changes.append(Change({it.line: ("", taken(own, it.came, run))}))
        else:
            changes.append(Change({it.line: (text[it.line - 1], with_comment(taken(wanted, it.came, run), text[it.line - 1]))}))
    return changes


def with_comment(new: str, old: str) -> str:
    """A new line with the comment of the old one."""
    at = next((at for at in range(1, len(old)) if old[at] == "#" and old[at - 1] in " \t"), len(old))
    return f"{new}   {old[at:]}".rstrip() if new and at < len(old) else new


# ---- what is taken


class Asking:
    """Shows changes and asks which of them are taken, one by one or all that are left. An answer that is none of these leaves all that are left."""

    def __init__(self, tell: Callable[[list[str]], None], ask: Callable[[], str]) -> None:
        self.tell, self.ask, self.answer = tell, ask, "y"

    def chosen(self, changes: list[Change], file: str) -> list[Change]:
        """The changes that are taken."""
        found = []
        for it in changes:
            if self.answer != "a":
                self.tell([*it.shown(file), ASKS])
                self.answer = self.ask().strip().lower()[:1]
            if self.answer not in ("y", "n", "a"):
                break
            found += [it] if self.answer != "n" else []
        return found


def changed(text: list[str], changes: list[Change]) -> list[str]:
    """The lines of a file with these changes."""
    before: dict[int, list[str]] = {}
    instead: dict[int, list[str]] = {}
    for change in changes:
        for at, (old, new) in change.edits.items():
            (instead if old else before).setdefault(at, []).extend([new] * (new != ""))
    lines = [it for at, line in enumerate(text, 1) for it in (*before.get(at, ()), *instead.get(at, [line]))]
    return lines + before.get(0, [])
