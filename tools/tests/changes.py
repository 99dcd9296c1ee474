"""Reports that are changed by chance, in one way each, and whether they are refused. Each has to be, but for those that another
legal history makes:

- two calls of two actors that don't see each other may stand in the other order (`places`, `near`);
- a getter may answer from another publication that shows the same (`publication`);
- a call that takes memory may tell a want of it, where nothing behind it needs what it gave (`memory`, `code`).

So these are counted by their names, and any other one that is taken fails.
"""
from __future__ import annotations

import contextlib
import random
import re
from collections import Counter
from collections.abc import Callable
from itertools import combinations

from helpers import Tally
from runs import Lines, Text, joined, judged

from machine.answers import OUT_OF_MEMORY
from reports.values import CODES, GETTERS, MET

MOST_LINES = 400
MOST_TRIES = 20000
MAY_BE_LEGAL = ("places", "near", "publication")
# lines by what they tell
CALL = re.compile(r"(\d+) ([a-z_]+) (XR_[A-Z_]+)(.*) @(\d+)")
GETTER = rf"\d+ (?:{'|'.join(GETTERS)}) .* @\d+"
PLACED, COUNTED = r".* @\d+", rf"(?!{GETTER}).* @\d+"
# what is left out as if it had never been
LEFT_OUT = {
    "no_call": r"\d+ (?!leave )[a-z_]+ XR_.* @\d+",
    "no_leave": r"\d+ leave XR_SUCCESS @\d+",
    "no_frame": r"frame .*",
    "no_event": r"\d+ [a-z]+(?! XR_).* @\d+",
}
# numbers that become others: the lines, which numbers, and by how much
NUMBERS = {
    "value": (PLACED, r"(?<=[^@\w])-?\d+(?![\w@])", (1, -1)),
    "stamp": (r"frame .*[:,].*", r"(?<=[:,])\d+", (1, 2, 7)),
    "one_off": (COUNTED, r"(?<= @)\d+$", (1, -1)),
}
Found = dict[int, "re.Match[str]"]
# what two lines swap, which is the middle one of three pieces, and which two may. The replies to two calls of one op may be swapped,
# since what a call is answered follows from the calls before it, but where memory is short and where an image may be given back
# already; and what a getter answers, from its place.
SWAPPED: dict[str, tuple[str, Callable[[Found, int, int], bool]]] = {
    "order": (r"(\d+)( [a-z].*)( @\d+)", lambda found, one, other: one + 1 == other),
    "frames": (r"(frame \d+)( time .*)( @\d+)", lambda found, one, other: one + 1 == other),
    "exchange": (r"(\d+ (?!wait_image )[a-z_]+ )(XR_.*)( @\d+)", lambda found, one, other: op_of(found[one]) == op_of(found[other])),
    "places": (rf"((?!{GETTER}).* @)(\d+)()", lambda found, one, other: True),
    "near": (rf"((?!{GETTER}).* @)(\d+)()", lambda found, one, other: abs(int(found[one][2]) - int(found[other][2])) == 1),
}


def op_of(found: re.Match[str]) -> str:
    return found[1].split(" ")[1]


def fitting(lines: Lines, pattern: str) -> Found:
    return {at: found for at, found in enumerate(re.fullmatch(pattern, line) for line in lines) if found}


def close_ranks(lines: Lines, gone: int) -> None:
    """Each place behind one that is gone is one less."""
    for at in fitting(lines, PLACED):
        front, _, place = lines[at].rpartition(" @")
        lines[at] = f"{front} @{int(place) - (int(place) > gone)}"


# ---- the changes: each raises IndexError or ValueError where a report has no line for it


def leave_out(chance: random.Random, lines: Lines, pattern: str) -> None:
    """A line is left out as if its call had never been made: those behind it in its block are counted on."""
    at = chance.choice([*fitting(lines, pattern)])
    line, numbered = lines.pop(at), re.compile(r"(frame )?(\d+)( .*)")
    while found := numbered.fullmatch(lines[at]):
        lines[at] = f"{found[1] or ''}{int(found[2]) - 1}{found[3]}"
        at += 1
    if re.fullmatch(COUNTED, line):
        close_ranks(lines, int(line.rpartition(" @")[2]))


def swap(chance: random.Random, lines: Lines, pattern: str, fits: Callable[[Found, int, int], bool]) -> None:
    """What two lines have between their fronts and their ends is swapped."""
    found = fitting(lines, pattern)
    one, other = chance.choice([it for it in combinations(found, 2) if fits(found, *it) and found[it[0]][2] != found[it[1]][2]])
    for at, by in ((one, other), (other, one)):
        lines[at] = found[at][1] + found[by][2] + found[at][3]


def change_number(chance: random.Random, lines: Lines, pattern: str, number: str, by: tuple[int, ...]) -> None:
    """A number of a line becomes another one."""
    at = chance.choice([*fitting(lines, pattern)])
    it = chance.choice(list(re.finditer(number, lines[at])))
    lines[at] = f"{lines[at][: it.start()]}{int(it[0]) + chance.choice(by)}{lines[at][it.end() :]}"


def code(chance: random.Random, lines: Lines) -> None:
    """Another code, with the values that it may have."""
    at, found = chance.choice([*fitting(lines, CALL.pattern).items()])
    near = [*MET, OUT_OF_MEMORY, "XR_TIMEOUT_EXPIRED", "XR_ERROR_CALL_ORDER_INVALID", "XR_SESSION_NOT_FOCUSED"]
    other = chance.choice([it for it in (*CODES, *near * 4) if it != found[3]])
    lines[at] = f"{found[1]} {found[2]} {other}{found[4] if other in MET else ''} @{found[5]}"


def memory(chance: random.Random, lines: Lines) -> None:
    """A call that takes memory tells a want of it."""
    at = chance.choice([*fitting(lines, r"\d+ (?:string_to_path|suggest_bindings) XR_SUCCESS.*")])
    lines[at] = re.sub("XR_SUCCESS.* @", f"{OUT_OF_MEMORY} @", lines[at])


def publication(chance: random.Random, lines: Lines) -> None:
    """A getter has another place."""
    at = chance.choice([*fitting(lines, GETTER)])
    lines[at] = f"{lines[at].rpartition(' @')[0]} @{chance.randrange(len(fitting(lines, COUNTED)) + 1)}"


def drop(chance: random.Random, lines: Lines) -> None:
    lines.pop(chance.randrange(len(lines)))


def double(chance: random.Random, lines: Lines) -> None:
    at = chance.randrange(len(lines))
    lines.insert(at, lines[at])


def status(chance: random.Random, lines: Lines) -> None:
    lines[-1] = f"status {chance.choice([it for it in range(10) if lines[-1] != f'status {it}'])}"


def stuck(chance: random.Random, lines: Lines) -> None:
    """A line behind `stuck` is dropped, is another, or stands elsewhere."""
    first, way = lines.index("stuck") + 1, chance.randrange(3)
    at = chance.choice(range(first, len(lines) - 1))
    if way == 0:
        del lines[at]
    elif way == 1:
        lines[at] = re.sub(r"\d+", lambda it: str(int(it[0]) + 1), lines[at]) if re.search(r"\d", lines[at]) else "device await 1"
    else:
        lines[first:-1] = reversed(lines[first:-1])


CHANGES: dict[str, Callable[[random.Random, Lines], None]] = {
    **{it.__name__: it for it in (code, memory, publication, drop, double, status, stuck)},
    **{name: lambda chance, lines, its=its: change_number(chance, lines, *its) for name, its in NUMBERS.items()},
    **{name: lambda chance, lines, its=its: swap(chance, lines, *its) for name, its in SWAPPED.items()},
    **{name: lambda chance, lines, it=it: leave_out(chance, lines, it) for name, it in LEFT_OUT.items()},
}


# ---- whether they are refused


def is_reasoned(kind: str, before: Lines, after: Lines) -> bool:
    """Whether a changed report may be that of another history."""
    added = [it for it in after if it not in before]
    return kind in MAY_BE_LEGAL or kind in ("code", "memory") and all(f" {OUT_OF_MEMORY} " in it for it in added)


def changed(chance: random.Random, reports: list[tuple[Text, Lines]], kind: str) -> tuple[Text, Lines, Lines]:
    """A report before and behind a change of a kind."""
    for _ in range(MOST_TRIES):
        text, before = chance.choice(reports)
        after = [*before]
        with contextlib.suppress(IndexError, ValueError):
            CHANGES[kind](chance, after)
            if after != before:
                return text, before, after
    raise AssertionError(f"{kind}: no report can be changed so")


def changed_reports(tally: Tally, name: str, reports: list[tuple[Text, Lines]], most: int) -> None:
    """Each of so many changed reports is refused, but for those that another history makes, which are counted by name."""
    chance, legal = random.Random(12), Counter()
    kinds = [it for it in CHANGES if it != "stuck" or any("stuck" in lines for _, lines in reports)]
    short = [it for it in reports if len(it[1]) <= MOST_LINES]
    for kind in (kinds * most)[:most]:
        text, before, after = changed(chance, short, kind)
        is_refused = judged(text, joined(after)) != ""
        legal[kind] += not is_refused
        differ = next((it for it in zip(before, after) if it[0] != it[1]), "")
        tally.check(is_refused or is_reasoned(kind, before, after), f"{text.name}: {kind} is taken: {differ}")
    taken = ", ".join(f"{times} {kind}" for kind, times in sorted(legal.items()) if times)
    print(f"{name}: {most - sum(legal.values())} changed reports refused, {sum(legal.values())} legal all the same: {taken}")
    tally.check(sum(legal.values()) * 10 < most, "too many changed reports are taken")
