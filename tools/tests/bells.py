"""bells PROGRAM: that on threads a call that isn't ready is tried again as soon as another's call has made it so.

A call that waits sleeps at a bell for 20 ms at most, should nobody ring it. Each scenario here has so many waits of one kind, each of which
ends by one kind of call, that without that call's ring it would take longer than it may. The best of some runs counts. What differs is told,
and the last line counts.
"""
from __future__ import annotations

import time
from pathlib import Path

from helpers import Ops, Tally, filled, main, ops_of, run
from runs import made_text

RUNS = 4
# how long a wait takes where its bell isn't rung, and what part of that all waits of a scenario may take
SLEEP, MOST = 0.02, 0.4
BEGINS = "{INSTANCE}; {SESSION}"
RUNNING = f"{BEGINS}; await mark=64; {{RUN}}"
READY = ["grid 0 1000000", "wish focused", "mark 64"]


def to_and_fro(first: int, trips: int) -> tuple[str, str]:
    """Two texts of ops that wait for each other's marks, from this one on: so many trips to and fro."""
    marks = range(first, first + 2 * trips, 2)
    one = "; ".join(f"mark mark={it} value=0; await mark={it + 1}" for it in marks)
    other = "; ".join(f"await mark={it}; mark mark={it + 1} value=0" for it in marks)
    return one, other


def scripts_of(*texts: str) -> list[Ops]:
    return [ops_of(filled(it)) for it in texts]


def marks() -> tuple[list[Ops], list[str], int]:
    """Scripts wait for each other's marks."""
    return scripts_of(*to_and_fro(1, 31)), [], 62


def device() -> tuple[list[Ops], list[str], int]:
    """A script waits for the device's marks, and the device for the script's."""
    lines = [line for it in range(1, 61, 2) for line in (f"await {it}", f"mark {it + 1}")]
    return scripts_of(to_and_fro(1, 30)[0]), lines, 60


def pending() -> tuple[list[Ops], list[str], int]:
    """The compositor waits for each frame."""
    return scripts_of(f"{RUNNING}; " + "; ".join(["{FRAME}"] * 100)), READY, 100


def frames() -> tuple[list[Ops], list[str], int]:
    """Each of two scripts waits with its wait for a frame until the other has begun its own."""
    rounds = "; ".join(["wait_frame session=s; begin_frame session=s"] * 100)
    first = f"{RUNNING}; mark mark=1 value=s; {rounds}"
    return scripts_of(first, f"await mark=1 as=s; {rounds}"), READY, 100


def images() -> tuple[list[Ops], list[str], int]:
    """A script waits for an image until the compositor has given it back."""
    layer = '[{"quad":"o","image":["c0",0,0,1,1],"pose":1}]'
    frame = filled(f"{{BEGIN}}; {{IMAGE}}; {{END}} time=t layers={layer}").replace("@", "5")
    made = "{A_SPACE} as=o; {A_CHAIN} as=c0"
    return scripts_of(f"{RUNNING}; {made}; " + "; ".join([frame] * 60)), READY, 60


SCENARIOS = (marks, device, pending, frames, images)


def trials(tally: Tally, program: str, room: Path) -> None:
    for scenario in SCENARIOS:
        scripts, lines, waits = scenario()
        text = made_text(room, scenario.__name__, scripts, lines)
        spent = []
        for _ in range(RUNS):
            begun = time.monotonic()
            ended = run([program, "threads", *text.words], cwd=text.folder)
            spent.append(time.monotonic() - begun)
            tally.check(ended.returncode == 0, f"{scenario.__name__}: it ends with {ended.returncode}: {ended.stderr!r}")
        best, most = min(spent), waits * SLEEP * MOST
        tally.check(best < most, f"{scenario.__name__}: {waits} waits took {best:.2f} s, and {most:.2f} s are the most")


if __name__ == "__main__":
    main("bells", trials)
