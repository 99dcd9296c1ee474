"""threads PROGRAM [RUNS]: tries the form `threads` of PROGRAM: so many runs (360, if not said), each of which has to end and to
print a report that is legal.

1. Each case of cases and each example that can't hang is run, and then scenarios by chance, some times each. A
   run that takes longer than 20 seconds hangs. The machine judges each report. How many calls there were is told, and how many
   distinct reports the same scenario had.
2. Where there is just one legal report, it is that of `serial`, and the same with places.
3. Reports are changed by chance, in one way each, and have to be refused (changes.py).
4. Where no threads can be had, or only some, a run comes to its report all the same if nobody in it waits for another.
5. What can't be opened, read or written ends as under `serial`.

What differs is told, and the texts of a run that differs are kept. The last line counts.
"""
from __future__ import annotations

import contextlib
import itertools
import os
import random
import resource
import shutil
import subprocess
import sys
import tempfile
import threading
from collections import Counter
from collections.abc import Iterator
from concurrent.futures import ThreadPoolExecutor
from pathlib import Path
from typing import Any

from helpers import Tally, filled, main, ops_of, rows_of, run
from runs import Ran, Text, in_any_order, in_rounds, judged, lines_of, made_text, stored_runs

import by_chance
from changes import CALL, changed_reports
from checking.hanging import cannot_hang
from judging.replay import stripped
from reports.reading import read_lines
from reports.values import OPS
from scenarios.devices import FAILED_DEVICE, NO_DEVICE

RUNS, MOST_RUNS = 360, 1_000_000
LONGEST = 20
SIDE_BY_SIDE = 2
MOST_HANGING, MOST_KEPT = 3, 12
MOST_LINES, MOST_TEXTS = 450, 400
# a scenario by chance is run so often
TIMES = 6
CHANGES = 120
LINES = {5: "xrsim: device failed\n", 6: "xrsim: device line {} garbled\n"}


def ran(program: str, form: str, text: Text, *more: str, **child: Any) -> Ran:
    """Runs a text."""
    try:
        it = run([program, form, *more, *text.words], **{"cwd": text.folder, "timeout": LONGEST, **child})
    except subprocess.TimeoutExpired as e:
        return Ran(None, e.stdout or b"", "")
    except (OSError, subprocess.SubprocessError):
        return Ran(127, b"", "")
    return Ran(it.returncode, it.stdout, it.stderr.decode(errors="replace"))


def ends_always(text: Text) -> bool:
    """Whether no run of a text can hang."""
    return cannot_hang(text.scripts, "stuck" in in_rounds(text))


def is_of_one_report(text: Text) -> bool:
    """Whether there is just one legal report, but for its places: one script without a device, in which no wait for an image may
    be in vain, and no swapchain wants a place that frames may keep."""
    ops = [it for script in text.scripts for it in script]
    is_sure = all(it.fields["timeout"] == "inf" for it in ops if it.name == "wait_image")
    few = sum(it.name == "create_swapchain" for it in ops) <= 16
    return len(text.scripts) == 1 and not text.device.all and is_sure and few


# ---- runs


def wrong_with(text: Text, made: Ran) -> tuple[str, int]:
    """Why a run is wrong, where it is, and how many calls a legal report has."""
    if made.status is None:
        return f"the run hangs: it takes longer than {LONGEST} seconds", 0
    why = judged(text, made.output)
    if why:
        return f"it ends with {made.status} and {made.line!r}, and its report is refused: {why}", 0
    status = int(made.output.split()[-1])
    if (made.status, made.line) != (status, LINES.get(status, "").format(text.device.garbled)):
        return f"it ends with {made.status} and {made.line!r}, and its report with {status}", 0
    return "", made.output.count(b" @")


def keep(text: Text, made: Ran) -> str:
    """Keeps the texts and the report of a run that is wrong."""
    folder = tempfile.mkdtemp(prefix="threads-")
    for name in (it for it in text.words if (text.folder / it).is_file()):
        shutil.copy(text.folder / name, folder)
    Path(folder, "report").write_bytes(made.output)
    return folder


def batches(tally: Tally, most: int, room: Path) -> Iterator[list[Text]]:
    """The texts of so many runs: each stored text, or as many of each as have room in a third of them, but for those that are long or
    may hang; and then a scenario by chance some times each."""
    stored = [(text, report.count(b"\n") <= MOST_LINES and ends_always(text)) for text, _, report in stored_runs()]
    found = [text for text, is_fit in stored if is_fit]
    print(f"threads: {len(stored) - len(found)} stored texts are long or may hang, so they aren't run")
    plan = (found * max(1, most // 3 // len(found)))[: max(1, most * 7 // 10)]
    yield plan
    for number, begun in enumerate(range(len(plan), most, TIMES), 1):
        text = made_text(room, f"chance{number % 1000}", *by_chance.scenario(number))._replace(name=f"by chance {number}")
        tally.check(ends_always(text), f"{text.name}: this may hang")
        order = in_any_order(text, random.Random(number))
        tally.check("stuck" not in order, f"{text.name}: the tool's own machine is stuck in some order")
        yield [text] * min(TIMES, most - begun)


def all_runs(tally: Tally, program: str, most: int, room: Path) -> tuple[dict[str, Text], dict[str, Counter[bytes]]]:
    """The first texts by their names, and how often each had which legal report. Nothing more is run once some hang."""
    texts: dict[str, Text] = {}
    reports: dict[str, Counter[bytes]] = {}
    hanging = calls = 0

    def made_of(text: Text) -> Ran | None:
        return ran(program, "threads", text, "--places") if hanging < MOST_HANGING else None

    with ThreadPoolExecutor(SIDE_BY_SIDE) as pool:
        made = ((text, it) for batch in batches(tally, most, room) for text, it in zip(batch, pool.map(made_of, batch)))
        for text, it in itertools.takewhile(lambda it: it[1], made):
            why, its_calls = wrong_with(text, it)
            told = f"; its texts are kept in {keep(text, it)}" if why and len(tally.failed) < MOST_KEPT else ""
            tally.check(not why, f"{text.name}: {why}{told}")
            hanging, calls = hanging + (it.status is None), calls + its_calls
            texts.update({text.name: text} if len(texts) < MOST_TEXTS else {})
            reports.setdefault(text.name, Counter()).update([] if why else [it.output])
    tally.check(hanging < MOST_HANGING, "too many runs hang, so the others weren't made")
    several = [it for it in reports.values() if sum(it.values()) > 1]
    told = f"{len(several)} were run {sum(sum(it.values()) for it in several)} times, with {sum(map(len, several))} distinct reports"
    print(f"threads: {sum(sum(it.values()) for it in reports.values())} runs of {len(reports)} scenarios, {calls} calls; {told}")
    return texts, reports if hanging < MOST_HANGING else {}


def all_ops(tally: Tally, reports: dict[str, Counter[bytes]]) -> None:
    """Each op came, and succeeded."""
    came = {found.group(2, 3) for its in reports.values() for it in its for found in map(CALL.fullmatch, lines_of(it)) if found}
    for op in OPS:
        tally.check((op, "XR_SUCCESS") in came, f"{op} never succeeded")
    codes = {code for _, code in came}
    tally.check(len(codes) > 25, f"only {len(codes)} results came")


def one_report(tally: Tally, program: str, texts: list[Text]) -> None:
    """Where there is one report it is that of `serial`, and with places it is the same."""
    alone = [it for it in texts if is_of_one_report(it)][:25]
    for text in alone:
        serial, bare = ran(program, "serial", text), ran(program, "threads", text)
        placed = ran(program, "threads", text, "--places")
        same = (bare.status, bare.line) == (serial.status, serial.line) == (placed.status, placed.line)
        tally.check(same and bare.output == serial.output, f"{text.name}: its report isn't that of serial")
        tally.check(stripped(placed.output) == lines_of(bare.output), f"{text.name}: with places it is another report")
    tally.check(alone, "no text has just one report")


# ---- without threads

# nobody waits for another: no script and no device waits for a mark, one script alone has frames, three of them, and each of its
# images is waited for once
QUAD = '{"quad":"o","image":["c0",0,0,1,1],"pose":1}'
FRAME = ops_of(filled(f"{{BEGIN}}; {{IMAGE}}; {{END}} time=t layers=[{QUAD}]").replace("@", "5"))
ALONE = [*ops_of("{INSTANCE}; {SESSION}; {A_SPACE} as=o; {A_CHAIN} as=c0; {RUN}"), *FRAME * 3, *ops_of("6 {POLL}")]
BESIDE = ops_of("create_instance major=1 minor=1 as=i" + "; mark mark=40 value=0; string_to_path instance=0 text=/user/head" * 5)
NO_WAITS = [BESIDE, ALONE, *[BESIDE] * 6]
TELLS = ["wish focused", "grid 0 1000", "mark 3", "clock 5"]
NOBODY = 64_000


def lower(limit: int) -> None:
    """What a child does before it runs: it is somebody who has nothing, and has no more than so many threads. It doesn't come to run
    where it can begin one all the same that it may not have."""
    if os.geteuid() == 0:
        somebody = NOBODY + os.getppid() % 1000
        os.setgroups([])
        os.setresgid(somebody, somebody, somebody)
        os.setresuid(somebody, somebody, somebody)
    resource.setrlimit(resource.RLIMIT_NPROC, (limit, limit))
    with contextlib.suppress(RuntimeError):
        if limit == 1:
            threading.Thread(target=int).start()
            raise OSError("a thread began")


def without_threads(tally: Tally, program: str, room: Path) -> None:
    """With a few threads or none a run comes to its report, where nobody waits for another."""
    text, copied = made_text(room, "alone", NO_WAITS, TELLS), shutil.copy(program, room / "program")
    for file in (room, Path(copied), *room.glob("alone.*")):
        file.chmod(0o755)

    def made(form: str, limit: int) -> Ran:
        return ran(copied, form, text, "--places", preexec_fn=lambda: lower(limit))

    if made("serial", 1).status != 0:
        return print("threads: skipped: no limit on threads can be set here")
    for limit in (1, 1, *range(1, 12)):
        it = made("threads", limit)
        why, _ = wrong_with(text, it)
        tally.check(not why, f"with {limit - 1} threads more than its own: {why}")
        if limit == 1 and not why:
            blocks = [[call.place for call in calls] for calls in read_lines(it.output).actors.values()]
            in_one = all(places == [*range(places[0], places[0] + len(places))] for places in blocks)
            tally.check(in_one, "without threads the actors' calls don't come one actor's after another's")
    return None


# ---- faults


def faults(tally: Tally, program: str, room: Path) -> None:
    """What goes wrong outside ends as under `serial`."""
    fine = made_text(room, "fine", [BESIDE, BESIDE], ["clock 5", "mark 3"])
    garbled = made_text(room, "garbled", [BESIDE, BESIDE], ["clock 5", "clok 6", "mark 3"])
    (room / "folder").mkdir()
    (room / "wrong.json").write_text('{"version":1,"scripts":[[{"op":"await","mark":65}]]}', encoding="utf-8")
    for words, status, line in rows_of("ends_of_runs", 3):
        device = FAILED_DEVICE if "folder" in words else garbled.device if "garbled" in words else NO_DEVICE
        text = Text(words, fine.scripts, device, room, words.split())
        serial, it = ran(program, "serial", text, "--places"), ran(program, "threads", text, "--places")
        same = (it.status, it.line) == (serial.status, serial.line) and it.status == int(status) and line in ("", it.line.rstrip("\n"))
        tally.check(same, f"{words}: it ends with {it.status} and {it.line!r}, and serial with {serial.status}")
        why = wrong_with(text, it)[0] if int(status) in LINES else it.output
        tally.check(not why, f"{words}: {why!r}")
    for at in (">/dev/full", ">&-"):
        for form in ("serial", "threads"):
            shell = ["sh", "-c", f'exec "$0" "$@" {at}', program, form, *fine.words]
            it = run(shell, cwd=room)
            tally.same((it.returncode, it.stderr), (8, b"xrsim: cannot write\n"), f"{form} {at}")


def trials(tally: Tally, program: str, room: Path) -> None:
    """All of it, but for what needs many runs, or runs that don't hang."""
    given = sys.argv[2] if len(sys.argv) > 2 else str(RUNS)
    most = int(given) if given.isdecimal() else 0
    if not 0 < most <= MOST_RUNS:
        sys.exit(f"threads: RUNS is from 1 to {MOST_RUNS}")
    texts, reports = all_runs(tally, program, most, room)
    if not reports:
        return
    if most >= RUNS:
        all_ops(tally, reports)
        several = [(it, lines_of(report)) for it in texts.values() if len(it.scripts) > 1 for report in reports[it.name]]
        changed_reports(tally, "threads", several[:400], CHANGES)
    one_report(tally, program, list(texts.values()))
    without_threads(tally, program, room)
    faults(tally, program, room)


if __name__ == "__main__":
    main("threads", trials, more="[RUNS]")
