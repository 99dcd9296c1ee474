"""memory PROGRAM [WORD]: tries that no call of the core takes memory but string_to_path of a new text and suggest_bindings, and that all
memory is given back.

A row of tables/memory.json (those whose name has WORD, where it is given) repeats ops and device lines on a machine that is full.

1. On one thread its text is run twice, as far as the gate before the repeated calls and through it: the gate is an await, and only its
   mark differs, which is set or never set. So all that is read is the same, and what is taken more is taken by the calls.
2. On threads it is run with its ops and without them, and what the first thread takes, which reads the texts, isn't counted; and so with
   its lines and without them, where all is counted, as only the device's text differs.
3. `leave` comes once a script: eight scripts leave, or wait for ever.
4. At the end of each run as much memory is left as at the end of a run of no calls.

It is counted by a small library of C (allocations.py).
"""
from __future__ import annotations

import json
import os
import subprocess
import sys
from collections import namedtuple
from concurrent.futures import ThreadPoolExecutor
from functools import lru_cache

from allocations import counts_in, make_shim, outside
from helpers import NAMED, TABLES, calls_of, filled, main, ops_of, run, scenario_of

REPEATS, ATOMS, LONGEST = 400, 1024, 600
# What a run takes by itself: its lists double, and so do the bytes of the report. They are the calls of two scripts, the
# device's events and calls, and the compositor's frames, replies and give-backs. A list of 8,192 has doubled 14 times at
# most, a report of 1,048,576 bytes 21 times: 119 in all, where a call that takes memory each second time takes it 200 times.
BOUND = 119
STUCK = 7
SHUT, OPEN, TOLD, FILLED, READY, BEGUN = 64, 63, 62, 61, 60, 59
SERIAL, THREADS = "serial", "threads"
# On threads a stack that another thread had is used again with what was taken for it, or is not; so one of ten threads may leave more,
# and two runs may differ by so much.
MOST_LEFT = 40
CHAINS = [f"c{number:x}" for number in range(16)]


def compact(value):
    return json.dumps(value, separators=(",", ":"))


def quads(chains, **wrong):
    return [{"quad": "o", "image": [chain, 0, 0, 1, 1], "pose": 1, **wrong} for chain in chains]


VIEWS = {"projection": "o", "views": [["c1", 0, 0, 1, 1], ["c2", 0, 0, 1, 1]]}
WRONG_LAYERS = (
    (quads([0]), "HANDLE_INVALID"), (quads(["c1"], quad=0), "HANDLE_INVALID"), (quads(["c0"]), "LAYER_INVALID"),
    ([{**VIEWS, "views": []}], "VALIDATION_FAILURE"), (quads(["c1"], image=["c1", 0, 0, 2, 1]), "SWAPCHAIN_RECT_INVALID"),
    (quads(["c1"], pose=0), "POSE_INVALID"), (quads(["c0"] * 17), "LAYER_LIMIT_EXCEEDED"))
NAMED["ALL_SETS"] = compact([f"e{number}" for number in range(15)] * 2 + ["d", "d"])
NAMED["ALL_QUADS"], NAMED["PAIRS_97"], NAMED["PAIRS_513"] = (compact(it) for it in (quads(CHAINS), [[0, 0]] * 97, [[0, 0]] * 513))
NAMED["WRONG_FRAMES"] = "".join(filled(f"{{END}} time=1 layers={compact(layers)} !{code}; ") for layers, code in WRONG_LAYERS)
# the compositor gives back an image a turn, and that of c0 last: it is still used when it is waited for
LATE = f"{{BEGIN}}; {{END}} time=t layers={compact(quads(CHAINS[1:] + CHAINS[:1]))}; {{IMAGE}}; {{IMAGE}}; acquire_image chain=c0; "
LATE += "wait_image chain=c0 timeout=0 +TIMEOUT_EXPIRED; wait_image chain=c0 timeout=inf; release_image chain=c0"
NAMED["LATE"] = filled(LATE)


# What is repeated: ops of the first script (as calls_of in helpers.py reads them) and lines of the device, in which @ is the
# number of the repetition. A repetition takes memory `takes` times, and is seen to. The full machine is first brought into another
# state, by the device's lines `earlier` and then by the ops `before`; beside what is repeated so many `frames` are made. For
# path_to_string the core takes none: the run keeps the bytes that were written to the one buffer that it lends. Where results depend on
# whose turn is next (`races`) they aren't looked at on threads.
Row = namedtuple("Row", "name ops lines result takes earlier before frames atoms repeats races",
                 defaults=("", "", "+SUCCESS", 0, "", "", 30, ATOMS, REPEATS, False))


def rows_in(file):
    """The rows of a table. A list has the ops of a text."""
    for row in json.loads(file.read_text(encoding="utf-8")):
        texts = {key: "; ".join(it) if isinstance(it, list) else it for key, it in row.items()}
        yield Row(**{key: filled(it) if isinstance(it, str) else it for key, it in texts.items()})


ROWS = list(rows_in(TABLES / "memory.json"))
PATHS = dict(left="/user/hand/left", right="/user/hand/right", head="/user/head", gamepad="/user/gamepad",
             treadmill="/user/treadmill", select="/user/hand/left/input/select/click", pressed="/user/gamepad/input/a/click",
             menu="/user/hand/left/input/menu/click", touched="/user/hand/left/input/x/click")
PROFILES = {"simple": ("khr/simple_controller", "select"), "touch": ("oculus/touch_controller", "touched"),
            "vive": ("htc/vive_controller", "menu"), "xbox": ("microsoft/xbox_controller", "pressed")}
ORIGINS = ["view", "local", "stage", *(f"/user/hand/{hand}/input/{pose}/pose" for hand in ("left", "right") for pose in ("grip", "aim"))]


@lru_cache(None)
def filling(atoms):
    """The ops that fill a machine: names are as long as they may be, and each swapchain has an image that was released.
    Of those but the first and the last, which is static, another image is waited for and the third acquired."""
    texts = ["{INSTANCE}; {SESSION}; {RUN}; {FRAME}"]
    named = {**PATHS, **{name: f"/interaction_profiles/{path}" for name, (path, _) in PROFILES.items()}}
    texts += [f"string_to_path instance=i text={text} as={name}" for name, text in named.items()]
    texts += [f"string_to_path instance=i text=/fill/{number}" for number in range(atoms - len(named))]
    texts.append("{A_SPACE} as=o; {A_SPACE} as=x; 62 {A_SPACE}")
    for name in CHAINS:
        image = NAMED["IMAGE"].replace("c0", name).replace("@", "1")
        texts.append(f"create_swapchain session=s format=1 width=1 height=1 static={compact(name == CHAINS[-1])} as={name}; {image}")
        if name in CHAINS[1:-1]:
            texts += [image.partition("; paint")[0], f"acquire_image chain={name}"]
    texts += [f"{{SET}} name={number:0>63} localized={number:0>127} as=e{number}" for number in range(15)]
    kinds, users = ("boolean", "float", "vector", "pose", "vibration"), compact(list(PATHS)[:5])
    texts += [f"create_action set=e{number % 15} name={number:0>63} localized={number:0>127} as=q{number} subactions={users} "
              f"type={kinds[number % 5]}" for number in range(63)]
    texts.append("{A_SET}; {AN_ACTION}")
    for name, (_, path) in PROFILES.items():
        bindings = compact([["b" if number % 8 else f"q{number % 60 // 5 * 5}", path] for number in range(512)])
        texts.append(f"suggest_bindings instance=i profile={name} bindings={bindings}")
    given = {1: "s", 2: "o", 33: "left", **dict(enumerate(CHAINS, 3))}
    return ops_of("; ".join(texts + [f"mark mark={mark} value={given.get(mark, 0)}" for mark in range(1, READY)]))


def scripts_of(row, gate, repeats, last):
    """The scripts of a row, and how many ops stand before the repeated ones. The first script fills the machine and repeats
    ops, the second makes frames beside it, so that three are pending and one is held, and six wait for the last mark."""
    begun = ops_of(f"await mark={BEGUN}")
    first = [*begun, *filling(row.atoms), *ops_of(f"await mark={TOLD}; mark mark={FILLED}; await mark={READY}; {row.before}; "
                                                  f"mark mark={OPEN}; await mark={gate}")]
    frame = f"{{BEGIN}}; {{END}} time=t layers={compact(quads(CHAINS[1:]) + [VIEWS])}"
    shared = "; ".join(f"await mark={mark} as={name}" for mark, name in enumerate(["s", "o", *CHAINS], 1))
    second = ops_of(f"{shared}; await mark={gate}") + ops_of(frame) * row.frames
    repeated = [op for number in range(repeats) for op in ops_of(row.ops.replace("@", str(1000 + number)))]
    return [first + repeated, second, *[ops_of(f"await mark={last}")] * 6], len(first)


def device_of(row, gate, repeats):
    """The lines of the device: those that fill a machine, and those that are repeated."""
    told = ["stage on", "wish focused", f"mark {BEGUN}", *(f"pose {origin} {101 + time} 7" for origin in ORIGINS for time in range(16))]
    told += ["await 1", *NAMED["WISHES"].split("; ") * 20, f"mark {TOLD}", f"await {FILLED}", row.earlier, f"mark {READY}"]
    repeated = [line.replace("@", str(1000 + number)) for number in range(repeats) for line in row.lines.split("; ")]
    return list(filter(None, [*told, f"await {gate}", *repeated]))


# how often memory was taken in a run, of how much it wasn't given back, and what was printed
Counted = namedtuple("Counted", "taken left report")


def counted(program, room, name, form, scripts, device, status, beside=False):
    """What a run takes, which ends with this status."""
    scenario, told, count = (room / f"{name}.{kind}" for kind in ("json", "device", "count"))
    scenario.write_text(scenario_of(scripts), encoding="utf-8")
    told.write_text("\n".join(device), encoding="utf-8")
    ran = run([program, form, scenario, "--device", told], env=outside(f"{room}/shim.so", count=str(count), beside=beside), timeout=LONGEST)
    if ran.returncode != status:
        raise RuntimeError(f"{form}: the run ends with {ran.returncode} and not {status}: {ran.stderr.decode(errors='replace')}")
    taken, left = counts_in(str(count))
    if taken == 0:
        raise RuntimeError(f"{form}: no malloc, calloc or realloc was counted, so nothing is known of the memory that it takes")
    return Counted(taken, left, ran.stdout.decode())


def unlike(row, report):
    """The first repeated call that has another result than its row says, or isn't there."""
    head, _, device = report.partition("\ndevice\n")
    made = {line.split(" ")[0]: line for line in head.partition("\nthread 2\n")[0].splitlines()}
    wanted = [said for _, said in calls_of(row.ops, row.result)] * row.repeats
    for place, said in enumerate(wanted, scripts_of(row, OPEN, 0, SHUT)[1] + 1):
        if not f"{made.get(str(place))} ".startswith(f"{place} {said} "):
            return f"{said} is awaited, and there is {made.get(str(place))}"
    last = len(device_of(row, OPEN, row.repeats))
    return "" if f"\n{last} " in device else f"line {last} of the device isn't told"


def amount(row, more, due=0, apart=0):
    """What is wrong where so much more was taken by the repeated calls, which take as much as is due, and two runs may differ by so much."""
    least, most = due - apart, due + BOUND
    is_fit = more <= most and (more >= least or not row.takes)
    return "" if is_fit else f"memory was taken {more} times in {row.repeats} repetitions, and not {least} to {most} times"


def wrong_on_one(program, room, row, left):
    """What is wrong of a row on one thread, where so much memory is left at the end of a run of no calls."""
    tries = [counted(program, room, f"{ROWS.index(row)}-{gate}", SERIAL, scripts_of(row, gate, row.repeats, SHUT)[0],
                     device_of(row, gate, row.repeats), STUCK) for gate in (SHUT, OPEN)]
    yield unlike(row, tries[1].report)
    yield amount(row, tries[1].taken - tries[0].taken, row.takes * row.repeats)
    yield from (f"memory is left {it.left} times, and {left} is due" for it in tries if it.left != left)


def wrong_on_threads(program, room, row, left):
    """What is wrong of a row on threads, where so much memory is left at the end of a run of no calls."""
    name, last = f"{ROWS.index(row)}-threads", READY

    def made(ops, lines, beside):
        return counted(program, room, name, THREADS, scripts_of(row, OPEN, ops, last)[0], device_of(row, OPEN, lines), 0, beside)

    whole = made(row.repeats, row.repeats, True)
    yield "" if row.races else unlike(row, whole.report)
    yield amount(row, whole.taken - made(0, row.repeats, True).taken, row.takes * row.repeats, MOST_LEFT)
    if row.lines:
        yield amount(row, made(row.repeats, row.repeats, False).taken - made(row.repeats, 0, False).taken)
    yield "" if abs(whole.left - left) <= MOST_LEFT else f"memory is left {whole.left} times, and {left} is due"


def wrong_in(program, room, left, row):
    """What is wrong in a row, if anything is."""
    try:
        found = [*wrong_on_one(program, room, row, left[SERIAL])]
        found += [f"threads: {it}" for it in wrong_on_threads(program, room, row, left[THREADS]) if it]
    except (RuntimeError, OSError, subprocess.TimeoutExpired) as why:
        return f"{row.name}: {str(why)[:400]}"
    return "; ".join(f"{row.name}: {it}" for it in found if it)


def left_of(program, room):
    """How much memory is left at the end of a run of no calls but eight leaves, in each form."""
    return {form: counted(program, room, f"none-{form}", form, [[]] * 8, [], 0).left for form in (SERIAL, THREADS)}


def rows(tally, program, room):
    """Each row takes memory as often as it says, and gives all of it back."""
    make_shim("memory", str(room))
    left, chosen = left_of(program, room), [row for row in ROWS if "".join(sys.argv[2:]) in row.name]
    with ThreadPoolExecutor(os.cpu_count()) as pool:
        for wrong in pool.map(lambda row: wrong_in(program, room, left, row), chosen):
            tally.check(not wrong, wrong)


def leaves(tally, program, room):
    """Eight scripts leave, or wait for ever: what is taken more is less than once a script."""
    scripts = [ops_of(f"5 mark mark=1; await mark={OPEN}")] * 8
    taken = [counted(program, room, f"leaves-{mark}", SERIAL, scripts, [f"mark {mark}"], status).taken for mark, status in ((SHUT, STUCK), (OPEN, 0))]
    tally.check(taken[1] - taken[0] < len(scripts), f"leave: memory was taken {taken[1] - taken[0]} times by {len(scripts)} scripts")


if __name__ == "__main__":
    main("memory", rows, leaves, more="[WORD]")
