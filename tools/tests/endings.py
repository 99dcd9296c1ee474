"""endings PROGRAM: how the tools end with words that have no form, with files that can't be read, with outputs that are full or
closed, and at Ctrl-C: in one line and with a status that isn't 0. The program makes what tools/expect compares. What differs is
told, and the last line counts.
"""
from __future__ import annotations

import contextlib
import os
import signal
import subprocess
import sys
from pathlib import Path

from helpers import EXAMPLES, TOOLS, Tally, fake_program, main, rows_of, scenario_of, sessions, tool

# tools with words by which they read all of standard input; tools/expect reads what the program says instead
READING = (
    ("report", "--json -"),
    ("legal", "- {places}"),
    ("timeline", "- -o {room}/late.html"),
    ("check", "/dev/stdin"),
    ("run", "/dev/stdin"),
    ("orders", "/dev/stdin"),
    ("why", "/dev/stdin"),
    ("dump", "/dev/stdin"),
    ("coverage", "/dev/stdin"),
    ("reduce", "/dev/stdin --stuck -o {room}/less"),
    ("expect", "{life}"),
)

# what is said of an output that is full, and of one that is closed
UNWRITTEN = "standard output can't be written: "
OUTPUTS = {"timeline": ("cannot write: ", "cannot write: it is closed"), "check": (UNWRITTEN, UNWRITTEN)}
ALL_TOOLS = ("run", "check", "why", "orders", "dump", "coverage", "reduce", "expect", "report", "timeline", "legal")
TOOLS_WITH_WORDS = ("timeline", ""), ("timeline", "--png"), ("report", ""), ("legal", ""), ("expect", ""), ("check", "")
# a first frame whose begin waits for the other script: it hangs where its wait comes first, or in each order
FIRST = "await mark=9; {INSTANCE}; {SESSION}; {RUN}; mark mark=1 value=s"
HANGING = (
    ("some", f"{FIRST}; wait_frame session=s; await mark=2; begin_frame session=s / await mark=1 as=s; {{BEGIN}}; mark mark=2"),
    ("each", f"{FIRST}; wait_frame session=s; await mark=3; begin_frame session=s / await mark=1 as=s; {{BEGIN}}; mark mark=2"),
)


def named(room: Path) -> dict[str, Path]:
    """What the words of the tables name."""
    files = {"life": "life.json", "device": "life.device", "report": "life.report", "row1": "row1.json"}
    files.update(threads="threads.json", threads_device="threads.device", places="threads.places")
    return {**{name: EXAMPLES / it for name, it in files.items()}, "room": room, "none": room / "none"}


def words_in(words: str, room: Path) -> list[str]:
    return words.format_map(named(room)).split()


def wrong_words(tally: Tally, program: str, room: Path) -> None:
    """Words without form, and files that can't be read."""
    for name, words, front in rows_of("wrong_words"):
        tally.complains(f"{name} {words}", tool(name, words_in(words, room)), f"{name}: {front.format_map(named(room))}")
    no_utf = "expect: \\udcff.json can't be read: there is no such file"
    tally.complains("a name that isn't UTF-8", tool("expect", [b"\xff.json"]), no_utf)


def checked(tally: Tally, program: str, room: Path) -> None:
    """The words that tools/check takes."""
    waits = '{"op":"wait_frame","session":0}'
    awaits = '[{"op":"await","mark":1}]'
    texts = {"a.json": "[]", "serial": "[],[]", "awaits.json": awaits, "beside.json": awaits, "frames.json": f"[{waits},{waits}]"}
    texts["long.json"] = f"[{','.join([waits] * 20_000)}],{texts['frames.json']}"
    scenarios = {name: f'{{"version":1,"scripts":[{text}]}}' for name, text in texts.items()}
    scenarios.update((f"{name}.json", scenario_of(text)) for name, text in HANGING)
    for name, text in scenarios.items():
        (room / name).write_text(text)
    for name, text in (("a", "mark 65"), ("beside", "mark 1"), ("ready", "wish ready\nmark 9"), ("garbled", "wish ready\nmark 9\nmark 65")):
        (room / f"{name}.device").write_text(f"{text}\n")
    (room / "full").mkdir()
    for words, status, said in rows_of("checked_words"):
        tally.ends(f"check {words}", tool("check", words.split(), cwd=room), status, said)


def forgotten(tally: Tally, program: str, room: Path) -> None:
    """A device that isn't given is told where it is what a run waits for."""
    (room / "awaits.json").write_text(scenario_of("await mark=1"), encoding="utf-8")
    (room / "crossed.json").write_text(scenario_of("await mark=1; mark mark=2 / await mark=2; mark mark=1"), encoding="utf-8")
    for words, status, said in rows_of("forgotten"):
        name, *given = words.format(examples=EXAMPLES, room=room).split(" ")
        ran, wanted = tool(name, given), said.format(examples=EXAMPLES, room=room)
        told = (ran.stdout + ran.stderr).decode()
        is_good = wanted[1:] not in told if wanted[0] == "!" else wanted in told
        tally.check(is_good and ran.returncode == int(status), f"{words}: status {ran.returncode}, {told[-600:]!r}")


def same_words(tally: Tally, program: str, room: Path) -> None:
    """Each tool's help shows its words, files before options, and examples in that order; a report is taken before its scenario too."""
    for name in ALL_TOOLS:
        lines = [it.replace("usage: ", "").strip() for it in tool(name, ["--help"]).stdout.decode().split("\n")]
        shown = [it.split(" ") for it in lines if it.startswith(f"tools/{name} ")]
        tally.check(len(shown) > 1, f"{name} --help has no usage or no example")
        # `legal --strip REPORT` has no other file
        wrong = [it for it in shown if it[1].lstrip("[").startswith("--") and it[1] != "--strip"]
        tally.check(not wrong and not shown[0][1].startswith("-"), f"{name} --help has options before files: {wrong}")
    files = EXAMPLES / "threads.json", EXAMPLES / "threads.places"
    device = ["--device", EXAMPLES / "threads.device"]
    for name, more in (("timeline", []), ("timeline", ["--svg"]), ("report", []), ("report", ["--json"])):
        printed = [tool(name, words).stdout for words in ([*files, *more], [*more, *files[::-1]], [files[1], *more, files[0]])]
        tally.check(printed[0] and len(set(printed)) == 1, f"{name} {more}: the order of its words changes what is printed")
    named = tool("report", [files[1], "--scenario", files[0]]).stdout
    tally.same(named, tool("report", files).stdout, "report --scenario")
    for words in ([*files, *device], [files[0], *device, files[1]], [*device, *files]):
        tally.same(tool("legal", words).stdout, b"legal: 55 calls, 2 frames\n", f"legal {words}")


def from_input(tally: Tally, program: str, room: Path) -> None:
    """What is read from standard input is what a file would be."""
    sessions(tally, "inputs", room)


def outputs(tally: Tally, program: str, room: Path) -> None:
    """Outputs that are full or closed, or that nobody reads, and a standard input that is closed; a --help has examples."""
    for name, words in rows_of("good_words"):
        what, given = f"{name} {words}", words_in(words, room)
        full, closed = (f"{name}: {it}" for it in OUTPUTS.get(name, (UNWRITTEN, "standard output is closed")))
        for redirection, front in ((">/dev/full", full), (">&-", closed)):
            tally.complains(f"{what} {redirection}", tool(name, given, shell=f'"$@" {redirection}'), front)
        for redirection in ("2>&-", "2>/dev/full", "<&-"):
            ran = tool(name, given, shell=f'"$@" {redirection}')
            has_words = b"examples:" in ran.stdout if words == "--help" else ran.stdout
            is_good = ran.returncode == 0 and has_words and not ran.stderr
            tally.check(is_good, f"{what} {redirection}: status {ran.returncode}, {ran.stderr!r}")
        reader, writer = os.pipe()
        os.close(reader)
        ran = tool(name, given, stdout=writer)
        os.close(writer)
        is_told = ran.stderr.startswith(full.encode()) and ran.stderr.count(b"\n") == 1 or name == "check" and not ran.stderr
        tally.check(ran.returncode == 2 and is_told, f"{what} into a closed pipe: {ran.returncode}, {ran.stderr!r}")
    for name, words in TOOLS_WITH_WORDS:
        for redirection in ("2>&-", "2>/dev/full"):
            ran = tool(name, words_in(words, room), shell=f'"$@" {redirection}')
            tally.same((ran.returncode, ran.stderr), (2, b""), f"{name} {words} {redirection}")


def interrupted(tally: Tally, program: str, room: Path) -> None:
    """Ctrl-C ends a tool that reads, and the program that it runs; it says so in one line and has written nothing."""
    given = fake_program(room, f"echo $$ > {room}/begun; echo one >&2; echo two >&2\nexec sleep 60")
    before = sorted([*os.listdir(room), "begun"])
    for name, words in READING:
        command, pipe = [sys.executable, TOOLS / name, *words_in(words, room)], subprocess.PIPE
        with subprocess.Popen(command, stdin=pipe, stdout=pipe, stderr=pipe, **given) as begun:
            # the first line is passed on once the second is there, so the tool waits for a third
            passed_on = begun.stderr.readline() if name == "expect" else b"one\n"
            # this is more than a pipe holds, so any other tool reads when it is written
            begun.stdin.write(b" " * 500_000 * (name != "expect"))
            begun.stdin.flush()
            # a signal between two reads of a pipe is seen only behind the second, so it comes until the tool has ended
            while begun.poll() is None:
                begun.send_signal(signal.SIGINT)
                with contextlib.suppress(subprocess.TimeoutExpired):
                    begun.wait(1)
            said = passed_on + begun.stderr.read()
        tally.same((begun.returncode, said), (130, f"one\n{name}: interrupted\n".encode()), f"Ctrl-C: {name}")
    is_left = Path("/proc", (room / "begun").read_text(encoding="utf-8").strip()).exists()
    tally.check(not is_left, "Ctrl-C: the program goes on")
    tally.same(sorted(os.listdir(room)), before, "Ctrl-C: what is written")


if __name__ == "__main__":
    main("endings", wrong_words, checked, forgotten, same_words, from_input, outputs, interrupted)
