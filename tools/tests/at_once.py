"""at_once PROGRAM: what ./xrsim answers on a fresh clone, where nothing is built: --help, --version, words of no form and names of no file
as PROGRAM does, at once and without the toolchain, and all other words by building first. What differs is told, and the last line counts.
"""
from __future__ import annotations

import os
import shutil
from pathlib import Path

from helpers import CASES, ROOT, Ended, Tally, main, run, seconds_of

# what the script reads of a clone before it builds anything
READ = ("xrsim", "crates.txt", "HANDLES", "crates/xrsim/src/help.rt", "crates/xr_drive/src/explanation.rt")
# a toolchain that notes that it is asked, and builds nothing
TOOLCHAIN = "#!/bin/sh\necho asked >> {room}/asked\nexit 1\n"
MORE = (
    [], ["--help"], ["-h"], ["--version"], ["-V"], ["run", "--places"], ["--nonsense"], ["threads", "-h"], ["load", "--help"],
    ["serial", "--nonsense"], ["threads"], ["threads", "--device", "a"], ["threads", "a", "b"], ["threads", "--device=", "a"], ["serial", "a:--", "b"],
    ["threads", "nothing.json"], ["threads", "scenario.json", "--device", "nothing"], ["serial", "--device=nothing", "scenario.json"],
)
BUILT = b"xrsim: the program could not be built; "
# --help takes a tenth of a second; a busy machine has three times as much
LONGEST = 0.3


def fresh(room: Path) -> Path:
    """The script in a clone where nothing is built, and a toolchain for it."""
    for name in READ:
        (room / "clone" / name).parent.mkdir(parents=True, exist_ok=True)
        shutil.copy(ROOT / name, room / "clone" / name)
    (room / "bin").mkdir()
    (room / "bin/rt").write_text(TOOLCHAIN.format(room=room), encoding="utf-8")
    (room / "bin/rt").chmod(0o755)
    return room / "clone/xrsim"


def rows() -> list[tuple[bool, list[str]]]:
    """Words that cases have, and some more, and whether they are answered at once."""
    lines = [it.partition("\t") for it in (CASES / "words/rows").read_text(encoding="utf-8").split("\n") if it and it[0] != "#"]
    known = [(said.startswith(("help", "xrsim: usage: ", "xrsim: cannot open")), text.split("\t")) for said, _, text in lines]
    return known + [(True, words) for words in MORE]


def words(tally: Tally, program: str, room: Path) -> None:
    """Each row's words, and those that are answered at once behind --try too."""
    script, asked = fresh(room), room / "asked"
    for name in ("scenario.json", "device.txt"):
        (room / name).touch()
    path = {**os.environ, "PATH": f"{room}/bin:{os.environ['PATH']}"}

    def told(ran: Ended) -> tuple[int, bytes, bytes]:
        return ran.returncode, ran.stdout, ran.stderr

    for is_at_once, given in rows():
        ran = run([script, *given], cwd=room, env=path)
        if is_at_once:
            due = told(run([program, *given], cwd=room))
            tally.same(told(ran), due, f"xrsim {given}")
            tally.same(told(run([script, "--try", *given], cwd=room, env=path)), due, f"xrsim --try {given}")
        else:
            is_built = ran.returncode == 70 and BUILT in ran.stderr
            tally.check(is_built, f"xrsim {given} isn't built: {ran.returncode}, {ran.stderr!r}")
        tally.same(asked.exists(), not is_at_once, f"xrsim {given}: whether the toolchain is asked")
        asked.unlink(missing_ok=True)
    took = seconds_of(lambda: run([script, "--help"]), LONGEST)
    tally.check(took < LONGEST, f"xrsim --help takes {took:.2f} s where nothing is built")


if __name__ == "__main__":
    main("at_once", words)
