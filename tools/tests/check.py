"""check PROGRAM: whether tools/check says what it should in words, columns, lines of JSON and statuses, and in time.

It is run over texts that are made here: those that are legal and still suspicious, with the place of each warning; wrong ones,
with what has to be said of them; and long ones. What differs is told, and the last line counts.
"""
from __future__ import annotations

import json
import re
from pathlib import Path

from helpers import EXAMPLES, Tally, main, places_of, rows_of, scenario_of, seconds_of, tool, with_device

EMPTY = scenario_of("")
WARNING = re.compile(r"^(a\.\w+):([0-9]+):([0-9]+): warning: (.*)$", re.M)
LOOKS = re.compile(r"^a\.(?:json|device):.*(?:looks like|encoding of single bytes, as) (UTF-16|a binary file|Latin-1)", re.M)
# what other files look like
BINARIES = (
    (b"\x7fELF\x02\x01\x01" + b"\0" * 9 + b"\x03\0\x3e\0\x01\0\0\0\xd0\x6d\0\0\0\0\0\0", "a binary file"),
    (b"\0" * 64, "a binary file"),
    (b"\x89PNG\r\n\x1a\n\0\0\0\rIHDR\0\0\x04\0\0\0\x02\0\x08\6\0\0\0", "a binary file"),
    *((EMPTY.encode(codec), "UTF-16") for codec in ("utf-16", "utf-16-le", "utf-16-be")),
    ('{"é":"日本"}'.encode("utf-16"), "UTF-16"),
    ("{\u00e9}".encode("latin-1"), "Latin-1"),
)
# ops that are repeated in scenarios of 1 MiB behind those that stand before them: single calls, frames with layers, and bindings
QUADS = ",".join(['{"quad":0,"image":[0,0,0,8,8],"pose":1}'] * 4)
BINDINGS = ",".join(['["p",12345678]'] * 500)
LONG_SCENARIOS = (
    ("{INSTANCE}", "{POLL}"),
    ("{INSTANCE}; {SESSION}", f"{{BEGIN}}; {{END}} time=t layers=[{QUADS}]"),
    ("{INSTANCE}; {A_SET}; {A_POSE}", f"suggest_bindings instance=i profile=1 bindings=[{BINDINGS}]"),
)
# lines that are repeated in texts of a device of 16 MiB: one event, and several
LONG_DEVICES = ("mark 1\n", "clock 123456789\n", "# a\npose view 1 5\nclock 5\nwish ready\nmark 1\n\nloss\nawait 1\n")


def checked(room: Path, scenario: str | None, device: str | None = "-", *words: str) -> tuple[int, str]:
    """The status of the tool over these texts, or over those that were written before, and what it said."""
    for name, text in (("a.json", scenario), ("a.device", device)):
        if text not in (None, "-"):
            (room / name).write_text(text, encoding="utf-8")
    ran = tool("check", [*words, "a.json", *(["--device", "a.device"] if device != "-" else [])], cwd=room)
    return ran.returncode, ran.stdout.decode()


def suspicious(tally: Tally, program: str, room: Path) -> None:
    """Compares the warnings of each text, for people and for programs, and the status."""
    for scripts, told, *said in rows_of("suspicious"):
        # a ^ stands before a value or a key, and not in it
        marked = re.sub(r'"\^(\d+)"', r"^\1", scenario_of(scripts)).replace('"^', '^"')
        texts = marked.replace("^", ""), told.replace("^", "")
        wanted = [("a.json", *it) for it in places_of(marked)] + [("a.device", *it) for it in places_of(told)]
        (status, shown), (json_status, as_json) = (checked(room, *texts, "--lint", *words) for words in ([], ["--json"]))
        found = WARNING.findall(shown)
        is_same = [(file, int(line), int(column)) for file, line, column, _ in found] == wanted
        has_words = len(found) == len(said) and all(one in it[3] for one, it in zip(said, found))
        lines = [json.loads(it) for it in as_json.splitlines()]
        is_told = [(it["file"], str(it["line"]), str(it["column"]), it["words"]) for it in lines if it["kind"] == "warning"] == found
        answer = f"ends with status {lines[-1]['status']} and says {lines[-1]['says']}"
        is_answer = answer.strip() in shown.replace("on standard error: ", "").replace("nothing on standard error", "")
        is_good = is_same and has_words and is_told and is_answer and status == json_status == (3 if said else 0)
        quiet_status, quiet = checked(room, *texts)
        is_quiet = quiet_status == 0 and ("warning" in quiet) == ("once more" in str(said))
        tally.check(is_good and is_quiet, f"--lint says {status} {shown!r} of {marked} {told!r}")


def examples(tally: Tally, program: str, room: Path) -> None:
    """No example is suspicious, and what its expectations don't expect to be refused is told."""
    for file in sorted(EXAMPLES.glob("*.json")):
        said = tool("check", ["--lint", *with_device(file)]).stdout.decode()
        tally.check("warning: " not in said, f"{file.name}: {said!r}")
    (room / "a.expect").write_text("1 2 XR_ERROR_API_VERSION_UNSUPPORTED\n1 3 XR_SUCCESS\n", encoding="utf-8")
    _, said = checked(room, scenario_of("3 create_instance major=2 minor=0"), "-", "--lint")
    tally.same([line for _, line, *_ in WARNING.findall(said)], ["1", "3"], "which refusals are told beside a file of expectations")
    # a refused call gives a name too, and nothing is lost where that is given again
    (room / "a.expect").write_text("1 3 XR_ERROR_LIMIT_REACHED\n", encoding="utf-8")
    _, said = checked(room, scenario_of("{INSTANCE}; {SESSION}; 3 {A_SPACE} as=p"), "-", "--lint")
    (room / "a.expect").unlink()
    told = [(line, "nothing names" in words) for _, line, _, words in WARNING.findall(said)]
    tally.same(told, [("4", False), ("5", True)], "which names are told beside a file of expectations")


def counts(tally: Tally, program: str, room: Path) -> None:
    """A mark is told once, and no more than a hundred warnings are."""
    _, said = checked(room, scenario_of("40000 await mark=1"), "-", "--lint")
    tally.same(said.count("warning: "), 1, "--lint: the warnings for one mark")
    _, said = checked(room, scenario_of("{INSTANCE}; 20000 end_session session=i"), "-", "--lint")
    is_good = said.count("warning: ") == 100 and "19900 more warnings can be given" in said
    tally.check(is_good, "--lint doesn't stop at 100 warnings, or doesn't say how many are left")
    status, said = checked(room, scenario_of("{INSTANCE}; 3000 create_session instance=i system=1 as=i"), "-", "--lint")
    tally.same((status, said.count("warning: ")), (3, 100), "--lint: a name that is given again by the call that uses it")


def wrong(tally: Tally, program: str, room: Path) -> None:
    """Compares what is said of wrong texts."""
    texts = [('{"version":1,"scripts":[[%s]]}' % ops, said) for ops, said in rows_of("wrong_ops")] + rows_of("broken")
    rows = [("a.json", it, "", said) for it, said in texts] + [("a.device", EMPTY, it, said) for it, said in rows_of("garbled")]
    for file, scenario, device, said in rows:
        status, told = checked(room, scenario.replace("^", ""), device.replace("^", ""))
        line, column = places_of(device or scenario)[0]
        found = re.search(rf"^{file}:{line}:{column}: .*(?:\n  .*)*", told, re.M)
        is_good = found is not None and said in found[0] and status == 1 and told.count(f"{file}:") <= 2
        tally.check(is_good, f"of {(device or scenario)[-100:]!r} is said {told!r}")


def binaries(tally: Tally, program: str, room: Path) -> None:
    """What other files look like, as a scenario and as a device's text."""
    for text, looks in BINARIES:
        for name in ("a.json", "a.device"):
            (room / name).write_bytes(text)
        times = 1 if looks == "Latin-1" else 2
        tally.same(LOOKS.findall(checked(room, None, None)[1]), [looks] * times, f"what is said of {text[:20]!r}")


def times(tally: Tally, program: str, room: Path) -> None:
    """1 MiB of a scenario is read in less than a second, and 16 MiB of a device's text in less than two."""
    for start, ops in LONG_SCENARIOS:
        size = len(scenario_of(ops)) - len(EMPTY) + 3
        text = scenario_of(f"{start}; " + "; ".join([ops] * ((1_048_576 - 500) // size)))
        taken = seconds_of(lambda: checked(room, text), 1)
        tally.check(taken < 1, f"a scenario of {len(text)} bytes of {ops[:40]} takes {taken:.2f} s")
    for lines in LONG_DEVICES:
        taken = seconds_of(lambda: checked(room, scenario_of("{INSTANCE}; {SESSION}"), lines * (16_777_216 // len(lines))), 2)
        tally.check(taken < 2, f"a device's text of {lines!r} takes {taken:.2f} s")


if __name__ == "__main__":
    main("check", suspicious, examples, counts, wrong, binaries, times)
