"""rows.py: tries tools/rows on copies of the files that it writes: each table changed by hand, changed rows, marks that are missing or doubled.

The first failures are told, and the last line counts. Needs Python 3.9 or later.
"""
from __future__ import annotations

import contextlib
import io
import runpy
import tempfile
from pathlib import Path

from helpers import ROOT, Tally, end

ended = runpy.run_path(str(ROOT / "tools/rows"))["ended"]
from calls import ops_in_format, ops_in_reports, table_of  # noqa: E402
from tabling.tables import REPORT, SCENARIO, all_tables  # noqa: E402

TABLE, HELP = "tools/calls.table", "crates/xrsim/src/help.rt"
NAMES, GROUPS = "crates/xr_types/src/names.rt", "crates/xr_core/specs/inside/Groups.antt"
# texts of files that are replaced by others, the status of --check then, and words that it says
CHANGES = (
    (TABLE, "| space:handle  ", "| room:handle  ", 1,
     "scenario.rt: the ops: line ", "Op.antt: call_name: line ", f"{SCENARIO}: properties of op_destroy_space"),
    (TABLE, "inner uncounted", "inner | uncounted", 2, TABLE, "columns"),
    (TABLE, "inner uncounted", "inner", 1, "call_kinds.rt: the counted", "CallKinds.antt: is_locked", "2 differed"),
    (TABLE, "paint                  |", "draw                   |", 2, "no call paint"),
    (TABLE, "poll_event             |", "next_event             |", 2,
     "names.rt: names written", f"{REPORT}: ops of calls", "no key op_next_event", "no op for op_poll_event"),
    (TABLE, "| space:handle ", "| space:home ", 2, TABLE, "no sort home"),
    (TABLE, "| space:handle ", "| space ", 2, TABLE, "no field: space"),
    (TABLE, "\n[core]\n", "\n[cores]\n", 2, TABLE, "no part [cores]"),
    (TABLE, "destroy_space  ", "locate_space  ", 2, TABLE, "the call locate_space stands twice"),
    (TABLE, "| getter\n", "| getting\n", 2, TABLE, "unknown words: getting"),
    (TABLE, "| space_call       |", "| room_call |", 2, TABLE, "no function room_call"),
    (TABLE, "| space    |", "| room |", 2, TABLE, "no group room"),
    (NAMES, "    // rows: the names\n", "    // rows: no such\n    // rows: end\n    // rows: the names\n", 2,
     f"{NAMES}: there is no table for the mark 'rows: no such'"),
    (GROUPS, "-- rows: end", "-- rows: end\n-- rows: end", 2, f"{GROUPS}: there is a mark 'rows: end' too much"),
    (HELP, "These ops are run:", "These are run:", 2, f"{HELP}: the ops: 'These ops are run:' stands 0 times"),
    (HELP, "These ops are run:", "These ops are run: These ops are run:", 2, f"{HELP}: the ops: 'These ops are run:' stands 2 times"),
    (SCENARIO, '"op_paint": {', '"op_draw": {', 2, f"{SCENARIO}: properties of op_paint: there is no key op_paint", "no op for op_draw"),
    (SCENARIO, '"op_paint": {', '"op_mark": {', 2, "required of op_mark: its key op_mark stands 2 times"),
    (REPORT, "{", "", 2, f"{REPORT}: ops of calls: "),
)


TABLES = all_tables(table_of((ROOT / TABLE).read_text(encoding="utf-8")))
KEPT = {file: (ROOT / file).read_text(encoding="utf-8") for file in [TABLE, *(it.file for it in TABLES)]}


class Room(Tally):
    """A copy of the files that tools/rows reads, and what held of it."""

    def __init__(self, folder: Path):
        super().__init__()
        self.folder, self.stale = folder, KEPT

    def run(self, *words: str, **changed: str | None) -> tuple[int, str]:
        """The status and all that is said, where one file is changed, or gone."""
        for file, text in {**self.stale, **changed}.items():
            (self.folder / file).parent.mkdir(parents=True, exist_ok=True)
            (self.folder / file).write_text(text or "", encoding="utf-8")
            if text is None:
                (self.folder / file).unlink()
        self.stale, said = {file: KEPT[file] for file in changed}, io.StringIO()
        with contextlib.redirect_stdout(said), contextlib.redirect_stderr(said):
            try:
                status = ended(["--at", str(self.folder), *words])
            except SystemExit as e:
                status = e.code
        return status, said.getvalue()

    def is_kept(self) -> bool:
        """Whether all files are as they were."""
        return all((self.folder / file).read_text(encoding="utf-8") == text for file, text in KEPT.items())

    def told(self, file: str, old: str, new: str, status: int, *words: str) -> None:
        """With another text in the place of the first such: --check ends so and says these words."""
        assert old in KEPT[file], (file, old)
        found, said = self.run("--check", **{file: KEPT[file].replace(old, new, 1)})
        self.check(found == status and all(it in said for it in words), f"{old} for {new}: {found} {said}")


def as_it_stands(room: Room) -> None:
    status, said = room.run("--check")
    room.check(status == 0, f"the repository's own tables differ: {said}")
    room.check(room.run()[0] == 0 and room.is_kept(), "writing changes what is right")
    names = room.run("--list")[1].splitlines()
    room.check(len(names) == len(set(names)) == len(TABLES), "--list has other tables")
    room.check(sorted(ops_in_reports()) == sorted([*ops_in_format(), "leave"]) and ops_in_reports()[-1] == "leave", "ops of reports")


def by_hand(room: Room) -> None:
    """Each table with its last letter changed, with a line more, and with none."""
    for it in (it for it in TABLES if "op_" not in it.name or it.name.endswith("op_mark")):
        text, name = KEPT[it.file], f"{it.file}: {it.name}"
        start, end = it.place(text)
        last = next(at for at in range(end - 1, start, -1) if text[at].isalpha())
        wrong = {"a letter": text[:last] + "x" + text[last + 1 :]}
        if it.how == "marks":
            wrong.update({"nothing": text[:start] + "\n" + text[end:], "a line more": text[:end] + "\nx" + text[end:]})
        for what, changed in wrong.items():
            status, said = room.run("--check", **{it.file: changed})
            is_told = sum(line.startswith(f"rows: {name}: ") for line in said.splitlines()) == 1
            room.check(status == 1 and is_told and "1 differed" in said, f"{name} with {what} isn't told: {said}")
        room.check(room.run(**{it.file: wrong["a letter"]})[0] == 0 and room.is_kept(), f"{name} isn't written as it was")


def changed_texts(room: Room) -> None:
    for change in CHANGES:
        room.told(*change)
    status, said = room.run("--check", **{HELP: None})
    room.check(status == 2 and "help.rt" in said, f"a file gone: {status} {said}")


def marks(room: Room) -> None:
    """The marks of each file's first table: one is missing, or doubled, or its end is missing."""
    for it in {it.file: it for it in reversed(TABLES) if it.how == "marks"}.values():
        text, front = KEPT[it.file], f"{it.file}: {it.name}: "
        mark = next(line for line in text.split("\n") if line.strip().removesuffix(" -->").endswith(f" rows: {it.name}")) + "\n"
        room.told(it.file, mark, "", 2, f"{front}there is no mark 'rows: {it.name}'")
        room.told(it.file, mark, mark * 2, 2, f"{front}the mark 'rows: {it.name}' stands 2 times")
        rest = text[it.place(text)[0] :]
        end = next(line for line in rest.split("\n") if "rows: end" in line) + "\n"
        room.told(it.file, rest, rest.replace(end, "", 1), 2, f"{front}the mark 'rows: {it.name}' has no 'rows: end'")


def counts(room: Room) -> None:
    """A call is counted where it is named outside tables."""
    status, said = room.run("--count", "release_image")
    room.check(status == 0 and "rows: 0 files" in said, f"files that only have tables are counted: {said}")
    status, said = room.run("--count", "release_image", **{NAMES: KEPT[NAMES].replace("use std::fmt;", "// ReleaseImage\nuse std::fmt;", 1)})
    room.check(status == 0 and "rows: 1 files" in said and said.startswith(f"{NAMES}: "), f"a name outside isn't counted: {said}")
    room.check(room.run("--count", "no_call")[0] == 2, "no call is counted")
    room.check(room.run("--check", "--list")[0] == 2 and room.run("x")[0] == 2, "words without form are taken")
    room.check(room.run("--help")[0] == 0, "--help ends otherwise")


if __name__ == "__main__":
    with tempfile.TemporaryDirectory() as folder:
        room = Room(Path(folder))
        for tried in (as_it_stands, by_hand, changed_texts, marks, counts):
            tried(room)
    end("rows.py", room)
