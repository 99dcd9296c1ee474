"""report PROGRAM: tries tools/report over examples and cases, over a report that has every line, and over texts that are no
reports, as tools/timeline reads them too.

The lines of JSON are compared with docs/report.schema.json where jsonschema is installed. The first failures are told, and the
last line counts.
"""
from __future__ import annotations

import json
import random
import re
from collections.abc import Callable
from pathlib import Path

from helpers import CASES, EXAMPLES, ROOT, TABLES, Tally, main, replaced, rows_of, spoilt_text, tool, validator

from drawing import report as drawn
from drawing.report import Unreadable
from reports.reading import NoReport, read_report
from reports.records import line_of, records_of
from reports.values import CODES

REPORT_SCHEMA = json.loads((ROOT / "docs/report.schema.json").read_text(encoding="utf-8"))
MUTATIONS = 1000

GOOD, GOOD_SCENARIO = ((TABLES / f"good.{it}").read_bytes() for it in ("report", "json"))
LINES, JSON_LINES = (TABLES / "lines.report").read_bytes(), (TABLES / "lines.jsonl").read_text(encoding="utf-8").splitlines()
# other texts than the good report, and what is said of them by this tool and by tools/timeline
RETURNS = "the report's line 1 has a carriage return: a report's lines end in a line feed alone"
OTHERS = (
    (b"", "it is empty", "the report is empty"),
    (bytes(range(256)), "its first line isn't `xrsim report 1`", "this is no report: its first line isn't"),
    (GOOD.replace(b"\n", b"\r\n"), "its lines end in carriage returns", RETURNS),
    (GOOD.decode().encode("utf-16"), "its first line isn't", "the report was written over as UTF-16"),
)


def words_in(record: dict) -> list[str]:
    """The number, op and code of a record, and what it gives, in order."""
    given = record["values"] if record["what"] == "call" else record["arguments"]
    parts = [record["number"], record["op"], *([record["code"]] if "code" in record else []), *given.values()]
    return [str(int(it)) if isinstance(it, int) else it for it in parts if given != {"missing": True} or it is not True]


def words_of_line(line: str) -> list[str]:
    """The words of a line, but for its place and for those that name a value."""
    words = re.sub(r" @\d+$", "", line).split(" ")
    labels = ("value", "changed", "time", "active", "period", "render", "events_lost", "missing")
    behind = [it for it in words[3:] if it not in labels and (it, words[1]) != ("state", "poll_event")]
    return words[:3] + [it.lstrip("+-") if words[1] == "locate_space" else it for it in behind]


def check_records(tally: Tally, report: Path, records: list[dict]) -> list[tuple[dict, str]]:
    """Each line of a report but the heads of its blocks has a record with its words. Gives both."""
    heads = r"xrsim report 1|thread \d|compositor|device|stuck"
    due = [it for it in report.read_text(encoding="utf-8").splitlines() if not re.fullmatch(heads, it)]
    for record, line in zip(records, due):
        if record["what"] in ("call", "event"):
            tally.same(words_in(record), words_of_line(line), f"{report}: the words of {record}")
    tally.check(len(records) == len(due), f"{report}: {len(records)} records of {len(due)} lines")
    return list(zip(records, due))


def reports(tally: Tally, program: str, room: Path) -> None:
    """The lines of JSON of examples and cases, which the schema takes, and takes no more once they are changed; and of a report
    that has every line."""
    is_valid = validator("report", REPORT_SCHEMA)
    stored = [it for it in sorted(CASES.glob("*/stdout")) if it.read_bytes().startswith(b"xrsim report ")]
    for file in [*sorted(EXAMPLES.glob("*.report")), *stored[::9]]:
        scenario = file.with_suffix(".json") if file.suffix else file.parent / "scenario.json"
        ran = tool("report", ["--json", file, *(["--scenario", scenario] if scenario.exists() else [])])
        tally.check(ran.returncode == 0 and not ran.stderr, f"{file}: {ran.stderr!r}")
        for record, _ in check_records(tally, file, [json.loads(it) for it in ran.stdout.decode().splitlines()]) if is_valid else []:
            tally.check(is_valid(record), f"{file}: the schema doesn't take {record}")
            tally.check(not is_valid({**record, "what": "x"}) and not is_valid({**record, "x": 0}), f"a changed {record}")
    for file in stored:
        check_records(tally, file, list(records_of(read_report(file.read_bytes()))))
    found = [line_of(it) for it in records_of(read_report(LINES))]
    for came, due in zip(found, JSON_LINES):
        tally.same(came, due, "a record")
        tally.check(not is_valid or is_valid(json.loads(due)), f"the schema doesn't take {due}")
    tally.same(len(found), len(JSON_LINES), "how many lines have a record")
    beside = tool("report", [EXAMPLES / "stuck.json", EXAMPLES / "stuck.report"])
    due = b'{"what":"stuck","actor":"script","script":1,"number":2,"op":"await","arguments":{"mark":2}}\n'
    tally.check(due in beside.stdout, f"a stuck script has no arguments: {beside.stdout!r}")


def why_not(reads: Callable[[], object]) -> str:
    """Why something can't be read."""
    try:
        reads()
    except (NoReport, Unreadable) as e:
        return str(e)
    return "nothing"


def bad_reports(tally: Tally, program: str, room: Path) -> None:
    """What is no report, or no report of the scenario, in the words of this tool and of tools/timeline."""
    rows = [(replaced(GOOD, old, new), why, own) for old, new, why, own in rows_of("bad_reports", 4)]
    report, scenario = TABLES / "good.report", room / "bad.json"
    for number, (data, why, own) in enumerate([*OTHERS, *rows]):
        own = own or re.sub("^it is ", "the report is ", re.sub("^its ", "the report's ", why))
        said = why_not(lambda: read_report(data)), why_not(lambda: drawn.read_report(data))
        tally.check(said[0].startswith(why) and said[1].startswith(own) and "\n" not in "".join(said), f"{why}: {said}")
        if number % 6 == 0:
            tally.complains(why, tool("report", ["--json", "-"], data), f"report: standard input is no report: {why}")
            tally.complains(own, tool("timeline", ["-"], data), f"timeline: {own}")
    for old, new, why, own in rows_of("other_scenarios", 4):
        scenario.write_bytes(replaced(GOOD_SCENARIO, old, new))
        ran = tool("report", ["--json", report, "--scenario", scenario])
        tally.complains(why, ran, f"report: {report} is no report of {scenario}: {why}")
        ran = tool("timeline", [scenario, report])
        tally.complains(own, ran, f"timeline: the report is another scenario's: {own or why}")
    scenario.write_bytes(b'{"version":1,"scripts":[[0]]}')
    ran = tool("report", ["--json", report, "--scenario", scenario])
    tally.complains("no scenario", ran, f"report: {scenario} is no scenario: script 1 op 1 op; tools/check says more")


def fuzz(tally: Tally, program: str, room: Path) -> None:
    """Changed reports raise nothing but what says why."""

    def said_of(chance: random.Random, number: int) -> str:
        text = spoilt_text(chance, chance.choice((LINES, GOOD)).decode())
        return why_not(lambda: list(records_of(read_report(text.encode()))))

    tally.raises_nothing(5, MUTATIONS, said_of)


def results(tally: Tally, program: str, room: Path) -> None:
    """The results that the tools know are the program's. The ops are those of the one table, as tools/rows --check says."""
    code = (ROOT / "crates/xr_types/src/code.rt").read_text(encoding="utf-8")
    tally.same(sorted(CODES), sorted(re.findall(r'"(XR_[A-Z_]+)"', code)), "the results beside those of xr_types")
    tally.same(REPORT_SCHEMA["$defs"]["code"]["enum"], list(CODES), "the results of the reports' schema")


if __name__ == "__main__":
    main("report", reports, bad_reports, results, fuzz)
