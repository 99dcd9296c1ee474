"""Runs the program over a scenario, and reads its report."""
from __future__ import annotations

import os
import signal
import subprocess
import tempfile
import threading
from pathlib import Path
from typing import IO, NamedTuple

from checking.texts import device_named
from ends import Refused, complain, shown
from files import reason_of
from judging.replay import NotLegal, judge
from reports.reading import NoReport, Report, join, read_lines, read_report
from scenarios.reading import NoScenario, Scripts, scripts_in
from shown import one_line, visible

PROGRAM = str(Path(__file__).resolve().parents[2] / "xrsim")
WITH_REPORT = (0, 5, 6, 7)
# a run on threads that takes so many seconds hangs
LONGEST = 20
SCENARIO_REFUSED = 4


class Run(NamedTuple):
    """How the program ended: its status, its line on standard error, and the report and the scripts where it printed one."""

    status: int
    line: str
    report: Report | None = None
    scripts: Scripts | None = None

    @property
    def words(self) -> str:
        """The status, and the program's line without its front."""
        return f"{self.status} {self.line.removeprefix('xrsim: ')}".rstrip()


def program() -> str:
    return os.environ.get("XRSIM") or PROGRAM


def last_line(errors: IO[bytes]) -> str:
    """The last line on standard error. Those before it, as of the program being built, are passed on as they come."""
    last = b""
    for line in errors:
        if last:
            complain(last.decode("utf-8", "replace").rstrip("\n"))
        last = line
    return visible(last.decode("utf-8", "replace").strip())


def ran(words: list[str], longest: float = 0) -> tuple[int, str, bytes]:
    """The program's status, its last line on standard error, and what it printed. It is ended where it takes longer than this, if that isn't 0."""
    with tempfile.TemporaryFile() as output:
        begun = subprocess.Popen([program(), *words], stdin=subprocess.DEVNULL, stdout=output, stderr=subprocess.PIPE, close_fds=False)
        late = threading.Timer(longest, begun.kill) if longest else None
        try:
            if late:
                late.start()
            line = last_line(begun.stderr)  # type: ignore[arg-type]
            status = begun.wait()
        finally:
            if late:
                late.cancel()
            begun.kill()
            begun.wait()
        output.seek(0)
        return status, line, output.read()


def untold(run: Run, scenario: str) -> Refused:
    """Why nothing can be compared where the program printed no whole report of a scenario."""
    names = {it.value: it.name for it in signal.Signals}
    how = f"the signal {names.get(-run.status, -run.status)}" if run.status < 0 else f"status {run.status}"
    said = f" and said: {one_line(run.line)}" if run.line else ""
    more = f"; tools/check {shown(scenario)} says why" if run.status == SCENARIO_REFUSED else ""
    return Refused(f"nothing was run: {shown(program())} ended with {how}{said}{more}")


def words_for(form: str, name: str, device: str | None, *more: str) -> list[str]:
    return [form, *more, *([f"--device={device}"] if device is not None else []), "--", name]


def ended_so(report: Report, status: int) -> Report:
    """A report of a run that ended with this status."""
    if report.status != status:
        raise NoReport(f"its status is {report.status}, and the program ended with {status}")
    return report


def why_illegal(name: str, scripts: Scripts, device: str | None) -> str:
    """Why a run on threads isn't that of a legal history, where it isn't."""
    status, line, printed = ran(words_for("threads", name, device, "--places"), LONGEST)
    if status < 0:
        return f"nothing: it hangs for {LONGEST} s" if -status == signal.SIGKILL else f"nothing: {untold(Run(status, line), name)}"
    try:
        judge(scripts, device_named(device), ended_so(read_lines(printed, has_places=True), status))
    except (NoReport, NotLegal) as e:
        return str(e)
    return ""


def run_scenario(name: str, data: bytes, device: str | None) -> Run:
    """Runs the program over the scenario of this name, whose text this is, and reads its report."""
    try:
        status, line, printed = ran(words_for("serial", name, device))
    except (OSError, ValueError) as e:
        why = f"the program {shown(program())} can't be run: {reason_of(e)}"
        raise Refused(f"nothing was run: {why}; the variable XRSIM may name another") from None
    if status == SCENARIO_REFUSED:
        return Run(status, line)
    if status not in WITH_REPORT:
        raise untold(Run(status, line), name)
    try:
        report = ended_so(read_report(printed), status)
        scripts = scripts_in(data)
        join(report, scripts)
    except NoReport as e:
        what = f"what {shown(program())} printed is no report of {shown(name)}"
        raise Refused(f"nothing can be compared: {what}: {e}") from None
    except NoScenario as e:
        raise Refused(f"nothing can be compared: {shown(name)} is no scenario: {e}; tools/check says more") from None
    return Run(status, line, report, scripts)
