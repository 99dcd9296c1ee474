"""Makes a file of expectations from a run, for a reader to check."""
from __future__ import annotations

from expecting.comparing import words_of_call
from expecting.running import Run


def written(run: Run, scenario: str, device: str | None) -> str:
    """The lines of a run: each call but `leave`, the frames, the events, who is stuck, and the status."""
    assert run.report
    report = run.report
    beside = f" --device {device}" if device is not None else ""
    lines = [f"# what tools/expect --write saw of {scenario}{beside}", "# read each line before you trust it"]
    for number, calls in enumerate(report.scripts, 1):
        made = (f"{it.script} {it.number} {it.op} {words_of_call(it)}" for it in calls if it.op != "leave")
        lines += ["", f"# script {number}", *made]
    frames = [f"frame {it.number} {it.text}" for it in report.frames]
    lines += ["", "# the compositor", f"frames {len(frames)}", *frames, *(["ended"] if report.has_ended else [])]
    fronts = ((it, f"{it.number} {it.op}" if it.what == "event" else it.what) for it in report.device)
    told = (f"device {front} {it.text}".rstrip() for it, front in fronts)
    lines += ["", "# the device", f"events {len(report.events)}", *told, "", "# the end"]
    lines += [f"stuck {it.waits}" for it in report.stuck] + [f"status {run.status}"]
    return "\n".join(lines) + "\n"
