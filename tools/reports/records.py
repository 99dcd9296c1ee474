"""A report as records for programs, each of which is a line of JSON. docs/report.schema.json has their form."""
from __future__ import annotations

import json
from collections.abc import Iterator
from typing import Any

from reports.reading import DEVICE, Call, Report

Record = dict[str, Any]
OUTCOMES = {0: "done", 5: "device_failed", 6: "device_garbled", 7: "stuck"}


def record_of(call: Call) -> Record:
    """The record of a line. A call of a script has arguments where the scenario is known, and a device's event always."""
    is_event, has_values = call.actor == DEVICE and call.op, call.what in ("call", "frame")
    given = {
        **{"script": call.script or None, "number": call.number or None, "op": call.op or None},
        "arguments": call.values if is_event else call.arguments,
        "code": call.code if call.what == "call" else None,
        "values": call.values if has_values else None,
        **(call.values if call.what == "garbled" else {}),
        "place": call.place,
    }
    return {"what": call.what, "actor": call.actor, **{key: it for key, it in given.items() if it is not None}}


def records_of(report: Report) -> Iterator[Record]:
    """A record for each call, frame and event, for each actor that is stuck, and for the status."""
    for call in report.lines:
        yield record_of(call)
    yield {"what": "status", "status": report.status, "outcome": OUTCOMES[report.status]}


def line_of(record: Record) -> str:
    return json.dumps(record, ensure_ascii=False, separators=(",", ":"))
