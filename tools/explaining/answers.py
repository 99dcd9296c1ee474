"""The table of answers: the codes that each call may answer, as crates/xr_model/specs/laws/AnswerTable.antt has them."""
from __future__ import annotations

import re
from functools import lru_cache
from pathlib import Path

from calls import calls, camel
from reports.values import CODES

TABLE = Path(__file__).resolve().parents[2] / "crates/xr_model/specs/laws/AnswerTable.antt"
ROW, ASK = "answers_of", re.compile(r"\(?ask\.(\w+)")
# a name, what stands before `=`, and what it stands for, also in lines that are indented
CLAUSE = re.compile(r"^(\w+)([^=\n]*)=(.*(?:\n .*)*)", re.M)
CODE_NAMED = {camel(it.removeprefix("XR_").removeprefix("ERROR_").lower()): it for it in CODES}
WANTS_MEMORY = "memory = true"


@lru_cache(maxsize=None)
def answers() -> dict[str, list[str]]:
    """The codes of each op, each once: those of its refusals in the order in which they are asked for."""
    text = TABLE.read_text(encoding="utf-8")
    named: dict[str, str] = {}
    for name, _, body in CLAUSE.findall(text):
        named[name] = f"{named.get(name, '')} {body}"

    def codes_in(body: str) -> list[str]:
        found: list[str] = []
        for word in re.findall(r"\w+", body):
            found += [CODE_NAMED[word]] if word in CODE_NAMED else codes_in(named[word]) if word in named and word != ROW else []
        return found + ["XR_ERROR_OUT_OF_MEMORY"] * (WANTS_MEMORY in body)

    rows = {ASK.search(front)[1]: body for name, front, body in CLAUSE.findall(text) if name == ROW and ASK.search(front)}  # type: ignore[index]
    return {it.name: list(dict.fromkeys(codes_in(rows[it.variant]))) for it in calls().calls if it.is_op}
