"""The tables of the page of tools: each tool with its words, and its options, as the tools tell them themselves."""
from __future__ import annotations

import ast
import os
import re
import subprocess
import sys
from collections.abc import Callable, Iterator
from functools import partial
from pathlib import Path

from ends import Refused

TOOLS = Path(__file__).resolve().parent.parent
# in the order of the page
NAMES = ("run", "timeline", "check", "why", "expect", "dump", "coverage", "reduce", "report", "legal", "orders")
OPTION = re.compile(r"^  (--?(?!h, --help|help\b)[^ ].*?)  +(\S.*)$", re.M)


def cell(words: str) -> str:
    return " ".join(words.split()).replace("|", "\\|")


def told_by(name: str) -> tuple[str, list[str]]:
    """The first sentence of what a tool says about itself, and its words behind that, a line a form."""
    first, usage, _ = (ast.get_docstring(ast.parse((TOOLS / name).read_text(encoding="utf-8"))) or "\n\n\n\n").split("\n\n", 2)
    forms = [cell(it.replace("usage:", "")) for it in usage.split("\n")]
    if not all(it.startswith(f"tools/{name} ") for it in forms):
        raise Refused(f"tools/{name} doesn't tell its words behind its first sentence")
    return cell(first), forms


def all_tools() -> Iterator[str]:
    """A row for each tool."""
    return (f"`tools/{name}` | {told_by(name)[0]}\n" for name in NAMES)


def options(name: str) -> Iterator[str]:
    """A row for each option of a tool, below its words."""
    command, wide = [sys.executable, str(TOOLS / name), "--help"], {**os.environ, "COLUMNS": "999"}
    found = OPTION.findall(subprocess.run(command, capture_output=True, text=True, env=wide, check=False).stdout.partition("options:\n")[2])
    if not found:
        raise Refused(f"tools/{name} --help has no options")
    yield f"{'<br>'.join(f'`{it}`' for it in told_by(name)[1])} | what it does\n--- | ---\n"
    yield from (f"`{cell(option)}` | {cell(told)}\n" for option, told in found)


def rows() -> dict[str, Callable[[], Iterator[str]]]:
    """What gives the rows of each table."""
    return {"tools": all_tools, **{f"options {name}": partial(options, name) for name in NAMES}}
