"""Which edits were refused before, by the sums of all that they stand on. What was kept never goes stale: another text has another sum."""
import hashlib
import os
from functools import cache
from pathlib import Path

from .checks import kit
from .libraries import below, files_of

HERE = Path(__file__).resolve().parent


def store():
    """The folder of what was refused before, of whoever calls."""
    return Path(os.environ.get("XDG_CACHE_HOME") or Path.home() / ".cache") / "xrsim-edits"


def sum_of(*parts):
    return hashlib.sha256(repr(parts).encode()).hexdigest()


def sum_of_tools(*more):
    """A sum of the toolchain's name, of this script and of more files."""
    return sum_of(*(it.read_bytes() for it in [kit() / "KIT-ID", HERE.parent / "edits", *sorted(HERE.glob("*.py")), *more]))


@cache
def sum_of_crate(folder, line):
    """A sum of a crate's files and of its line of crates.txt."""
    return sum_of(line, *((path, file.read_bytes()) for path, file in files_of(folder).items()))


def sums_of(root, lines, edits):
    """Of each edit a sum of all that its try stands on."""
    tools, its = sum_of_tools(), {it.crate: [*below(lines, it.crate), it.crate] for it in edits}
    return {it: sum_of(tools, it.text, *(sum_of_crate(root / "crates" / name, lines[name][0]) for name in its[it.crate])) for it in edits}


def is_kept(sum):
    return (store() / sum).is_file()


def keep(sum, why):
    """Keeps that an edit was refused. Where that can't be written, it is tried again the next time."""
    try:
        store().mkdir(parents=True, exist_ok=True)
        room = store() / f"{sum}.{os.getpid()}"
        room.write_text(why, encoding="utf-8")
        room.replace(store() / sum)
    except OSError:
        pass
