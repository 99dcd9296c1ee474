"""A small library of C (tables/allocations.c) that stands before a program's own malloc, calloc, realloc and free: it counts them, and one
of them gets none where that is asked for."""
from __future__ import annotations

import os
import shutil
import subprocess
import sys

SHIM = os.path.join(os.path.dirname(os.path.abspath(__file__)), "tables/allocations.c")


def make_shim(name: str, room: str) -> str:
    """The file of the library; the test of this name ends where it can't be made."""
    if shutil.which("cc") is None:
        sys.exit(f"{name}: no cc, so nothing was tried")
    shim = f"{room}/shim.so"
    if subprocess.run(["cc", "-O1", "-shared", "-fPIC", SHIM, "-o", shim]).returncode != 0:
        sys.exit(f"{name}: cc refuses the library that counts, so nothing was tried")
    return shim


def outside(shim: str, refused: int = 0, count: str | None = None, beside: bool = False) -> dict[str, str]:
    """What a program's environment is that runs with the library: this allocation is refused, counted from 1, or none, and the
    counts go to a file. Those of the first thread are left out where only what is beside it counts."""
    libraries = ":".join(filter(None, (shim, os.environ.get("LD_PRELOAD"))))
    more = {**({"REFUSE_COUNT": count} if count else {}), **({"REFUSE_BESIDE": "1"} if beside else {})}
    return {**os.environ, "LD_PRELOAD": libraries, "REFUSE": str(refused), **more}


def counts_in(file: str) -> tuple[int, int]:
    """How many allocations a run of the program has counted, and of how many the memory wasn't given back."""
    with open(file, "ab+") as count:
        count.seek(0)
        both = count.read()
    return int.from_bytes(both[:8], sys.byteorder), int.from_bytes(both[8:], sys.byteorder, signed=True)


def counted_in(file: str) -> int:
    """How many allocations a run of the program has counted."""
    return counts_in(file)[0]
