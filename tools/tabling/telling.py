"""How tools/pages and tools/believed end, which tell what the code says."""
from __future__ import annotations

import os
import sys
from collections.abc import Callable

from ends import Refused, ended


def status_of(name: str, main: Callable[[list[str]], int]) -> int:
    """The status of a tool. It says in one line why it can't go on, or that it is interrupted, or an output closed or full."""
    def guarded(words: list[str]) -> int:
        try:
            if sys.stdout is None:
                raise Refused("standard output is closed")
            status = main(words)
            sys.stdout.flush()
            return status
        except (OSError, ValueError) as wrong:
            os.dup2(os.open(os.devnull, os.O_WRONLY), 1)
            raise Refused(getattr(wrong, "strerror", None) or wrong) from None
    return ended(name, guarded)
