"""How a tool begins, reads its files and ends: whatever goes wrong is one line on standard error, and a status that isn't 0."""
from __future__ import annotations

import os
import signal
import sys

# Ctrl-C ends a tool silently while its parts are read in
if signal.getsignal(signal.SIGINT) is signal.default_int_handler:
    signal.signal(signal.SIGINT, signal.SIG_DFL)
if sys.version_info < (3, 9):
    print(f"{os.path.basename(sys.argv[0])}: this needs Python 3.9 or a later one", file=sys.stderr)
    sys.exit(2)

import argparse  # noqa: E402
import contextlib  # noqa: E402
from collections.abc import Callable  # noqa: E402
from typing import NoReturn  # noqa: E402

from files import put, reason_of  # noqa: E402
from shown import clipped, visible  # noqa: E402

REFUSED = 2
INTERRUPTED = 130
# what is read of a file before its front is looked at is more than a scenario may have
FRONT, REPORT = (1 << 20) + 1, b"xrsim report "


class Refused(Exception):
    """Why a tool can't do what it is asked for, in one line."""


class Words(argparse.ArgumentParser):
    """The words of a tool, whose faults are one line."""

    def __init__(self, name: str, about: str) -> None:
        """Its usage stands behind the first sentence of what is said about it, a line a form."""
        first, usage, rest = about.rstrip().split("\n\n", 2)
        about, forms = f"{first}\n\n{rest} Where a file is named, - is standard input.", "\n       ".join(usage.split("\n  "))
        shape = argparse.RawDescriptionHelpFormatter
        super().__init__(f"tools/{name}", usage=forms.strip(), description=about, formatter_class=shape, allow_abbrev=False)

    def error(self, message: str) -> NoReturn:
        raise Refused(f"{visible(message)}; {self.prog} --help has the words")

    def print_help(self, file: object = None) -> None:
        say([self.format_help().rstrip()])


def shown(name: str) -> str:
    """A file's name on one line."""
    return visible(clipped(name))


def named(name: str) -> str:
    """A file's name in a sentence."""
    return "standard input" if name == "-" else shown(name)


def content(name: str, most: int, front: bytes = b"") -> bytes:
    """The bytes of a file, or of standard input for -. It has at most so many. Where it doesn't begin with this front, its first bytes alone."""
    if name == "-" and sys.stdin is None:
        raise Refused("standard input is closed")
    try:
        with open(0 if name == "-" else name, "rb", closefd=name != "-") as file:
            data = file.read(FRONT)
            data += file.read(most + 1 - len(data)) if data.startswith(front) and len(data) == FRONT else b""
    except OSError as e:
        raise Refused(f"{named(name)} can't be read: {reason_of(e)}") from None
    except ValueError:
        raise Refused(f"{shown(name)} is no name of a file") from None
    if len(data) > most:
        raise Refused(f"{named(name)} has more than {most} bytes, which are the most")
    return data


def write(name: str, data: bytes) -> None:
    """Writes a file whole or not at all."""
    try:
        put(name, data)
    except (OSError, ValueError) as e:
        raise Refused(f"{shown(name)} can't be written: {reason_of(e)}") from None


def report_last(names: list[str], texts: list[bytes]) -> list[tuple[str, bytes]]:
    """The names and texts of a report, and of the scenario before it if one is named. The other order is taken too: a report is told by its front."""
    both = list(zip(names, texts))
    return both[::-1] if [it.startswith(REPORT) for it in texts] == [True, False] else both


def is_same_file(one: str, other: str) -> bool:
    with contextlib.suppress(OSError, ValueError):
        return os.path.samefile(one, other)
    return False


def complain(line: str) -> None:
    """Says a line on standard error. One that is closed or full changes nothing."""
    with contextlib.suppress(OSError):
        os.write(2, f"{line}\n".encode("utf-8", "backslashreplace"))


def hand_out(data: bytes) -> None:
    """Writes to standard output. What can't be written there isn't tried again as the tool ends."""
    try:
        sys.stdout.buffer.write(data)
        sys.stdout.buffer.flush()
    except (OSError, ValueError, AttributeError):
        os.dup2(os.open(os.devnull, os.O_WRONLY), 1)
        raise


def say(lines: list[str], encoding: str = "utf-8") -> None:
    """Writes lines on standard output."""
    if sys.stdout is None:
        raise Refused("standard output is closed")
    try:
        hand_out("".join(f"{it}\n" for it in lines).encode(encoding, "backslashreplace"))
    except OSError as e:
        raise Refused(f"standard output can't be written: {reason_of(e)}") from e


def ended(name: str, main: Callable[[list[str]], int]) -> int:
    """The status of a tool of this name. Each standard stream that is closed is nothing, so that no other file has its number; and
    Ctrl-C is told from here."""
    for stream in range(3):
        try:
            os.fstat(stream)
        except OSError:
            os.open(os.devnull, os.O_RDWR)
    try:
        if signal.getsignal(signal.SIGINT) is signal.SIG_DFL:
            signal.signal(signal.SIGINT, signal.default_int_handler)
        return main(sys.argv[1:])
    except Refused as e:
        complain(f"{name}: {e}")
    except KeyboardInterrupt:
        complain(f"{name}: interrupted")
        return INTERRUPTED
    except (MemoryError, RecursionError):
        complain(f"{name}: no memory for this")
    return REFUSED
