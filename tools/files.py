"""Opens and reads files as the program does, says why one can't be opened or read, and writes files whole."""
from __future__ import annotations

import errno
import os
import stat
import sys
import tempfile

MOST_NAME = 4095
# what stands for standard input among the words of a tool, and the file that it is
INPUT, INPUT_FILE = "-", "/dev/stdin"
FIFO = "it is a FIFO: the program waits for its writer and reads it, and its text can be read once only"
REASONS = {
    errno.ENOENT: "there is no such file",
    errno.ENOTDIR: "a part of its path is no folder",
    errno.EACCES: "there is no right to read it, or to go into a folder of its path",
    errno.EPERM: "there is no right to read it",
    errno.ENAMETOOLONG: "a part of its path is too long a name",
    errno.ELOOP: "its links lead round in a circle",
    errno.ENXIO: "it is a socket, or a device that isn't there",
    errno.EISDIR: "it is a folder",
}


class FileFault(Exception):
    """Why a file's text isn't to be had. `part` is the part of the program's way that fails: words, open or read; it is `waits` where the
    program could read the file and this tool doesn't try to."""

    def __init__(self, part: str, why: str) -> None:
        super().__init__(why)
        self.part, self.why = part, why


def reason_of(e: Exception) -> str:
    if not isinstance(e, OSError):
        return str(e)
    return REASONS.get(e.errno or 0, (os.strerror(e.errno) if e.errno else str(e)).lower())


def open_to_read(name: str) -> int:
    """Opens a file as the program does, whose words have no form with some names. A FIFO is opened only where its text is standard input's or
    stands behind another open descriptor, since a text that is taken from it here is lost for the program."""
    if name == INPUT and sys.stdin is None:
        raise FileFault("open", "it is closed")
    name = INPUT_FILE if name == INPUT else name
    as_bytes = os.fsencode(name)
    if not as_bytes:
        raise FileFault("words", "the name is empty")
    if len(as_bytes) > MOST_NAME:
        raise FileFault("words", f"the name has {len(as_bytes)} bytes, and {MOST_NAME} are the most")
    try:
        as_bytes.decode("utf-8")
    except UnicodeDecodeError:
        raise FileFault("words", "the name isn't UTF-8") from None
    try:
        about = os.stat(name)
        if not stat.S_ISFIFO(about.st_mode):
            return os.open(name, os.O_RDONLY | os.O_NOCTTY)
        if os.path.samestat(os.fstat(0), about):
            return os.dup(0)
        if os.path.exists(os.path.realpath(name)):
            raise FileFault("waits", FIFO)
        return os.open(name, os.O_RDONLY)
    except OSError as e:
        raise FileFault("open", reason_of(e)) from None
    except ValueError:
        raise FileFault("open", "its name has a NUL") from None


def text_of(name: str, most: int) -> bytes:
    """The bytes of a file, at most so many, which is opened and read as the program does."""
    descriptor = open_to_read(name)
    try:
        with open(descriptor, "rb", closefd=False) as file:
            return file.read(most)
    except OSError as e:
        raise FileFault("read", reason_of(e)) from None
    finally:
        os.close(descriptor)


def put(name: str, data: bytes) -> None:
    """Writes a file whole or not at all; what is no plain file, as a pipe, is written to."""
    target = os.path.realpath(name)
    if os.path.exists(target) and not os.path.isfile(target):
        with open(target, "wb") as file:
            file.write(data)
        return
    handle, room = tempfile.mkstemp(prefix=".written-", dir=os.path.dirname(target))
    try:
        with open(handle, "wb") as file:
            file.write(data)
        mask = os.umask(0)
        os.umask(mask)
        os.chmod(room, 0o666 & ~mask)
        os.replace(room, target)
    except BaseException:
        os.unlink(room)
        raise
