"""One check of a crate that has edits, over libraries that are built: only the functions that have to refuse them are proved, or the whole
crate where a lemma that only other crates use has to."""
import os
import shutil
import subprocess
import tempfile
from collections import namedtuple
from functools import cache
from pathlib import Path

from .edits import is_lemma
from .libraries import SAYING, below, has_tests, texts_of
from .variants import applied, tried_by

# what a check said, the status that it ended with, and the processor time that it took, in seconds
Checked = namedtuple("Checked", "said status seconds")


@cache
def kit():
    """The folder of the toolchain."""
    said = subprocess.run(["rt", "doc"], capture_output=True, text=True, check=True).stdout.strip()
    return Path(said).parent


def words(built, lines, name, texts):
    """The words of a check of a crate, as the toolchain's gate has them."""
    at, its = kit(), lines[name][1]
    of_kit = {it: f"{at}/rlibs/{it}.rlib" for it in ["std", *[it for it in its if it not in lines]]}
    own = {it: f"{built}/crates/{it}/out/rlib/{it}.rlib" for it in below(lines, name)}
    found = ["--crate-name", name, "src/main.rt" if "src/main.rt" in texts else "src/lib.rt"]
    found += [word for it, file in of_kit.items() for word in ("--extern", f"{it}={file}")] + ["-L", f"dependency={at}/rlibs"]
    found += [word for it in its if it in lines for word in ("--extern", f"{it}={own[it]}")]
    found += [word for file in own.values() for word in ("-L", f"dependency={Path(file).parent}")]
    found += ["--antt-project", f"{at}/rattle/logic/antt-project.json", "--logic-built", f"{at}/logic_built"]
    return [*found, *["--test"] * has_tests(texts), "--links", f"{name}=", "--jobs", "1"]


def begin_with(seed, own):
    """Gives a check what an earlier one of the same crate has checked, if one has. What both have is linked: the toolchain never writes a file anew."""
    if seed.is_dir():
        shutil.copytree(seed, own, copy_function=os.link)


def hand_on(seed, own):
    """Keeps what a check has checked for those behind it, unless another one has."""
    try:
        own.rename(seed)
    except OSError:
        pass


def check(root, built, lines, edits, seed=None):
    """Checks the functions that have to refuse these edits, in a copy of their crate that has them all. Where a folder is named, it begins with what
    that has, and what no edit changes isn't checked anew."""
    crate = edits[0].crate
    texts = texts_of(root / "crates" / crate)
    names = sorted({it for number, edit in enumerate(edits) for it in tried_by(edit, number)})
    only = [] if any(map(is_lemma, names)) else [it for name in names for it in ("--only", name)]
    with tempfile.TemporaryDirectory(prefix="xr-edits-") as room:
        for path, text in applied(texts, edits).items():
            file = Path(room, path)
            file.parent.mkdir(parents=True, exist_ok=True)
            file.write_text(text, encoding="utf-8")
        call = [f"{kit()}/bin/rattle", "check", *words(built, lines, crate, texts), *only]
        if seed:
            begin_with(seed, own := Path(room, "checked"))
            call += ["--incremental", str(own)]
        ran = subprocess.Popen(call, cwd=room, **SAYING)
        said = ran.stdout.read()
        _, status, used = os.wait4(ran.pid, 0)
        ran.returncode = os.waitstatus_to_exitcode(status)
        if seed:
            hand_on(seed, own)
    return Checked(said, ran.returncode, used.ru_utime + used.ru_stime)
