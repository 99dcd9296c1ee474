"""Edits: what each changes, which function has to refuse it, and which of them one check can try at once. It reads files alone."""
from dataclasses import dataclass, field
from pathlib import Path

from .places import function_at

# where edits stand: those that each gate tries (`rt ci` tries the first too), and those that are tried where it is asked for
ALWAYS, STORED = ("must-fail", "edits"), "stored"


@dataclass(eq=False)
class Edit:
    """One edit. `changes` has what it replaces in which file; `functions` the names of those of which one has to refuse it; `own` the function
    that it changes, where it changes nothing else; `fault` why it can't be tried, if anything."""

    crate: str
    file: Path
    text: str
    changes: list = field(default_factory=list)
    functions: set = field(default_factory=set)
    own: object = None
    is_named: bool = False
    fault: str = ""

    def __str__(self):
        return f"{self.crate}/{self.file.stem}"

    @property
    def stands_apart(self):
        """Whether it can be tried in a function of its own, beside the one that it changes."""
        return self.own is not None and self.own.is_free


def is_lemma(name):
    """Whether this names no function, but a lemma of a file of proofs: `proofs::FILE::LEMMA`."""
    return name.startswith("proofs::")


def pairs_of(text):
    """The files, old texts and new texts of an edit's text, and the functions that it names."""
    pairs, named, path, old = [], set(), None, None
    for line in text.split("\n"):
        word, _, rest = line.partition(":")
        rest = rest.removeprefix(" ")
        if word == "file":
            path = rest.strip()
        elif word == "fn":
            named.add(rest.strip())
        elif word == "old":
            old = rest
        elif word == "new" and path and old:
            pairs.append((path, old, rest))
            old = None
        elif line.strip():
            raise ValueError(f"a line that is not read: {line.strip()[:60]}")
    return pairs, named


def placed(folder, crate, path, old, new):
    """What an old text and a new one change: the file, where the old one begins there, and both; and the function of the source that this lies in,
    if it lies in one. Or a fault."""
    if not path.startswith(("src/", "specs/", "proofs/")) or ".." in path:
        raise ValueError(f"it names no file below src/, specs/ or proofs/: {path}")
    if not (folder / path).is_file():
        raise ValueError(f"there is no {path}")
    text = (folder / path).read_text(encoding="utf-8")
    if text.count(old) != 1:
        raise ValueError(f"its text stands {text.count(old)} times in {path}: {old.strip()[:60]}")
    if old == new:
        raise ValueError(f"it changes nothing in {path}")
    at, lead = text.index(old), len(old) - len(old.lstrip())
    return (path, at, old, new), function_at(text, at + lead, crate, path) if path.startswith("src/") else None


def read(file):
    """The edit of a file, with its fault where it has one."""
    folder = file.parent.parent
    edit = Edit(folder.name, file, file.read_text(encoding="utf-8"))
    try:
        pairs, named = pairs_of(edit.text)
        found = [placed(folder, edit.crate, *pair) for pair in pairs]
        edit.changes, own = [change for change, _ in found], {function for _, function in found}
        names = {it.name for it in own if it}
        edit.functions, edit.is_named = named or names, bool(named) and named != names or None in own
        edit.own = next(iter(own)) if len(own) == 1 and not edit.is_named else None
        if not edit.changes:
            raise ValueError("it changes nothing")
        if not edit.functions or not named and None in own:
            raise ValueError("it changes what lies in no function: name the function that has to refuse it by a line 'fn: NAME'")
    except ValueError as fault:
        edit.fault = str(fault)
    return edit


def all_edits(root, folders, names=()):
    """The edits of these crates, or of all, those of a crate together."""
    files = sorted(it for folder in folders for it in root.glob(f"crates/*/{folder}/*.edit"))
    return [read(it) for it in files if not names or it.parent.parent.name in names]


def overlaps(one, other):
    """Whether two edits replace the same bytes of a file."""
    return any(path == file and at < begin + len(text) and begin < at + len(old)
               for path, at, old, _ in one.changes for file, begin, text, _ in other.changes)


def fits(edit, taken):
    """Whether an edit can be tried in one check with these of a crate: what it changes is nobody else's to see."""
    if edit.crate != taken[0].crate or any(it.is_named for it in [edit, *taken]):
        return False
    return edit.stands_apart or not any(edit.functions & it.functions or overlaps(edit, it) for it in taken if not it.stands_apart)


def rounds(edits):
    """The edits by checks. An edit of a definition or a table, which other functions see, has a check of its own."""
    found = []
    for edit in edits:
        round = next((it for it in found if fits(edit, it)), None)
        if round is None:
            found.append([edit])
        else:
            round.append(edit)
    return found
