"""The copy of a crate in which edits are tried. An edit that changes one function alone stands in a function of its own there, beside the
unchanged one and with its clauses, attributes and proof: so edits of one function don't meet, and none breaks what others call."""
import re


def renamed(name, number):
    """The name of the function in which an edit stands, by the edit's number in its check."""
    return f"{name}_by_edit_{number}"


def tried_by(edit, number):
    """The names of the functions that judge an edit in a check."""
    return {renamed(it, number) for it in edit.functions} if edit.stands_apart else edit.functions


def edited(text, changes, begin=0):
    """A text that begins at a place of a file, with changes of that file."""
    for _, at, old, new in sorted(changes, key=lambda it: it[1], reverse=True):
        text = text[: at - begin] + new + text[at - begin + len(old) :]
    return text


def variant(texts, edit, number):
    """What stands behind the function that an edit changes: its file, the place, and the function with the change, under its own name."""
    path, own = edit.changes[0][0], edit.own
    item = edited(texts[path][own.begin : own.end], edit.changes, own.begin)
    short = own.name.split("::")[-1]
    return path, own.end, "", re.sub(rf"\bfn {short}\b", f"fn {renamed(short, number)}", item, count=1)


def proof_of(texts, edit, number):
    """The files of the proof of the function that an edit changes, for the function in which it stands. Of a method only the end of its place is
    known."""
    front = f"{edit.crate}::"
    found, inside = {}, edit.own.name.removeprefix(front).replace("::", "/")
    for path, text in texts.items():
        folder = path.rpartition("/")[0]
        is_its = folder == f"proofs/{inside}" or not edit.own.name.startswith(front) and folder.endswith(f"/{inside}")
        if path.startswith("proofs/") and is_its:
            module = f"Rattle.{edit.crate}.{folder.replace('/', '.')}"
            found[path.replace(folder, renamed(folder, number), 1)] = text.replace(f"{module}.", f"{renamed(module, number)}.")
    return found


def applied(texts, edits):
    """The texts of a crate's files, by their paths, with these edits."""
    changes, found = [], dict(texts)
    for number, edit in enumerate(edits):
        if edit.stands_apart:
            changes.append(variant(texts, edit, number))
            found.update(proof_of(texts, edit, number))
        else:
            changes += edit.changes
    for path in {path for path, *_ in changes}:
        found[path] = edited(texts[path], [it for it in changes if it[0] == path])
    return found
