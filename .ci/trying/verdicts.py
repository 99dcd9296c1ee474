"""What a check says of its edits. Each is judged by the line of the function that has to refuse it, and by nothing that is said of another."""
import re
from collections import namedtuple
from enum import Enum

from .edits import is_lemma


class Kind(Enum):
    """What a try of an edit comes to: of what its functions come to, the first of these. Only the first of all is as it must be."""

    REFUSED = "refused"
    NOT_REFUSED = "NOT REFUSED"
    BAD = "BAD EDIT"
    UNCLEAR = "NOT TRIED"


Verdict = namedtuple("Verdict", "kind why")
# what says of a proof file only that a name is gone which it has, and only that something before it was refused
NAME_IS_GONE = re.compile(r"has no field|is not in scope|has no `|record .* has no|is no name")
DEPENDS = re.compile(r"\bdepends? on .*, which was (rejected|not admitted)|was not admitted")
BY_NAME = "only by a name that is gone"
GOALS = re.compile(r"`search` did not prove (`[^;]*)")
IS_OPEN = re.compile(r"^no proof: expected answers in|^not proved")
ERROR = re.compile(r"(\./proofs/[^:]*\.antt):\d+:\d+: error: (.*)")
JUDGED = re.compile(r"^(only=\d+ proved=\d+$|logic=(not-)?proved)", re.M)
OWN_FILES = ("/Answers.antt", "/Invariants.antt", "/Proof.antt")


def errors_in(said, belongs):
    """What a check says is wrong in these files of proofs, but for what only depends on something that is wrong."""
    found = map(ERROR.match, said.split("\n"))
    return [it[2] for it in found if it and belongs(it[1]) and not DEPENDS.search(it[2])]


def by_errors(function, errors):
    """The verdict where a function's proof has these errors. One that only misses a name says little of what the edit means, so it is told."""
    good = next((it for it in errors if not NAME_IS_GONE.search(it)), None)
    return Verdict(Kind.REFUSED, f"{function}: {good or f'{BY_NAME}: {errors[0]}'}")


def of_function(said, function):
    """What a check says of one function, which is named by this end of its name: by its line, by the errors in the files of its own proof, or by
    those in files of lemmas, which are no function's own."""
    lines = re.findall(rf"^fn ((?:\S*::)?{re.escape(function)}): (.*)$", said, re.M)
    if len(lines) != 1:
        return Verdict(Kind.BAD, f"no line says anything of {function}")
    function, line = lines[0]
    if line.startswith("proved"):
        return Verdict(Kind.NOT_REFUSED, f"{function} is still proved")
    if goals := GOALS.search(line):
        return Verdict(Kind.REFUSED, f"{function}: {goals[1]}")
    folder = "/".join(["./proofs", *function.split("::")[1:], ""])
    errors = errors_in(said, lambda file: file.startswith(folder))
    if not errors and IS_OPEN.search(line):
        errors = errors_in(said, lambda file: not file.endswith(OWN_FILES)) or ["its goal is open"]
    return by_errors(function, errors) if errors else Verdict(Kind.UNCLEAR, f"{function}: {line}")


def of_lemma(said, name):
    """What a check of a whole crate says of a lemma."""
    *folders, lemma = name.split("::")
    errors = [it for it in errors_in(said, lambda file: file == f"./{'/'.join(folders)}.antt") if it.startswith(f"`{lemma}`: ")]
    return by_errors(name, errors) if errors else Verdict(Kind.NOT_REFUSED, f"{name} is still proved")


def judge(functions, checked, is_alone):
    """What a check says of an edit that these functions judge: refused where one of them has a goal that isn't proved."""
    if checked.status not in (0, 1) or not JUDGED.search(checked.said):
        error = next((it for it in checked.said.split("\n") if "error" in it), f"the check ended with {checked.status}")
        return Verdict(Kind.BAD if is_alone and checked.status in (1, 2) else Kind.UNCLEAR, error)
    told = [(of_lemma if is_lemma(it) else of_function)(checked.said, it) for it in sorted(functions)]
    return min(told, key=lambda it: list(Kind).index(it.kind))
