"""The function in which a place of a source file lies. It reads text, laid out as `rt fmt` has it."""
import re
from collections import namedtuple

FN = re.compile(r"^([ ]*)(?:pub(?:\([a-z]+\))? )?(?:const )?(?:unsafe )?fn (\w+)")
HEAD = re.compile(r"^(?:impl\b|(?:pub(?:\([a-z]+\))? )?trait\b).*")
PARAMETERS = re.compile(r"<(?:->|-(?!>)|[^<>-])*>")
# a function of a file: the end of its name as a check prints it, the first and the last place of its item, and whether it can stand there
# twice, under another name: a trait's method can't, nor can `main`
Function = namedtuple("Function", "name begin end is_free")


def last_line_of(lines, first, indent):
    """The last line of the item that begins in this line: its brace stands under its head, its body is empty, or its head is all of it."""
    head = lines[first].rstrip()
    if head.endswith(("}", ";")) and head.count("{") == head.count("}"):
        return first
    ends = (indent + "}", indent + "{}")
    return next((at for at in range(first + 1, len(lines)) if lines[at].rstrip() in ends), len(lines) - 1)


def owner_of(head):
    """What a check calls the owner of an item's functions, and whether that is a type's own impl: `Type`, `TypeTrait` or `Trait`."""
    bare, found = head, 1
    while found:
        bare, found = PARAMETERS.subn("", bare)
    flat = re.split(r"\bwhere\b|[:{]", bare.replace("::", "."))[0]
    words = [word.split(".")[-1].lstrip("&") for word in flat.split() if word not in ("impl", "pub", "trait", "mut")]
    if "for" in words:
        return words[words.index("for") + 1] + words[0], False
    return words[0], head.startswith("impl")


def named(lines, at, head, crate, path):
    """The name of the function with this head, and whether it can stand twice. That of a method is the end of its whole name, since an impl may
    stand in another module than its type."""
    if head[1]:
        owner, is_own = owner_of(next((line for line in reversed(lines[:at]) if HEAD.match(line)), "impl ?"))
        return f"{owner}::{head[2]}", is_own
    *modules, file = path.removeprefix("src/").removesuffix(".rt").split("/")
    modules += [] if file in ("lib", "main", "mod") else [file]
    return "::".join([crate, *modules, head[2]]), head[2] != "main"


def function_at(text, at, crate, path):
    """The function in which this place of a file lies, or None where it lies in none."""
    lines, number = text.split("\n"), text.count("\n", 0, at)
    first = next((it for it in range(number, -1, -1) if FN.match(lines[it])), None)
    if first is None:
        return None
    head = FN.match(lines[first])
    last, top = last_line_of(lines, first, head[1]), first
    # its attributes stand over its head
    while top > 0 and lines[top - 1].lstrip().startswith("#["):
        top -= 1
    name, is_free = named(lines, first, head, crate, path)
    begin, end = (sum(len(it) + 1 for it in lines[:to]) for to in (top, last + 1))
    return Function(name, begin, end, is_free) if last >= number else None
