"""The libraries that edits are tried over. Those that the toolchain's gate has left in the repository serve, where they are newer than all that
they are made of. Else this gate builds them in a copy of the repository without tests, programs and edits: a toolchain that keeps what it has
proved only hands it out."""
import shutil
import subprocess
from pathlib import Path

PARTS = ("src", "specs", "proofs")
# how the toolchain is run: all that it says is one text
SAYING = {"stdin": subprocess.DEVNULL, "stdout": subprocess.PIPE, "stderr": subprocess.STDOUT, "text": True, "errors": "replace"}


def files_of(folder):
    """The files of a crate that checks read, by their paths below it."""
    files = sorted(it for part in PARTS for it in (folder / part).rglob("*") if it.is_file())
    return {str(it.relative_to(folder)): it for it in files}


def has_tests(texts):
    return any("#[test]" in text for path, text in texts.items() if path.endswith(".rt"))


def texts_of(folder):
    """The texts of a crate's files by their paths."""
    return {path: file.read_text(encoding="utf-8") for path, file in files_of(folder).items()}


def listed(root):
    """What the lines of crates.txt say: of each crate its whole line, and the names behind the colon."""
    found = {}
    for line in (root / "crates.txt").read_text(encoding="utf-8").splitlines():
        line = line.split("#")[0].strip()
        head, colon, rest = line.partition(":")
        if colon:
            found[head.split()[0]] = (line, rest.split())
    return found


def below(lines, name):
    """The crates of the repository below a crate, each behind those that it stands on."""
    return list(dict.fromkeys(one for it in lines[name][1] if it in lines for one in [*below(lines, it), it]))


def libraries(root, lines, crates):
    """The libraries that the checks of these crates stand on, and those among the crates, as only what is proved can be edited; but for those with
    tests, which would be proved and run with them."""
    names = {it for crate in crates for it in [*below(lines, crate), crate]}
    texts = {it: texts_of(root / "crates" / it) for it in lines if it in names}
    return [name for name, its in texts.items() if "src/lib.rt" in its and not has_tests(its)]


def made_at(root, name):
    """When a library was built that stands in the repository, or 0 where none does."""
    built = root / "crates" / name / "out" / "rlib" / f"{name}.rlib"
    return built.stat().st_mtime if built.is_dir() else 0


def stand_built(root, lines, names):
    """Whether each of these libraries stands in the repository, newer than the list of crates, its sources, and the libraries below it."""
    made, listed_at = {it: made_at(root, it) for it in names}, (root / "crates.txt").stat().st_mtime
    sources = {it: max(file.stat().st_mtime for file in files_of(root / "crates" / it).values()) for it in names}
    return all(made[it] > max(sources[it], listed_at) and all(low in made and made[low] < made[it] for low in below(lines, it)) for it in names)


def build(root, crates, room):
    """Finds or builds what the checks of these crates stand on: the folder that has it, which is the repository or this room, and what went wrong,
    if anything did."""
    lines = listed(root)
    names = libraries(root, lines, crates)
    if stand_built(root, lines, names):
        return root, ""
    for name in names:
        folder = root / "crates" / name
        for part in (it for it in PARTS if (folder / it).is_dir()):
            shutil.copytree(folder / part, Path(room, "crates", name, part))
    Path(room, "crates.txt").write_text("".join(f"{lines[it][0]}\n" for it in names), encoding="utf-8")
    shutil.copyfile(root / "HANDLES", Path(room, "HANDLES"))
    ran = subprocess.run(["rt", "ci"], cwd=room, **SAYING)
    return room, "" if ran.returncode == 0 else "\n".join(ran.stdout.splitlines()[-5:])
