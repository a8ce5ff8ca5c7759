"""What the prover refused a must-fail edit at, by what rt ci said of it, and whether the edit keeps the shape of the code, by
what the compiler makes of it."""
import re
import subprocess
import tempfile
from functools import lru_cache
from pathlib import Path
from shutil import copytree

kit = Path(subprocess.run(["rt", "doc"], capture_output=True, text=True, check=True).stdout.strip()).parent
# What is done, and not with what: the rest is operands, values put together, and tests.
DONE = re.compile(r"\bSyntax\.(add|sub|mul|div|rem|shl|shr|offset|cast|call|call_v|cond|switch|loop|block|exit|return)\b")


def refused_at(said):
    """'a fact' that does not hold; 'a name' that proof files have, and the code no more; or 'a limit', which is no verdict."""
    words = {"only because a proof file names what the edit took away": "a name", "only by a limit of the prover": "a limit"}
    return next((at for word, at in words.items() if word in said[:120]), "a fact")


def edited(text, crate):
    """The files of a crate that an edit changes, with their new text, by their path there."""
    texts, path = {}, None
    for word, said in re.findall(r"(?m)^(file|old|new): ?(.*)$", text):
        if word == "file":
            path = said.strip()
            texts.setdefault(path, (crate / path).read_text())
        elif word == "old":
            old = said
        else:
            texts[path] = texts[path].replace(old, said, 1)
    return texts


def functions(text):
    """Each function of a source file with its text, by its name."""
    parts = re.split(r"(?m)^\s*(?:pub(?:\([^)]*\))? )?(?:extern \"C\" )?fn (\w+)", text)
    return dict(zip(parts[1::2], parts[2::2]))


def words(crate, folder):
    """What rattle is called with for a crate of a repository whose libraries are built, as rt calls it."""
    rows = re.findall(r"(?m)^(\w+)([^:\n]*):(.*)$", (folder / "crates.txt").read_text())
    listed = {name: needed.split() for name, _, needed in rows}
    rlib = {name: folder / f"crates/{name}/out/rlib" for name in listed}
    given = ["--crate-name", crate, f"src/{'main' if (folder / 'crates' / crate / 'src/main.rt').exists() else 'lib'}.rt"]
    for name in ["std", *listed[crate]]:
        given += ["--extern", f"{name}={rlib.get(name, kit / 'rlibs')}/{name}.rlib"]
    for place in [kit / "rlibs", *rlib.values()]:
        given += ["-L", f"dependency={place}"] if place.exists() else []
    if any(name == crate and "staticlib" in kind for name, kind, _ in rows):
        given += ["--crate-type", "staticlib"]
    return [*given, "--antt-project", kit / "rattle/logic/antt-project.json", "--logic-built", kit / "logic_built"]


def compiled(crate, folder, texts, names):
    """The operations of some functions of a crate with these texts, in their order; nothing where they cannot be compiled."""
    with tempfile.TemporaryDirectory() as room:
        for part in ("src", "specs", "proofs"):
            if (folder / "crates" / crate / part).is_dir():
                copytree(folder / "crates" / crate / part, Path(room) / part)
        for path, text in texts.items():
            (Path(room) / path).write_text(text)
        made = Path(room) / "made"
        starts = [word for name in names for word in ("--start", name)]
        called = [kit / "bin/rattle", "check", *words(crate, folder), "--generated", made, *starts]
        subprocess.run(called, cwd=room, capture_output=True)
        found = {path.parent.parent.name: tuple(DONE.findall(path.read_text())) for path in made.rglob("Code/Mir.antt")}
    return {name: found[name] for name in names} if found.keys() >= set(names) else {}


@lru_cache(maxsize=None)
def before(crate, folder, name):
    """The operations of a function as it stands."""
    return compiled(crate, folder, {}, [name])


def keeps_shape(name, edit, folder):
    """Of an edit CRATE/LABEL: whether each function that it changes has the operations that it had. Nothing where that is not
    known."""
    crate = name.split("/")[0]
    texts = edited(edit.read_text(), folder / "crates" / crate)
    changed = []
    for path, text in texts.items():
        old, new = functions((folder / "crates" / crate / path).read_text()), functions(text)
        if old.keys() != new.keys():
            return False
        changed += [it for it in old if old[it] != new[it]]
    was = [before(crate, folder, it) for it in changed]
    now = compiled(crate, folder, texts, changed) if changed else {}
    if not all(was) or changed and not now:
        return None
    return all(was[at][it] == now[it] for at, it in enumerate(changed))
