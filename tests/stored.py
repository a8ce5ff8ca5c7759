#!/usr/bin/env python3
"""Writes what tests/*.py store below tests anew, in a temporary folder, and prints each file that differs from the stored
one, is missing or is too many: tests/stored.py. Whatever has a function write(folder) is such a script; a folder that none
writes has its own script `make`, which needs other programs. What rust/vectors stores there its own tests compare."""
import contextlib
import importlib
import io
import pathlib
import re
import tempfile

HERE = pathlib.Path(__file__).resolve().parent
vectors = re.findall(r'"tests/(cases/\w+)"', (HERE.parent / "rust/vectors/src/stored.rs").read_text())
scripts = [path.stem for path in sorted(HERE.glob("*.py")) if "\ndef write(folder):" in path.read_text()]


def files(root, folders):
    """The bytes of each file of these folders."""
    paths = [path for folder in folders for path in (root / folder).rglob("*") if path.is_file()]
    return {path.relative_to(root): path.read_bytes() for path in paths}


with tempfile.TemporaryDirectory() as name:
    made = pathlib.Path(name)
    for script in scripts:
        with contextlib.redirect_stdout(io.StringIO()):
            importlib.import_module(script).write(made)
    folders = [folder.name for folder in made.iterdir()]
    new, old = files(made, folders), files(HERE, folders)
if not new:
    print("nothing was written")
for folder in HERE.iterdir():
    if folder.is_dir() and folder.name not in [*folders, "__pycache__"] and not (folder / "make").exists():
        print(f"nothing writes tests/{folder.name}")
for path in sorted(old.keys() | new.keys()):
    if str(path.with_suffix("")) in vectors:
        continue
    if path not in old:
        print(f"tests/{path} is not stored")
    elif path not in new:
        print(f"tests/{path} is stored, and nothing writes it")
    elif old[path] != new[path]:
        print(f"tests/{path} is stored otherwise than it is written")
