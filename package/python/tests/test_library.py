"""Where the shared library is looked for, and what is said where it is not there."""
import os
import shutil
import subprocess
from pathlib import Path

from sources import PYTHON, ROOT

LIBRARY = os.environ["ANHKHOVET_LIBRARY"]
PACKAGE = ROOT / "package/python/anhkhovet"
ASK = "import anhkhovet; print(anhkhovet._calls._LIBRARY._name)"


def asked(folder: Path, **variables: str) -> "subprocess.CompletedProcess[str]":
    kept = {name: value for name, value in os.environ.items() if not name.startswith(("ANHKHOVET", "LD_", "PYTHONPATH"))}
    environment = {**kept, "PYTHONPATH": str(folder), "PYTHONDONTWRITEBYTECODE": "1", **variables}
    return subprocess.run([*PYTHON, "-c", ASK], capture_output=True, text=True, env=environment, cwd=folder)


def copied(folder: Path) -> Path:
    shutil.copytree(PACKAGE, folder / "anhkhovet", ignore=shutil.ignore_patterns("__pycache__", "*.so*"))
    return folder


def test_the_variable_comes_first(tmp_path: Path) -> None:
    folder = copied(tmp_path)
    shutil.copy(LIBRARY, folder / "anhkhovet/libanhkhovet.so.1")
    shutil.copy(LIBRARY, folder / "named.so")
    assert asked(folder, ANHKHOVET_LIBRARY=str(folder / "named.so")).stdout == f"{folder}/named.so\n"
    missing = asked(folder, ANHKHOVET_LIBRARY=str(folder / "missing.so"))
    assert missing.returncode == 1 and "ImportError: the proved library cannot be loaded" in missing.stderr


def test_then_beside_the_module(tmp_path: Path) -> None:
    folder = copied(tmp_path)
    shutil.copy(LIBRARY, folder / "anhkhovet/libanhkhovet.so.1")
    assert asked(folder).stdout == f"{folder}/anhkhovet/libanhkhovet.so.1\n"


def test_then_where_the_tarball_has_it(tmp_path: Path) -> None:
    modules = tmp_path / "lib/python3/dist-packages"
    modules.mkdir(parents=True)
    shutil.copy(LIBRARY, tmp_path / "lib/libanhkhovet.so.1")
    assert asked(copied(modules)).stdout == f"{tmp_path}/lib/libanhkhovet.so.1\n"


def test_then_the_system_s_loader(tmp_path: Path) -> None:
    folder = copied(tmp_path)
    shutil.copy(LIBRARY, folder / "libanhkhovet.so.1")
    found = asked(folder, LD_LIBRARY_PATH=str(folder))
    assert found.stdout == "libanhkhovet.so.1\n", found.stderr


def test_another_library(tmp_path: Path) -> None:
    other = asked(copied(tmp_path), ANHKHOVET_LIBRARY="libc.so.6")
    assert other.returncode == 1 and "libc.so.6 has no anhkhovet_check" in other.stderr
