"""Types are told, and right: mypy takes the module and the page's examples without a word, and pyflakes has none either."""
import os
import subprocess
import tempfile
from pathlib import Path

import test_page
from sources import PYTHON, ROOT

HERE = ROOT / "package/python"
SOURCES = [HERE / "anhkhovet", *sorted((HERE / "tests").glob("*.py"))]


def mypy(*paths: Path) -> "subprocess.CompletedProcess[str]":
    # The machine's own: it is compiled, and need not be of this Python.
    environment = {name: value for name, value in os.environ.items() if name != "PYTHONPATH"}
    environment["MYPYPATH"] = str(HERE)
    command = ["mypy", "--strict", "--cache-dir", f"{tempfile.gettempdir()}/mypy", *map(str, paths)]
    return subprocess.run(command, capture_output=True, text=True, env=environment, cwd=HERE)


def test_the_module_by_mypy() -> None:
    said = mypy(HERE / "anhkhovet")
    assert said.returncode == 0, said.stdout + said.stderr


def test_the_page_by_mypy(tmp_path: Path) -> None:
    (tmp_path / "page.py").write_text("".join(example.source for example in test_page.examples()))
    (tmp_path / "grade.py").write_text(test_page.grader())
    said = mypy(tmp_path / "page.py", tmp_path / "grade.py")
    assert said.returncode == 0, said.stdout + said.stderr


def test_wrong_types_are_told(tmp_path: Path) -> None:
    (tmp_path / "wrong.py").write_text('import anhkhovet\nanhkhovet.Image(3)\nanhkhovet.Image(b"").lookup("2")\n')
    said = mypy(tmp_path / "wrong.py")
    assert said.returncode == 1 and said.stdout.count("error: Argument 1") == 2, said.stdout + said.stderr


def test_pyflakes() -> None:
    said = subprocess.run([*PYTHON, "-m", "pyflakes", *map(str, SOURCES)], capture_output=True, text=True)
    assert (said.returncode, said.stdout, said.stderr) == (0, "", "")


def test_house_rules() -> None:
    for path in (path for each in SOURCES for path in ([each] if each.is_file() else sorted(each.glob("*.py")))):
        lines = path.read_text().splitlines()
        assert len(lines) < 300, path
        assert all(len(line) <= 128 for line in lines), path
