"""docs/PYTHON.md: its examples, its grader and its table are what they say."""
import doctest
import hashlib
import os
import re
import shutil
import subprocess
from pathlib import Path

import pytest
from sources import PYTHON, ROOT, SAMPLES
from test_samples import opened, sector_bytes

import anhkhovet
from anhkhovet._face import CALLS

PAGE = (ROOT / "docs/PYTHON.md").read_text()
GRADER = ROOT / "package/example/grade.py"
BASE = SAMPLES / "tool-base.vmdk"


def examples() -> list[doctest.Example]:
    return doctest.DocTestParser().get_examples(PAGE)


def grader() -> str:
    """The indented lines between the heading and the commands that run it."""
    section = PAGE.split("\n## A grader\n")[1].split("\n## ")[0]
    return re.sub(r"(?m)^    ", "", section[section.index("    import") : section.index("    $ ")])


def shown() -> str:
    """What the page shows of the grader's output."""
    told = PAGE.split("    $ python3 grade.py list submissions\n")[1].split("\n\n")[0]
    return re.sub(r"(?m)^    ", "", told) + "\n"


def test_examples(monkeypatch: pytest.MonkeyPatch) -> None:
    monkeypatch.chdir(ROOT)
    told = doctest.DocTestParser().get_doctest(PAGE, {}, "docs/PYTHON.md", "docs/PYTHON.md", 0)
    said: list[str] = []
    result = doctest.DocTestRunner().run(told, out=said.append)
    assert result.attempted > 40 and result.failed == 0, "".join(said)


def listed(path: Path) -> str:
    """The list that `anhkhovet digest` prints of an image of which every sector is stored or absent."""
    image = anhkhovet.Image(path)
    read = (image.read(sector) or bytes(512) for sector in range(image.check().capacity))
    return "".join(f"{sector} {hashlib.sha256(data).hexdigest()}\n" for sector, data in enumerate(read))


def test_the_list_is_the_tool_s() -> None:
    printed = (ROOT / "docs/TOOL.md").read_text().split("$ anhkhovet digest samples/tool-base.vmdk | head -n 3\n")[1]
    assert [line.strip() for line in printed.splitlines()[:3]] == listed(BASE).splitlines()[:3]


def submissions(folder: Path) -> None:
    folder.mkdir()
    sound = BASE.read_bytes()
    at = anhkhovet.Image(sound).read_part(130).at
    # Another shape of the same disk.
    (folder / "ada.vmdk").write_bytes(bytes(anhkhovet.Image(sound).normal()))
    (folder / "bo.vmdk").write_bytes(sound[:at] + b"!" + sound[at + 1 :])
    (folder / "cy.vmdk").write_bytes(sound[:100000])
    (folder / "dee.vmdk").write_bytes(b"my work " * 100)


def graded(folder: Path, wanted: str) -> str:
    (folder / "list").write_text(wanted)
    command = [*PYTHON, str(GRADER), "list", "submissions"]
    said = subprocess.run(command, cwd=folder, capture_output=True, text=True)
    assert (said.stderr, said.returncode) == ("", 0)
    return said.stdout


def test_the_grader(tmp_path: Path) -> None:
    submissions(tmp_path / "submissions")
    assert graded(tmp_path, listed(BASE)) == shown()


@pytest.mark.parametrize("name", ["tool-packed", "stream-optimized-data", "vmdkstream"])
def test_the_grader_unpacks(tmp_path: Path, name: str) -> None:
    (tmp_path / "submissions").mkdir()
    shutil.copy(SAMPLES / f"{name}.vmdk", tmp_path / "submissions")
    disk = opened(name)
    sectors = range(disk.check().capacity)
    wanted = [f"{sector} {hashlib.sha256(sector_bytes(disk, sector)).hexdigest()}\n" for sector in sectors]
    said = f"{name}.vmdk: {len(sectors)} of {len(sectors)} sectors agree\n"
    assert graded(tmp_path, "".join(wanted)) == said


def test_the_grader_takes_lists_of_packed_images(tmp_path: Path) -> None:
    (tmp_path / "submissions").mkdir()
    shutil.copy(SAMPLES / "tool-packed.vmdk", tmp_path / "submissions")
    printed = (ROOT / "docs/TOOL.md").read_text().split("$ anhkhovet digest --grain samples/tool-packed.vmdk | head -n 2\n")[1]
    line = printed.splitlines()[1].strip()
    assert line.endswith(" packed")
    assert graded(tmp_path, line + "\n") == "tool-packed.vmdk: 1 of 2048 sectors agree\n"


def test_a_name_stays_on_its_line(tmp_path: Path) -> None:
    (tmp_path / "submissions").mkdir()
    shutil.copy(SAMPLES / "tool-top.vmdk", tmp_path / "submissions/cy: 2048 of 2048 sectors agree\nbo")
    shutil.copy(SAMPLES / "tool-top.vmdk", tmp_path / "submissions" / os.fsdecode(b"\xff"))
    said = graded(tmp_path, listed(BASE)).splitlines()
    assert [line.rsplit(": ", 1)[0] for line in said] == ["cy: 2048 of 2048 sectors agree\\nbo", "\\udcff"]


def test_a_payload_that_is_none_is_told(tmp_path: Path) -> None:
    (tmp_path / "submissions").mkdir()
    image = bytearray((SAMPLES / "tool-packed.vmdk").read_bytes())
    part = anhkhovet.Image(image).read_part(128)
    image[part.at : part.at + part.length] = bytes(part.length)
    (tmp_path / "submissions/broken.vmdk").write_bytes(image)
    assert graded(tmp_path, f"128 {'0' * 64}\n").startswith("broken.vmdk: Error -3 while decompressing data")


def test_the_page_shows_the_grader() -> None:
    assert grader().strip() == GRADER.read_text().strip()


def test_the_grader_has_twenty_lines() -> None:
    lines = [line for line in grader().splitlines() if line.strip()]
    assert 10 < len(lines) <= 20


def test_every_call_has_its_row() -> None:
    rows = dict(re.findall(r"(?m)^\| `anhkhovet_(\w+)` \| (.*) \|$", PAGE))
    assert set(rows) == set(CALLS)
    for named in rows.values():
        for name in re.findall(r"`([\w.]+)`", named):
            owner, _, method = name.partition(".")
            assert owner in anhkhovet.__all__ and hasattr(getattr(anhkhovet, owner), method or "__call__"), name
