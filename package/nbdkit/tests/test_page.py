"""docs/NBD.md: each `$ command` of it is run, and what it prints compared with what it shows."""
import os
import subprocess
import time
from pathlib import Path
from typing import List, Tuple

from served import PATIENCE, ROOT, SAMPLES, Case
import served

PAGE = ROOT / "docs/NBD.md"
LOOKED_AT, AS_A_FILE = "A disk looked at", "As a file"

# Where the package is not installed the word `anhkhovet` stands for the plugin's path.
NBDKIT = """#!/bin/sh
for word; do shift; [ "$word" != anhkhovet ] || word='{}'; set -- "$@" "$word"; done
exec /usr/bin/nbdkit "$@"
"""


def shown() -> List[Tuple[str, str, str]]:
    """Section, command and the lines under it. Blocks of code are indented by four spaces."""
    found: List[Tuple[str, str, str]] = []
    section, is_open = "", False
    for line in PAGE.read_text().splitlines():
        if line.startswith("## "):
            section = line[3:]
        if line.startswith("    $ "):
            found.append((section, line[6:], ""))
            is_open = True
        elif line.startswith("    ") and is_open:
            found[-1] = (*found[-1][:2], found[-1][2] + line[4:] + "\n")
        else:
            is_open = False
    return found


def no_fuse(folder: Path) -> str:
    """Why nothing can be mounted here, or nothing."""
    if not os.access("/dev/fuse", os.R_OK | os.W_OK):
        return "/dev/fuse is not here, or may not be used"
    tried, ready = folder / "tried", folder / "tried.ready"
    tried.touch()
    words = ["nbdfuse", "-r", "-P", str(ready), str(tried), "--command", "nbdkit", "-s", "null", "1"]
    with subprocess.Popen(words, stderr=subprocess.PIPE, stdin=subprocess.DEVNULL) as process:
        for _ in range(10 * PATIENCE):
            if process.poll() is not None:
                return process.stderr.read().decode().strip()
            if ready.exists():
                subprocess.run(["umount", tried], check=True)
                return ""
            time.sleep(0.1)
        process.kill()
    return "nbdfuse does not come up"


class Page(Case):
    def setUp(self) -> None:
        super().setUp()
        (self.folder / "samples").symlink_to(SAMPLES)
        tools = self.folder / "tools"
        tools.mkdir()
        (tools / "nbdkit").write_text(NBDKIT.format(served.PLUGIN))
        (tools / "nbdkit").chmod(0o755)
        self.settings = {**os.environ, "PATH": f"{tools}:{os.environ['PATH']}:/usr/sbin:/sbin"}

    def shows(self, command: str, lines: str) -> None:
        done = subprocess.run(["sh", "-c", command], cwd=self.folder, env=self.settings, stdin=subprocess.DEVNULL,
                              stdout=subprocess.PIPE, stderr=subprocess.STDOUT, timeout=PATIENCE)
        self.assertEqual(done.stdout.decode(), lines, command)

    def test_page(self) -> None:
        """docs/NBD.md shows what its commands print"""
        commands = [(command, lines) for section, command, lines in shown() if section != AS_A_FILE]
        self.assertGreater(len(commands), 20)
        for command, lines in commands:
            self.shows(command, lines)

    def test_as_a_file(self) -> None:
        """docs/NBD.md shows what its commands print of a disk as a file"""
        commands = [(command, lines) for section, command, lines in shown() if section in (LOOKED_AT, AS_A_FILE)]
        self.assertGreater(sum("nbdfuse" in command or "umount" in command for command, _ in commands), 1)
        why = no_fuse(self.folder)
        if why:
            self.skipTest(why)
        # Where a command fails the disk may still be mounted.
        self.addCleanup(subprocess.run, ["umount", "-q", self.folder / "seen/disk"])
        for command, lines in commands:
            self.shows(command, lines)
