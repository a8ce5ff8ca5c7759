"""Calls on threads with little stack. One that is too small ends the process, so each is tried in a process of its own."""
import subprocess
import threading

import pytest
from sources import PYTHON, SAMPLES

from anhkhovet import STACK
from anhkhovet import _stack as stack

ALL = f"""
import sys, threading
from anhkhovet import *
samples = {str(SAMPLES)!r}
def everything():
    base, middle = Image(samples + "/tool-base.vmdk"), Image(samples + "/tool-middle.vmdk")
    base.check(), base.check_in(), base.header(), base.lookup(2), base.steps(2), base.read(2), base.frame()
    collapse(base, middle).profile(), base.normal().to_cowd().to_kdmv(), base.mend(Side.PRIMARY)
    Chain([base, middle]).lookup(2), survey([base, middle]), descriptor(base.text())
    Image(bytes(Image(samples + "/vmdkstream.vmdk"))[:70000]).close_stream()
    Disk(samples + "/two-gb-sparse-data.vmdk").lookup(4194303)
    print("all answered")
"""
ON_A_THREAD = """
threading.stack_size(int(sys.argv[1]))
thread = threading.Thread(target=everything)
thread.start()
thread.join()
assert threading.stack_size() == int(sys.argv[1])
"""


@pytest.mark.parametrize("size", [128 << 10, 1 << 20, STACK, 2 << 20, 4 << 20, 64 << 20])
def test_threads_with_less_and_less_stack(size: int) -> None:
    said = subprocess.run([*PYTHON, "-c", ALL + ON_A_THREAD, str(size)], capture_output=True, text=True)
    assert (said.returncode, said.stdout) == (0, "all answered\n"), said.stderr


@pytest.mark.parametrize("limit", ["512", "1100", "2048", "8192", "unlimited"])
def test_a_first_thread_with_less_and_less_stack(limit: str) -> None:
    command = ["bash", "-c", f'ulimit -S -s {limit} && exec "$@"', "bash", *PYTHON, "-c", ALL + "everything()"]
    said = subprocess.run(command, capture_output=True, text=True)
    assert (said.returncode, said.stdout) == (0, "all answered\n"), said.stderr


def test_what_is_left_is_told() -> None:
    here = stack.left()
    further = max(map(lambda _: max(map(lambda _: stack.left(), [0])), [0]))
    assert 0 < further < here


def test_a_thread_is_taken_where_nobody_tells(monkeypatch: pytest.MonkeyPatch) -> None:
    monkeypatch.setattr(stack, "_TOLD", False)
    assert stack.on_stack(threading.current_thread) is not threading.current_thread()
    monkeypatch.undo()
    assert stack.on_stack(threading.current_thread) is threading.current_thread()
