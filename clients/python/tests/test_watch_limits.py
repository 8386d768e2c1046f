"""Watches at the limits of the system: a queue that overflows, too few watches, no events."""

from __future__ import annotations

import os
import signal
import subprocess
import sys
import time
from pathlib import Path

import pytest

from sefgulaw.watch import CannotWatch
from sefgulaw.watch.fallback import FallBack
from sefgulaw.watch.inotify import Inotify
from watched_tree import IGNORE, naive, put, state


@pytest.fixture
def root(tmp_path: Path) -> Path:
    path = tmp_path / "root"
    path.mkdir()
    return path


def test_an_overflow_ends_in_one_walk(root: Path) -> None:
    limit = int(Path("/proc/sys/fs/inotify/max_queued_events").read_text())
    put(root, "a/BUILD")
    put(root, "a/b/y.bzl")
    watch = Inotify(os.fsencode(root), IGNORE)
    watch.drain()
    for number in range(limit // 4):
        os.close(os.open(root / "a" / f"x{number}.c", os.O_CREAT | os.O_WRONLY))
        os.utime(root / "a/BUILD", (number, number))
        os.utime(root / "a/b/y.bzl", (number, number))
    os.rename(root / "a/b", root / "c")
    changes = watch.drain()
    assert changes.whole and watch.overflows == 1
    assert {b"a/BUILD", b"a/b/y.bzl", b"c/y.bzl"} < changes.paths
    assert state(watch) == naive(os.fsencode(root))
    put(root, "c/y.bzl", "#")
    assert watch.drain() == (frozenset([b"c/y.bzl"]), False)
    watch.close()


STOPPED = """
import os, signal, sys
from sefgulaw.disk import Ignore
from sefgulaw.watch.inotify import Inotify
watch = Inotify(os.fsencode(sys.argv[1]), Ignore())
watch.drain()
print("ready", flush=True)
sys.stdin.readline()
paths = watch.drain().paths
print(watch.overflows, b"d/BUILD" in paths, watch.files[b"d/BUILD"].stamp.size, flush=True)
"""


@pytest.mark.long
def test_what_changes_while_the_program_is_stopped(root: Path) -> None:
    for number in range(1000):
        put(root, f"d/x{number}.bzl")
    put(root, "d/BUILD")
    words = [sys.executable, "-c", STOPPED, str(root)]
    with subprocess.Popen(
        words, stdin=subprocess.PIPE, stdout=subprocess.PIPE, text=True
    ) as program:
        assert program.stdin and program.stdout
        assert program.stdout.readline() == "ready\n"
        program.send_signal(signal.SIGSTOP)
        for turn in range(40):
            for number in range(1000):
                os.utime(root / f"d/x{number}.bzl", (turn, turn))
        put(root, "d/BUILD", "edited")
        program.send_signal(signal.SIGCONT)
        program.stdin.write("\n")
        program.stdin.flush()
        assert program.stdout.readline() == "1 True 6\n"


TOO_FEW = """
import os, sys
from sefgulaw.disk import Ignore
from sefgulaw.watch.fallback import FallBack
root = os.fsencode(sys.argv[1])
watch = FallBack(root, Ignore(), print)
print(len(watch.drain().paths), watch.is_told)
with open(os.path.join(root, b"d3/BUILD"), "w") as file:
    file.write("#")
for number in range(20, 60):
    os.makedirs(os.path.join(root, b"d%d" % number))
with open(os.path.join(root, b"d59/BUILD"), "w") as file:
    file.write("#")
print(sorted(watch.drain().paths), watch.is_told, watch.fileno() is None)
print(sorted(watch.drain().paths - {b"d3/BUILD", b"d59/BUILD"}))
"""


def with_few_watches(root: Path, limit: int) -> list[str]:
    """Runs the program in a user namespace that has few watches."""
    for number in range(20):
        put(root, f"d{number}/BUILD")
    time.sleep(0.2)
    limits = "/proc/sys/user/max_inotify_watches"
    words = f'echo {limit} > {limits} && exec "$0" -c "$1" "$2"'
    done = subprocess.run(
        ["unshare", "--user", "--map-root-user", "sh", "-c", words, sys.executable, TOO_FEW, root],
        capture_output=True,
        text=True,
        check=True,
    )
    return done.stdout.splitlines()


@pytest.mark.long
def test_too_few_watches_from_the_start(root: Path) -> None:
    reason = "is walked over for each answer, since there are too few inotify watches"
    assert with_few_watches(root, 10) == [
        f"{root} {reason}",
        "20 False",
        "[b'd3/BUILD', b'd59/BUILD'] False True",
        "[]",
    ]


@pytest.mark.long
def test_too_few_watches_later(root: Path) -> None:
    reason = "is walked over for each answer, since there are too few inotify watches"
    assert with_few_watches(root, 40) == [
        "20 True",
        f"{root} {reason}",
        "[b'd3/BUILD', b'd59/BUILD'] False True",
        "[]",
    ]


def test_a_file_system_that_tells_nothing_is_walked_over(
    root: Path, monkeypatch: pytest.MonkeyPatch
) -> None:
    monkeypatch.setattr("sefgulaw.watch.inotify.is_local", lambda path: False)
    put(root, "BUILD")
    lines: list[str] = []
    watch = FallBack(os.fsencode(root), IGNORE, lines.append)
    assert watch.drain().paths == {b"BUILD"}
    assert watch.fileno() is None
    reason = "its file system does not tell of changes"
    assert lines == [f"{root} is walked over for each answer, since {reason}"]
    with pytest.raises(CannotWatch):
        Inotify(os.fsencode(root), IGNORE)
