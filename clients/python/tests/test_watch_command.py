"""The command `sefgulaw watch`: complete answers, each marked by its version and packages."""

from __future__ import annotations

import json
import os
import queue
import signal
import subprocess
import threading
import time
from collections.abc import Callable, Iterator
from pathlib import Path
from typing import IO

import pytest
from conftest import Root, Runner
from trees import SMALL

Make = Callable[..., Root]
SECONDS = 60.0


class Watching:
    """A running watch whose updates are read as they come."""

    def __init__(self, process: subprocess.Popen[bytes]) -> None:
        self.process = process
        assert process.stdout
        self._lines: queue.Queue[str] = queue.Queue()
        threading.Thread(target=self._read, args=(process.stdout,), daemon=True).start()

    def _read(self, stream: IO[bytes]) -> None:
        for line in stream:
            self._lines.put(line.decode("utf-8", "surrogateescape").rstrip("\n"))

    def line(self, seconds: float = SECONDS) -> str:
        """Returns the next line."""
        return self._lines.get(timeout=seconds)

    def update(self, seconds: float = SECONDS) -> tuple[list[str], list[str]]:
        """Returns the lines of the next update, and the packages that it is about."""
        lines: list[str] = []
        while True:
            line = self.line(seconds)
            if line.startswith("# "):
                return lines, line.split(" ")[2:]
            lines.append(line)

    def is_quiet(self, seconds: float = 0.3) -> bool:
        """Tells whether nothing comes for a while."""
        try:
            self._lines.get(timeout=seconds)
        except queue.Empty:
            return True
        return False

    def end(self) -> None:
        """Ends the watch as from the keyboard."""
        self.process.send_signal(signal.SIGINT)
        assert self.process.wait(60) == 130


@pytest.fixture(params=["daemon", "direct"])
def watch(request: pytest.FixtureRequest, run: Runner) -> Iterator[Callable[..., Watching]]:
    """Starts a watch, with the daemon and without."""
    started: list[Watching] = []

    def start(root: Root, *words: str) -> Watching:
        more = ["--no-daemon"] if request.param == "direct" else []
        started.append(Watching(run.start("watch", *words, *more, cwd=root.path)))
        return started[-1]

    yield start
    for one in started:
        one.process.kill()
        one.process.wait()


Start = Callable[..., Watching]


def test_each_change_is_told(tree: Make, watch: Start) -> None:
    root = tree({**SMALL, ".sefgulaw.toml": ""})
    watching = watch(root)
    first = (["//a:l filegroup", "//lib:p filegroup"], ["a", "lib"])
    assert watching.update() == first
    root.replace("a/BUILD", 'filegroup(name = "m")\nfilegroup(name = "n")\n')
    assert watching.update() == (["//a:m filegroup", "//a:n filegroup"], ["a"])
    root.replace("lib/x.bzl", "T = [\n")
    lines, packages = watching.update()
    assert packages == ["lib"] and len(lines) == 1 and lines[0].startswith("lib/x.bzl:1:")
    root.replace("lib/x.bzl", 'T = ["again"]\n')
    assert watching.update() == (["//lib:p filegroup"], ["lib"])
    (root.path / "new").mkdir()
    root.replace("new/BUILD", 'filegroup(name = "new")\n')
    assert watching.update() == (["//new:new filegroup"], ["new"])
    root.delete("new")
    assert watching.update() == ([], ["new"])
    watching.end()


def test_what_changes_no_answer_is_not_told(tree: Make, watch: Start) -> None:
    root = tree({**SMALL, ".sefgulaw.toml": ""})
    watching = watch(root, "//a")
    assert watching.update() == (["//a:l filegroup"], ["a"])
    root.replace("lib/x.bzl", 'T = ["else"]\n')
    root.replace("a/BUILD", 'filegroup(name = "l", srcs = glob(["*.c"]))\n# a comment\n')
    root.write("a/x.h", "")
    assert watching.is_quiet()
    root.replace("a/BUILD", 'filegroup(name = "m")\n')
    assert watching.update() == (["//a:m filegroup"], ["a"])


def test_a_package_that_is_asked_for_and_goes(tree: Make, watch: Start) -> None:
    root = tree({**SMALL, ".sefgulaw.toml": ""})
    watching = watch(root, "//a")
    assert watching.update() == (["//a:l filegroup"], ["a"])
    (root.path / "a" / "BUILD").unlink()
    fault = "a/BUILD:1:1: error: no such package: //a [1]"
    assert watching.update() == ([fault], ["a"])
    root.replace("a/BUILD", "")
    assert watching.update() == ([], ["a"])


def test_the_root_and_odd_names(tree: Make, watch: Start) -> None:
    root = tree({"BUILD": 'filegroup(name = "r")\n', "o d/BUILD": 'filegroup(name = "t")\n'})
    watching = watch(root)
    lines = [watching.line() for _ in range(3)]
    assert lines[:2] == ["//:r filegroup", "//o d:t filegroup"]
    assert lines[2].endswith(" // 'o d'")


def test_lines_of_json(tree: Make, watch: Start) -> None:
    root = tree({**SMALL, ".sefgulaw.toml": ""})
    watching = watch(root, "--output", "jsonl")
    read = [json.loads(watching.line()) for _ in range(3)]
    assert [it.get("label") for it in read] == ["//a:l", "//lib:p", None]
    assert read[2]["packages"] == ["a", "lib"]
    root.replace("a/BUILD", "x = y\n")
    fault, mark = json.loads(watching.line()), json.loads(watching.line())
    assert (fault["file"], fault["line"], fault["code"]) == ("a/BUILD", 1, 4)
    assert mark["packages"] == ["a"] and mark["version"] > read[2]["version"]


def git(root: Root, *words: str) -> None:
    """Runs git in a tree."""
    person = ["-c", "user.name=a", "-c", "user.email=a@b", "-c", "init.defaultBranch=main"]
    subprocess.run(["git", *person, *words], cwd=root.path, check=True, capture_output=True)


def test_a_change_of_branch_is_one_answer(tree: Make, watch: Start) -> None:
    files = {f"d{at // 50}/p{at}/BUILD": 'filegroup(name = "one")\n' for at in range(2000)}
    root = tree(files)
    git(root, "init", "-q")
    git(root, "add", ".")
    git(root, "commit", "-q", "-m", "one")
    git(root, "checkout", "-q", "-b", "other")
    for name in files:
        root.write(name, 'filegroup(name = "two")\n')
    git(root, "commit", "-q", "-a", "-m", "two")
    watching = watch(root)
    lines, packages = watching.update(60)
    assert len(packages) == 2000 and set(it.partition(":")[2] for it in lines) == {"two filegroup"}
    git(root, "checkout", "-q", "main")
    lines, packages = watching.update(60)
    assert len(packages) == 2000 and set(it.partition(":")[2] for it in lines) == {"one filegroup"}
    assert watching.is_quiet()


def test_a_directory_that_is_moved_in(tree: Make, watch: Start, tmp_path: Path) -> None:
    root = tree({**SMALL, ".sefgulaw.toml": ""})
    other = Root(tmp_path / "other")
    other.write("x/BUILD", 'filegroup(name = "x")\n')
    watching = watch(root)
    watching.update()
    os.rename(tmp_path / "other", root.path / "moved")
    assert watching.update() == (["//moved/x:x filegroup"], ["moved/x"])
    root.replace("moved/x/BUILD", 'filegroup(name = "y")\n')
    assert watching.update() == (["//moved/x:y filegroup"], ["moved/x"])
    os.rename(root.path / "moved", tmp_path / "out")
    assert watching.update() == ([], ["moved/x"])


def test_the_daemon_is_killed(tree: Make, run: Runner) -> None:
    root = tree({**SMALL, ".sefgulaw.toml": ""})
    watching = Watching(run.start("watch", cwd=root.path))
    first = watching.update()
    process = int(next(run.runtime.rglob("pid")).read_text())
    os.kill(process, signal.SIGKILL)
    assert watching.update() == first
    root.replace("a/BUILD", 'filegroup(name = "m")\n')
    assert watching.update() == (["//a:m filegroup"], ["a"])
    watching.end()


def test_the_tree_goes(tree: Make, watch: Start) -> None:
    root = tree({**SMALL, ".sefgulaw.toml": ""})
    watching = watch(root)
    watching.update()
    os.rename(root.path, root.path.parent / "gone")
    assert watching.process.wait(60) == 3
    assert watching.process.stderr and watching.process.stderr.read().startswith(b"sefgulaw: ")


def test_two_watches_are_told_of_one_change(tree: Make, run: Runner) -> None:
    root = tree({**SMALL, ".sefgulaw.toml": ""})
    both = [Watching(run.start("watch", it, cwd=root.path)) for it in ("//...", "//a")]
    for watching in both:
        watching.update()
    root.replace("a/BUILD", 'filegroup(name = "m")\n')
    for watching in both:
        assert watching.update() == (["//a:m filegroup"], ["a"])
        watching.end()


@pytest.mark.long
def test_a_tree_that_nothing_tells_of(tree: Make, run: Runner) -> None:
    files = {f"p{at}/BUILD": 'filegroup(name = "t")\n' for at in range(300)}
    root = tree({**files, ".sefgulaw.toml": ""})
    limits = "/proc/sys/user/max_inotify_watches"
    words = f'echo 10 > {limits} && exec "$@"'
    command = run.words("watch", "--no-daemon")
    process = subprocess.Popen(
        ["unshare", "--user", "--map-root-user", "sh", "-c", words, "sh", *command],
        cwd=root.path,
        env=run.environment(),
        stdout=subprocess.PIPE,
        stderr=subprocess.PIPE,
    )
    watching = Watching(process)
    try:
        assert len(watching.update()[1]) == 300
        assert process.stderr
        line = process.stderr.readline().decode()
        reason = "is walked over for each answer, since there are too few inotify watches"
        assert line == f"sefgulaw: {os.path.realpath(root.path)} {reason}\n"
        took = []
        for at in range(11):
            begun = time.monotonic()
            root.replace("p7/BUILD", f'filegroup(name = "t{at}")\n')
            assert watching.update() == ([f"//p7:t{at} filegroup"], ["p7"])
            took.append(time.monotonic() - begun)
        assert sorted(took)[5] < 0.25
    finally:
        process.kill()
        process.wait()


@pytest.mark.long
def test_a_change_is_told_soon(tree: Make, run: Runner) -> None:
    root = tree({**SMALL, ".sefgulaw.toml": ""})
    watching = Watching(run.start("watch", cwd=root.path))
    watching.update()
    took = []
    for at in range(20):
        begun = time.monotonic()
        root.replace("a/BUILD", f'filegroup(name = "m{at}")\n')
        assert watching.update() == ([f"//a:m{at} filegroup"], ["a"])
        took.append(time.monotonic() - begun)
        time.sleep(0.02)
    watching.end()
    assert sorted(took)[10] < 0.1
