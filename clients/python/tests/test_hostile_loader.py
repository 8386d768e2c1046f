"""Loaders that end, hang or say nonsense, and files that make them do so."""

from __future__ import annotations

import os
import signal
from collections.abc import Callable, Iterator
from pathlib import Path

import pytest
from conftest import Done, Root, Runner
from trees import HOLDS_MEMORY, SMALL, SMALL_TARGETS, TAKES_MINUTES

from sefgulaw.base import Base, Options
from sefgulaw.requests import Question, Tree

Make = Callable[..., Root]
Direct = Callable[..., Done]
BROKEN = Path(__file__).resolve().parent / "broken_loader.py"


def opened(root: Root, program: str, deadline: float = 30.0) -> Tree:
    """Opens a tree that stays open between questions."""
    options = Options(program, deadline=deadline)
    return Tree(Base.open(os.fsencode(root.path), options))


def texts(tree: Tree, *patterns: str) -> list[str]:
    """Returns the labels of the targets that patterns ask for."""
    found = tree.targets(Question(patterns)).lines
    return [line.decode().rpartition('"label":"')[2].rstrip('"}') for line in found]


def test_a_build_file_that_takes_all_memory(tree: Make, direct: Direct) -> None:
    others = {f"p{at}/BUILD": 'filegroup(name = "t")\n' for at in range(300)}
    root = tree({**SMALL, **others, "p77/BUILD": HOLDS_MEMORY})
    done = direct("check", cwd=root)
    assert done.lines == ["p77/BUILD:1:1: error: takes over 256 MiB to load [memory]"]
    assert done.words == ["sefgulaw: 1 fault in 1 of 302 packages"]
    assert len(direct("targets", cwd=root).lines) == 301


def test_a_file_that_takes_all_memory_is_mended(tree: Make, loader: str) -> None:
    root = tree({**SMALL, "b/BUILD": HOLDS_MEMORY})
    open_tree = opened(root, loader)
    try:
        assert any(b'"code":"memory"' in line for line in open_tree.check(Question()).lines)
        root.write("b/other.c", "")
        assert any(b'"code":"memory"' in line for line in open_tree.check(Question()).lines)
        root.write("b/BUILD", 'filegroup(name = "t")\n')
        assert list(open_tree.check(Question()).lines) == []
        assert texts(open_tree, "//b") == ["//b:t"]
    finally:
        open_tree.close()


def test_a_module_that_takes_all_memory_under_50_packages(tree: Make, direct: Direct) -> None:
    users = {f"u{at:02}/BUILD": 'load("//lib:big.bzl", "x1")\n' for at in range(50)}
    root = tree({**SMALL, **users, "lib/big.bzl": HOLDS_MEMORY})
    done = direct("check", cwd=root)
    assert done.lines == [
        "lib/big.bzl:1:1: error: takes over 256 MiB to load [memory]"
        " (in //u00, and 49 other packages)"
    ]
    assert done.words == ["sefgulaw: 1 fault in 50 of 52 packages"]
    assert direct("targets", cwd=root).lines == SMALL_TARGETS


def test_a_module_that_takes_minutes(tree: Make, loader: str) -> None:
    files = {"lib/slow.bzl": TAKES_MINUTES, "s/BUILD": 'load("//lib:slow.bzl", "WAITED")\n'}
    root = tree({**SMALL, **files})
    open_tree = opened(root, loader, deadline=2.0)
    try:
        lines = list(open_tree.check(Question()).lines)
        assert len(lines) == 1
        assert b'"file":"lib/slow.bzl"' in lines[0] and b"takes over 2 seconds to load" in lines[0]
        assert texts(open_tree)[:2] == ["//a:l", "//lib:p"]
        root.write("lib/slow.bzl", "WAITED = []\n")
        assert list(open_tree.check(Question()).lines) == []
    finally:
        open_tree.close()


def test_the_loader_is_killed_between_two_questions(tree: Make, loader: str) -> None:
    root = tree(SMALL)
    open_tree = opened(root, loader)
    try:
        before = texts(open_tree)
        os.kill(open_tree.base.mirror.loader.pid, signal.SIGKILL)
        root.write("a/y.c", "")
        lines = list(open_tree.targets(Question(("//a",))).lines)
        assert b'"//a:x.c","//a:y.c"' in lines[0]
        assert texts(open_tree) == before
        assert open_tree.base.mirror.restarts == 1
    finally:
        open_tree.close()


def test_a_file_grows_over_the_limit(tree: Make, loader: str) -> None:
    root = tree(SMALL)
    open_tree = opened(root, loader)
    try:
        assert texts(open_tree) == ["//a:l", "//lib:p"]
        root.write("a/BUILD", "#" * 262_145)
        lines = list(open_tree.targets(Question()).lines)
        assert len(lines) == 2
        assert b'"label":"//lib:p"' in lines[0] and b'"code":"too large"' in lines[1]
        root.write("a/BUILD", 'filegroup(name = "again")\n')
        assert texts(open_tree) == ["//a:again", "//lib:p"]
    finally:
        open_tree.close()


def test_a_change_of_the_same_size_and_time(tree: Make, loader: str) -> None:
    root = tree(SMALL)
    open_tree = opened(root, loader)
    file = root.path / "a" / "BUILD"
    try:
        assert texts(open_tree, "//a") == ["//a:l"]
        stamp = file.stat()
        root.write("a/BUILD", 'filegroup(name = "m", srcs = glob(["*.c"]))\n')
        os.utime(file, ns=(stamp.st_atime_ns, stamp.st_mtime_ns))
        assert texts(open_tree, "//a") == ["//a:m"]
    finally:
        open_tree.close()


def test_the_target_of_a_link_changes(tree: Make, loader: str) -> None:
    root = tree({**SMALL, "real": 'filegroup(name = "one")\n', "other": "x = y\n"})
    (root.path / "d").mkdir()
    link = root.path / "d" / "BUILD"
    link.symlink_to("../real")
    open_tree = opened(root, loader)
    try:
        assert texts(open_tree, "//d") == ["//d:one"]
        root.write("real", 'filegroup(name = "two")\n')
        assert texts(open_tree, "//d") == ["//d:two"]
        link.unlink()
        link.symlink_to("../other")
        assert any(b'"code":4' in line for line in open_tree.check(Question(("//d",))).lines)
    finally:
        open_tree.close()


def test_a_directory_that_cannot_be_listed(
    tree: Make, loader: str, monkeypatch: pytest.MonkeyPatch
) -> None:
    root = tree({**SMALL, "a/secret/BUILD": "", "a/secret/y.c": ""})
    listed = os.scandir

    def scandir(path: bytes) -> Iterator[os.DirEntry[bytes]]:
        if path.endswith(b"/secret"):
            raise PermissionError(13, "Permission denied")
        return listed(path)

    monkeypatch.setattr("os.scandir", scandir)
    open_tree = opened(root, loader)
    try:
        answer = open_tree.targets(Question())
        lines = list(answer.lines)
        assert answer.end.status == 1 and not answer.end.exact
        reason = "a/secret: cannot be listed: Permission denied"
        assert answer.end.notes == (f"//a is not exact: {reason}",)
        assert b'"exact":false' in lines[0] and b'"exact"' not in lines[1]
        assert b'"file":"a/secret"' in lines[2] and b'"code":"unreadable"' in lines[2]
        assert open_tree.check(Question(("//lib",))).end.status == 0
    finally:
        open_tree.close()


def test_a_file_and_a_directory_change_places(tree: Make, loader: str) -> None:
    root = tree({**SMALL, "b": ""})
    open_tree = opened(root, loader)
    try:
        assert texts(open_tree) == ["//a:l", "//lib:p"]
        root.delete("b")
        root.write("b/c/BUILD", 'filegroup(name = "t")\n')
        assert texts(open_tree) == ["//a:l", "//b/c:t", "//lib:p"]
        root.delete("b")
        root.write("b", "")
        assert texts(open_tree) == ["//a:l", "//lib:p"]
    finally:
        open_tree.close()


@pytest.mark.parametrize("how", ["die", "late", "half", "nonsense", "memory", "hang"])
@pytest.mark.parametrize("at", [1, 2, 3])
def test_a_loader_that_breaks_once(
    tree: Make, run: Runner, tmp_path: Path, how: str, at: int
) -> None:
    state = tmp_path / "state"
    state.mkdir()
    run.variables.update(
        REAL_LOADER=run.loader,
        SEFGULAW_LOADER=str(BROKEN),
        BROKEN_HOW=how,
        BROKEN_AT=str(at),
        BROKEN_TIMES="1",
        BROKEN_STATE=str(state),
    )
    others = {f"p{number}/BUILD": 'filegroup(name = "t")\n' for number in range(300)}
    root = tree({**SMALL, **others, ".sefgulaw.toml": "deadline_seconds = 2\n"})
    done = run("targets", "--no-daemon", cwd=root)
    assert len(done.lines) == 302 and done.words == [] and done.status == 0
    assert len(list(state.iterdir())) == 1


@pytest.mark.parametrize("how", ["die", "half", "nonsense"])
def test_a_loader_that_breaks_again_and_again(
    tree: Make, run: Runner, tmp_path: Path, how: str
) -> None:
    state = tmp_path / "state"
    state.mkdir()
    run.variables.update(
        REAL_LOADER=run.loader,
        SEFGULAW_LOADER=str(BROKEN),
        BROKEN_HOW=how,
        BROKEN_AT="1",
        BROKEN_TIMES="1000",
        BROKEN_STATE=str(state),
    )
    done = run("targets", "--no-daemon", cwd=tree(SMALL))
    assert (done.status, done.out) == (3, b"")
    assert len(done.words) == 1 and done.words[0].startswith("sefgulaw: the loader has ended: ")
