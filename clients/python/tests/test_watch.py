"""A watched tree beside a walk over it that remembers nothing."""

from __future__ import annotations

import os
import subprocess
import time
from collections.abc import Callable, Iterator
from pathlib import Path

import pytest

from sefgulaw.watch import RootGone, Watch
from sefgulaw.watch.inotify import Inotify
from sefgulaw.watch.poll import Poll
from watched_tree import IGNORE, Operations, naive, put, state


@pytest.fixture
def root(tmp_path: Path) -> Path:
    path = tmp_path / "root"
    path.mkdir()
    return path


@pytest.fixture
def open_watch(root: Path) -> Iterator[Callable[[], Inotify]]:
    opened: list[Inotify] = []

    def start() -> Inotify:
        opened.append(Inotify(os.fsencode(root), IGNORE))
        return opened[-1]

    yield start
    for watch in opened:
        watch.close()


def compare_random_operations(root: Path, seed: int, steps: int, watch: Watch) -> None:
    outside = root.parent / "outside"
    outside.mkdir()
    operations = Operations(os.fsencode(root), os.fsencode(outside), seed)
    before = naive(os.fsencode(root))
    watch.drain()
    kinds: set[object] = set()
    for step in range(steps):
        for _ in range(operations.random.randint(1, 8)):
            operations.one()
        if operations.random.random() < 0.3:
            operations.second_name()
        changes = watch.drain()
        now = naive(os.fsencode(root))
        assert state(watch) == now, f"seed {seed}, step {step}"
        differing = {
            path for path in now.keys() | before.keys() if now.get(path) != before.get(path)
        }
        assert differing <= changes.paths, f"seed {seed}, step {step}"
        kinds |= {it[0] for it in now.values()}
        before = now
    assert kinds == {"source", "other", "refused"}


@pytest.mark.parametrize("seed", range(2))
def test_random_operations_beside_a_fresh_walk(
    root: Path, open_watch: Callable[[], Inotify], seed: int
) -> None:
    compare_random_operations(root, seed, 500, open_watch())


def test_random_operations_beside_walks_of_polling(root: Path) -> None:
    compare_random_operations(root, 7, 200, Poll(os.fsencode(root), IGNORE))


@pytest.mark.long
@pytest.mark.timeout(900)
@pytest.mark.parametrize("seed", range(10, 15))
def test_many_random_operations_beside_a_fresh_walk(
    root: Path, open_watch: Callable[[], Inotify], seed: int
) -> None:
    compare_random_operations(root, seed, 10_000, open_watch())


def test_the_first_drain_has_every_file(root: Path, open_watch: Callable[[], Inotify]) -> None:
    put(root, "a/BUILD")
    put(root, "a/x.c")
    put(root, ".git/BUILD")
    put(root, "ignored/BUILD")
    watch = open_watch()
    assert watch.drain() == (frozenset([b"a/BUILD", b"a/x.c"]), True)
    assert watch.drain() == (frozenset(), False)


def test_two_writes_that_look_the_same_are_both_told(
    root: Path, open_watch: Callable[[], Inotify]
) -> None:
    put(root, "BUILD", "1")
    watch = open_watch()
    watch.drain()
    stamp = os.stat(root / "BUILD")
    put(root, "BUILD", "2")
    os.utime(root / "BUILD", ns=(stamp.st_atime_ns, stamp.st_mtime_ns))
    assert watch.drain().paths == {b"BUILD"}


def test_contents_of_other_files_are_no_changes(
    root: Path, open_watch: Callable[[], Inotify]
) -> None:
    put(root, "x.c", "1")
    watch = open_watch()
    watch.drain()
    put(root, "x.c", "22")
    assert watch.drain().paths == set()
    os.unlink(root / "x.c")
    assert watch.drain().paths == {b"x.c"}


def test_a_directory_moved_in_is_told_and_so_is_a_write_inside(
    root: Path, tmp_path: Path, open_watch: Callable[[], Inotify]
) -> None:
    watch = open_watch()
    watch.drain()
    put(tmp_path, "new/a/b/c/BUILD")
    os.rename(tmp_path / "new", root / "new")
    assert watch.drain().paths == {b"new/a/b/c/BUILD"}
    put(root, "new/a/b/c/BUILD", "#")
    assert watch.drain().paths == {b"new/a/b/c/BUILD"}
    os.rename(root / "new/a", root / "moved")
    assert watch.drain().paths == {b"new/a/b/c/BUILD", b"moved/b/c/BUILD"}
    put(root, "moved/b/c/BUILD", "##")
    assert watch.drain().paths == {b"moved/b/c/BUILD"}


def test_a_link_to_a_directory_is_followed(
    root: Path, tmp_path: Path, open_watch: Callable[[], Inotify]
) -> None:
    put(tmp_path, "one/BUILD")
    put(tmp_path, "two/y.bzl")
    put(root, "a/BUILD")
    os.symlink("../../one", root / "a/link")
    os.symlink("..", root / "a/above")
    os.symlink("a", root / "b")
    os.symlink("a", root / "bazel-out")
    watch = open_watch()
    assert watch.drain().paths == {b"a/BUILD", b"a/link/BUILD", b"b/BUILD", b"b/link/BUILD"}
    put(tmp_path, "one/BUILD", "#")
    assert watch.drain().paths == {b"a/link/BUILD", b"b/link/BUILD"}
    os.rename(tmp_path / "one", tmp_path / "three")
    os.rename(tmp_path / "two", tmp_path / "one")
    assert b"a/link/BUILD" in watch.drain().paths
    assert state(watch) == naive(os.fsencode(root))
    put(tmp_path, "one/y.bzl", "#")
    assert watch.drain().paths == {b"a/link/y.bzl", b"b/link/y.bzl"}


def test_a_file_that_is_written_under_another_name_is_told(
    root: Path, tmp_path: Path, open_watch: Callable[[], Inotify]
) -> None:
    put(tmp_path, "target", "1")
    put(tmp_path, "shared", "1")
    os.symlink("../target", root / "BUILD")
    os.link(tmp_path / "shared", root / "y.bzl")
    watch = open_watch()
    watch.drain()
    put(tmp_path, "target", "22")
    put(tmp_path, "shared", "22")
    assert watch.drain().paths == {b"BUILD", b"y.bzl"}
    os.unlink(tmp_path / "target")
    assert b"BUILD" in watch.drain().paths
    assert watch.files[b"BUILD"].kind == "refused"


def test_the_root_moved_or_deleted(root: Path, open_watch: Callable[[], Inotify]) -> None:
    put(root, "BUILD")
    watch = open_watch()
    watch.drain()
    os.rename(root, root.parent / "elsewhere")
    with pytest.raises(RootGone):
        watch.drain()
    root.mkdir()
    with pytest.raises(RootGone):
        watch.drain()
    with pytest.raises(RootGone):
        Poll(os.fsencode(root / "absent"), IGNORE).drain()
    with pytest.raises(RootGone):
        Inotify(os.fsencode(root / "absent"), IGNORE)


@pytest.mark.long
def test_a_drain_ends_while_a_program_writes_without_an_end(
    root: Path, open_watch: Callable[[], Inotify]
) -> None:
    put(root, "BUILD")
    watch = open_watch()
    watch.drain()
    words = "while :; do : > a.bzl; : > b.bzl; done"
    with subprocess.Popen(["sh", "-c", words], cwd=root) as writer:
        try:
            deadline = time.monotonic() + 20
            while not watch.drain().paths:
                assert time.monotonic() < deadline
            start = time.monotonic()
            for _ in range(20):
                watch.drain()
            assert time.monotonic() - start < 60
        finally:
            writer.kill()
