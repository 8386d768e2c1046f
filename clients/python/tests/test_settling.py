"""When a change of a tree is complete: as soon as it is quiet, and git holds no lock any more."""

from __future__ import annotations

import os
import shutil
from collections.abc import Callable
from pathlib import Path

import pytest

from git_trees import git
from sefgulaw.settling import MOST_NOISE, QUIET, Settling, index_lock
from sefgulaw.watch import Watch
from sefgulaw.watch.inotify import Inotify
from sefgulaw.watch.poll import Poll
from watched_tree import IGNORE, put

SILENCE = 6.0


class Clock:
    """A clock that goes on only while somebody sleeps, and does what is to happen meanwhile."""

    def __init__(self) -> None:
        self.now = 0.0
        self._coming: list[tuple[float, Callable[[], object]]] = []

    def monotonic(self) -> float:
        return self.now

    def sleep(self, seconds: float) -> None:
        self.now += seconds
        while self._coming and self._coming[0][0] <= self.now:
            self._coming.pop(0)[1]()

    def after(self, seconds: float, happens: Callable[[], object]) -> None:
        """Has something happen so many seconds from now."""
        self._coming.append((self.now + seconds, happens))
        self._coming.sort(key=lambda one: one[0])


class Told:
    """A tree whose changes are taken in, by a watch of some kind."""

    def __init__(self, clock: Clock, root: Path, watch: Watch) -> None:
        self._clock, self._watch = clock, watch
        self._settling = Settling(watch, os.fsencode(root))
        self._paths: set[bytes] = set()
        self.taking: Callable[[], object] = lambda: None
        watch.drain()

    def take(self) -> None:
        self._paths |= self._watch.drain().paths
        self.taking()

    def wait(self) -> tuple[float, set[bytes]]:
        """Waits for a change. Returns how many seconds that took, and the paths that changed."""
        begun, self._paths = self._clock.now, set()
        assert self._settling.wait(0, self.take)
        return self._clock.now - begun, self._paths


@pytest.fixture
def clock(monkeypatch: pytest.MonkeyPatch) -> Clock:
    made = Clock()
    monkeypatch.setattr("sefgulaw.settling.time", made)
    monkeypatch.setattr("sefgulaw.settling.MOST_SILENCE", SILENCE)
    return made


@pytest.fixture
def root(tmp_path: Path) -> Path:
    """A working tree with a repository of which only the name is there."""
    path = tmp_path / "root"
    put(path, ".git/HEAD")
    put(path, "a/BUILD")
    return path


@pytest.fixture(params=[Inotify, Poll])
def told(request: pytest.FixtureRequest, root: Path, clock: Clock) -> Told:
    return Told(clock, root, request.param(os.fsencode(root), IGNORE))


@pytest.fixture
def by_events(root: Path, clock: Clock) -> Told:
    return Told(clock, root, Inotify(os.fsencode(root), IGNORE))


def lock_of(root: Path) -> Path:
    """Locks the index as git does, and returns the lock."""
    lock = root / ".git" / "index.lock"
    lock.touch(exist_ok=False)
    return lock


def test_one_change_is_told_at_once(by_events: Told, root: Path) -> None:
    put(root, "b/BUILD")
    took, paths = by_events.wait()
    assert paths == {b"b/BUILD"} and took < 3 * QUIET


def test_what_comes_while_a_change_is_taken_in_is_waited_for(
    by_events: Told, root: Path, clock: Clock
) -> None:
    names = [f"b{number}/BUILD" for number in range(9)]
    left = list(names)

    def slowly() -> None:
        clock.now += 5 * QUIET
        if left:
            put(root, left.pop())

    by_events.taking = slowly
    put(root, "BUILD")
    assert by_events.wait()[1] == {b"BUILD", *(name.encode() for name in names)}


def test_a_program_that_writes_on_is_not_waited_for(
    by_events: Told, root: Path, clock: Clock
) -> None:
    for step in range(2000):
        clock.after(step * QUIET / 2, lambda: put(root, "BUILD"))
    put(root, "BUILD")
    assert MOST_NOISE <= by_events.wait()[0] < MOST_NOISE + 3 * QUIET


def test_a_checkout_that_stalls_is_one_change(told: Told, root: Path, clock: Clock) -> None:
    lock = lock_of(root)
    names = [f"d{number}/BUILD" for number in range(60)]
    moment = 0.0
    for number, name in enumerate(names):
        moment += SILENCE / 2 if number % 20 == 19 else 0.05
        clock.after(moment, lambda name=name: put(root, name))  # type: ignore[misc]
    moment += SILENCE / 2
    clock.after(moment, lock.unlink)
    put(root, "BUILD")
    took, paths = told.wait()
    assert moment <= took < moment + 1.2
    assert paths >= {b"BUILD", *(name.encode() for name in names)}


def test_a_lock_that_was_left_behind_holds_up_one_answer(told: Told, root: Path) -> None:
    lock = lock_of(root)
    put(root, "b/BUILD")
    took, paths = told.wait()
    assert SILENCE <= took < 4 * SILENCE and b"b/BUILD" in paths
    for name in ("c/BUILD", "d/BUILD"):
        put(root, name)
        took, paths = told.wait()
        assert took < 1.1 and name.encode() in paths
    lock.unlink()
    put(root, "e/BUILD")
    assert told.wait()[0] < 1.1


def made_again(lock: Path) -> None:
    """Makes a lock that is another file than the one before."""
    another = lock.with_name("another")
    another.touch()
    another.replace(lock)


def written(lock: Path) -> None:
    """Writes a lock, so that its time of change is another one."""
    before = lock.stat().st_ctime_ns
    while lock.stat().st_ctime_ns == before:
        lock.write_text("DIRC")


@pytest.mark.parametrize("touch", [made_again, written])
def test_a_lock_that_git_made_or_wrote_again_is_waited_for(
    by_events: Told, root: Path, clock: Clock, touch: Callable[[Path], None]
) -> None:
    lock = lock_of(root)
    put(root, "b/BUILD")
    by_events.wait()
    touch(lock)
    clock.after(SILENCE / 2, lambda: put(root, "c/BUILD"))
    clock.after(SILENCE, lock.unlink)
    put(root, "b/BUILD", "#")
    took, paths = by_events.wait()
    assert took >= SILENCE and paths == {b"b/BUILD", b"c/BUILD"}


def test_a_lock_that_is_written_is_not_left_behind(told: Told, root: Path, clock: Clock) -> None:
    lock = lock_of(root)
    for step in range(8):
        clock.after(step * SILENCE / 2, lambda: made_again(lock))
    clock.after(4 * SILENCE, lock.unlink)
    put(root, "b/BUILD")
    assert 4 * SILENCE <= told.wait()[0] < 4 * SILENCE + 1.2


def test_a_process_that_was_held_up_waits_on(by_events: Told, root: Path, clock: Clock) -> None:
    lock = lock_of(root)
    put(root, "b/BUILD")

    def hold_up() -> None:
        clock.now += 3 * SILENCE

    clock.after(1, hold_up)
    clock.after(3 * SILENCE + 2, lambda: put(root, "c/BUILD"))
    clock.after(3 * SILENCE + 4, lock.unlink)
    took, paths = by_events.wait()
    assert took >= 3 * SILENCE + 4 and paths == {b"b/BUILD", b"c/BUILD"}


def test_the_queue_of_events_is_not_too_short_for_a_long_checkout(root: Path, clock: Clock) -> None:
    put(root, "a/x.bzl")
    watch = Inotify(os.fsencode(root), IGNORE)
    told = Told(clock, root, watch)
    lock = lock_of(root)
    limit = int(Path("/proc/sys/fs/inotify/max_queued_events").read_text())

    def burst() -> None:
        for number in range(limit // 8):
            os.utime(root / "a/BUILD", (number, number))
            os.utime(root / "a/x.bzl", (number, number))

    for step in range(6):
        clock.after(MOST_NOISE + 0.01 * step, burst)
    clock.after(MOST_NOISE + 1, lock.unlink)
    put(root, "b/BUILD")
    assert told.wait()[1] == {b"b/BUILD", b"a/BUILD", b"a/x.bzl"}
    assert watch.overflows == 0


# Where the lock is.


def lock_by_git(root: Path) -> bytes:
    """Returns where git itself says that the lock is."""
    words = ("rev-parse", "--path-format=absolute", "--git-path", "index")
    return os.path.realpath(os.fsencode(git(root, *words))) + b".lock"


def found_lock(root: Path) -> bytes | None:
    found = index_lock(os.path.realpath(os.fsencode(root)))
    return None if found is None else os.path.realpath(found)


@pytest.fixture
def repository(tmp_path: Path) -> Path:
    """A repository with a commit."""
    path = tmp_path / "re po"
    put(path, "deep/down/BUILD")
    git(path, "init", "-q")
    git(path, "add", ".")
    git(path, "commit", "-q", "-m", "x")
    return path


def test_the_lock_is_where_git_has_it(repository: Path, tmp_path: Path) -> None:
    git(repository, "worktree", "add", "-q", str(tmp_path / "other"))
    outer = tmp_path / "outer"
    put(outer, "BUILD")
    git(outer, "init", "-q")
    allowed = ("-c", "protocol.file.allow=always")
    git(outer, *allowed, "submodule", "add", "-q", str(repository), "sub module")
    git(tmp_path, "clone", "-q", "--separate-git-dir", "apart", str(repository), "cloned")
    (tmp_path / "linked").symlink_to(repository / "deep")
    (repository / "deep/down/.git").mkdir()
    roots = [repository, tmp_path / "other", outer, outer / "sub module", tmp_path / "cloned"]
    below = [path / "deep/down" for path in roots if path != outer]
    locks = set()
    for path in [*roots, *below, tmp_path / "linked/down"]:
        assert found_lock(path) == lock_by_git(path), path
        locks.add(found_lock(path))
    assert len(locks) == len(roots)


def test_a_checkout_in_a_worktree_is_one_change(
    repository: Path, tmp_path: Path, clock: Clock
) -> None:
    git(repository, "worktree", "add", "-q", str(tmp_path / "other"))
    root = tmp_path / "other" / "deep"
    told = Told(clock, root, Inotify(os.fsencode(root), IGNORE))
    lock = Path(os.fsdecode(lock_by_git(root)))
    lock.touch(exist_ok=False)
    clock.after(2, lambda: put(root, "down/BUILD", "#"))
    clock.after(4, lock.unlink)
    put(root, "x/BUILD")
    took, paths = told.wait()
    assert took >= 4 and paths == {b"down/BUILD", b"x/BUILD"}


def test_a_repository_that_comes_later_is_found(tmp_path: Path, clock: Clock) -> None:
    root = tmp_path / "top" / "root"
    put(root, "BUILD")
    told = Told(clock, root, Inotify(os.fsencode(root), IGNORE))
    put(root, "BUILD", "1")
    assert told.wait()[0] < 1
    for place, others in ((tmp_path / "top", "22"), (root, "333")):
        git(place, "init", "-q")
        lock = lock_of(place)
        clock.after(4, lock.unlink)
        put(root, "BUILD", others)
        assert told.wait()[0] >= 4
        lock.touch(exist_ok=False)
        shutil.move(place / ".git", place / "moved")
        put(root, "BUILD")
        assert told.wait()[0] < 1
        shutil.move(place / "moved", place / ".git")
        lock.unlink()


ODD = {
    "empty": b"",
    "no link": b"ref: refs/heads/main\n",
    "no place": b"gitdir: /nonexistent/repository\n",
    "no name": b"gitdir: \0\n",
    "long": b"gitdir: " + b"x" * (1 << 20),
}


@pytest.mark.parametrize("kind", [*ODD, "pipe", "directory", "dangling", "unreadable"])
def test_what_is_no_repository_is_passed_over(root: Path, kind: str) -> None:
    name = root / "a" / ".git"
    if kind == "pipe":
        os.mkfifo(name)
    elif kind == "directory":
        name.mkdir()
    elif kind == "dangling":
        name.symlink_to("nonexistent")
    elif kind == "unreadable":
        name.symlink_to(name)
    else:
        name.write_bytes(ODD[kind])
    assert found_lock(root / "a") == os.path.realpath(os.fsencode(root)) + b"/.git/index.lock"
    assert index_lock(b"/nonexistent") is None


def test_another_file_system_is_not_looked_into(
    root: Path, monkeypatch: pytest.MonkeyPatch
) -> None:
    inner, looked = os.fsencode(root / "a"), os.stat

    class Elsewhere:
        st_dev = -1

    def look(path: bytes) -> object:
        return Elsewhere if path == inner else looked(path)

    with monkeypatch.context() as patch:
        patch.setattr("sefgulaw.settling.os.stat", look)
        found = index_lock(inner), index_lock(os.fsencode(root))
    assert found == (None, os.fsencode(root / ".git/index.lock"))
