"""When a tree is quiet after a change, so that what is said of it is said once."""

from __future__ import annotations

import array
import fcntl
import os
import select
import stat
import termios
import time
from collections.abc import Callable

from sefgulaw.watch import Watch

QUIET, STEP = 0.002, 0.0004
MOST_NOISE = 1.0
MOST_SILENCE = 60.0
"""How long nothing may happen before a lock counts as one that git left behind when it died."""
MUCH = 1 << 16
"""How many bytes of events are taken in at once, far below what the kernel keeps."""
LEAST_PAUSE, MOST_PAUSE = 0.1, 1.0
"""How long a tree that nothing tells of is left alone: ten times as long as a walk takes."""

_LONGEST_LINK = 1 << 16

_Identity = tuple[int, int, int]
"""Device, inode and time of change of a lock."""


class Settling:
    """Waits for changes, and then until the queue of events was empty for a while.

    Git holds `index.lock` from before the first file of a checkout until after the last one, so a
    change of branch is told as one change, however long it takes.
    """

    def __init__(self, watch: Watch, root: bytes) -> None:
        self._watch, self._root = watch, root
        self._asked: float | None = None
        self._left_behind: _Identity | None = None

    def wait(self, timeout: float, take: Callable[[], None]) -> bool:
        """Waits for a change, at most so many seconds. Tells whether one may be there.

        What has changed is taken in by `take` while it is waited for more, which costs no time.
        """
        number = self._watch.fileno()
        if number is None:
            self._pause()
            self._wait_for_git(index_lock(self._root), take)
            self._asked = time.monotonic()
        else:
            poll = select.poll()
            poll.register(number, select.POLLIN)
            if not poll.poll(timeout * 1000):
                return False
            begun = time.monotonic()
            take()
            lock = index_lock(self._root)
            self._wait_for_quiet(begun, take)
            self._wait_for_git(lock, take)
        take()
        return True

    def _pause(self) -> None:
        """Waits before the next walk. What the caller did since the last pause was the walk."""
        took = 0.0 if self._asked is None else time.monotonic() - self._asked
        time.sleep(_pause_after(took))

    def _wait_for_quiet(self, begun: float, take: Callable[[], None]) -> None:
        """Waits until no event came for a while. A program that writes on is not waited for."""
        last = begun
        while last - begun < MOST_NOISE:
            if self._queued():
                last = time.monotonic()
                take()
            elif time.monotonic() - last >= QUIET:
                break
            time.sleep(STEP)

    def _wait_for_git(self, lock: bytes | None, take: Callable[[], None]) -> None:
        """Waits while git holds its lock and anything happens.

        A lock beside which nothing has happened for long is remembered as one that was left behind,
        so it holds up one answer and no other, unless git makes or writes it again. A gap in
        which nobody looked counts for a part, since git may have been held up as this process was.
        """
        held = before = _identity(lock)
        looked = taken = time.monotonic()
        silent, pause = 0.0, LEAST_PAUSE
        while held is not None and held != self._left_behind:
            moment, queued = time.monotonic(), self._queued()
            happens = queued > 0 or held != before
            silent += min(moment - looked, MOST_SILENCE / 4)
            looked = moment
            if queued >= MUCH or moment - taken >= pause:
                happens = self._takes(take) or happens
                taken = time.monotonic()
                pause = _pause_after(taken - moment)
            if happens:
                silent = 0.0
            elif silent >= MOST_SILENCE:
                self._left_behind = held
            time.sleep(QUIET)
            before, held = held, _identity(lock)

    def _takes(self, take: Callable[[], None]) -> bool:
        """Takes in what changed. Tells whether anything did, where no event tells it."""
        if self._watch.fileno() is not None:
            take()
            return False
        files = self._watch.files
        take()
        return files != self._watch.files

    def _queued(self) -> int:
        """Returns how many bytes of events are in the queue."""
        number = self._watch.fileno()
        found = array.array("i", [0])
        if number is not None:
            try:
                fcntl.ioctl(number, termios.FIONREAD, found)
            except OSError:
                return 0
        return found[0]


def index_lock(root: bytes) -> bytes | None:
    """Returns where git locks the index of the working tree in which a directory lies, if in one.

    The repository is found as git finds it: upwards, until another file system begins. It may come
    or move at any time, so it is looked for at each change, while it is waited for more of them.
    """
    at, device = root, None
    while True:
        try:
            here = os.stat(at).st_dev
        except OSError:
            return None
        if device not in (None, here):
            return None
        repository = _repository(at)
        if repository is not None:
            return os.path.join(repository, b"index.lock")
        above = os.path.dirname(at)
        if above == at:
            return None
        at, device = above, here


def _repository(top: bytes) -> bytes | None:
    """Returns the repository that `.git` is, or names as in a worktree and in a submodule."""
    git = os.path.join(top, b".git")
    try:
        if stat.S_ISREG(os.stat(git).st_mode):
            with open(git, "rb") as file:
                name, _, path = file.read(_LONGEST_LINK).partition(b" ")
            if name != b"gitdir:":
                return None
            git = os.path.join(top, path.rstrip(b"\r\n"))
    except OSError:
        return None
    return git if os.path.lexists(os.path.join(git, b"HEAD")) else None


def _identity(lock: bytes | None) -> _Identity | None:
    """Returns what tells a lock from any other one, and from itself before it was written."""
    if lock is None:
        return None
    try:
        found = os.lstat(lock)
    except OSError:
        return None
    return found.st_dev, found.st_ino, found.st_ctime_ns


def _pause_after(took: float) -> float:
    return min(max(10 * took, LEAST_PAUSE), MOST_PAUSE)
