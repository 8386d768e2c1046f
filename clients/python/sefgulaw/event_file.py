"""The file to which the loaders of a tree write their events, one loader after the other.

A loader makes its file anew. So before each of them starts, what the file has is moved beside it,
to the next number: FILE.1 has the events of the first loader, FILE.2 those of the second one, and
FILE those of the present one. Nothing is ever deleted, and no file has events of two loaders.
"""

from __future__ import annotations

import fcntl
import os
import re
import stat
import subprocess

OPTION = "--events"

_ATTEMPTS = 5
_PIECE = 1 << 20
_TRIAL_SECONDS = 20


class CannotRecord(Exception):
    """The file cannot take events; the text is for a person."""


class EventFile:
    """A file of events that one process holds.

    `fault` says why the events of the present loader are not all there, and is empty otherwise.
    """

    def __init__(self, path: str) -> None:
        self.path, self.fault = path, ""
        self._descriptor: int | None = None
        self._at = self._lines = 0
        self._silent = 0

    def claim(self) -> None:
        """Makes the file, empty and for this process alone. What it has is moved beside it."""
        self.release()
        try:
            for _ in range(_ATTEMPTS):
                if self._claim_once():
                    return
        except OSError as error:
            raise CannotRecord(error.strerror or str(error)) from None
        raise CannotRecord("somebody makes or moves it again and again")

    def release(self) -> None:
        """Lets another process have the file."""
        if self._descriptor is not None:
            os.close(self._descriptor)
        self._descriptor = None
        self._at = self._lines = 0

    def unlock(self) -> None:
        """Lets another process have the name of the file. Any thread may do so.

        The present loader may write on: its file is moved aside before another one is made.
        """
        if self._descriptor is not None:
            fcntl.flock(self._descriptor, fcntl.LOCK_UN)

    def give_up(self) -> None:
        """Takes the file away again, to which nobody has written."""
        self.release()
        try:
            os.unlink(self.path)
        except OSError:
            pass

    def try_out(self, program: str) -> None:
        """Starts a loader that is asked nothing, to see that it takes the option and the file."""
        try:
            done = subprocess.run(
                [program, "run", OPTION, self.path],
                stdin=subprocess.DEVNULL,
                stdout=subprocess.DEVNULL,
                stderr=subprocess.PIPE,
                timeout=_TRIAL_SECONDS,
                check=False,
            )
        except subprocess.TimeoutExpired:
            raise CannotRecord("the loader does not end when it is tried") from None
        except OSError as error:
            raise CannotRecord(f"{program}: {error.strerror}") from None
        said = done.stderr.decode("utf-8", "replace").strip().partition("\n")[0]
        if done.returncode or said:
            words = said or f"status {done.returncode}"
            raise CannotRecord(f"the loader cannot write events: {words}")

    def begin(self) -> list[str]:
        """Returns the words with which the next loader is started: none where it has no file.

        A loader that ended without an event may have been kept from its work by the file, so after
        two of them there are no events.
        """
        if self._descriptor is not None and os.fstat(self._descriptor).st_size:
            self._silent = 0
        elif self._silent > 1:
            self.fault = "two loaders in turn could write no events, so there are none"
            return []
        try:
            self.claim()
        except CannotRecord as error:
            self.fault = str(error)
            return []
        self.fault = ""
        self._silent += 1
        return [OPTION, self.path]

    def look(self, answered: int) -> None:
        """Sees whether the present loader has written an event for each line that it answered."""
        if self._descriptor is None or self.fault:
            return
        try:
            while piece := os.pread(self._descriptor, _PIECE, self._at):
                self._at += len(piece)
                self._lines += piece.count(b"\n")
            is_deleted = not os.fstat(self._descriptor).st_nlink
        except OSError as error:
            self.fault = error.strerror or str(error)
            return
        if self._lines < answered:
            self.fault = f"no events could be written after line {self._lines}"
        elif is_deleted:
            self.fault = "it was deleted while events were written"

    def is_at(self, path: str) -> bool:
        """Tells whether another path leads to the same place."""
        return os.path.realpath(path) == os.path.realpath(self.path)

    def size(self) -> int:
        """Returns how many bytes the file has. Any thread may ask."""
        try:
            return os.stat(self.path).st_size
        except OSError:
            return 0

    def _claim_once(self) -> bool:
        """Makes the file and locks it. One that is there is moved aside, or unlinked if empty.

        So no two loaders ever write to the same file, whoever holds its name.
        """
        path = os.path.realpath(self.path)
        flags = os.O_RDWR | os.O_CLOEXEC | os.O_NONBLOCK
        try:
            descriptor = os.open(path, flags | os.O_CREAT | os.O_EXCL, 0o666)
        except FileExistsError:
            _make_way_at(path, flags)
            return False
        try:
            fcntl.flock(descriptor, fcntl.LOCK_EX | fcntl.LOCK_NB)
            if _is_at(path, descriptor):
                self._descriptor, descriptor = descriptor, -1
                return True
        except (BlockingIOError, FileNotFoundError):
            pass
        finally:
            if descriptor >= 0:
                os.close(descriptor)
        return False


def _is_at(path: str, descriptor: int) -> bool:
    """Tells whether an open file has this path still."""
    named, found = os.stat(path), os.fstat(descriptor)
    return (named.st_ino, named.st_dev) == (found.st_ino, found.st_dev)


def _make_way_at(path: str, flags: int) -> None:
    """Moves a file aside that is there, unless somebody else holds it or has just moved it."""
    try:
        descriptor = os.open(path, flags)
    except FileNotFoundError:
        return
    try:
        _make_way(path, descriptor)
    except FileNotFoundError:
        pass
    finally:
        os.close(descriptor)


def _make_way(path: str, descriptor: int) -> None:
    found = os.fstat(descriptor)
    if not stat.S_ISREG(found.st_mode):
        raise CannotRecord("is not a regular file")
    try:
        fcntl.flock(descriptor, fcntl.LOCK_EX | fcntl.LOCK_NB)
    except BlockingIOError:
        raise CannotRecord("another daemon writes its events there") from None
    if not _is_at(path, descriptor):
        return
    if not found.st_size:
        os.unlink(path)
        return
    files = earlier(path)
    number = int(files[-1].rpartition(".")[2]) + 1 if files else 1
    os.rename(path, f"{path}.{number}")


def earlier(path: str) -> list[str]:
    """Returns the files beside one that have the events of earlier loaders, in their order."""
    directory, name = os.path.split(os.path.realpath(path))
    pattern = re.compile(re.escape(name) + r"\.([1-9][0-9]{0,8})")
    numbers = [int(it[1]) for it in map(pattern.fullmatch, os.listdir(directory)) if it]
    return [os.path.join(directory, f"{name}.{number}") for number in sorted(numbers)]
