"""Starts the daemon of a tree, so that two front ends at once start one."""

from __future__ import annotations

import fcntl
import os
import socket
import subprocess
import sys

from sefgulaw.allocator import anywhere
from sefgulaw.cli.output import NO_ANSWER, Failure
from sefgulaw.daemon.client import connect
from sefgulaw.daemon.place import NoPlace, Place

READY = b"+"
_HINT = "the daemon does not start: "
_CODE = "import sys; sys.path[:] = {path!r}; from sefgulaw.daemon.server import main; main()"


def started(place: Place, root: bytes, loader: str, events: str | None = None) -> socket.socket:
    """Returns a connection with the daemon of a tree, which is started if nobody listens.

    `events` is the file to which a daemon that is started writes events.
    """
    found = connect(place)
    if found is not None:
        return found
    try:
        place.make()
        lock = os.open(place.file("lock"), os.O_RDWR | os.O_CREAT | os.O_CLOEXEC, 0o600)
    except NoPlace as error:
        raise Failure(NO_ANSWER, f"{_HINT}{error}") from None
    except OSError as error:
        raise Failure(NO_ANSWER, f"{_HINT}{place.file('lock')}: {error.strerror}") from None
    try:
        fcntl.flock(lock, fcntl.LOCK_EX)
        found = connect(place)
        if found is None:
            _remove(place.file("socket"))
            _start(place, root, loader, events)
            found = connect(place)
        if found is None:
            raise Failure(NO_ANSWER, f"{_HINT}it has ended, see {place.file('log')}")
        return found
    finally:
        os.close(lock)


def _remove(path: str) -> None:
    try:
        os.unlink(path)
    except FileNotFoundError:
        pass


def _start(place: Place, root: bytes, loader: str, events: str | None) -> None:
    """Starts the daemon, and waits until it is ready or says why it is not."""
    ready, done = os.pipe()
    words = [os.fsdecode(root), loader, str(done), events or ""]
    path = [os.path.abspath(entry or ".") for entry in sys.path]
    try:
        subprocess.Popen(
            [sys.executable, "-I", "-c", _CODE.format(path=path), *words],
            pass_fds=[done],
            start_new_session=True,
            stdin=subprocess.DEVNULL,
            stdout=subprocess.DEVNULL,
            stderr=subprocess.DEVNULL,
            cwd="/",
            env=anywhere(),
        )
    except OSError as error:
        raise Failure(NO_ANSWER, f"{_HINT}{error.strerror}") from None
    finally:
        os.close(done)
    with os.fdopen(ready, "rb") as pipe:
        words_back = pipe.read()
    if not words_back.startswith(READY):
        status = int(words_back[:1] or b"3")
        said = words_back[1:].decode("utf-8", "surrogateescape")
        raise Failure(status, said or f"{_HINT}see {place.file('log')}")
