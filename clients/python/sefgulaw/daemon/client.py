"""The front end's side of the socket."""

from __future__ import annotations

import json
import os
import socket
from collections import deque
from collections.abc import Iterator

from sefgulaw import __version__
from sefgulaw.daemon.place import Place
from sefgulaw.daemon.protocol import OTHER_DAEMON, VERSION, Params, item_head, request

TYPE_CHECKING = False
if TYPE_CHECKING:
    from sefgulaw.daemon.members import End, Hello, Progress

_ROOM = 1 << 16


class Reply:
    """One line of an answer: exactly one of the three is there."""

    __slots__ = ("end", "item", "progress")

    def __init__(
        self,
        item: bytes | None = None,
        progress: Progress | None = None,
        end: End | None = None,
    ) -> None:
        self.item, self.progress, self.end = item, progress, end


class Lost(Exception):
    """The daemon has gone, or never was."""


class Other(Exception):
    """The daemon is one of another version or loader, and makes way for a new one."""


def connect(place: Place) -> socket.socket | None:
    """Connects with the daemon of a tree. None says that nobody listens."""
    found = socket.socket(socket.AF_UNIX, socket.SOCK_STREAM)
    number = None
    try:
        path, number = place.address()
        found.connect(path)
        return found
    except OSError:
        found.close()
        return None
    finally:
        if number is not None:
            os.close(number)


def hello(loader: str | None, events: str | None = None) -> Hello:
    """Returns who this front end is, and to which file it wants events, if it does."""
    stamp: list[object] = []
    if loader is not None:
        found = os.stat(loader)
        stamp = [os.path.realpath(loader), found.st_size, found.st_mtime_ns]
    greeting: Hello = {"protocol": VERSION, "version": __version__, "loader": stamp}
    if events is not None:
        greeting["events"] = events
    return greeting


class Client:
    """A connection with a daemon. Requests go one after the other."""

    def __init__(self, connection: socket.socket) -> None:
        self._connection = connection
        self._left = b""
        self._lines: deque[bytes] = deque()
        self._number = 0

    def close(self) -> None:
        """Ends the connection, and so what it waits for."""
        self._connection.close()

    def fileno(self) -> int:
        """The descriptor of the connection."""
        return self._connection.fileno()

    def ask(self, method: str, params: Params | None, greeting: Hello | None) -> Iterator[Reply]:
        """Sends one request, with a greeting before the first one, and yields its replies."""
        lines = b""
        if greeting is not None:
            self._number += 1
            lines = request(self._number, "hello", greeting)
        self._number += 1
        lines += request(self._number, method, params)
        try:
            self._connection.sendall(lines)
        except OSError:
            raise Lost from None
        if greeting is not None:
            end = next(iter(self._replies(self._number - 1))).end
            if end is None or end["status"] == OTHER_DAEMON:
                raise Other
        yield from self._replies(self._number)

    def _replies(self, number: int) -> Iterator[Reply]:
        head = item_head(number)
        while True:
            line = self._line()
            if line.startswith(head):
                yield Reply(item=line[len(head) : -1])
                continue
            try:
                members = json.loads(line)
            except ValueError:
                raise Lost from None
            if not isinstance(members, dict) or members.get("id") != number:
                continue
            if "progress" in members:
                yield Reply(progress=members["progress"])
            elif "end" in members:
                yield Reply(end=members["end"])
                return

    def _line(self) -> bytes:
        if not self._lines:
            self._receive()
        return self._lines.popleft()

    def _receive(self) -> None:
        """Waits until at least one more line is whole."""
        parts = [self._left]
        while b"\n" not in parts[-1]:
            try:
                part = self._connection.recv(_ROOM)
            except OSError:
                part = b""
            if not part:
                raise Lost
            parts.append(part)
        *lines, self._left = b"".join(parts).split(b"\n")
        self._lines.extend(lines)
