"""Where the daemon of a tree has its files."""

from __future__ import annotations

import os
import stat

try:
    # It is there before OpenSSL is, which `hashlib` takes some milliseconds to load.
    from _sha256 import sha256  # type: ignore[import]
except ImportError:
    from hashlib import sha256

LONGEST_SOCKET = 100


class NoPlace(Exception):
    """The daemon's directory cannot be used; the text is for a person."""


class Place:
    """The directory of one tree's daemon: `socket`, `lock`, `log`, `pid` and `events` lie in it."""

    def __init__(self, root: bytes) -> None:
        runtime = os.environ.get("XDG_RUNTIME_DIR", "")
        if not os.path.isdir(runtime):
            runtime = os.path.join(os.path.expanduser("~"), ".cache")
        self.above = os.path.join(runtime, "sefgulaw")
        self.directory = os.path.join(self.above, str(sha256(root).hexdigest())[:16])

    def file(self, name: str) -> str:
        """Returns the path of a file in the directory."""
        return os.path.join(self.directory, name)

    def make(self) -> None:
        """Makes the directory, which nobody else may look into."""
        try:
            os.makedirs(self.above, 0o700, exist_ok=True)
            try:
                os.mkdir(self.directory, 0o700)
            except FileExistsError:
                pass
            found = os.lstat(self.directory)
        except OSError as error:
            raise NoPlace(f"{self.directory}: {error.strerror}") from None
        if not stat.S_ISDIR(found.st_mode) or found.st_uid != os.getuid():
            raise NoPlace(f"{self.directory}: belongs to somebody else")
        if stat.S_IMODE(found.st_mode) & 0o077:
            os.chmod(self.directory, 0o700)

    def events(self) -> str | None:
        """Returns the file to which the daemons of this tree write events, if they do."""
        try:
            with open(self.file("events"), "rb") as file:
                return os.fsdecode(file.read()) or None
        except OSError:
            return None

    def keep_events(self, path: str) -> None:
        """Has this daemon and those after it write events to a file, until `forget_events`."""
        with open(self.file("events"), "wb") as file:
            file.write(os.fsencode(path))

    def forget_events(self) -> None:
        """Has the next daemon write no events."""
        try:
            os.unlink(self.file("events"))
        except OSError:
            pass

    def address(self) -> tuple[str, int | None]:
        """Returns a path of the socket that is short enough for the system.

        The second part is a descriptor that has to be closed once the path was used.
        """
        path = self.file("socket")
        if len(os.fsencode(path)) <= LONGEST_SOCKET:
            return path, None
        number = os.open(self.directory, os.O_PATH | os.O_DIRECTORY | os.O_CLOEXEC)
        return f"/proc/self/fd/{number}/socket", number
