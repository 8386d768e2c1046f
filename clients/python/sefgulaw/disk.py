"""What is in a directory: which files there are, and the bytes of those that the loader reads.

Of a file that is no BUILD and no .bzl file the loader needs the name alone, so its entry in a
directory is enough. Sources and links are looked at by `stat`. Only regular files are opened, and
never so that opening can wait: a pipe that has the name of a BUILD file stops nobody.
"""

from __future__ import annotations

import os
import stat
import time
from collections.abc import Iterator
from dataclasses import dataclass
from typing import Literal, NamedTuple

from sefgulaw.wire import LONGEST_TEXT

Kind = Literal["source", "other", "refused"]

VERSION_CONTROL = frozenset((b".git", b".hg", b".svn"))
_SETTLED_NS = 100_000_000
_BUILD_NAMES = (b"BUILD", b"BUILD.bazel")
_FLAGS = os.O_RDONLY | os.O_NONBLOCK | os.O_CLOEXEC | os.O_NOCTTY
_LEAST_ROOM = 4096


class Stamp(NamedTuple):
    """What tells one state of a file from another without reading it."""

    modified: int
    changed: int
    size: int
    inode: int
    device: int
    settled: bool
    """False where a second change right after the first one could look the same."""


class Found(NamedTuple):
    """A file below the root. `why` says why a file or a directory is refused."""

    path: bytes
    kind: Kind
    stamp: Stamp | None = None
    why: str = ""
    is_link: bool = False


@dataclass(frozen=True)
class Unreadable:
    """A source that cannot be read. `code` is a word for programs, `why` a phrase for people."""

    code: str
    why: str


@dataclass(frozen=True)
class Ignore:
    """Directories that are not entered, by their paths below the root."""

    directories: frozenset[bytes] = frozenset()

    def covers(self, path: bytes) -> bool:
        """Tells whether a directory is not entered for its own path or name."""
        if path in self.directories:
            return True
        return path.rpartition(b"/")[2] in VERSION_CONTROL


def is_source(path: bytes) -> bool:
    """Tells whether the loader reads the text of this file."""
    if path.endswith(_BUILD_NAMES):
        return path.rpartition(b"/")[2] in _BUILD_NAMES
    return path.endswith(b".bzl")


def stamp_of(found: os.stat_result) -> Stamp:
    """Returns the stamp of a file that was just looked at."""
    newest = max(found.st_mtime_ns, found.st_ctime_ns)
    settled = not -_SETTLED_NS < time.time_ns() - newest < _SETTLED_NS
    return Stamp(
        found.st_mtime_ns,
        found.st_ctime_ns,
        found.st_size,
        found.st_ino,
        found.st_dev,
        settled,
    )


def _reason(error: OSError) -> str:
    return error.strerror or str(error)


def look(root: bytes, path: bytes) -> Found | None:
    """Looks at one file. None says that no file is there, as where the path is a directory's."""
    full = os.path.join(root, path)
    try:
        entry = os.lstat(full)
    except OSError:
        return None
    if stat.S_ISDIR(entry.st_mode):
        return None
    return _file(full, path, stat.S_ISLNK(entry.st_mode))


def _file(full: bytes, path: bytes, is_link: bool) -> Found | None:
    """Looks at a file that is a source or a link."""
    try:
        found = os.stat(full)
    except OSError as error:
        if not is_source(path):
            return None
        dangling = is_link and isinstance(error, FileNotFoundError)
        if isinstance(error, FileNotFoundError) and not is_link:
            return None
        why = "is a link to a file that is not there" if dangling else _unread(error)
        return Found(path, "refused", None, why, is_link)
    if stat.S_ISDIR(found.st_mode):
        return None
    if not is_source(path):
        return Found(path, "other", None, "", is_link)
    if not stat.S_ISREG(found.st_mode):
        return Found(path, "refused", None, f"is {_kind_of(found.st_mode)}, and no file", is_link)
    return Found(path, "source", stamp_of(found), "", is_link)


def _kind_of(mode: int) -> str:
    if stat.S_ISFIFO(mode):
        return "a pipe"
    if stat.S_ISSOCK(mode):
        return "a socket"
    return "a device"


def _unread(error: OSError) -> str:
    return f"cannot be read: {_reason(error)}"


def read(root: bytes, path: bytes) -> bytes | Unreadable:
    """Reads a source, as far as the loader takes it."""
    full = os.path.join(root, path)
    try:
        number = os.open(full, _FLAGS)
    except FileNotFoundError:
        return Unreadable("dangling", "is a link to a file that is not there")
    except OSError as error:
        return Unreadable("unreadable", _unread(error))
    try:
        found = os.fstat(number)
        if not stat.S_ISREG(found.st_mode):
            return Unreadable("not a file", f"is {_kind_of(found.st_mode)}, and no file")
        return _content(number, found.st_size)
    except OSError as error:
        return Unreadable("unreadable", _unread(error))
    finally:
        os.close(number)


def _content(number: int, size: int) -> bytes | Unreadable:
    parts: list[bytes] = []
    length = 0
    while length <= LONGEST_TEXT:
        room = max(size + 1 - length, _LEAST_ROOM)
        part = os.read(number, min(room, LONGEST_TEXT + 1 - length))
        if not part:
            return b"".join(parts)
        parts.append(part)
        length += len(part)
    return _too_large(max(size, length))


def _too_large(size: int) -> Unreadable:
    return Unreadable("too large", f"has {size:,} bytes, and the loader takes {LONGEST_TEXT:,}")


def bounded(content: bytes) -> bytes | Unreadable:
    """Returns the content of a source as far as the loader takes it."""
    return content if len(content) <= LONGEST_TEXT else _too_large(len(content))


def walk(root: bytes, ignore: Ignore) -> Iterator[Found]:
    """Yields each file below a directory, in no particular order.

    A directory that cannot be listed is yielded as refused. So is the root, by the empty path.
    """
    waiting = [b""]
    while waiting:
        directory = waiting.pop()
        try:
            entries = os.scandir(os.path.join(root, directory))
        except OSError as error:
            yield Found(directory, "refused", None, f"cannot be listed: {_reason(error)}")
            continue
        with entries:
            for entry in entries:
                path = directory + b"/" + entry.name if directory else entry.name
                if enters(root, path, entry, ignore):
                    waiting.append(path)
                    continue
                found = entry_file(path, entry)
                if found:
                    yield found


def plain_file(path: bytes, name: bytes, entry: os.DirEntry[bytes]) -> Found | None:
    """Looks at an entry that is a regular file and has no second name, which most are.

    None says that the entry has to be looked at in another way.
    """
    if not entry.is_file(follow_symlinks=False):
        return None
    if not (name.endswith(b".bzl") or name in _BUILD_NAMES):
        return Found(path, "other")
    try:
        found = entry.stat(follow_symlinks=False)
    except OSError:
        return None
    if found.st_nlink > 1 or not stat.S_ISREG(found.st_mode):
        return None
    return Found(path, "source", stamp_of(found))


def enters(root: bytes, path: bytes, entry: os.DirEntry[bytes], ignore: Ignore) -> bool:
    """Tells whether an entry of a directory is a directory that is looked into."""
    if entry.is_dir(follow_symlinks=False):
        return not ignore.covers(path)
    return entry.is_symlink() and _is_directory(entry) and follows(root, path, ignore)


def _is_directory(entry: os.DirEntry[bytes]) -> bool:
    """Tells whether an entry is a directory or leads to one. A link in a circle leads nowhere."""
    try:
        return entry.is_dir()
    except OSError:
        return False


def entry_file(path: bytes, entry: os.DirEntry[bytes]) -> Found | None:
    """Looks at an entry of a directory that is not looked into. None says that it is no file."""
    if entry.is_symlink() or is_source(path):
        return None if _is_directory(entry) else _file(entry.path, path, entry.is_symlink())
    return None if entry.is_dir(follow_symlinks=False) else Found(path, "other")


def follows(root: bytes, path: bytes, ignore: Ignore) -> bool:
    """Tells whether a link to a directory is followed.

    It is not where it is ignored, is an output of Bazel, or leads to a directory above itself.
    """
    if ignore.covers(path) or (b"/" not in path and path.startswith(b"bazel-")):
        return False
    try:
        found = os.stat(os.path.join(root, path))
        above = path.rpartition(b"/")[0]
        while True:
            at = os.stat(os.path.join(root, above))
            if (at.st_dev, at.st_ino) == (found.st_dev, found.st_ino):
                return False
            if not above:
                return True
            above = above.rpartition(b"/")[0]
    except OSError:
        return False
