"""A tree that the kernel tells of, by inotify.

It is right by one rule: a directory is watched before it is listed, so what changes later is an
event behind it in the queue. Renames need no pairing: a directory that goes away is left, one that
comes is entered. Leaving removes the watch, so a directory that moves gets a new number and events
under the old one are passed over.

One directory can be known by several paths, since links to directories are followed. The kernel has
one number for it, and an event counts for each path. Where a file has other names that may lie
elsewhere, by links or as hard links, it is looked at in each drain, since the kernel tells of no
change there. It does not tell either that a known file gets a second name. Where that name is in
the tree it is found there. Not known is one that is made outside while the tree is watched, and
one that comes and goes between two drains.
"""

from __future__ import annotations

import array
import ctypes
import errno
import fcntl
import os
import stat
import struct
import termios
from collections.abc import Iterator

from sefgulaw import disk
from sefgulaw.disk import Found, Ignore
from sefgulaw.watch import CannotWatch, Changes, RootGone, is_changed
from sefgulaw.watch.local import is_local

MODIFY, ATTRIB, CLOSE_WRITE = 0x2, 0x4, 0x8
MOVED_FROM, MOVED_TO, CREATE, DELETE = 0x40, 0x80, 0x100, 0x200
DELETE_SELF, MOVE_SELF = 0x400, 0x800
OVERFLOW, IGNORED = 0x4000, 0x8000
ONLYDIR, DONT_FOLLOW, ISDIR = 0x1000000, 0x2000000, 0x40000000

_CONTENT = MODIFY | ATTRIB | CLOSE_WRITE
_NAMES = MOVED_FROM | MOVED_TO | CREATE | DELETE
_MASK = _CONTENT | _NAMES | DELETE_SELF | MOVE_SELF | ONLYDIR
_HEAD = struct.Struct("iIII")

_Identity = tuple[int, int]
"""Device and inode of what a name leads to."""


def _join(directory: bytes, name: bytes) -> bytes:
    return directory + b"/" + name if directory else name


class Inotify:
    """The files of a tree, kept up by events."""

    def __init__(self, root: bytes, ignore: Ignore) -> None:
        self.root, self.ignore = root, ignore
        self.files: dict[bytes, Found] = {}
        self.unlisted: dict[bytes, str] = {}
        self.overflows = 0
        self._paths: dict[int, set[bytes]] = {}
        self._watches: dict[bytes, int] = {}
        self._names: dict[bytes, set[bytes]] = {}
        self._elsewhere: dict[bytes, _Identity | None] = {}
        self._shared: set[_Identity] = set()
        self._changed: set[bytes] = set()
        self._whole = True
        self._is_begun = False
        self._identity = self._root_identity()
        if not is_local(root):
            raise CannotWatch("its file system does not tell of changes")
        self._library = ctypes.CDLL(None, use_errno=True)
        self._queue: int = self._library.inotify_init1(os.O_NONBLOCK | os.O_CLOEXEC)
        if self._queue < 0:
            raise CannotWatch(f"inotify cannot be used: {os.strerror(ctypes.get_errno())}")
        try:
            self._enter(b"")
            self._is_begun = True
        except BaseException:
            self.close()
            raise

    def fileno(self) -> int | None:
        """The queue of events, readable when there are some."""
        return self._queue

    def close(self) -> None:
        """Closes the queue, which ends all its watches."""
        if self._queue >= 0:
            os.close(self._queue)
            self._queue = -1

    def watches(self) -> int:
        """Returns how many directories the kernel watches for this tree."""
        return len(self._paths)

    def pending(self) -> frozenset[bytes]:
        """Returns the changes that were taken in and not yet given by `drain`."""
        return frozenset(self._changed)

    def drain(self) -> Changes:
        """Takes in the events that are in the queue when it is called, and no later ones.

        So a program that writes without an end cannot hold it up.
        """
        if self._root_identity() != self._identity:
            raise RootGone("it was moved or deleted")
        overflowed = False
        for number, mask, name in self._events():
            if mask & OVERFLOW:
                overflowed = True
            else:
                self._take(number, mask, name)
        if overflowed:
            self.overflows += 1
            self._whole = True
            self._enter(b"")
        self._look_at_shared()
        for path in tuple(self._elsewhere):
            self._look_elsewhere(path)
        changes = Changes(frozenset(self._changed), self._whole)
        self._changed, self._whole = set(), False
        return changes

    def _events(self) -> Iterator[tuple[int, int, bytes]]:
        waiting = array.array("i", [0])
        fcntl.ioctl(self._queue, termios.FIONREAD, waiting)
        left = waiting[0]
        while left > 0:
            try:
                data = os.read(self._queue, max(left, 4096))
            except BlockingIOError:
                return
            left -= len(data)
            at = 0
            while at < len(data):
                number, mask, _, length = _HEAD.unpack_from(data, at)
                at += _HEAD.size
                yield number, mask, data[at : at + length].rstrip(b"\0")
                at += length

    def _take(self, number: int, mask: int, name: bytes) -> None:
        """Takes in one event. A number that is not known is that of a directory that was left."""
        for directory in tuple(self._paths.get(number, ())):
            if name:
                self._name_changed(_join(directory, name), mask)
            elif mask & (IGNORED | DELETE_SELF | MOVE_SELF):
                self._directory_changed(directory)
            elif mask & ATTRIB:
                self._enter(directory)

    def _directory_changed(self, directory: bytes) -> None:
        if not directory:
            raise RootGone("it was moved or deleted")
        self._leave(directory)
        self._look(directory)

    def _name_changed(self, path: bytes, mask: int) -> None:
        directory, _, name = path.rpartition(b"/")
        if mask & ISDIR and not mask & _NAMES:
            if path in self._watches:
                self._enter(path)
            else:
                self._look(path)
            return
        if mask & _CONTENT and path not in self._elsewhere and not disk.is_source(path):
            if path in self.files:
                return
        if path in self._watches:
            self._leave(path)
        if self._look(path):
            self._names.setdefault(directory, set()).add(name)
        elif directory in self._names:
            self._names[directory].discard(name)
        if path in self.files and disk.is_source(path):
            self._changed.add(path)

    # Looks at what is there.

    def _full(self, path: bytes) -> bytes:
        return os.path.join(self.root, path) if path else self.root

    def _root_identity(self) -> _Identity:
        try:
            found = os.stat(self.root)
        except OSError as error:
            raise RootGone(error.strerror or str(error)) from error
        return found.st_dev, found.st_ino

    def _look(self, path: bytes) -> bool:
        """Looks at a name. Tells whether anything is there that has to be remembered."""
        try:
            entry = os.lstat(self._full(path))
        except OSError:
            self._set(path, None)
            self._elsewhere.pop(path, None)
            return False
        is_link = stat.S_ISLNK(entry.st_mode)
        self._note_elsewhere(path, entry)
        if stat.S_ISDIR(entry.st_mode) or (is_link and os.path.isdir(self._full(path))):
            self._set(path, None)
            follows = disk.follows(self.root, path, self.ignore) if is_link else True
            if follows and not self.ignore.covers(path):
                self._enter(path)
            return True
        self._set(path, disk.look(self.root, path))
        return True

    def _set(self, path: bytes, found: Found | None) -> None:
        before = self.files.get(path)
        if is_changed(before, found):
            self._changed.add(path)
        if found is None:
            self.files.pop(path, None)
        else:
            self.files[path] = found

    def _note_elsewhere(self, path: bytes, entry: os.stat_result) -> None:
        """Remembers a name that can change without an event in its directory."""
        is_link = stat.S_ISLNK(entry.st_mode)
        is_shared = stat.S_ISREG(entry.st_mode) and entry.st_nlink > 1
        if is_shared and path not in self._elsewhere:
            self._shared.add((entry.st_dev, entry.st_ino))
        if is_link or (is_shared and disk.is_source(path)):
            self._elsewhere[path] = self._leads_to(path)
        else:
            self._elsewhere.pop(path, None)

    def _leads_to(self, path: bytes) -> _Identity | None:
        try:
            found = os.stat(self._full(path))
        except OSError:
            return None
        return found.st_dev, found.st_ino

    def _look_at_shared(self) -> None:
        """Looks at the known names of files that were found under a second name."""
        shared, self._shared = self._shared, set()
        if not shared:
            return
        for path, found in tuple(self.files.items()):
            if found.stamp and (found.stamp.device, found.stamp.inode) in shared:
                if path not in self._elsewhere:
                    self._look(path)
        self._shared.clear()

    def _look_elsewhere(self, path: bytes) -> None:
        if path not in self._elsewhere:
            return
        if path in self._watches:
            if self._leads_to(path) == self._elsewhere[path]:
                return
            self._leave(path)
        self._look(path)

    # Enters and leaves directories.

    def _enter(self, top: bytes) -> None:
        """Watches a directory and all below it, each before it is listed."""
        waiting = [top]
        while waiting:
            directory = waiting.pop()
            full = self._full(directory)
            if not self._add_watch(directory, full):
                continue
            try:
                with os.scandir(full) as scanned:
                    entries = list(scanned)
            except OSError as error:
                if not directory:
                    raise RootGone(error.strerror or str(error)) from error
                self.unlisted[directory] = f"cannot be listed: {error.strerror or error}"
                entries = []
            else:
                self.unlisted.pop(directory, None)
            head = directory + b"/" if directory else b""
            names: set[bytes] = set()
            for entry in entries:
                name = entry.name
                names.add(name)
                path = head + name
                # Nothing is known of any path yet in the first walk.
                found = None if self._is_begun else disk.plain_file(path, name, entry)
                if found is not None:
                    self.files[path] = found
                    self._changed.add(path)
                elif self._look_at_entry(path, entry):
                    waiting.append(path)
            for name in self._names.get(directory, names) - names:
                self._gone(head + name)
            self._names[directory] = names

    def _look_at_entry(self, path: bytes, entry: os.DirEntry[bytes]) -> bool:
        """Looks at an entry of a directory. Tells whether it is a directory to enter."""
        try:
            if self._is_begun or entry.is_symlink() or disk.is_source(path):
                self._note_elsewhere(path, entry.stat(follow_symlinks=False))
            else:
                self._elsewhere.pop(path, None)
        except OSError:
            self._elsewhere.pop(path, None)
        enters = disk.enters(self.root, path, entry, self.ignore)
        found = None if enters else disk.entry_file(path, entry)
        if path in self._watches and not enters:
            self._leave(path)
        self._set(path, found)
        return enters

    def _add_watch(self, directory: bytes, full: bytes) -> bool:
        is_link = directory in self._elsewhere
        if is_link and not os.path.isdir(full):
            self._leave(directory)
            return False
        if is_link and not is_local(full):
            raise CannotWatch(f"{os.fsdecode(directory)} lies where nothing tells of changes")
        mask = _MASK if is_link or not directory else _MASK | DONT_FOLLOW
        number = self._library.inotify_add_watch(self._queue, full, mask)
        if number < 0:
            return self._not_watched(directory, ctypes.get_errno())
        before = self._watches.get(directory)
        if before is not None and before != number:
            self._remove_watch(directory, before)
        self._watches[directory] = number
        self._paths.setdefault(number, set()).add(directory)
        return True

    def _not_watched(self, directory: bytes, code: int) -> bool:
        """What cannot be watched is gone, cannot be read, or is one directory too many."""
        if code in (errno.ENOSPC, errno.ENOMEM):
            raise CannotWatch("there are too few inotify watches")
        if not directory:
            raise RootGone(os.strerror(code))
        self._leave(directory)
        if code == errno.EACCES:
            self.unlisted[directory] = f"cannot be listed: {os.strerror(code)}"
            self._names[directory] = set()
        return False

    def _remove_watch(self, directory: bytes, number: int) -> None:
        paths = self._paths.get(number)
        if paths is None:
            return
        paths.discard(directory)
        if not paths:
            del self._paths[number]
            self._library.inotify_rm_watch(self._queue, number)

    def _leave(self, top: bytes) -> None:
        """Forgets a directory and all below it. Its files become changes."""
        waiting = [top]
        while waiting:
            directory = waiting.pop()
            number = self._watches.pop(directory, None)
            if number is not None:
                self._remove_watch(directory, number)
            self.unlisted.pop(directory, None)
            for name in self._names.pop(directory, ()):
                path = _join(directory, name)
                if path in self._names or path in self._watches:
                    waiting.append(path)
                else:
                    self._set(path, None)
                self._elsewhere.pop(path, None)

    def _gone(self, path: bytes) -> None:
        """Forgets a name that is not there any more."""
        if path in self._watches or path in self._names:
            self._leave(path)
        self._set(path, None)
        self._elsewhere.pop(path, None)
