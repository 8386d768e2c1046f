"""A loader of its own that goes from one revision of a tree to another one."""

from __future__ import annotations

from collections.abc import Iterable, Mapping
from dataclasses import dataclass, field

from sefgulaw import disk
from sefgulaw.base import Base, Options
from sefgulaw.disk import Found, Ignore, Unreadable, bounded
from sefgulaw.gitrev import Revision, Working, differing
from sefgulaw.mirror import Progress
from sefgulaw.requests import Tree
from sefgulaw.watch import Changes

ON_DISK = "on disk"
"""Stands in place of an object's name for a file that the working tree has otherwise."""


@dataclass(frozen=True)
class State:
    """The files of one side: the object of each, or `ON_DISK`."""

    files: Mapping[bytes, str]
    revision: Revision | None
    left_out: tuple[tuple[bytes, str], ...] = ()


def state_of(revision: Revision, ignore: Ignore) -> State:
    """Returns a commit as a side."""
    return State(kept(revision.files, ignore), revision, revision.left_out)


def working_state(root: bytes, old: Revision, ignore: Ignore) -> State:
    """Returns the working tree as a side, by what it has otherwise than a commit."""
    working = Working.read(root)
    differ = differing(root, old.commit, None)
    files = {
        path: ON_DISK if path in differ else old.files.get(path, ON_DISK) for path in working.files
    }
    return State(kept(files, ignore), old, working.left_out)


def kept(files: Mapping[bytes, str], ignore: Ignore) -> Mapping[bytes, str]:
    """Returns the files that lie in no ignored directory."""
    if not ignore.directories:
        return files
    return {path: identity for path, identity in files.items() if not _is_ignored(path, ignore)}


def _is_ignored(path: bytes, ignore: Ignore) -> bool:
    directory = path.rpartition(b"/")[0]
    while directory:
        if ignore.covers(directory):
            return True
        directory = directory.rpartition(b"/")[0]
    return False


@dataclass
class Sides:
    """The files of one side as a watch, which tells what another side has otherwise."""

    root: bytes
    files: dict[bytes, Found] = field(default_factory=dict)
    unlisted: dict[bytes, str] = field(default_factory=dict)

    def __post_init__(self) -> None:
        self._state = State({}, None)
        self._contents: dict[bytes, bytes] = {}
        self._changed: set[bytes] = set()

    def go(self, state: State) -> None:
        """Goes to a side; the next `drain` tells what differs."""
        before, now = self._state.files, state.files
        changed = {path for path, identity in now.items() if before.get(path) != identity}
        changed |= before.keys() - now.keys()
        changed |= {path for path in now if now[path] == ON_DISK}
        for path in changed:
            if path not in now:
                self.files.pop(path, None)
            elif path not in self.files:
                self.files[path] = Found(path, "source" if disk.is_source(path) else "other")
        self._state = state
        self._changed |= changed
        self._contents = {}
        if state.revision is not None:
            wanted = [
                it for it in changed if disk.is_source(it) and now.get(it, ON_DISK) != ON_DISK
            ]
            self._contents = state.revision.texts(wanted)

    def read(self, path: bytes) -> bytes | Unreadable:
        """Reads a source as the present side has it."""
        if self._state.files.get(path) == ON_DISK:
            return disk.read(self.root, path)
        content = self._contents.get(path)
        if content is None and self._state.revision is not None:
            content = self._state.revision.texts([path]).get(path)
        if content is None:
            return Unreadable("dangling", "is not in this revision")
        return bounded(content)

    def drain(self) -> Changes:
        """Returns the files that differ from the side before."""
        changed, self._changed = frozenset(self._changed), set()
        return Changes(changed, False)

    def fileno(self) -> None:
        """There is nothing to wait for."""
        return None

    def close(self) -> None:
        """There is nothing to give back."""


class Pair:
    """The answers about an old revision, and a loader that goes to new ones from there."""

    def __init__(self, root: bytes, options: Options, old: Revision, progress: Progress) -> None:
        self.old = old
        self.old_state = state_of(old, options.ignore)
        self._sides = Sides(root)
        base = Base(root, options, self._sides, progress, self._sides.read)
        self.tree = Tree(base)
        try:
            self.go(self.old_state)
        except BaseException:
            self.close()
            raise
        raws = ((name, base.store.raw(name)) for name in base.names())
        self.before = {name: raw for name, raw in raws if raw is not None}
        self.untold_before = frozenset(base.untold_packages())

    @property
    def base(self) -> Base:
        """The tree of the side that was gone to last."""
        return self.tree.base

    def close(self) -> None:
        """Ends the loaders."""
        self.tree.close()

    def go(self, state: State) -> None:
        """Goes to a side and loads what is stale of it."""
        self._sides.go(state)
        self.base.refresh()
        self.base.load(self.base.names())

    def paths(self, state: State) -> Iterable[bytes]:
        """Returns the files that a side has otherwise than the old revision."""
        before, now = self.old_state.files, state.files
        changed = {path for path, identity in now.items() if before.get(path) != identity}
        return changed | (before.keys() - now.keys())
