"""The tree as it is on disk: its files told to a loader, and the loader's answers kept.

A base holds what is on disk and nothing else. Whoever asks it calls `refresh` first, so an answer
is about the files as they were at some moment after the question.
"""

from __future__ import annotations

from collections.abc import Callable, Iterable, Mapping, Sequence
from dataclasses import dataclass
from functools import partial
from typing import Union

from sefgulaw import disk, telling
from sefgulaw.allocator import Allocator
from sefgulaw.bridge.tree import Bridge
from sefgulaw.disk import Ignore, Unreadable
from sefgulaw.event_file import EventFile
from sefgulaw.guilty import Guilty, Search
from sefgulaw.mirror import Mirror, Progress, no_progress
from sefgulaw.names import (
    BUILD_NAMES,
    Path,
    Pattern,
    basename,
    decode,
    encode,
    fits,
    is_encoded,
    is_source,
    parent,
)
from sefgulaw.needs import Needs
from sefgulaw.settings import StandIns
from sefgulaw.store import Store, Target
from sefgulaw.telling import Absent, Note, Told
from sefgulaw.watch import Watch
from sefgulaw.watch.fallback import FallBack
from sefgulaw.watch.poll import Poll
from sefgulaw.wire import MOST_NAMES, Loader, Stopped

Reader = Callable[[bytes], Union[bytes, Unreadable]]
"""Reads a source by its path on disk."""


@dataclass(frozen=True)
class Options:
    """How a base works: the loader's program, and what the settings say."""

    program: str
    workers: int = 1
    deadline: float | None = 30.0
    ignore: Ignore = Ignore()
    stand_ins: StandIns = "auto"
    rules: tuple[str, ...] = ()
    allocator: Allocator = Allocator()


class Base:
    """One tree, its loader and its answers."""

    def __init__(
        self,
        root: bytes,
        options: Options,
        watch: Watch,
        progress: Progress = no_progress,
        read: Reader | None = None,
        events: EventFile | None = None,
    ) -> None:
        self.root, self.options = root, options
        self.events = events
        self._read = read or partial(disk.read, root)
        self.watch = watch
        self.progress = progress
        self.needs = Needs()
        self.store = Store()
        self.mirror = Mirror(self._start_own, self._source, self._guilty, self._show)
        self.bridge = Bridge(self, options.rules)
        self.odd: set[Path] = set()
        self.touched: set[str] = set()
        self._again: frozenset[Path] = frozenset()
        self._stale: set[str] = set()
        self._packages: set[str] = set()
        self._sorted: list[str] | None = None
        self._loads = 0
        self._loaded: dict[str, int] = {}

    @staticmethod
    def open(root: bytes, options: Options, progress: Progress = no_progress) -> Base:
        """Opens a tree for one question, or for a few: it is walked over for each."""
        return Base(root, options, Poll(root, options.ignore), progress)

    @staticmethod
    def open_watched(
        root: bytes,
        options: Options,
        say: Callable[[str], None],
        progress: Progress = no_progress,
        events: EventFile | None = None,
    ) -> Base:
        """Opens a tree that is kept up by the kernel's events, where there are such."""
        watch = FallBack(root, options.ignore, say)
        return Base(root, options, watch, progress, events=events)

    def close(self) -> None:
        """Ends the loader and the watch."""
        self.mirror.close()
        self.bridge.close()
        self.watch.close()

    def start_loader(self) -> Loader:
        """Starts a loader that was told nothing, with the same options as the base's own."""
        return self._start(())

    def _start_own(self) -> Loader:
        """Starts the base's own loader, which alone writes events."""
        return self._start([] if self.events is None else self.events.begin())

    def _start(self, words: Sequence[str]) -> Loader:
        options = self.options
        return Loader.start(
            [options.program], options.workers, options.deadline, words, options.allocator
        )

    def look_at_events(self) -> None:
        """Sees whether the loader could write its events up to here."""
        if self.events is not None:
            self.events.look(self.mirror.answered)

    # What is on disk.

    def refresh(self) -> int:
        """Takes in what changed on disk, and returns the version: a count of edits."""
        changed = {encode(path) for path in self.watch.drain().paths}
        changed |= self._again
        if self.bridge.switch(self.options.stand_ins):
            self._stale |= self._packages
            self.touched |= self._packages
        if changed:
            dropped = self.bridge.drop(changed)
            self._stale.update(map(parent, dropped))
            changed |= dropped
            synced = self.mirror.sync(sorted(changed), self._note)
            self._again = synced.again
            self._note(synced.changed - synced.noted)
            self._take_in(synced.changed)
        return self.mirror.version

    def _source(self, path: Path) -> Told:
        """Returns what the loader is told of a path as the disk has it, or instead of it."""
        instead = self.bridge.told(path)
        if instead is not None:
            return instead
        name = decode(path)
        found = self.watch.files.get(name)
        if found is None:
            return Absent()
        if not fits(path):
            return telling.too_long(path)
        if found.kind == "other":
            return telling.EMPTY
        return telling.told_source(path, self._read(name))

    @property
    def unlisted(self) -> Mapping[Path, str]:
        """The directories that cannot be listed, each with the reason."""
        return {encode(path): why for path, why in self.watch.unlisted.items()}

    def content(self, path: Path) -> bytes:
        """Returns a source's own bytes as the disk has them; none where it cannot be read."""
        return self.readable(path) or b""

    def readable(self, path: Path) -> bytes | None:
        """Returns a source's own bytes as the disk has them; None where it cannot be read."""
        content = self._read(decode(path))
        return content if isinstance(content, bytes) else None

    def _note(self, changed: Iterable[Path]) -> None:
        """Notes what files need that were told otherwise than before."""
        told = self.told
        for path in changed:
            self.needs.update(path, told.get(path))
            if "__x" in path:
                self._note_odd(path)

    def _take_in(self, changed: Iterable[Path]) -> None:
        """Takes in which packages changes can reach, once all of them were noted."""
        for name in self.needs.affected(changed):
            self.touched.add(name)
            if self.needs.is_package(Path(name)):
                self._stale.add(name)
                self._note_package(name, True)
            else:
                self.store.forget(name)
                self._stale.discard(name)
                self._note_package(name, False)

    def _note_odd(self, path: Path) -> None:
        if path in self.told and is_encoded(path):
            self.odd.add(path)
        else:
            self.odd.discard(path)

    def _note_package(self, name: str, is_there: bool) -> None:
        if is_there != (name in self._packages):
            self._sorted = None
            if is_there:
                self._packages.add(name)
            else:
                self._packages.discard(name)

    def take_touched(self) -> set[str]:
        """Returns the packages that changes could reach since this was asked last."""
        touched, self.touched = self.touched, set()
        return touched

    def _guilty(self, names: Sequence[str], stop: Stopped) -> Sequence[Guilty]:
        search = Search(self.start_loader, self.told, self.needs, self.options.deadline)
        guilty = search.find(names)
        for one in guilty:
            affected = self.needs.affected([one.path])
            self._stale |= affected
            self.touched |= affected
        return guilty

    def _show(self, done: int, total: int, what: str) -> None:
        self.progress(done, total, what)

    # What the loader answers.

    @property
    def told(self) -> Mapping[Path, str]:
        """The files that the loader has."""
        return self.mirror.told

    @property
    def version(self) -> int:
        """How many edits were made since the tree was opened."""
        return self.mirror.version

    def names(self) -> list[str]:
        """Returns the names of all packages, in byte order."""
        if self._sorted is None:
            self._sorted = sorted(self._packages)
        return self._sorted

    def has_package(self, name: str) -> bool:
        """Tells whether a package is there."""
        return name in self._packages

    def covered(self, patterns: Sequence[Pattern]) -> list[str]:
        """Returns the packages that patterns ask for, in byte order, those not there among them.

        A pattern with a minus takes away from what the patterns before it ask for.
        """
        if len(patterns) == 1 and patterns[0].below and not patterns[0].package:
            return list(self.names())
        chosen: set[str] = set()
        for pattern in patterns:
            if pattern.below:
                found = {name for name in self.names() if pattern.covers(name)}
            else:
                found = {str(pattern.package)}
            if not pattern.negative:
                chosen |= found
            elif pattern.target is None:
                chosen -= found
        return sorted(chosen)

    def load(self, names: Sequence[str]) -> list[str]:
        """Asks the loader for those of the packages whose kept answers may be old.

        Returns the names of those whose answers differ from what was kept before.
        """
        wanted = [name for name in names if name in self._stale or name not in self.store]
        differing: list[str] = []
        done = 0
        self._loads += 1
        self._loaded.update(dict.fromkeys(wanted, self._loads))
        for answer in self.bridge.load(wanted):
            replaced = self.store.put(answer)
            differing += replaced.differing
            self._stale.difference_update(replaced.names)
            done += len(replaced.names)
            if len(wanted) > MOST_NAMES:
                self.progress(done, len(wanted), "packages")
        return differing

    def loaded_at(self, name: str) -> int:
        """Returns a number that is another one each time a package was asked for anew."""
        return self._loaded.get(name, 0)

    def targets(self, name: str) -> Sequence[Target]:
        """Returns the targets of a package that was loaded."""
        return self.store.targets(name)

    # What is left out.

    def build_file(self, package: str) -> Path:
        """Returns the BUILD file of a package, or the path that it would have."""
        return next(iter(self.needs.builds(Path(package))), Path(f"{package}/BUILD".lstrip("/")))

    def untold_packages(self) -> dict[str, Note]:
        """Returns the packages whose BUILD file the loader cannot be told of."""
        found: dict[str, Note] = {}
        for path, note in self.mirror.notes.items():
            if path not in self.told and basename(path) in BUILD_NAMES:
                found[parent(path)] = note
        return found

    def left_out(self) -> dict[str, list[Note]]:
        """Returns the files that are not told at all, by the package whose globs could see them."""
        found: dict[str, list[Note]] = {}
        for path, note in self.mirror.notes.items():
            if path not in self.told and not is_source(path):
                package = self.needs.nearest(parent(path))
                if package is not None:
                    found.setdefault(package, []).append(note)
        for path, why in self.unlisted.items():
            package = self.needs.nearest(parent(path))
            if package is not None:
                found.setdefault(package, []).append(Note(path, "unreadable", why))
        return found
