"""Who depends on what, from the told texts alone.

The answers of this module are sets that may be too large but are never too small. A label that does
not begin with `//` is resolved in the package of the file, and which directory that is can change.
So it is taken to mean its file below each directory above the file that loads it.
"""

from __future__ import annotations

from collections import defaultdict
from typing import Iterable, Iterator

from sefgulaw.names import BUILD_NAMES, ROOT, Path, basename, is_build, is_source, join, parent
from sefgulaw.text import load_labels


def _directories(directory: Path) -> Iterator[Path]:
    """Yields a directory and all above it, up to the root."""
    while directory:
        yield directory
        directory = parent(directory)
    yield ROOT


class Needs:
    """The loads and the directories of the files that a loader was told.

    `moves` is another number whenever a file has come or gone.
    """

    def __init__(self) -> None:
        self.moves = 0
        self._names: dict[str, set[str]] = {}
        self._packages: set[str] = set()
        self._below: dict[Path, set[str]] = {}
        self._labels: dict[Path, tuple[str, ...]] = {}
        self._users: defaultdict[Path, set[Path]] = defaultdict(set)
        self._moved: dict[Path, set[Path | None]] = {}

    def update(self, path: Path, text: str | None, own: Iterable[str] = ()) -> None:
        """Takes in a file's told text, or that the file is not told any more (None).

        Where another text is told than the file's own one, `own` are the labels that the file
        itself loads, and both count.
        """
        directory, name = parent(path), basename(path)
        if is_source(name):
            labels = () if text is None else (*load_labels(text), *own)
            self._set_labels(path, labels)
        names = self._names.get(directory)
        if (names is not None and name in names) == (text is not None):
            return
        self.moves += 1
        around = {self.nearest(directory)}
        if text is None:
            self._remove(directory, name)
        else:
            self._add(directory, name)
        if name in BUILD_NAMES:
            around |= {directory, self.nearest(parent(directory))}
        moved = self._moved.get(path)
        if moved is None:
            self._moved[path] = around
        else:
            moved |= around

    def has(self, path: Path) -> bool:
        """Tells whether a file is told."""
        return basename(path) in self._names.get(parent(path), ())

    def has_directory(self, path: Path) -> bool:
        """Tells whether a told file lies below a path."""
        return path in self._names or path in self._below

    def files_in(self, directory: Path) -> Iterator[str]:
        """Yields the names of the told files that lie in a directory itself."""
        return iter(self._names.get(directory, ()))

    def is_package(self, directory: Path) -> bool:
        """Tells whether a directory has a BUILD file among the told ones."""
        return directory in self._packages

    def nearest(self, directory: Path) -> Path | None:
        """Returns the nearest package at or above a directory."""
        while directory not in self._packages:
            if not directory:
                return None
            directory = parent(directory)
        return directory

    def _add(self, directory: Path, name: str) -> None:
        names = self._names.get(directory)
        if names is None:
            names = self._names[directory] = set()
            self._link(directory)
        names.add(name)
        if name in BUILD_NAMES:
            self._packages.add(directory)

    def _link(self, directory: Path) -> None:
        """Enters a directory into those above it, as far as they do not know it."""
        while directory:
            above, name = parent(directory), basename(directory)
            known = self._below.setdefault(above, set())
            if name in known:
                return
            known.add(name)
            directory = above

    def _remove(self, directory: Path, name: str) -> None:
        names = self._names.get(directory)
        if names is None:
            return
        names.discard(name)
        if names.isdisjoint(BUILD_NAMES):
            self._packages.discard(directory)
        if not names:
            del self._names[directory]
        while directory and directory not in self._names and not self._below.get(directory):
            self._below.pop(directory, None)
            self._below[parent(directory)].discard(basename(directory))
            directory = parent(directory)

    def _set_labels(self, path: Path, labels: tuple[str, ...]) -> None:
        before = self._labels.get(path, ())
        if labels == before:
            return
        for label in before:
            for target in _targets(path, label):
                self._users[target].discard(path)
                if not self._users[target]:
                    del self._users[target]
        for label in labels:
            for target in _targets(path, label):
                self._users[target].add(path)
        self._labels[path] = labels
        if not labels:
            del self._labels[path]

    def affected(self, changed: Iterable[Path]) -> set[str]:
        """Returns the packages whose answers may differ by the updates of some files since the last
        call.

        Directories that are no packages any more are among them. A file with no update counts as
        one whose text has changed.
        """
        packages: set[Path | None] = set()
        sources: set[Path] = set()
        boundaries: set[Path] = set()
        for path in changed:
            around = self._moved.pop(path, None)
            if around is not None:
                packages |= around
            if is_build(path):
                packages.add(parent(path))
                if around is not None:
                    boundaries.add(parent(path))
            elif path.endswith(".bzl"):
                sources.add(path)
        sources |= self._modules_at_or_below(boundaries)
        packages |= {parent(path) for path in self._with_loaders(sources) if is_build(path)}
        return {package for package in packages if package is not None}

    def _modules_at_or_below(self, directories: set[Path]) -> set[Path]:
        """The modules, there or only named by a load, in some directories and below them."""
        if not directories:
            return set()
        modules = (path for path in {*self._users, *self._labels} if path.endswith(".bzl"))
        return {path for path in modules if not directories.isdisjoint(_directories(parent(path)))}

    def _with_loaders(self, sources: Iterable[Path]) -> set[Path]:
        seen = set(sources)
        waiting = list(seen)
        while waiting:
            for user in self._users.get(waiting.pop(), ()):
                if user not in seen:
                    seen.add(user)
                    waiting.append(user)
        return seen

    def loaders(self, path: Path) -> set[Path]:
        """Returns the files that load a file, themselves or through other modules."""
        return self._with_loaders([path]) - {path}

    def load_order(self, sources: Iterable[Path]) -> list[Path]:
        """Returns some sources and the told modules that they load, each behind all that it loads.

        Modules that load each other in a cycle stand in the order in which they are met.
        """
        order: dict[Path, None] = {}
        entered: set[Path] = set()
        waiting = [(path, False) for path in reversed(list(sources))]
        while waiting:
            path, done = waiting.pop()
            if done:
                order[path] = None
            elif path not in entered:
                entered.add(path)
                waiting.append((path, True))
                loaded = [
                    to for label in self._labels.get(path, ()) for to in _targets(path, label)
                ]
                waiting.extend((to, False) for to in reversed(loaded) if self.has(to))
        return list(order)

    def builds(self, package: Path) -> list[Path]:
        """Returns the told BUILD files of a directory, the one that counts first."""
        names = self._names.get(package, set())
        return [join(package, name) for name in BUILD_NAMES if name in names]

    def closure(self, package: str) -> set[Path]:
        """Returns the files that a package's answer may depend on, so that a bench needs these
        alone.

        They are the files that its globs can see, down to the BUILD files of the packages below,
        and the modules that it reaches by loads, with the BUILD files of each directory on the way
        to all of them.
        """
        top = Path(package)
        found = set(self._visible(top))
        modules = self.load_order(self.builds(top))
        named = {
            to
            for path in modules
            for label in self._labels.get(path, ())
            for to in _targets(path, label)
        }
        found.update(modules)
        for directory in {top} | {parent(path) for path in named}:
            for at in _directories(directory):
                found.update(self.builds(at))
        return found

    def _visible(self, top: Path) -> Iterator[Path]:
        waiting = [top]
        while waiting:
            directory = waiting.pop()
            if directory != top and self.is_package(directory):
                yield from self.builds(directory)
                continue
            yield from (join(directory, name) for name in self._names.get(directory, ()))
            waiting.extend(join(directory, name) for name in self._below.get(directory, ()))


def _targets(path: Path, label: str) -> Iterator[Path]:
    """Yields every file that a label in a file may name."""
    if label.startswith("//"):
        package, colon, name = label[2:].partition(":")
        yield join(package, name if colon else package.rpartition("/")[2])
    elif not label.startswith("@"):
        name = label[1:] if label.startswith(":") else label
        for directory in _directories(parent(path)):
            yield join(directory, name)
