"""Which file ends the loader.

A request for many packages ended a loader, by memory, by time, or for a reason that nobody knows.
Another small loader is told only what these packages need, and is asked for one file after another
in the order of the loads. The file at which it ends is guilty, if it ends a fresh loader again.
"""

from __future__ import annotations

from collections.abc import Callable, Iterator, Mapping, Sequence
from dataclasses import dataclass

from sefgulaw.names import ROOT, Path, is_build, parent
from sefgulaw.needs import Needs
from sefgulaw.telling import FAILING, MOST_BYTES, Note
from sefgulaw.wire import MOST_EDITS, Load, Loader, Module, Put, Stopped, Why, edit_line


@dataclass(frozen=True)
class Guilty:
    """A file that ends the loader, and the files of which one has to change before it is tried."""

    path: Path
    note: Note
    closure: frozenset[Path]


def module_label(path: Path, needs: Needs) -> str:
    """Returns the label of a .bzl file in the package that it belongs to."""
    package = needs.nearest(parent(path)) or ROOT
    return f"//{package}:{path[len(package) + 1:] if package else path}"


def note_of(path: Path, stop: Stopped, deadline: float | None) -> Note:
    """Returns what people are told of a file that ended the loader so."""
    words: dict[Why, str] = {
        "memory": "takes over 256 MiB to load",
        "budget": "takes more turns to load than the loader makes",
        "deadline": f"takes over {deadline or 0:g} seconds to load",
    }
    code = stop.why if stop.why in words else "stops"
    return Note(path, code, words.get(stop.why, "stops the loader"))


class Search:
    """Looks for guilty files on loaders of its own."""

    def __init__(
        self,
        start: Callable[[], Loader],
        told: Mapping[Path, str],
        needs: Needs,
        deadline: float | None = None,
    ) -> None:
        self._start, self._told, self._needs, self._deadline = start, told, needs, deadline
        self._guilty: dict[Path, Guilty] = {}
        self._innocent: set[Path] = set()
        self._loader: Loader | None = None

    def find(self, names: Sequence[str]) -> list[Guilty]:
        """Returns the files that end a loader when these packages are asked for."""
        try:
            for at, name in enumerate(names):
                for path in self._order(name):
                    self._try(path, name, names[at:])
        finally:
            self._end()
        return list(self._guilty.values())

    def _order(self, name: str) -> Iterator[Path]:
        """Yields what one package loads, each file behind those that it loads, its BUILD last."""
        builds = self._needs.builds(Path(name))[:1]
        for path in self._needs.load_order(builds):
            if not is_build(path) or path in builds:
                yield path

    def _try(self, path: Path, name: str, rest: Sequence[str]) -> None:
        if path in self._innocent or path in self._guilty:
            return
        if self._loader is None:
            self._loader = self._filled(rest)
        try:
            self._ask(self._loader, path, name)
        except Stopped as stop:
            self._end()
            if stop.why == "deadline" or self._ends_alone(path, name):
                self._blame(path, name, stop)
                return
        self._innocent.add(path)

    def _ends_alone(self, path: Path, name: str) -> bool:
        """Tells whether a file ends a loader that has loaded nothing but what this file needs."""
        loader = self._filled([name])
        try:
            for needed in self._order(name):
                self._ask(loader, needed, name)
                if needed == path:
                    return False
        except Stopped:
            return True
        finally:
            loader.kill()
        return False

    def _ask(self, loader: Loader, path: Path, name: str) -> None:
        if is_build(path):
            loader.ask(Load([name]))
        else:
            loader.ask(Module(module_label(path, self._needs)))

    def _blame(self, path: Path, name: str, stop: Stopped) -> None:
        if is_build(path):
            closure = frozenset(self._needs.closure(name))
        else:
            closure = frozenset(self._needs.load_order([path]))
        note = note_of(path, stop, self._deadline)
        self._guilty[path] = Guilty(path, note, closure | {path})

    def _filled(self, names: Sequence[str]) -> Loader:
        """Starts a loader that has what some packages need."""
        loader = self._start()
        paths = {path for name in names for path in self._needs.closure(name)}
        words: list[str] = []
        size = 0
        for path in sorted(paths):
            text = FAILING if path in self._guilty else self._told.get(path)
            if text is None:
                continue
            one = Put(path, text).words()
            if words and (len(words) == MOST_EDITS or size + len(one) > MOST_BYTES):
                loader.ask_line(edit_line(words))
                words, size = [], 0
            words.append(one)
            size += len(one) + 1
        if words:
            loader.ask_line(edit_line(words))
        return loader

    def _end(self) -> None:
        if self._loader is not None:
            self._loader.kill()
        self._loader = None
