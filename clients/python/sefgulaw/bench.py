"""A second loader for experiments, which holds only what a few packages need.

A beginning of a file that is put at its own path in the base would make every package that loads
it run again, and text that nobody has saved would be seen by every other command. So both are told
to a bench. That a bench holds enough is not assumed: its first answer about a package is compared
with the one that the base has, and where they differ it is told the whole tree.
"""

from __future__ import annotations

import logging
from collections.abc import Callable, Iterable, Iterator, Mapping, Sequence

from sefgulaw.guilty import module_label
from sefgulaw.names import Path, is_build, parent
from sefgulaw.needs import Needs
from sefgulaw.telling import MOST_BYTES
from sefgulaw.text import load_labels
from sefgulaw.wire import MOST_EDITS, Command, Del, Load, Loader, Module, Put, Stopped, edit_line

MOST_PACKAGES = 2_000

_LOG = logging.getLogger("sefgulaw.bench")


def nothing_kept(_name: str) -> bytes | None:
    """Knows no answer of the base."""
    return None


class Bench:
    """A loader of its own over the texts of the base, with other texts for some paths.

    `told` and `needs` are those of the base, and `kept` gives the item that the base has about a
    package. `overlay` has the texts that stand in place of the base's.
    """

    def __init__(
        self,
        start: Callable[[], Loader],
        told: Mapping[Path, str],
        needs: Needs,
        kept: Callable[[str], bytes | None] = nothing_kept,
        overlay: Mapping[Path, str] | None = None,
    ) -> None:
        self.needs = needs
        self.overlay = dict(overlay or {})
        self._start, self._told, self._kept = start, told, kept
        self._loader: Loader | None = None
        self._has: dict[Path, str] = {}
        self._wanted: set[Path] = set()
        self._packages: set[str] = set()
        self._whole = False
        self._behind = False
        self._trial: Path | None = None

    def text(self, path: Path) -> str | None:
        """Returns the text that a path has on this bench, trials aside."""
        return self.overlay.get(path, self._told.get(path))

    def package(self, name: str) -> bytes:
        """Returns the loader's answer about a package."""
        return self.ask(Load([name]))

    def module(self, path: Path) -> bytes:
        """Returns the loader's answer about a .bzl file."""
        return self.ask(Module(module_label(path, self.needs)))

    def asking(self, path: Path) -> Command:
        """Returns the command whose answer tells what a source is worth."""
        if is_build(path):
            return Load([parent(path)])
        return Module(module_label(path, self.needs))

    def ask(self, command: Command) -> bytes:
        """Asks for packages or a module, as the bench's own texts have them."""
        self._fill(command)
        return self._answer(command)

    def try_text(self, path: Path, text: str, command: Command) -> bytes:
        """Asks with another text at a path, which has its own again in the next question."""
        self._fill(command, path)
        if self._has.get(path) != text:
            self._tell([Put(path, text)])
        self._trial = path
        return self._answer(command)

    def refresh(self) -> None:
        """Takes in what the base was told since the last question."""
        self._behind = True
        self._packages.clear()
        self._wanted.clear()

    def close(self) -> None:
        """Ends the bench's loader. It starts again with the next question."""
        if self._loader is not None:
            self._loader.kill()
        self._loader = None
        self._has.clear()
        self._trial = None
        self._whole = False
        self.refresh()

    def _answer(self, command: Command) -> bytes:
        try:
            return self._running().ask(command)
        except Stopped:
            self.close()
            raise

    def _running(self) -> Loader:
        if self._loader is None:
            self._loader = self._start()
        return self._loader

    def _fill(self, command: Command, trial: Path | None = None) -> None:
        """Tells the bench what a command needs, and its own text to the path of the last trial."""
        if self._trial is not None and self._trial != trial:
            self._put_back(self._trial)
        if isinstance(command, Load):
            self._add_packages([name for name in command.names if name not in self._packages])
        elif isinstance(command, Module):
            self._add_module(command.label)

    def _put_back(self, path: Path) -> None:
        text = self.text(path)
        self._trial = None
        if text is None:
            self._tell([Del(path)] if path in self._has else [])
        elif self._has.get(path) != text:
            self._tell([Put(path, text)])

    def _add_packages(self, names: Sequence[str]) -> None:
        if not names:
            return
        if len(self._packages) + len(names) > MOST_PACKAGES:
            self.close()
        self._packages.update(names)
        needed = {path for name in names for path in self.needs.closure(name)}
        self._wanted |= needed
        if self._behind or self.overlay:
            self._update()
        else:
            self._tell_own(needed)
        if not self.overlay:
            for name in names:
                self._compare(name)

    def _add_module(self, label: str) -> None:
        """Takes a module in with all that a package needs that loads it."""
        package, _, name = label[2:].partition(":")
        path = Path(f"{package}/{name}" if package else name)
        if self._whole and self._behind:
            self._update()
        if self._whole or path in self._wanted:
            return
        users = sorted(user for user in self.needs.loaders(path) if is_build(user))
        if users:
            self._add_packages([parent(users[0])])
        else:
            self._whole = True
            self._update()

    def _update(self) -> None:
        """Tells what the bench lacks, or has otherwise than the base."""
        self._trial = None
        self._behind = False
        if self._whole or self._loads_more():
            self._wanted.update(self._told, self.overlay)
        self._tell([Del(path) for path in self._has if self.text(path) is None])
        self._tell_own(self._wanted.union(self._has))

    def _tell_own(self, paths: Iterable[Path]) -> None:
        """Tells the bench's own texts of some paths, as far as it has them not or otherwise."""
        changes = []
        for path in sorted(paths):
            text = self.text(path)
            if text is not None and self._has.get(path) != text:
                changes.append(Put(path, text))
        self._tell(changes)

    def _loads_more(self) -> bool:
        """Tells whether a text of the overlay loads other files than the base's text does."""
        return any(
            set(load_labels(text)) != set(load_labels(self._told.get(path, "")))
            for path, text in self.overlay.items()
        )

    def _compare(self, name: str) -> None:
        """Compares the first answer about a package with the base's."""
        kept = self._kept(name)
        if kept is None or self._whole:
            return
        if self._answer(Load([name])) != b'{"packages":[%s]}' % kept:
            _LOG.warning("a bench answers otherwise about //%s, and is told the whole tree", name)
            self._whole = True
            self._update()

    def _tell(self, changes: Sequence[Put | Del]) -> None:
        for batch in _batches(changes):
            try:
                answer = self._running().ask_line(edit_line([it.words() for it in batch]))
            except Stopped:
                self.close()
                raise
            if not answer.startswith(b'{"ok":'):
                self.close()
                raise Stopped("killed", 0, f"a bench is refused what the base was told: {answer!r}")
            for change in batch:
                if isinstance(change, Del):
                    del self._has[change.path]
                else:
                    self._has[change.path] = change.text


def _batches(changes: Iterable[Put | Del]) -> Iterator[list[Put | Del]]:
    """Yields the changes in groups that fit into one line each."""
    group: list[Put | Del] = []
    size = 0
    for change in changes:
        length = len(change.words()) + 1
        if group and (len(group) == MOST_EDITS or size + length > MOST_BYTES):
            yield group
            group, size = [], 0
        group.append(change)
        size += length
    if group:
        yield group
