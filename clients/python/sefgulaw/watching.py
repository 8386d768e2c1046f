"""Answers that are kept up: after each change the lines of the packages that differ."""

from __future__ import annotations

from collections.abc import Sequence
from typing import NamedTuple, Union

from sefgulaw.faults import is_faulty
from sefgulaw.messages import dumps, shown
from sefgulaw.names import Pattern, real
from sefgulaw.requests import Kept, Tree, covers, package_lines

LITTLE = 16

_Shown = Union[Kept, tuple[bytes, ...], None]


class Update(NamedTuple):
    """What is new about some packages. The lines replace all that was said of them before."""

    version: int
    packages: tuple[str, ...]
    lines: tuple[bytes, ...]
    notes: tuple[str, ...]

    def mark(self) -> bytes:
        """Returns the line of JSON that ends the update."""
        packages = [shown(real(name)) for name in self.packages]
        members: dict[str, object] = {"packages": packages, "version": self.version}
        if self.notes:
            members["notes"] = [shown(note) for note in self.notes]
        return dumps(members)


class Subscription:
    """Somebody who is told of each change in the packages that patterns ask for."""

    def __init__(self, tree: Tree, patterns: Sequence[Pattern]) -> None:
        self._tree, self._patterns = tree, patterns
        self._shown: dict[str, _Shown] = {}
        self._pending: set[str] = set()

    def first(self) -> Update:
        """Returns the answer about all the packages."""
        base = self._tree.base
        names = {*base.covered(self._patterns)}
        names |= {name for name in base.untold_packages() if covers(self._patterns, name)}
        return self._update(names, True)

    def touch(self, names: set[str]) -> None:
        """Takes in which packages changes could reach."""
        self._pending |= {name for name in names if covers(self._patterns, name)}

    def prepare(self) -> None:
        """Asks for what is new where it is little, so that `update` finds it answered."""
        if len(self._pending) <= LITTLE:
            base = self._tree.base
            base.load([name for name in self._pending if base.has_package(name)])

    def update(self) -> Update | None:
        """Returns what is new since the last answer, if anything is."""
        names, self._pending = self._pending, set()
        update = self._update(names, False) if names else None
        return update if update and update.packages else None

    def _update(self, names: set[str], is_first: bool) -> Update:
        base = self._tree.base
        untold = base.untold_packages()
        there = {name for name in names if name in untold or self._is_asked(name)}
        base.load([name for name in there if name not in untold])
        differing = sorted(it for it in names if self._differs(it, it in untold) or is_first)
        faulty = [name for name in differing if is_faulty(base, name) or name in untold]
        lines = [
            line
            for package in self._tree.kept(it for it in differing if it in there)
            for line in package_lines(package, self._patterns)
        ]
        lines += [self._tree.message_line(it) for it in self._tree.messages(faulty)]
        notes = self._tree.notes(differing)
        return Update(base.version, tuple(differing), tuple(lines), tuple(notes))

    def _is_asked(self, name: str) -> bool:
        """Tells whether a package is there, or is asked for by its own name."""
        if self._tree.base.has_package(name):
            return True
        return any(not it.below and not it.negative and it.package == name for it in self._patterns)

    def _differs(self, name: str, is_untold: bool) -> bool:
        """Tells whether a package is to be shown otherwise than it was, and notes how it is now."""
        base = self._tree.base
        now: _Shown = None
        if is_untold or is_faulty(base, name):
            now = tuple(self._tree.message_line(it) for it in self._tree.messages([name]))
        elif name in base.store:
            now = next(iter(self._tree.kept([name])), None)
        before = self._shown.get(name)
        if now is None:
            self._shown.pop(name, None)
        else:
            self._shown[name] = now
        return now != before
