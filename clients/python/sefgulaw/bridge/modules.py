"""Which modules a package of Bazel can load as they are."""

from __future__ import annotations

import json
from collections.abc import Callable, Collection

from sefgulaw.bench import Bench
from sefgulaw.bridge.labels import main_label
from sefgulaw.mirror import Mirror
from sefgulaw.names import Path, join, parent
from sefgulaw.needs import Needs
from sefgulaw.wire import Loader, Stopped


class Modules:
    """The exports of modules, asked on a bench, so that a bad module ends no other loader."""

    def __init__(self, start: Callable[[], Loader], mirror: Mirror, needs: Needs) -> None:
        self._start, self._mirror, self._needs = start, mirror, needs
        self.own: frozenset[str] = frozenset()
        self._bench: Bench | None = None
        self._exports: dict[Path, frozenset[str] | None] = {}
        self._stopped: dict[Path, dict[Path, str]] = {}
        self._labels: dict[str, set[str]] = {}

    def close(self) -> None:
        """Ends the bench's loader."""
        if self._bench is not None:
            self._bench.close()

    def forget(self) -> None:
        """Takes in that files may have changed."""
        self._exports.clear()
        self._labels.clear()
        if self._bench is not None:
            self._bench.refresh()

    def exports(self, label: str, package: str) -> Collection[str] | None:
        """Returns the names that a label's module exports; None where it is none or has a fault."""
        path = self._file(label, package)
        if path is None:
            return None
        self._labels.setdefault(package, set()).add(label)
        if path not in self._exports:
            self._exports[path] = self._asked(path)
        return self._exports[path]

    def leading_to(self, path: Path, package: str) -> set[str]:
        """Returns the labels of a package's loads whose modules are a module, or load it."""
        found = set()
        for label in self._labels.get(package, ()):
            file = self._file(label, package)
            if file is not None and path in self._needs.load_order([file]):
                found.add(label)
        return found

    def _file(self, label: str, package: str) -> Path | None:
        """Returns the file of a label, where it is in the package that the label says."""
        label = main_label(label, self.own)
        if label.startswith("@"):
            return None
        if label.startswith("//"):
            package, colon, name = label[2:].partition(":")
            name = name if colon else package.rpartition("/")[2]
        else:
            name = label.removeprefix(":")
        path = join(package, name)
        if not path.endswith(".bzl") or path not in self._mirror.told:
            return None
        return path if self._needs.nearest(parent(path)) == package else None

    def _asked(self, path: Path) -> frozenset[str] | None:
        if self._bench is None:
            self._bench = Bench(self._start, self._mirror.told, self._needs)
        closure = {it: self._mirror.told[it] for it in self._needs.load_order([path])}
        if self._stopped.get(path) == closure:
            return None
        try:
            answer = json.loads(self._bench.module(path))
        except Stopped:
            self._stopped[path] = closure
            return None
        names = answer.get("exports")
        return None if names is None else frozenset(str(it) for it in names)
