"""All targets, edges and modules of a tree, for code search."""

from __future__ import annotations

import json
from collections.abc import Iterable, Iterator
from dataclasses import dataclass

from sefgulaw.bench import Bench
from sefgulaw.messages import dumps, named, shown
from sefgulaw.names import BadLabel, Label, Path, parent, real
from sefgulaw.placing import Placer
from sefgulaw.query.nodes import Nodes, label_attributes
from sefgulaw.requests import FAULTS_STATUS, Answer, End, Question, Tree
from sefgulaw.text import load_labels
from sefgulaw.wire import Loader, Stopped


@dataclass(frozen=True)
class Module:
    """What a .bzl file leaves: its exported names, or None where it has a fault."""

    exports: tuple[str, ...] | None


class Indexer:
    """Lists what a tree has, and keeps what a module leaves until it can have changed."""

    def __init__(self, tree: Tree, placer: Placer, nodes: Nodes) -> None:
        self._tree, self._placer, self._nodes = tree, placer, nodes
        self._modules: dict[Path, tuple[int, Module]] = {}
        self._version = -1
        base = tree.base
        self._bench = Bench(self._start, base.told, base.needs)

    def close(self) -> None:
        """Ends the bench."""
        self._bench.close()

    def _start(self) -> Loader:
        return self._tree.base.start_loader()

    def answer(self, question: Question) -> Answer:
        """Answers with the targets, edges and modules of the packages that are asked for."""
        names, messages = self._tree.loaded(question)
        notes = self._tree.notes(names)
        faults = [self._tree.message_line(message) for message in messages]
        status = FAULTS_STATUS if messages else 0
        version = self._tree.base.version
        end = End(status, version, not notes, self._tree.all_notes(notes))
        lines = [line for name in names for line in self._package_lines(name)]
        lines += self._module_lines(names)
        return Answer(end, iter([*lines, *faults]))

    def _package_lines(self, package: str) -> Iterator[bytes]:
        nodes = self._nodes.of(package)
        if nodes is None:
            return
        inexact = bool(self._tree.exactness.reasons(package))
        marks: dict[str, object] = {"exact": False} if inexact else {}
        places = self._placer.places(package)
        file = self._tree.base.build_file(package)
        for label, rule in nodes.rules.items():
            placed = places.get(label.partition(":")[2])
            members: dict[str, object] = {**marks, "type": "target", "kind": rule.kind}
            named(members, "label", real(label))
            named(members, "file", real(file))
            members["first"] = placed.span.line if placed else 1
            members["last"] = placed.span.end_line if placed else 1
            members["made_by"] = "rule" if placed and placed.is_rule else "macro"
            yield dumps(members)
        for label, rule in nodes.rules.items():
            for name, labels in label_attributes(rule):
                for other in labels:
                    members = {**marks, "type": "edge", "through": name}
                    named(members, "from", real(label))
                    named(members, "to", real(other))
                    yield dumps(members)

    def _module_lines(self, packages: Iterable[str]) -> Iterator[bytes]:
        """Yields the modules that packages load, and those in the packages themselves."""
        base = self._tree.base
        wanted = set(self._nodes.modules(packages))
        inside = set(packages)
        for path in base.told:
            if path.endswith(".bzl") and base.needs.nearest(parent(path)) in inside:
                wanted.add(path)
        for path in sorted(wanted):
            if not base.bridge.is_stand_in(path):
                yield self._module_line(path)

    def _module_line(self, path: Path) -> bytes:
        package = self._tree.base.needs.nearest(parent(path)) or Path("")
        text = self._tree.base.told.get(path, "")
        members: dict[str, object] = {"type": "module"}
        named(members, "label", real(self._nodes.file_label(path)))
        named(members, "file", real(path))
        found = dict.fromkeys(_absolute(label, package) for label in load_labels(text))
        members["loads"] = [shown(real(it)) for it in found]
        exports = self._module(path).exports
        members["exports"] = list(exports or ())
        if exports is None:
            members["faulty"] = True
        return dumps(members)

    def _module(self, path: Path) -> Module:
        """Asks the bench what a module leaves, where something has changed since."""
        base = self._tree.base
        if self._version != base.version:
            self._version = base.version
            self._bench.refresh()
        kept = self._modules.get(path)
        if kept is not None and kept[0] == base.version:
            return kept[1]
        try:
            answer = json.loads(self._bench.module(path))
            exports = answer.get("exports")
        except Stopped:
            exports = None
        found = Module(None if exports is None else tuple(str(it) for it in exports))
        self._modules[path] = (base.version, found)
        return found


def _absolute(label: str, package: Path) -> str:
    """Returns a label of a load in full; one that cannot be read stays as it is."""
    read = Label.read(label, package)
    if isinstance(read, BadLabel):
        return label
    return f"//{read.package}:{read.name}"
