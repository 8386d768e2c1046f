"""What editors ask about one file: its faults, its targets, and what its labels lead to."""

from __future__ import annotations

import os
from collections.abc import Iterable, Iterator

from sefgulaw.lint import text_warnings
from sefgulaw.messages import Message, dumps, named
from sefgulaw.names import (
    BadLabel,
    Label,
    Path,
    encode,
    is_build,
    is_source,
    join,
    parent,
    real,
)
from sefgulaw.overlay import Overlay
from sefgulaw.placing import Placer
from sefgulaw.plain import Members
from sefgulaw.query.nodes import Nodes
from sefgulaw.requests import Answer, BadWords, End, Tree

METHODS = ("faults", "symbols", "place", "names", "find")
MOST_NAMES = 1_000
MOST_FOUND = 100


class Documents:
    """Answers about single files of a tree."""

    def __init__(self, tree: Tree, placer: Placer, nodes: Nodes) -> None:
        self._tree, self._placer, self._nodes = tree, placer, nodes

    def answer(self, method: str, params: Members, overlay: Overlay | None) -> Answer:
        """Answers one request about a file, with the unsaved texts of who asks."""
        self._tree.base.refresh()
        if method == "find":
            lines = list(self._found(_text(params, "text")))
            return Answer(End(0, self._tree.base.version), iter(lines))
        name = _text(params, "file")
        path = encode(os.fsencode(name))
        if not is_source(path):
            raise BadWords(f'"{name}": no BUILD and no .bzl file')
        if method == "faults":
            lines = self._faults(path, params, overlay)
        elif method == "symbols":
            lines = list(self._symbols(path))
        elif method == "place":
            lines = list(self._place(_text(params, "label"), path))
        else:
            lines = list(self._names(_text(params, "prefix"), path))
        return Answer(End(0, self._tree.base.version), iter(lines))

    def _package(self, path: Path) -> Path:
        """Returns the package that a file is read in."""
        if is_build(path):
            return parent(path)
        return self._tree.base.needs.nearest(parent(path)) or Path("")

    # Faults.

    def _faults(self, path: Path, params: Members, overlay: Overlay | None) -> list[bytes]:
        """Returns the faults of a file, and of so many packages that load it.

        They hold with the unsaved texts. What is only a warning comes last.
        """
        base = self._tree.base
        most = params.get("users", 0)
        count = most if isinstance(most, int) else 0
        own = overlay or Overlay(base)
        messages: list[Message] = []
        if is_build(path):
            messages += self._of_packages([parent(path)], own)
        elif path in base.told:
            messages += own.module_messages(path)
        users = sorted(parent(it) for it in base.needs.loaders(path) if is_build(it))
        messages += self._of_packages(users[:count], own)
        text = own.text(path)
        if text is None:
            text = base.content(path).decode("latin-1")
        package = real(self._package(path))
        known = {(it.file, it.span.line, it.text) for it in messages}
        for warning in text_warnings(path, text, [package]):
            if base.bridge.is_on:
                break
            if (warning.file, warning.span.line, warning.text) not in known:
                messages.append(warning)
        if overlay is None:
            own.close()
        return [self._tree.message_line(it) for it in dict.fromkeys(messages)]

    def _of_packages(self, names: Iterable[str], overlay: Overlay) -> list[Message]:
        """Returns the messages about packages. Those that unsaved texts reach are not loaded."""
        base = self._tree.base
        there = [it for it in names if base.has_package(it) or it in base.untold_packages()]
        reached = overlay.reached()
        untold = base.untold_packages()
        base.load([it for it in there if it not in reached and it not in untold])
        return self._tree.messages(there, overlay)

    # Symbols and places.

    def _symbols(self, path: Path) -> Iterator[bytes]:
        """Yields the targets of a BUILD file as it was saved, with their statements' lines."""
        package = parent(path)
        base = self._tree.base
        if not is_build(path) or path != base.build_file(package) or path not in base.told:
            return
        base.load([package])
        nodes = self._nodes.of(package)
        if nodes is None:
            return
        places = self._placer.places(package)
        for label, rule in nodes.rules.items():
            yield self._target_line(label, rule.kind, places.get(label.partition(":")[2]), path)

    def _target_line(self, label: str, kind: str, placed: object, path: Path) -> bytes:
        members: dict[str, object] = {"kind": kind, "first": 1, "last": 1}
        span = getattr(placed, "span", None)
        if span is not None:
            members["first"], members["last"] = span.line, span.end_line
        named(members, "label", real(label))
        named(members, "file", real(path))
        return dumps(members)

    def _place(self, text: str, path: Path) -> Iterator[bytes]:
        """Yields the target or the file that a label in a file leads to."""
        label = Label.read(text, self._package(path))
        if isinstance(label, BadLabel):
            return
        base = self._tree.base
        if base.has_package(label.package):
            base.load([label.package])
            nodes = self._nodes.of(label.package)
            full = f"//{label.package}:{label.name}"
            full = nodes.generated.get(full, full) if nodes is not None else full
            rule = nodes.rules.get(full) if nodes is not None else None
            if rule is not None:
                placed = self._placer.places(label.package).get(full.partition(":")[2])
                file = base.build_file(label.package)
                line = self._target_line(full, rule.kind, placed, file)
                attributes = dumps({name: value for name, value in rule.attrs.items()})
                yield b'{"attrs":' + attributes + b"," + line[1:]
                return
        found = join(label.package, label.name)
        if base.needs.has(found):
            members: dict[str, object] = {"kind": "source file", "first": 1, "last": 1}
            named(members, "label", str(label))
            named(members, "file", real(found))
            yield dumps(members)

    # Completion.

    def _names(self, prefix: str, path: Path) -> Iterator[bytes]:
        """Yields what a label that begins so may be: packages, targets and files."""
        base = self._tree.base
        head, colon, name = prefix.partition(":")
        count = 0
        if not colon and prefix.startswith("//"):
            wanted = encode(os.fsencode(prefix[2:]))
            for package in base.names():
                if package.startswith(wanted):
                    count += 1
                    yield dumps({"kind": "package", "name": f"//{real(package)}"})
                    if count == MOST_NAMES:
                        return
            return
        package = self._package(path)
        if colon and head:
            label = Label.read(f"{head}:x", package)
            if isinstance(label, BadLabel):
                return
            package = label.package
        yield from self._names_in(package, encode(os.fsencode(name if colon else prefix)))

    def _names_in(self, package: Path, begin: str) -> Iterator[bytes]:
        base = self._tree.base
        if not base.has_package(package):
            return
        base.load([package])
        nodes = self._nodes.of(package)
        head = f"//{package}:"
        found: dict[str, str] = {}
        if nodes is not None:
            found = {label[len(head) :]: rule.kind for label, rule in nodes.rules.items()}
            found |= {label[len(head) :]: "generated file" for label in nodes.generated}
        for name in base.needs.files_in(package):
            found.setdefault(name, "source file")
        for name in sorted(found)[:MOST_NAMES]:
            if name.startswith(begin):
                yield dumps({"kind": found[name], "name": real(name)})

    def _found(self, text: str) -> Iterator[bytes]:
        """Yields the targets of loaded packages whose labels have a text in them."""
        base = self._tree.base
        base.load(base.names())
        count = 0
        for package in base.names():
            nodes = self._nodes.of(package)
            for label in nodes.rules if nodes is not None else ():
                if text in real(label):
                    placed = self._placer.places(package).get(label.partition(":")[2])
                    kind = nodes.rules[label].kind if nodes is not None else ""
                    yield self._target_line(label, kind, placed, base.build_file(package))
                    count += 1
                    if count == MOST_FOUND:
                        return


def _text(params: Members, name: str) -> str:
    found = params.get(name)
    if not isinstance(found, str):
        raise BadWords(f"{name} is a string")
    return found
