"""The places of targets in the files of a tree, kept until the file or its answer differs."""

from __future__ import annotations

import ast
from collections.abc import Mapping
from typing import NamedTuple

from sefgulaw.base import Base
from sefgulaw.bench import Bench
from sefgulaw.locating import DEADLINE
from sefgulaw.names import Path
from sefgulaw.places import literal_name_of, target_places
from sefgulaw.text import Span, parse, statements
from sefgulaw.wire import Loader, Stopped


class Placed(NamedTuple):
    """The statement that declares a target, and whether it calls the target's rule itself.

    It is not sure where the statement was not found in time.
    """

    file: Path
    span: Span
    is_rule: bool
    is_sure: bool = True


class Placer:
    """Finds the statements that declare the targets of a base's packages."""

    def __init__(self, base: Base) -> None:
        self._base = base
        self._kept: dict[str, tuple[str, bytes, Mapping[str, Placed]]] = {}
        self._version = -1
        self._bench = Bench(self._start, base.told, base.needs)

    def close(self) -> None:
        """Ends the bench."""
        self._bench.close()

    def _start(self) -> Loader:
        options = self._base.options
        deadline = min(DEADLINE, options.deadline or DEADLINE)
        return Loader.start([options.program], 1, deadline, (), options.allocator)

    def places(self, package: str) -> Mapping[str, Placed]:
        """Returns the places of the targets of a package that was loaded, by their names.

        A target whose statement was not found in time stands at the file's first line.
        """
        base = self._base
        raw = base.store.raw(package)
        path = base.build_file(package)
        text = base.told.get(path)
        if raw is None or text is None:
            return {}
        kept = self._kept.get(package)
        if kept is not None and kept[0] == text and kept[1] is raw:
            return kept[2]
        found = self._found(package, path, text)
        if all(placed.is_sure for placed in found.values()):
            self._kept[package] = (text, raw, found)
        return found

    def _found(self, package: str, path: Path, text: str) -> Mapping[str, Placed]:
        if self._version != self._base.version:
            self._version = self._base.version
            self._bench.refresh()
        targets = self._base.targets(package)
        try:
            spans = target_places(self._bench, package, {target.name for target in targets})
        except Stopped:
            spans = {}
        own = self._own_spans(package, path, spans)
        source = self._base.content(path).decode("latin-1") if own is not spans else text
        first = Span(1, 1, 1, 1)
        found = {}
        for target in targets:
            span = own.get(target.name, first)
            is_rule = target.name in own and _calls(source, span, target.kind, target.name)
            found[target.name] = Placed(path, span, is_rule, target.name in own)
        return found

    def _own_spans(self, package: str, path: Path, spans: Mapping[str, Span]) -> Mapping[str, Span]:
        """Returns the places in the file itself, where the loader was told another text."""
        if not self._base.bridge.is_bridged(package):
            return spans
        source = self._base.content(path).decode("latin-1")
        starts: dict[int, Span] = {}
        for statement in statements(source):
            for line in range(statement.line, statement.end_line + 1):
                starts[line] = statement
        found = {}
        for name, span in spans.items():
            line = self._base.bridge.own_line(path, span.line)
            found[name] = starts.get(line, Span(line, 1, line, 1))
        return found


def _calls(text: str, span: Span, kind: str, name: str) -> bool:
    """Tells whether a statement is a call of a rule with a literal name."""
    tree = parse(text, span)
    body = tree.body if isinstance(tree, ast.Module) else []
    call = body[0].value if len(body) == 1 and isinstance(body[0], ast.Expr) else None
    if not isinstance(call, ast.Call) or literal_name_of(call) != name:
        return False
    function = call.func
    called = function.attr if isinstance(function, ast.Attribute) else None
    return (function.id if isinstance(function, ast.Name) else called) == kind
