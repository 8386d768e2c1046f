"""Which answers rest on something that the loader could not be told as it is.

A file with an odd name is told by its encoded name. A pattern of a glob mostly matches both forms
or neither, and then nothing differs. Where it does not, or where patterns are computed, the answer
is marked as not exact. So it is where a glob could see a file that is not told at all.
"""

from __future__ import annotations

import ast
import re
from collections.abc import Iterator

from sefgulaw.base import Base
from sefgulaw.names import Path, decode, is_build, parent, real
from sefgulaw.text import parse


STAND_INS = "it rests on stand-ins"


class Exactness:
    """The packages of a base whose answers are not exact, each with the reasons."""

    def __init__(self, base: Base) -> None:
        self._base = base
        self._state: tuple[int, tuple[Path, ...]] = (-1, ())
        self._left_out: dict[str, list[str]] = {}
        self._odd: dict[str, list[Path]] = {}
        self._patterns: dict[Path, tuple[str, list[str] | None]] = {}

    def reasons(self, name: str) -> list[str]:
        """Returns why a package's answer is not exact. An exact one has no reason."""
        self._update()
        reasons = list(self._left_out.get(name, ()))
        if self._base.bridge.is_bridged(name):
            return [STAND_INS, *reasons]
        odd = self._odd.get(name)
        if odd:
            reasons += self._odd_names(name, odd)
        return reasons

    def _update(self) -> None:
        base = self._base
        state = (base.version, tuple(base.unlisted))
        if self._state == state:
            return
        self._state = state
        self._left_out = {
            name: [f"{real(note.path)}: {note.text}" for note in notes]
            for name, notes in base.left_out().items()
        }
        self._odd = {}
        for path in sorted(base.odd):
            package = base.needs.nearest(parent(path))
            if package is not None:
                self._odd.setdefault(package, []).append(path)

    def _odd_names(self, name: str, odd: list[Path]) -> list[str]:
        reasons = []
        for source in self._base.needs.load_order(self._base.needs.builds(Path(name))):
            patterns = self._patterns_of(source)
            shown = real(source)
            if patterns is None:
                reasons.append(f"{shown}: computes a glob's patterns beside {real(odd[0])}")
                continue
            for path in odd:
                inner = path[len(name) + 1 :] if name else path
                plain = decode(inner).decode("latin-1")
                for pattern in patterns:
                    if matches(pattern, inner) != matches(pattern, plain):
                        reasons.append(f"{shown}: pattern {pattern!r} beside {real(path)}")
        return reasons

    def _patterns_of(self, path: Path) -> list[str] | None:
        text = self._base.told.get(path, "")
        kept = self._patterns.get(path)
        if kept is None or kept[0] != text:
            kept = (text, literal_patterns(text, is_build(path)))
            self._patterns[path] = kept
        return kept[1]


def literal_patterns(text: str, in_build: bool) -> list[str] | None:
    """Returns the patterns of a source's globs; None where a pattern is no literal."""
    if "glob" not in text:
        return []
    tree = parse(text)
    if not isinstance(tree, ast.Module):
        return None
    patterns: list[str] = []
    called: set[int] = set()
    for node in ast.walk(tree):
        if not isinstance(node, ast.Call) or not _is_glob(node.func, in_build):
            continue
        called.add(id(node.func))
        given = node.args[:2] + [it.value for it in node.keywords if it.arg in _LISTS]
        for argument in given:
            strings = list(_strings(argument))
            if None in strings:
                return None
            patterns += [it for it in strings if it is not None]
    for node in ast.walk(tree):
        if isinstance(node, ast.expr) and _is_glob(node, in_build) and id(node) not in called:
            return None
    return patterns


_LISTS = ("include", "exclude")


def _is_glob(function: ast.expr, in_build: bool) -> bool:
    if isinstance(function, ast.Name):
        return in_build and function.id == "glob"
    return (
        isinstance(function, ast.Attribute)
        and function.attr == "glob"
        and isinstance(function.value, ast.Name)
        and function.value.id == "native"
    )


def _strings(node: ast.expr) -> Iterator[str | None]:
    """Yields the strings of a list of literals, and None for anything else."""
    if not isinstance(node, (ast.List, ast.Tuple)):
        yield None
        return
    for element in node.elts:
        literal = isinstance(element, ast.Constant) and isinstance(element.value, str)
        yield element.value if literal and isinstance(element, ast.Constant) else None


def matches(pattern: str, path: str) -> bool:
    """Tells whether a pattern of a glob matches a path, as the language's page says."""
    return _match(pattern.split("/"), path.split("/"))


def _match(pattern: list[str], parts: list[str]) -> bool:
    if not pattern:
        return not parts
    if pattern[0] == "**":
        return any(_match(pattern[1:], parts[at:]) for at in range(len(parts) + 1))
    if not parts:
        return False
    expression = ".*".join(re.escape(piece) for piece in pattern[0].split("*"))
    return bool(re.fullmatch(expression, parts[0], re.S)) and _match(pattern[1:], parts[1:])
