"""Whether a root is that of a Bazel tree, and by which names the tree knows itself."""

from __future__ import annotations

import ast
import os

from sefgulaw.text import parse

MARKERS = ("MODULE.bazel", "REPO.bazel", "WORKSPACE.bazel", "WORKSPACE")
_FUNCTIONS = ("module", "workspace")

_Stamp = tuple[int, int, int]


class Repository:
    """The files in a root that make it a Bazel tree. They are read again when they change."""

    def __init__(self, root: bytes) -> None:
        self._root = root
        self._read: dict[str, tuple[_Stamp, frozenset[str]]] = {}

    def names(self) -> frozenset[str] | None:
        """Returns the names that stand for the tree itself in labels; None where it is no tree."""
        found: frozenset[str] | None = None
        for marker in MARKERS:
            path = os.path.join(self._root, os.fsencode(marker))
            try:
                at = os.stat(path)
            except OSError:
                continue
            if not os.path.isfile(path):
                continue
            stamp = (at.st_mtime_ns, at.st_size, at.st_ino)
            kept = self._read.get(marker)
            if kept is None or kept[0] != stamp:
                kept = self._read[marker] = (stamp, names_in(path))
            found = (found or frozenset()) | kept[1]
        return found


def is_bazel(root: bytes) -> bool:
    """Tells whether a directory is the root of a Bazel tree."""
    return Repository(root).names() is not None


def names_in(path: bytes) -> frozenset[str]:
    """Returns the names that a file gives to the tree."""
    try:
        with open(path, "rb") as file:
            text = file.read(1 << 20).decode("latin-1")
    except OSError:
        return frozenset()
    tree = parse(text)
    if not isinstance(tree, ast.Module):
        return frozenset()
    found = set()
    for statement in tree.body:
        call = statement.value if isinstance(statement, ast.Expr) else None
        if isinstance(call, ast.Call) and isinstance(call.func, ast.Name):
            if call.func.id in _FUNCTIONS:
                found |= {_text(it.value) for it in call.keywords if it.arg in _NAMES}
    return frozenset(found - {""})


_NAMES = ("name", "repo_name")


def _text(node: ast.expr) -> str:
    is_text = isinstance(node, ast.Constant) and isinstance(node.value, str)
    return str(node.value) if is_text and isinstance(node, ast.Constant) else ""
