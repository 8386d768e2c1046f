"""A naive program that answers about a tree: it walks, tells a fresh loader everything, and asks.

It shares nothing with the package but the loader's process, so it shows where the package is wrong.
"""

from __future__ import annotations

import json
import os
import stat
from collections.abc import Mapping

from sefgulaw.names import Path
from sefgulaw.wire import Loader, Put, Under

PLAIN = b"ABCDEFGHIJKLMNOPQRSTUVWXYZabcdefghijklmnopqrstuvwxyz0123456789_-./"
LIMIT = 262_144


def told_name(name: bytes) -> str:
    """Returns the name that the loader is told; no name of the tests looks encoded already."""
    return "".join(chr(it) if it in PLAIN else f"__x{it:02x}" for it in name)


def is_source(name: bytes) -> bool:
    """Tells whether the loader reads a file."""
    return name.endswith(b".bzl") or name in (b"BUILD", b"BUILD.bazel")


def told_text(path: bytes) -> str | None:
    """Returns what the loader is told of a source; None where there is no file."""
    try:
        mode = os.stat(path).st_mode
    except OSError:
        return 'fail("sefgulaw")\n' if os.path.islink(path) else None
    if stat.S_ISDIR(mode):
        return None
    if not stat.S_ISREG(mode):
        return 'fail("sefgulaw")\n'
    with open(path, "rb") as file:
        content = file.read()
    return 'fail("sefgulaw")\n' if len(content) > LIMIT else content.decode("latin-1")


def files_of(root: bytes) -> dict[str, str]:
    """Returns what the loader is told of a tree."""
    files: dict[str, str] = {}
    for folder, folders, names in os.walk(root, followlinks=True):
        folders[:] = [it for it in folders if it not in (b".git", b".hg", b".svn")]
        for name in names:
            full = os.path.join(folder, name)
            path = told_name(os.path.relpath(full, root))
            text = told_text(full) if is_source(name) else ""
            if text is not None and (is_source(name) or os.path.exists(full)):
                files[path] = text
    return files


def answers(loader: str, root: bytes, unsaved: Mapping[str, str] | None = None) -> dict[str, bytes]:
    """Returns the loader's item about each package of a tree, with some texts not saved yet."""
    process = Loader.start([loader])
    try:
        for path, text in {**files_of(root), **(unsaved or {})}.items():
            answer = process.ask(Put(Path(path), text))
            assert answer.startswith(b'{"ok":'), (path, answer)
        answer = process.ask(Under(""))
    finally:
        process.close()
    found = {}
    for item in json.loads(answer)["packages"]:
        found[item["name"]] = json.dumps(item, separators=(",", ":"), sort_keys=True).encode()
    return found
