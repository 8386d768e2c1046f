"""A watch that walks over the tree each time. It works where the system tells of no changes."""

from __future__ import annotations

from collections.abc import Mapping

from sefgulaw import disk
from sefgulaw.disk import Found, Ignore
from sefgulaw.watch import Changes, RootGone, is_changed


class Poll:
    """The files of a tree by the walk before. `known` are those that were found already."""

    def __init__(self, root: bytes, ignore: Ignore, known: Mapping[bytes, Found] | None = None):
        self.root, self.ignore = root, ignore
        self.files: dict[bytes, Found] = dict(known or {})
        self.unlisted: dict[bytes, str] = {}

    def drain(self) -> Changes:
        """Walks over the tree and compares each file with its stamp before."""
        files: dict[bytes, Found] = {}
        unlisted: dict[bytes, str] = {}
        changed: set[bytes] = set()
        for found in disk.walk(self.root, self.ignore):
            path = found.path
            if found.kind == "refused" and not disk.is_source(path):
                if not path:
                    raise RootGone(found.why)
                unlisted[path] = found.why
                continue
            files[path] = found
            if is_changed(self.files.get(path), found):
                changed.add(path)
        changed |= self.files.keys() - files.keys()
        self.files, self.unlisted = files, unlisted
        return Changes(frozenset(changed), True)

    def fileno(self) -> None:
        """There is nothing to wait for."""
        return None

    def close(self) -> None:
        """There is nothing to give back."""
