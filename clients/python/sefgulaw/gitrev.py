"""Revisions of a git tree: which files they have, and the contents of those that are read.

Everything is asked of the program `git`, in the directory that is the root of the tree, and the
paths are below that directory.
"""

from __future__ import annotations

import os
import subprocess
from collections.abc import Iterable, Mapping
from dataclasses import dataclass, field

WORKING = "."

_LINK, _SUBMODULE = b"120000", b"160000"


class NoRevision(Exception):
    """A revision cannot be read; the text is a sentence for a person."""


def git(root: bytes, *words: str, given: bytes | None = None) -> bytes:
    """Returns what `git` prints, or raises NoRevision with its own words."""
    command = ["git", "-C", os.fsdecode(root), "--no-optional-locks", *words]
    environment = {**os.environ, "LC_ALL": "C", "GIT_OPTIONAL_LOCKS": "0"}
    try:
        done = subprocess.run(command, input=given, capture_output=True, env=environment)
    except OSError as error:
        raise NoRevision(f"git cannot be run: {error.strerror}") from None
    if done.returncode:
        said = done.stderr.decode("utf-8", "replace").strip().splitlines() or ["no reason"]
        raise NoRevision(f"git {words[0]}: {said[0].removeprefix('fatal: ')}")
    return done.stdout


@dataclass(frozen=True)
class Revision:
    """The files of a commit: the object of each path. `left_out` are links and submodules."""

    root: bytes
    commit: str
    files: Mapping[bytes, str]
    left_out: tuple[tuple[bytes, str], ...] = ()

    @staticmethod
    def read(root: bytes, name: str) -> Revision:
        """Returns the files of the commit that a name stands for."""
        commit = commit_of(root, name)
        files: dict[bytes, str] = {}
        left_out = []
        for entry in _entries(git(root, "ls-tree", "-r", "-z", commit)):
            head, _, path = entry.partition(b"\t")
            if head.startswith((_LINK, _SUBMODULE)):
                left_out.append((path, "a link" if head.startswith(_LINK) else "a submodule"))
            else:
                files[path] = head.rpartition(b" ")[2].decode("ascii")
        return Revision(root, commit, files, tuple(left_out))

    def texts(self, paths: Iterable[bytes]) -> dict[bytes, bytes]:
        """Returns the contents of some files, which are read by one process of git."""
        wanted = {path: self.files[path] for path in paths if path in self.files}
        found = blobs(self.root, wanted.values())
        return {path: found[identity] for path, identity in wanted.items()}


@dataclass(frozen=True)
class Working:
    """The files of the working tree that git does not ignore."""

    files: frozenset[bytes]
    left_out: tuple[tuple[bytes, str], ...] = field(default=())

    @staticmethod
    def read(root: bytes) -> Working:
        """Returns the files that are there, those that are not committed among them."""
        words = ("ls-files", "-z", "-c", "-o", "--exclude-standard")
        files = set()
        left_out = []
        for path in _entries(git(root, *words)):
            full = os.path.join(root, path)
            if os.path.islink(full):
                left_out.append((path, "a link"))
            elif os.path.isdir(full):
                left_out.append((path.rstrip(b"/"), "a submodule"))
            elif os.path.lexists(full):
                files.add(path)
        return Working(frozenset(files), tuple(left_out))


def commit_of(root: bytes, name: str) -> str:
    """Returns the commit that a name stands for."""
    if name.startswith("-") or "\0" in name:
        raise NoRevision(f"{name!r}: no name of a revision")
    try:
        found = git(
            root, "rev-parse", "--verify", "--quiet", "--end-of-options", f"{name}^{{commit}}"
        )
    except NoRevision as error:
        git(root, "rev-parse", "--git-dir")
        if "cannot be run" in str(error):
            raise
        raise NoRevision(f"{name}: there is no such revision") from None
    return found.decode("ascii").strip()


def blobs(root: bytes, identities: Iterable[str]) -> dict[str, bytes]:
    """Returns the contents of objects."""
    wanted = sorted(set(identities))
    if not wanted:
        return {}
    output = git(root, "cat-file", "--batch", given="\n".join(wanted).encode() + b"\n")
    found: dict[str, bytes] = {}
    at = 0
    for identity in wanted:
        end = output.index(b"\n", at)
        words = output[at:end].split()
        if len(words) != 3:
            raise NoRevision(f"git cat-file: object {identity} is not there")
        size = int(words[2])
        found[identity] = output[end + 1 : end + 1 + size]
        at = end + size + 2
    return found


def differing(root: bytes, old: str, new: str | None) -> frozenset[bytes]:
    """Returns the paths that differ between a commit and another one, or the working tree (None).

    Files that were never committed are not among them.
    """
    words = ["--no-renames", "--name-only", "-z", "--relative", "--ignore-submodules=all"]
    if new is None:
        # What `git status` would do first: without it, files with new times count as changed.
        return frozenset(_entries(git(root, "diff", "--no-ext-diff", *words, old, "--", ".")))
    return frozenset(_entries(git(root, "diff-tree", "-r", *words, old, new, "--", ".")))


def _entries(output: bytes) -> list[bytes]:
    return [part for part in output.split(b"\0") if part]
