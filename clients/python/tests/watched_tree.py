"""Trees for the tests of watches: a walk that remembers nothing, and random operations."""

from __future__ import annotations

import os
import random
import shutil
from pathlib import Path

from sefgulaw.disk import Ignore
from sefgulaw.watch import Watch

IGNORE = Ignore(frozenset([b"ignored"]))
NAMES = (b"a", b"b", b"c", b"BUILD", b"x.c", b"y.bzl")

State = dict[bytes, tuple[object, ...]]


def naive(root: bytes) -> State:
    """The files of a tree by a walk of the test's own, with what makes a source another one."""
    found: State = {}
    waiting: list[tuple[bytes, tuple[tuple[int, int], ...]]] = [(b"", ())]
    while waiting:
        directory, above = waiting.pop()
        full = os.path.join(root, directory)
        here = os.stat(full)
        above = (*above, (here.st_dev, here.st_ino))
        for name in os.listdir(full):
            path = os.path.join(directory, name)
            full_path = os.path.join(root, path)
            is_link = os.path.islink(full_path)
            source = name == b"BUILD" or name == b"BUILD.bazel" or name.endswith(b".bzl")
            if os.path.isdir(full_path):
                at = os.stat(full_path)
                enters = path != b"ignored" and name not in (b".git", b".hg", b".svn")
                is_output = not directory and is_link and name.startswith(b"bazel-")
                if enters and not is_output and (at.st_dev, at.st_ino) not in above:
                    waiting.append((path, above))
            elif not os.path.exists(full_path):
                if source:
                    found[path] = ("refused",)
            elif not source:
                found[path] = ("other",)
            elif os.path.isfile(full_path):
                at = os.stat(full_path)
                stamp = (at.st_mtime_ns, at.st_ctime_ns, at.st_size, at.st_ino)
                found[path] = ("source", *stamp)
            else:
                found[path] = ("refused",)
    return found


def state(watch: Watch) -> State:
    found: State = {}
    for path, it in watch.files.items():
        if it.stamp is None:
            found[path] = (it.kind,)
        else:
            stamp = (it.stamp.modified, it.stamp.changed, it.stamp.size, it.stamp.inode)
            found[path] = (it.kind, *stamp)
    return found


def put(root: Path, name: str, text: str = "") -> None:
    path = root / name
    path.parent.mkdir(parents=True, exist_ok=True)
    path.write_text(text)


class Operations:
    """Random operations in a tree, and on things moved out of it."""

    def __init__(self, root: bytes, outside: bytes, seed: int) -> None:
        self.root, self.outside = root, outside
        self.random = random.Random(seed)

    def path(self) -> bytes:
        count = self.random.randint(1, 4)
        return os.path.join(self.root, *(self.random.choice(NAMES) for _ in range(count)))

    def away(self) -> bytes:
        return os.path.join(self.outside, b"%d" % self.random.randint(0, 5))

    def one(self) -> None:
        """Makes one operation, which may turn out to be impossible."""
        one, other = self.path(), self.path()
        chance = self.random.random()
        try:
            if chance < 0.22:
                os.makedirs(one, exist_ok=True)
            elif chance < 0.45:
                with open(one, "ab") as file:
                    file.write(b"z")
            elif chance < 0.66:
                os.rename(one, other)
            elif chance < 0.72:
                shutil.rmtree(one)
            elif chance < 0.78:
                os.unlink(one)
            elif chance < 0.83:
                os.rename(one, self.away())
            elif chance < 0.88:
                os.rename(self.away(), one)
            elif chance < 0.91:
                with open(self.away(), "ab") as file:
                    file.write(b"y")
            else:
                self.link(one, other, chance)
        except OSError:
            pass

    def link(self, one: bytes, other: bytes, chance: float) -> None:
        if chance < 0.93:
            os.symlink(self.random.choice([b"x.c", b"BUILD", b"y.bzl"]), one)
        elif chance < 0.95:
            os.symlink(self.away(), one)
        elif chance < 0.97:
            os.symlink(other, one)
        else:
            os.replace(one, other)

    def second_name(self) -> None:
        """Gives a file a second name, if there is one."""
        try:
            os.link(self.path(), self.path())
        except OSError:
            pass
