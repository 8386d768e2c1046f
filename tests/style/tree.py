"""The files that the rules look at."""

import functools
import os
import subprocess
from collections.abc import Iterable, Iterator


class Tree:
    """The files of a folder that git tracks, or those that are named, by their paths below it."""

    def __init__(self, root: str, paths: Iterable[str]) -> None:
        self.root, self.paths = root, list(paths)
        self.text = functools.cache(self._text)

    @classmethod
    def tracked(cls, root: str) -> "Tree":
        """The files that git tracks and that are there."""
        words = ["git", "ls-files"]
        listed = subprocess.run(words, cwd=root, capture_output=True, text=True, check=True)
        return cls(root, [it for it in listed.stdout.split("\n") if it and is_file(root, it)])

    def _text(self, path: str) -> str:
        with open(os.path.join(self.root, path), encoding="utf-8") as file:
            return file.read()

    def exists(self, path: str) -> bool:
        """Whether a file or a folder is there, tracked or not."""
        return os.path.exists(os.path.join(self.root, path))

    def matching(self, *endings: str, below: str = "") -> Iterator[tuple[str, str]]:
        """The paths with one of these endings below a folder, each with its text."""
        for path in self.paths:
            if path.startswith(below) and path.endswith(endings):
                yield path, self.text(path)

    def documents(self) -> Iterator[tuple[str, str]]:
        """The documents for people: README, how to contribute, the results, and the pages of
        docs."""
        first = ["README.md", "CONTRIBUTING.md", "bench/results/results.md"]
        pages = sorted(it for it in self.paths if it.startswith("docs/") and it.endswith(".md"))
        for path in [*first, *(it for it in pages if it.count("/") == 1)]:
            if path in self.paths:
                yield path, self.text(path)


def is_file(root: str, path: str) -> bool:
    """Whether a tracked path is there. One that was removed and not committed yet is not."""
    return os.path.exists(os.path.join(root, path))
