"""Changes of files in groups of which each is one line, and what is in the way of a change."""

from __future__ import annotations

import json
from collections.abc import Collection, Iterable, Iterator, Sequence
from typing import Union

from sefgulaw.messages import REFUSALS
from sefgulaw.names import Path, parent
from sefgulaw.telling import MOST_BYTES
from sefgulaw.wire import MOST_EDITS, Del, Put, edit_line

Change = Union[Put, Del]
Worded = tuple[Change, str]
"""A change with its words, which are made once."""


def worded(change: Change) -> list[Worded]:
    """Returns a batch of one change."""
    return [(change, change.words())]


def line_of(batch: Sequence[Worded]) -> bytes:
    """Returns the line of a batch."""
    return edit_line([words for _, words in batch])


def batches(changes: Iterable[Change]) -> Iterator[list[Worded]]:
    """Yields the changes with their words, in groups that fit into one line each."""
    group: list[Worded] = []
    size = 0
    for change in changes:
        words = change.words()
        length = len(words) + 1
        if group and (len(group) == MOST_EDITS or size + length > MOST_BYTES):
            yield group
            group, size = [], 0
        group.append((change, words))
        size += length
    if group:
        yield group


def outcome(answer: bytes, version: int) -> int | None:
    """Returns the place of the change that a batch was refused for; None if it made this version.

    An answer that no loader gives raises ValueError.
    """
    try:
        members = json.loads(answer)
        if "ok" in members and int(members["ok"]) == version:
            return None
        if "edit" in members and int(members["refused"]) in REFUSALS:
            return int(members["edit"])
    except TypeError:
        pass
    raise ValueError("an answer that is none")


class Directories:
    """The directories below which files are told."""

    def __init__(self) -> None:
        self._counts: dict[str, int] = {}

    def __contains__(self, path: str) -> bool:
        return path in self._counts

    def __len__(self) -> int:
        return len(self._counts)

    def count(self, path: str, by: int) -> None:
        """Takes in that a file is told (1), or is told no more (-1).

        In each directory its files count, and those directories in it that have any.
        """
        above = path.rpartition("/")[0]
        while above:
            before = self._counts.get(above, 0)
            if before + by:
                self._counts[above] = before + by
            else:
                del self._counts[above]
            if before and before + by:
                break
            above = above.rpartition("/")[0]


def in_the_way(
    path: Path, told: Collection[Path], directories: Directories, clear: set[str]
) -> list[Path]:
    """Returns told files above a new path, or below it.

    `clear` are the directories that were looked at, with all above them, for the paths before this
    one; they are left out.
    """
    found = []
    above = parent(path)
    while above and above not in clear:
        clear.add(above)
        if above in told:
            found.append(above)
        above = parent(above)
    if path in directories:
        below = path + "/"
        found += [it for it in told if it.startswith(below)]
    return found
