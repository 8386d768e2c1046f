"""What a loader tells of its lines in the file of its option `--events`.

Such a file may be larger than the memory, so nothing here holds it whole. It is read line by line,
from its first line or from its last one.
"""

from __future__ import annotations

import json
import os
import shutil
import tempfile
from collections.abc import Callable, Iterator, Mapping
from dataclasses import dataclass
from typing import BinaryIO, cast

LEAVES = ("file ", "listing //")

_PIECE = 1 << 20


class BadEvents(Exception):
    """A line of the file is no event."""


@dataclass(frozen=True)
class Run:
    """A node that a line settled, or a leaf that it had read. `causes` is None in a first run."""

    line: int
    version: int
    key: str
    turns: int
    is_changed: bool
    causes: tuple[str, ...] | None

    @property
    def is_leaf(self) -> bool:
        """Tells whether the key is a file or the names in a directory, which are read."""
        return is_leaf(self.key)


@dataclass(frozen=True)
class Edit:
    """An edit that was made by a line, with the version to which it led."""

    line: int
    version: int
    paths: tuple[str, ...]


@dataclass(frozen=True)
class Event:
    """What one line came to. Its runs are read one by one, since mostly few of them are needed."""

    line: int
    version: int
    edit: Edit | None
    raw_runs: Mapping[str, Mapping[str, object]]

    def run(self, key: str) -> Run:
        """Returns the run of a key that has one here."""
        raw = self.raw_runs[key]
        try:
            causes = raw.get("causes")
            return Run(
                self.line,
                self.version,
                key,
                _number(raw["turns"]),
                _truth(raw["changed"]),
                None if causes is None else _texts(causes),
            )
        except (KeyError, TypeError, ValueError):
            raise BadEvents(f"the run of {key} in the event of line {self.line} is none") from None

    def runs(self) -> Iterator[Run]:
        """Yields all runs of the line."""
        return map(self.run, self.raw_runs)

    def turns(self) -> Iterator[tuple[str, int]]:
        """Yields the keys of the runs that are no leaves, each with its turns."""
        for key, raw in self.raw_runs.items():
            if not is_leaf(key):
                turns = raw.get("turns")
                yield key, turns if isinstance(turns, int) else self.run(key).turns


def is_leaf(key: str) -> bool:
    """Tells whether a key is that of a file or of the names in a directory."""
    return key.startswith(LEAVES)


def touches(path: str, leaf: str) -> bool:
    """Tells whether an edit of a path can change what a leaf reads."""
    if leaf.startswith(LEAVES[0]):
        return leaf[len(LEAVES[0]) :] == path
    directory = leaf[len(LEAVES[1]) :]
    return not directory or path.startswith(directory + "/")


class EventReader:
    """Reads a file of events. A file that has no places, as a pipe, is copied to disk first.

    A last line that has no end was cut off, since its loader was ended or could not write on. It is
    left out, and `is_cut` says so once it was come to. `is_empty` says that no line was whole.
    """

    def __init__(self, file: BinaryIO) -> None:
        self.is_cut, self.is_empty = False, True
        self._file = file
        if not file.seekable():
            self._file = cast(BinaryIO, tempfile.TemporaryFile())
            shutil.copyfileobj(file, self._file)

    def forward(self) -> Iterator[Event]:
        """Yields the events from the first one on. Raises BadEvents where a line is none."""
        self._file.seek(0)
        for number, line in enumerate(self._file, 1):
            if not line.endswith(b"\n"):
                self.is_cut = True
                return
            self.is_empty = False
            event = _event(line)
            if event is None:
                raise BadEvents(f"line {number} is no event")
            yield event

    def backward(self, is_wanted: Callable[[bytes], bool] = lambda line: True) -> Iterator[Event]:
        """Yields the events of wanted lines, from the last one on.

        Raises BadEvents where a line is none. A line that is not wanted is looked at by its ends.
        """
        lines = _lines_from_the_end(self._file)
        self.is_cut = next(lines) != b""
        for line in lines:
            self.is_empty = False
            if line.startswith(b"{") and line.endswith(b"}") and not is_wanted(line):
                continue
            event = _event(line)
            if event is None:
                for _ in self.forward():
                    pass
                raise BadEvents("it has changed while it was read")
            yield event


def _lines_from_the_end(file: BinaryIO) -> Iterator[bytes]:
    """Yields what stands behind the last end of a line, and then the lines, the last one first."""
    at = file.seek(0, os.SEEK_END)
    pieces: list[bytes] = []
    while at:
        size = min(at, _PIECE)
        at -= size
        file.seek(at)
        lines = file.read(size).split(b"\n")
        pieces.append(lines[-1])
        if len(lines) > 1:
            yield b"".join(reversed(pieces))
            yield from reversed(lines[1:-1])
            pieces = [lines[0]]
    yield b"".join(reversed(pieces))


def _event(line: bytes) -> Event | None:
    """Reads a line. None says that it is no event."""
    try:
        told = json.loads(line)
        number, version = _number(told["line"]), _number(told["version"])
        edit, raw_runs = None, {}
        if "paths" in told:
            edit = Edit(number, version, _texts(told["paths"]))
        if "runs" in told:
            raw_runs = {_text(run["key"]): run for run in told["runs"]}
        return Event(number, version, edit, raw_runs)
    except (ValueError, KeyError, TypeError, AttributeError, RecursionError):
        return None


def _number(value: object) -> int:
    if not isinstance(value, int) or isinstance(value, bool) or value < 0:
        raise TypeError(value)
    return value


def _truth(value: object) -> bool:
    if not isinstance(value, bool):
        raise TypeError(value)
    return value


def _text(value: object) -> str:
    if not isinstance(value, str):
        raise TypeError(value)
    value.encode("utf-8")
    return value


def _texts(value: object) -> tuple[str, ...]:
    if not isinstance(value, list):
        raise TypeError(value)
    return tuple(_text(text) for text in value)
