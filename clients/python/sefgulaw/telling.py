"""What the loader is told of a file, where it cannot be told as it is.

A source that cannot be told is told in another form whose fault is known. So whatever depends on it
never answers as though the file were absent, and a BUILD never takes the place of a BUILD.bazel
that cannot be told.
"""

from __future__ import annotations

import re
from dataclasses import dataclass
from typing import Union

from sefgulaw.disk import Unreadable
from sefgulaw.names import LONGEST_PATH, Path
from sefgulaw.wire import LONGEST_TEXT

FAILING = 'fail("sefgulaw")\n'
"""Told for a source that cannot be told: fault 24 at line 1 of its file, for all who load it."""

MOST_BYTES = 1_000_000
"""How long a line of changes is made, which leaves room below the loader's own limit."""

_NOT_ASCII = re.compile(rb"[\x80-\xff]")
_CONTROL = re.compile(rb"[\x00-\x08\x0b-\x1f\x7f]")
_CONTROL_NAMES = {
    0: "zero byte",
    7: "bell",
    8: "backspace",
    11: "vertical tab",
    12: "form feed",
    13: "carriage return",
    26: "end of file mark",
    27: "escape",
    127: "delete",
}


@dataclass(frozen=True)
class Note:
    """Why a file is not told as it is: a word for programs, and a phrase for people."""

    path: Path
    code: str
    text: str


@dataclass(frozen=True)
class Text:
    """A text that is told as it is."""

    text: str


@dataclass(frozen=True)
class Instead:
    """A text that is told instead of a file's own."""

    text: str
    note: Note


@dataclass(frozen=True)
class Absent:
    """No file, or one that the loader cannot be told of; then there is a note."""

    note: Note | None = None


Told = Union[Text, Instead, Absent]

EMPTY = Text("")
"""Told for a file that the loader does not read."""


def failing(path: Path, code: str, text: str) -> Instead:
    """Returns what is told for a source that cannot be told or must not be."""
    return Instead(FAILING, Note(path, code, text))


def told_source(path: Path, content: bytes | Unreadable) -> Told:
    """Returns what the loader is told for a source of this content."""
    if isinstance(content, Unreadable):
        return failing(path, content.code, content.why)
    return Text(told_text(content))


def told_text(content: bytes) -> str:
    """Returns a content as the loader can be told it, cut where the rest cannot change its fault.

    A byte over 127 is tested before all else of a text, so nothing behind the first one counts. A
    control byte is a fault of the tokens, which come next; it cuts the text only where the line of
    the edit would become too long.
    """
    if not content.isascii():
        found = _NOT_ASCII.search(content)
        assert found
        before = content[: found.start()]
        if len(before) + 2 > LONGEST_TEXT or _escaped_length(before) > MOST_BYTES - 4096:
            before = b"\n" * before.count(b"\n")
        return before.decode("ascii") + "\x80"
    if _escaped_length(content) > MOST_BYTES - 4096:
        control = _CONTROL.search(content)
        if control:
            content = content[: control.end()]
    return content.decode("ascii")


def _escaped_length(content: bytes) -> int:
    """Returns at least how many bytes a content takes in a line of JSON."""
    if len(content) * 6 <= MOST_BYTES - 4096:
        return len(content)
    controls = sum(1 for _ in _CONTROL.finditer(content))
    doubled = sum(content.count(mark) for mark in (b'"', b"\\", b"\n", b"\t"))
    return len(content) + 5 * controls + doubled


def control_byte(content: bytes) -> tuple[int, int, str] | None:
    """Returns line, column and name of the first control byte, which no source may have."""
    found = _CONTROL.search(content)
    if not found:
        return None
    at = found.start()
    line = content.count(b"\n", 0, at) + 1
    number = content[at]
    name = _CONTROL_NAMES.get(number, f"control byte {number}")
    return line, at - content.rfind(b"\n", 0, at), name


def too_long(path: Path) -> Absent:
    """Returns that a path is too long to be told."""
    words = f"path is too long for the loader ({len(path)} bytes, at most {LONGEST_PATH})"
    return Absent(Note(path, "path too long", words))
