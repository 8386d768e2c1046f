"""The texts of an editor's open files, with its positions, which count units of UTF-16."""

from __future__ import annotations

import re
from collections.abc import Mapping, Sequence
from dataclasses import dataclass
from typing import NamedTuple, cast

from sefgulaw.lsp.wire import Message

_STRING = re.compile(r"""(["'])((?:(?!\1)[^\\\n]|\\.)*)(\1|$)""")
_NAME = re.compile(r"[A-Za-z_]\w*")


class Position(NamedTuple):
    """A place in a text. Lines and characters of Python count from 0."""

    line: int
    character: int


def units_before(line: str, character: int) -> int:
    """Returns how many units of UTF-16 the first characters of a line take."""
    head = line[:character]
    return len(head) if head.isascii() else len(head.encode("utf-16-le", "surrogatepass")) // 2


def character_at(line: str, units: int) -> int:
    """Returns how many characters of a line take so many units of UTF-16."""
    if line.isascii():
        return min(units, len(line))
    found = line.encode("utf-16-le", "surrogatepass")[: 2 * units]
    return len(found.decode("utf-16-le", "ignore"))


def character_of_byte(line: str, column: int) -> int:
    """Returns the character of a column, which counts bytes of UTF-8 from 1."""
    if line.isascii():
        return min(max(column - 1, 0), len(line))
    raw = line.encode("utf-8", "surrogatepass")[: max(column - 1, 0)]
    return len(raw.decode("utf-8", "ignore"))


@dataclass
class Text:
    """The text of one open file. `path` is its path below the root."""

    uri: str
    path: str
    text: str

    def lines(self) -> Sequence[str]:
        """Returns the lines without their ends."""
        return self.text.split("\n")

    def line(self, number: int) -> str:
        """Returns a line, which is empty where there is none."""
        lines = self.lines()
        return lines[number] if 0 <= number < len(lines) else ""

    def position(self, given: object) -> Position:
        """Reads a position of the protocol."""
        members = cast("Mapping[str, int]", given)
        line = int(members["line"])
        return Position(line, character_at(self.line(line), int(members["character"])))

    def offset(self, position: Position) -> int:
        """Returns how many characters stand before a position."""
        lines = self.lines()
        if position.line >= len(lines):
            return len(self.text)
        before = sum(len(line) + 1 for line in lines[: position.line])
        return before + min(position.character, len(lines[position.line]))

    def change(self, changes: Sequence[Mapping[str, object]]) -> None:
        """Takes in changes of the protocol, each of a range or of the whole text."""
        for change in changes:
            new = str(change["text"])
            span = change.get("range")
            if not isinstance(span, dict):
                self.text = new
                continue
            start = self.offset(self.position(span["start"]))
            end = self.offset(self.position(span["end"]))
            self.text = self.text[:start] + new + self.text[max(start, end) :]

    def place(self, line: int, character: int) -> Message:
        """Returns a position of the protocol; lines and characters count from 0."""
        return {"line": line, "character": units_before(self.line(line), character)}


class Under(NamedTuple):
    """The string or the name at a position, and where it begins and ends in its line."""

    text: str
    is_string: bool
    start: int
    end: int


def under(line: str, character: int) -> Under | None:
    """Returns the string or the name that a position in a line is in."""
    code = _before_comment(line)
    for found in _STRING.finditer(line):
        if found.start() < code and found.start() <= character <= found.end():
            return Under(found[2], True, found.start(2), found.end(2))
    for found in _NAME.finditer(line):
        if found.start() < code and found.start() <= character <= found.end():
            return Under(found[0], False, found.start(), found.end())
    return None


def open_string(line: str, character: int) -> str | None:
    """Returns what stands of a string before a position in it; None outside of strings."""
    head = line[:character]
    for found in _STRING.finditer(head):
        if not found[3] and found.end() == len(head):
            return found[2]
    return None


def _before_comment(line: str) -> int:
    """Returns where the comment of a line begins, or its end."""
    at = 0
    while at < len(line):
        if line[at] == "#":
            return at
        found = _STRING.match(line, at)
        at = found.end() if found else at + 1
    return len(line)
