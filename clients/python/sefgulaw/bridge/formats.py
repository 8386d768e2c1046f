"""Templates of `%` and of `format`, cut into texts and the places between them."""

from __future__ import annotations

import re
from typing import NamedTuple

_PERCENT = re.compile(r"%(?:\((?P<key>[^()]*)\))?(?P<kind>.?)", re.S)
_FIELD = re.compile(r"[A-Za-z_]\w*|\d+|")


class Field(NamedTuple):
    """A place of a template. The key is a number, or the name of an argument or of an entry."""

    key: int | str
    function: str


Piece = str | Field


class BadTemplate(Exception):
    """A template that cannot be rewritten; the text is the reason."""


def percent(template: str) -> list[Piece]:
    """Cuts a template of `%`."""
    pieces: list[Piece] = []
    at = count = 0
    for found in _PERCENT.finditer(template):
        pieces.append(template[at : found.start()])
        at = found.end()
        if found["kind"] == "%" and found["key"] is None:
            pieces.append("%")
            continue
        if found["kind"] not in ("s", "d", "i", "r"):
            raise BadTemplate(f"'%{found['kind']}' in a template")
        function = "repr" if found["kind"] == "r" else "str"
        if found["key"] is None:
            pieces.append(Field(count, function))
            count += 1
        else:
            pieces.append(Field(found["key"], function))
    pieces.append(template[at:])
    keys = {type(piece.key) for piece in pieces if isinstance(piece, Field)}
    if len(keys) > 1:
        raise BadTemplate("places with and without a key in a template")
    return _joined(pieces)


def braces(template: str) -> list[Piece]:
    """Cuts a template of `format`."""
    pieces: list[Piece] = []
    at = count = 0
    while at < len(template):
        mark = template[at]
        if mark not in "{}":
            end = min((it for it in (template.find(c, at) for c in "{}") if it >= 0), default=-1)
            end = len(template) if end < 0 else end
            pieces.append(template[at:end])
            at = end
        elif template.startswith(mark * 2, at):
            pieces.append(mark)
            at += 2
        else:
            end = template.find("}", at)
            key = template[at + 1 : end]
            if mark == "}" or end < 0 or not _FIELD.fullmatch(key):
                raise BadTemplate("a place of 'format' that is no name and no number")
            if key:
                pieces.append(Field(int(key) if key.isdigit() else key, "str"))
            else:
                pieces.append(Field(count, "str"))
                count += 1
            at = end + 1
    return _joined(pieces)


def _joined(pieces: list[Piece]) -> list[Piece]:
    """Joins texts that stand side by side, and drops empty ones."""
    joined: list[Piece] = []
    for piece in pieces:
        if isinstance(piece, str) and joined and isinstance(joined[-1], str):
            joined[-1] += piece
        elif piece != "":
            joined.append(piece)
    return joined
