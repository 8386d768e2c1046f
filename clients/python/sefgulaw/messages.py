"""Messages for people and programs, and the one table of fault codes and refusals."""

from __future__ import annotations

import base64
import json
from collections.abc import Sequence
from dataclasses import dataclass
from typing import Literal, NamedTuple

from sefgulaw.plain import message_text
from sefgulaw.text import Span

CYCLE = 19
SYNTAX = 3


class FaultWords(NamedTuple):
    """A fault's name in the table of the language's page, and its words in a message."""

    name: str
    message: str


FAULTS: dict[int, FaultWords] = {
    1: FaultWords("no package", "no such package"),
    2: FaultWords("not ASCII", "text is not ASCII"),
    3: FaultWords("syntax", "syntax error"),
    4: FaultWords("name not bound", "name is not bound"),
    5: FaultWords("wrong type or shape", "wrong type or shape"),
    6: FaultWords("change of a frozen value", "change of a frozen value"),
    7: FaultWords("changed while iterated", "changed while iterated"),
    8: FaultWords("index or key absent", "index or key is absent"),
    9: FaultWords("overflow", "overflow of a whole number"),
    10: FaultWords("zero divisor", "division by zero"),
    11: FaultWords("steps spent", "takes too many steps"),
    12: FaultWords("too deep", "nested too deep"),
    13: FaultWords("too large", "string, list or dictionary is too large"),
    14: FaultWords("recursive call", "recursive call"),
    15: FaultWords("bad label or target name", "bad label or target name"),
    16: FaultWords("module file absent", "no such .bzl file"),
    17: FaultWords("package boundary crossed", "label crosses a package boundary"),
    18: FaultWords("not exported", "name is not exported by the loaded file"),
    19: FaultWords("load cycle", "loads run in a cycle"),
    20: FaultWords("target twice", "name of a target is used twice"),
    21: FaultWords("bad pattern", "bad pattern of a glob"),
    22: FaultWords("empty glob", "glob finds nothing"),
    23: FaultWords("call not allowed here", "call is not allowed here"),
    24: FaultWords("`fail` called", "fail was called"),
    25: FaultWords(
        "wrong arguments, or a key twice in one dictionary expression",
        "wrong arguments, or a key twice in one dictionary",
    ),
    26: FaultWords("global bound twice", "global name is bound twice"),
}

REFUSALS: dict[int, str] = {
    1: "not a command: no JSON, an empty line, a wrong member",
    2: "bad path",
    3: "a file is above the path, or the path is a directory",
    4: "no such file",
    5: "bad package name or `dir`; for `module` a label that does not begin with `//`"
    " or names no .bzl file",
    6: "the line is too long",
    7: "the text has over 262,144 bytes",
    8: "the version would pass 4,294,967,295",
    9: "not 1 to 256 names",
    10: "not 1 to 256 edits in an `edit`",
}


class Related(NamedTuple):
    """A second place that explains a message."""

    file: str
    span: Span
    text: str


@dataclass(frozen=True)
class Message:
    """A fault at its place, with all the packages that have it.

    `file` has the real name; bytes of it that are not UTF-8 are surrogates. `packages` are real
    names, too. The first line of `text` says what is wrong.
    """

    file: str
    span: Span
    text: str
    code: int | str
    notes: Sequence[Related] = ()
    packages: Sequence[str] = ()
    severity: Literal["error", "warning"] = "error"


def first_line() -> Span:
    """Returns the place of what concerns a file as a whole."""
    return Span(1, 1, 1, 1)


def place(line: int, column: int = 1) -> Span:
    """Returns a place in one line. The loader's line 0 is the file as a whole, and shown as 1."""
    return Span(max(line, 1), column, max(line, 1), column)


def as_line(message: Message) -> str:
    """Returns a message as compilers print it, with a line for each note."""
    return message_text(as_object(message)).decode("utf-8", "surrogateescape")


def named(members: dict[str, object], member: str, name: str) -> None:
    """Sets a member to a name. One that is not UTF-8 gets a second member with its bytes."""
    raw = name.encode("utf-8", "surrogateescape")
    shown = raw.decode("utf-8", "replace")
    members[member] = shown
    if shown.encode("utf-8") != raw:
        members[f"{member}_bytes"] = base64.b64encode(raw).decode("ascii")


def as_object(message: Message) -> dict[str, object]:
    """Returns a message's members."""
    span = message.span
    members: dict[str, object] = {
        "code": message.code,
        "column": span.column,
        "line": span.line,
        "message": shown(message.text),
        "notes": [_note_object(note) for note in message.notes],
        "packages": [shown(package) for package in message.packages],
        "severity": message.severity,
    }
    if span.end_line == span.line and span.end_column > span.column:
        members["end_column"] = span.end_column
    elif span.end_line > span.line:
        members["end_column"], members["end_line"] = span.end_column, span.end_line
    named(members, "file", message.file)
    return members


def _note_object(note: Related) -> dict[str, object]:
    members: dict[str, object] = {
        "column": note.span.column,
        "line": note.span.line,
        "message": shown(note.text),
    }
    named(members, "file", note.file)
    return members


def shown(text: str) -> str:
    """Returns a text in which bytes that are not UTF-8 are U+FFFD."""
    return text.encode("utf-8", "surrogateescape").decode("utf-8", "replace")


def dumps(members: dict[str, object]) -> bytes:
    """Returns an object as a line of JSON without its end, members in byte order."""
    return json.dumps(members, sort_keys=True, separators=(",", ":"), ensure_ascii=False).encode(
        "utf-8"
    )


def as_json(message: Message) -> bytes:
    """Returns a message as a line of JSON without its end."""
    return dumps(as_object(message))
