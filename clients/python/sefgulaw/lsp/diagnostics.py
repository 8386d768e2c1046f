"""The daemon's messages as the diagnostics of one open file."""

from __future__ import annotations

from collections.abc import Callable, Iterator, Sequence
from typing import cast

from sefgulaw.lsp.texts import Text, character_of_byte, units_before
from sefgulaw.lsp.wire import Message
from sefgulaw.names import BadLabel, Label
from sefgulaw.plain import Members
from sefgulaw.text import Span, loads

SOURCE = "sefgulaw"
MOST_RELATED = 10
_SEVERITIES = {"error": 1, "warning": 2}

Uri = Callable[[str], str]


def diagnostics(text: Text, package: str, messages: Sequence[Members], uri: Uri) -> list[Message]:
    """Returns what an editor shows in a file of the messages about it and what it loads."""
    found: list[Message] = []
    inner: dict[tuple[object, ...], list[Members]] = {}
    for message in messages:
        note = _note_here(text, message)
        if note is not None:
            key = (note["line"], note["column"], message["message"])
            inner.setdefault(key, []).append(message)
            continue
        for one in _shown(text, package, message, uri):
            if one not in found:
                found.append(one)
    return found + [_called(text, several, uri) for several in inner.values()]


def _note_here(text: Text, message: Members) -> Members | None:
    """Returns the note about a function of the file that another file calls."""
    if message["file"] == text.path:
        return None
    notes = cast("list[Members]", message["notes"])
    return next((note for note in notes if note["file"] == text.path), None)


def _called(text: Text, several: Sequence[Members], uri: Uri) -> Message:
    """Returns what is shown in a function that calls of several packages do not get through."""
    first = several[0]
    note = _note_here(text, first)
    assert note is not None
    packages = sorted({it for one in several for it in cast("list[str]", one["packages"])})
    others = len(packages) - 1
    more = f", and {others:,} other package{'' if others == 1 else 's'}" if others else ""
    words = f"{first['message']} (for //{packages[0] if packages else ''}{more})"
    return _diagnostic(first, _range(text, note), words, several[:MOST_RELATED], uri)


def _shown(text: Text, package: str, message: Members, uri: Uri) -> Iterator[Message]:
    notes = cast("list[Members]", message["notes"])
    if message["file"] == text.path:
        yield _diagnostic(message, _range(text, message), str(message["message"]), notes, uri)
        return
    span = load_of(text, package, str(message["file"]))
    if span is not None:
        words = f"{message['message']} (in {message['file']})"
        yield _diagnostic(message, span_range(text, span), words, [message], uri)


def load_of(text: Text, package: str, file: str) -> Span | None:
    """Returns the label of the load that leads to a file: its own, or else the first one."""
    found = loads(text.text)
    for load in found:
        label = Label.read(load.label, package)
        if not isinstance(label, BadLabel) and f"{label.package}/{label.name}".strip("/") == file:
            return load.span
    return found[0].span if found else None


def _diagnostic(
    message: Members, place: Message, words: str, notes: Sequence[Members], uri: Uri
) -> Message:
    found: Message = {
        "range": place,
        "severity": _SEVERITIES.get(str(message["severity"]), 1),
        "source": SOURCE,
        "code": message["code"],
        "message": words,
    }
    related = [_related(note, uri) for note in notes]
    if related:
        found["relatedInformation"] = related
    return found


def _related(note: Members, uri: Uri) -> Message:
    line, column = _number(note, "line") - 1, _number(note, "column") - 1
    start = {"line": line, "character": column}
    place = {"uri": uri(str(note["file"])), "range": {"start": start, "end": start}}
    return {"location": place, "message": str(note["message"])}


def _number(members: Members, name: str, default: int = 1) -> int:
    value = members.get(name, default)
    return value if isinstance(value, int) else default


def _range(text: Text, members: Members) -> Message:
    line, column = _number(members, "line"), _number(members, "column")
    end_line = _number(members, "end_line", line)
    return span_range(text, Span(line, column, end_line, _number(members, "end_column", 0)))


def span_range(text: Text, span: Span) -> Message:
    """Returns a place of a message as a range of the protocol.

    A place that is a point is the rest of its line, so that an editor has something to underline.
    """
    line = text.line(span.line - 1)
    start = character_of_byte(line, span.column)
    end_line = text.line(span.end_line - 1)
    end = character_of_byte(end_line, span.end_column) if span.end_column else 0
    if (span.end_line, end) <= (span.line, start):
        end_line, end = line, max(len(line.rstrip()), start)
        span = span._replace(end_line=span.line)
    return {
        "start": {"line": span.line - 1, "character": units_before(line, start)},
        "end": {"line": span.end_line - 1, "character": units_before(end_line, end)},
    }
