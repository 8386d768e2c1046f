"""The lines of answers in the form that was asked for."""

from __future__ import annotations

import json

from sefgulaw.cli.output import Output, say_raw
from sefgulaw.plain import Members, is_message, name_bytes, text_lines

_LABEL = b'"label":"'


class Printer:
    """Prints the lines of an answer. Faults go aside, but for those that `check` is asked for."""

    def __init__(self, command: str, form: str) -> None:
        self.output = Output()
        self._faults_aside = command != "check"
        self._form = form

    def take(self, line: bytes) -> None:
        """Prints one line of an answer."""
        if self._form == "jsonl" and not self._faults_aside:
            self.output.line(line)
            return
        if self._faults_aside and b'"severity":"' in line:
            members = json.loads(line)
            if is_message(members):
                self.output.flush()
                say_raw(text_lines(members) + b"\n")
                return
        self._answer(line)

    def _answer(self, line: bytes) -> None:
        if self._form == "jsonl":
            self.output.line(line)
            return
        if self._form == "label" and b"\\" not in line and b"_bytes" not in line:
            self.output.line(line[line.index(_LABEL) + len(_LABEL) :].partition(b'"')[0])
            return
        self.output.line(answer_text(self._form, json.loads(line)))

    def end(self) -> None:
        """Prints what is left once the answer is whole."""
        self.output.flush()


class Dot(Printer):
    """Prints targets and the edges between them as the program `dot` reads them."""

    def __init__(self, command: str) -> None:
        super().__init__(command, "graph")
        self.output.line(b"digraph sefgulaw {")
        self.output.line(b"  node [shape=box];")

    def _answer(self, line: bytes) -> None:
        members = json.loads(line)
        if "from" in members:
            start, end = _quoted(members, "from"), _quoted(members, "to")
            self.output.line(b"  " + start + b" -> " + end + b";")
        else:
            self.output.line(b"  " + _quoted(members, "label") + b";")

    def end(self) -> None:
        """Ends the graph."""
        self.output.line(b"}")
        self.output.flush()


def printer(command: str, form: str) -> Printer:
    """Returns what prints an answer in a form."""
    return Dot(command) if command == "query" and form == "graph" else Printer(command, form)


def _quoted(members: Members, member: str) -> bytes:
    raw = name_bytes(members, member).replace(b"\\", b"\\\\").replace(b'"', b'\\"')
    return b'"' + raw.replace(b"\n", b"\\n") + b'"'


def answer_text(form: str, members: Members) -> bytes:
    """Returns what a person is shown of a line of an answer."""
    if form == "changed":
        return change_text(members)
    if form == "package":
        return name_bytes(members, "package")
    if form not in ("label", "label_kind", "location"):
        return text_lines(members)
    label, kind = name_bytes(members, "label"), str(members["kind"]).encode()
    if form == "label":
        return label
    if form == "location" and "file" in members:
        place = f":{members['line']}:{members['column']}: ".encode()
        return name_bytes(members, "file") + place + kind + b" " + label
    return kind + b" " + label


def change_text(members: Members) -> bytes:
    """Returns a target that differs, with its reasons and the files behind them."""
    reasons, files = members["reasons"], members["files"]
    assert isinstance(reasons, list) and isinstance(files, list)
    words = name_bytes(members, "label") + b"  " + ", ".join(reasons).encode()
    return words + b"  <- " + " ".join(files).encode() if files else words
