"""The beginnings of a file: what the loader says of it with its first statements alone.

They are asked of a bench, so the tree does not notice. A beginning that has a fault, where the one
before it has it not, ends with the statement that has it.
"""

from __future__ import annotations

import functools
import json
import time
from collections.abc import Sequence
from typing import Union

from sefgulaw.bench import Bench
from sefgulaw.messages import CYCLE
from sefgulaw.names import Path
from sefgulaw.store import Cyclic, Fault
from sefgulaw.text import Span, statements

AnyFault = Union[Fault, Cyclic]


class TooLong(Exception):
    """The time is over within which a place is looked for."""


def read_fault(answer: bytes) -> AnyFault | None:
    """Returns the fault of an answer about one package or one module."""
    members = json.loads(answer)
    if "packages" in members:
        members = members["packages"][0]
    fault = members.get("fault")
    if fault is None:
        return None
    if "cycle" in fault:
        return Cyclic(tuple(str(label) for label in fault["cycle"]))
    return Fault(int(fault["code"]), int(fault["line"]), Path(str(fault["path"])))


def code_of(fault: AnyFault) -> int:
    """Returns the number of a fault."""
    return CYCLE if isinstance(fault, Cyclic) else fault.code


class Beginnings:
    """The beginnings of one text at its path, by whole statements."""

    def __init__(
        self,
        bench: Bench,
        path: Path,
        text: str,
        until: float,
        spans: Sequence[Span] | None = None,
    ) -> None:
        self.bench, self.path, self.text, self.until = bench, path, text, until
        self.lines = text.split("\n")
        self.spans = statements(text) if spans is None else spans
        self._command = bench.asking(path)

    def answer(self, text: str) -> bytes:
        """Returns what the file is worth with this text."""
        if time.monotonic() > self.until:
            raise TooLong
        return self.bench.try_text(self.path, text, self._command)

    def fault(self, text: str) -> AnyFault | None:
        """Returns the fault that the file has with this text."""
        return read_fault(self.answer(text))

    def beginning(self, count: int) -> str:
        """Returns the text up to the statement that follows the first `count` ones."""
        if count == len(self.spans):
            return self.text
        return "".join(line + "\n" for line in self.lines[: self.spans[count].line - 1])

    def without(self, span: Span) -> Beginnings:
        """Returns the file with the lines of a statement empty."""
        empty = [""] * (span.end_line - span.line + 1)
        lines = [*self.lines[: span.line - 1], *empty, *self.lines[span.end_line :]]
        rest = [it for it in self.spans if it != span]
        return Beginnings(self.bench, self.path, "\n".join(lines), self.until, rest)

    def around(self, line: int) -> Span | None:
        """Returns the statement that a line is in."""
        return next((it for it in self.spans if it.line <= line <= it.end_line), None)

    def first(self, fault: AnyFault) -> Span | None:
        """Returns the first statement with which the file has a fault that the whole file has."""

        @functools.lru_cache(None)
        def has(count: int) -> bool:
            return self.fault(self.beginning(count)) == fault

        low, high = 0, len(self.spans)
        while high - low > 1:
            middle = (low + high) // 2
            if has(middle):
                high = middle
            else:
                low = middle
        if high and has(high) and not has(high - 1):
            return self.spans[high - 1]
        return None
