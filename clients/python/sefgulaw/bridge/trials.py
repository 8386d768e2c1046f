"""Faults of a package that was told rewritten, found by other texts at its path on a bench.

Each statement is one told line. So a text's beginnings are its first lines, and a statement is
taken out by an empty line in its place.
"""

from __future__ import annotations

from sefgulaw.bench import Bench
from sefgulaw.bridge.labels import DEFS_FILE
from sefgulaw.names import Path
from sefgulaw.store import Bad, Fault, cut, read_item
from sefgulaw.text import names_bound
from sefgulaw.wire import Load, Stopped

UNBOUND = 4


def fault_of(item: bytes) -> Fault | None:
    """Returns the fault that an item tells, if any; a cycle is none."""
    if item.startswith(b'{"name"'):
        return None
    found = read_item(item)
    return found.fault if isinstance(found, Bad) else None


class Trials:
    """Tries texts on a bench."""

    def __init__(self, bench: Bench) -> None:
        self._bench = bench

    def close(self) -> None:
        """Ends the bench's loader."""
        self._bench.close()

    def _answer(self, name: str, path: Path, lines: list[str]) -> bytes:
        answer = self._bench.try_text(path, "".join(lines), Load([name]))
        return cut(answer)[0]

    def line_of(self, name: str, path: Path, lines: list[str], fault: Fault) -> int:
        """Finds the told line that leads to a fault in another file, by the text's beginnings."""
        low, high = 0, len(lines)
        while high - low > 1:
            middle = (low + high) // 2
            same = fault_of(self._answer(name, path, lines[:middle])) == fault
            low, high = (low, middle) if same else (middle, high)
        return high

    def faults(self, name: str, path: Path, text: str, most: int) -> list[Fault]:
        """Returns the faults of a package with a told text, those in this text with the told line.

        The statement of each fault is taken out, and the rest is asked again. A name that such a
        statement would have bound is not missed.
        """
        lines = text.splitlines(True)
        found: list[Fault] = []
        lost: set[str] = set()
        self._bench.refresh()
        try:
            while len(found) < most:
                fault = fault_of(self._answer(name, path, lines))
                if fault is None:
                    break
                line = fault.line
                if fault.path != path:
                    line = self.line_of(name, path, lines, fault)
                if not 0 < line <= len(lines) or lines[line - 1] == "\n":
                    break
                statement, lines[line - 1] = lines[line - 1], "\n"
                if fault.code != UNBOUND or not any(it in statement for it in lost):
                    is_own = fault.path in (path, DEFS_FILE)
                    found.append(Fault(fault.code, line, path) if is_own else fault)
                lost |= names_bound(statement)
        except Stopped:
            pass
        return found
