"""What a check has found: how many things it compared, and what is wrong."""

import concurrent.futures
import dataclasses
import functools
import os
import subprocess
from collections.abc import Callable, Iterable
from typing import TypeVar

from harness.loader import Run

# How many of the things that are wrong are printed.
MAX_SHOWN = 10

T = TypeVar("T")
Comparison = Callable[[], str | None]


@dataclasses.dataclass
class Report:
    """How many things a check compared, what of it was wrong, and what is to be told beside
    that."""

    compared: int = 0
    wrong: list[str] = dataclasses.field(default_factory=list)
    notes: list[str] = dataclasses.field(default_factory=list)

    def add(self, *texts: str | None, compared: int = 0) -> None:
        """Adds comparisons, and what was wrong with them. Nothing was where there is no text."""
        self.compared += compared
        self.wrong += [text for text in texts if text]

    def note(self, text: str) -> None:
        """Adds what is told beside the number."""
        self.notes.append(text)

    def require(self, holds: bool, text: str) -> None:
        """Adds that something is wrong where a condition does not hold."""
        if not holds:
            self.wrong.append(text)

    def is_well(self) -> bool:
        """Whether something was compared, and nothing was wrong."""
        return bool(self.compared) and not self.wrong

    def lines(self, name: str) -> list[str]:
        """The lines that tell of a check. The last one begins with `ok` or `WRONG`."""
        notes = "".join(f", {it}" for it in self.notes)
        if self.is_well():
            return [f"ok {name} {self.compared} compared{notes}"]
        shown = [f"  {text}" for text in self.wrong[:MAX_SHOWN]]
        what = f"{len(self.wrong)} wrong, {self.compared} compared"
        return [*shown, f"WRONG {name} {what}{notes}"]


def differs(what: str, got: object, wanted: object) -> str | None:
    """A text of the difference between two things, or None."""
    return None if got == wanted else f"{what}: {got!r:.300} and not {wanted!r:.300}"


def first_difference(what: str, got: list[bytes], wanted: list[bytes]) -> str | None:
    """A text of the first line that differs, or of another number of lines, or None."""
    for at, (one, other) in enumerate(zip(got, wanted), 1):
        if one != other:
            return differs(f"{what}, line {at}", one, other)
    return differs(f"{what}, the number of lines", len(got), len(wanted))


def processors() -> int:
    """How many processors this process may use, which is how many comparisons are made at once."""
    return len(os.sched_getaffinity(0))


def run_differs(what: str, ran: Run, wanted: list[bytes]) -> str | None:
    """A text of what is wrong with a run that has to end well and to write these lines, or None."""
    ends = differs(f"{what}: status and what it said", ran.ended(), (0, b""))
    return ends or first_difference(what, ran.lines(), wanted)


def outcome(comparison: Comparison) -> str | None:
    """What a comparison finds wrong, or None. One that takes too long is wrong."""
    try:
        return comparison()
    except subprocess.TimeoutExpired as late:
        return str(late)


def compare_all(comparisons: Iterable[Comparison], threads: int | None = None) -> Report:
    """Makes comparisons side by side, or by so many threads."""
    with concurrent.futures.ThreadPoolExecutor(threads or processors()) as pool:
        found = list(pool.map(outcome, comparisons))
    return Report(len(found), [text for text in found if text])


def compare_each(check: Callable[[T], str | None], items: Iterable[T]) -> Report:
    """Compares each item side by side."""
    return compare_all([functools.partial(check, item) for item in items])
