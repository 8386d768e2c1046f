"""A bar on a terminal while a long first load goes on."""

from __future__ import annotations

import os
import time

from sefgulaw.cli.output import ERR, say

TYPE_CHECKING = False
if TYPE_CHECKING:
    from typing import Protocol

    class _Drawn(Protocol):
        """What of tqdm is used."""

        total: float
        n: float

        def set_description_str(self, desc: str, refresh: bool) -> object:
            """Sets the words before the bar."""

        def refresh(self) -> object:
            """Draws the bar again."""

        def close(self) -> object:
            """Takes the bar away."""


WAITING = 0.5
_VERBS = {"files": "reading", "packages": "loading"}


class Bar:
    """Shows how far something is, from half a second after it began. A pipe gets nothing."""

    def __init__(self, shown: bool | None = None) -> None:
        self._begun = time.monotonic()
        self._shown = os.isatty(ERR) if shown is None else shown
        self._what = ""
        self._drawn: _Drawn | None = None

    def update(self, done: int, total: int, what: str) -> None:
        """Takes in that so many of so many things are done."""
        if not self._shown or time.monotonic() - self._begun < WAITING:
            return
        if what != self._what:
            self._end()
            self._drawn = _new(total)
            self._what = what
            self._shown = self._drawn is not None
        if self._drawn is not None:
            self._drawn.total, self._drawn.n = total, done
            words = f"{_VERBS.get(what, 'at')} {done:,} of {total:,} {what}"
            self._drawn.set_description_str(words, refresh=False)
            self._drawn.refresh()

    def close(self) -> None:
        """Takes the bar away, before the first line of an answer."""
        self._end()
        self._shown = False

    def _end(self) -> None:
        if self._drawn is not None:
            self._drawn.close()
            self._drawn = None


def _new(total: int) -> _Drawn | None:
    try:
        from tqdm import tqdm
    except ImportError:
        say("there is no progress bar without the package python3-tqdm")
        return None
    drawn: _Drawn = tqdm(total=total, leave=False, bar_format="{desc} |{bar:40}|")
    return drawn
