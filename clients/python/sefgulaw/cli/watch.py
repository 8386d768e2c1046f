"""Prints an answer, and after each change the lines of the packages that differ."""

from __future__ import annotations

import argparse
import json
import time
from collections.abc import Callable

from sefgulaw.cli.asking import replies, where
from sefgulaw.cli.output import Failure, Output, say
from sefgulaw.cli.progress import Bar
from sefgulaw.daemon.protocol import Params
from sefgulaw.plain import Members, text_lines

MOST_LOSSES = 3
LOSSES_WITHIN = 60.0


class Updates:
    """Prints updates in the form that was asked for."""

    def __init__(self, form: str, quiet: bool) -> None:
        self._text, self._quiet = form == "text", quiet
        self._output = Output()

    def take(self, line: bytes) -> None:
        """Prints a line of an update. The last one has the packages that the update is about."""
        if not self._text:
            self._output.line(line)
        members = json.loads(line) if self._text or line.startswith(_MARKS) else {}
        if self._text:
            is_mark = "packages" in members and "version" in members
            self._output.line(mark_text(members) if is_mark else text_lines(members))
        if "version" in members:
            self._output.flush()
            for note in [] if self._quiet else members.get("notes", []):
                say(note)


_MARKS = (b'{"notes":', b'{"packages":')


def mark_text(members: Members) -> bytes:
    """Returns the line that ends an update, with the packages that it replaces."""
    packages = members["packages"]
    assert isinstance(packages, list)
    words = [str(members["version"]), *(_word(str(name)) for name in packages)]
    return ("# " + " ".join(words)).encode("utf-8", "surrogateescape")


def _word(name: str) -> str:
    """Returns a package's name as one word."""
    if not name:
        return "//"
    return "'" + name.replace("'", "'\\''") + "'" if set(name) & set(" \t\n'\"\\") else name


def watch(found: argparse.Namespace) -> int:
    """Prints until it is interrupted."""
    at = where(found)
    updates = Updates(found.output, getattr(found, "quiet", False))
    asked: Params = {"patterns": found.patterns, "cwd": at.cwd}
    losses: list[float] = []
    while True:
        answering = None if at.is_direct else replies(at, "watch", asked)
        if answering is None:
            return _direct(found, updates.take)
        bar = Bar()
        try:
            for reply in answering:
                if reply.item is not None:
                    bar.close()
                    updates.take(reply.item)
                elif reply.progress is not None:
                    progress = reply.progress
                    bar.update(progress["done"], progress["of"], progress["what"])
                elif reply.end is not None:
                    end = reply.end
                    raise Failure(end["status"], "\n".join(end["notes"]) or "the daemon ends")
        except Failure as failure:
            losses = [it for it in losses if time.monotonic() - it < LOSSES_WITHIN]
            losses.append(time.monotonic())
            if "before its answer" not in str(failure) or len(losses) > MOST_LOSSES:
                raise
        finally:
            bar.close()


def _direct(found: argparse.Namespace, take: Callable[[bytes], None]) -> int:
    """Keeps an answer up in this process."""
    from sefgulaw.cli.direct import options_of, settings_of, watched
    from sefgulaw.requests import Question

    at = where(found)
    options = options_of(
        settings_of(at.root),
        at.loader,
        getattr(found, "workers", None),
        getattr(found, "stand_ins", None),
        getattr(found, "allocator", None),
    )
    question = Question(tuple(found.patterns), at.cwd)
    bar = Bar()
    for update in watched(at.root, options, question, bar.update):
        bar.close()
        for line in update.lines:
            take(line)
        take(update.mark())
    return 0
