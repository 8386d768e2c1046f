"""Asks one question and prints its answer."""

from __future__ import annotations

import argparse

from sefgulaw.cli.asking import Where, replies, where
from sefgulaw.cli.output import BAD_WORDS, Failure, say
from sefgulaw.cli.printing import Printer, printer
from sefgulaw.cli.progress import Bar
from sefgulaw.daemon.protocol import Params

TYPE_CHECKING = False
if TYPE_CHECKING:
    from sefgulaw.daemon.members import End


def ask(found: argparse.Namespace) -> int:
    """Asks for the faults or the targets of packages."""
    at = where(found)
    asked: dict[str, object] = {"patterns": found.patterns, "cwd": at.cwd}
    if getattr(found, "names", False):
        asked["names"] = True
    return _ask(found, at, asked, Printer(found.command, found.output))


def query(found: argparse.Namespace) -> int:
    """Asks for the targets that an expression stands for."""
    at = where(found)
    asked: dict[str, object] = {"expression": found.expression, "cwd": at.cwd}
    asked["output"] = found.output
    asked["missing"] = found.missing
    return _ask(found, at, asked, printer("query", found.output))


def changed(found: argparse.Namespace) -> int:
    """Asks for the targets that differ between two revisions."""
    form = "changed" if found.output == "text" else found.output
    asked: dict[str, object] = {"old": found.old, "new": found.new}
    return _ask(found, where(found), asked, Printer("changed", form))


def index(found: argparse.Namespace) -> int:
    """Asks for all targets, edges and modules."""
    at = where(found)
    asked: dict[str, object] = {"patterns": found.patterns, "cwd": at.cwd}
    return _ask(found, at, asked, Printer("index", "jsonl"))


def _ask(found: argparse.Namespace, at: Where, asked: Params, printer: Printer) -> int:
    bar = Bar()
    try:
        answering = None if at.is_direct else replies(at, found.command, asked)
        if answering is None:
            end = _direct(at, found, asked, printer, bar)
        else:
            for reply in answering:
                if reply.item is not None:
                    bar.close()
                    printer.take(reply.item)
                elif reply.progress is not None:
                    progress = reply.progress
                    bar.update(progress["done"], progress["of"], progress["what"])
                elif reply.end is not None:
                    end = reply.end
    finally:
        bar.close()
    if end["status"] < BAD_WORDS:
        printer.end()
    return show_end(end, getattr(found, "quiet", False))


def show_end(end: End, quiet: bool) -> int:
    """Prints what stands beside an answer, and returns the status."""
    if end["status"] >= BAD_WORDS:
        raise Failure(end["status"], "\n".join(end["notes"]) or "there is no answer")
    if not quiet:
        for note in end["notes"]:
            say(note)
        if end["summary"]:
            say(end["summary"])
    return end["status"]


def _direct(at: Where, found: argparse.Namespace, asked: Params, printer: Printer, bar: Bar) -> End:
    from sefgulaw.cli.direct import answer, options_of, settings_of

    settings = settings_of(at.root)
    options = options_of(
        settings,
        at.loader,
        getattr(found, "workers", None),
        getattr(found, "stand_ins", None),
        getattr(found, "allocator", None),
    )

    def take(line: bytes) -> None:
        bar.close()
        printer.take(line)

    end = answer(at.root, options, found.command, asked, take, bar.update)
    return {
        "status": end.status,
        "version": end.version,
        "exact": end.exact,
        "notes": list(end.notes),
        "summary": end.summary,
    }
