"""Tells why a node ran, from a file of events."""

from __future__ import annotations

import argparse
import os
from collections.abc import Iterator

from sefgulaw.cli.asking import where
from sefgulaw.cli.daemon import state_of
from sefgulaw.cli.output import BAD_WORDS, NO_ANSWER, Failure, Output, say
from sefgulaw.daemon.place import Place
from sefgulaw.event_file import earlier
from sefgulaw.events import BadEvents, EventReader
from sefgulaw.explain import (
    History,
    NoEvents,
    NoRun,
    chain,
    equal_lines,
    graph_lines,
    history_of,
    keys_of,
    shown,
    text_lines,
    top_lines,
)

_START = "'sefgulaw daemon start --events FILE'"


def explain(found: argparse.Namespace) -> int:
    """Prints the chain of causes of one run, or the keys with most turns."""
    _check_words(found)
    name = found.events
    if name is None:
        name, fault = _events_of_daemon(found)
        if fault and not hasattr(found, "quiet"):
            say(f"{name}: {fault}")
    output = Output()
    try:
        with open(name, "rb") as file:
            reader = EventReader(file)
            for line in _lines(reader, found, name):
                output.line(line.encode("utf-8", "surrogateescape"))
    except OSError as error:
        raise Failure(NO_ANSWER, f"{name}: {error.strerror}") from None
    except BadEvents as error:
        raise Failure(NO_ANSWER, f"{name}: {error}") from None
    except NoEvents as error:
        raise Failure(NO_ANSWER, f"{name}: {error}{_earlier(name)}") from None
    output.flush()
    if reader.is_cut and not hasattr(found, "quiet"):
        say(f"{name}: the last line is not whole and is left out")
    return 0


def _check_words(found: argparse.Namespace) -> None:
    if (found.key is None) == (found.top is None):
        raise Failure(BAD_WORDS, "explain takes a key, or --top")
    is_graph = found.output == "graph"
    if found.top is not None and (found.line is not None or found.all or is_graph):
        raise Failure(
            BAD_WORDS, "--line, --all and --output graph go with a key, and not with --top"
        )
    if found.all and is_graph:
        raise Failure(BAD_WORDS, "--all goes with --output text")
    if found.events is None and hasattr(found, "no_daemon"):
        raise Failure(BAD_WORDS, "without a daemon explain takes --events FILE")


def _events_of_daemon(found: argparse.Namespace) -> tuple[str, str]:
    """Returns the file to which the tree's daemon writes events, and what is wrong with it."""
    root = where(found).root
    state = state_of(Place(root))
    if state is None:
        words = f"no daemon runs for {os.fsdecode(root)}: name a file by --events FILE"
        raise Failure(NO_ANSWER, f"{words}, or start a daemon by {_START}")
    if not state.get("events"):
        words = f"the daemon of {os.fsdecode(root)} writes no events"
        raise Failure(NO_ANSWER, f"{words}: start another one by {_START}")
    return str(state["events"]), str(state["events_fault"])


def _earlier(name: str) -> str:
    """Tells where the events of the loader before this one are, if they are kept."""
    try:
        files = earlier(name)
    except OSError:
        return ""
    return f"; {files[-1]} has those of the loader before" if files else ""


def _lines(reader: EventReader, found: argparse.Namespace, name: str) -> Iterator[str]:
    if found.top is not None:
        return top_lines(reader, found.top)
    keys = keys_of(found.key)
    try:
        history = history_of(reader, keys, found.line)
    except NoRun:
        at = "" if found.line is None else f" up to line {found.line}"
        words = f"{shown(keys[0])}: the events have no run of it{at}{_earlier(name)}"
        raise Failure(BAD_WORDS, words) from None
    if found.output == "graph":
        return graph_lines(chain(history))
    return _text(history, found.all)


def _text(history: History, has_equal: bool) -> Iterator[str]:
    yield from text_lines(chain(history))
    if has_equal:
        yield from equal_lines(history)
