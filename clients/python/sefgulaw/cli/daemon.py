"""Looks after the daemon of a tree."""

from __future__ import annotations

import argparse
import json
import os
import time

from sefgulaw.cli.asking import ATTEMPTS, PAUSE, Where, connected, where
from sefgulaw.cli.output import BAD_WORDS, NO_ANSWER, Failure, Output, say
from sefgulaw.daemon.client import Client, Lost, Other, connect
from sefgulaw.daemon.place import Place
from sefgulaw.plain import Members

MOST_ENDING = 10.0


def daemon(found: argparse.Namespace) -> int:
    """Starts, stops or shows the daemon of a tree."""
    at = where(found)
    word = found.word
    if found.events is not None and word != "start":
        raise Failure(BAD_WORDS, f"--events goes with start, and not with {word}")
    if word == "start":
        return _start(at, found)
    if word == "stop":
        return _stop(at)
    if word == "log":
        return _log(at)
    return _status(at)


def _start(at: Where, found: argparse.Namespace) -> int:
    events = None if found.events is None else os.path.abspath(found.events)
    if events is not None:
        _check_file(at, events)
    for attempt in range(ATTEMPTS):
        time.sleep(attempt * PAUSE)
        pair = connected(at, True, events)
        assert pair is not None
        client, greeting = pair
        try:
            for _reply in client.ask("status", None, greeting):
                pass
        except (Lost, Other):
            continue
        finally:
            client.close()
        if events is not None and _is_seen(at.root, events) and not hasattr(found, "quiet"):
            say(f"{found.events} lies in the tree, where globs see it")
        return 0
    raise Failure(NO_ANSWER, "the daemon has ended again")


def _check_file(at: Where, events: str) -> None:
    """Fails where a daemon that runs would make way for one that cannot write its events."""
    from sefgulaw.event_file import CannotRecord, EventFile

    state, file = state_of(Place(at.root)), EventFile(events)
    if state is None or (state.get("events") and file.is_at(str(state["events"]))):
        return
    try:
        file.claim()
    except CannotRecord as error:
        raise Failure(NO_ANSWER, f"{events}: {error}") from None
    file.give_up()


def state_of(place: Place) -> Members | None:
    """Returns what the daemon of a tree tells of itself. None says that there is no daemon."""
    connection = connect(place)
    if connection is None:
        return None
    client = Client(connection)
    try:
        items = [it.item for it in client.ask("status", None, None) if it.item is not None]
    except Lost:
        return None
    finally:
        client.close()
    state: Members | None = json.loads(items[0]) if items else None
    return state


def _is_seen(root: bytes, events: str) -> bool:
    """Tells whether a file lies in the tree and in no directory that is not looked at."""
    from sefgulaw.cli.direct import settings_of

    path = os.path.relpath(os.fsencode(os.path.realpath(events)), root)
    if path.startswith(b"../"):
        return False
    ignored = settings_of(root).ignored
    while path := os.path.dirname(path):
        if ignored.covers(path):
            return False
    return True


def _stop(at: Where) -> int:
    place = Place(at.root)
    connection = connect(place)
    if connection is None:
        place.forget_events()
        say("no daemon runs")
        return 0
    client = Client(connection)
    try:
        for _ in client.ask("stop", None, None):
            pass
    except Lost:
        pass
    finally:
        client.close()
    begun = time.monotonic()
    while os.path.exists(place.file("socket")) and time.monotonic() - begun < MOST_ENDING:
        time.sleep(0.01)
    return 0


def _log(at: Where) -> int:
    place = Place(at.root)
    output = Output()
    for name in ("log.1", "log"):
        try:
            with open(place.file(name), "rb") as file:
                for line in file:
                    output.line(line.rstrip(b"\n"))
        except FileNotFoundError:
            continue
        except OSError as error:
            raise Failure(NO_ANSWER, f"{place.file(name)}: {error.strerror}") from None
    output.flush()
    return 0


def _status(at: Where) -> int:
    state = state_of(Place(at.root))
    words = "no daemon runs" if state is None else status_text(state)
    output = Output()
    output.line(os.fsencode(f"{home(os.fsdecode(at.root))}: {words}"))
    output.flush()
    return 0


def home(name: str) -> str:
    """Returns a path as a person writes it, with `~` for the home directory."""
    at = os.path.expanduser("~")
    return "~" + name[len(at) :] if at != "/" and name.startswith(at + "/") else name


def status_text(state: Members) -> str:
    """Returns what a person is shown of the daemon's state."""
    watched = f"watched ({_count(state['watches'], 'watch', 'watches')})"
    words = [
        _count(state["packages"], "package"),
        _count(state["files"], "file"),
        f"version {state['version']}",
        watched if state["watched"] else "walked over for each answer",
        _count(state["clients"], "client"),
        f"{_number(state.get('memory', 0)) // 1_000_000:,} MB",
    ]
    if state.get("allocator"):
        words.append(f"allocator {os.path.basename(str(state['allocator']))}")
    if state.get("restarts"):
        words.append(_count(state["restarts"], "restart"))
    if state.get("differences"):
        words.append(f"{_count(state['differences'], 'difference')} found, see the log")
    if state.get("events"):
        words.append(_events_text(state))
    minutes = max(0, round(_number(state["idle_seconds"]) / 60))
    words.append(f"stops after {_count(minutes, 'minute')}")
    return ", ".join(words)


def _events_text(state: Members) -> str:
    """Returns what a person is shown of the file of events."""
    name = home(str(state["events"]))
    if state["events_fault"]:
        return f"events to {name} are not complete ({state['events_fault']})"
    return f"events to {name} ({_number(state['events_size']) / 1_000_000:,.1f} MB)"


def _number(value: object) -> int:
    return int(value) if isinstance(value, (int, float)) else 0


def _count(number: object, one: str, several: str | None = None) -> str:
    count = _number(number)
    return f"{count:,} {one if count == 1 else several or one + 's'}"
