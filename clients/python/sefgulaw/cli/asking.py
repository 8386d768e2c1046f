"""Asks the daemon of a tree, or answers in this process where no daemon is wanted."""

from __future__ import annotations

import argparse
import os
import time
from collections.abc import Iterator

from sefgulaw.cli.output import BAD_WORDS, NO_ANSWER, Failure
from sefgulaw.daemon.client import Client, Lost, Other, Reply, connect, hello
from sefgulaw.daemon.place import Place
from sefgulaw.daemon.protocol import Params
from sefgulaw.roots import NoTree, find_loader, find_root, named_loader, no_loader

TYPE_CHECKING = False
if TYPE_CHECKING:
    from sefgulaw.daemon.members import Hello

ATTEMPTS = 5
PAUSE = 0.05


class Where:
    """The tree that a command is about, and the words that say how it is asked."""

    __slots__ = ("cwd", "is_direct", "loader", "root")

    def __init__(self, root: bytes, cwd: str, loader: str | None, is_direct: bool) -> None:
        self.root, self.cwd, self.loader, self.is_direct = root, cwd, loader, is_direct


def where(found: argparse.Namespace) -> Where:
    """Returns the root of the tree, the present directory below it, and how it is asked."""
    given = getattr(found, "directory", None)
    try:
        root = find_root(given or ".", given is not None)
        here = os.path.relpath(os.path.realpath(b"."), root)
    except (NoTree, OSError) as error:
        raise Failure(BAD_WORDS, str(error)) from None
    inside = not (here == b".." or here.startswith(b"../"))
    cwd = os.fsdecode(here) if inside and here != b"." else ""
    direct = ("no_daemon", "stand_ins", "workers", "allocator")
    is_direct = any(hasattr(found, word) for word in direct)
    return Where(root, cwd, getattr(found, "loader", None), is_direct)


def connected(at: Where, starts: bool, events: str | None = None) -> tuple[Client, Hello] | None:
    """Returns a connection with the daemon, which is started if it may be. None is no daemon.

    `events` is the file to which the daemon has to write events.
    """
    place = Place(at.root)
    loader = find_loader(at.loader)
    found = connect(place)
    if found is None:
        if not starts:
            return None
        if loader is None:
            raise Failure(NO_ANSWER, no_loader(at.loader))
        from sefgulaw.daemon.start import started

        found = started(place, at.root, loader, events)
    if loader is None and named_loader(at.loader):
        raise Failure(NO_ANSWER, no_loader(at.loader))
    return Client(found), hello(loader, events)


def replies(at: Where, method: str, asked: Params | None) -> Iterator[Reply] | None:
    """Yields the daemon's replies. None says that there is no daemon, and none is to be started."""
    starts = not os.environ.get("CI")
    first = connected(at, starts)
    return None if first is None else _replies(at, method, asked, first)


def _replies(
    at: Where, method: str, asked: Params | None, first: tuple[Client, Hello]
) -> Iterator[Reply]:
    """A connection that ends before its first item is tried again: the daemon was just ending."""
    found: tuple[Client, Hello] | None = first
    for attempt in range(ATTEMPTS):
        if found is None:
            break
        time.sleep(attempt * PAUSE)
        client, greeting = found
        has_items = False
        try:
            for reply in client.ask(method, asked, greeting):
                has_items = has_items or reply.item is not None
                yield reply
            return
        except Lost:
            if has_items:
                break
        except Other:
            pass
        finally:
            client.close()
        found = connected(at, True)
    raise Failure(NO_ANSWER, "the daemon has ended before its answer did")
