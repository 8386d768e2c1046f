"""The one thread of the daemon that owns the tree. Requests come to it one after the other."""

from __future__ import annotations

import gc
import logging
import os
import threading
import time
from collections.abc import Callable
from typing import TypeVar

from sefgulaw.answers import Answers
from sefgulaw.base import Base, Options
from sefgulaw.event_file import EventFile
from sefgulaw.mirror import BrokenLoader
from sefgulaw.names import Pattern, encode
from sefgulaw.overlay import Overlay
from sefgulaw.plain import Members
from sefgulaw.requests import Answer, BadWords, Question, Tree, read_patterns
from sefgulaw.settling import Settling
from sefgulaw.store import cut, name_of
from sefgulaw.watch import RootGone
from sefgulaw.watch.fallback import FallBack
from sefgulaw.watching import Subscription, Update
from sefgulaw.wire import LONGEST_TEXT, MOST_NAMES, NoLoader, Stopped

LOG = logging.getLogger("sefgulaw.daemon")
PROGRESS_EACH = 0.1
CHECK_AFTER = 600.0

T = TypeVar("T")
FATAL = (BrokenLoader, NoLoader, RootGone, Stopped)


class Cancelled(Exception):
    """Nobody waits for the answer any more."""


class Job:
    """A request as the thread sees it."""

    def __init__(self) -> None:
        self.cancelled = False


class Keeper:
    """The tree, with everything that only one thread may touch.

    All methods but `progress_to` and `state` run in the thread that owns the tree.
    """

    def __init__(self, root: bytes, options: Options, events: EventFile | None = None) -> None:
        self.root, self.options, self.events = root, options, events
        self.asked_at = time.monotonic()
        self.differences = 0
        self._tree: Tree | None = None
        self._answers: Answers | None = None
        self._job: Job | None = None
        self._tell: Callable[[int, int, str], None] = lambda done, total, what: None
        self._told_at = 0.0
        self._subscriptions: list[Subscription] = []
        self._overflows = 0
        self._events_fault = ""

    def progress_to(self, tell: Callable[[int, int, str], None]) -> None:
        """Sets who is told how far the tree is."""
        self._tell = tell

    @property
    def tree(self) -> Tree:
        """The tree, which is opened when it is first needed."""
        if self._tree is None:
            base = Base.open_watched(
                self.root, self.options, LOG.warning, self._progress, self.events
            )
            self._tree = Tree(base)
            self._answers = Answers(self._tree)
        return self._tree

    @property
    def answers(self) -> Answers:
        """The tree with all that its answers are made of."""
        assert self.tree and self._answers
        return self._answers

    def _settle_memory(self) -> None:
        """Looks for garbage only among what came after the first load, which stays anyway."""
        if not gc.isenabled():
            gc.freeze()
            gc.enable()

    def close(self) -> None:
        """Ends the loader and the watch."""
        if self._answers is not None:
            self._answers.close()

    def _progress(self, done: int, total: int, what: str) -> None:
        """Tells how far the tree is. A request that nobody waits for ends between two groups."""
        if what == "packages" and self._job is not None and self._job.cancelled:
            raise Cancelled
        moment = time.monotonic()
        if moment - self._told_at >= PROGRESS_EACH:
            self._told_at = moment
            self._tell(done, total, what)

    def set_text(self, overlay: Overlay | None, name: str, text: str | None) -> Overlay:
        """Sets an unsaved text of a client, or takes it away."""
        self.tree.base.refresh()
        found = overlay or Overlay(self.tree.base)
        path = encode(os.fsencode(name))
        if not found.takes(path):
            raise BadWords(f'"{name}": there is no such BUILD or .bzl file')
        if text is not None and len(text.encode("utf-8", "surrogateescape")) > LONGEST_TEXT:
            raise BadWords(f'"{name}": the text has over {LONGEST_TEXT:,} bytes')
        found.put(path, text)
        return found

    def answer(
        self, job: Job, method: str, params: Members, overlay: Overlay | None = None
    ) -> Answer:
        """Answers a request, with the unsaved texts of the client that asks."""
        if job.cancelled:
            raise Cancelled
        self._job, self.asked_at = job, time.monotonic()
        try:
            return self.answers.answer(method, params, overlay)
        finally:
            self._job = None
            self._touch()
            self._settle_memory()

    def subscribe(self, job: Job, question: Question) -> tuple[Subscription, Update]:
        """Answers a request to be told of changes for the first time."""
        self._job = job
        try:
            self.tree.base.refresh()
            patterns: list[Pattern] = read_patterns(self.tree.base, question)
            subscription = Subscription(self.tree, patterns)
            self._touch()
            update = subscription.first()
            self._subscriptions.append(subscription)
            return subscription, update
        finally:
            self._job = None
            self._settle_memory()

    def unsubscribe(self, subscription: Subscription) -> None:
        """Forgets somebody who was told of changes."""
        if subscription in self._subscriptions:
            self._subscriptions.remove(subscription)

    def take(self) -> None:
        """Takes in what changed, before it is told to anybody."""
        self.tree.base.refresh()
        self._touch()
        for subscription in self._subscriptions:
            subscription.prepare()

    def updates(self) -> list[tuple[Subscription, Update]]:
        """Returns what is to be told to whom of the changes that were taken in."""
        self._touch()
        found = []
        for subscription in self._subscriptions:
            update = subscription.update()
            if update is not None:
                found.append((subscription, update))
        return found

    def _touch(self) -> None:
        """Takes in which packages changed, for those who are told of it."""
        watch = self.tree.base.watch
        overflows = watch.overflows if isinstance(watch, FallBack) else 0
        if overflows > self._overflows:
            self._overflows = overflows
            LOG.warning("the queue of events was too short, and the tree was walked over")
        self._look_at_events()
        touched = self.tree.base.take_touched()
        if touched:
            for subscription in self._subscriptions:
                subscription.touch(touched)

    def _look_at_events(self) -> None:
        """Notes in the log where the loader's events are not all written."""
        if self.events is None:
            return
        self.tree.base.look_at_events()
        if self.events.fault and self.events.fault != self._events_fault:
            LOG.warning("%s: %s", self.events.path, self.events.fault)
        self._events_fault = self.events.fault

    @property
    def has_subscriptions(self) -> bool:
        """Whether somebody is told of changes."""
        return bool(self._subscriptions)

    def compare(self) -> int:
        """Asks for all kept answers again, and returns how many differ from what is kept.

        A difference is a defect of this program. It is logged, and the new answer is kept.
        """
        base = self.tree.base
        base.refresh()
        names = [name for name in base.names() if name in base.store]
        base.load(names)
        kept = {name: base.store.raw(name) for name in names}
        differing = 0
        for at in range(0, len(names), MOST_NAMES):
            for answer in map(base.bridge.shown, base.mirror.load(names[at : at + MOST_NAMES])):
                for item in cut(answer):
                    name = name_of(item)
                    if kept.get(name) != item:
                        differing += 1
                        LOG.error("//%s was kept as %r and is %r", name, kept.get(name), item)
                base.store.put(answer)
        self.differences += differing
        return differing

    def state(self) -> dict[str, object]:
        """Returns what `status` shows of the tree. Any thread may ask, also during a long load."""
        events = self.events
        recorded: dict[str, object] = {
            "allocator": self.options.allocator.library,
            "events": None if events is None else events.path,
            "events_fault": "" if events is None else events.fault,
            "events_size": 0 if events is None else events.size(),
        }
        if self._tree is None:
            empty = {"packages": 0, "files": 0, "version": 0, "watches": 0, "watched": True}
            return {**empty, **recorded}
        base = self._tree.base
        watch = base.watch
        return {
            "packages": len(base.names()),
            "files": len(base.told),
            "version": base.version,
            "watched": isinstance(watch, FallBack) and watch.is_told,
            "watches": watch.watches if isinstance(watch, FallBack) else 0,
            "overflows": watch.overflows if isinstance(watch, FallBack) else 0,
            "restarts": base.mirror.restarts,
            "differences": self.differences,
            "memory": memory_of(os.getpid()) + memory_of(base.mirror.pid),
            **recorded,
        }


def memory_of(process: int | None) -> int:
    """Returns how many bytes of memory a process has."""
    if process is None:
        return 0
    try:
        with open(f"/proc/{process}/statm", encoding="ascii") as file:
            return int(file.read().split()[1]) * os.sysconf("SC_PAGE_SIZE")
    except (OSError, ValueError, IndexError):
        return 0


class Watcher(threading.Thread):
    """Waits until something changed in the tree and all is quiet, and calls `changed` then.

    What changed is taken in by `take`, which may be called several times before.
    """

    def __init__(
        self, keeper: Keeper, take: Callable[[], None], changed: Callable[[], None]
    ) -> None:
        super().__init__(name="watcher", daemon=True)
        self._settling = Settling(keeper.tree.base.watch, keeper.root)
        self._take, self._changed = take, changed
        self.ended = False
        self.wanted = threading.Event()

    def run(self) -> None:
        """Waits and calls until the daemon ends."""
        while not self.ended:
            self.wanted.wait()
            if self._settling.wait(1.0, self._take) and not self.ended:
                self._changed()
