"""The daemon's side of the socket."""

from __future__ import annotations

import asyncio
import gc
import logging
import logging.handlers
import os
import signal
import socket
import sys
import time
from collections.abc import Callable
from concurrent.futures import ThreadPoolExecutor
from typing import TypeVar

from sefgulaw import __version__
from sefgulaw.base import Options
from sefgulaw.cli.direct import options_of, settings_of
from sefgulaw.cli.output import NO_ANSWER, Failure
from sefgulaw.daemon.connection import Connection, peer_is_own
from sefgulaw.daemon.keeper import CHECK_AFTER, FATAL, LOG, Keeper, Watcher
from sefgulaw.daemon.place import Place
from sefgulaw.daemon.protocol import LONGEST_LINE, VERSION
from sefgulaw.daemon.start import READY
from sefgulaw.event_file import CannotRecord, EventFile
from sefgulaw.settings import IGNORE_FILE, SETTINGS_FILE, Settings
from sefgulaw.watching import Subscription, Update

OWNER_EACH = 0.5
LOG_SIZE = 1_000_000
MOST_ENDING = 5.0

T = TypeVar("T")


class Server:
    """Answers front ends until nobody needs it any more."""

    def __init__(
        self,
        root: bytes,
        settings: Settings,
        options: Options,
        place: Place,
        events: EventFile | None = None,
    ) -> None:
        self.root, self.settings, self.place = root, settings, place
        self.keeper = Keeper(root, options, events)
        self.thread = ThreadPoolExecutor(1, "keeper")
        self.connections: set[Connection] = set()
        self.watching: dict[int, tuple[Connection, int]] = {}
        self.identity = _identity(options.program)
        self._stamps = _stamps(root)
        self._used = time.monotonic()
        self._compared = time.monotonic()
        self._ended = asyncio.Event()
        self._watcher: Watcher | None = None
        self._socket_stat: os.stat_result | None = None
        self._loop = asyncio.get_running_loop()
        self.keeper.progress_to(self._progress)

    async def serve(self, listening: socket.socket) -> None:
        """Serves until it is told to end."""
        self._socket_stat = os.stat(self.place.file("socket"))
        for number in (signal.SIGTERM, signal.SIGINT, signal.SIGHUP):
            self._loop.add_signal_handler(number, self.end, f"signal {number}")
        server = await asyncio.start_unix_server(
            self._connected, sock=listening, limit=LONGEST_LINE
        )
        LOG.info("serves %s, process %d", os.fsdecode(self.root), os.getpid())
        while not self._ended.is_set():
            try:
                await asyncio.wait_for(self._ended.wait(), OWNER_EACH)
            except asyncio.TimeoutError:
                await self._look_around()
        server.close()
        await self._finish()

    def end(self, why: str) -> None:
        """Ends the daemon after its running requests."""
        if not self._ended.is_set():
            LOG.info("ends: %s", why)
            self._remove_socket()
            if self.keeper.events is not None:
                self.keeper.events.unlock()
            self._ended.set()

    def stop(self) -> None:
        """Ends the daemon for good: the next one writes no events."""
        self.place.forget_events()
        self.end("it was told to stop")

    @property
    def is_ending(self) -> bool:
        """Whether no new request is taken."""
        return self._ended.is_set()

    def differs(self, version: object, loader: object, events: object = None) -> bool:
        """Tells whether a front end wants another daemon than this one."""
        is_other = bool(loader) and loader != self.identity
        if isinstance(events, str):
            own = self.keeper.events
            is_other = is_other or own is None or not own.is_at(events) or bool(own.fault)
        return version != [VERSION, __version__] or is_other or self._stamps != _stamps(self.root)

    def make_way(self) -> None:
        """Leaves the socket to another daemon, and ends."""
        self.end("another version, loader or file of events or other settings are asked for")

    def idle_seconds(self) -> float:
        """Returns in how many seconds the daemon ends if nobody comes."""
        if self.connections:
            return self.settings.idle_minutes * 60
        return self.settings.idle_minutes * 60 - (time.monotonic() - self._used)

    async def _connected(self, reader: asyncio.StreamReader, writer: asyncio.StreamWriter) -> None:
        if not peer_is_own(writer):
            LOG.warning("somebody else's process is refused")
            writer.close()
            return
        connection = Connection(self, reader, writer)
        self.connections.add(connection)
        try:
            await connection.serve()
        finally:
            self.connections.discard(connection)
            self._used = time.monotonic()

    async def _look_around(self) -> None:
        """Ends a daemon that nobody uses, that has lost its socket, or whose tree has gone."""
        if self.idle_seconds() <= 0:
            self.end("nobody has asked for a long time")
        elif not self._owns_socket():
            self.end("the socket belongs to another daemon")
        elif not os.path.isdir(self.root):
            self.end("the tree has gone")
        elif self._stamps != _stamps(self.root):
            self.make_way()
        moment = time.monotonic()
        if moment - max(self._compared, self.keeper.asked_at) > CHECK_AFTER:
            self._compared = moment
            await self._loop.run_in_executor(self.thread, self.keeper.compare)

    def _owns_socket(self) -> bool:
        try:
            found = os.stat(self.place.file("socket"))
        except OSError:
            return False
        mine = self._socket_stat
        return mine is not None and (found.st_ino, found.st_dev) == (mine.st_ino, mine.st_dev)

    def _remove_socket(self) -> None:
        if self._owns_socket():
            os.unlink(self.place.file("socket"))
            os.unlink(self.place.file("pid"))

    async def _finish(self) -> None:
        """Waits for running requests, and ends the loader."""
        if self._watcher is not None:
            self._watcher.ended = True
            self._watcher.wanted.set()
        tasks = [task for it in self.connections for task in it.running()]
        if tasks:
            await asyncio.wait(tasks, timeout=MOST_ENDING)
        for connection in tuple(self.connections):
            connection.close()
        closing = self._loop.run_in_executor(self.thread, self.keeper.close)
        await asyncio.wait([closing], timeout=MOST_ENDING)
        self.thread.shutdown(wait=False)

    # What the thread of the tree tells.

    def _progress(self, done: int, total: int, what: str) -> None:
        self._loop.call_soon_threadsafe(self._show_progress, done, total, what)

    def _show_progress(self, done: int, total: int, what: str) -> None:
        for connection in self.connections:
            connection.progress(done, total, what)

    def subscribed(self, subscription: Subscription, connection: Connection, number: int) -> None:
        """Notes who is told of changes, and begins to wait for them."""
        self.watching[id(subscription)] = (connection, number)
        if self._watcher is None:
            self._watcher = Watcher(self.keeper, self._take, self._changed)
            self._watcher.start()
        self._watcher.wanted.set()

    async def unsubscribed(self, subscription: Subscription) -> None:
        """Forgets who was told of changes."""
        self.watching.pop(id(subscription), None)
        if not self.watching and self._watcher is not None:
            self._watcher.wanted.clear()
        await self._loop.run_in_executor(self.thread, self.keeper.unsubscribe, subscription)

    def _take(self) -> None:
        """Takes a change in. It is called by the watcher's thread, which waits for it."""
        self._in_keeper(self.keeper.take)

    def _changed(self) -> None:
        """Tells of what was taken in. It is called by the watcher's thread, which waits for it."""
        updates = self._in_keeper(self.keeper.updates)
        if updates:
            self._loop.call_soon_threadsafe(self.tell, updates)

    def _in_keeper(self, call: Callable[[], T]) -> T | None:
        """Calls something in the tree's thread. What ends the tree ends the daemon."""
        try:
            return self.thread.submit(call).result()
        except FATAL as error:
            self._loop.call_soon_threadsafe(self.end, str(error))
        except RuntimeError:
            pass
        return None

    def tell(self, updates: list[tuple[Subscription, Update]]) -> None:
        """Sends what is new to those who are told of changes."""
        for subscription, update in updates:
            connection, number = self.watching.get(id(subscription), (None, 0))
            if connection is not None:
                connection.update(number, update)


def _identity(program: str) -> list[object]:
    found = os.stat(program)
    return [os.path.realpath(program), found.st_size, found.st_mtime_ns]


def _stamps(root: bytes) -> list[tuple[int, int, int] | None]:
    """Returns the stamps of the files that say how the tree is read."""
    stamps: list[tuple[int, int, int] | None] = []
    for name in (SETTINGS_FILE, IGNORE_FILE):
        try:
            found = os.stat(os.path.join(root, os.fsencode(name)))
            stamps.append((found.st_mtime_ns, found.st_size, found.st_ino))
        except OSError:
            stamps.append(None)
    return stamps


def _listen(place: Place) -> socket.socket:
    listening = socket.socket(socket.AF_UNIX, socket.SOCK_STREAM)
    path, number = place.address()
    try:
        listening.bind(path)
    finally:
        if number is not None:
            os.close(number)
    listening.listen(128)
    return listening


def _log_to(place: Place) -> None:
    handler = logging.handlers.RotatingFileHandler(place.file("log"), "a", LOG_SIZE, 1)
    handler.setFormatter(logging.Formatter("%(asctime)s %(levelname)s %(message)s"))
    logger = logging.getLogger("sefgulaw")
    logger.addHandler(handler)
    logger.setLevel(logging.INFO)


def _events(place: Place, named: str, program: str) -> EventFile | None:
    """Returns the file for events: the one that is named, or that of the daemon before this one.

    One that is named has to take events. Where that of the daemon before does not, questions are
    answered without.
    """
    path = named or place.events()
    if path is None:
        return None
    events = EventFile(path)
    if named:
        try:
            events.claim()
        except CannotRecord as error:
            raise Failure(NO_ANSWER, f"{named}: {error}") from None
        try:
            events.try_out(program)
        except CannotRecord as error:
            events.give_up()
            raise Failure(NO_ANSWER, f"{named}: {error}") from None
        place.keep_events(named)
    LOG.info("events go to %s", path)
    return events


async def _run(root: bytes, loader: str, done: int, named: str) -> None:
    settings = settings_of(root)
    options = options_of(settings, loader, None)
    place = Place(root)
    _log_to(place)
    events = _events(place, named, options.program)
    listening = _listen(place)
    server = Server(root, settings, options, place, events)
    with open(place.file("pid"), "w", encoding="ascii") as file:
        file.write(str(os.getpid()))
    os.write(done, READY)
    os.close(done)
    try:
        await server.serve(listening)
    except Exception:
        LOG.exception("the daemon ends by a defect")
        raise


def main() -> None:
    """Serves a tree.

    The words are its root, the loader, who is told that all is ready, and the file for events.
    """
    root, loader, done, events = (
        os.fsencode(sys.argv[1]),
        sys.argv[2],
        int(sys.argv[3]),
        sys.argv[4],
    )
    gc.disable()
    try:
        asyncio.run(_run(root, loader, done, events))
    except Failure as failure:
        os.write(done, f"{failure.status}{failure}".encode("utf-8", "surrogateescape"))
    os._exit(0)
