"""One front end, as the daemon sees it."""

from __future__ import annotations

import asyncio
import json
import os
import socket
import struct
import time
from collections.abc import Callable, Iterable
from functools import partial
from typing import TYPE_CHECKING, TypeVar

from sefgulaw.answers import METHODS, read_question
from sefgulaw.daemon.keeper import FATAL, LOG, Cancelled, Job
from sefgulaw.daemon.protocol import OTHER_DAEMON, item_head, line
from sefgulaw.overlay import Overlay
from sefgulaw.plain import Members
from sefgulaw.requests import Answer, BadWords, End, Question
from sefgulaw.watching import Subscription, Update

if TYPE_CHECKING:
    from sefgulaw.daemon.server import Server

MOST_UNSENT = 1 << 20
MOST_UPDATES = 256
_PIECE = 1 << 16
_CREDENTIALS = struct.Struct("3i")
_OWN_METHODS = ("watch", "status", "stop", "text", "close")

INTERRUPTED = 130
NO_ANSWER = 3
BAD_WORDS = 2
T = TypeVar("T")


def peer_is_own(writer: asyncio.StreamWriter) -> bool:
    """Tells whether the other end is a process of the same user."""
    found = writer.get_extra_info("socket")
    raw = found.getsockopt(socket.SOL_SOCKET, socket.SO_PEERCRED, _CREDENTIALS.size)
    user: int = _CREDENTIALS.unpack(raw)[1]
    return user == os.getuid()


class Connection:
    """A front end and its requests."""

    def __init__(
        self, server: Server, reader: asyncio.StreamReader, writer: asyncio.StreamWriter
    ) -> None:
        self._server, self._reader, self._writer = server, reader, writer
        self._tasks: dict[int, asyncio.Task[None]] = {}
        self._jobs: dict[int, Job] = {}
        self._updates: dict[int, asyncio.Queue[Update]] = {}
        self._overlay: Overlay | None = None
        writer.transport.set_write_buffer_limits(high=MOST_UNSENT)

    async def serve(self) -> None:
        """Reads requests until the front end goes away, which cancels those that run."""
        try:
            while True:
                raw = await self._reader.readline()
                if not raw.endswith(b"\n"):
                    break
                self._take(raw)
        except (ConnectionError, ValueError):
            pass
        finally:
            for job in self._jobs.values():
                job.cancelled = True
            for task in tuple(self._tasks.values()):
                task.cancel()
            self.close()
            if self._overlay is not None:
                await self._in_thread(self._overlay.close)

    def close(self) -> None:
        """Ends the connection."""
        self._writer.close()

    def running(self) -> list[asyncio.Task[None]]:
        """Returns the requests that end by themselves, which those for changes do not."""
        return [it for number, it in self._tasks.items() if number not in self._updates]

    def progress(self, done: int, total: int, what: str) -> None:
        """Tells all requests that wait how far the tree is."""
        for number in self._jobs:
            members: dict[str, object] = {"done": done, "of": total, "what": what}
            self._writer.write(line({"id": number, "progress": members}))

    def update(self, number: int, update: Update) -> None:
        """Takes in what is new for a request to be told of changes."""
        updates = self._updates.get(number)
        if updates is None:
            return
        if updates.qsize() >= MOST_UPDATES:
            LOG.warning("a front end that has stopped reading is let go")
            self.close()
            return
        updates.put_nowait(update)

    def _take(self, raw: bytes) -> None:
        """Begins one request."""
        try:
            members = json.loads(raw)
            if "cancel" in members:
                self._cancel(int(members["cancel"]))
                return
            number, method = int(members["id"]), str(members["method"])
            params: Members = members.get("params", {})
        except (ValueError, TypeError, KeyError, AttributeError):
            self._writer.write(line({"end": {"status": BAD_WORDS, "notes": ["no request"]}}))
            return
        if method == "hello":
            self._hello(number, params)
            return
        job = Job()
        self._jobs[number] = job
        task = asyncio.create_task(self._answer(number, job, method, params))
        self._tasks[number] = task
        task.add_done_callback(lambda _: self._forget(number))

    def _forget(self, number: int) -> None:
        self._jobs.pop(number, None)
        self._tasks.pop(number, None)
        self._updates.pop(number, None)

    def _cancel(self, number: int) -> None:
        job, task = self._jobs.get(number), self._tasks.get(number)
        if job is not None:
            job.cancelled = True
        if task is not None:
            task.cancel()
            self._end(number, End(INTERRUPTED, 0))

    def _hello(self, number: int, params: Members) -> None:
        version = [params.get("protocol"), params.get("version")]
        differs = self._server.differs(version, params.get("loader"), params.get("events"))
        if self._server.is_ending or differs:
            self._end(number, End(OTHER_DAEMON, 0))
            self._server.make_way()
        else:
            self._end(number, End(0, 0))

    def _end(self, number: int, end: End) -> None:
        members: dict[str, object] = {
            "exact": end.exact,
            "notes": list(end.notes),
            "status": end.status,
            "summary": end.summary,
            "version": end.version,
        }
        self._writer.write(line({"id": number, "end": members}))

    async def _answer(self, number: int, job: Job, method: str, params: Members) -> None:
        begun = time.monotonic()
        try:
            end = await self._run(number, job, method, params)
        except BadWords as error:
            end = End(BAD_WORDS, 0, notes=(str(error),))
        except Cancelled:
            end = End(INTERRUPTED, 0)
        except FATAL as error:
            end = End(NO_ANSWER, 0, notes=(str(error),))
            self._server.end(str(error))
        except ConnectionError:
            return
        except Exception as error:
            LOG.exception("a request ends by a defect")
            end = End(NO_ANSWER, 0, notes=(f"a defect of the daemon: {error!r}",))
            self._server.end("a defect")
        self._jobs.pop(number, None)
        self._end(number, end)
        LOG.info("%s: status %d, %.1f ms", method, end.status, 1000 * (time.monotonic() - begun))

    async def _run(self, number: int, job: Job, method: str, params: Members) -> End:
        if method not in METHODS and method not in _OWN_METHODS:
            raise BadWords(f"there is no method {method}")
        if method == "stop":
            self._server.stop()
            return End(0, 0)
        if method == "status":
            return await self._status(number)
        if method in ("text", "close"):
            return await self._set_text(method, params)
        if method == "watch":
            await self._watch(number, job, read_question(params))
        keeper = self._server.keeper
        call = partial(keeper.answer, job, method, params, self._overlay)
        answer: Answer = await self._in_thread(call)
        self._jobs.pop(number, None)
        await self._send(number, answer.lines)
        updates = await self._in_thread(keeper.updates) if keeper.has_subscriptions else []
        self._server.tell(updates)
        return answer.end

    async def _in_thread(self, call: Callable[[], T]) -> T:
        loop = asyncio.get_running_loop()
        return await loop.run_in_executor(self._server.thread, call)

    async def _send(self, number: int, lines: Iterable[bytes]) -> None:
        """Sends items as fast as the front end reads them."""
        head = item_head(number)
        parts: list[bytes] = []
        size = 0
        for one in lines:
            parts += (head, one, b"}\n")
            size += len(one)
            if size >= _PIECE:
                self._writer.write(b"".join(parts))
                parts, size = [], 0
                await self._writer.drain()
                await asyncio.sleep(0)
        self._writer.write(b"".join(parts))
        await self._writer.drain()

    async def _watch(self, number: int, job: Job, question: Question) -> None:
        """Sends an answer, and after each change what is new. It ends with the connection."""
        keeper = self._server.keeper
        updates: asyncio.Queue[Update] = asyncio.Queue()
        self._updates[number] = updates
        found = await self._in_thread(partial(keeper.subscribe, job, question))
        subscription: Subscription = found[0]
        update: Update = found[1]
        self._jobs.pop(number, None)
        self._server.subscribed(subscription, self, number)
        try:
            while True:
                await self._send(number, [*update.lines, update.mark()])
                update = await updates.get()
        finally:
            asyncio.ensure_future(self._server.unsubscribed(subscription))

    async def _set_text(self, method: str, params: Members) -> End:
        """Sets or forgets a text that the client has not saved. Its own checks alone see it."""
        name, text = params.get("file"), params.get("text")
        if not isinstance(name, str) or not (method == "close" or isinstance(text, str)):
            raise BadWords("file and text are strings")
        own = text if isinstance(text, str) and method == "text" else None
        call = partial(self._server.keeper.set_text, self._overlay, name, own)
        self._overlay = await self._in_thread(call)
        return End(0, 0)

    async def _status(self, number: int) -> End:
        state = self._server.keeper.state()
        state["clients"] = len(self._server.connections) - 1
        state["idle_seconds"] = self._server.idle_seconds()
        await self._send(number, [json.dumps(state, sort_keys=True).encode("ascii")])
        return End(0, 0)
