"""The connection of a language server with the daemon, which comes back when it is lost."""

from __future__ import annotations

import json
import time
from collections.abc import Callable, Mapping

from sefgulaw.cli.asking import Where, connected
from sefgulaw.cli.output import Failure
from sefgulaw.daemon.client import Client, Lost, Other
from sefgulaw.daemon.members import End, Hello, Progress
from sefgulaw.daemon.protocol import Params
from sefgulaw.plain import Members

MOST_SECONDS = 5.0
PAUSE = 0.05


class NoDaemon(Exception):
    """The daemon does not answer; the text is for a person."""


class Link:
    """Asks the daemon, and tells it the unsaved texts before each question."""

    def __init__(self, at: Where, progress: Callable[[Progress | None], None]) -> None:
        self._at, self._progress = at, progress
        self._client: Client | None = None
        self._greeting: Hello | None = None
        self._told: dict[str, str] = {}

    @property
    def root(self) -> bytes:
        """The root of the tree."""
        return self._at.root

    def close(self) -> None:
        """Ends the connection."""
        if self._client is not None:
            self._client.close()
        self._client = None
        self._told.clear()

    def ask(self, method: str, params: Params, texts: Mapping[str, str]) -> list[Members]:
        """Returns the items of an answer that holds with some unsaved texts."""
        until = time.monotonic() + MOST_SECONDS
        while True:
            try:
                self._tell(texts)
                return self._items(method, params)[0]
            except (Lost, Other):
                self.close()
                if time.monotonic() > until:
                    raise NoDaemon("the daemon has ended, and does not start again") from None
                time.sleep(PAUSE)
            except Failure as failure:
                self.close()
                raise NoDaemon(str(failure)) from None

    def _tell(self, texts: Mapping[str, str]) -> None:
        """Tells the daemon which texts differ from those on disk."""
        self._connect()
        for path in [it for it in self._told if it not in texts]:
            self._items("close", {"file": path})
            del self._told[path]
        for path, text in texts.items():
            if self._told.get(path) != text:
                self._items("text", {"file": path, "text": text})
                self._told[path] = text

    def _connect(self) -> None:
        if self._client is None:
            found = connected(self._at, True)
            if found is None:
                raise Lost
            self._client, self._greeting = found

    def _items(self, method: str, params: Params) -> tuple[list[Members], End]:
        assert self._client is not None
        greeting, self._greeting = self._greeting, None
        items: list[Members] = []
        has_progress = False
        end: End | None = None
        for reply in self._client.ask(method, params, greeting):
            if reply.item is not None:
                items.append(json.loads(reply.item))
            elif reply.progress is not None:
                has_progress = True
                self._progress(reply.progress)
            elif reply.end is not None:
                end = reply.end
        if has_progress:
            self._progress(None)
        if end is None or end["status"] == 3:
            raise Lost
        return items, end
