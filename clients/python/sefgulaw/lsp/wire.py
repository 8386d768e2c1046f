"""Messages of the Language Server Protocol as bytes, by the library python3-pylsp-jsonrpc."""

from __future__ import annotations

import threading
from collections.abc import Callable
from typing import IO, cast

from pylsp_jsonrpc.streams import JsonRpcStreamReader, JsonRpcStreamWriter

Message = dict[str, object]


class Wire:
    """The two streams between an editor and the server."""

    def __init__(self, into: IO[bytes], out: IO[bytes]) -> None:
        self._reader = JsonRpcStreamReader(into)
        self._writer = JsonRpcStreamWriter(out)
        self._lock = threading.Lock()

    def listen(self, take: Callable[[Message], None]) -> None:
        """Hands on each message until the editor closes its stream or `close` is called."""

        def checked(message: object) -> None:
            if isinstance(message, dict):
                take(cast(Message, message))

        self._reader.listen(checked)

    def send(self, message: Message) -> None:
        """Writes a message. An editor that has gone is noticed by `listen`."""
        with self._lock:
            whole: Message = {"jsonrpc": "2.0"}
            whole.update(message)
            self._writer.write(whole)

    def close(self) -> None:
        """Ends `listen` after the message at hand."""
        self._reader.close()
