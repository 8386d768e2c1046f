"""A front end of the daemon for tests: lines of JSON, written and read by hand."""

from __future__ import annotations

import hashlib
import json
import os
import socket
from typing import Any

from conftest import Root, Runner


class Lines:
    """A connection with the daemon of a tree, which is started before."""

    def __init__(self, run: Runner, root: Root) -> None:
        assert run("daemon", "start", cwd=root).status == 0
        name = hashlib.sha256(os.fsencode(root.path.resolve())).hexdigest()[:16]
        number = os.open(run.runtime / "sefgulaw" / name, os.O_PATH)
        self._peer = socket.socket(socket.AF_UNIX, socket.SOCK_STREAM)
        self._peer.connect(f"/proc/self/fd/{number}/socket")
        os.close(number)
        self._stream = self._peer.makefile("rb")
        self._number = 0

    def close(self) -> None:
        """Ends the connection."""
        self._stream.close()
        self._peer.close()

    def ask(self, method: str, **params: Any) -> tuple[list[Any], Any]:
        """Returns the items and the end of an answer."""
        self._number += 1
        request = {"id": self._number, "method": method, "params": params}
        self._peer.sendall(json.dumps(request).encode() + b"\n")
        items: list[Any] = []
        while True:
            line = json.loads(self._stream.readline())
            assert line["id"] == self._number
            if "end" in line:
                return items, line["end"]
            if "item" in line:
                items.append(line["item"])
