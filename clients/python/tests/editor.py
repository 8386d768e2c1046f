"""An editor for tests: it speaks the Language Server Protocol with bytes of its own making."""

from __future__ import annotations

import json
import queue
import subprocess
import threading
import time
from collections.abc import Mapping
from pathlib import Path
from typing import Any

from conftest import Root, Runner

Json = Any


class Editor:
    """A language server and the answers that it has given."""

    def __init__(self, run: Runner, root: Root, cwd: Path | None = None) -> None:
        self.root = root
        self._process = subprocess.Popen(
            run.words("lsp"),
            cwd=cwd or root.path,
            stdin=subprocess.PIPE,
            stdout=subprocess.PIPE,
            stderr=subprocess.PIPE,
            env=run.environment(),
        )
        self._number = 0
        self._versions: dict[str, int] = {}
        self._messages: queue.Queue[Json] = queue.Queue()
        self.shown: dict[str, list[Json]] = {}
        self.others: list[Json] = []
        threading.Thread(target=self._read, daemon=True).start()

    def _read(self) -> None:
        stream = self._process.stdout
        assert stream
        while True:
            length = 0
            while (line := stream.readline().strip()) != b"":
                name, _, value = line.partition(b":")
                if name.lower() == b"content-length":
                    length = int(value)
            if not length:
                self._messages.put(None)
                return
            self._messages.put(json.loads(stream.read(length)))

    def send(self, message: Mapping[str, Json]) -> None:
        """Sends a message."""
        raw = json.dumps({"jsonrpc": "2.0", **message}).encode()
        stream = self._process.stdin
        assert stream
        stream.write(b"Content-Length: %d\r\n\r\n" % len(raw) + raw)
        stream.flush()

    def notify(self, method: str, **params: Json) -> None:
        """Tells the server something."""
        self.send({"method": method, "params": params})

    def take(self, timeout: float = 30) -> Json:
        """Takes the next message of the server in."""
        message = self._messages.get(timeout=timeout)
        if message is not None and message.get("method") == "textDocument/publishDiagnostics":
            params = message["params"]
            self.shown[self.path(params["uri"])] = params["diagnostics"]
        elif message is not None and "method" in message:
            self.others.append(message)
        return message

    def ask(self, method: str, timeout: float = 30, **params: Json) -> Json:
        """Asks the server something, and returns its answer."""
        self._number += 1
        self.send({"id": self._number, "method": method, "params": params})
        while True:
            message = self.take(timeout)
            assert message is not None, self.errors()
            if message.get("id") == self._number and "method" not in message:
                if "error" in message:
                    raise AssertionError(message["error"])
                return message["result"]

    def errors(self) -> str:
        """Returns what the server has written to standard error, once it has ended."""
        assert self._process.stderr
        return self._process.stderr.read().decode()

    def start(self, **capabilities: Json) -> Json:
        """Says who this is."""
        uri = self.root.path.as_uri()
        found = self.ask("initialize", rootUri=uri, capabilities=capabilities, processId=None)
        self.notify("initialized")
        return found

    def uri(self, path: str) -> str:
        """Returns the uri of a file."""
        return (self.root.path / path).as_uri()

    def path(self, uri: str) -> str:
        """Returns the path below the root of a uri."""
        return uri.removeprefix(self.root.path.as_uri() + "/")

    def open(self, path: str, text: str | None = None) -> list[Json]:
        """Opens a file, and returns its diagnostics."""
        text = (self.root.path / path).read_text() if text is None else text
        self._versions[path] = 1
        document = {"uri": self.uri(path), "languageId": "bzl", "version": 1, "text": text}
        self.shown.pop(path, None)
        self.notify("textDocument/didOpen", textDocument=document)
        return self.wait(path)

    def change(self, path: str, text: str, span: Json = None) -> None:
        """Changes a file that is open: all of it, or what is in a range."""
        self._versions[path] += 1
        document = {"uri": self.uri(path), "version": self._versions[path]}
        change = {"text": text} if span is None else {"text": text, "range": span}
        self.notify("textDocument/didChange", textDocument=document, contentChanges=[change])

    def edit(self, path: str, text: str, span: Json = None) -> list[Json]:
        """Changes a file that is open, and returns its diagnostics."""
        self.shown.pop(path, None)
        self.change(path, text, span)
        return self.wait(path)

    def save(self, path: str) -> None:
        """Says that a file was saved."""
        self.shown.pop(path, None)
        self.notify("textDocument/didSave", textDocument={"uri": self.uri(path)})

    def wait(self, path: str, timeout: float = 30) -> list[Json]:
        """Waits for the diagnostics of a file."""
        until = time.monotonic() + timeout
        while path not in self.shown:
            message = self.take(until - time.monotonic())
            assert message is not None, self.errors()
        return self.shown[path]

    def at(self, method: str, path: str, line: int, character: int) -> Json:
        """Asks about a place in a file."""
        position = {"line": line, "character": character}
        document = {"uri": self.uri(path)}
        name = f"textDocument/{method}"
        return self.ask(
            name,
            textDocument=document,
            position=position,
            context={"includeDeclaration": False},
        )

    def stop(self) -> int:
        """Ends the server as an editor does, and returns its status."""
        self.ask("shutdown")
        self.notify("exit")
        return self._process.wait(10)

    def kill(self) -> None:
        """Ends the server at once."""
        self._process.kill()
        self._process.wait()


def places(found: list[Json]) -> list[tuple[int, int, str]]:
    """Returns line, column and words of diagnostics, counted from 1."""
    shown = []
    for one in found:
        start = one["range"]["start"]
        shown.append((start["line"] + 1, start["character"] + 1, one["message"]))
    return shown
