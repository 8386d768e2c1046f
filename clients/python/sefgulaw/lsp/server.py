"""The language server: one thread reads what the editor says, another one asks the daemon.

Texts change in the first thread. So whatever the second one begins to ask is asked about the newest
texts, and what was typed over is not asked at all.
"""

from __future__ import annotations

import os
import queue
import threading
import time
import traceback
from collections.abc import Callable, Mapping
from typing import NamedTuple, cast
from urllib.parse import quote, unquote, urlparse

from sefgulaw import __version__
from sefgulaw.daemon.members import Progress
from sefgulaw.daemon.protocol import Params
from sefgulaw.lsp import features
from sefgulaw.lsp.diagnostics import diagnostics
from sefgulaw.lsp.link import Link, NoDaemon
from sefgulaw.lsp.texts import Text
from sefgulaw.lsp.wire import Message, Wire
from sefgulaw.names import is_build, is_source
from sefgulaw.plain import Members

QUIET = 0.05
MOST_USERS = 200
INTERNAL, UNKNOWN, CANCELLED, NOT_READY = -32603, -32601, -32800, -32002
TOKEN = "sefgulaw/load"

CAPABILITIES: Message = {
    "textDocumentSync": {"openClose": True, "change": 2, "save": True},
    "documentSymbolProvider": True,
    "definitionProvider": True,
    "referencesProvider": True,
    "hoverProvider": True,
    "completionProvider": {"triggerCharacters": ["/", ":", '"', "'"]},
    "workspaceSymbolProvider": True,
}


class Request(NamedTuple):
    """Something that the editor waits for."""

    number: object
    method: str
    params: Mapping[str, object]


class Server:
    """Serves one editor."""

    def __init__(self, wire: Wire, open_link: Callable[[bytes, Callable[..., None]], Link]) -> None:
        self._wire, self._open_link = wire, open_link
        self._root = b""
        self._link: Link | None = None
        self._texts: dict[str, Text] = {}
        self._lock = threading.Lock()
        self._jobs: queue.SimpleQueue[Request | str | None] = queue.SimpleQueue()
        self._cancelled: set[object] = set()
        self._due: dict[str, None] = {}
        self._later: dict[str, float] = {}
        self._published: dict[str, list[Message]] = {}
        self._shows_progress = False
        self._progress_begun = False
        self._is_down = False

    def serve(self) -> int:
        """Serves until the editor says that it ends, or goes away. Returns the status."""
        worker = threading.Thread(target=self._work, name="lsp", daemon=True)
        worker.start()
        self._wire.listen(self._take)
        self._jobs.put(None)
        worker.join(5)
        return 0 if self._is_down else 1

    # The thread that reads.

    def _take(self, message: Message) -> None:
        method = message.get("method")
        params = message.get("params") or {}
        if not isinstance(method, str) or not isinstance(params, dict):
            return
        if method == "exit":
            self._wire.close()
        elif method == "$/cancelRequest":
            self._cancelled.add(params.get("id"))
        elif method == "initialize":
            self._initialize(message.get("id"), params)
        elif method == "shutdown":
            self._is_down = True
            self._wire.send({"id": message.get("id"), "result": None})
        elif "id" in message:
            self._jobs.put(Request(message["id"], method, params))
        else:
            self._notice(method, params)

    def _initialize(self, number: object, params: Members) -> None:
        folders = params.get("workspaceFolders")
        uri = params.get("rootUri")
        if isinstance(folders, list) and folders:
            uri = folders[0]["uri"]
        path = unquote(urlparse(uri).path) if isinstance(uri, str) else params.get("rootPath")
        root = os.path.realpath(path if isinstance(path, str) and path else ".")
        window = cast(Members, cast(Members, params.get("capabilities") or {}).get("window") or {})
        self._shows_progress = window.get("workDoneProgress") is True
        self._link = self._open_link(os.fsencode(root), self._progress)
        self._root = self._link.root
        about = {"name": "sefgulaw", "version": __version__}
        result = {"capabilities": CAPABILITIES, "serverInfo": about}
        self._wire.send({"id": number, "result": result})

    def _notice(self, method: str, params: Members) -> None:
        """Takes in what the editor tells of its files."""
        if method == "workspace/didChangeWatchedFiles":
            for uri in self._texts:
                self._jobs.put(uri)
        if not method.startswith("textDocument/did"):
            return
        document = cast("dict[str, object]", params["textDocument"])
        uri = str(document["uri"])
        with self._lock:
            if method == "textDocument/didOpen":
                path = self.path(uri)
                if path is not None and is_source(path):
                    self._texts[uri] = Text(uri, path, str(document["text"]))
            elif method == "textDocument/didChange" and uri in self._texts:
                changes = cast("list[dict[str, object]]", params["contentChanges"])
                self._texts[uri].change(changes)
            elif method == "textDocument/didClose":
                self._texts.pop(uri, None)
        if method == "textDocument/didSave":
            for other in self._texts:
                self._jobs.put(other)
        self._jobs.put(uri)

    # The thread that asks.

    def _work(self) -> None:
        while True:
            job = self._next()
            if job is None:
                break
            try:
                self._do(job)
            except Exception:
                traceback.print_exc()
        if self._link is not None:
            self._link.close()

    def _do(self, job: Request | str) -> None:
        if isinstance(job, Request):
            self._answer(job)
        elif job:
            self._note_change(job)
        elif self._due:
            self._publish(self._take_due(), 0)
        else:
            self._publish_users()

    def _next(self) -> Request | str | None:
        """Returns a request, a file that changed, or the empty text: do what is due."""
        try:
            return self._jobs.get_nowait()
        except queue.Empty:
            pass
        if self._due:
            return ""
        if not self._later:
            return self._jobs.get()
        wait = min(self._later.values()) - time.monotonic()
        try:
            return self._jobs.get(timeout=max(wait, 0.001))
        except queue.Empty:
            return ""

    def _note_change(self, uri: str) -> None:
        """Notes whose diagnostics are due: those of a file, and of what may load it."""
        self._due.pop(uri, None)
        first = {uri: None}
        text = self._texts.get(uri)
        if text is None:
            self._later.pop(uri, None)
            if self._published.pop(uri, None):
                self._send_diagnostics(uri, [])
        if text is not None and not is_build(text.path):
            self._later[uri] = time.monotonic() + QUIET
            for other, open_text in tuple(self._texts.items()):
                if is_build(open_text.path):
                    first.setdefault(other)
        if text is None:
            first = dict.fromkeys(self._texts)
        self._due = {**first, **self._due} if text is not None else {**self._due, **first}

    def _take_due(self) -> str:
        uri = next(iter(self._due))
        del self._due[uri]
        return uri

    def _publish_users(self) -> None:
        """Shows what a .bzl file does to packages that no editor has open, once it is quiet."""
        now = time.monotonic()
        for uri, due in tuple(self._later.items()):
            if due <= now:
                del self._later[uri]
                self._publish(uri, MOST_USERS)
                return

    def _publish(self, uri: str, users: int) -> None:
        text = self._copy(uri)
        if text is None:
            return
        try:
            messages = self.ask("faults", {"file": text.path, "users": users})
        except NoDaemon as error:
            self._say(str(error))
            return
        found = diagnostics(text, self.package(text.path), messages, self.uri)
        if users and self._published.get(uri) == found:
            return
        self._published[uri] = found
        self._send_diagnostics(uri, found)

    def _send_diagnostics(self, uri: str, found: list[Message]) -> None:
        params = {"uri": uri, "diagnostics": found}
        self._wire.send({"method": "textDocument/publishDiagnostics", "params": params})

    def _say(self, words: str) -> None:
        params = {"type": 1, "message": f"sefgulaw: {words}"}
        self._wire.send({"method": "window/showMessage", "params": params})

    def _answer(self, request: Request) -> None:
        if request.number in self._cancelled:
            self._cancelled.discard(request.number)
            self._refuse(request, CANCELLED, "cancelled")
            return
        if self._link is None:
            self._refuse(request, NOT_READY, "not initialized")
            return
        try:
            result = self._result(request)
        except NotImplementedError:
            self._refuse(request, UNKNOWN, f"{request.method} is not served")
        except NoDaemon as error:
            self._refuse(request, INTERNAL, str(error))
        except Exception as error:
            traceback.print_exc()
            self._refuse(request, INTERNAL, f"a defect of this program: {error!r}")
        else:
            self._wire.send({"id": request.number, "result": result})

    def _refuse(self, request: Request, code: int, words: str) -> None:
        self._wire.send({"id": request.number, "error": {"code": code, "message": words}})

    def _result(self, request: Request) -> object:
        params = request.params
        if request.method == "workspace/symbol":
            return features.workspace_symbols(self, str(params.get("query", "")))
        document = params.get("textDocument")
        feature = features.AT_PLACE.get(request.method)
        if feature is None and request.method != "textDocument/documentSymbol":
            raise NotImplementedError
        uri = str(cast(Members, document)["uri"])
        text = self._copy(uri)
        if text is None:
            return None
        if feature is None:
            return features.document_symbols(self, text)
        return feature(self, text, text.position(params["position"]))

    # What the features use.

    def _copy(self, uri: str) -> Text | None:
        with self._lock:
            found = self._texts.get(uri)
            return None if found is None else Text(found.uri, found.path, found.text)

    def ask(self, method: str, params: Params) -> list[Members]:
        """Asks the daemon with the texts that differ from those on disk."""
        if self._link is None:
            return []
        with self._lock:
            texts = [Text(it.uri, it.path, it.text) for it in self._texts.values()]
        unsaved = {it.path: it.text for it in texts if not self.is_saved(it)}
        return self._link.ask(method, params, unsaved)

    def is_saved(self, text: Text) -> bool:
        """Tells whether an open text is that on disk."""
        return self._on_disk(text.path) == text.text.encode("utf-8", "surrogateescape")

    def _on_disk(self, path: str) -> bytes | None:
        try:
            with open(os.path.join(self._root, os.fsencode(path)), "rb") as file:
                return file.read()
        except OSError:
            return None

    def content(self, path: str) -> str | None:
        """Returns the text of a file: the open one, or that on disk."""
        with self._lock:
            for text in self._texts.values():
                if text.path == path:
                    return text.text
        found = self._on_disk(path)
        return None if found is None else found.decode("utf-8", "replace")

    def package(self, path: str) -> str:
        """Returns the package that a file is read in: the nearest directory with a BUILD file."""
        directory = path.rpartition("/")[0]
        while directory and not is_build(path):
            full = os.path.join(self._root, os.fsencode(directory))
            if any(os.path.exists(os.path.join(full, it)) for it in (b"BUILD.bazel", b"BUILD")):
                break
            directory = directory.rpartition("/")[0]
        return directory

    def path(self, uri: str) -> str | None:
        """Returns the path below the root of a file, or None for one that is not there."""
        parts = urlparse(uri)
        if parts.scheme != "file":
            return None
        full = os.fsencode(unquote(parts.path))
        real = os.path.join(os.path.realpath(os.path.dirname(full)), os.path.basename(full))
        found = os.path.relpath(real, self._root)
        return None if found.startswith(b"../") else os.fsdecode(found)

    def uri(self, path: str) -> str:
        """Returns the uri of a path below the root."""
        for text in tuple(self._texts.values()):
            if text.path == path:
                return text.uri
        return "file://" + quote(os.path.join(self._root, os.fsencode(path)))

    def _progress(self, progress: Progress | None) -> None:
        """Tells the editor how far the first load is."""
        if not self._shows_progress:
            return
        if progress is not None and not self._progress_begun:
            self._progress_begun = True
            create = {"id": TOKEN, "method": "window/workDoneProgress/create"}
            self._wire.send({**create, "params": {"token": TOKEN}})
            self._send_progress({"kind": "begin", "title": "sefgulaw", "percentage": 0})
        if progress is not None:
            done, total = progress["done"], max(progress["of"], 1)
            words = f"{done:,} of {total:,} {progress['what']}"
            share = min(100, 100 * done // total)
            self._send_progress({"kind": "report", "message": words, "percentage": share})
        elif self._progress_begun:
            self._progress_begun = False
            self._send_progress({"kind": "end"})

    def _send_progress(self, value: Message) -> None:
        self._wire.send({"method": "$/progress", "params": {"token": TOKEN, "value": value}})
