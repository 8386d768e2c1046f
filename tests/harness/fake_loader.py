#!/usr/bin/python3 -IS
"""A program that answers as a loader does, as far as the tests of the harness need it.

It knows edits, look-ups and packages, whose build files it runs as Python with `filegroup` and
`glob`. The word after `FAKE_FAULT=` of the environment names what it does wrong.
"""

import json
import os
import sys
import time
from typing import Any

sys.path.insert(0, os.path.dirname(os.path.dirname(os.path.abspath(__file__))))

from harness.commands import line_of  # noqa: E402
from harness.model import Answer, Files, build_file, globbed, packages_at  # noqa: E402

FAULT = os.environ.get("FAKE_FAULT", "")
READ_SIZE = 65536


class Loader:
    """The files, and what is asked of them."""

    def __init__(self, workers: int) -> None:
        self.files, self.workers = Files(), workers

    def answer(self, line: bytes) -> Answer:
        """The answer to a line."""
        try:
            command = json.loads(line)
            operation = command["op"]
        except (ValueError, KeyError, TypeError):
            return {"refused": 1}
        if operation in ("put", "del", "edit"):
            return self.edit(command)
        if operation == "find":
            path = build_file(self.files.texts, command["name"])
            return {"build": os.path.basename(path) if path else None}
        if operation == "load":
            return {"packages": [self.package(name) for name in command["names"]]}
        if operation == "under":
            names = packages_at(self.files.texts, command["dir"])
            return {"packages": [self.package(name) for name in names]}
        return {"refused": 1}

    def edit(self, command: dict[str, Any]) -> Answer:
        """The answer to an edit."""
        if FAULT == "batches" and len(command.get("edits", [])) > 2:
            command = {**command, "edits": command["edits"][:2]}
        answer, _ = self.files.edit(command)
        if FAULT == "versions" and answer.get("ok", 0) > 2:
            answer["ok"] += 1
        return answer

    def package(self, name: str) -> Answer:
        """A package, with its targets or with the fault of its first line."""
        targets: list[Answer] = []
        path = build_file(self.files.texts, name)
        if not path:
            return {"fault": {"code": 1}, "name": name}

        def glob(include: list[str], exclude: list[str], exclude_directories: int = 1) -> list[str]:
            call = {"include": include, "exclude": exclude, "directories": not exclude_directories}
            if FAULT == "globs":
                call["exclude"] = []
            return globbed(self.files.texts, name, call)

        def filegroup(**attributes: Any) -> None:
            own = attributes.pop("name")
            targets.append({"attrs": attributes, "kind": "filegroup", "name": own})

        try:
            exec(self.files.texts[path], {"glob": glob, "filegroup": filegroup})
        except Exception:
            return {"fault": {"code": 4, "line": 1, "path": path}, "name": name}
        if FAULT == "workers" and self.workers == 16:
            targets.reverse()
        return {"name": name, "targets": targets}


def stop(why: str) -> None:
    """Ends with what has failed."""
    os.write(2, f"stop: {why}\n".encode())
    os._exit(3)


def read() -> bytes:
    """The next bytes of the input."""
    try:
        return os.read(0, READ_SIZE)
    except OSError:
        stop("read")
        return b""


def write(answer: bytes) -> None:
    """Writes all bytes of an answer."""
    try:
        while answer:
            answer = answer[os.write(1, answer) :]
    except OSError:
        stop("write")


def main() -> None:
    """Answers each line."""
    words = sys.argv[1:]
    workers = int(words[words.index("--workers") + 1]) if "--workers" in words else 1
    if words[:1] != ["run"] or not 1 <= workers <= 16:
        os.write(2, b"error: these words are not known\n")
        os._exit(2)
    loader, kept, held = Loader(workers), b"", b""
    while True:
        piece = read()
        kept += piece
        lines = kept.splitlines(keepends=True)
        while lines and (lines[0].endswith(b"\n") or not piece):
            line = lines.pop(0)
            answer = line_of(loader.answer(line), sort_keys=True)
            if FAULT == "kept":
                held, answer = held + answer, b""
            write(answer)
        kept = b"".join(lines)
        if not piece:
            write(held)
            if FAULT == "late":
                time.sleep(60)
            return


if __name__ == "__main__":
    main()
