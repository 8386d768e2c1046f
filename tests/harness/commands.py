"""Commands of the protocol and their lines."""

import json
from collections.abc import Iterable, Mapping
from typing import Any

Command = dict[str, Any]


def put(path: str, text: str) -> Command:
    """Writes a file."""
    return {"op": "put", "path": path, "text": text}


def delete(path: str) -> Command:
    """Removes a file."""
    return {"op": "del", "path": path}


def edit(edits: list[Command]) -> Command:
    """A batch of edits."""
    return {"op": "edit", "edits": edits}


def load(*names: str) -> Command:
    """Asks for packages."""
    return {"op": "load", "names": list(names)}


def find(name: str) -> Command:
    """Asks for the build file of a package."""
    return {"op": "find", "name": name}


def module(label: str) -> Command:
    """Asks for the names of a module."""
    return {"op": "module", "label": label}


def under(directory: str) -> Command:
    """Asks for all packages under a directory."""
    return {"op": "under", "dir": directory}


def text_of(value: Mapping[str, Any], sort_keys: bool = False) -> str:
    """A command or an answer as text. An answer has its members in order."""
    return json.dumps(value, separators=(",", ":"), ensure_ascii=False, sort_keys=sort_keys)


def line_of(value: Mapping[str, Any], sort_keys: bool = False) -> bytes:
    """A command or an answer as a line with its end."""
    return text_of(value, sort_keys).encode() + b"\n"


def lines_of_commands(commands: Iterable[Command]) -> bytes:
    """The lines of commands."""
    return b"".join(map(line_of, commands))
