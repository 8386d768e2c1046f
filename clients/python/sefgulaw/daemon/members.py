"""The members of the lines between a front end and the daemon.

Only those who check types import them. A question from a shell starts sooner without `typing`.
"""

from __future__ import annotations

from typing import NotRequired, TypedDict


class Hello(TypedDict):
    """The params of `hello`: the package's version, and path, size and time of the loader.

    `events` is the file to which the daemon has to write events. Without it any daemon will do.
    """

    protocol: int
    version: str
    loader: list[object]
    events: NotRequired[str]


class Progress(TypedDict):
    """How far something is that a request waits for."""

    done: int
    of: int
    what: str


class End(TypedDict):
    """How a request ended."""

    status: int
    version: int
    exact: bool
    notes: list[str]
    summary: str
