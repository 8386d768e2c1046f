"""Where the root of a tree is, and where the loader's program is."""

from __future__ import annotations

import os
import sys

ROOT_FILES = (
    ".sefgulaw.toml",
    "MODULE.bazel",
    "REPO.bazel",
    "WORKSPACE.bazel",
    "WORKSPACE",
    ".git",
)
PROGRAM = "sefgulaw-loader"
VARIABLE = "SEFGULAW_LOADER"
_BUILT = ("crates", "sefgulaw_loader", "out", "sefgulaw_loader")


class NoTree(Exception):
    """The directory that is asked about is not there; its text says so."""


def find_root(start: str, given: bool) -> bytes:
    """Returns a tree's root: the directory itself where it was given, else as found upwards."""
    if not os.path.isdir(start):
        why = "is not a directory" if os.path.exists(start) else "no such directory"
        raise NoTree(f"{start}: {why}")
    real = os.path.realpath(start)
    if given:
        return os.fsencode(real)
    at = real
    while True:
        if any(os.path.exists(os.path.join(at, name)) for name in ROOT_FILES):
            return os.fsencode(at)
        above = os.path.dirname(at)
        if above == at:
            return os.fsencode(real)
        at = above


def find_loader(given: str | None) -> str | None:
    """Returns the program: the one given, by the variable, installed, or built in the checkout."""
    named = named_loader(given)
    if named:
        return _program(named)
    beside = os.path.join(os.path.dirname(os.path.abspath(sys.argv[0])), PROGRAM)
    checkout = os.path.join(os.path.dirname(os.path.abspath(__file__)), "..", "..", "..")
    built = os.path.normpath(os.path.join(checkout, *_BUILT))
    return _program(beside) or _program(PROGRAM) or _program(built)


def _program(name: str) -> str | None:
    """Returns the path of a program that can be run, as a shell finds it."""
    if "/" in name:
        places = [name]
    else:
        path = os.environ.get("PATH", os.defpath)
        places = [os.path.join(part or ".", name) for part in path.split(os.pathsep)]
    for place in places:
        if os.path.isfile(place) and os.access(place, os.X_OK):
            return os.path.abspath(place)
    return None


def named_loader(given: str | None) -> str | None:
    """Returns the program that a word or the variable names; None where neither does."""
    return given or os.environ.get(VARIABLE) or None


def no_loader(given: str | None) -> str:
    """Returns what a person is told where there is no program."""
    named = named_loader(given)
    if named:
        return f"{named}: there is no such program"
    return (
        f"there is no loader: neither --loader nor ${VARIABLE} names one,"
        f" no {PROGRAM} is on the path, and the checkout has none"
    )
