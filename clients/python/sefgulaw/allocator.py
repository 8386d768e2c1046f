"""The memory allocator of the loader: that of the C library, or a library that replaces it.

The threads of the C library's allocator share locks, for which several workers of a loader wait,
and it takes one worker longer to free what it has read. The loader's program links the C library
alone, so another allocator is a shared library that the variable LD_PRELOAD puts before it.
"""

from __future__ import annotations

import os
import re
import sys
from dataclasses import dataclass
from typing import Literal

Choice = Literal["auto", "jemalloc", "system"]
CHOICES: tuple[Choice, ...] = ("auto", "jemalloc", "system")
"""What the settings may say. Only a person's own words may name a file, since it is run."""

VARIABLE = "SEFGULAW_ALLOCATOR"
LIBRARY = "libjemalloc.so.2"

_PRELOAD, _SEARCHED = "LD_PRELOAD", "LD_LIBRARY_PATH"
_SEPARATORS = re.compile("[ :]")
_USUAL = ("/usr/local/lib", "/usr/lib")


class NoAllocator(Exception):
    """A library that was asked for cannot be used; the text is for a person."""


@dataclass(frozen=True)
class Allocator:
    """The library that loaders are started with; None is none."""

    library: str | None = None

    def environment(self) -> dict[str, str] | None:
        """Returns the variables that a loader is started with; None are those of this process.

        What the user has put before the C library stays there, and before the allocator.
        """
        names = os.environ.get(_PRELOAD, "")
        if self.library is None or self.library in _SEPARATORS.split(names):
            return None
        return {**os.environ, _PRELOAD: f"{names}:{self.library}" if names else self.library}


def find_allocator(given: str | None, setting: Choice, program: str) -> Allocator:
    """Returns the allocator for a loader: the one given, by the variable, or by the settings.

    Raises `NoAllocator` where a library is asked for and cannot be used with this program.
    """
    choice = given or os.environ.get(VARIABLE) or setting
    if choice == "system":
        return Allocator()
    if choice == "auto":
        return Allocator(None if _has_own() else _search(LIBRARY, program))
    if "/" in choice:
        return Allocator(_checked(choice, program))
    found = _search(LIBRARY if choice == "jemalloc" else choice, program)
    if found is None:
        hint = "; Debian has it in libjemalloc2" if choice in ("jemalloc", LIBRARY) else ""
        raise NoAllocator(f"{choice}: there is no such library for an allocator{hint}")
    return Allocator(found)


def anywhere() -> dict[str, str]:
    """Returns the variables of this process for one with another present directory."""
    named = os.environ.get(VARIABLE, "")
    return {**os.environ, VARIABLE: os.path.abspath(named)} if "/" in named else {**os.environ}


def _has_own() -> bool:
    """Tells whether the user has put an allocator before the C library, by its name."""
    names = _SEPARATORS.split(os.environ.get(_PRELOAD, ""))
    return any("malloc" in os.path.basename(name) for name in names)


def _checked(name: str, program: str) -> str:
    """Returns the whole path of a library that is named by its path."""
    path = os.path.abspath(name)
    if not os.path.isfile(path):
        raise NoAllocator(f"{name}: there is no such library for an allocator")
    if not _fits(path, program):
        raise NoAllocator(f"{name}: is no shared library for {program}")
    if _SEPARATORS.search(path):
        raise NoAllocator(f"{name}: {_PRELOAD} takes no path with a space or a colon")
    return path


def _search(name: str, program: str) -> str | None:
    """Returns the path of a shared library in the first directory that has it for this program."""
    paths = (os.path.join(directory, name) for directory in _directories())
    usable = (path for path in paths if not _SEPARATORS.search(path))
    return next((path for path in usable if _fits(path, program)), None)


def _directories() -> list[str]:
    """Returns where libraries are looked for: a few places, and not all that the system knows."""
    given = os.environ.get(_SEARCHED, "").split(":")
    machine = getattr(sys.implementation, "_multiarch", "")
    usual = [top + part for top in _USUAL for part in (f"/{machine}", "64", "")]
    return [os.path.abspath(directory) for directory in given if directory] + usual


def _fits(library: str, program: str) -> bool:
    """Tells whether a file is a library for the machine that a program is for.

    A program that is none of a machine, such as a script, says nothing of it.
    """
    machine = _machine(library)
    return machine != b"" and _machine(program) in (b"", machine)


def _machine(path: str) -> bytes:
    """Returns what the head of a file in the format ELF says of its machine."""
    try:
        with open(path, "rb") as file:
            head = file.read(20)
    except OSError:
        return b""
    return head[4:6] + head[18:20] if head.startswith(b"\x7fELF") else b""
