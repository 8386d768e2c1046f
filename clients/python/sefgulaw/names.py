"""Paths as the loader has them, and the labels and patterns that people write.

The loader's grammar of paths allows ASCII letters, digits, `_`, `-` and `.` in each part. Files on
disk may have any name, so a name is encoded before the loader is told of it, and decoded before a
person sees it. Every byte outside the grammar becomes `__x` and two hexadecimal digits. A `_` that
begins something of this form becomes `__x5f`, which makes the encoding reversible.
"""

from __future__ import annotations

import os
import re
from dataclasses import dataclass
from typing import NewType

Path = NewType("Path", str)
"""A path or a package name below the root, encoded, as the loader has it. The root is empty."""

LONGEST_PATH = 255
BUILD_NAMES = ("BUILD.bazel", "BUILD")
ROOT = Path("")

_PLAIN = re.compile(rb"[A-Za-z0-9_./-]*")
_LOOKS_ENCODED = re.compile(rb"__x[0-9a-f]{2}")
_TO_ENCODE = re.compile(rb"_(?=_x[0-9a-f]{2})|[^A-Za-z0-9_./-]")
_OTHER_REPOSITORY = re.compile(r"@[^/]*//")


def encode(name: bytes) -> Path:
    """Returns the path that the loader is told for a name on disk."""
    if _PLAIN.fullmatch(name) and b"__x" not in name:
        return Path(name.decode("ascii"))
    return Path(_TO_ENCODE.sub(lambda found: b"__x%02x" % found[0][0], name).decode("ascii"))


def decode(path: str) -> bytes:
    """Returns the name on disk of a path of the loader."""
    name = path.encode("utf-8", "surrogateescape")
    if b"__x" not in name:
        return name
    return _LOOKS_ENCODED.sub(lambda found: bytes([int(found[0][3:], 16)]), name)


def is_encoded(path: str) -> bool:
    """Tells whether a path is not the name on disk."""
    return "__x" in path and bool(_LOOKS_ENCODED.search(path.encode("ascii", "replace")))


def real(path: str) -> str:
    """Returns the real name of a path as text, in which bytes that are not UTF-8 are surrogates."""
    return os.fsdecode(decode(path))


def fits(path: Path) -> bool:
    """Tells whether the loader takes a path of this length."""
    return len(path) <= LONGEST_PATH


def parent(path: str) -> Path:
    """Returns the directory of a path. That of the root's files is the root."""
    return Path(path.rpartition("/")[0])


def basename(path: str) -> str:
    """Returns the last part of a path."""
    return path.rpartition("/")[2]


def join(directory: str, name: str) -> Path:
    """Returns the path of a name in a directory."""
    return Path(f"{directory}/{name}" if directory else name)


def is_build(path: str) -> bool:
    """Tells whether a path is that of a BUILD or BUILD.bazel file."""
    return path.endswith(BUILD_NAMES) and basename(path) in BUILD_NAMES


def is_source(path: str) -> bool:
    """Tells whether the loader reads the text of this path: a BUILD file or a .bzl file."""
    return path.endswith(".bzl") or is_build(path)


@dataclass(frozen=True)
class BadLabel:
    """A label that cannot be read; its text as a string is a sentence for a person."""

    text: str
    why: str

    def __str__(self) -> str:
        return f'"{self.text}": {self.why}'


class BadPattern(BadLabel):
    """A pattern that cannot be read; its text as a string is a sentence for a person."""


def _trouble(path: str, what: str) -> str | None:
    """Returns why an encoded path is none, as a sentence about `what`."""
    for part in path.split("/"):
        if not part:
            return f"{what} has no empty part"
        if part in (".", ".."):
            return f"{what} has no part '{part}'"
    if len(path) > LONGEST_PATH:
        return f"{what} has at most {LONGEST_PATH} bytes"
    return None


def _encoded(text: str) -> Path:
    return encode(text.encode("utf-8", "surrogateescape"))


@dataclass(frozen=True)
class Label:
    """A target's label. Its parts are encoded, and its text has the real names."""

    package: Path
    name: Path

    @staticmethod
    def read(text: str, package: str) -> Label | BadLabel:
        """Reads a label that is written with real names in the present (encoded) package."""
        shown, at = text, Path(package)
        if re.match(r"@@?//", text):
            text = text.lstrip("@")
        if _OTHER_REPOSITORY.match(text) or text.startswith("@"):
            return BadLabel(shown, "labels of other repositories are not read")
        if text.startswith("//"):
            where, colon, name = text[2:].partition(":")
            at = _encoded(where)
            why = _trouble(at, "a package name") if at else None
            if why is None and not colon:
                name = where.rpartition("/")[2]
        elif text.startswith("/"):
            return BadLabel(shown, "a label begins with two slashes or with none")
        else:
            why, name = None, text[1:] if text.startswith(":") else text
        if why is None:
            why = "a label has the name of a target" if not name else None
        target = _encoded(name)
        why = why or _trouble(target, "a target's name")
        if why is None and not fits(join(at, target)):
            why = f"a label has at most {LONGEST_PATH} bytes"
        return BadLabel(shown, why) if why else Label(at, target)

    def __str__(self) -> str:
        return f"//{real(self.package)}:{real(self.name)}"


def show_label(package: str, name: str) -> str:
    """Returns the text of a label with real names."""
    return f"//{real(package)}:{real(name)}"


@dataclass(frozen=True)
class Pattern:
    """Which packages, and which of their targets, are asked for. Names are encoded.

    `below` asks for every package at and below the directory `package`. `target` is None where all
    targets of the packages are asked for.
    """

    package: Path
    below: bool = False
    target: Path | None = None
    negative: bool = False

    @staticmethod
    def read(text: str, at: str) -> Pattern | BadPattern:
        """Reads a pattern that is written with real names in the (encoded) directory `at`."""
        negative = text.startswith("-")
        words = text[1:] if negative else text
        if re.match(r"@@?//", words):
            words = words.lstrip("@")
        if words.startswith("@"):
            return BadPattern(text, "labels of other repositories are not read")
        if not words:
            return BadPattern(text, "a pattern names a package or a target")
        where, colon, name = words.partition(":")
        if colon and not name:
            return BadPattern(text, "a pattern names a target after its colon")
        place = _directory(where, at)
        if isinstance(place, str):
            return BadPattern(text, place)
        package, below = place
        if not colon or name in ("all", "*", "all-targets"):
            return Pattern(package, below, None, negative)
        if below:
            return BadPattern(text, "after '...' comes no name of a target but 'all' and '*'")
        target = _encoded(name)
        why = _trouble(target, "a target's name")
        if why is None and not fits(join(package, target)):
            why = f"a label has at most {LONGEST_PATH} bytes"
        return BadPattern(text, why) if why else Pattern(package, False, target, negative)

    def covers(self, package: str) -> bool:
        """Tells whether a package is among those that the pattern asks for."""
        if package == self.package:
            return True
        return self.below and (not self.package or package.startswith(self.package + "/"))

    def __str__(self) -> str:
        where = real(self.package)
        if self.below:
            words = f"//{where}/..." if where else "//..."
        else:
            words = f"//{where}" if self.target is None else f"//{where}:{real(self.target)}"
        return f"-{words}" if self.negative else words


def _directory(text: str, at: str) -> tuple[Path, bool] | str:
    """Reads what stands before a pattern's colon: the directory, and whether it ends in `...`."""
    absolute = text.startswith("//")
    text = text[2:] if absolute else text
    if text.startswith("/"):
        if absolute:
            return "a package name has no empty part"
        return "a pattern begins with two slashes or with none"
    below = text == "..." or text.endswith("/...")
    text = text[:-3] if below else text
    text = text[:-1] if text.endswith("/") else text
    if text.rpartition("/")[2] in BUILD_NAMES and not below:
        text = text.rpartition("/")[0]
    encoded = _encoded(text)
    if not absolute:
        joined = _normal(encoded, at)
        if joined is None:
            return "the directory is not below the root"
        encoded = joined
    why = _trouble(encoded, "a package name") if encoded else None
    return why if why else (encoded, below)


def _normal(path: str, at: str) -> Path | None:
    """Joins a path to a directory without `.` and `..`. None is a directory outside the root."""
    parts = at.split("/") if at else []
    for part in path.split("/") if path else []:
        if part == ".":
            continue
        if part == "..":
            if not parts:
                return None
            parts.pop()
        else:
            parts.append(part)
    return Path("/".join(parts))
