"""What a tree says about itself: `.sefgulaw.toml` and `.bazelignore`."""

from __future__ import annotations

import os
import tomllib
from dataclasses import dataclass, field, replace
from typing import Literal, TypeVar

from sefgulaw.allocator import CHOICES, Choice
from sefgulaw.disk import Ignore

SETTINGS_FILE = ".sefgulaw.toml"
IGNORE_FILE = ".bazelignore"
MOST_WORKERS = 16

StandIns = Literal["auto", "always", "never"]
STAND_INS: tuple[StandIns, ...] = ("auto", "always", "never")

_Word = TypeVar("_Word", bound=str)


class BadSettings(Exception):
    """The settings file cannot be understood; its text says where and why."""


@dataclass(frozen=True)
class Settings:
    """What `.sefgulaw.toml` may say."""

    ignore: tuple[str, ...] = ()
    stand_ins: StandIns = "auto"
    rules: tuple[str, ...] = ()
    workers: int = 1
    allocator: Choice = "auto"
    idle_minutes: float = 60.0
    deadline_seconds: float = 30.0
    ignored: Ignore = field(default_factory=Ignore)


def read_settings(root: bytes) -> Settings:
    """Reads the settings of a tree. One without a settings file has the usual ones."""
    words = _read_toml(os.path.join(root, os.fsencode(SETTINGS_FILE)))
    settings = _checked(words)
    lines = _ignored_lines(os.path.join(root, os.fsencode(IGNORE_FILE)))
    given = [os.fsencode(path).strip(b"/") for path in settings.ignore]
    ignored = Ignore(frozenset(path for path in [*given, *lines] if path))
    return replace(settings, ignored=ignored)


def _read_toml(path: bytes) -> dict[str, object]:
    try:
        with open(path, "rb") as file:
            return tomllib.load(file)
    except FileNotFoundError:
        return {}
    except (OSError, tomllib.TOMLDecodeError, UnicodeDecodeError) as error:
        why = error.strerror if isinstance(error, OSError) else error
        raise BadSettings(f"{SETTINGS_FILE}: {why}") from None


def _ignored_lines(path: bytes) -> list[bytes]:
    """Reads `.bazelignore` as Bazel does: each line is a directory, and a line with `#` is none."""
    try:
        with open(path, "rb") as file:
            lines = file.read(1 << 20).split(b"\n")
    except OSError:
        return []
    found = []
    for line in lines:
        line = line.strip()
        if line and not line.startswith(b"#"):
            found.append(os.path.normpath(line).strip(b"/"))
    return found


def _checked(words: dict[str, object]) -> Settings:
    names = set(Settings.__dataclass_fields__) - {"ignored"}
    for name in words:
        if name not in names:
            raise BadSettings(f"{SETTINGS_FILE}: there is no setting '{name}'")
    workers = words.get("workers", 1)
    if not isinstance(workers, int) or not 1 <= workers <= MOST_WORKERS:
        raise BadSettings(f"{SETTINGS_FILE}: workers is a whole number from 1 to {MOST_WORKERS}")
    return Settings(
        _strings(words, "ignore"),
        _one_of(words, "stand_ins", STAND_INS),
        _strings(words, "rules"),
        workers,
        _one_of(words, "allocator", CHOICES),
        _number(words, "idle_minutes", 60.0),
        _number(words, "deadline_seconds", 30.0),
    )


def _one_of(words: dict[str, object], name: str, choices: tuple[_Word, ...]) -> _Word:
    """Returns the one of some words that a setting has, which without it is the first one."""
    given = words.get(name, choices[0])
    for choice in choices:
        if choice == given:
            return choice
    raise BadSettings(f"{SETTINGS_FILE}: {name} is one of {', '.join(choices)}")


def _strings(words: dict[str, object], name: str) -> tuple[str, ...]:
    given = words.get(name, [])
    if not isinstance(given, list) or not all(isinstance(one, str) for one in given):
        raise BadSettings(f"{SETTINGS_FILE}: {name} is a list of strings")
    return tuple(given)


def _number(words: dict[str, object], name: str, usual: float) -> float:
    given = words.get(name, usual)
    if isinstance(given, bool) or not isinstance(given, (int, float)) or given <= 0:
        raise BadSettings(f"{SETTINGS_FILE}: {name} is a number over 0")
    return float(given)
