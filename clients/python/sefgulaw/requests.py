"""What can be asked about a tree, whoever asks: each answer is lines of JSON and an end."""

from __future__ import annotations

import os
from collections.abc import Iterable, Iterator, Sequence
from dataclasses import dataclass
from typing import NamedTuple

from sefgulaw.base import Base
from sefgulaw.exactness import STAND_INS, Exactness
from sefgulaw.faults import grouped, is_faulty, note_message
from sefgulaw.locating import FEW, Locator
from sefgulaw.messages import Message, as_object, dumps, first_line
from sefgulaw.names import BadPattern, Path, Pattern, decode, encode, real, show_label
from sefgulaw.overlay import Overlay
from sefgulaw.showing import target_lines

MOST_NOTES = 20
FAULTS_STATUS = 1


@dataclass(frozen=True)
class Question:
    """The patterns of a request as they were written, and the directory that they are read in."""

    patterns: tuple[str, ...] = ()
    cwd: str = ""


@dataclass(frozen=True)
class QueryAsked:
    """A query, the directory that it is read in, and the form of its answer."""

    expression: str
    cwd: str = ""
    output: str = "label"
    missing: bool = False


@dataclass(frozen=True)
class End:
    """How a request ended. `notes` are warnings for people, and `summary` is what was counted."""

    status: int
    version: int
    exact: bool = True
    notes: tuple[str, ...] = ()
    summary: str = ""


class Answer(NamedTuple):
    """An answer. Its lines may be read later: they do not change when the tree does."""

    end: End
    lines: Iterator[bytes]


class Kept(NamedTuple):
    """A good package as it was answered."""

    name: str
    raw: bytes
    exact: bool


class BadWords(Exception):
    """A request that cannot be read; its text is a sentence for a person."""


def read_patterns(base: Base, question: Question) -> list[Pattern]:
    """Reads the patterns of a request. No pattern at all asks for every package."""
    at = encode(os.fsencode(question.cwd))
    patterns = []
    for text in question.patterns or ("//...",):
        pattern = Pattern.read(text, at)
        if isinstance(pattern, BadPattern):
            raise BadWords(str(pattern))
        where = os.path.join(base.root, decode(pattern.package))
        if pattern.below and not os.path.isdir(where):
            raise BadWords(f'"{text}": there is no directory {real(pattern.package)}')
        patterns.append(pattern)
    return patterns


class Tree:
    """A base with what is known about how exact its answers are."""

    def __init__(self, base: Base) -> None:
        self.base = base
        self.exactness = Exactness(base)
        self._locator = Locator(base)
        self.unlocated = 0
        self.only_first = False

    def close(self) -> None:
        """Ends the loaders and the watch."""
        self._locator.close()
        self.base.close()

    def messages(self, names: Iterable[str], overlay: Overlay | None = None) -> list[Message]:
        """Returns the messages about packages that were loaded: each fault once.

        Those that the overlay's texts could reach have the messages that hold with these texts.
        """
        base = self.base
        untold = base.untold_packages()
        names = list(names)
        unsaved = overlay.messages(names) if overlay is not None else {}
        known = {*untold, *unsaved}
        faulty = [name for name in names if name not in known and is_faulty(base, name)]
        located = self._locator.messages(faulty)
        self.unlocated, self.only_first = located.missed, located.only_first
        found: dict[str, Sequence[Message]] = {**located.messages, **unsaved}
        found.update((name, [note_message(untold[Path(name)])]) for name in names if name in untold)
        return grouped(found)

    def check(self, question: Question, overlay: Overlay | None = None) -> Answer:
        """Answers with the faults of the packages that are asked for, each fault once."""
        patterns = self._begin(question)
        names, messages = self._loaded(patterns, overlay)
        notes = self.notes(names)
        faulty = {package for message in messages for package in message.packages}
        summary = f"{_count(len(messages), 'fault')} in {len(faulty):,} of {_packages(len(names))}"
        if not messages:
            summary = f"no faults in {_packages(len(names))}"
        status = FAULTS_STATUS if messages else 0
        end = End(status, self.base.version, not notes, self.all_notes(notes), summary)
        return Answer(end, iter([self.message_line(message) for message in messages]))

    def targets(self, question: Question) -> Answer:
        """Answers with the targets of the packages that are asked for, and with their faults."""
        patterns = self._begin(question)
        names, messages = self._loaded(patterns)
        notes = self.notes(names)
        status = FAULTS_STATUS if messages else 0
        end = End(status, self.base.version, not notes, self.all_notes(notes))
        faults = [self.message_line(message) for message in messages]
        return Answer(end, _lines(self.kept(names), patterns, faults))

    def loaded(self, question: Question) -> tuple[list[str], list[Message]]:
        """Loads what is asked for. Returns the packages and the messages about them."""
        return self._loaded(self._begin(question))

    def _begin(self, question: Question) -> list[Pattern]:
        self.base.refresh()
        return read_patterns(self.base, question)

    def _loaded(
        self, patterns: Sequence[Pattern], overlay: Overlay | None = None
    ) -> tuple[list[str], list[Message]]:
        """Loads what patterns ask for. Returns the packages and the messages about them."""
        base = self.base
        names = base.covered(patterns)
        untold = base.untold_packages()
        if untold:
            asked = [name for name in untold if covers(patterns, name)]
            names = sorted({*names, *asked})
        base.load([name for name in names if name not in untold])
        messages = self.messages(names, overlay)
        messages += self._unlisted(patterns)
        messages += self._missing_targets(patterns)
        return names, messages

    def _unlisted(self, patterns: Sequence[Pattern]) -> list[Message]:
        """Returns the messages about directories that cannot be listed and were asked for."""
        return [
            Message(real(path), first_line(), why, "unreadable")
            for path, why in sorted(self.base.unlisted.items())
            if covers(patterns, path)
        ]

    def _missing_targets(self, patterns: Sequence[Pattern]) -> list[Message]:
        """Returns the messages about targets that are asked for by name and are not there."""
        found = []
        base = self.base
        for pattern in patterns:
            name = pattern.package
            if pattern.target is None or pattern.negative or is_faulty(base, name):
                continue
            label = f"//{name}:{pattern.target}"
            if all(target.label != label for target in base.targets(name)):
                file = real(base.build_file(name))
                text = f"no such target: {show_label(name, pattern.target)}"
                packages = (real(name),)
                found.append(Message(file, first_line(), text, "no target", packages=packages))
        return found

    def kept(self, names: Iterable[str]) -> list[Kept]:
        """Returns the good ones of some packages as they are now."""
        found = []
        for name in names:
            raw = self.base.store.raw(name)
            if raw is not None and not is_faulty(self.base, name):
                found.append(Kept(name, raw, not self.exactness.reasons(name)))
        return found

    def message_line(self, message: Message) -> bytes:
        """Returns a message as a line of JSON, marked where a package of it is not exact."""
        members = as_object(message)
        if any(self.exactness.reasons(encode(os.fsencode(it))) for it in message.packages):
            members["exact"] = False
        return dumps(members)

    def notes(self, names: Iterable[str]) -> list[str]:
        """Returns why packages are not exact, a sentence for each reason."""
        names = list(names)
        found = [
            f"//{real(name)} is not exact: {reason}"
            for name in names
            for reason in self.exactness.reasons(name)
            if reason != STAND_INS
        ]
        bridged = sum(self.base.bridge.is_bridged(name) for name in names)
        if bridged:
            verb = "rests" if bridged == 1 else "rest"
            packages = f"{_packages(bridged)} of this answer"
            found.insert(0, f"{packages} {verb} on stand-ins, see sefgulaw bridge")
        return found

    def all_notes(self, notes: Sequence[str]) -> tuple[str, ...]:
        """Returns what a person is told beside an answer."""
        found = list(notes[:MOST_NOTES])
        if len(notes) > MOST_NOTES:
            found.append(f"and {len(notes) - MOST_NOTES:,} more such lines")
        if self.only_first:
            found.append(
                f"more than {FEW} packages have faults, so only the first one of each is shown"
            )
        if self.unlocated:
            packages = _packages(self.unlocated)
            found.append(f"the places in {packages} were not looked for, since there are many")
        return tuple(found)


def _lines(
    packages: Sequence[Kept], patterns: Sequence[Pattern], faults: Sequence[bytes]
) -> Iterator[bytes]:
    for package in packages:
        yield from package_lines(package, patterns)
    yield from faults


def package_lines(package: Kept, patterns: Sequence[Pattern]) -> Iterator[bytes]:
    """Yields the lines of a package's targets, as far as patterns ask for them."""
    narrow = any(pattern.target is not None for pattern in patterns)
    for target, line in target_lines(package.raw, package.name, package.exact):
        if not narrow or _wanted(patterns, package.name, target):
            yield line


def _wanted(patterns: Sequence[Pattern], name: str, target: str) -> bool:
    """Tells whether patterns ask for a target; the last one that speaks of it counts."""
    found = False
    for pattern in patterns:
        if pattern.covers(name) and pattern.target in (None, Path(target)):
            found = not pattern.negative
    return found


def covers(patterns: Sequence[Pattern], name: str) -> bool:
    """Tells whether patterns ask for a package; the last one that speaks of it counts."""
    found = False
    for pattern in patterns:
        if pattern.covers(name) and not (pattern.negative and pattern.target is not None):
            found = not pattern.negative
    return found


def _count(number: int, what: str) -> str:
    return f"{number:,} {what}{'' if number == 1 else 's'}"


def _packages(number: int) -> str:
    return _count(number, "package")
