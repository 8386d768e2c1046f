"""Why a node ran, from the events of a loader alone.

The events are read from the last one backwards, until no run is left that the answer needs. What is
kept meanwhile are the runs and the edits of the answer.
"""

from __future__ import annotations

import re
from bisect import bisect_right
from collections.abc import Collection, Iterator
from dataclasses import dataclass, field

from sefgulaw.events import Edit, Event, EventReader, Run, touches
from sefgulaw.names import encode, real

INDENT = "  "
KINDS = ("file", "listing", "lookup", "glob", "module", "package", "under")

_MOST_PARTS = 64
_PLAIN = re.compile(r"[ !#-\[\]-~]*")
_CONTROLS = re.compile(r"[\x00-\x1f\x7f]")


class NoRun(Exception):
    """The events have no run of a key."""


class NoEvents(Exception):
    """The file has no event at all."""


@dataclass
class History:
    """The runs and the edits that explain one run, which is `root`, each in the order of lines.

    `equal` has what was read or run at the same line with an equal value.
    """

    root: Run
    equal: list[str]
    runs: dict[str, list[Run]] = field(default_factory=dict)
    edits: list[Edit] = field(default_factory=list)

    def change(self, key: str, line: int) -> Run | None:
        """Returns the last run that changed the value of a key, at a line or before it."""
        return next((run for run in reversed(self._up_to(key, line)) if run.is_changed), None)

    def before(self, run: Run) -> Run | None:
        """Returns the run of the same key before this one."""
        return next(reversed(self._up_to(run.key, run.line - 1)), None)

    def _up_to(self, key: str, line: int) -> list[Run]:
        runs = self.runs.get(key, [])
        return runs[: bisect_right(runs, line, key=lambda run: run.line)]

    def touching(self, run: Run) -> list[Edit]:
        """Returns the edits that touch a leaf, since it was read before and up to its reading."""
        before = self.before(run)
        first = 0 if before is None else before.line
        near = (edit for edit in self.edits if first < edit.line < run.line)
        return [edit for edit in near if any(touches(path, run.key) for path in edit.paths)]


class _Search:
    """Takes events from the last one backwards, and keeps what explains a run.

    Of a wanted key the last run that changed its value is looked for, with its causes, at the line
    where it is wanted or before. Of the run that is explained, and of leaves that were found, the
    run before is looked for as well: the answer tells it, or has the edits since then.
    """

    def __init__(self, keys: Collection[str], line: int | None) -> None:
        self.history: History | None = None
        self._line = line
        self._wanted: set[str] = set(keys)
        self._found: set[str] = set()
        self._parts: tuple[bytes, ...] | None = _parts(self._wanted)

    @property
    def is_done(self) -> bool:
        """Whether nothing is looked for any more."""
        return not self._wanted and not self._found

    def take(self, event: Event) -> None:
        """Takes the event before those that were taken."""
        if self._line is not None and event.line > self._line:
            return
        if event.edit is not None and self.history is not None:
            if any(map(self._is_looked_for, event.edit.paths)):
                self.history.edits.append(event.edit)
        if event.raw_runs:
            before = self._wanted | self._found
            self._take_runs(event)
            if before != self._wanted | self._found:
                self._parts = _parts(self._wanted | self._found)

    def is_wanted(self, line: bytes) -> bool:
        """Tells whether a line can have something that is looked for, before it is read."""
        return self._parts is None or any(part in line for part in self._parts)

    def finished(self) -> History | None:
        """Returns what was kept, in the order of lines; None where the key has no run."""
        if self.history is not None:
            self.history.edits.reverse()
            for runs in self.history.runs.values():
                runs.reverse()
        return self.history

    def _is_looked_for(self, path: str) -> bool:
        """Tells whether a path touches a leaf whose run before was not come to."""
        if f"file {path}" in self._found:
            return True
        above = path
        while above:
            above = above.rpartition("/")[0]
            if f"listing //{above}" in self._found:
                return True
        return False

    def _take_runs(self, event: Event) -> None:
        before = {key for key in self._found if key in event.raw_runs}
        queue = [key for key in self._wanted if self._is_wanted_run(event, key)]
        self._wanted.difference_update(queue)
        here: dict[str, Run] = {}
        while queue:
            key = queue.pop()
            if key in here:
                continue
            here[key] = run = event.run(key)
            if self.history is None:
                self._begin(event, run)
            for cause in run.causes or ():
                if self._is_wanted_run(event, cause):
                    queue.append(cause)
                else:
                    self._wanted.add(cause)
        self._found -= before
        for key, run in here.items():
            self._keep(run)
            if run.is_leaf or run == self._root:
                self._found.add(key)
        for key in before - here.keys():
            self._keep(event.run(key))

    def _is_wanted_run(self, event: Event, key: str) -> bool:
        """Tells whether a line has the run that is looked for: of a cause, one that changed it."""
        return key in event.raw_runs and (self.history is None or event.run(key).is_changed)

    @property
    def _root(self) -> Run | None:
        """The run that is explained, once it was come to."""
        return None if self.history is None else self.history.root

    def _begin(self, event: Event, run: Run) -> None:
        """Takes the run that is explained."""
        equal = [it.key for it in event.runs() if not it.is_changed and it.key != run.key]
        self.history = History(run, sorted(equal))
        self._wanted.clear()

    def _keep(self, run: Run) -> None:
        assert self.history is not None
        self.history.runs.setdefault(run.key, []).append(run)


def _parts(keys: Collection[str]) -> tuple[bytes, ...] | None:
    """Returns bytes of which each line has one that speaks of a key or of an edit that touches it.

    None says that every line has to be read: where there are many keys, and where JSON may write a
    key in several ways.
    """
    if len(keys) > _MOST_PARTS or not all(map(_PLAIN.fullmatch, keys)):
        return None
    parts = [f'"{key}"' for key in keys]
    parts += [f'"{key[len("file ") :]}"' for key in keys if key.startswith("file ")]
    directories = [key[len("listing //") :] for key in keys if key.startswith("listing //")]
    parts += [f'"{it}/' if it else '"paths"' for it in directories]
    return tuple(part.encode("ascii") for part in parts)


def history_of(reader: EventReader, keys: Collection[str], line: int | None) -> History:
    """Returns what explains the last run of one of some keys, at a line or before it.

    Raises NoRun where there is none, NoEvents where the file is empty, and BadEvents.
    """
    search = _Search(keys, line)
    for event in reader.backward(search.is_wanted):
        search.take(event)
        if search.is_done:
            break
    history = search.finished()
    if reader.is_empty:
        raise NoEvents("there are no events in it")
    if history is None:
        raise NoRun
    return history


def keys_of(word: str) -> list[str]:
    """Returns the keys that a word can mean: as it stands, and with its names as they are told.

    A word is a key itself, the label of a module or of a target of a package, a package, or a path.
    """
    kind, space, rest = word.partition(" ")
    if not (space and kind in KINDS):
        kind, rest = _kind_of(word), word
    if kind == "package" and word == rest:
        rest = rest.partition(":")[0]
    if kind == "under" and word == rest:
        rest = rest[: -len("...")].rstrip("/") if rest != "//..." else "//"
    told = rest
    if kind != "glob":
        head = "//" if rest.startswith("//") else ""
        parts = rest[len(head) :].split(":", 1) if head else [rest]
        told = head + ":".join(encode(it.encode("utf-8", "surrogateescape")) for it in parts)
    return list(dict.fromkeys([f"{kind} {rest}", f"{kind} {told}"]))


def _kind_of(word: str) -> str:
    if not word.startswith("//"):
        return "file"
    if word.endswith("/..."):
        return "under"
    return "module" if ":" in word and word.endswith(".bzl") else "package"


@dataclass(frozen=True)
class Cause:
    """One line of an explanation: a run, with the edits that touched it where it is a leaf.

    `above` is the key that ran for it, and `depth` tells how far it is from the run that is
    explained. A run that was entered before has `is_known`, and nothing below it. A cause of which
    the events tell no run, since they begin later, has no run.
    """

    key: str
    depth: int
    above: str | None
    run: Run | None
    before: Run | None = None
    edits: tuple[Edit, ...] = ()
    is_known: bool = False


def chain(history: History) -> list[Cause]:
    """Returns why a node ran: each cause behind the run above it, down to the edits."""
    found: list[Cause] = []
    known: set[tuple[str, int]] = set()
    stack: list[tuple[str, int, int, str | None]] = [(history.root.key, history.root.line, 0, None)]
    while stack:
        key, line, depth, above = stack.pop()
        run = history.change(key, line) if depth else history.root
        if run is None:
            found.append(Cause(key, depth, above, None))
            continue
        if (key, run.line) in known:
            found.append(Cause(key, depth, above, run, is_known=True))
            continue
        known.add((key, run.line))
        edits = tuple(history.touching(run)) if run.is_leaf else ()
        found.append(Cause(key, depth, above, run, history.before(run), edits))
        causes = [] if run.is_leaf else reversed(run.causes or ())
        stack += [(cause, run.line, depth + 1, key) for cause in causes]
    return found


def shown(key: str) -> str:
    """Returns a key with the real names of files, on one line."""
    return _CONTROLS.sub(lambda found: f"\\x{ord(found[0]):02x}", real(key))


def text_lines(causes: Collection[Cause]) -> Iterator[str]:
    """Yields the lines that tell a person why a node ran."""
    for cause in causes:
        run = cause.run
        if cause.depth or run is None or run.is_leaf:
            yield f"{INDENT * cause.depth}{shown(cause.key)}  {_said(cause)}"
            continue
        words = [f"{shown(run.key)}  ran at line {run.line}, version {run.version}"]
        words.append("for the first time" if cause.before is None else _last(cause.before))
        words.append(f"{run.turns} turn{'' if run.turns == 1 else 's'}")
        words.append("value changed" if run.is_changed else "value equal")
        yield "; ".join(words)


def _last(run: Run) -> str:
    return f"last at version {run.version}"


def _said(cause: Cause) -> str:
    run = cause.run
    if run is None:
        return "changed before these events begin"
    if cause.is_known:
        return f"changed at version {run.version}, see above"
    if not run.is_leaf:
        return f"changed at version {run.version}"
    if not cause.edits:
        return f"read at line {run.line}{' for the first time' if cause.before is None else ''}"
    plural = "s" if len(cause.edits) > 1 else ""
    lines = ", ".join(str(edit.line) for edit in cause.edits)
    edits = f"the edit{plural} of line{plural} {lines}"
    return f"changed by {edits}" if run.is_changed else f"equal after {edits}"


def equal_lines(history: History) -> Iterator[str]:
    """Yields what the line of a run read or ran besides, whose value stayed equal."""
    for key in history.equal:
        yield f"{INDENT}{shown(key)}  equal"


def graph_lines(causes: Collection[Cause]) -> Iterator[str]:
    """Yields a graph for the program `dot`, from edits to what they led to."""
    drawn: dict[str, None] = {}
    for cause in causes:
        drawn[f"  {_quoted(cause.key)};"] = None
        if cause.above is not None:
            drawn[f"  {_quoted(cause.key)} -> {_quoted(cause.above)};"] = None
        for edit in cause.edits:
            name = f"edit of line {edit.line}"
            drawn[f"  {_quoted(name)} [shape=ellipse];"] = None
            drawn[f"  {_quoted(name)} -> {_quoted(cause.key)};"] = None
    yield "digraph explain {"
    yield "  rankdir=LR;"
    yield "  node [shape=box];"
    yield from drawn
    yield "}"


def _quoted(key: str) -> str:
    text = shown(key).encode("utf-8", "surrogateescape").decode("utf-8", "replace")
    return '"' + text.replace("\\", "\\\\").replace('"', '\\"') + '"'


def top_lines(reader: EventReader, count: int) -> Iterator[str]:
    """Yields the keys with most turns, each with its turns and runs. Raises NoEvents, BadEvents."""
    counted: dict[str, tuple[int, int]] = {}
    for event in reader.forward():
        for key, turns in event.turns():
            before = counted.get(key, (0, 0))
            counted[key] = (before[0] + turns, before[1] + 1)
    if reader.is_empty:
        raise NoEvents("there are no events in it")
    rows = sorted((-turns, key, runs) for key, (turns, runs) in counted.items())
    for turns, key, runs in rows[:count]:
        yield f"{-turns}\t{runs}\t{shown(key)}"
