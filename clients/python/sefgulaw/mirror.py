"""What a loader was told: it follows the files on disk, and outlives the loader's process.

`told` holds exactly the files that the loader has, after each edit that it answered. A loader that
ends is replaced by another one, which is told all of them again. Where a request ended it, the file
that is guilty is searched for, and told from then on by a text that fails, until it is mended.
"""

from __future__ import annotations

from collections.abc import Callable, Iterable, Iterator, Sequence
from typing import NamedTuple

from sefgulaw.batches import Change, Directories, Worded, batches
from sefgulaw.batches import in_the_way, line_of, outcome, worded
from sefgulaw.guilty import Guilty
from sefgulaw.names import Path, is_source
from sefgulaw.telling import Absent, Note, Text, Told, failing
from sefgulaw.wire import MOST_NAMES, Del, Load, Loader, Put, Stopped

Progress = Callable[[int, int, str], None]
Noting = Callable[[Sequence[Path]], None]

MOST_REFUSALS = 3
MOST_RESTARTS = 3
_PROGRESS_STEP = 512


class BrokenLoader(Exception):
    """The loader ends again and again, and no file is guilty of it."""


class Synced(NamedTuple):
    """Which files are told otherwise than before, and which are to be looked at again.

    `noted` are those of the changed ones that the caller was told of meanwhile.
    """

    changed: frozenset[Path]
    again: frozenset[Path]
    noted: frozenset[Path] = frozenset()


class _Blame(NamedTuple):
    """A file that ended the loader: its own text, and the files that would have to change."""

    note: Note
    text: str
    closure: frozenset[Path]


def no_progress(done: int, total: int, what: str) -> None:
    """Shows nothing."""


class Mirror:
    """A loader and the files that it was told.

    `start` starts a loader. `source` says what is to be told of a path as the disk has it.
    `search` finds the files that end a loader when these packages are asked for.
    """

    def __init__(
        self,
        start: Callable[[], Loader],
        source: Callable[[Path], Told],
        search: Callable[[Sequence[str], Stopped], Sequence[Guilty]],
        progress: Progress = no_progress,
    ) -> None:
        self.told: dict[Path, str] = {}
        self.notes: dict[Path, Note] = {}
        self.version = 0
        self.restarts = 0
        self.progress = progress
        self._start, self._source, self._search = start, source, search
        self._loader: Loader | None = None
        self._loader_version = 0
        self._directories = Directories()
        self._blamed: dict[Path, _Blame] = {}
        self._noted: set[Path] = set()
        self._unexplained = 0
        self._most_names = MOST_NAMES

    @property
    def loader(self) -> Loader:
        """The running loader, which is started when it is first needed."""
        if self._loader is None:
            self._loader = self._start()
        return self._loader

    @property
    def pid(self) -> int | None:
        """The number of the loader's process, where one runs."""
        return None if self._loader is None else self._loader.pid

    @property
    def answered(self) -> int:
        """How many lines the running loader has answered."""
        return 0 if self._loader is None else self._loader.answered

    def close(self) -> None:
        """Ends the loader."""
        if self._loader is not None:
            self._loader.kill()
            self._loader = None

    # Telling files.

    def sync(self, changed: Iterable[Path], note: Noting | None = None) -> Synced:
        """Looks at some paths again, and tells the loader what differs from what it was told.

        The first files of all are looked at while the loader takes those before them. `note` is
        called with files that were told, while the loader takes others.
        """
        looked = dict.fromkeys(changed)
        differing: set[Path] = set()
        noted: set[Path] = set()
        if self.told or self._blamed:
            again = self._tell(self._changes(self._look_at(looked)), differing)
        else:
            again = self._tell(self._first_changes(looked), differing, note, noted)
        if again:
            wanted = self._look_at(dict.fromkeys(again))
            again = self._tell(self._changes(wanted), differing)
            for path in again:
                self._give_up(path, wanted.get(path), differing)
        differing |= self._noted
        self._noted.clear()
        return Synced(frozenset(differing), frozenset(again), frozenset(noted))

    def _looks(self, paths: dict[Path, None]) -> Iterator[tuple[Path, str | None]]:
        """Yields the text that each path is to have; None is a file that is not there."""
        total = len(paths)
        for done, path in enumerate(paths):
            if done % _PROGRESS_STEP == 0 and total > _PROGRESS_STEP:
                self.progress(done, total, "files")
            yield path, self._wanted(path)

    def _first_changes(self, paths: dict[Path, None]) -> Iterator[Change]:
        """Yields the changes where nothing was told, so that no file is in the way of others."""
        return (Put(path, text) for path, text in self._looks(paths) if text is not None)

    def _look_at(self, paths: dict[Path, None]) -> dict[Path, str | None]:
        """Returns the text that each path is to have, with those that are pardoned by a change."""
        wanted = dict(self._looks(paths))
        for path in self._pardoned(wanted):
            wanted[path] = self._wanted(path)
        return wanted

    def _wanted(self, path: Path) -> str | None:
        """Returns the text that a path is to have, and keeps the note that stands beside it."""
        told = self._source(path)
        if isinstance(told, Text) and path not in self.notes and path not in self._blamed:
            return told.text
        before = self.notes.get(path)
        text = self._wanted_text(path, told)
        if self.notes.get(path) != before:
            self._noted.add(path)
        return text

    def _wanted_text(self, path: Path, told: Told) -> str | None:
        blame = self._blamed.get(path)
        if blame is not None:
            if isinstance(told, Text) and told.text == blame.text:
                self.notes[path] = blame.note
                return failing(path, blame.note.code, blame.note.text).text
            del self._blamed[path]
        if isinstance(told, Text):
            self.notes.pop(path, None)
            return told.text
        if told.note is None:
            self.notes.pop(path, None)
        else:
            self.notes[path] = told.note
        return None if isinstance(told, Absent) else told.text

    def _pardoned(self, wanted: dict[Path, str | None]) -> list[Path]:
        """Returns the blamed files of which something that they need has changed."""
        if not self._blamed:
            return []
        moved = {path for path, text in wanted.items() if self.told.get(path) != text}
        found = [path for path, blame in self._blamed.items() if blame.closure & moved]
        for path in found:
            del self._blamed[path]
        return found

    def _changes(self, wanted: dict[Path, str | None]) -> list[Change]:
        """Returns the changes from what is told, deletions first and deepest first."""
        wanted = dict(wanted)
        clear: set[str] = set()
        for path in [path for path, text in wanted.items() if text is not None]:
            if path not in self.told:
                for other in in_the_way(path, self.told, self._directories, clear):
                    if other not in wanted:
                        wanted[other] = self._wanted(other)
        deleted = [path for path, text in wanted.items() if text is None and path in self.told]
        deleted.sort(key=lambda path: (-path.count("/"), path))
        changes: list[Change] = [Del(path) for path in deleted]
        for path, text in wanted.items():
            if text is not None and self.told.get(path) != text:
                changes.append(Put(path, text))
        return changes

    def _tell(
        self,
        changes: Iterable[Change],
        differing: set[Path],
        note: Noting | None = None,
        noted: set[Path] | None = None,
    ) -> set[Path]:
        """Sends changes in batches. Returns the paths whose changes were refused.

        While the loader takes a batch the next one is made, and `note` gets the one before it.
        """
        again: set[Path] = set()
        sent: list[Worded] = []
        ended: Stopped | None = None
        for batch in batches(changes):
            told = self._finish(sent, ended, again, differing)
            sent, ended = batch, self._begin(batch)
            if note is not None and noted is not None and told:
                note(told)
                noted.update(told)
        self._finish(sent, ended, again, differing)
        return again

    def _begin(self, batch: Sequence[Worded]) -> Stopped | None:
        """Sends a batch, and returns how the loader has ended if it has."""
        try:
            self.loader.send_line(line_of(batch))
        except Stopped as stop:
            return stop
        return None

    def _finish(
        self,
        batch: list[Worded],
        ended: Stopped | None,
        again: set[Path],
        differing: set[Path],
    ) -> list[Path]:
        """Reads the answer to a batch that was sent. Returns the paths if it was taken as it is."""
        if not batch:
            return []
        try:
            if ended is not None:
                raise ended
            refused = self._outcome(self.loader.receive())
        except Stopped as stop:
            self._restart(stop, explained=False)
            self._send(batch, again, differing)
            return []
        self._unexplained = 0
        if refused is not None:
            again.add(batch.pop(refused)[0].path)
            self._send(batch, again, differing)
            return []
        self.version += 1
        self._note_batch(batch, differing)
        return [change.path for change, _ in batch]

    def _send(self, batch: list[Worded], again: set[Path], differing: set[Path]) -> None:
        """Sends one batch. A change that is refused is put aside, and the others are sent again."""
        refusals = 0
        while batch:
            refused = self._edit(batch)
            if refused is None:
                self._note_batch(batch, differing)
                return
            again.add(batch.pop(refused)[0].path)
            refusals += 1
            if refusals > MOST_REFUSALS and len(batch) > 1:
                middle = len(batch) // 2
                self._send(batch[:middle], again, differing)
                self._send(batch[middle:], again, differing)
                return

    def _give_up(self, path: Path, text: str | None, differing: set[Path]) -> None:
        """After two refusals tells a source as a failing one, and any other file not at all."""
        if text is None:
            self._drop(path)
            return
        instead = failing(path, "refused", "the loader does not take it")
        again: set[Path] = set()
        if is_source(path):
            self._send(worded(Put(path, instead.text)), again, differing)
        self.notes[path] = instead.note

    def _note_batch(self, batch: Sequence[Worded], differing: set[Path]) -> None:
        for change, _ in batch:
            self._note_told(change)
            differing.add(change.path)

    def _note_told(self, change: Change) -> None:
        if isinstance(change, Del):
            self._drop(change.path)
            return
        if change.path not in self.told:
            self._directories.count(change.path, 1)
        self.told[change.path] = change.text

    def _drop(self, path: Path) -> None:
        if self.told.pop(path, None) is not None:
            self._directories.count(path, -1)

    def _edit(self, batch: Sequence[Worded]) -> int | None:
        """Makes an edit, over ends of the loader. Returns the place of a change that is refused."""
        line = line_of(batch)
        while True:
            try:
                refused = self._edit_once(line)
            except Stopped as stop:
                self._restart(stop, explained=False)
                continue
            self._unexplained = 0
            if refused is None:
                self.version += 1
            return refused

    def _edit_once(self, line: bytes) -> int | None:
        return self._outcome(self.loader.ask_line(line))

    def _outcome(self, answer: bytes) -> int | None:
        """Returns the place of a change that is refused, by the answer to an edit."""
        try:
            refused = outcome(answer, self._loader_version + 1)
        except ValueError:
            raise _nonsense(answer) from None
        if refused is None:
            self._loader_version += 1
        return refused

    # Asking for packages.

    def load(self, names: Sequence[str]) -> Iterator[bytes]:
        """Asks for packages by name. Yields an answer for each group of them."""
        at = 0
        killed = False
        while at < len(names):
            group = names[at : at + self._most_names]
            try:
                answer = self.loader.ask(Load(group))
            except Stopped as stop:
                self._survive(stop, group, killed)
                killed = True
                continue
            if not answer.startswith(b'{"packages":['):
                self._survive(_nonsense(answer), group, killed)
                killed = True
                continue
            at += len(group)
            killed = False
            self._unexplained = 0
            yield answer

    def _survive(self, stop: Stopped, group: Sequence[str], killed: bool) -> None:
        """Finds out whether a file is guilty of a loader's end, and starts another one."""
        if stop.why in ("killed", "read", "write") and not killed:
            self._restart(stop, explained=False)
            return
        guilty = self._search(group, stop)
        self._restart(stop, explained=bool(guilty))
        for one in guilty:
            self._blamed[one.path] = _Blame(one.note, self.told[one.path], one.closure)
            self.notes[one.path] = one.note
            instead = failing(one.path, one.note.code, one.note.text)
            self._send(worded(Put(one.path, instead.text)), set(), set())
        if not guilty and len(group) > 1:
            self._most_names = max(1, len(group) // 8)

    def _restart(self, stop: Stopped, explained: bool) -> None:
        """Starts another loader and tells it all files again.

        Only so many may end in a row without an answer between, where no file is guilty of it.
        """
        if self._loader is not None:
            self._loader.kill()
        self._loader = None
        self.restarts += 1
        if not explained:
            self._unexplained += 1
            if self._unexplained > MOST_RESTARTS:
                raise BrokenLoader(str(stop))
        self._loader_version = 0
        try:
            for batch in batches(Put(path, text) for path, text in self.told.items()):
                if self._edit_once(line_of(batch)) is not None:
                    raise Stopped("killed", 0, "the loader refuses what it took before")
        except Stopped as again:
            self._restart(again, explained=False)


def _nonsense(answer: bytes) -> Stopped:
    """Returns how an answer that no loader gives is treated: as an end of the loader."""
    return Stopped("killed", 0, f"an answer that is none: {answer[:80]!r}")
