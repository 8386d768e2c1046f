"""The watch of a tree: by the kernel's events where they are to be had, else by walks."""

from __future__ import annotations

import os
from collections.abc import Callable, Mapping

from sefgulaw.disk import Found, Ignore
from sefgulaw.watch import CannotWatch, Changes, Watch
from sefgulaw.watch.inotify import Inotify
from sefgulaw.watch.poll import Poll


class FallBack:
    """A watch that goes over to walks where the kernel tells no more, and says so in one line.

    It is opened when it is first asked for files, since some questions are about revisions alone.
    """

    def __init__(self, root: bytes, ignore: Ignore, say: Callable[[str], None]) -> None:
        self._root, self._ignore, self._say = root, ignore, say
        self._inner: Watch | None = None

    def _opened(self) -> Watch:
        if self._inner is not None:
            return self._inner
        opened: Watch
        try:
            opened = Inotify(self._root, self._ignore)
        except CannotWatch as reason:
            opened = self._poll(reason, {})
        self._inner = opened
        return opened

    def _poll(self, reason: CannotWatch, known: Mapping[bytes, Found]) -> Poll:
        self._say(f"{os.fsdecode(self._root)} is walked over for each answer, since {reason}")
        return Poll(self._root, self._ignore, known)

    @property
    def files(self) -> Mapping[bytes, Found]:
        """The files below the root as they were at the last `drain`."""
        return self._opened().files

    @property
    def unlisted(self) -> Mapping[bytes, str]:
        """The directories that could not be listed then, each with the reason."""
        return self._opened().unlisted

    @property
    def is_told(self) -> bool:
        """Whether the kernel tells of changes, as far as that was tried."""
        return not isinstance(self._inner, Poll)

    @property
    def overflows(self) -> int:
        """How often the kernel's queue was too short for its events."""
        return self._inner.overflows if isinstance(self._inner, Inotify) else 0

    @property
    def watches(self) -> int:
        """How many directories the kernel watches."""
        return self._inner.watches() if isinstance(self._inner, Inotify) else 0

    def drain(self) -> Changes:
        """Takes in all that was changed before the call."""
        try:
            return self._opened().drain()
        except CannotWatch as reason:
            return self._go_over(reason)

    def _go_over(self, reason: CannotWatch) -> Changes:
        """Goes over to walks. What the events said so far counts as changed."""
        assert isinstance(self._inner, Inotify)
        before = self._inner
        poll = self._poll(reason, before.files)
        pending = before.pending()
        before.close()
        self._inner = poll
        return Changes(poll.drain().paths | pending, True)

    def fileno(self) -> int | None:
        """A descriptor that is readable when something changed; None where nothing tells."""
        return self._opened().fileno()

    def close(self) -> None:
        """Gives back what the watch holds of the system."""
        if self._inner is not None:
            self._inner.close()
