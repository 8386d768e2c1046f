"""What changed below a directory since it was looked at last.

A watch knows the files of a tree as `disk.walk` finds them, and keeps them up. Its events never say
what is there: they say which names to look at again.
"""

from __future__ import annotations

from collections.abc import Mapping
from typing import NamedTuple, Protocol

from sefgulaw.disk import Found


class Changes(NamedTuple):
    """The files that came, went or changed. `whole` says that the tree was walked over for this."""

    paths: frozenset[bytes]
    whole: bool


class Watch(Protocol):
    """A tree that is kept up."""

    @property
    def files(self) -> Mapping[bytes, Found]:
        """The files below the root as they were at the last `drain`."""

    @property
    def unlisted(self) -> Mapping[bytes, str]:
        """The directories that could not be listed then, each with the reason."""

    def drain(self) -> Changes:
        """Takes in all that was changed before the call. The first one has every file.

        Raises `RootGone` where the root cannot be listed or is another directory than before.
        """

    def fileno(self) -> int | None:
        """A descriptor that is readable when something changed; None where nothing tells."""

    def close(self) -> None:
        """Gives back what the watch holds of the system."""


class RootGone(Exception):
    """The root cannot be listed, or it was moved or deleted."""


class CannotWatch(Exception):
    """The system does not tell of changes in this tree; the text is the reason for a person."""


def is_changed(before: Found | None, now: Found | None) -> bool:
    """Tells whether a file has to be read again, by two looks at it.

    A stamp that is not settled could be that of two states of the file.
    """
    return before != now or (now is not None and now.stamp is not None and not now.stamp.settled)
