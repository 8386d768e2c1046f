#!/usr/bin/env python3
"""Golden sessions: commands with their replies, one file a topic in tests/golden.

A line `> COMMAND` is a command, `< REPLY` after it its reply, and `# NOTE` says what comes. Other
lines are empty. Each file is a session of its own, so the versions count its own accepted edits.

    golden.py FILE..    writes the versions of these files again, by counting the accepted edits
"""

import dataclasses
import glob
import os
import re
import sys

sys.path.insert(0, os.path.dirname(os.path.dirname(os.path.abspath(__file__))))

from harness.context import path_of  # noqa: E402

ACCEPTED = re.compile(rb'< \{"ok":\d+\}')


class Malformed(Exception):
    """A session is not as it should be."""


@dataclasses.dataclass(frozen=True)
class Session:
    """A session: the name of its file, its commands and their replies as lines without ends, and
    the number of the line of each command."""

    name: str
    commands: list[bytes]
    replies: list[bytes]
    places: list[int]

    def given(self) -> bytes:
        """The lines of all commands."""
        return b"".join(command + b"\n" for command in self.commands)


def read_session(file: str) -> Session:
    """Reads a session. Each command has one reply."""
    with open(file, "rb") as opened:
        lines = opened.read().removesuffix(b"\n").split(b"\n")
    session = Session(os.path.basename(file), [], [], [])
    for number, line in enumerate(lines, 1):
        place = f"{session.name}:{number}"
        is_answered = len(session.commands) == len(session.replies)
        if line[:2] == b"> " and is_answered:
            session.commands.append(line[2:])
            session.places.append(number)
        elif line[:2] == b"< " and not is_answered:
            session.replies.append(line[2:])
        elif line and not (line[:2] == b"# " and is_answered):
            raise Malformed(f"{place}: {line[:60]!r} is not expected here")
    if not session.commands or len(session.commands) != len(session.replies):
        raise Malformed(f"{session.name}: its last command has no reply, or it has none")
    return session


def sessions() -> list[Session]:
    """All sessions, in the order of their names."""
    return [read_session(it) for it in sorted(glob.glob(path_of("tests/golden/*.session")))]


def with_versions(text: bytes) -> bytes:
    """A session whose versions count the accepted edits."""
    lines, version = text.split(b"\n"), 0
    for at, line in enumerate(lines):
        if ACCEPTED.fullmatch(line):
            version += 1
            lines[at] = b'< {"ok":%d}' % version
    return b"\n".join(lines)


def main() -> int:
    """Writes the versions of sessions again."""
    for file in sys.argv[1:]:
        with open(file, "rb") as given:
            text = with_versions(given.read())
        with open(file, "wb") as out:
            out.write(text)
        print(f"{file}: {len(read_session(file).commands)} commands")
    return 0 if sys.argv[1:] else 2


if __name__ == "__main__":
    sys.exit(main())
