"""Standard output and standard error of a command, byte by byte.

What is wrong with standard output ends the command: a reader that has gone ends it as a signal
would, and a full disk by a message. What is wrong with standard error is passed over.
"""

from __future__ import annotations

import os

OUT, ERR = 1, 2
_ROOM = 1 << 16

NO_ANSWER = 3
BAD_WORDS = 2
INTERRUPTED = 130


class Failure(Exception):
    """A command that ends without an answer: a status, and a sentence for a person."""

    def __init__(self, status: int, words: str) -> None:
        super().__init__(words)
        self.status = status


class ReaderGone(Exception):
    """Whoever reads standard output has gone."""


class Output:
    """Standard output, with what was not written yet."""

    def __init__(self) -> None:
        self._parts: list[bytes] = []
        self._size = 0

    def line(self, line: bytes) -> None:
        """Writes a line, which has no end of line yet."""
        self._parts.append(line)
        self._size += len(line) + 1
        if self._size >= _ROOM:
            self.flush()

    def flush(self) -> None:
        """Writes all lines out."""
        if not self._parts:
            return
        view = memoryview(b"\n".join(self._parts) + b"\n")
        self._parts, self._size = [], 0
        try:
            while view:
                view = view[os.write(OUT, view) :]
        except BrokenPipeError:
            raise ReaderGone from None
        except OSError as error:
            raise Failure(NO_ANSWER, f"standard output: {error.strerror}") from None


def say(words: str) -> None:
    """Writes a line to standard error."""
    raw = f"sefgulaw: {words}\n".encode("utf-8", "surrogateescape")
    say_raw(raw)


def say_raw(raw: bytes) -> None:
    """Writes bytes to standard error, as far as they can be written."""
    try:
        while raw:
            raw = raw[os.write(ERR, raw) :]
    except OSError:
        pass


def end_by_pipe() -> int:
    """Ends this process as one that writes into a closed pipe ends."""
    import signal

    signal.signal(signal.SIGPIPE, signal.SIG_DFL)
    os.kill(os.getpid(), signal.SIGPIPE)
    return 128 + signal.SIGPIPE
