"""One process of the loader: a line goes out, and its answer is read before the next one.

So neither side can wait for the other for ever, as a client does that goes on writing without
reading. The limits of the protocol are known here: a command that the loader would refuse as no
command, as too long, or for its number of names or edits is a mistake of this package and never of
a file, and raises ValueError.
"""

from __future__ import annotations

import fcntl
import json
import os
import select
import signal
import subprocess
import time
from collections.abc import Callable, Sequence
from dataclasses import dataclass
from typing import Literal, NamedTuple, Union

from sefgulaw.allocator import Allocator
from sefgulaw.names import Path

LONGEST_LINE = 1_048_576
LONGEST_TEXT = 262_144
MOST_NAMES = 256
MOST_EDITS = 256
EVENTS_FAILED = "events: write"
"""What the loader says at its end, last of all, where it could not write all its events."""
NOT_PRELOADED = "ERROR: ld.so: "
"""How the system's line begins about a library of LD_PRELOAD that it cannot load."""

Why = Literal["memory", "budget", "read", "write", "killed", "deadline"]

_CHUNK = 1 << 20
_SET_PIPE_SIZE = 1031
_WORDS = json.JSONEncoder(separators=(",", ":")).encode
_STRING: Callable[[str], str] = json.encoder.encode_basestring_ascii  # type: ignore[attr-defined]


class Stopped(Exception):
    """The loader has ended, or was ended because it did not answer within its deadline."""

    def __init__(self, why: Why, status: int, words: str = "") -> None:
        super().__init__(f"the loader has ended: {words or why} (status {status})")
        self.why: Why = why
        self.status = status
        self.words = words


class NoLoader(Exception):
    """The loader's program cannot be started."""


class Put(NamedTuple):
    """Sets the text of a file."""

    path: Path
    text: str

    def words(self) -> str:
        """Returns the JSON object of this change."""
        return f'{{"op":"put","path":{_STRING(self.path)},"text":{_STRING(self.text)}}}'

    def line(self) -> bytes:
        """Returns the line of this command."""
        return _checked(self.words())


class Del(NamedTuple):
    """Takes a file away."""

    path: Path

    def words(self) -> str:
        """Returns the JSON object of this change."""
        return f'{{"op":"del","path":{_STRING(self.path)}}}'

    def line(self) -> bytes:
        """Returns the line of this command."""
        return _checked(self.words())


@dataclass(frozen=True)
class Edit:
    """Makes several changes as one edit."""

    changes: Sequence[Put | Del]

    def line(self) -> bytes:
        """Returns the line of this command."""
        return edit_line([change.words() for change in self.changes])


@dataclass(frozen=True)
class Find:
    """Asks which BUILD file a package has."""

    name: str

    def line(self) -> bytes:
        """Returns the line of this command."""
        return _checked(_WORDS({"op": "find", "name": self.name}))


@dataclass(frozen=True)
class Load:
    """Asks for packages by name."""

    names: Sequence[str]

    def line(self) -> bytes:
        """Returns the line of this command."""
        if not 1 <= len(self.names) <= MOST_NAMES:
            raise ValueError(f"a load of {len(self.names)} names")
        return _checked(_WORDS({"op": "load", "names": list(self.names)}))


@dataclass(frozen=True)
class Module:
    """Asks what a .bzl file leaves."""

    label: str

    def line(self) -> bytes:
        """Returns the line of this command."""
        return _checked(_WORDS({"op": "module", "label": self.label}))


@dataclass(frozen=True)
class Under:
    """Asks for all packages at and below a directory."""

    dir: str

    def line(self) -> bytes:
        """Returns the line of this command."""
        return _checked(_WORDS({"op": "under", "dir": self.dir}))


Command = Union[Put, Del, Edit, Find, Load, Module, Under]


def edit_line(changes: Sequence[str]) -> bytes:
    """Returns the line of an edit from the words of its changes."""
    if not 1 <= len(changes) <= MOST_EDITS:
        raise ValueError(f"an edit of {len(changes)} changes")
    return _checked(f'{{"op":"edit","edits":[{",".join(changes)}]}}')


def _checked(words: str) -> bytes:
    line = words.encode("ascii")
    if len(line) > LONGEST_LINE:
        raise ValueError(f"a line of {len(line)} bytes")
    return line + b"\n"


class Loader:
    """A running loader. `deadline` is how many seconds an answer may take; None is any time.

    `answered` is the number of lines that it has answered.
    """

    def __init__(self, process: subprocess.Popen[bytes], deadline: float | None) -> None:
        assert process.stdin and process.stdout and process.stderr
        self.deadline = deadline
        self._process = process
        self._in, self._out, self._err = process.stdin, process.stdout, process.stderr
        self._left = b""
        self._is_unread = False
        self.answered = 0
        for stream in (self._in, self._out):
            try:
                fcntl.fcntl(stream, _SET_PIPE_SIZE, _CHUNK)
            except OSError:
                pass
        os.set_blocking(self._in.fileno(), False)

    @staticmethod
    def start(
        program: Sequence[str],
        workers: int = 1,
        deadline: float | None = None,
        options: Sequence[str] = (),
        allocator: Allocator = Allocator(),
    ) -> Loader:
        """Starts the loader's program with this many worker threads, and with further options."""
        words = [*program, "run", "--workers", str(workers), *options]
        pipe = subprocess.PIPE
        try:
            process = subprocess.Popen(
                words,
                stdin=pipe,
                stdout=pipe,
                stderr=pipe,
                bufsize=0,
                start_new_session=True,
                env=allocator.environment(),
            )
        except (OSError, ValueError) as error:
            reason = error.strerror if isinstance(error, OSError) and error.strerror else str(error)
            raise NoLoader(f"{program[0]}: {reason}") from None
        return Loader(process, deadline)

    @property
    def pid(self) -> int:
        """The number of the process."""
        return self._process.pid

    def ask(self, command: Command) -> bytes:
        """Sends one line and returns its answer, without its end of line."""
        return self.ask_line(command.line())

    def ask_line(self, line: bytes) -> bytes:
        """Sends one line that ends with byte 10, and returns its answer without that byte."""
        self.send_line(line)
        return self.receive()

    def send_line(self, line: bytes) -> None:
        """Sends one line that ends with byte 10. Its answer is read by `receive`, before the next
        line is sent, so the loader works while its client makes another line.

        An answer that was not read is passed over, so none is taken for that to another line.
        """
        while self._is_unread:
            self.receive()
        self._write(line, self._until())
        self._is_unread = True

    def receive(self) -> bytes:
        """Returns the answer to the line that was sent, without its byte 10."""
        self._is_unread = False
        answer = self._read(self._until())
        self.answered += 1
        return answer

    def _until(self) -> float | None:
        return None if self.deadline is None else time.monotonic() + self.deadline

    def close(self) -> int:
        """Ends the input, waits for the program's end, and returns its status."""
        try:
            self._in.close()
        except OSError:
            pass
        try:
            self._process.wait(timeout=2)
        except subprocess.TimeoutExpired:
            self._process.kill()
        status = self._process.wait()
        self._out.close()
        self._err.close()
        return status

    def kill(self) -> None:
        """Ends the program at once."""
        self._process.kill()
        self.close()

    def _write(self, line: bytes, until: float | None) -> None:
        view, poll = memoryview(line), None
        while view:
            try:
                view = view[os.write(self._in.fileno(), view) :]
            except BlockingIOError:
                poll = poll or _polled(self._in.fileno(), select.POLLOUT)
                self._wait(poll, until)
            except (OSError, ValueError):
                raise self._stopped() from None

    def _read(self, until: float | None) -> bytes:
        parts, poll = [self._left], None
        while b"\n" not in parts[-1]:
            if until is not None:
                poll = poll or _polled(self._out.fileno(), select.POLLIN)
                self._wait(poll, until)
            try:
                part = os.read(self._out.fileno(), _CHUNK)
            except (OSError, ValueError):
                part = b""
            if not part:
                raise self._stopped()
            parts.append(part)
        answer, _, self._left = b"".join(parts).partition(b"\n")
        return answer

    def _wait(self, poll: select.poll, until: float | None) -> None:
        left = None if until is None else max(0.0, (until - time.monotonic()) * 1000)
        if not poll.poll(left):
            self._process.kill()
            raise self._stopped("deadline")

    def _stopped(self, why: Why | None = None) -> Stopped:
        """Takes what the program says at its end, and tells why it has ended."""
        if self._in.closed and self._process.returncode is not None:
            return Stopped(why or "killed", self._process.returncode)
        try:
            self._process.wait(timeout=5)
        except subprocess.TimeoutExpired:
            self._process.kill()
        status = self._process.wait()
        words = b"" if self._err.closed else self._err.read()
        said = words.decode("utf-8", "replace").strip().split("\n")
        self.close()
        own = [it for it in said if it != EVENTS_FAILED and not it.startswith(NOT_PRELOADED)]
        last = own[-1] if own else ""
        known: dict[str, Why] = {
            "stop: memory": "memory",
            "stop: budget": "budget",
            "stop: read": "read",
            "stop: write": "write",
        }
        if why is None:
            why = known.get(last, "killed")
        return Stopped(why, status, last or _signal_name(status))


def _polled(number: int, events: int) -> select.poll:
    poll = select.poll()
    poll.register(number, events)
    return poll


def _signal_name(status: int) -> str:
    if status < 0:
        try:
            return signal.Signals(-status).name
        except ValueError:
            return f"signal {-status}"
    return ""
