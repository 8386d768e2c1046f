"""The one class that runs a loader, and what a run or a conversation with one gives."""

import array
import dataclasses
import fcntl
import os
import resource
import select
import subprocess
import tempfile
import termios
import threading
import time
from collections.abc import Callable
from typing import IO, Any

# The most seconds that one run may take: some thousand times what it takes.
PATIENCE = 60
# How many seconds the answer to one line may take.
ANSWER_PATIENCE = 20
LATE = "none, for it did not end"


@dataclasses.dataclass(frozen=True)
class Run:
    """How a run ended: its status, what it wrote and what it said. One that did not end in time has
    a text in the place of its status."""

    status: int | str
    written: bytes
    said: bytes

    def lines(self) -> list[bytes]:
        """The lines that it wrote."""
        return self.written.splitlines()

    def last(self) -> bytes:
        """The last line that it wrote."""
        return (self.lines() or [b""])[-1]

    def ended(self) -> tuple[int | str, bytes]:
        """Its status and what it said."""
        return self.status, self.said


class Loader:
    """A program with the words that it is run with, and what its processes have around them: more
    words of the environment, and a limit of the stack in kilobytes."""

    def __init__(
        self,
        program: str,
        *words: str,
        environment: dict[str, str] | None = None,
        stack: int | None = None,
        patience: float = PATIENCE,
    ) -> None:
        self.command = [program, *words]
        self.environment, self.stack, self.patience = environment, stack, patience

    def __str__(self) -> str:
        return " ".join([os.path.basename(self.command[0]), *self.command[1:]])

    def process(
        self, before: Callable[[], object] | None = None, **streams: Any
    ) -> "subprocess.Popen[bytes]":
        """Starts a process. It calls a function before it becomes the program."""
        environment = {**os.environ, **self.environment} if self.environment else None
        calls = [it for it in (self.limit if self.stack else None, before) if it]

        def prepare() -> None:
            for call in calls:
                call()

        return subprocess.Popen(
            self.command, env=environment, preexec_fn=prepare if calls else None, **streams
        )

    def limit(self) -> None:
        """Limits the stack of the present process."""
        size = (self.stack or 0) * 1024
        resource.setrlimit(resource.RLIMIT_STACK, (size, size))

    def run(
        self,
        given: bytes | None = b"",
        before: Callable[[], object] | None = None,
        **streams: Any,
    ) -> Run:
        """Runs the program to its end. Without bytes that are given, the streams name its input. It
        is killed where it does not end in time."""
        pipes = {"stdout": subprocess.PIPE, "stderr": subprocess.PIPE}
        if given is not None:
            pipes["stdin"] = subprocess.PIPE
        with self.process(before, **{**pipes, **streams}) as process:
            try:
                written, said = process.communicate(given, timeout=self.patience)
            except subprocess.TimeoutExpired:
                process.kill()
                process.communicate()
                return Run(LATE, b"", b"")
        return Run(process.returncode, written or b"", said or b"")

    def run_measured(self, given: bytes) -> tuple[Run, float, float]:
        """Runs the program over files, and looks at its memory each few milliseconds: the run, its
        seconds and its most megabytes."""
        with tempfile.TemporaryFile() as lines, tempfile.TemporaryFile() as written:
            with tempfile.TemporaryFile() as said:
                lines.write(given)
                lines.seek(0)
                begun, most = time.perf_counter(), 0.0
                process = self.process(stdin=lines, stdout=written, stderr=said)
                while process.poll() is None:
                    most = max(most, memory_of(process.pid, "VmHWM") / 1024)
                    time.sleep(0.002)
                took = time.perf_counter() - begun
                return Run(process.returncode, whole(written), whole(said)), took, most

    def run_with_room(self, given: bytes, count: int) -> Run:
        """Runs the program with an output that is a file. It takes so many bytes and no more, a
        part of a write too. The limit's signal is ignored."""
        pipe = subprocess.PIPE
        with tempfile.TemporaryFile() as written:
            process = self.process(
                None, stdin=pipe, stdout=written, stderr=pipe, restore_signals=False
            )
            resource.prlimit(process.pid, resource.RLIMIT_FSIZE, (count, count))
            said = process.communicate(given, timeout=self.patience)[1]
            return Run(process.returncode, whole(written), said)

    def run_until_pipe_fails(self, given: bytes) -> Run:
        """Runs the program with an input that gives these bytes. The read behind them fails, since
        it would have to wait and may not."""
        end, rest = os.pipe()
        os.set_blocking(end, False)
        os.write(rest, given)
        ran = self.run(None, stdin=end)
        os.close(end)
        os.close(rest)
        return ran

    def run_with_device(self, given: bytes, name: str, path: str | None) -> Run:
        """Runs the program with a file in the place of one of its streams, or with that closed."""
        number = ["stdin", "stdout", "stderr"].index(name)
        opened = os.open(path or os.devnull, os.O_RDONLY if name == "stdin" else os.O_WRONLY)
        with tempfile.TemporaryFile() as lines:
            lines.write(given)
            lines.seek(0)
            closes = None if path else lambda: os.close(number)
            ran = self.run(None, closes, **{"stdin": lines, name: opened})
        os.close(opened)
        return ran

    def start(self) -> "Conversation":
        """Starts a conversation over two pipes."""
        pipe = subprocess.PIPE
        return Conversation(self.process(stdin=pipe, stdout=pipe, bufsize=0))

    def start_pipes(self) -> "Pipes":
        """Starts the program with pipes whose bytes are counted."""
        return Pipes(self)


class Conversation:
    """A program that is told a line after the answer to the line before it has come."""

    def __init__(self, process: "subprocess.Popen[bytes]") -> None:
        assert process.stdin and process.stdout
        self.process, self.input, self.output = process, process.stdin, process.stdout

    def ask(self, line: bytes) -> bytes:
        """The answer to a line with its end, or the part of it that came in time."""
        self.input.write(line)
        answer, until = b"", time.monotonic() + ANSWER_PATIENCE
        while not answer.endswith(b"\n"):
            ready, _, _ = select.select([self.output], [], [], max(0, until - time.monotonic()))
            piece = os.read(self.output.fileno(), 65536) if ready else b""
            if not piece:
                break
            answer += piece
        return answer

    def memory(self, what: str) -> int:
        """Kilobytes of memory by a name of the system, as `VmHWM`."""
        return memory_of(self.process.pid, what)

    def kill(self) -> None:
        """Kills the program."""
        self.process.kill()
        self.process.communicate()

    def end(self) -> Run:
        """Ends the input: the status, and what the program wrote then."""
        self.input.close()
        rest = self.output.read()
        status = self.process.wait(PATIENCE)
        self.output.close()
        return Run(status, rest, b"")


class Pipes:
    """A program whose standard input and output are pipes of this process. It is killed where it
    does not end."""

    def __init__(self, loader: Loader) -> None:
        given, self.input = os.pipe()
        self.output, written = os.pipe()
        self.process = loader.process(stdin=given, stdout=written, stderr=subprocess.PIPE)
        # The end that the program reads stays open here too, so that a write to it never fails.
        self.given, self.patience = given, loader.patience
        os.close(written)
        self.killing = threading.Timer(loader.patience, self.process.kill)
        self.killing.start()

    def give(self, lines: bytes) -> None:
        """Gives bytes, and waits until the program has read them."""
        os.write(self.input, lines)
        self.wait_for(self.given, 0)

    def wait_for(self, pipe: int, count: int) -> None:
        """Waits until a pipe has so many bytes. Returns at once where the program has ended."""
        patient = time.monotonic() + self.patience
        while bytes_in(pipe) != count and self.process.poll() is None:
            if time.monotonic() >= patient:
                break
            time.sleep(0)

    def take(self, count: int) -> bytes:
        """Takes so many bytes of the output, and closes it."""
        written = os.read(self.output, count) if bytes_in(self.output) else b""
        os.close(self.output)
        return written

    def take_rest(self) -> bytes:
        """Ends the input, and returns the rest of the output."""
        os.close(self.input)
        with os.fdopen(self.output, "rb") as output:
            return output.read()

    def give_rest(self, lines: bytes) -> None:
        """Gives bytes to a program that may have ended, and ends the input."""
        os.write(self.input, lines)
        os.close(self.input)

    def end(self, written: bytes) -> Run:
        """Waits for the end of a program that has written these bytes."""
        assert self.process.stderr
        with self.process.stderr as errors:
            said = errors.read()
        status = self.process.wait()
        self.killing.cancel()
        os.close(self.given)
        return Run(status, written, said)


def bytes_in(pipe: int) -> int:
    """How many bytes wait in a pipe."""
    count = array.array("i", [0])
    fcntl.ioctl(pipe, termios.FIONREAD, count)
    return count[0]


def whole(file: IO[bytes]) -> bytes:
    """All bytes of a file."""
    file.seek(0)
    return file.read()


def memory_of(process: int, what: str) -> int:
    """Kilobytes of a process by a name of the system, or 0 where it has ended."""
    with open(f"/proc/{process}/status", encoding="utf-8") as status:
        rows = [line.split() for line in status if line.startswith(f"{what}:")]
    return int(rows[0][1]) if rows else 0
