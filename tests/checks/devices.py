"""Devices: input in pieces, input that ends or fails at each byte, and output that fails at each
byte, over the lines of answers/devices.jsonl, with 1 and 16 workers."""

from collections.abc import Callable, Iterator
from functools import partial

from harness.context import Context, lines_of
from harness.loader import Loader, Run
from harness.report import Comparison, Report, compare_all, differs

BAD_LINE = b'{"refused":1}\n'
WELL, READ_STOP, WRITE_STOP = (0, b""), (3, b"stop: read\n"), (3, b"stop: write\n")


def in_pieces(loader: Loader, lines: bytes, size: int) -> Run:
    """Each read of the program gives a piece of the input of this size."""
    running = loader.start_pipes()
    for at in range(0, len(lines), size):
        running.give(lines[at : at + size])
    return running.end(running.take_rest())


def to_reader_that_closes(
    loader: Loader, lines: list[bytes], answers: list[bytes], count: int
) -> Run:
    """The reader takes so many bytes of the answers and closes. The lines behind are given after
    that."""
    running, ready = loader.start_pipes(), 0
    while len(b"".join(answers[:ready])) < count:
        ready += 1
    running.give(b"".join(lines[:ready]))
    running.wait_for(running.output, len(b"".join(answers[:ready])))
    written = running.take(count)
    running.give_rest(b"".join(lines[ready:]))
    return running.end(written)


def answered(lines: list[bytes], answers: list[bytes], cut: int) -> bytes:
    """The answers to the first `cut` bytes where the input ends there: of the lines that have
    ended, and of the rest."""
    ended = whole_lines(lines, cut)
    rest = cut - len(b"".join(lines[:ended]))
    if not rest:
        return b"".join(answers[:ended])
    last = answers[ended] if rest == len(lines[ended]) - 1 else BAD_LINE
    return b"".join(answers[:ended]) + last


def whole_lines(lines: list[bytes], cut: int) -> int:
    """How many lines end within the first bytes."""
    return sum(len(b"".join(lines[: at + 1])) <= cut for at in range(len(lines)))


class Devices:
    """The comparisons with so many workers."""

    def __init__(self, context: Context, count: int) -> None:
        self.context, self.count = context, count
        self.loader = context.serving(count)
        self.lines = lines_of("tests/answers/devices.jsonl")
        self.answers = lines_of("tests/answers/devices.txt")
        self.given, self.whole = b"".join(self.lines), b"".join(self.answers)

    def check(
        self, what: str, ended: tuple[int, bytes], written: bytes, call: Callable[[], Run]
    ) -> Comparison:
        """A comparison: a call ends with this status and this message, and wrote these bytes."""
        name, wanted = f"--workers {self.count}, {what}", (*ended, written)

        def compare() -> str | None:
            ran = call()
            return differs(name, (ran.status, ran.said, ran.written), wanted)

        return compare

    def inputs(self) -> Iterator[Comparison]:
        """The comparisons that may be made side by side."""
        loader, given = self.loader, self.given
        journal = b"".join(lines_of("tests/answers/journal.jsonl"))
        answers = self.context.serving(1).run(journal).written
        for size in (1, 3):
            yield self.check(
                f"pieces of {size}",
                WELL,
                self.whole,
                partial(in_pieces, loader, given, size),
            )
            yield self.check(
                f"lines of the journal in pieces of {size}",
                WELL,
                answers,
                partial(in_pieces, loader, journal, size),
            )
        for at in range(len(given) + 1):
            first = b"".join(self.answers[: whole_lines(self.lines, at)])
            yield self.check(
                f"input that ends at byte {at}",
                WELL,
                answered(self.lines, self.answers, at),
                partial(loader.run, given[:at]),
            )
            yield self.check(
                f"input that fails at byte {at}",
                READ_STOP,
                first,
                partial(loader.run_until_pipe_fails, given[:at]),
            )
        for at in range(len(self.whole) + 1):
            yield self.check(
                f"room for {at} bytes",
                WELL if at == len(self.whole) else WRITE_STOP,
                self.whole[:at],
                partial(loader.run_with_room, given, at),
            )

    def alone(self) -> Iterator[Comparison]:
        """The comparisons that are made one by one. A process that another thread begins has the
        ends of pipes for a moment."""
        for at in range(len(self.whole) + 1):
            yield self.check(
                f"a reader that takes {at} bytes",
                WELL if at > len(self.whole) - len(self.answers[-1]) else WRITE_STOP,
                self.whole[:at],
                partial(to_reader_that_closes, self.loader, self.lines, self.answers, at),
            )
        for stream, ended, written in [
            ("stdout", WRITE_STOP, b""),
            ("stdin", READ_STOP, b""),
            ("stderr", WELL, self.whole),
        ]:
            for path in ("/" if stream == "stdin" else "/dev/full", None):
                more = ["--runs"] if stream == "stderr" else []
                loader = self.context.serving(self.count, *more)
                yield self.check(
                    f"{stream} is {path or 'closed'}",
                    ended,
                    written,
                    partial(loader.run_with_device, self.given, stream, path),
                )


def run(context: Context) -> Report:
    """Makes all comparisons."""
    devices = [Devices(context, count) for count in (1, 16)]
    together = compare_all([check for it in devices for check in it.inputs()])
    alone = compare_all([check for it in devices for check in it.alone()], 1)
    return Report(together.compared + alone.compared, together.wrong + alone.wrong)
