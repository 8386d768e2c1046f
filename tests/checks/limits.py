"""Lines, texts and paths at their limits and one byte above, the memory of a program that is told
many edits, and that of a package whose targets hold more than it may."""

from functools import partial

from checks.costs import labelled, of_build
from harness.commands import line_of, lines_of_commands, load, put
from harness.context import Context
from harness.report import Report, compare_all

FIND = b'{"op":"find","name":"x"}'
# A package that loads from so many modules, whose build file changes at each edit. Each edit writes
# its record again, and with it the edges to all modules.
MODULES = 60
FEW, MANY = 2_000, 20_000
MAX_GROWTH = 1.2
# The most megabytes of a program whose evaluation is charged for 256 MiB.
MAX_HELD = 500


def put_line(path: bytes, length: int) -> bytes:
    """A line that puts a text of this length."""
    return b'{"op":"put","path":"%s","text":"%s"}' % (path, b"x" * length)


ROWS = [
    (b"x" * 1_048_576, b'{"refused":1}'),
    (b"x" * 1_048_577, b'{"refused":6}'),
    (b"x" * 3_000_000, b'{"refused":6}'),
    (put_line(b"a", 262_144), b'{"ok":1}'),
    (put_line(b"a", 262_145), b'{"refused":7}'),
    (put_line(b"a//b", 262_145), b'{"refused":2}'),
    (put_line(b"p" * 255, 1), b'{"ok":1}'),
    (put_line(b"p" * 256, 1), b'{"refused":2}'),
]


def row_differs(context: Context, line: bytes, wanted: bytes) -> str | None:
    """What is wrong with a line at a limit, or None."""
    ran = context.loader("run").run(line + b"\n" + FIND + b"\n")
    if ran.status or ran.written != wanted + b'\n{"build":null}\n':
        ends = f"status {ran.status}, wrote {ran.written[:60]!r}"
        return f"a line of {len(line)} bytes, {line[:30]!r}..: {ends}"
    return None


def build_text(number: int) -> str:
    """A build file with another target than the one before."""
    loads = "".join(f'load("//m:x{it}.bzl", "X{it}")\n' for it in range(MODULES))
    return f'{loads}filegroup(name = "t{number % 2}")\n'


def most_memory(context: Context, edits: int, report: Report, *words: str) -> int:
    """The most memory, in kilobytes, of a program with these words that is told so many edits of a
    package and asked for it each time."""
    program = context.loader("run", *words).start()
    program.ask(line_of(put("m/BUILD", "")))
    for it in range(MODULES):
        program.ask(line_of(put(f"m/x{it}.bzl", f"X{it} = {it}\n")))
    for it in range(edits):
        program.ask(line_of(put("p/BUILD", build_text(it))))
        answer = program.ask(line_of(load("p")))
        target = b'"targets":[{"attrs":{},"kind":"filegroup","name":"t%d"}]' % (it % 2)
        report.add(None if target in answer else f"edit {it}: {answer!r:.300}", compared=1)
        if report.wrong:
            break
    most = program.memory("VmHWM")
    program.end()
    return most


def hold_labels(context: Context, report: Report) -> None:
    """Has a package make more targets with labels than it is charged for up to the limit."""
    ran, _, most = context.loader("run").run_measured(lines_of_commands(of_build(labelled(65_536))))
    ends = f"targets with 65,536 labels each: status {ran.status}, said {ran.said!r}, {most:.0f} MB"
    report.require(ran.ended() == (3, b"stop: memory\n") and most <= MAX_HELD, ends)
    report.note(ends)


def run(context: Context) -> Report:
    """Compares the rows, the memory after few edits and after many, and that of many labels."""
    report = compare_all([partial(row_differs, context, *row) for row in ROWS])
    few, many = (most_memory(context, edits, report) for edits in (FEW, MANY))
    sizes = f"memory after {FEW} edits of a package {few} KB, after {MANY} {many} KB"
    report.require(many <= MAX_GROWTH * few, f"{sizes}, which is too much")
    report.note(sizes)
    hold_labels(context, report)
    return report
