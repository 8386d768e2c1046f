"""Texts that were cut: each cut of two files of a package, then the whole file, with 1 and 16
workers, against programs that begin with these files."""

import concurrent.futures

from harness.commands import Command, line_of, lines_of_commands, load, put
from harness.context import Context
from harness.report import Report, processors

PACKAGE = "c"
BUILD_TEXT = (
    'load(":m.bzl", "T", n = "N")\n'
    'filegroup(name = n + "s", srcs = glob(["*.c", "s/**"]), tags = T)\n'
    'filegroup(name = "h", srcs = glob(["**/*.h"], exclude = ["x.h"]))\n'
)
MODULE_TEXT = 'N = "f"\ndef tags(n):\n    return [n, n + "g"]\nT = tags("k")\n'
WHOLE = {"BUILD": BUILD_TEXT, "m.bzl": MODULE_TEXT}
OTHER_FILES = dict.fromkeys(["a.c", "b.c", "s/d.c", "s/e.h", "x.h", "y.h", "p/BUILD", "p/z.h"], "")
# All kinds of answers have to be among them: the package, a fault of its text, and one of what it
# loads.
KINDS = [b'"targets":[{', b'"path":"c/BUILD"', b'"path":"c/m.bzl"']

Edit = tuple[str, str]


def put_in_package(name: str, text: str) -> Command:
    """Writes a file of the package."""
    return put(f"{PACKAGE}/{name}", text)


def from_nothing(context: Context, files: dict[str, str]) -> bytes:
    """The answer of a program that is told these files alone."""
    puts = [put_in_package(name, text) for name, text in files.items()]
    ran = context.serving(1).run(lines_of_commands([*puts, load(PACKAGE)]))
    is_well = ran.ended() == (0, b"")
    return ran.last() if is_well else b"status %r, said %r" % ran.ended()


def resident(context: Context, count: int, edits: list[Edit]) -> list[bytes]:
    """The answers of one program after each of these edits of the whole files."""
    puts = [put_in_package(name, text) for name, text in {**WHOLE, **OTHER_FILES}.items()]
    given = lines_of_commands(puts)
    for name, text in edits:
        given += line_of(put_in_package(name, text)) + line_of(load(PACKAGE))
    ran = context.serving(count).run(given)
    answers = ran.lines()[len(puts) :]
    is_well = ran.ended() == (0, b"") and len(answers) == 2 * len(edits)
    return answers[1::2] if is_well else []


def cut_differs(edits: list[Edit], answers: list[bytes], wanted: dict[Edit, bytes]) -> str | None:
    """A text of the first edit whose answer is another one, or None."""
    for (name, text), answer in zip(edits, answers):
        right = wanted[name, text]
        if answer != right:
            return f"{name} with the text {text!r}: {answer!r:.300} and not {right!r:.300}"
    if len(answers) != len(edits):
        return f"{len(answers)} answers to {len(edits)} requests"
    return None


def run(context: Context) -> Report:
    """Compares each cut, with the whole file between two cuts, and from cut to cut."""
    cuts = [(name, text[:at]) for name, text in WHOLE.items() for at in range(len(text) + 1)]
    with concurrent.futures.ThreadPoolExecutor(processors()) as pool:
        files = [{**WHOLE, **OTHER_FILES, name: text} for name, text in cuts]
        answers = pool.map(lambda it: from_nothing(context, it), files)
        wanted = dict(zip(cuts, answers))
    between = [edit for cut in cuts for edit in (cut, (cut[0], WHOLE[cut[0]]))]
    one_by_one = [
        (name, text[:at])
        for name, text in WHOLE.items()
        for at in [*range(len(text), -1, -1), len(text)]
    ]
    report = Report()
    for edits in (between, one_by_one):
        for count in (1, 16):
            wrong = cut_differs(edits, resident(context, count, edits), wanted)
            report.add(wrong and f"--workers {count}: {wrong}", compared=len(edits))
    for kind in KINDS:
        is_there = any(kind in it for it in wanted.values())
        report.require(is_there, f"no cut is answered with {kind.decode()}")
    report.note(f"{len(cuts)} cuts")
    return report
