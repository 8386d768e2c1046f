"""The same bytes with one worker and with more: the golden sessions, the programs of the language
and the scripts of tests/scripts with 2, 3 and 16 workers, and random small scripts with 16."""

import glob
import os
from collections.abc import Iterator
from functools import partial

from checks.language import all_lines
from harness import scripts
from harness.commands import lines_of_commands
from harness.context import Context, bytes_of, path_of
from harness.golden import sessions
from harness.report import Comparison, Report, compare_all

SCRIPTS = 10_000


def differs(context: Context, name: str, script: bytes, numbers: list[int]) -> str | None:
    """What is wrong with a script, or None."""
    one = context.serving(1).run(script)
    for count in numbers:
        many = context.serving(count).run(script)
        if one != many:
            statuses = f"statuses {one.status} and {many.status}"
            return f"{name}: {count} workers write something else than one: {statuses}"
    lines, answers = len(script.splitlines()), len(one.lines())
    if one.status != 0 or answers != lines:
        ends = f"status {one.status} and {answers} answers to {lines} lines"
        return f"{name}: one worker ends with {ends}"
    return None


def random_differs(context: Context, number: int) -> str | None:
    """What is wrong with a random script, or None."""
    script = lines_of_commands(scripts.script(number))
    return differs(context, f"random script {number}", script, [16])


def stored() -> Iterator[tuple[str, bytes]]:
    """The names and the lines of what is stored."""
    for session in sessions():
        yield session.name, session.given()
    yield "language", all_lines()
    for file in sorted(glob.glob(path_of("tests/scripts/*.jsonl"))):
        yield os.path.basename(file), bytes_of(file)


def run(context: Context) -> Report:
    """Compares all scripts."""
    files = list(stored())
    more = [it for it in context.workers if it > 1]
    checks: list[Comparison] = [
        partial(differs, context, name, script, more) for name, script in files
    ]
    numbers = context.numbers(SCRIPTS)
    checks += [partial(random_differs, context, number) for number in numbers]
    report = compare_all(checks)
    report.note(f"{len(files)} files and {len(numbers)} random scripts")
    return report
