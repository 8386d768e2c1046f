"""The programs of the language in tests/language, with each number of workers. The expected answers
are made of the comments in the topic files alone (harness/programs.py says how they are written).
"""

from harness.commands import line_of
from harness.context import Context
from harness.programs import Row, programs_of, topics, words_of_faults
from harness.report import Report, compare_each, differs, run_differs

# A program with its place, and its rows.
Placed = tuple[str, list[Row]]


def numbered(programs: list[Placed]) -> list[tuple[str, bytes, bytes]]:
    """The lines of programs with their places and their answers, in which an accepted edit has the
    version that it makes."""
    rows, version = [], 0
    for place, pairs in programs:
        for command, answer in pairs:
            if "ok" in answer:
                version += 1
                answer = {"ok": version}
            rows.append((place, line_of(command), line_of(answer, sort_keys=True)[:-1]))
    return rows


def all_programs() -> list[Placed]:
    """All programs of all topics."""
    words = words_of_faults()
    return [(it.place, list(it.rows(words))) for path in topics() for it in programs_of(path)]


def all_lines() -> bytes:
    """The lines of all programs, one after the other."""
    return b"".join(line for _, line, _ in numbered(all_programs()))


def run(context: Context) -> Report:
    """Runs all programs one after the other in one session."""
    programs = all_programs()
    rows = numbered(programs)
    given = b"".join(line for _, line, _ in rows)

    def check(count: int) -> str | None:
        ran, what = context.serving(count).run(given), f"--workers {count}"
        for (place, _, wanted), got in zip(rows, ran.lines()):
            if got != wanted:
                return differs(f"{what}, {place}", got, wanted)
        return run_differs(what, ran, [wanted for _, _, wanted in rows])

    report = compare_each(check, context.workers)
    report.compared *= len(programs)
    report.note(f"{len(topics())} topics")
    return report
