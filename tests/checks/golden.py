"""The sessions of tests/golden, each in a run of its own, with each number of workers. Their
replies were written down by hand."""

from functools import partial

from harness.context import Context
from harness.golden import Session, sessions
from harness.report import Report, compare_each, differs, run_differs


def session_differs(context: Context, which: tuple[Session, int]) -> str | None:
    """What is wrong with a session with so many workers, or None."""
    session, workers = which
    ran = context.serving(workers).run(session.given())
    what = f"{session.name}, --workers {workers}"
    for place, got, wanted in zip(session.places, ran.lines(), session.replies):
        if got != wanted:
            return differs(f"{what}, line {place}", got, wanted)
    return run_differs(what, ran, session.replies)


def run(context: Context) -> Report:
    """Compares all replies."""
    found = sessions()
    runs = [(session, workers) for session in found for workers in context.workers]
    report = compare_each(partial(session_differs, context), runs)
    replies = sum(len(session.replies) for session in found)
    report.compared = replies * len(context.workers)
    report.note(f"{len(found)} sessions")
    return report
