"""Each allocation of two scripts of the shelf fails in turn: of publishes and reads, and of edits
and published loads. `make shelf-trials` builds the program that has them.

The scripts make each call a second time where memory was refused. A publish that was refused may be
in the list, and then once more; what readers find is the same. So a script writes what it always
writes, but for a few allocations outside the calls.
"""

from harness.context import Context, path_of
from harness.refuse import refusals, refuse_each
from harness.report import Report

PROGRAM = "bench/out/shelf_trials"
# How many refusals may stop a script.
MAX_STOPPED = 20


def run(context: Context) -> Report:
    """Refuses each allocation of both scripts."""
    report = Report()
    with refusals() as library:
        for word in ("script", "loads"):
            found, _, stopped = refuse_each(library, word, [path_of(PROGRAM), word])
            report.add(*found.wrong, compared=found.compared)
            report.require(stopped < MAX_STOPPED, f"{word}: {stopped} refusals stopped it")
    return report
