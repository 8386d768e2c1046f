"""Each allocation of five scripts fails in turn. `make measures` builds the program that has them.

The script of values touches each kind of object. It writes what it always writes, or the program
says that memory ran out. What the script only reads stays as it was.

The script of edits and look-ups makes each call a second time where memory was refused. So it
writes what it always writes, but for a few allocations outside the calls. The script of a list of
choices evaluates its graph once more, on one thread, where memory was refused. So it too writes
what it always writes.

The script of rows makes edits and requests of sessions, with globs, a circle of loads, change
pruning and a package that waits. The one of batches has a batch of edits, which leaves the files
and the version where memory was refused to it. Both make a call again that was refused memory, and
fail where it has changed anything.
"""

from harness.context import Context, bytes_of, path_of
from harness.refuse import refusals, refuse_each
from harness.report import Report, differs

PROGRAM = "bench/out/measures"
# The word of each script, and how many refusals may stop it, where that is limited.
SCRIPTS = {"values": None, "graph": 20, "replay": 20, "rows": 20, "batches": 20}
# What scripts have to write, where that was written down by hand.
WRITTEN = {"rows": "tests/answers/rows.txt", "batches": "tests/answers/batches.txt"}


def run(context: Context) -> Report:
    """Refuses each allocation of each script."""
    report = Report()
    with refusals() as library:
        for word, limit in SCRIPTS.items():
            command = [path_of(PROGRAM), word, "script"]
            found, whole, stopped = refuse_each(library, word, command)
            report.add(*found.wrong, compared=found.compared)
            if word in WRITTEN:
                report.add(differs(f"{word}: wrote", whole.written, bytes_of(WRITTEN[word])))
            is_few = limit is None or stopped < limit
            report.require(is_few, f"{word}: {stopped} refusals stopped it")
    return report
