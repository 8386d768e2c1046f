"""Each allocation of the program fails in turn, over the scripts of examples and tests/scripts.

The journal is wanted too. What the program writes is then a beginning of the answers. It says
`stop: memory`, and its status is 3. The scripts have packages, globs, all packages under a
directory, equal values that stop a change, cycles that are mended, and restarts.

With one worker each allocation is refused, in a run that makes the same ones. With four workers the
allocations differ from run to run, and so does the order of the journal. So the k-th one is refused
for k up to the most that were counted, in steps where there are many. A run ends well then or stops
as above, and may do either. Where it ends well, the answers are the same bytes, and the journal has
the same lines. That it stops at an allocation can't be judged, but some run has to. Each new thread
is refused as well, which counts as an allocation.
"""

import concurrent.futures

from harness.context import Context, bytes_of
from harness.loader import Run
from harness.refuse import Refusals, refusals, shown
from harness.report import Report, processors

# How many runs count the allocations of four workers, and at how many places of a script they are
# refused.
COUNTED, MAX_PLACES = 5, 400
EXAMPLES = ["session", "tour", "edits"]
NAMES = "packages batches globs under pruning cycles restarts waiting wide".split()
SCRIPTS = [f"examples/{it}.jsonl" for it in EXAMPLES] + [
    f"tests/scripts/{it}.jsonl" for it in NAMES
]


def refuse_with_one(library: Refusals, command: list[str], lines: bytes, name: str) -> Report:
    """Refuses each allocation of one worker."""
    whole, allocations, _ = library.run_and_count(command, lines)
    report, stopped = Report(allocations), 0
    report.require(whole.status == 0, f"{name}: {shown(0, whole)}")
    for fails in range(1, allocations + 1):
        ran = library.run(command, lines, fails)
        if ran.status == 0 and ran == whole:
            continue
        stopped += 1
        is_beginning = whole.written.startswith(ran.written)
        is_told = ran.status == 3 and ran.said.endswith(b"stop: memory\n")
        report.require(is_beginning and is_told, f"{name}: {shown(fails, ran)}")
    report.require(stopped > 0, f"{name}: no refusal stopped the program")
    return report


def is_well(ran: Run, whole: Run) -> bool:
    """The right answers, and the lines of the journal in any order."""
    is_same = sorted(ran.said.splitlines()) == sorted(whole.said.splitlines())
    return ran.status == 0 and ran.written == whole.written and is_same


def is_stopped(ran: Run, whole: Run) -> bool:
    """A beginning of the answers, and lines of the journal before the cause. There are some only
    behind all answers."""
    said, journal = ran.said.splitlines(keepends=True), whole.said.splitlines(keepends=True)
    is_whole = whole.written == ran.written
    begins = is_whole if said[1:] else whole.written.startswith(ran.written)
    is_told = said[-1:] == [b"stop: memory\n"] and set(said[:-1]) <= set(journal)
    return ran.status == 3 and begins and is_told


def refuse_with_four(
    library: Refusals, command: list[str], lines: bytes, name: str
) -> tuple[Report, int]:
    """The same with four workers, whose runs are compared with one of one worker. Returns how many
    threads were made too."""
    report, most, most_threads = Report(), 0, 0
    whole, workers = library.run(command, lines), [*command, "--workers", "4"]
    for _ in range(COUNTED):
        ran, allocations, threads = library.run_and_count(workers, lines)
        most, most_threads = max(most, allocations), max(most_threads, threads)
        report.require(is_well(ran, whole), f"{name}, 4 workers: {shown(0, ran)}")
    places = [(fails, 0) for fails in range(1, most + 1, 1 + most // MAX_PLACES)]
    places += [(0, thread) for thread in range(1, most_threads + 1)]
    with concurrent.futures.ThreadPoolExecutor(processors()) as pool:
        runs = list(pool.map(lambda place: library.run(workers, lines, *place), places))
    stopped = sum(is_stopped(ran, whole) for ran in runs)
    for (fails, thread), ran in zip(places, runs):
        is_right = is_stopped(ran, whole) or is_well(ran, whole)
        report.require(is_right, f"{name}, 4 workers: {shown(fails or -thread, ran)}")
    report.require(stopped > 0, f"{name}: no refusal stopped the program with 4 workers")
    report.compared = len(places)
    return report, most_threads


def run(context: Context) -> Report:
    """Refuses each allocation of each script."""
    report, one, made = Report(), 0, 0
    command = [context.program, "run", "--runs"]
    with refusals() as library:
        for name in SCRIPTS:
            lines = bytes_of(name)
            first = refuse_with_one(library, command, lines, name)
            second, threads = refuse_with_four(library, command, lines, name)
            report.add(*first.wrong, *second.wrong, compared=first.compared + second.compared)
            one, made = one + first.compared, made + threads
    report.require(made > 0, "no script makes a thread with 4 workers")
    report.note(f"{one} allocations with one worker, and {made} threads with 4")
    return report
