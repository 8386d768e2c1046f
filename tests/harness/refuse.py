"""Makes each allocation of a run fail in turn, or each new thread. Needs cc."""

import os
import subprocess
import tempfile
from collections.abc import Iterator
from contextlib import contextmanager

from harness.loader import Loader, Run
from harness.report import Report

HERE = os.path.dirname(os.path.abspath(__file__))


class Refusals:
    """The library that refuses an allocation or a thread, and the file in which it counts them."""

    def __init__(self, folder: str) -> None:
        self.library, self.count = f"{folder}/fail_alloc.so", f"{folder}/count"
        source = os.path.join(HERE, "fail_alloc.c")
        words = ["cc", "-shared", "-fPIC", "-O1", "-o", self.library, source, "-ldl"]
        subprocess.run(words, check=True)

    def loader(self, command: list[str], fails: int, thread: int, count: bool) -> Loader:
        """A program of whose allocations one is refused, and of whose threads one."""
        environment = {"LD_PRELOAD": self.library, "FAIL_ALLOC": str(fails)}
        environment["FAIL_THREAD"] = str(thread)
        if count:
            environment["FAIL_ALLOC_COUNT"] = self.count
        return Loader(*command, environment=environment)

    def run(self, command: list[str], given: bytes | None, fails: int = 0, thread: int = 0) -> Run:
        """Runs a command. Its allocation of that number is refused, or none where it is 0. So is
        its thread."""
        return self.loader(command, fails, thread, False).run(given or b"")

    def run_and_count(self, command: list[str], given: bytes | None = None) -> tuple[Run, int, int]:
        """Runs a command that is refused nothing: the run, and how many allocations and threads it
        made."""
        ran = self.loader(command, 0, 0, True).run(given or b"")
        with open(self.count, encoding="utf-8") as file:
            allocations, threads = file.read().split()
        return ran, int(allocations), int(threads)


@contextmanager
def refusals() -> Iterator[Refusals]:
    """Makes the library in a folder of its own."""
    with tempfile.TemporaryDirectory() as folder:
        yield Refusals(folder)


def shown(place: int, ran: Run) -> str:
    """A text of a run that did not end as it must. A place below 0 is that of a thread."""
    ends = f"wrote ..{ran.written[-60:]!r}, said ..{ran.said[-60:]!r}"
    return f"allocation {place}: status {ran.status}, {ends}"


def refuse_each(library: Refusals, what: str, command: list[str]) -> tuple[Report, Run, int]:
    """Refuses each allocation in turn. A run then writes all that it always writes, or nothing, and
    says why. Returns what is wrong, the run with no refusal, and how many refusals stopped a run.
    """
    whole, allocations, _ = library.run_and_count(command)
    report, stopped = Report(allocations), 0
    for fails in range(1, allocations + 1):
        ran = library.run(command, None, fails)
        if (ran.status, ran.written) == (0, whole.written):
            continue
        stopped += 1
        is_told = isinstance(ran.status, int) and ran.status > 0 and b"memory" in ran.said
        report.require(is_told and not ran.written, f"{what}: {shown(fails, ran)}")
    report.require(whole.status == 0, f"{what}: {shown(0, whole)}")
    report.require(stopped > 0, f"{what}: no refusal stopped it")
    report.note(f"{stopped} stopped {what}")
    return report, whole, stopped
