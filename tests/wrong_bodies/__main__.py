"""Tries the wrong bodies of each crate: edits that turn what a function does, which the prover has
to refuse.

Callers know a function by its contract alone. So edits of different functions are tried in one
check, over the work that `rt check` kept, and each has to be refused in its own function. What is
not is tried alone.

    wrong_bodies           tries the crates whose digest in wrong-bodies.txt is not the present one
    wrong_bodies --all     tries all crates
    wrong_bodies NAME..    tries these crates
    wrong_bodies --digests tries nothing: compares the digests, as the gate does

A crate's line is written where all its edits were refused. WRONG_BODIES_LOGS=FOLDER keeps what the
prover said of each check. The status is 1 where an edit is not refused, where one cannot be tried,
or where a crate with contracts has none.
"""

import argparse
import os
import sys
import time

HERE = os.path.dirname(os.path.abspath(__file__))
sys.path.insert(0, os.path.dirname(HERE))

from wrong_bodies.digest import kit_logic, stale  # noqa: E402
from wrong_bodies.edits import Repository, has_contracts  # noqa: E402
from wrong_bodies.run import Trials, keep_work, weight  # noqa: E402

# Provers at once, where no number is given. Four take less time by the clock, and half more of
# processors.
LANES = 2


def compare(repository: Repository, names: list[str], is_bare: bool) -> int:
    """Tells which crates have to be tried, and returns 1 where there is one."""
    for name in names:
        print(
            f"crates/{name} has changed since its wrong bodies were refused: run make wrong-bodies"
        )
    uses = repository.uses()
    total = sum(len(repository.crate(name).edits()) for name in uses)
    tried = f"{len(names)} crates to be tried again"
    print(f"wrong bodies: {total} of {len(uses)} crates, {tried}")
    return 1 if names or is_bare else 0


def run_trials(repository: Repository, names: list[str], logic: str, jobs: int) -> bool:
    """Tries the edits of some crates, and tells whether all were refused."""
    if not keep_work(repository, names):
        return False
    heavy = sorted(names, key=lambda name: weight(repository.crate(name)), reverse=True)
    trials = Trials(repository, heavy, logic)
    trials.run(jobs)
    for file, why in trials.wrong:
        print(f"NOT REFUSED: {os.path.relpath(file, repository.root)}: {why}")
    took, used = time.time() - trials.start, os.times().children_user
    print(f"{len(names)} crates in {took:.0f} s, {used:.0f} processor seconds in the prover")
    print(f"{trials.refused} refused, {len(trials.wrong)} not refused")
    return not trials.wrong


def main() -> int:
    """Runs the command."""
    words = argparse.ArgumentParser(
        "wrong_bodies", description=__doc__, formatter_class=argparse.RawDescriptionHelpFormatter
    )
    words.add_argument("--all", action="store_true")
    words.add_argument("--digests", action="store_true")
    words.add_argument("--jobs", type=int, default=min(LANES, len(os.sched_getaffinity(0))))
    words.add_argument("names", nargs="*")
    asked = words.parse_args()
    repository, logic = Repository(os.path.dirname(os.path.dirname(HERE))), kit_logic()
    crates = [repository.crate(name) for name in repository.uses()]
    bare = [it.name for it in crates if has_contracts(it) and not it.edits()]
    for name in bare:
        print(f"crates/{name} has contracts and no wrong body")
    if asked.digests:
        return compare(repository, stale(repository, logic), bool(bare))
    if asked.names:
        names = asked.names
    else:
        with_edits = [it.name for it in crates if it.edits()]
        names = with_edits if asked.all else stale(repository, logic)
    is_well = run_trials(repository, names, logic, asked.jobs)
    return 0 if is_well and not bare else 1


if __name__ == "__main__":
    sys.exit(main())
