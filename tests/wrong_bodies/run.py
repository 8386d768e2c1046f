"""The trials: each crate in a room of its own, which is a repository of the crate and those below
it."""

import glob
import os
import shutil
import subprocess
import tempfile
import threading
import time
from collections.abc import Callable, Collection, Iterable, Sequence

from wrong_bodies.batches import answer_files, full_names, next_batch
from wrong_bodies.digest import Digests, Table
from wrong_bodies.edits import PARTS, Crate, Edit, Repository, below, read, read_edit
from wrong_bodies.judge import judge_alone, judge_batch

# The environment variable that names a folder in which to keep what the prover said.
LOGS = "WRONG_BODIES_LOGS"
# An answer that names what is not there.
NO_ANSWER = "\npub no-answer : nothing-here\nno-answer = nothing-here\n"
# Crates whose edits are tried in a check of the whole crate. For some functions of these alone the
# prover's front end takes longer than for all: 70 seconds in the evaluator.
WHOLE = ("evaluator",)

Wrong = list[tuple[str, str]]


def lay_out(room: str, repository: Repository, name: str) -> None:
    """Makes a repository of the crate and those below it, with the libraries that were kept."""
    os.makedirs(f"{room}/.git")
    shutil.copy(f"{repository.root}/HANDLES", room)
    lines = read(f"{repository.root}/crates.txt").split("\n")
    named = {line.partition(":")[0].split(" ")[0]: line for line in lines}
    listed = [*below(name, repository.uses()), name]
    with open(f"{room}/crates.txt", "w", encoding="utf-8") as out:
        out.write("\n".join(named[it] for it in listed) + "\n")
    for it in listed:
        for part in PARTS if it == name else [*PARTS, "out/rlib"]:
            copy_part(f"{repository.root}/crates/{it}/{part}", f"{room}/crates/{it}/{part}")


def copy_part(given: str, made: str) -> None:
    """Copies a folder of a crate, if it is there. Libraries are only read, so links to them do,
    where the disk is the same."""
    if not os.path.isdir(given):
        return
    os.makedirs(os.path.dirname(made), exist_ok=True)
    if given.endswith("/out/rlib"):
        link = ["cp", "-al", given, made]
        if subprocess.run(link, stderr=subprocess.DEVNULL).returncode == 0:
            return
        shutil.rmtree(made, ignore_errors=True)
    subprocess.run(["cp", "-a", given, made], check=True)


def check(
    room: str,
    crate: Crate,
    texts: dict[str, str],
    only: Iterable[str] = (),
    answers: Iterable[str] = (),
) -> tuple[int, list[str], float]:
    """Checks the crate with these texts in place of its own, or only some functions of it and what
    they call: the status, what the prover said, and its user seconds. It begins with the work that
    was kept: a check before it has put that of the texts that it was given in its place.

    Each of these files of answers gets an answer that is none. Of a goal that is not proved the
    prover says the same then. But it offers no file to begin such a proof from, and to make those
    takes it up to a third of a check.
    """
    folder, kept = f"{room}/crates/{crate.name}", f"{crate.folder}/out/incremental"
    if os.path.isdir(kept):
        shutil.rmtree(f"{folder}/out", ignore_errors=True)
        os.makedirs(f"{folder}/out")
        subprocess.run(["cp", "-a", kept, f"{folder}/out/incremental"], check=True)
    for part in ("src", "proofs"):
        shutil.rmtree(f"{folder}/{part}", ignore_errors=True)
        if os.path.isdir(f"{crate.folder}/{part}"):
            shutil.copytree(f"{crate.folder}/{part}", f"{folder}/{part}")
    for path, text in texts.items():
        with open(f"{folder}/{path}", "w", encoding="utf-8") as out:
            out.write(text)
    for path in answers:
        os.makedirs(os.path.dirname(f"{folder}/{path}"), exist_ok=True)
        with open(f"{folder}/{path}", "a", encoding="utf-8") as out:
            out.write(NO_ANSWER)
    words = ["rt", "check", "--jobs", "1", *(it for name in only for it in ("--only", name))]
    return prover(words, folder)


def prover(words: Sequence[str], folder: str) -> tuple[int, list[str], float]:
    """Runs the prover: its status, the lines that it said, and its user seconds."""
    with tempfile.TemporaryFile("w+", errors="replace") as out:
        ran = subprocess.Popen(words, cwd=folder, stdin=subprocess.DEVNULL, stdout=out, stderr=out)
        _, status, used = os.wait4(ran.pid, 0)
        ran.returncode = os.waitstatus_to_exitcode(status)
        out.seek(0)
        return ran.returncode, out.read().split("\n"), used.ru_utime


def keep_log(name: str, batch: Sequence[Edit], said: Sequence[str]) -> None:
    """Keeps what the prover said, where the environment names a folder for it. Makes the folder if
    it is not there."""
    folder = os.environ.get(LOGS)
    if folder:
        os.makedirs(folder, exist_ok=True)
        with open(f"{folder}/{name}.log", "a", encoding="utf-8") as out:
            edits = [os.path.basename(it.file) for it in batch]
            out.write("\n".join([f"=== {edits}", *said, ""]))


class CrateTrial:
    """The trial of one crate's edits."""

    def __init__(
        self, repository: Repository, name: str, room: str, say: Callable[[str], None]
    ) -> None:
        self.crate, self.room, self.say = repository.crate(name), room, say
        self.wrong: Wrong = []
        lay_out(room, repository, name)

    def run(self) -> Wrong:
        """Tries all edits of the crate: those that are not refused, each with why. One whose
        function has no name that can be told is tried alone, so that the others are tried in a
        check of their functions."""
        folder, rest = self.crate.folder, self.crate.edits()
        edits = [read_edit(it, folder, {}) for it in rest]
        made = [it for it in edits if isinstance(it, Edit)]
        alone = [it.file for it in made if not full_names(self.crate, [it])]
        rest = [it for it in rest if it not in alone]
        while rest:
            batch, rest, bad = next_batch(rest, folder)
            self.wrong += bad
            if batch:
                again, apart = self.together(batch)
                rest, alone = again + rest, alone + apart
        for file in alone:
            self.alone(file)
        return self.wrong

    def together(self, batch: Sequence[Edit]) -> tuple[list[str], list[str]]:
        """Tries edits in one check: the files of those to be tried again together, and of those to
        be tried alone."""
        status, said = self.check(batch, answer_files(self.crate, batch))
        again, apart = judge_batch(status, said, self.crate, batch)
        return [it.file for it in again], [it.file for it in apart]

    def alone(self, file: str) -> None:
        """Tries an edit alone, and notes it where it is not refused."""
        edit = read_edit(file, self.crate.folder, {})
        if isinstance(edit, str):
            self.wrong.append((file, edit))
            return
        status, said = self.check([edit], [])
        why = judge_alone(status, said, self.crate, edit)
        self.wrong += [(file, why)] if why else []

    def check(self, batch: Sequence[Edit], answers: Sequence[str]) -> tuple[int, list[str]]:
        """Checks the functions of some edits, or the whole crate where their names can't be
        told."""
        only = [] if self.crate.name in WHOLE else full_names(self.crate, batch)
        status, said, used = check(self.room, self.crate, batch[0].texts, only, answers)
        if only and not any(it.startswith("only=") for it in said):
            only = []
            status, said, used = check(self.room, self.crate, batch[0].texts, only, answers)
        what = " of their functions" if only else ""
        self.say(f"{self.crate.name}: {len(batch)} in one check{what}, {used:.0f} s")
        keep_log(self.crate.name, batch, said)
        return status, said


class Trials:
    """The trials of several crates side by side, and what came of them."""

    def __init__(self, repository: Repository, names: Iterable[str], logic: str) -> None:
        self.repository, self.logic = repository, logic
        self.names = list(names)
        self.lock, self.start = threading.Lock(), time.time()
        self.refused = 0
        self.wrong: Wrong = []

    def say(self, text: str) -> None:
        """Prints a line with the seconds since the beginning."""
        with self.lock:
            print(f"{time.time() - self.start:6.0f} s  {text}", flush=True)

    def digest(self, name: str) -> str:
        """The digest of a crate by its files as they are at this moment."""
        return Digests(self.repository, self.logic).digest(name)

    def one(self, name: str) -> None:
        """Tries a crate, and writes its line into the table. A crate that was changed meanwhile
        gets none."""
        before, edits = self.digest(name), self.repository.crate(name).edits()
        with tempfile.TemporaryDirectory(prefix="wrong-bodies-") as room:
            wrong = CrateTrial(self.repository, name, room, self.say).run()
        with self.lock:
            self.refused += len(edits) - len(wrong)
            self.wrong += wrong
            is_well = not wrong and self.digest(name) == before
            line = (str(len(edits)), before) if is_well else None
            Table(self.repository).write(name, line)

    def lane(self, processors: Collection[int]) -> None:
        """Tries crates one after the other until none is left. Of several lanes each has a
        processor of its own, since the prover's front end works on several at once where it may,
        which takes a fifth more of them in sum."""
        os.sched_setaffinity(0, processors)
        while True:
            with self.lock:
                if not self.names:
                    return
                name = self.names.pop(0)
            try:
                self.one(name)
            except Exception as error:
                with self.lock:
                    self.wrong.append((f"crates/{name}", f"it could not be tried: {error}"))

    def run(self, jobs: int) -> None:
        """Tries all crates, so many at once."""
        processors = sorted(os.sched_getaffinity(0))
        own = [{it} for it in processors] if jobs > 1 else [set(processors)]
        lanes = [
            threading.Thread(target=self.lane, args=(own[it % len(own)],)) for it in range(jobs)
        ]
        for it in lanes:
            it.start()
        for it in lanes:
            it.join()


def newest(files: Iterable[str]) -> float:
    """When the newest of some files was written."""
    return max((os.path.getmtime(it) for it in files if os.path.exists(it)), default=0)


def is_newer(crate: Crate, part: str) -> bool:
    """Whether what is in a part of a crate's folder is newer than its sources."""
    kept = glob.glob(f"{crate.folder}/{part}/**", recursive=True)
    return newest(kept) > newest(crate.files(PARTS, ""))


def is_kept(repository: Repository, name: str, uses: dict[str, list[str]]) -> bool:
    """Whether a crate is known to be proved, by the work that `rt check` kept or by its library,
    and the libraries below it are newer than their sources."""
    own = any(is_newer(repository.crate(name), it) for it in ("out/incremental", "out/rlib"))
    return own and all(is_newer(repository.crate(it), "out/rlib") for it in below(name, uses))


def keep_work(repository: Repository, names: Sequence[str]) -> bool:
    """Has each crate checked whose kept work is not there or is older than a source. Tells whether
    all are proved."""
    uses = repository.uses()
    for name in [it for it in uses if it in names and not is_kept(repository, it, uses)]:
        print(f"crates/{name}: rt check", flush=True)
        status, said, _ = prover(["rt", "check"], repository.crate(name).folder)
        if status:
            text = "\n".join(said)[-2000:]
            print(f"{text}\ncrates/{name} is not proved, so its wrong bodies show nothing")
            return False
    return True


def weight(crate: Crate) -> int:
    """A number that is greater the longer the trial of a crate takes."""
    return len(crate.edits()) * sum(os.path.getsize(it) for it in crate.files(PARTS, ""))
