#!/usr/bin/env python3
"""Proves and builds a program beside the gate, as `bench/out/measures`, the one that measures. Run
it by `make measures`, or by `make shelf-trials`, `make readers`, `make overlaps`, `make trials` or
`make schedules` for the programs whose names are passed there.

The gate does not build these programs, and it stops at each source outside the crates of
crates.txt. So the sources end in `.rattle`, and the proofs in `.proof`. The kit builds only crates
that are proved, in a repository. So this script makes a room outside this repository, with the
program as a crate over the libraries that are built here. `make build` builds those of the program;
the script builds those that the program needs beside them.

The room is among the temporary files. Where they are on another disk, the copied libraries take
some 6 GB there.
"""

import os
import shutil
import subprocess
import sys
import tempfile
import time
from typing import IO

ROOT = os.path.dirname(os.path.dirname(os.path.dirname(os.path.abspath(__file__))))
# Each program with the folder of its sources, and the words that it is run with once it is built.
# Where the folder has a file `stdin`, the program reads it then.
PROGRAMS: dict[str, tuple[str, list[str]]] = {
    "measures": ("bench/measures", ["lines"]),
    "shelf_trials": ("bench/shelf_trials", ["rows"]),
    "readers": ("examples/readers", []),
    "overlaps": ("tests/overlaps", []),
    "trials": ("tests/trials", []),
    "sessions": ("tests/sessions", []),
    "schedules": ("tests/schedules", []),
}
# A library that only such programs use, and where its sources are.
BESIDE = {"small_graphs": "tests/small_graphs"}
ENDINGS = {".rattle": ".rt", ".proof": ".antt"}
PARTS = ("src", "specs", "proofs", "out/rlib")
# How many lines of the log are printed where a program is not built.
MAX_SHOWN = 30


def lines_in(file: str) -> dict[str, str]:
    """The line of each crate of a list, with the counts beside its name."""
    with open(file, encoding="utf-8") as text:
        lines = [line.partition("#")[0].strip() for line in text]
    return {line.partition(":")[0].split()[0]: line for line in lines if line}


def below(name: str, uses: dict[str, list[str]]) -> list[str]:
    """The crates that a crate uses, and that these use in turn, the lowest first. Libraries of the
    kit are none of them."""
    found: list[str] = []
    for it in uses[name]:
        if it in uses:
            found += [crate for crate in [*below(it, uses), it] if crate not in found]
    return found


def files_in(folder: str) -> list[str]:
    """The files in a folder and below it."""
    return [os.path.join(at, name) for at, _, names in os.walk(folder) for name in names]


def place_sources(crate: str, sources: str) -> None:
    """Copies the sources and proofs of a program or a library beside the gate, with the endings
    that the kit reads."""
    for file in files_in(sources):
        stem, ending = os.path.splitext(os.path.join(crate, os.path.relpath(file, sources)))
        if ending in ENDINGS:
            os.makedirs(os.path.dirname(stem), exist_ok=True)
            shutil.copy(file, stem + ENDINGS[ending])


def run(folder: str, log: IO[str], words: list[str], given: IO[str] | int) -> bool:
    """Runs a command in a folder. Returns whether it went well."""
    ran = subprocess.run(words, cwd=folder, stdin=given, stdout=log, stderr=subprocess.STDOUT)
    return ran.returncode == 0


class Build:
    """The build of one program over the libraries of a repository."""

    def __init__(self, name: str, root: str = ROOT) -> None:
        folder, self.words = PROGRAMS[name]
        self.name, self.root = name, root
        self.sources = os.path.join(root, folder)
        self.program = os.path.join(root, "bench/out", name)
        self.log = os.path.join(root, f"bench/out/build-{name}.log")
        own = lines_in(os.path.join(self.sources, "uses"))
        self.lines = {**lines_in(os.path.join(root, "crates.txt")), **own}
        self.uses = {it: line.partition(":")[2].split() for it, line in self.lines.items()}
        self.crates = below(name, self.uses)

    def crate(self, name: str) -> str:
        """The folder of a crate."""
        return os.path.join(self.root, "crates", name)

    def program_files(self) -> list[str]:
        """The files that the program is built from: its list of libraries, its sources and its
        proofs, and those of the libraries beside the gate."""
        libraries = [os.path.join(self.root, BESIDE[it]) for it in self.crates if it in BESIDE]
        found = [it for folder in (self.sources, *libraries) for it in files_in(folder)]
        own = [it for it in found if os.path.splitext(it)[1] in ENDINGS]
        return [os.path.join(self.sources, "uses"), *own]

    def is_new(self) -> bool:
        """Whether the program is newer than what it is built from and than the libraries."""
        stamps = [f"{self.crate(it)}/out/rlib/stamp" for it in self.crates if it not in BESIDE]
        files = self.program_files() + stamps
        if not all(map(os.path.exists, [self.program, *files])):
            return False
        return os.path.getmtime(self.program) > max(map(os.path.getmtime, files))

    def place_library(self, room: str, name: str) -> None:
        """Copies a library into the room. What is built of it is linked, where both are on one
        device."""
        given, made = self.crate(name), os.path.join(room, "crates", name)
        os.makedirs(os.path.join(made, "out"))
        for part in PARTS:
            paths = [os.path.join(given, part), os.path.join(made, part)]
            if os.path.isdir(paths[0]):
                is_linked = part == "out/rlib" and os.stat(given).st_dev == os.stat(room).st_dev
                subprocess.run(["cp", "-al" if is_linked else "-a", *paths], check=True)

    def make_room(self, room: str) -> str:
        """Fills the room, and returns the program's crate in it. Its empty folder .git makes it a
        repository of its own."""
        os.mkdir(os.path.join(room, ".git"))
        shutil.copy(os.path.join(self.root, "HANDLES"), room)
        with open(os.path.join(room, "crates.txt"), "w", encoding="utf-8") as out:
            out.writelines(f"{self.lines[it]}\n" for it in [*self.crates, self.name])
        for it in self.crates:
            if it in BESIDE:
                place_sources(f"{room}/crates/{it}", os.path.join(self.root, BESIDE[it]))
            else:
                self.place_library(room, it)
        place_sources(f"{room}/crates/{self.name}", self.sources)
        return f"{room}/crates/{self.name}"

    def build_libraries(self, log: IO[str]) -> bool:
        """Proves and builds the libraries which the program does not use. Returns whether all went
        well."""
        of_program = below("sefgulaw_loader", self.uses)
        missing = [it for it in self.crates if it not in of_program and it not in BESIDE]
        words, none = ["rt", "lib"], subprocess.DEVNULL
        return all(run(self.crate(it), log, words, none) for it in missing)

    def build_program(self, crate: str, log: IO[str]) -> bool:
        """Proves the program, builds it, and runs it with its words. Returns whether all went
        well."""
        table = os.path.join(self.sources, "stdin")
        with open(table if os.path.exists(table) else os.devnull, encoding="utf-8") as given:
            return run(crate, log, ["rt", "run", "--", *self.words], given)

    def build(self, log: IO[str]) -> bool:
        """Builds the program, unless it is new. Returns whether all went well."""
        if not self.build_libraries(log):
            return False
        if self.is_new():
            return True
        started = time.time()
        with tempfile.TemporaryDirectory(prefix=f"{self.name}-") as room:
            crate = self.make_room(room)
            if not self.build_program(crate, log):
                return False
            shutil.copy(os.path.join(crate, "out", self.name), self.program)
        # An edit during the build counts as one after it.
        os.utime(self.program, (started, started))
        return True

    def run(self) -> int:
        """Builds the program, and tells why it is not built."""
        os.makedirs(os.path.dirname(self.program), exist_ok=True)
        with open(self.log, "w", encoding="utf-8") as log:
            is_built = self.build(log)
        if is_built:
            return 0
        with open(self.log, errors="replace", encoding="utf-8") as said:
            sys.stderr.writelines(said.readlines()[-MAX_SHOWN:])
        where = os.path.relpath(self.log)
        print(f"{self.name} is not built; all that was said is in {where}", file=sys.stderr)
        return 1


if __name__ == "__main__":
    sys.exit(Build(sys.argv[1] if len(sys.argv) > 1 else "measures").run())
