"""A long life: a program is told edits for long, and asked a load after each. The memory after all
edits may be 1.2 times the memory after a tenth of them. `--edits N` says how many there are."""

import json
import time

from harness.commands import Command, delete, line_of, load, put
from harness.context import Context
from harness.model import Answer
from harness.report import Report

# How many times the memory after a tenth of a long life that after all of it may be.
MAX_GROWTH = 1.2
LEAST_EDITS = 100


class Life:
    """A program of 997 packages that is told edits and asked loads, and what its files are by a
    plain model.

    Each package has some of eleven files. All are there and loaded at first, so that later edits
    make the tree no larger.
    """

    PACKAGES, FILES = 997, 11

    def __init__(self, context: Context) -> None:
        self.program = context.loader("run").start()
        self.report = Report()
        self.version, self.removed = 0, 0
        self.rules: dict[int, int] = {}
        self.files: dict[int, set[str]] = {}
        for number in range(self.PACKAGES):
            self.files[number] = {f"f{file}.c" for file in range(self.FILES)}
            self.set_rule(number, 0)
            for file in sorted(self.files[number]):
                self.change(put(f"p{number}/{file}", ""))
            self.ask_package(number)

    def ask(self, line: Command, wanted: Answer) -> None:
        """Compares the answer to a line."""
        answer = self.program.ask(line_of(line))
        is_right = json.loads(answer or b"null") == wanted
        asked = f"{json.dumps(line)} is answered {answer[:200]!r}, not {json.dumps(wanted)}"
        self.report.add(None if is_right else asked, compared=1)

    def change(self, line: Command) -> None:
        """Makes an edit."""
        self.version += 1
        self.ask(line, {"ok": self.version})

    def set_rule(self, number: int, rule: int) -> None:
        """Gives a package a rule."""
        self.rules[number] = rule
        text = f'filegroup(name = "t{rule}", srcs = glob(["*.c"]))\n'
        self.change(put(f"p{number}/BUILD", text))

    def edit(self, turn: int) -> None:
        """Sets the rule of a package, sets one of its files, or removes one that is there."""
        number = turn * 7919 % self.PACKAGES
        file = f"f{turn // 6 % self.FILES}.c"
        if turn % 3:
            self.set_rule(number, turn % 5)
        elif turn % 2 or file not in self.files[number]:
            self.files[number].add(file)
            self.change(put(f"p{number}/{file}", ""))
        else:
            self.files[number].remove(file)
            self.removed += 1
            self.change(delete(f"p{number}/{file}"))
        self.ask_package(number)

    def ask_package(self, number: int) -> None:
        """Compares a package."""
        sources = [f"//p{number}:{name}" for name in sorted(self.files[number])]
        name = f"t{self.rules[number]}"
        target = {"attrs": {"srcs": sources}, "kind": "filegroup", "name": name}
        self.ask(load(f"p{number}"), {"packages": [{"name": f"p{number}", "targets": [target]}]})


def run(context: Context) -> Report:
    """Tells all edits, and compares the memory."""
    life, begun, first = Life(context), time.perf_counter(), 0
    report, edits = life.report, max(context.edits, LEAST_EDITS)
    for turn in range(1, edits + 1):
        life.edit(turn)
        if turn == edits // 10:
            first = life.program.memory("VmRSS")
    last, took = life.program.memory("VmRSS"), time.perf_counter() - begun
    status = life.program.end().status
    report.require(status == 0, f"status {status}")
    report.require(life.removed > 0, "no edit removed a file")
    sizes = f"{first / 1024:.1f} MB after a tenth of {edits} edits, {last / 1024:.1f} MB after all"
    report.require(last <= MAX_GROWTH * first, f"{sizes}, which is too much")
    report.note(f"{sizes}, {life.removed} removals, {took:.0f} s")
    return report
