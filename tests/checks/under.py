"""`under` and globs with directories, over random trees, compared with plain models of them.

After each edit of a small tree `under` is asked of a directory, and `load` of the packages that a
plain model of the files finds there. Both have to answer what the model says. So has a program that
begins with these files. The tags of the packages are globs, most of them with directories.
"""

import concurrent.futures
import json
import random
from collections.abc import Mapping
from typing import Any

from harness.commands import Command, delete, edit, lines_of_commands, load, put, text_of, under
from harness.context import Context
from harness.model import Answer, Files, above, build_file, globbed, make_change, packages_at
from harness.model import path_in, refusal
from harness.report import Report, processors

TREES = 2_000
NAMES = ["a", "b", "a-b", "a.b", "a0", "A", "_"]
WILD = ["*"] * 4 + ["**"] * 4 + ["a*", "*b", "*.*", "*-*", "x"]
FAULTY = "x = y\n"
COUNTED = ["edits", "requests", "packages", "directories"]

Call = dict[str, Any]
Calls = dict[str, list[Call]]
Lines = list[tuple[Command, Answer]]
State = tuple[dict[str, str], str, Answer]


class Maker:
    """Makes the edits of a script by its choices. `calls` has the calls of `glob` by the text of a
    build file."""

    def __init__(self, number: int) -> None:
        self.chance = random.Random(f"under {number}")
        self.names = self.chance.sample(NAMES, 3)
        self.calls: Calls = {"": []}

    def directory(self, depth: int) -> str:
        """A directory of this depth."""
        names = self.names + ["BUILD"] * (self.chance.random() < 0.03)
        return "/".join(self.chance.choice(names) for _ in range(depth))

    def pattern(self) -> str:
        """A pattern of some segments."""
        segments = WILD + self.names + [name + "*" for name in self.names]
        count = self.chance.choice([1, 1, 2, 2, 3])
        return "/".join(self.chance.choice(segments) for _ in range(count))

    def patterns(self, least: int, most: int) -> list[str]:
        """Some patterns."""
        return [self.pattern() for _ in range(self.chance.randint(least, most))]

    def call(self) -> Call:
        """A call of `glob`."""
        excludes = self.patterns(0, 1) + ["BUILD*"] * (self.chance.random() < 0.3)
        includes = self.patterns(1, 3)
        directories = self.chance.random() < 0.8
        return {"include": includes, "exclude": excludes, "directories": directories}

    def build_text(self) -> str:
        """The text of a build file."""
        if self.chance.random() < 0.05:
            return FAULTY
        made = [self.call() for _ in range(self.chance.choice([0, 1, 1, 1, 2]))]
        if made and self.chance.random() < 0.2:
            made.append({**made[0], "directories": not made[0]["directories"]})
        tags = " + ".join(map(call_text, made))
        text = f'filegroup(name = "g", tags = {tags})\n' if made else ""
        self.calls[text] = made
        return text

    def change(self, files: Mapping[str, str]) -> Command:
        """A change, most of the time one that may be made."""
        if files and self.chance.random() < 0.3:
            return delete(self.chance.choice(sorted(files)))
        if self.chance.random() < 0.3:
            directory = self.directory(self.chance.choice([0, 1, 1, 2, 3]))
            name = self.chance.choice(["BUILD", "BUILD", "BUILD.bazel"])
            return put(path_in(directory, name), self.build_text())
        directory = self.directory(self.chance.choice([0, 1, 2, 2, 3, 3, 4]))
        return put(path_in(directory, self.chance.choice(["x", "y.c", *self.names])), "")

    def edit(self, files: Mapping[str, str]) -> Command:
        """A change, or several in a batch."""
        changes = [self.change(files) for _ in range(self.chance.choice([1, 1, 1, 2, 4]))]
        return changes[0] if len(changes) == 1 else edit(changes)

    def first_edit(self) -> Command:
        """A batch that can be made: the changes of a random list that are not refused."""
        files: dict[str, str] = {}
        changes = []
        for _ in range(self.chance.randint(4, 30)):
            change = self.change({})
            if not refusal(files, change):
                make_change(files, change)
                changes.append(change)
        return edit(changes)

    def asked(self, files: Mapping[str, str]) -> str:
        """A directory to ask about, most of the time one that is there."""
        there = sorted({way for path in files for way in above(path)})
        if there and self.chance.random() < 0.5:
            return self.chance.choice(there)
        return self.directory(self.chance.choice([0, 0, 1, 1, 2]))


def call_text(call: Call) -> str:
    """The text of a call of `glob`."""
    last = ", exclude_directories = 0" if call["directories"] else ""
    lists = f"{json.dumps(call['include'])}, exclude = {json.dumps(call['exclude'])}"
    return f"glob({lists}{last})"


def shown(files: Mapping[str, str], name: str, calls: Calls) -> Answer:
    """A package as it is answered."""
    path = build_file(files, name)
    assert path
    if files[path] == FAULTY:
        return {"fault": {"code": 4, "line": 1, "path": path}, "name": name}
    if not calls[files[path]]:
        return {"name": name, "targets": []}
    tags = [found for call in calls[files[path]] for found in globbed(files, name, call)]
    return {"name": name, "targets": [{"attrs": {"tags": tags}, "kind": "filegroup", "name": "g"}]}


def script_of(number: int) -> tuple[Lines, list[State], dict[str, int]]:
    """The lines of a script with their answers, the files and the answer at each `under`, and what
    was counted."""
    maker, files = Maker(number), Files()
    lines: Lines = []
    states: list[State] = []
    counts = dict.fromkeys(COUNTED, 0)
    for step in range(maker.chance.randint(4, 12)):
        made = maker.edit(files.texts) if step else maker.first_edit()
        wanted, changes = files.edit(made)
        asked = maker.asked(files.texts)
        names = packages_at(files.texts, asked)
        answer = {"packages": [shown(files.texts, name, maker.calls) for name in names]}
        both: Lines = [(under(asked), answer)]
        both += [(load(*names), answer)] if names else []
        is_in_order = maker.chance.random() < 0.6
        lines += [(made, wanted), *(both if is_in_order else both[::-1])]
        states.append((files.texts, asked, answer))
        count(counts, files.texts, answer, bool(changes))
    return lines, states, counts


def count(
    counts: dict[str, int], files: Mapping[str, str], answer: Answer, is_accepted: bool
) -> None:
    """Counts an edit, its request and what the request finds."""
    counts["edits"] += is_accepted
    counts["requests"] += 1
    for package in answer["packages"]:
        targets = package.get("targets", [])
        tags = [tag for target in targets for tag in target["attrs"]["tags"]]
        counts["packages"] += 1
        counts["directories"] += sum(path_in(package["name"], tag) not in files for tag in tags)


def wrong_answers(context: Context, lines: Lines, workers: int) -> str | None:
    """The first line whose answer is another one, as a text, or None."""
    ran = context.serving(workers).run(lines_of_commands(line for line, _ in lines))
    answers = [it.decode() for it in ran.lines()]
    for at, ((line, wanted), answer) in enumerate(zip(lines, answers), 1):
        right = text_of(wanted, sort_keys=True)
        if answer != right:
            asked = text_of(line)[:300]
            return f"line {at}, {asked}, is answered {answer[:300]}, not {right[:300]}"
    if ran.status or len(answers) != len(lines):
        return f"status {ran.status}, {len(answers)} answers to {len(lines)} lines"
    return None


def from_nothing(state: State) -> Lines:
    """The same request of a program that is told these files at once."""
    files, asked, answer = state
    puts = [put(path, text) for path, text in files.items()]
    first: Lines = [(edit(puts), {"ok": 1})] if puts else []
    return [*first, (under(asked), answer)]


def compare(context: Context, number: int) -> tuple[str | None, dict[str, int]]:
    """What is wrong with a script, or None, and the counts of what was compared."""
    lines, states, counts = script_of(number)
    wrong = wrong_answers(context, lines, random.Random(number).choice([1, 4]))
    for state in [] if wrong else states:
        wrong = wrong or wrong_answers(context, from_nothing(state), 1)
    return f"script {number}: {wrong}" if wrong else None, counts


def run(context: Context) -> Report:
    """Compares all trees."""
    numbers = context.numbers(TREES)
    report, counts = Report(), dict.fromkeys(COUNTED, 0)
    with concurrent.futures.ThreadPoolExecutor(processors()) as pool:
        for wrong, more in pool.map(lambda number: compare(context, number), numbers):
            report.add(wrong, compared=1)
            counts = {name: counts[name] + more[name] for name in COUNTED}
    for name in COUNTED:
        report.require(counts[name] > 0, f"no {name}")
        report.note(f"{counts[name]} {name}")
    return report
