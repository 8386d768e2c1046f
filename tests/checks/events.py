"""The events of the program, compared with what can be known without them.

- Standard output and the journal are the same with and without events, with 1 and 16 workers.
- A program that is killed after some answers has left at least as many whole events.
- A file that is full, and one that cannot be made, change no answer.
- Over random scripts each line has one event, which says what the command and its answer say. Each
  run of a key but the first has a cause. Each cause is a key that fresh loaders, which are told the
  files of two versions, answer differently. Whether a run changed its value is what such loaders
  say of the version of the run before and its own.
- Ten times as many edits take no more memory, beyond a fifth.
"""

import concurrent.futures
import functools
import json
import os
import tempfile
from collections.abc import Iterator
from typing import Any

from checks.language import all_lines
from checks.limits import MAX_GROWTH, most_memory
from harness import scripts
from harness.commands import Command, find, lines_of_commands, load, put, under
from harness.context import Context
from harness.golden import sessions
from harness.loader import Run
from harness.model import make_change
from harness.report import Report, processors

SCRIPTS = 1_000
KILLED_AFTER = (1, 7, 40)
FEW, MANY = 10_000, 100_000
LEAVES = ("file ", "listing //")

Event = dict[str, Any]


def events_of(context: Context, lines: bytes, *words: str) -> tuple[list[Event], Run]:
    """The events of a serving, and its run."""
    with tempfile.TemporaryDirectory() as room:
        file = f"{room}/events"
        ran = context.loader("run", "--events", file, *words).run(lines)
        with open(file, "rb") as events:
            return [json.loads(it) for it in events.read().splitlines()], ran


def journal_of(events: list[Event]) -> Iterator[str]:
    """The items of events as the program tells its journal."""
    for event in events:
        for run in event.get("runs", []):
            word = "read" if run["key"].startswith(LEAVES) else "run"
            yield f"{word} {event['version']} {run['key']}"


def compare_streams(context: Context, lines: bytes) -> Report:
    """What differs with events, by 1 and by 16 workers."""
    report, plain = Report(), context.loader("run", "--runs").run(lines)
    for count in ("1", "16"):
        events, ran = events_of(context, lines, "--runs", "--workers", count)
        is_same = (ran.written, ran.status) == (plain.written, plain.status)
        report.require(is_same, f"{count} workers: another standard output or status")
        is_same = sorted(ran.said.split(b"\n")) == sorted(plain.said.split(b"\n"))
        report.require(is_same, f"{count} workers: another journal")
        is_same = "\n".join(journal_of(events)) == ran.said.decode().rstrip("\n")
        report.require(is_same, f"{count} workers: other runs in the events")
        numbers = list(range(1, ran.written.count(b"\n") + 1))
        is_same = [it["line"] for it in events] == numbers
        report.require(is_same, f"{count} workers: not one event a line")
        report.compared += len(events)
    return report


def killed_differs(context: Context, lines: list[bytes], count: int) -> str | None:
    """What is wrong with a program that is killed after so many answers, or None."""
    with tempfile.TemporaryDirectory() as room:
        program = context.loader("run", "--events", f"{room}/events").start()
        for line in lines[:count]:
            program.ask(line)
        program.kill()
        with open(f"{room}/events", "rb") as events:
            is_whole = events.read().count(b"\n") >= count
    return None if is_whole else f"killed after {count} answers: fewer events"


def compare_faults(context: Context, lines: bytes) -> Report:
    """A full file, and one that cannot be made."""
    report, plain = Report(2), context.loader("run").run(lines)
    full = context.loader("run", "--events", "/dev/full").run(lines)
    is_right = full == Run(0, plain.written, b"events: write\n")
    report.require(is_right, "a full file changes more than a line of standard error")
    none = context.loader("run", "--events", "/nowhere/events").run(lines)
    is_right = (none.status, none.written) == (2, b"")
    is_right = is_right and none.said.startswith(b"error: /nowhere/events: ")
    report.require(is_right, "a file that cannot be made is not told so")
    return report


class Versions:
    """The files of each version, by the events and the commands alone."""

    def __init__(self, context: Context, commands: list[Command], events: list[Event]) -> None:
        self.context = context
        self.at: dict[int, dict[str, str]] = {0: {}}
        self.value = functools.cache(self._value)
        for command, event in zip(commands, events):
            if "paths" in event:
                files = dict(self.at[event["version"] - 1])
                for change in command.get("edits", [command]):
                    make_change(files, change)
                self.at[event["version"]] = files

    def differ(self, one: int, other: int, key: str) -> bool | None:
        """Whether fresh loaders of two versions answer a key differently, and None where no request
        asks for it."""
        values = [self.value(it, key) for it in (one, other)]
        return None if values[0] is None else values[0] != values[1]

    def _value(self, version: int, key: str) -> object:
        """What a loader that is told these files alone answers about a key, and None where no
        request asks for it: of a module's values, and of what a glob finds, no answer tells all."""
        files = self.at[version]
        kind, _, name = key.partition(" ")
        if kind == "file":
            return [files.get(name)]
        if kind == "listing":
            front = name[2:] + "/" if name[2:] else ""
            below = [it[len(front) :] for it in files if it.startswith(front)]
            return sorted({it.split("/")[0] + "/" * ("/" in it) for it in below})
        asks = {"lookup": find(name[2:]), "package": load(name[2:]), "under": under(name[2:])}
        if kind not in asks:
            return None
        puts = [put(path, text) for path, text in sorted(files.items())]
        ran = self.context.loader("run").run(lines_of_commands([*puts, asks[kind]]))
        answer = json.loads(ran.last())
        return [it["name"] for it in answer["packages"]] if kind == "under" else answer


def wrong_lines(
    commands: list[Command], events: list[Event], answers: list[bytes]
) -> Iterator[str]:
    """What is wrong with events beside their commands and answers, but for their runs."""
    for command, event, line in zip(commands, events, answers):
        what, answer = f"line {event['line']}", json.loads(line)
        if event.get("op") != command["op"]:
            yield f"{what}: another word than its command"
        if any(event.get(it) != answer.get(it) for it in ("refused", "edit")):
            yield f"{what}: another refusal than its answer"
        changes = command.get("edits", [command])
        paths = [it["path"] for it in changes] if "ok" in answer else None
        if event.get("paths") != paths:
            yield f"{what}: other paths than its command"
        if ("runs" in event) != ("ok" not in answer and "refused" not in answer):
            yield f"{what}: runs of no request, or a request without runs"


def wrong_run(
    versions: Versions, run: dict[str, Any], version: int, before: int | None
) -> Iterator[str]:
    """What is wrong with a run whose key ran before at a version, or has not run."""
    key, causes = run["key"], run.get("causes")
    is_leaf = key.startswith(LEAVES)
    if is_leaf and causes != []:
        yield "a leaf has no list of causes, or has causes"
    if not is_leaf and (before is None) != (causes is None):
        yield "causes in a first run, or none in a later one"
    if not is_leaf and before is not None and not causes:
        yield "it ran again without a cause"
    if before is None:
        if not run["changed"]:
            yield "its first run changed nothing"
        return
    if versions.differ(before, version, key) not in (None, run["changed"]):
        yield f"its value has {'not ' * run['changed']}differed"
    between = [it for it in versions.at if before < it <= version]
    for cause in causes or []:
        if all(versions.differ(before, it, cause) is False for it in between):
            yield f"the value of {cause} has not differed"


def wrong_causes(context: Context, number: int) -> list[str]:
    """What is wrong with the events of a random script."""
    commands = scripts.short_script(number)
    events, ran = events_of(context, lines_of_commands(commands))
    if len(events) != ran.written.count(b"\n"):
        return [f"script {number}: not one event a line"]
    wrong = list(wrong_lines(commands, events, ran.lines()))
    versions, last = Versions(context, commands, events), dict[str, int]()
    for event in events:
        for run in event.get("runs", []):
            before = last.get(run["key"])
            found = wrong_run(versions, run, event["version"], before)
            wrong += [f"line {event['line']}: {run['key']}: {it}" for it in found]
            last[run["key"]] = event["version"]
    return [f"script {number}, {it}" for it in wrong]


def compare_memory(context: Context) -> Report:
    """Whether ten times the edits take more memory, though the files and the keys stay as many."""
    report, words = Report(), ("--events", os.devnull)
    few, many = (most_memory(context, it, report, *words) for it in (FEW, MANY))
    sizes = f"memory after {FEW} edits {few} KB, after {MANY} {many} KB"
    report.require(many <= MAX_GROWTH * few, f"{sizes}, which is too much")
    report.note(sizes)
    return report


def run(context: Context) -> Report:
    """Makes all comparisons."""
    given = {session.name: session.given() for session in sessions()}
    some = given["rows.session"].splitlines(keepends=True)[:60]
    report = Report()
    for name, lines in [*given.items(), ("language", all_lines())]:
        found = compare_streams(context, lines)
        report.add(*[f"{name}, {it}" for it in found.wrong], compared=found.compared)
    faults = compare_faults(context, b"".join(some))
    report.add(*faults.wrong, compared=faults.compared)
    for count in KILLED_AFTER:
        report.add(killed_differs(context, some, count), compared=1)
    with concurrent.futures.ThreadPoolExecutor(processors()) as pool:
        for wrong in pool.map(functools.partial(wrong_causes, context), context.numbers(SCRIPTS)):
            report.add(*wrong, compared=1)
    memory = compare_memory(context)
    report.add(*memory.wrong, compared=memory.compared)
    report.notes += memory.notes
    return report
