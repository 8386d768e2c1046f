"""Batches of edits and the same edits one by one, over random scripts.

Each edit has to be answered as a plain map of files answers it. Then the script is served again,
with the changes of each accepted batch as lines of their own, and without the refused ones. The
requests have to be answered alike.
"""

import concurrent.futures
import json
import random

from harness import scripts
from harness.commands import Command, lines_of_commands, text_of
from harness.context import Context
from harness.model import Files
from harness.report import Report, processors

SCRIPTS = 10_000
EDITS = ("put", "del", "edit")


def served(context: Context, lines: list[Command], workers: int) -> tuple[int | str, list[str]]:
    """The status and the answers of a program that is told these commands."""
    ran = context.serving(workers).run(lines_of_commands(lines))
    return ran.status, [it.decode() for it in ran.lines()]


def compare(context: Context, number: int) -> tuple[str | None, int, int]:
    """What is wrong with a script, or None, and how many batches were accepted and refused."""
    lines = scripts.script_of_batches(number)
    status, answers = served(context, lines, random.Random(number).choice([1, 4]))
    if status or len(answers) != len(lines):
        return f"script {number}: status {status}, {len(answers)} answers", 0, 0
    files, accepted, refused = Files(), 0, 0
    single: list[Command] = []
    asked: list[str] = []
    for line, answer in zip(lines, answers):
        if line["op"] not in EDITS:
            single.append(line)
            asked.append(answer)
            continue
        wanted, changes = files.edit(line)
        if answer != text_of(wanted):
            short = json.dumps(line)[:200]
            return f"script {number}: {short} is answered {answer}, not {wanted}", 0, 0
        single += changes
        accepted += line["op"] == "edit" and bool(changes)
        refused += line["op"] == "edit" and not changes
    status, again = served(context, single, 1)
    others = [answer for line, answer in zip(single, again) if line["op"] not in EDITS]
    if status or others != asked:
        where = "where the edits are made one by one"
        return f"script {number}: the requests are answered otherwise {where}", 0, 0
    return None, accepted, refused


def run(context: Context) -> Report:
    """Compares all scripts."""
    numbers = context.numbers(SCRIPTS)
    report, accepted, refused = Report(), 0, 0
    with concurrent.futures.ThreadPoolExecutor(processors()) as pool:
        for wrong, more, fewer in pool.map(lambda number: compare(context, number), numbers):
            report.add(wrong, compared=1)
            accepted, refused = accepted + more, refused + fewer
    report.require(accepted > 0, "no batch was accepted")
    report.require(refused > 0, "no batch was refused")
    report.note(f"{accepted} batches accepted and {refused} refused")
    return report
