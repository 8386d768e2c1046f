"""What a session tells of changes, compared with what fresh answers tell. `make sessions` builds
the program.

Random scripts of edits are made of a session, with requests between them, some of which stop for
want of turns. After some edits all packages are loaded, so that their texts at that version are
known. Later the session is asked which packages have changed since such a version, before and after
it loads them again. Each package whose text differs has to be among the changed ones or those of
which nothing is held, and after the load none is of the latter. Of the changed ones at least four
fifths have to differ: the others changed, and changed back.
"""

import concurrent.futures
import json
import os
import random

from harness.commands import load, text_of
from harness.context import Context, path_of
from harness.loader import Loader
from harness.report import Report
from harness.scripts import DIRECTORIES, Maker

PROGRAM = "bench/out/sessions"
SCRIPTS = 1_000
BUDGET = 1_000_000
NAMES = sorted(set(DIRECTORIES))
LOAD_ALL = text_of(load(*NAMES))
LEAST_SHARE = 0.8

# A line with what it is: `new`, an edit or request, a load of all, or a question of changes.
Lines = list[tuple[str, str]]
# The text of each package at a version.
Loaded = tuple[dict[str, str], int]
# The place of a question, the texts then and now, and whether all packages were loaded since the
# last edit.
Question = tuple[int, dict[str, str], dict[str, str], bool]


def script_of(number: int) -> tuple[random.Random, Lines]:
    """The lines of a random script, and the generator that made them."""
    maker = Maker(number)
    chance = maker.chance
    lines = [("new", "new 0")]
    for _ in range(chance.randint(10, 40)):
        made = maker.batch() if chance.random() < 0.2 else maker.command()
        turns = 1 if chance.random() < 0.2 else BUDGET
        lines.append(("other", f"{turns} {text_of(made)}"))
        if chance.random() < 0.6:
            lines += [("since", ""), ("load", f"{BUDGET} {LOAD_ALL}"), ("since", "")]
    return chance, lines


def packages_of(answer: str) -> Loaded:
    """The text of each package of an answer to a load of all, and the version."""
    text, _, rest = answer.partition(", items: ")
    packages = zip(NAMES, json.loads(text)["packages"], strict=True)
    texts = {name: json.dumps(package, sort_keys=True) for name, package in packages}
    return texts, int(rest.rpartition("version: ")[2])


def changes_of(answer: str) -> tuple[set[str], set[str]]:
    """The changed names of an answer, and those of which nothing is held."""
    changed, _, unknown = answer.removeprefix("changed:").partition(", unknown:")
    first, second = ({name.removeprefix("//") for name in it.split()} for it in (changed, unknown))
    return first, second


def served(lines: list[str]) -> list[str]:
    """The answers of the program. The line `new` has none."""
    ran = Loader(path_of(PROGRAM)).run(("\n".join(lines) + "\n").encode())
    if ran.status:
        raise ValueError(f"status {ran.status}, said {ran.said[-200:]!r}")
    return ran.written.decode().splitlines()


def loads_of(lines: Lines) -> list[Loaded]:
    """What each load of all tells, when nothing is asked of changes."""
    asked = [(kind, line) for kind, line in lines if kind != "since"]
    answers = zip(asked[1:], served([line for _, line in asked]), strict=True)
    return [packages_of(answer) for (kind, _), answer in answers if kind == "load"]


def with_questions(
    chance: random.Random, lines: Lines, loads: list[Loaded]
) -> tuple[list[str], list[Question]]:
    """The lines with the questions filled in, and the questions."""
    asked: list[str] = []
    questions: list[Question] = []
    passed, last = 0, ""
    for kind, line in lines:
        if kind == "since" and passed:
            then, version = chance.choice(loads[:passed])
            now, _ = loads[passed - 1 if last == "load" else passed]
            questions.append((len(asked) - 1, then, now, last == "load"))
            asked.append(f"since {version} {' '.join(NAMES)}")
        elif kind != "since":
            asked.append(line)
            passed += kind == "load"
        last = kind
    return asked, questions


def compare(number: int) -> tuple[str | None, int, int, int]:
    """What is wrong with the answers to a random script, or None; how many questions were compared,
    how many packages were told as changed, and how many of these differ."""
    chance, lines = script_of(number)
    asked, questions = with_questions(chance, lines, loads_of(lines))
    answers, told, differing = served(asked), 0, 0
    for place, then, now, is_loaded in questions:
        changed, unknown = changes_of(answers[place])
        differ = {name for name in NAMES if then[name] != now[name]}
        if not differ <= changed | unknown or is_loaded and unknown:
            what = f"{sorted(differ)} differ, and the answer is {answers[place]}"
            return f"random script {number}, line {place + 2}: {what}", 0, 0, 0
        if is_loaded:
            told, differing = told + len(changed), differing + len(changed & differ)
    return None, len(questions), told, differing


def run(context: Context) -> Report:
    """Compares all scripts."""
    report, told, differing = Report(), 0, 0
    with concurrent.futures.ThreadPoolExecutor(os.cpu_count()) as pool:
        for wrong, count, more, same in pool.map(compare, context.numbers(SCRIPTS)):
            report.add(wrong, compared=count)
            told, differing = told + more, differing + same
    share = differing / max(1, told)
    report.require(share >= LEAST_SHARE, f"{share:.0%} of the changed packages differ")
    report.note(f"{told} changed packages told, of which {share:.0%} differ")
    return report
