"""Signatures: no function of the crates takes more than six parameters, the allocator not counted,
no contract has more than ten lines, and no body more than forty.

The table `signatures.txt` has those that do, with what they have at most. A line of it that is not
needed any more is a fault too, so the table only gets shorter.
"""

import os
import re
from collections.abc import Iterator

from style.tree import Tree
from wrong_bodies.edits import FUNCTION, functions

LIMITS = {"parameters": 6, "contract": 10, "body": 40}
TABLE = "tests/style/signatures.txt"
CLAUSE = re.compile(r" *(requires|ensures)\b")
OPEN, CLOSED = "([{<", ")]}>"


def parts_of(text: str) -> list[str]:
    """The parts between the commas of a text that are in no brackets."""
    parts, depth = [""], 0
    for before, letter in zip(" " + text, text):
        depth += letter in OPEN
        depth -= letter in CLOSED and before + letter not in ("->", "=>")
        if letter == "," and depth == 0:
            parts.append("")
        else:
            parts[-1] += letter
    return [part.strip() for part in parts if part.strip()]


def parameters(head: str) -> int:
    """How many parameters the head of a function has, the allocator not counted."""
    name = re.search(r"fn \w+", head)
    rest = head[name.end() :] if name else head
    depth, begun = 0, 0
    for at, letter in enumerate(rest):
        if letter == "(" and depth == 0:
            begun = at + 1
        depth += letter in "([{" or (letter == "<" and begun == 0)
        depth -= letter in ")]}" or (letter == ">" and begun == 0 and rest[at - 1] != "-")
        if letter == ")" and depth == 0:
            return sum(not it.startswith("alloc:") for it in parts_of(rest[begun:at]))
    return 0


def measures(lines: list[str]) -> dict[str, int]:
    """What the lines of a function have, from the line of `fn` to the last one."""
    indent = re.match(r" *", lines[0])
    begins = f"{indent[0] if indent else ''}{{"
    body = next((at for at, it in enumerate(lines) if it in (begins, f"{begins}}}")), len(lines))
    clause = next((at for at, it in enumerate(lines[:body]) if CLAUSE.match(it)), body)
    if clause == len(lines):
        begun = next((at for at, it in enumerate(lines) if it.endswith("{")), len(lines) - 1)
        return {
            "parameters": parameters(" ".join(lines[: begun + 1])),
            "contract": 0,
            "body": len(lines) - begun - 1,
        }
    return {
        "parameters": parameters(" ".join(lines[:clause])),
        "contract": body - clause,
        "body": len(lines) - body - 1,
    }


def found_in(tree: Tree) -> Iterator[tuple[str, str, int, int]]:
    """What is over a limit: what it is, the function, how many it has, and the line."""
    for path, text in tree.matching(".rt", below="crates/"):
        lines = text.split("\n")
        for function in functions(path, text):
            whole = range(function.first - 1, function.last)
            at = next(it for it in whole if FUNCTION.match(lines[it]))
            owner = f"{function.id.owner}::" if function.id.owner else ""
            name = f"{path.removeprefix('crates/')} {owner}{function.id.name}".replace(" for ", "/")
            for what, count in measures(lines[at : function.last]).items():
                if count > LIMITS[what]:
                    yield what, name, count, at + 1


def table_of(tree: Tree) -> dict[tuple[str, str], int]:
    """What each function of the table may have."""
    found = {}
    with open(os.path.join(tree.root, TABLE), encoding="utf-8") as file:
        for line in file:
            if not line.startswith("#"):
                what, most, name = line.strip().split(" ", 2)
                found[what, name] = int(most)
    return found


def check(tree: Tree) -> Iterator[str]:
    """What is over a limit and not in the table, and the lines of the table that are idle."""
    known = table_of(tree)
    idle = dict(known)
    for what, name, count, line in found_in(tree):
        idle.pop((what, name), None)
        most = known.get((what, name), LIMITS[what])
        path, function = name.split(" ", 1)
        if count > most:
            yield f"crates/{path}:{line}: {function}: {what} of {count}, of at most {most}"
    for what, name in idle:
        yield f"{TABLE}:1: an idle line: {what} {name}"
