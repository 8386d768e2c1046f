"""Sizes: no crate of over 1,500 lines of code, no file of over 800 lines and no function of over
60; of the client and of the scripts of tests no module of over 400 lines.

Fields that the layout puts on lines of their own do not count for a function.
"""

import ast
import re
from collections.abc import Iterator

from style.tree import Tree
from wrong_bodies.edits import FUNCTION, functions

MAX_CRATE = 1_500
MAX_LINES = 800
MAX_MODULE = 400
MAX_FUNCTION = 60
# The folders whose modules are held to the limit of a module.
MODULES = ("clients/", "tests/harness/", "tests/checks/", "tests/style/", "tests/wrong_bodies/")
# The folders whose functions of Python are held to the limit of a function.
TYPED = (*MODULES, "tests/run.py")
ENDINGS = (".rt", ".antt", ".py", ".proof", ".rattle", ".md", ".star")

# The functions that are longer, and how long they may be.
LONG = {
    ("crates/evaluator_frames/src/handing.rt", "deliver_value"): 80,
}

# The crates that are larger, and how many lines of code they may have.
LARGE = {"evaluator_frames": 3_400}

# The lines of a source that are no code: imports, comments and empty lines.
NO_CODE = re.compile(r"(?ms)^ *(?:pub )?(?:ghost )?use [^;]*;\n|^ *//[^\n]*\n|^ *\n")

FIELD = re.compile(r"\s*(\.\.|\w+(: \w+)?,)")


def check_length(path: str, text: str) -> Iterator[str]:
    """The fault of a file that is too long."""
    count = text.count("\n")
    if count > (MAX_MODULE if path.startswith(MODULES) else MAX_LINES):
        yield f"{path}:1: {count} lines"


def check_python(path: str, text: str) -> Iterator[str]:
    """The functions of a module that are too long, from the first decorator or `def` to the last
    line."""
    for at in ast.walk(ast.parse(text, path)):
        if isinstance(at, (ast.FunctionDef, ast.AsyncFunctionDef)):
            begun = min([at.lineno] + [it.lineno for it in at.decorator_list])
            count = (at.end_lineno or at.lineno) - begun + 1
            if count > MAX_FUNCTION:
                yield f"{path}:{begun}: {at.name} has {count} lines"


def check_functions(path: str, text: str) -> Iterator[str]:
    """The functions of a source that are too long, from the line of `fn` to the last line."""
    lines = text.split("\n")
    for function in functions(path, text):
        whole = range(function.first - 1, function.last)
        at = next(it for it in whole if FUNCTION.match(lines[it]))
        part, name = lines[at : function.last], function.id.name
        count = len(part) - sum(1 for line in part if FIELD.fullmatch(line))
        if count > LONG.get((path, name), MAX_FUNCTION):
            yield f"{path}:{at + 1}: {name} has {count} lines"


def check_crates(tree: Tree) -> Iterator[str]:
    """The crates that have too many lines of code."""
    counts: dict[str, int] = {}
    for path, text in tree.matching(".rt", below="crates/"):
        name = path.split("/")[1]
        counts[name] = counts.get(name, 0) + NO_CODE.sub("", text).count("\n")
    for name, count in counts.items():
        if count > LARGE.get(name, MAX_CRATE):
            yield f"crates/{name}/src/lib.rt:1: {count} lines of code in the crate"


def check(tree: Tree) -> Iterator[str]:
    """The crates, files and functions that are too long."""
    yield from check_crates(tree)
    for path, text in tree.matching(*ENDINGS):
        yield from check_length(path, text)
        if path.startswith(TYPED) and path.endswith(".py"):
            yield from check_python(path, text)
        if path.endswith((".rt", ".rattle")):
            yield from check_functions(path, text)
