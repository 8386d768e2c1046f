"""Garbage: nothing that an evaluation still needs is freed.

An evaluation that holds 8 MiB looks for values that nothing reaches, and frees them. Here each kind
of expression and statement holds a new value while a call makes more lists than that. A value that
went missing would stop the program with `stop: memory`. So would one file that makes more than an
evaluation may hold, if nothing were freed. The same file with a call that makes nothing has to be
answered alike.
"""

import functools

from harness.commands import lines_of_commands, load, module, put
from harness.context import Context
from harness.report import Report, compare_each

# c(v) is v, after lists of 40 MiB and as many tuples as are in some hundred pages of the heap. Each
# call of s makes another string.
MAKES = (
    "def c(v):\n    for i in range(40):\n        x = [0] * 65536\n"
    "        y = enumerate(range(2600))\n    return v\n"
)
MAKES_NONE = "def c(v):\n    return v\n"
SHARED = """def s(v):
    return v + "-" + str(len(v))
def pair(a, b = None):
    return [a, b]
def both(a, b):
    return a + b
"""

# Statements of a function body that ends with `return` of what is compared.
CASES = {
    "members of a list": "return [s('a'), c(s('b')), s('d')]",
    "members of a tuple": "return (s('a'), c(s('b')), [s('d')])",
    "arguments": "return pair(s('a'), c(s('b')))",
    "an argument by name": "return pair(s('a'), b = c([s('b')]))",
    "keys and values": "return {s('a'): s('b'), s('k'): c(s('v')), c(s('x')): s('y')}",
    "the left of an operator": "return s('a') + c(s('b'))",
    "the left of a comparison": (
        "return [s('a') == c(s('a')), s('a') < c(s('b')), s('a') in c([s('a')])]"
    ),
    "the left of and, or": "return [s('a') and c(s('b')), '' or c(s('d'))]",
    "a condition": "return s('a') if c(s('x')) else s('b')",
    "what is indexed": "return [s('a'), s('b')][c(1)]",
    "an index": "return {s('a'): s('b')}[c(s('a'))]",
    "what is sliced": "return [s('a'), s('b'), s('d')][c(1):]",
    "bounds": "return [s('a'), s('b'), s('d'), s('e')][c(1):c(3)]",
    "a receiver": "return s('a-b').split(c('-'))",
    "a receiver of join": "return s('-').join(c([s('a'), s('b')]))",
    "an operand of not and minus": "return [not c(s('a')), -c(3)]",
    "a container that is assigned to": "x = [s('a'), s('b')]\nx[c(0)] = s('d')\nreturn x",
    "a value that is assigned": "x = [s('a')]\nx[c(0)] = [s('d')]\nreturn x",
    "several targets": "x = {}\n(x[c('a')], x[c('b')]) = (s('p'), c(s('q')))\nreturn x",
    "a target of several": (
        "x = [0, 0]\n" "y = {}\n" "(x[c(0)], y[c(s('k'))]) = [s('p'), s('q')]\n" "return [x, y]"
    ),
    "an augmented assignment": "x = [s('a')]\nx += c([s('b')])\nreturn x",
    "an augmented member": "x = {s('k'): [s('a')]}\nx[s('k')] += c([s('b')])\nreturn x",
    "an augmented string": "x = s('a')\nx += c(s('b'))\nreturn x",
    "a local": "x = s('a')\nc(0)\nreturn x",
    "a local of a caller": "x = [s('a')]\ny = both(x, c([s('b')]))\nreturn [x, y]",
    "a value that is left": "x = s('a')\nc(s('b'))\nreturn x",
    "branches": (
        "x = s('a')\n"
        "if c([]):\n"
        "    return s('b')\n"
        "elif c(x):\n"
        "    return [x, s('d')]\n"
        "else:\n"
        "    return s('e')"
    ),
    "what a loop goes over": (
        "x = []\n"
        "for y in [s('a'), s('b'), s('d')]:\n"
        "    c(0)\n"
        "    x.append(y)\n"
        "return x"
    ),
    "a loop over a dictionary": (
        "x = []\n" "for k in {s('a'): s('b'), s('d'): s('e')}:\n" "    x.append(c(k))\n" "return x"
    ),
    "a loop within a loop": (
        "x = []\n"
        "for y in [[s('a')], [s('b'), s('d')]]:\n"
        "    for z in y:\n"
        "        x.append([y, c(z)])\n"
        "return x"
    ),
    "targets of a loop": (
        "x = []\n"
        "for (k, v) in [(s('a'), s('b')), (s('d'), s('e'))]:\n"
        "    x += [v, c(k)]\n"
        "return x"
    ),
    "a target of a loop": "x = {}\nfor x[c('k')] in [s('a'), s('b')]:\n    pass\nreturn x",
    "a comprehension": "return [c(y) for y in [s('a'), s('b')]]",
    "what a comprehension goes over": "return [[y, s('z')] for y in c([s('a'), s('b')])]",
    "a condition of a comprehension": "return [y for y in [s('a'), s('b')] if c(y)]",
    "clauses of a comprehension": (
        "return [[y, z] for y in [s('a'), s('b')] for z in [c(y), s('d')] if c(z)]"
    ),
    "keys of a comprehension": "return {c(y): s('v') for y in [s('a'), s('b')]}",
    "values of a comprehension": "return {y: c([y]) for y in [s('a'), s('b')]}",
    "targets of a comprehension": (
        "return [c(k) + v for (k, v) in [(s('a'), s('b')), (s('d'), s('e'))]]"
    ),
    "a comprehension in a comprehension": (
        "return [[c(z) for z in y] for y in [[s('a')], [s('b'), s('d')]]]"
    ),
    "values within values": "x = {s('k'): ([s('a')], {s('b'): (s('d'),)})}\nc(0)\nreturn x",
    "a sorted list": "x = [s('b'), s('a')]\nreturn [sorted(c(x)), x]",
    "a list that is appended to": (
        "x = [s('a')]\n" "x.append(c(s('b')))\n" "x.extend(c([s('d')]))\n" "return x"
    ),
    "a list that holds itself no more": "x = [s('a')]\ny = [x]\nx = c(y)\nreturn x",
    "an argument of a builtin function": (
        "return [str(c([s('a')])), len(c(s('b'))), list(c((s('d'),)))]"
    ),
    "two after another": "x = s('a')\nc(0)\ny = s('b')\nc(0)\nreturn [x, y, c(s('d'))]",
    "what a call gives": "return pair(c(s('a')), pair(s('b'), c(s('d'))))",
    "more than the limit in all": "x = [c(s(str(i))) for i in range(8)]\nreturn x",
    "a returned value": "return c([s('a'), {s('b'): s('d')}])",
    "a string that is true": (
        "x = [y for y in [s('a'), ''] if y]\n" "c(0)\n" "return [bool(y) for y in x]"
    ),
    "the least and the greatest": "return [min(s('b'), c(s('a'))), max([s('a'), c(s('b'))])]",
}

# Statements of a file, which end with values of `r`.
FILES = {
    "globals": "a = s('a')\nc(0)\nr = [a, s('b')]\n",
    "a default": "def f(x = c([s('a')]), y = c(s('b'))):\n    return [x, y]\nc(0)\nr = f()\n",
    "a default that is made before": (
        "def f(x = s('a'), y = c(s('b'))):\n" "    return [x, y]\n" "r = [f(), f(c(s('d')))]\n"
    ),
    "loaded values": (
        "load(':given.bzl', 'GIVEN', 'give')\n" "a = GIVEN\n" "c(0)\n" "r = [a, give(), c(GIVEN)]\n"
    ),
    "loaded values once more": (
        "load(':given.bzl', other = 'GIVEN')\n" "r = [x for x in other if c(x)]\n"
    ),
}
GIVEN = "GIVEN = ['a' + 'b', {'k' + 'l': ('v' + 'w',)}]\ndef give(x = ['p' + 'q']):\n    return x\n"


def texts(makes: str) -> dict[str, str]:
    """The text of each file, by its name."""
    found = {}
    for number, (name, body) in enumerate(CASES.items()):
        lines = "".join(f"    {line}\n" for line in body.split("\n"))
        found[name] = f"{makes}{SHARED}def f{number}():\n{lines}r = f{number}()\n"
    for name, body in FILES.items():
        loads = [line for line in body.split("\n") if line.startswith("load(")]
        rest = [line for line in body.split("\n") if not line.startswith("load(")]
        first = "".join(f"{line}\n" for line in loads)
        found[name] = first + makes + SHARED + "\n".join(rest)
    return found


BUILD = "load(':m.bzl', 'r')\nfilegroup(name = str(type(r)), tags = [repr(r)])\n"


def answered(context: Context, text: str, of_package: bool) -> tuple[int | str, str, str]:
    """The status and the last answer of the program, asked for what a file leaves, or for the
    package that loads it."""
    ask = load("p") if of_package else module("//p:m.bzl")
    puts = [put("p/BUILD", BUILD), put("p/given.bzl", GIVEN), put("p/m.bzl", text)]
    ran = context.loader("run").run(lines_of_commands([*puts, ask]))
    return ran.status, ran.last().decode(), ran.said.decode().strip()


def case_differs(context: Context, case: tuple[str, str, str, bool]) -> str | None:
    """What is wrong with a case, or None. A fault would say nothing of the values."""
    name, text, plain, of_package = case
    wanted, found = (answered(context, it, of_package) for it in (plain, text))
    if wanted[0] or '"fault"' in wanted[1] or '"refused"' in wanted[1]:
        return f"{name}: the file is not as it should be: {wanted}"
    return None if found == wanted else f"{name}: {found} where {wanted} was expected"


def run(context: Context) -> Report:
    """Compares each case, by its module and by the package that loads it."""
    plain = texts(MAKES_NONE)
    cases = [
        (name, text, plain[name], of_package)
        for name, text in texts(MAKES).items()
        for of_package in (False, True)
    ]
    return compare_each(functools.partial(case_differs, context), cases)
