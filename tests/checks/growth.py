"""The growth of costs: each kind of line at two sizes, of which twice the size may take at most 2.5
times as long. `--only TEXT` takes the kinds that have this text in their names."""

from collections.abc import Callable

from harness.commands import Command, delete, edit, lines_of_commands, load, module, put
from harness.context import Context
from harness.report import Report

# Twice the size takes less than so many times as long.
MAX_RATIO = 2.5
# A shorter time tells nothing of growth, in seconds.
LEAST_TIME = 0.05
# The least of so many runs counts.
RUNS = 3
EMPTY = '{"packages":[{"name":"s","targets":[]}]}'
WRONG_ARGUMENTS = '{"fault":{"code":25,"line":2,"path":"s/m.bzl"}}'


def listed(count: int, form: str) -> str:
    """So many numbers in a form, with commas between them."""
    return ", ".join(form.format(number) for number in range(count))


def of_module(text: str) -> list[Command]:
    """A module with this text, which is asked for its exports."""
    return [put("s/BUILD", ""), put("s/m.bzl", text), module("//s:m.bzl")]


def arguments_by_name(count: int) -> list[Command]:
    """A function of so many parameters, called with all of them by name."""
    return of_module(f"def f({listed(count, 'p{}')}): pass\nf({listed(count, 'p{}=0')})\n")


def unknown_names(count: int) -> list[Command]:
    """A function without parameters, called with so many arguments by name."""
    return of_module(f"def f(): pass\nf({listed(count, 'p{}=0')})\n")


def defaults(count: int) -> list[Command]:
    """A function of so many defaults, called a thousand times."""
    calls = "def g():\n    for i in range(1000): f()\ng()\n"
    return of_module(f"def f({listed(count, 'p{}=0')}): pass\n{calls}")


def defaults_and_names(count: int) -> list[Command]:
    """A function of so many defaults, called a thousand times with seventeen arguments by name."""
    calls = f"def g():\n    for i in range(1000): f({listed(17, 'p{}=0')})\ng()\n"
    return of_module(f"def f({listed(count, 'p{}=0')}): pass\n{calls}")


def functions_with_a_doubled_name(count: int) -> list[Command]:
    """A file of so many functions of which two have one name, and calls of the last other one."""
    functions = "".join(f"def f{number}(): pass\n" for number in range(count))
    calls = f"[0 for i in range(65536) for j in [0, 0] if f{count - 1}()]\n"
    return of_module(f"{functions}{calls}def f0(): pass\n")


def branches_that_are_not_taken(count: int) -> list[Command]:
    """A condition that ends before a list of so many numbers, tested 196,608 times."""
    text = f"[0 for i in range(65536) for j in [0, 0, 0] if 0 and [{'0,' * count}]]\n"
    return [put("s/BUILD", text), load("s")]


def includes(count: int) -> list[Command]:
    """A glob with so many includes."""
    text = f"x = glob([str(i) for i in range({count})])\n"
    return [put("s/BUILD", text), load("s")]


def includes_from_the_last(count: int) -> list[Command]:
    """A glob with so many includes, each less than the one before."""
    text = f"x = glob([str(10000000 - i) for i in range({count})])\n"
    return [put("s/BUILD", text), load("s")]


def includes_of_files(count: int) -> list[Command]:
    """A glob that includes each of so many files by its name."""
    files = [put(f"s/f{it}", "") for it in range(count)]
    names = f'["f" + str(i) for i in range({count})]'
    return [*files, put("s/BUILD", f"x = glob({names})\n"), load("s")]


def includes_with_a_star(count: int) -> list[Command]:
    """A glob with so many includes that end with a star, in a directory of as many files."""
    files = [put(f"s/f{it}", "") for it in range(count)]
    names = f'["f" + str(i) + "*" for i in range({count})]'
    return [*files, put("s/BUILD", f"x = glob({names})\n"), load("s")]


def repeated_include(count: int) -> list[Command]:
    """A glob with one include so many times, in a directory of 1,024 files."""
    files = [put(f"s/f{number}", "") for number in range(1024)]
    return [*files, put("s/BUILD", f'x = glob(["*"] * {count})\n'), load("s")]


def excludes_with_a_star(count: int) -> list[Command]:
    """A glob of so many files, with as many excludes that have a star and match none."""
    files = [put(f"s/f{number}", "") for number in range(count)]
    text = f"""glob(["f*"], exclude = ["*x" + str(i) + "*" for i in range({count})])\n"""
    return [*files, put("s/BUILD", text), load("s")]


def globs(count: int) -> list[Command]:
    """So many globs with one include each."""
    text = f'x = [0 for i in range({count}) if glob(["a" + str(i)])]\n'
    return [put("s/BUILD", text), load("s")]


def answered_globs(count: int) -> list[Command]:
    """A glob with so many includes, and then many globs with seventeen of them."""
    again = "y = [0 for i in range(4096) if glob(m)]\n"
    text = f"l = [str(i) for i in range({count})]\nx = glob(l)\nm = l[:17]\n{again}"
    return [put("s/BUILD", text), load("s")]


def globs_of_a_large_evaluation(count: int) -> list[Command]:
    """So many globs with one include each, in an evaluation whose values take over 4 MiB."""
    lists = "k = [list(range(65536)) for i in range(9)]\n"
    text = f'{lists}x = [0 for i in range({count}) if glob(["a" + str(i)])]\n'
    return [put("s/BUILD", text), load("s")]


def excludes(count: int) -> list[Command]:
    """A glob that finds so many files and excludes each by its name."""
    names = f'["f" + str(i) for i in range({count})]'
    files = [put(f"s/f{it}", "") for it in range(count)]
    return [*files, put("s/BUILD", f'x = glob(["f*"], exclude = {names})\n'), load("s")]


def removed_files(count: int) -> list[Command]:
    """So many files of one directory, which are put and then removed."""
    paths = [f"s/f{it}" for it in range(count)]
    return [
        *(put(path, "") for path in paths),
        *(delete(path) for path in paths),
        put("s/BUILD", ""),
        load("s"),
    ]


def edits_of_one_file(count: int) -> list[Command]:
    """So many files of one directory, and as many batches that change one file each."""
    paths = [f"s/f{it}" for it in range(count)]
    return [
        *(put(path, "") for path in paths),
        *(edit([put(path, "x")]) for path in paths),
        put("s/BUILD", ""),
        load("s"),
    ]


def globs_among_statements(count: int) -> list[Command]:
    """So many globs, each a statement, with as many other statements between them."""
    text = "".join(f'glob(["a{it}"])\n1\n' for it in range(count))
    return [put("s/BUILD", text), load("s")]


def short_strings(count: int) -> list[Command]:
    """A string that is split into 32,768 strings so many times."""
    split = f"    for i in range({count}): x.split(',')\n"
    return of_module(f"def f():\n    x = 'a,' * 32767\n{split}f()\n")


def loaded_names(count: int) -> list[Command]:
    """A load of so many names of one module."""
    names = "".join(f"x{number}=0\n" for number in range(count))
    quoted = listed(count, '"x{}"')
    return [put("s/m.bzl", names), put("s/BUILD", f'load(":m.bzl", {quoted})\n'), load("s")]


def loaded_tables(count: int) -> list[Command]:
    """A package that loads so many tables, and looks through each of them."""
    modules = [put(f"m/m{it}.bzl", f"X{it} = list(range(64))\n") for it in range(count)]
    loads = "".join(f'load("//m:m{it}.bzl", "X{it}")\n' for it in range(count))
    looks = "".join(f"y{it} = [i for i in X{it}]\n" for it in range(count))
    return [put("m/BUILD", ""), *modules, put("s/BUILD", loads + looks), load("s")]


def calls_among_modules(count: int) -> list[Command]:
    """So many modules of one function each, called by a package, and then a function that reads a
    global of its file sixteen times as often."""
    modules = [put(f"m/{it}.bzl", f"def f{it}(): pass\n") for it in range(count)]
    reads = f"    for i in range({count}):\n        for j in range(16): G\n"
    reader = put("m/g.bzl", f"G = 0\ndef g():\n{reads}")
    loads = "".join(f'load("//m:{it}.bzl","f{it}")\n' for it in range(count))
    calls = "".join(f"f{it}()\n" for it in range(count))
    text = f'{loads}load("//m:g.bzl","g")\n{calls}g()\n'
    return [put("m/BUILD", ""), *modules, reader, put("s/BUILD", text), load("s")]


def targets(count: int) -> list[Command]:
    """So many targets of one package."""
    text = f'x = [filegroup(name = "t" + str(i)) for i in range({count})]\nfail("last")\n'
    return [put("s/BUILD", text), load("s")]


# The lines of so many, the lesser size, and the last answer or a part of it.
GROWTHS: dict[str, tuple[Callable[[int], list[Command]], int, str]] = {
    "arguments by name": (arguments_by_name, 6_000, '{"exports":["f"]}'),
    "arguments under names of no parameter": (unknown_names, 12_000, WRONG_ARGUMENTS),
    "defaults of a function": (defaults, 6_000, '{"exports":["f","g"]}'),
    "defaults and arguments by name": (defaults_and_names, 6_000, '{"exports":["f","g"]}'),
    "functions with a doubled name": (functions_with_a_doubled_name, 7_000, '"code":26'),
    "branches that are not taken": (branches_that_are_not_taken, 60_000, EMPTY),
    "includes of a glob": (includes, 16_384, EMPTY),
    "includes of a glob that are files": (includes_of_files, 32_768, EMPTY),
    "includes of a glob in descending order": (includes_from_the_last, 16_384, EMPTY),
    "includes of a glob with stars": (includes_with_a_star, 16_384, EMPTY),
    "one include of a glob": (repeated_include, 32_768, EMPTY),
    "excludes of a glob with stars": (excludes_with_a_star, 16_384, EMPTY),
    "globs of one include": (globs, 3_000, EMPTY),
    "globs of includes that have answers": (answered_globs, 16_384, EMPTY),
    "globs of a large evaluation": (globs_of_a_large_evaluation, 3_000, EMPTY),
    "excludes of a glob": (excludes, 16_384, EMPTY),
    "files that are removed": (removed_files, 50_000, EMPTY),
    "edits of one file": (edits_of_one_file, 50_000, EMPTY),
    "globs among statements": (globs_among_statements, 4_500, EMPTY),
    "strings that nothing reaches": (short_strings, 20, '{"exports":["f"]}'),
    "names of a load": (loaded_names, 12_000, EMPTY),
    "tables that are loaded": (loaded_tables, 450, EMPTY),
    "calls among modules": (calls_among_modules, 3_300, EMPTY),
    "targets of a package": (targets, 32_768, '"line":2,"path":"s/BUILD"'),
}


def least_time(context: Context, lines: list[Command], wanted: str) -> tuple[float, str | None]:
    """The least time of some runs, and what is wrong with the last answer."""
    times = []
    for _ in range(RUNS):
        ran, took, _most = context.loader("run").run_measured(lines_of_commands(lines))
        times.append(took)
        if ran.status or wanted not in ran.last().decode():
            return min(times), f"status {ran.status}, {ran.last()[:200].decode()}"
    return min(times), None


def run(context: Context) -> Report:
    """Prints both times of each kind and their ratio, and compares the answers and the growth."""
    report = Report()
    for name, (lines, count, wanted) in GROWTHS.items():
        if context.only not in name:
            continue
        small, wrong = least_time(context, lines(count), wanted)
        large, also = least_time(context, lines(2 * count), wanted)
        ratio = large / max(small, LEAST_TIME)
        print(f"  {count:6d} {name:40s}{small:8.2f} s{large:8.2f} s{ratio:8.2f}", flush=True)
        if not wrong and not also and ratio >= MAX_RATIO:
            also = f"twice the size takes {ratio:.2f} times as long"
        report.add(f"{name}: {wrong or also}" if wrong or also else None, compared=2)
    return report
