"""256 packages by one line, and each module of a circle of 256, with each number of workers."""

from collections.abc import Iterator

from harness.commands import Command, line_of, load, module, put
from harness.context import Context
from harness.report import Report, compare_each, run_differs

MANY = 256

Row = tuple[Command, Command]


def rows_of_packages() -> Iterator[Row]:
    """Lines that put as many packages and load all of them, with their answers."""
    names = [f"p{number}" for number in range(MANY)]
    for version, name in enumerate(names, 1):
        yield put(f"{name}/BUILD", 'filegroup(name = "l")\n'), {"ok": version}
    targets = [{"attrs": {}, "kind": "filegroup", "name": "l"}]
    yield load(*names), {"packages": [{"name": name, "targets": targets} for name in names]}


def rows_of_modules() -> Iterator[Row]:
    """Lines that ask for each module of a circle, and once more after an edit of one, with their
    answers. Whichever module is asked for, the circle begins with its least label."""
    texts = [f'load(":m{(number + 1) % MANY}.bzl", "X")\n' for number in range(MANY)]
    labels = [f"//s:m{number}.bzl" for number in range(MANY)]
    circle = {"fault": {"code": 19, "cycle": labels}}
    yield put("s/BUILD", ""), {"ok": 1}
    for number, text in enumerate(texts):
        yield put(f"s/m{number}.bzl", text), {"ok": number + 2}
    for label in labels:
        yield module(label), circle
    yield put("s/m9.bzl", texts[9] + "# c\n"), {"ok": MANY + 2}
    for label in reversed(labels):
        yield module(label), circle


def run(context: Context) -> Report:
    """Compares the answers of both."""
    parts = {"packages": list(rows_of_packages()), "modules": list(rows_of_modules())}

    def check(part: tuple[str, int]) -> str | None:
        name, count = part
        given = b"".join(line_of(line) for line, _ in parts[name])
        wanted = [line_of(answer)[:-1] for _, answer in parts[name]]
        what = f"{name}, --workers {count}"
        return run_differs(what, context.serving(count).run(given), wanted)

    report = compare_each(check, [(name, it) for name in parts for it in context.workers])
    report.compared = sum(map(len, parts.values())) * len(context.workers)
    return report
