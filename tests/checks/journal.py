"""What `--runs` says of the lines of answers/journal.jsonl, with each number of workers.

With one worker it is the file answers/journal.txt. With more, the keys of a version may come in
another order, but no line comes before those that its key always asks.
"""

from harness.context import Context, lines_of
from harness.report import Report, compare_each, differs, first_difference


def version_of(line: bytes) -> int:
    """The version of a line of the journal."""
    return int(line.split()[1])


def asked_by(line: bytes) -> list[bytes]:
    """Some lines that come before this one where they are of the same version: of what its key
    always asks."""
    _, version, kind, key = line.rstrip(b"\n").split(b" ", 3)
    directory = key.split()[0]
    asked: list[bytes] = []
    if kind == b"lookup":
        front = key[2:] + b"/" if key != b"//" else b""
        asked = [b"file " + front + name for name in (b"BUILD.bazel", b"BUILD")]
    elif kind == b"module":
        package, name = key[2:].split(b":")
        file = (package + b"/" if package else b"") + name
        asked = [b"lookup //" + package, b"file " + file]
    elif kind == b"glob":
        asked = [b"listing " + directory]
    elif kind == b"package":
        asked = [b"lookup " + directory]
    elif kind == b"under":
        asked = [b"lookup " + directory, b"listing " + directory]
    words = [b"run " if it.startswith(b"lookup") else b"read " for it in asked]
    return [word + version + b" " + it + b"\n" for word, it in zip(words, asked)]


def out_of_order(journal: list[bytes]) -> bytes | None:
    """The first line that comes before one of those that it asked, or before an `under` of its
    version, or None."""
    places = {line: at for at, line in enumerate(journal)}
    for line, at in places.items():
        before = asked_by(line)
        if line.split()[2] == b"package":
            front = b"run %d under " % version_of(line)
            before += [it for it in journal if it.startswith(front)]
        if any(places.get(it, -1) > at for it in before):
            return line
    return None


def journal_differs(name: str, said: list[bytes], wanted: list[bytes], alone: bool) -> str | None:
    """What is wrong with a journal. More than one worker may settle the keys of a version in
    another order."""
    if alone:
        return first_difference(f"{name}, the journal", said, wanted)
    if sorted(said) != sorted(wanted):
        other = sorted(set(said) ^ set(wanted))[:3]
        return f"{name}: only one of both journals has {other}, or has it once more"
    versions = [version_of(line) for line in said]
    what = f"{name}: the line before those that it asked"
    return differs(f"{name}: the order of versions", versions, sorted(versions)) or differs(
        what, out_of_order(said), None
    )


def run(context: Context) -> Report:
    """Compares the journal, and the answers with and without it."""
    lines = lines_of("tests/answers/journal.jsonl")
    wanted = lines_of("tests/answers/journal.txt")
    given = b"".join(lines)
    plain = context.serving(1).run(given)

    def check(count: int) -> str | None:
        name = f"--workers {count}"
        ran = context.serving(count, "--runs").run(given)
        got, right = (ran.status, ran.written), (plain.status, plain.written)
        said = ran.said.splitlines(keepends=True)
        return differs(f"{name}: status and answers", got, right) or journal_differs(
            name, said, wanted, count == 1
        )

    report = compare_each(check, context.workers)
    report.compared *= len(wanted)
    what = "one worker without --runs: status, number of answers and what it said"
    got = (plain.status, plain.written.count(b"\n"), plain.said)
    report.add(differs(what, got, (0, len(lines), b"")))
    early = out_of_order(wanted)
    report.require(early is None, f"journal.txt itself: {early!r} before those that it asked")
    return report
