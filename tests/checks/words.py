"""The status, the bytes and the kind of message for the words of answers/words.txt."""

import functools

from harness.context import Context, lines_of
from harness.report import Report, compare_each, differs

FIND = b'{"op":"find","name":"x"}\n'
NO_PACKAGE = b'{"build":null}\n'


def kind_of(said: bytes) -> str:
    """The kind of what a program said."""
    if not said:
        return "nothing"
    return "the journal" if said.startswith(b"read 0 file x/BUILD.bazel\n") else "a fault"


def words_differ(context: Context, row: str) -> str | None:
    """What is wrong with the words of a row, or None."""
    words = row.split(":")[0].split(" ")[1:]
    ran = context.loader(*words).run(FIND)
    ends = f"status {ran.status}, {len(ran.written)} bytes, said {kind_of(ran.said)}"
    right = NO_PACKAGE if ran.status == 0 else b""
    got = f"{' '.join(['loader', *words])}: {ends}"
    return differs("words", got, row) or differs(f"{row}: wrote", ran.written, right)


def run(context: Context) -> Report:
    """Compares each row of words."""
    rows = [line.decode().rstrip("\n") for line in lines_of("tests/answers/words.txt")]
    return compare_each(functools.partial(words_differ, context), rows)
