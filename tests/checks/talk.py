"""A conversation over two pipes, with 1 and 16 workers: each line is sent only after the answer to
the line before it has come.

An answer that is written and kept back, in a buffer that is not flushed, never comes, since the
other end waits for it. Such a program is killed. With `--command` it talks with another program.
"""

from harness.context import Context, lines_of
from harness.loader import Loader
from harness.report import Report


def talk(loader: Loader, lines: list[bytes], wanted: list[bytes]) -> str | None:
    """What is wrong with a conversation, or None. Of the lines behind those whose answers are
    wanted it is only asked that one whole line comes back for each."""
    conversation = loader.start()
    for at, line in enumerate(lines):
        answer = conversation.ask(line)
        is_right = answer == wanted[at] if at < len(wanted) else answer.endswith(b"\n")
        if not is_right:
            conversation.kill()
            return f"{loader}: line {at + 1} was answered {answer!r:.200} in time"
    ran = conversation.end()
    if ran.status or ran.written:
        return f"{loader}: status {ran.status} and {ran.written!r:.200} at the end"
    return None


def run(context: Context) -> Report:
    """Talks with each program."""
    lines, wanted = lines_of("tests/answers/devices.jsonl"), lines_of("tests/answers/devices.txt")
    # A last line without its end is answered only at the end of the input, which is compared
    # elsewhere.
    wanted = wanted[: sum(line.endswith(b"\n") for line in lines)]
    lines += lines_of("tests/answers/journal.jsonl")
    lines = [line for line in lines if line.endswith(b"\n")]
    loaders = [context.serving(1), context.serving(16)]
    if context.command:
        loaders = [Loader(*context.command)]
    report = Report()
    for loader in loaders:
        report.add(talk(loader, lines, wanted), compared=len(lines))
    return report
