"""The words of the command `sefgulaw`, and its statuses.

Nothing is imported here that a question to a running daemon does not need.
"""

from __future__ import annotations

import argparse
import os
import sys
from collections.abc import Sequence

from sefgulaw import __version__
from sefgulaw.cli.output import (
    BAD_WORDS,
    INTERRUPTED,
    NO_ANSWER,
    Failure,
    Output,
    ReaderGone,
    end_by_pipe,
    say,
)
from sefgulaw.cli.words import parser, read_words

TRACE = "SEFGULAW_TRACE"


def main(words: Sequence[str]) -> int:
    """Runs one command and returns its status. This alone turns what went wrong into statuses."""
    try:
        if "_ARGCOMPLETE" in os.environ:
            from sefgulaw.cli.completion import complete

            complete(parser())
        found = read_words(words)
        return run(found)
    except Failure as failure:
        say(str(failure))
        return failure.status
    except ReaderGone:
        return end_by_pipe()
    except KeyboardInterrupt:
        return INTERRUPTED
    except Exception as error:
        if TRACE in os.environ:
            raise
        say(f"a defect of this program: {error!r}; with {TRACE}=1 it says where")
        return NO_ANSWER


def script() -> None:
    """The entry point of the installed script."""
    sys.exit(main(sys.argv[1:]))


def run(found: argparse.Namespace) -> int:
    """Runs the command that the words name."""
    if found.version:
        output = Output()
        output.line(f"sefgulaw {__version__}".encode())
        output.flush()
        return 0
    if found.command is None:
        parser().print_usage(sys.stderr)
        return BAD_WORDS
    if found.command in ("check", "targets"):
        from sefgulaw.cli.ask import ask

        return ask(found)
    if found.command in ("query", "changed", "index"):
        from sefgulaw.cli import ask as asking

        commands = {"query": asking.query, "changed": asking.changed, "index": asking.index}
        return commands[found.command](found)
    if found.command == "explain":
        from sefgulaw.cli.explain import explain

        return explain(found)
    if found.command == "lsp":
        from sefgulaw.cli.lsp import lsp

        return lsp(found)
    if found.command == "watch":
        from sefgulaw.cli.watch import watch

        return watch(found)
    if found.command == "bridge":
        from sefgulaw.cli.bridge import bridge

        return bridge(found)
    if found.command == "daemon":
        from sefgulaw.cli.daemon import daemon

        return daemon(found)
    if found.command == "completion":
        from sefgulaw.cli.completion import completion

        return completion(found)
    raise Failure(BAD_WORDS, f"{found.command}: not there yet")
