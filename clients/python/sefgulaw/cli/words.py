"""The words that the command takes."""

from __future__ import annotations

import argparse
import os
import re
from collections.abc import Sequence

STAND_INS = ("auto", "always", "never")
MOST_WORKERS = 16
DAEMON_WORDS = ("start", "stop", "status", "log")
SHELLS = ("bash", "zsh", "fish")
QUERY_FORMS = ("label", "label_kind", "location", "package", "jsonl", "graph")
LEFT_OUT_FORMS = ("xml", "proto", "build")

_NEGATIVE = re.compile(r"-(?://|:|@)")
_MARK = "\0"


def _workers(text: str) -> int:
    if not text.isdecimal() or not 1 <= int(text) <= MOST_WORKERS:
        raise argparse.ArgumentTypeError(f"a whole number from 1 to {MOST_WORKERS}")
    return int(text)


def _not_empty(text: str) -> str:
    if not text:
        raise argparse.ArgumentTypeError("a name that is not empty")
    return text


def _line_number(text: str) -> int:
    if not text.isdecimal() or int(text) < 1:
        raise argparse.ArgumentTypeError("a whole number from 1 on")
    return int(text)


def _query_form(text: str) -> str:
    if text in LEFT_OUT_FORMS:
        raise argparse.ArgumentTypeError(f"the form {text} is left out")
    if text not in QUERY_FORMS:
        raise argparse.ArgumentTypeError(f"one of {', '.join(QUERY_FORMS)}")
    return text


class _Parser(argparse.ArgumentParser):
    """A parser that knows the width of its help, so that argparse imports less to ask for it."""

    def _get_formatter(self) -> argparse.HelpFormatter:
        try:
            width = int(os.environ.get("COLUMNS") or os.get_terminal_size(2).columns)
        except (OSError, ValueError):
            width = 80
        return argparse.HelpFormatter(self.prog, width=max(width - 2, 40))


def _common() -> _Parser:
    """The words that every command takes, before and after the command's name."""
    common = _Parser(add_help=False, argument_default=argparse.SUPPRESS)
    group = common.add_argument_group("words of every command")
    group.add_argument("-C", dest="directory", metavar="DIR", help="the root of the tree")
    group.add_argument("--loader", metavar="PATH", help="the program sefgulaw-loader")
    group.add_argument("--workers", type=_workers, metavar="N", help="threads of the loader")
    words = "auto, jemalloc, system, or a shared library: the loader's allocator"
    group.add_argument("--allocator", type=_not_empty, metavar="NAME", help=words)
    group.add_argument("--stand-ins", choices=STAND_INS, help="whether rules of Bazel are replaced")
    group.add_argument("--no-daemon", action="store_true", help="ask without the daemon")
    group.add_argument("-q", "--quiet", action="store_true", help="leave out what is no answer")
    return common


def parser() -> argparse.ArgumentParser:
    """Returns the parser of the command's words."""
    common = _common()
    top = _Parser(
        prog="sefgulaw",
        parents=[common],
        description="Targets and faults of a tree of BUILD and .bzl files.",
        epilog="Statuses: 0 answered, 1 faults, 2 bad words, 3 no answer, 130 interrupted.",
    )
    top.add_argument("--version", action="store_true", help="print the version")
    commands = top.add_subparsers(dest="command", metavar="COMMAND", prog="sefgulaw")
    for name, words in (
        ("check", "print the faults of packages"),
        ("targets", "print the targets of packages"),
        ("watch", "print the targets and faults of packages, after each change again"),
    ):
        command = commands.add_parser(name, parents=[common], help=words, description=words)
        command.add_argument("patterns", nargs="*", metavar="PATTERN", help="//a, //a:b, //a/...")
        command.add_argument("--output", choices=("text", "jsonl"), default="text", help="form")
        if name == "check":
            words = "also warn of unbound names in functions that nothing calls"
            command.add_argument("--names", action="store_true", help=words)
    _add_graph_commands(commands, common)
    words = "print what stands in for rules and modules that only Bazel has"
    bridge = commands.add_parser("bridge", parents=[common], help=words, description=words)
    bridge.add_argument("--json", action="store_true", help="a line of JSON for each file")
    daemon = commands.add_parser("daemon", parents=[common], help="look after the daemon")
    daemon.add_argument("word", choices=DAEMON_WORDS)
    words = "with start: the file to which the daemon's loader writes events"
    daemon.add_argument("--events", metavar="FILE", help=words)
    completion = commands.add_parser("completion", help="print the completion of a shell")
    completion.add_argument("shell", choices=SHELLS)
    return top


def _add_graph_commands(commands: argparse._SubParsersAction[_Parser], common: _Parser) -> None:
    """Adds the commands that see targets as a graph."""
    words = "print the targets that an expression of Bazel's query language stands for"
    query = commands.add_parser("query", parents=[common], help=words, description=words)
    query.add_argument("expression", metavar="EXPRESSION", help="deps(//a:b), kind(..) and so on")
    words = f"form: {', '.join(QUERY_FORMS)}"
    query.add_argument("--output", type=_query_form, default="label", metavar="FORM", help=words)
    words = "print the labels of the answer that no target and no file has"
    query.add_argument("--missing", action="store_true", help=words)
    words = "print the targets that differ between two revisions of git, and why"
    changed = commands.add_parser("changed", parents=[common], help=words, description=words)
    changed.add_argument("old", metavar="OLD", help="a commit")
    changed.add_argument("new", metavar="NEW", help="a commit, or . for the working tree")
    changed.add_argument("--output", choices=("text", "jsonl"), default="text", help="form")
    words = "print targets, edges and modules with their places as lines of JSON"
    index = commands.add_parser("index", parents=[common], help=words, description=words)
    index.add_argument("patterns", nargs="*", metavar="PATTERN", help="//a, //a:b, //a/...")
    words = "print why a node ran, from the events of a loader"
    explain = commands.add_parser("explain", parents=[common], help=words, description=words)
    words = "a key as the events have it, or a label, a package or a path"
    explain.add_argument("key", nargs="?", metavar="KEY", help=words)
    words = "the file that a loader wrote with --events, in place of the one of the tree's daemon"
    explain.add_argument("--events", metavar="FILE", help=words)
    words = "the run at this line of the loader's input, or the last one before it"
    explain.add_argument("--line", type=_line_number, metavar="N", help=words)
    words = "also print what was read or run at that line with an equal value"
    explain.add_argument("--all", action="store_true", help=words)
    words = "print the N keys with most turns instead"
    explain.add_argument("--top", type=_line_number, metavar="N", help=words)
    explain.add_argument("--output", choices=("text", "graph"), default="text", help="form")
    words = "serve an editor by the Language Server Protocol"
    commands.add_parser("lsp", parents=[common], help=words, description=words)


def read_words(words: Sequence[str]) -> argparse.Namespace:
    """Reads the command's words. A pattern with a minus in front is no option."""
    marked = [_MARK + word if _NEGATIVE.match(word) else word for word in words]
    found = parser().parse_args(marked)
    if hasattr(found, "patterns"):
        found.patterns = [pattern.lstrip(_MARK) for pattern in found.patterns]
    return found
