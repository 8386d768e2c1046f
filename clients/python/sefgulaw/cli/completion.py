"""Completion of words in bash, zsh and fish."""

from __future__ import annotations

import argparse
import json
import os
from collections.abc import Iterator

from sefgulaw.cli.asking import where
from sefgulaw.cli.output import NO_ANSWER, Failure, Output
from sefgulaw.daemon.client import Client, Lost, connect
from sefgulaw.daemon.place import Place
from sefgulaw.daemon.protocol import Params
from sefgulaw.gitrev import NoRevision, git

_ZSH = """#compdef sefgulaw
_sefgulaw() {
    local -a found
    found=("${(@f)$(
        _ARGCOMPLETE=1 _ARGCOMPLETE_IFS=$'\\n' _ARGCOMPLETE_SUPPRESS_SPACE=1 \\
        _ARGCOMPLETE_SHELL=zsh COMP_LINE="$BUFFER" COMP_POINT="$CURSOR" COMP_TYPE= \\
        "${words[1]}" 8>&1 9>/dev/null 1>/dev/null 2>/dev/null
    )}")
    compadd -Q -S '' -- "${(@)found:#}"
}
if [ "${funcstack[1]}" = "_sefgulaw" ]; then
    _sefgulaw "$@"
else
    compdef _sefgulaw sefgulaw
fi
"""


def completion(found: argparse.Namespace) -> int:
    """Prints what makes a shell complete the command's words."""
    output = Output()
    output.line(script_of(found.shell).encode("utf-8").rstrip(b"\n"))
    output.flush()
    return 0


def script_of(shell: str) -> str:
    """Returns the script for a shell."""
    if shell == "zsh":
        return _ZSH
    try:
        from argcomplete import shellcode
    except ImportError:
        raise Failure(NO_ANSWER, "completion needs the package python3-argcomplete") from None
    return str(shellcode(["sefgulaw"], shell=shell))


def complete(parser: argparse.ArgumentParser) -> None:
    """Answers a shell that completes a line, and ends this process."""
    try:
        from argcomplete import autocomplete
    except ImportError:
        return
    _set_completer(parser)
    autocomplete(parser)


def _set_completer(parser: argparse.ArgumentParser) -> None:
    for action in parser._actions:
        if isinstance(action, argparse._SubParsersAction):
            for command in action.choices.values():
                _set_completer(command)
        elif action.dest == "patterns":
            setattr(action, "completer", _patterns)
        elif action.dest in ("old", "new"):
            setattr(action, "completer", _revisions)
        elif action.dest == "key":
            setattr(action, "completer", _keys)


def _revisions(prefix: str, parsed_args: argparse.Namespace, **_: object) -> list[str]:
    """Returns the branches and tags that begin so."""
    try:
        words = ["for-each-ref", "--format=%(refname:short)", "refs/heads", "refs/tags"]
        found = git(where(parsed_args).root, *words)
    except (Failure, NoRevision):
        return []
    names = ["HEAD", *found.decode("utf-8", "replace").split()]
    return [name for name in names if name.startswith(prefix)]


def _patterns(prefix: str, parsed_args: argparse.Namespace, **_: object) -> list[str]:
    """Returns the patterns that begin so."""
    try:
        return list(_candidates(prefix, parsed_args))
    except (Failure, OSError, Lost):
        return []


def _keys(prefix: str, parsed_args: argparse.Namespace, **_: object) -> list[str]:
    """Returns the packages, modules and paths from the root that begin so."""
    try:
        root = os.fsdecode(where(parsed_args).root)
        is_label = prefix.startswith("//")
        package, colon, name = prefix.partition(":")
        if is_label and not colon:
            return [it for it in _candidates(prefix, parsed_args) if not it.endswith("...")]
        directory = package[2:] if is_label else os.path.dirname(prefix)
        with os.scandir(os.path.join(root, directory)) as entries:
            found = sorted((it.name, it.is_dir()) for it in entries)
    except (Failure, OSError):
        return []
    if is_label:
        files = [it for it, _ in found if it.endswith(".bzl") and it.startswith(name)]
        return [f"{package}:{file}" for file in files]
    head = f"{directory}/" if directory else ""
    paths = [f"{head}{it}{'/' if is_directory else ''}" for it, is_directory in found]
    return [it for it in paths if it.startswith(prefix) and not it.startswith(".")]


def _candidates(prefix: str, found: argparse.Namespace) -> Iterator[str]:
    at = where(found)
    is_absolute = prefix.startswith("//")
    package, colon, name = prefix.partition(":")
    if colon:
        connection = connect(Place(at.root))
        if connection is None:
            return
        client = Client(connection)
        try:
            asked: Params = {"patterns": [package or "."], "cwd": at.cwd}
            for reply in client.ask("targets", asked, None):
                label = json.loads(reply.item or b"{}").get("label", "")
                target = label.partition(":")[2]
                if target and target.startswith(name):
                    yield f"{package}:{target}"
        finally:
            client.close()
        return
    inner = package[2:] if is_absolute else package
    above, _, last = inner.rpartition("/")
    start = os.fsdecode(at.root) if is_absolute else "."
    head = ("//" if is_absolute else "") + (above + "/" if above else "")
    with os.scandir(os.path.join(start, above)) as entries:
        for entry in sorted(entries, key=lambda it: it.name):
            if entry.name.startswith(last) and not entry.name.startswith(".") and entry.is_dir():
                if _is_package(entry.path):
                    yield head + entry.name
                yield head + entry.name + "/"
    if "...".startswith(last):
        yield head + "..."


def _is_package(directory: str) -> bool:
    return any(os.path.lexists(os.path.join(directory, it)) for it in ("BUILD", "BUILD.bazel"))
