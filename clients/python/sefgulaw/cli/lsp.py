"""Serves an editor by the Language Server Protocol on standard input and output."""

from __future__ import annotations

import argparse
import os
import sys
from collections.abc import Callable

from sefgulaw.cli.asking import Where, where
from sefgulaw.cli.output import NO_ANSWER, Failure
from sefgulaw.roots import NoTree, find_root


def lsp(found: argparse.Namespace) -> int:
    """Serves until the editor ends it."""
    try:
        from sefgulaw.lsp.wire import Wire
    except ImportError:
        words = "the language server needs the package python3-pylsp-jsonrpc"
        raise Failure(NO_ANSWER, words) from None
    from sefgulaw.lsp.link import Link
    from sefgulaw.lsp.server import Server

    given = where(found) if hasattr(found, "directory") else None

    def open_link(root: bytes, progress: Callable[..., None]) -> Link:
        """Opens the tree that the words name, or the one that the editor's folder is in."""
        if given is not None:
            return Link(given, progress)
        try:
            at = find_root(os.fsdecode(root), False)
        except NoTree:
            at = root
        return Link(Where(at, "", getattr(found, "loader", None), False), progress)

    return Server(Wire(sys.stdin.buffer, sys.stdout.buffer), open_link).serve()
