"""Shows what stand-ins replace in a tree of Bazel."""

from __future__ import annotations

import argparse
import os

from sefgulaw.base import Base
from sefgulaw.bridge.reporting import json_lines, report, text_lines
from sefgulaw.cli.asking import where
from sefgulaw.cli.direct import failures, options_of, settings_of
from sefgulaw.cli.output import Output
from sefgulaw.cli.progress import Bar


def bridge(found: argparse.Namespace) -> int:
    """Loads the whole tree and prints the report."""
    at = where(found)
    options = options_of(
        settings_of(at.root),
        at.loader,
        getattr(found, "workers", None),
        getattr(found, "stand_ins", None),
        getattr(found, "allocator", None),
    )
    output, bar = Output(), Bar()
    with failures(at.root):
        base = Base.open(at.root, options, bar.update)
        try:
            base.refresh()
            made = report(base)
        finally:
            base.close()
            bar.close()
    lines = json_lines(made) if found.json else (os.fsencode(it) for it in text_lines(made))
    for line in lines:
        output.line(line)
    output.flush()
    return 0
