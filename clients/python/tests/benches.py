"""Benches over files that a test writes down, without a tree on disk."""

from __future__ import annotations

from collections.abc import Mapping

from sefgulaw.bench import Bench
from sefgulaw.names import Path
from sefgulaw.needs import Needs
from sefgulaw.wire import Loader


BUILD = Path("p/BUILD")
MACROS = """def library(name, srcs = [], deps = [], copts = None, tags = []):
    native.filegroup(name = name, srcs = srcs, data = deps, tags = tags + (copts or []))

def pair(name):
    native.filegroup(name = name + "_a")
    native.filegroup(name = name + "_b")

def joined(name, parts):
    text = "-"
    for part in parts:
        text = text + part
    native.filegroup(name = name + text)
"""
HEAD = 'load("//lib:m.bzl", "joined", "library", "pair")\n\n'


def files(build: str, **others: str) -> dict[str, str]:
    """Returns a tree with this text in `p/BUILD`, and with a module of macros."""
    return {"p/BUILD": build, "lib/BUILD": "", "lib/m.bzl": MACROS, **others}


def bench_of(
    loader: str, files: Mapping[str, str], overlay: Mapping[Path, str] | None = None
) -> Bench:
    """Returns a bench over some files."""
    told = {Path(path): text for path, text in files.items()}
    needs = Needs()
    for path, text in told.items():
        needs.update(path, text)
    return Bench(lambda: Loader.start([loader]), told, needs, overlay=overlay)
