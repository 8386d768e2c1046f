"""Trees for tests, and the generated one of many packages."""

from __future__ import annotations

import importlib.util
import os
from pathlib import Path
from types import ModuleType

_CHECKOUT = Path(__file__).resolve().parent.parent.parent.parent

SMALL = {
    "WORKSPACE.marker": "",
    "a/BUILD": 'filegroup(name = "l", srcs = glob(["*.c"]))\n',
    "a/x.c": "",
    "lib/x.bzl": 'T = ["t"]\n',
    "lib/BUILD": 'load(":x.bzl", "T")\nfilegroup(name = "p", tags = T)\n',
}
"""Two packages, one of which loads a module."""

SMALL_TARGETS = ["//a:l filegroup", "//lib:p filegroup"]

HOLDS_MEMORY = "".join(f"x{i} = [0] * 65536\n" for i in range(600))
"""A file whose values take more than the loader's 256 MiB."""

TAKES_MINUTES = """def wait():
    x = [0] * 65536
    for i in range(65000):
        y = x * 1
    return y

WAITED = wait()
"""
"""A module that stays within its steps, and evaluates for a minute or so."""


def workload() -> ModuleType:
    """Returns the module that generates the tree of the benchmarks."""
    path = _CHECKOUT / "bench" / "workload.py"
    spec = importlib.util.spec_from_file_location("workload", path)
    assert spec and spec.loader
    module = importlib.util.module_from_spec(spec)
    spec.loader.exec_module(module)
    return module


def generate(packages: int, folder: Path) -> None:
    """Writes the generated tree of so many packages. It has no file that marks a Bazel tree."""
    for path, text in workload().files(packages):
        file = folder / path
        os.makedirs(file.parent, exist_ok=True)
        file.write_text(text)
