"""Trees under git for tests."""

from __future__ import annotations

import os
import random
import subprocess
from pathlib import Path

from conftest import Root

WHO = {
    "GIT_AUTHOR_NAME": "n",
    "GIT_AUTHOR_EMAIL": "n@x",
    "GIT_COMMITTER_NAME": "n",
    "GIT_COMMITTER_EMAIL": "n@x",
    "GIT_CONFIG_GLOBAL": "/dev/null",
    "GIT_CONFIG_SYSTEM": "/dev/null",
}


def git(root: Path, *words: str) -> str:
    """Runs git in a directory, and returns what it prints."""
    environment = {**os.environ, **WHO}
    done = subprocess.run(
        ["git", "-C", str(root), *words], env=environment, capture_output=True, text=True
    )
    assert done.returncode == 0, done.stderr
    return done.stdout.strip()


def commit(root: Root) -> str:
    """Commits everything, and returns the commit."""
    if not (root.path / ".git").exists():
        git(root.path, "init", "-q")
    git(root.path, "add", "-A")
    git(root.path, "commit", "-q", "--allow-empty", "-m", "x")
    return git(root.path, "rev-parse", "HEAD")


def export(root: Path, name: str, folder: Path) -> Path:
    """Writes the files of a commit into a folder of their own."""
    folder.mkdir(parents=True)
    packed = folder.parent / f"{folder.name}.tar"
    git(root, "archive", "--format=tar", "-o", str(packed), name)
    subprocess.run(["tar", "-C", str(folder), "-xf", str(packed)], check=True)
    return folder


NAMES = ["a", "b", "a/c", "d"]


def rule(chance: random.Random, number: int, package: str) -> str:
    """Returns a random target of a package."""
    other = f"//{chance.choice(NAMES)}:t{chance.randrange(3)}"
    source = f"s{chance.randrange(3)}.c"
    name = f"t{number}"
    return chance.choice(
        [
            f'filegroup(name = "{name}", srcs = ["{source}", "{other}"], tags = T)\n',
            f'filegroup(name = "{name}", srcs = glob(["*.c"]))\n',
            f'genrule(name = "{name}", srcs = ["{other}"], outs = ["{name}.o"], cmd = "c")\n',
            f'filegroup(name = "{name}", srcs = ["//{chance.choice(NAMES)}:t1.o"])\n',
            f'alias(name = "{name}", actual = "{other}")\n',
            f'pair(name = "{name}", srcs = ["{source}"])\n',
        ]
    )


def module(chance: random.Random) -> str:
    """Returns the text of a module with a macro."""
    tag = chance.choice(["x", "y"])
    suffix = chance.choice(["", "", "", "_z"])
    return (
        f'T = ["{tag}"]\n\ndef pair(name, srcs):\n'
        f'    native.filegroup(name = name + "{suffix}", srcs = srcs, tags = T)\n'
    )


def build(chance: random.Random, package: str) -> str:
    """Returns a random BUILD file."""
    text = f'load("//m:{chance.choice("kl")}.bzl", "T", "pair")\n'
    text += "".join(rule(chance, number, package) for number in range(chance.randrange(4)))
    return text + chance.choice(["", "", "", "", "x = y\n"])


def random_files(chance: random.Random) -> dict[str, str]:
    """Returns the files of a random tree."""
    files = {
        ".sefgulaw.toml": "",
        "m/BUILD": "",
        "m/k.bzl": module(chance),
        "m/l.bzl": module(chance),
    }
    for package in NAMES:
        files[f"{package}/BUILD"] = build(chance, package)
        for number in range(2):
            files[f"{package}/s{number}.c"] = ""
    return files


def change(chance: random.Random, root: Root) -> None:
    """Makes a random change of a tree."""
    package = chance.choice(NAMES)
    kind = chance.randrange(6)
    source = f"{package}/s{chance.randrange(3)}.c"
    if kind == 0:
        root.write(f"m/{chance.choice('kl')}.bzl", module(chance))
    elif kind == 1:
        root.write(source, str(chance.randrange(9)))
    elif kind == 2 and (root.path / source).exists():
        root.delete(source)
    elif kind == 3 and (root.path / package / "BUILD").exists() and chance.random() < 0.5:
        root.delete(f"{package}/BUILD")
    else:
        root.write(f"{package}/BUILD", build(chance, package))
