"""Sources of Debian packages, by `apt-get source` with an apt configuration of the tests' own.

The system's lists of packages and its configuration are left as they are. Sources that were fetched
once stay in the directory `$SEFGULAW_SOURCES`, or else in the user's cache.
"""

from __future__ import annotations

import fcntl
import os
import subprocess
from collections.abc import Iterator
from pathlib import Path

SYSTEM = Path("/etc/apt")


def cache() -> Path:
    """The directory that the sources are kept in."""
    chosen = os.environ.get("SEFGULAW_SOURCES")
    if chosen:
        return Path(chosen)
    home = os.environ.get("XDG_CACHE_HOME") or Path.home() / ".cache"
    return Path(home) / "sefgulaw-tests" / "sources"


def codename() -> str:
    """The name of the system's release."""
    for line in Path("/etc/os-release").read_text().splitlines():
        if line.startswith("VERSION_CODENAME="):
            return line.partition("=")[2].strip('"')
    raise LookupError("the system has no codename")


def stanzas() -> Iterator[str]:
    """The places of the system's release, as places of sources."""
    suite = codename()
    files = [SYSTEM / "sources.list", *sorted((SYSTEM / "sources.list.d").glob("*"))]
    for file in files:
        text = file.read_text() if file.is_file() else ""
        if file.suffix == ".list":
            for line in text.splitlines():
                if line.startswith("deb ") and f" {suite}" in line:
                    yield "deb-src" + line.removeprefix("deb")
        elif file.suffix == ".sources":
            for stanza in text.split("\n\n"):
                lines = [line for line in stanza.splitlines() if not line.startswith("#")]
                suites = [line for line in lines if line.startswith("Suites:")]
                if any(suite in line.split() for line in suites):
                    places = [line for line in lines if not line.startswith("Types:")]
                    yield "\n".join(["Types: deb-src", *places]) + "\n"


def configuration(room: Path) -> Path:
    """Writes a configuration whose lists, caches and state stand in a directory of its own."""
    for name in ("lists/partial", "archives/partial", "parts", "etc"):
        (room / name).mkdir(parents=True, exist_ok=True)
    found = list(stanzas())
    if not found:
        raise LookupError("the system's apt has no place for this release")
    old = [it for it in found if it.startswith("deb-src")]
    (room / "etc/sources.list").write_text("\n".join(old) + "\n")
    (room / "parts/own.sources").write_text("\n".join(it for it in found if it not in old))
    file = room / "apt.conf"
    file.write_text(
        f'Dir::State::lists "{room}/lists";\n'
        f'Dir::Cache "{room}";\n'
        f'Dir::Etc::sourcelist "{room}/etc/sources.list";\n'
        f'Dir::Etc::sourceparts "{room}/parts";\n'
        'APT::Sandbox::User "";\n'
    )
    return file


def run(file: Path, *words: str, at: Path) -> None:
    environment = {**os.environ, "APT_CONFIG": str(file)}
    done = subprocess.run(
        words, cwd=at, env=environment, stdin=subprocess.DEVNULL, capture_output=True, text=True
    )
    if done.returncode:
        raise RuntimeError(f"{' '.join(words)}: {done.stderr[-2000:]}")


def source(package: str) -> Path:
    """The directory of a package's source, fetched and unpacked where it was not yet."""
    room = cache()
    room.mkdir(parents=True, exist_ok=True)
    with open(room / "lock", "w") as lock:
        fcntl.flock(lock, fcntl.LOCK_EX)
        target = room / package
        if not target.is_dir():
            fetch(room, package, target)
    return target


def fetch(room: Path, package: str, target: Path) -> None:
    file = configuration(room / "apt")
    if not any((room / "apt/lists").glob("*Sources*")):
        run(file, "apt-get", "-q", "update", at=room)
    unpacked = room / f"{package}.unpacked"
    unpacked.mkdir(exist_ok=True)
    run(file, "apt-get", "-q", "source", package, at=unpacked)
    directories = [it for it in unpacked.iterdir() if it.is_dir()]
    if len(directories) != 1:
        raise RuntimeError(f"the source of {package} has {len(directories)} directories")
    directories[0].rename(target)
