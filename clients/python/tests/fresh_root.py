"""A fresh Debian root, made by mmdebstrap, in which packages are installed and removed."""

from __future__ import annotations

import os
import shutil
import subprocess
from collections.abc import Sequence
from pathlib import Path

REPOSITORY = Path(__file__).resolve().parents[3]

_SUITE = "bookworm"
_ENTER = (
    'mount -t proc proc "$0/proc" && mount --rbind /dev "$0/dev" && '
    'mount --bind "$1" "$0/mnt" && shift && exec chroot "$ROOT" "$@"'
)


def system(**variables: str) -> dict[str, str]:
    """Returns the environment of the system's own programs, with some variables more."""
    return {
        "PATH": "/usr/local/sbin:/usr/local/bin:/usr/sbin:/usr/bin:/sbin:/bin",
        "LC_ALL": "C.UTF-8",
        "HOME": "/root",
        **variables,
    }


class FreshRoot:
    """A directory with a Debian system of its own. `shared` is seen as /mnt inside."""

    def __init__(self, place: Path, shared: Path, packages: Sequence[str] = ()) -> None:
        assert os.geteuid() == 0, "a fresh root is made by root alone"
        self.place = place
        self.shared = shared
        words = ["mmdebstrap", "--variant=minbase", "--quiet"]
        if packages:
            words.append("--include=" + ",".join(packages))
        subprocess.run([*words, _SUITE, str(place)], check=True, env=system(), timeout=900)
        shutil.copy("/etc/resolv.conf", place / "etc/resolv.conf")

    def run(self, *words: str, **variables: str) -> subprocess.CompletedProcess[str]:
        """Runs a command inside."""
        outer = ["unshare", "--mount", "sh", "-c", _ENTER, str(self.place), str(self.shared)]
        return subprocess.run(
            [*outer, *words],
            env=system(ROOT=str(self.place), **variables),
            stdin=subprocess.DEVNULL,
            capture_output=True,
            text=True,
            timeout=1_800,
        )

    def must(self, *words: str, **variables: str) -> str:
        """Runs a command inside that has to end with status 0, and returns what it printed."""
        done = self.run(*words, **variables)
        assert done.returncode == 0, f"{words}: {done.returncode}\n{done.stdout}\n{done.stderr}"
        return done.stdout

    def files(self) -> set[str]:
        """Returns all names of the root, but for what package tools and man keep of their own."""
        own = ("var/lib/dpkg/", "var/log/", "var/cache/", "var/lib/apt/", "proc/", "dev/", "tmp/")
        found = set()
        for folder, folders, names in os.walk(self.place):
            for name in [*folders, *names]:
                path = os.path.relpath(os.path.join(folder, name), self.place)
                if not f"{path}/".startswith(own):
                    found.add(path)
        return found
