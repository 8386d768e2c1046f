"""The script that installs what the targets of make need."""

from __future__ import annotations

import re
import shutil
import subprocess
import time
from pathlib import Path

import pytest
from fresh_root import REPOSITORY, FreshRoot

SCRIPT = REPOSITORY / "tools" / "install-packages"
USED = [
    "sh",
    "sort",
    "tr",
    "sed",
    "mktemp",
    "tail",
    "rm",
    "sleep",
    "env",
    "cat",
    "id",
    "true",
    "chmod",
]
PROGRAMS = ["rt", "make", "cc", "git", "jq", "dot"]


def program(folder: Path, name: str, text: str = "exit 0") -> None:
    """Writes a program of the shell into a folder."""
    path = folder / name
    if path.is_symlink():
        path.unlink()
    path.write_text(f"#!/bin/sh\n{text}\n")
    path.chmod(0o755)


@pytest.fixture
def path(tmp_path: Path) -> Path:
    """A folder in place of the path, with what the script uses and all that it looks for."""
    folder = tmp_path / "path"
    folder.mkdir()
    for name in USED:
        found = shutil.which(name, path="/usr/bin:/bin")
        assert found
        (folder / name).symlink_to(found)
    for name in PROGRAMS:
        program(folder, name)
    return folder


def run(path: Path, *groups: str) -> subprocess.CompletedProcess[str]:
    """Runs the script with this folder as the path."""
    return subprocess.run(
        ["/bin/sh", str(SCRIPT), *groups],
        env={"PATH": str(path)},
        stdin=subprocess.DEVNULL,
        capture_output=True,
        text=True,
        timeout=120,
    )


@pytest.mark.long
def test_says_nothing_and_is_quick_where_all_is_there(path: Path) -> None:
    began = time.monotonic()
    done = run(path, "run", "test")
    assert (done.returncode, done.stdout, done.stderr) == (0, "", "")
    assert time.monotonic() - began < 1


def test_tells_that_the_kit_is_missing(path: Path) -> None:
    (path / "rt").unlink()
    done = run(path, "run")
    assert done.returncode == 1
    assert "the kit's command 'rt' is not on the path" in done.stderr


def test_an_unknown_group_is_told(path: Path) -> None:
    done = run(path, "everything")
    assert done.returncode == 2
    assert "there is no group 'everything'" in done.stderr


def test_names_what_is_missing_without_apt(path: Path) -> None:
    (path / "jq").unlink()
    (path / "make").unlink()
    done = run(path, "test")
    assert done.returncode == 1
    assert done.stderr.endswith("missing, under their names in Debian: jq make\n")


def test_prints_the_command_where_it_may_not_install(path: Path) -> None:
    (path / "jq").unlink()
    program(path, "id", "echo 1000")
    program(path, "apt-get", "exit 9")
    done = run(path, "test")
    assert done.returncode == 1
    command = "apt-get update && apt-get install -y --no-install-recommends jq"
    assert done.stdout == f"sudo sh -c '{command}'\n"


def test_uses_sudo_where_it_asks_nothing(path: Path, tmp_path: Path) -> None:
    (path / "jq").unlink()
    log = tmp_path / "log"
    program(path, "id", "echo 1000")
    program(path, "sudo", f'[ "$1" = -n ] && shift && echo sudo "$@" >> {log} && exec "$@"')
    install = f"printf '#!/bin/sh\\n' > {path}/jq && chmod +x {path}/jq"
    program(
        path,
        "apt-get",
        f'case "$*" in *install*) echo "$DEBIAN_FRONTEND $*" >> {log}; {install} ;; esac',
    )
    done = run(path, "test")
    assert (done.returncode, done.stdout) == (0, "")
    lines = log.read_text()
    assert re.search(r"^noninteractive .* install --no-install-recommends jq$", lines, re.M)
    assert re.search(r"^sudo true$", lines, re.M)


def test_updates_the_lists_and_tries_again(path: Path, tmp_path: Path) -> None:
    (path / "jq").unlink()
    log = tmp_path / "log"
    program(path, "id", "echo 0")
    program(path, "sleep")
    program(
        path,
        "apt-get",
        f'echo "$*" >> {log}\ncase "$*" in *install*) echo no network >&2; exit 100 ;; esac',
    )
    done = run(path, "test")
    assert done.returncode == 1
    assert done.stderr.count("another follows") == 3
    assert "no network" in done.stderr
    assert done.stdout.startswith("apt-get update && apt-get install -y")
    words = [line.split()[-1] for line in log.read_text().splitlines()]
    assert words[-6:] == ["update", "jq", "update", "jq", "update", "jq"]


def test_still_missing_after_an_installation_is_told(path: Path) -> None:
    (path / "jq").unlink()
    program(path, "id", "echo 0")
    program(path, "apt-get")
    done = run(path, "test")
    assert done.returncode == 1
    assert done.stderr.endswith("still missing after the installation: jq\n")


@pytest.mark.long
@pytest.mark.timeout(1800)
def test_a_fresh_root_gets_all_of_it(tmp_path: Path, loader: str) -> None:
    shared = tmp_path / "shared"
    shared.mkdir()
    shutil.copy(SCRIPT, shared)
    shutil.copy(loader, shared / "loader")
    (shared / "checkout").mkdir()
    parts = [REPOSITORY / name for name in ("clients", "tools", "packaging", "docs", "Makefile")]
    subprocess.run(["cp", "-R", *parts, shared / "checkout"], check=True)
    program(shared, "rt")
    root = FreshRoot(tmp_path / "root", shared)
    shutil.rmtree(root.place / "var/lib/apt/lists")
    inside = "PATH=$PATH:/mnt; "

    root.must("useradd", "person")
    told = root.run(
        "su", "person", "-s", "/bin/sh", "-c", inside + "/mnt/install-packages run test"
    )
    assert told.returncode == 1, told.stderr
    assert told.stdout.startswith("sudo sh -c 'apt-get update && apt-get install -y")
    assert " python3-hypothesis " in told.stdout

    root.must("sh", "-c", inside + "/mnt/install-packages run test")
    began = time.monotonic()
    assert root.must("sh", "-c", inside + "/mnt/install-packages run test") == ""
    assert time.monotonic() - began < 1
    again = root.run(
        "su", "person", "-s", "/bin/sh", "-c", inside + "/mnt/install-packages run test"
    )
    assert (again.returncode, again.stdout, again.stderr) == (0, "", "")
    some = "-k 'names or details or of_some_files' -p no:cacheprovider"
    where = "SEFGULAW_LOADER=/mnt/loader"
    done = root.must(
        "sh", "-c", inside + f"make -C /mnt/checkout clients {where}", PYTEST_ADDOPTS=some
    )
    assert re.search(r"^\d+ passed", done, re.M), done
