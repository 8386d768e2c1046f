"""What the tests share: the built loader, trees in directories of their own, and the command."""

from __future__ import annotations

import os
import shutil
import signal
import subprocess
import sys
from collections.abc import Callable, Iterator, Mapping
from dataclasses import dataclass, field
from pathlib import Path

import pytest
from hypothesis import HealthCheck, settings

PACKAGE = Path(__file__).resolve().parent.parent
CHECKOUT = PACKAGE.parent.parent
MOST_SECONDS = 120


# The same examples in each run, however slow the machine is.
settings.register_profile(
    "steady",
    deadline=None,
    derandomize=True,
    database=None,
    suppress_health_check=[HealthCheck.too_slow],
)
settings.load_profile("steady")


@dataclass(frozen=True)
class Done:
    """How a command ended."""

    status: int
    out: bytes
    err: bytes

    @property
    def lines(self) -> list[str]:
        """The lines of standard output."""
        return self.out.decode("utf-8", "surrogateescape").splitlines()

    @property
    def words(self) -> list[str]:
        """The lines of standard error."""
        return self.err.decode("utf-8", "surrogateescape").splitlines()


@dataclass(frozen=True)
class Root:
    """A tree on disk."""

    path: Path

    def write(self, name: str | bytes, content: str | bytes) -> None:
        """Writes a file, and the directories above it."""
        file = os.path.join(os.fsencode(self.path), os.fsencode(name))
        os.makedirs(os.path.dirname(file), exist_ok=True)
        with open(file, "wb") as out:
            out.write(content.encode() if isinstance(content, str) else content)

    def replace(self, name: str, content: str) -> None:
        """Writes a file so that nobody sees it half written."""
        self.write(f"{name}~", content)
        os.replace(self.path / f"{name}~", self.path / name)

    def delete(self, name: str) -> None:
        """Takes a file or a directory away."""
        at = self.path / name
        if at.is_dir() and not at.is_symlink():
            shutil.rmtree(at)
        else:
            at.unlink()


@pytest.fixture(scope="session")
def loader() -> str:
    """The built loader. A test without it fails."""
    named = os.environ.get("SEFGULAW_LOADER") or str(
        CHECKOUT / "crates" / "sefgulaw_loader" / "out" / "sefgulaw_loader"
    )
    found = shutil.which(named)
    assert found, f"{named}: the loader is not built"
    return found


@pytest.fixture
def tree(tmp_path: Path) -> Callable[..., Root]:
    """Makes a tree of some files."""

    def make(files: Mapping[str, str | bytes], name: str = "tree") -> Root:
        root = Root(tmp_path / name)
        root.path.mkdir()
        for file, content in files.items():
            root.write(file, content)
        return root

    return make


@dataclass
class Runner:
    """Runs the command in a runtime directory of its own, so daemons of tests never meet."""

    loader: str
    runtime: Path
    variables: dict[str, str] = field(default_factory=dict)

    def environment(self) -> dict[str, str]:
        """Returns the variables that the command is run with."""
        found = {**os.environ, "SEFGULAW_LOADER": self.loader}
        found["PYTHONPATH"] = str(PACKAGE)
        found["XDG_RUNTIME_DIR"] = str(self.runtime)
        found.pop("CI", None)
        found.update(self.variables)
        return found

    def words(self, *words: str) -> list[str]:
        """Returns the words that start the command."""
        return [sys.executable, "-m", "sefgulaw", *words]

    def start(
        self,
        *words: str,
        cwd: Path,
        stdout: int = subprocess.PIPE,
        stderr: int = subprocess.PIPE,
    ) -> subprocess.Popen[bytes]:
        """Starts the command."""
        return subprocess.Popen(
            self.words(*words),
            cwd=cwd,
            stdin=subprocess.DEVNULL,
            stdout=stdout,
            stderr=stderr,
            env=self.environment(),
            restore_signals=True,
        )

    def __call__(self, *words: str, cwd: Path | Root) -> Done:
        process = self.start(*words, cwd=cwd.path if isinstance(cwd, Root) else cwd)
        try:
            out, err = process.communicate(timeout=MOST_SECONDS)
        finally:
            process.kill()
        return Done(process.returncode, out, err)


def running(loader: str, tmp_path: Path) -> Iterator[Runner]:
    """Runs the command with this loader. What it leaves running is ended after the test."""
    runtime = tmp_path / "runtime"
    runtime.mkdir(mode=0o700)
    runner = Runner(loader, runtime)
    yield runner
    for file in runtime.rglob("pid"):
        try:
            os.kill(int(file.read_text()), signal.SIGKILL)
        except (ProcessLookupError, ValueError):
            pass


@pytest.fixture
def run(loader: str, tmp_path: Path) -> Iterator[Runner]:
    """Runs the command `sefgulaw`."""
    yield from running(loader, tmp_path)


@pytest.fixture
def direct(run: Runner) -> Callable[..., Done]:
    """Runs the command without a daemon."""

    def done(*words: str, cwd: Path | Root) -> Done:
        return run(*words, "--no-daemon", cwd=cwd)

    return done
