"""What a check is given: the program, and how much it has to do."""

import dataclasses
import os

from harness.loader import Loader

TESTS = os.path.dirname(os.path.dirname(os.path.abspath(__file__)))
ROOT = os.path.dirname(TESTS)


@dataclasses.dataclass(frozen=True)
class Context:
    """The program that is checked, the numbers of workers, and of random scripts how many there are
    and the number of the first. A check that talks may talk with another command."""

    program: str
    workers: tuple[int, ...] = (1, 2, 3, 16)
    scripts: int | None = None
    first: int = 0
    edits: int = 100_000
    only: str = ""
    command: tuple[str, ...] = ()

    def loader(self, *words: str) -> Loader:
        """The program with words."""
        return Loader(self.program, *words)

    def serving(self, workers: int = 1, *words: str) -> Loader:
        """The program that serves lines with so many workers."""
        return Loader(self.program, "run", "--workers", str(workers), *words)

    def numbers(self, scripts: int) -> range:
        """The numbers of the random scripts, of which there are so many where none is given."""
        return range(self.first, self.first + (self.scripts or scripts))


def path_of(*names: str) -> str:
    """The path of a file of the repository."""
    return os.path.join(ROOT, *names)


def bytes_of(*names: str) -> bytes:
    """The bytes of a file of the repository."""
    with open(path_of(*names), "rb") as file:
        return file.read()


def lines_of(*names: str) -> list[bytes]:
    """The lines of a file of the repository, with their ends."""
    return bytes_of(*names).splitlines(keepends=True)
