"""Random scripts of commands over a small tree. Each is made from its number, so one that failed
can be made again."""

import json
import random

from harness.commands import Command, delete, edit, find, load, module, put, under

DIRECTORIES = ["", "a", "a/b", "a/b/c", "d", "d/e"]
LETTERS = "XYZ"
PATTERNS = ["*", "**", "*.c", "**/*.c", "b/*.c", "m.bzl", "?*/**", "b", "*/*"]


class Maker:
    """Makes commands by the choices of a generator of random numbers."""

    def __init__(self, seed: int | str) -> None:
        self.chance = random.Random(seed)

    def path(self, names: list[str]) -> str:
        """A path whose last segment is one of these names."""
        directory = self.chance.choice(DIRECTORIES)
        return (directory + "/" if directory else "") + self.chance.choice(names)

    def label(self) -> str:
        """The label of a module."""
        directory = self.chance.choice(DIRECTORIES)
        return f"//{directory}:{self.chance.choice(['m.bzl', 'n.bzl'])}"

    def load_statement(self) -> str:
        """A statement that loads a name of a module."""
        letter = self.chance.choice(LETTERS)
        is_renamed = self.chance.random() < 0.8
        bound = f'{letter.lower()} = "{letter}"' if is_renamed else f'"{letter}"'
        return f'load("{self.label()}", {bound})\n'

    def module_text(self) -> str:
        """The text of a module."""
        count = self.chance.choice([0, 0, 0, 1, 1, 2])
        lines = [self.load_statement() for _ in range(count)]
        for letter in LETTERS:
            if self.chance.random() < 0.8:
                values = [f'["{self.chance.choice("stuv")}"]', letter.lower()]
                value = self.chance.choice(values)
                lines.append(f"{letter} = {value} * {self.chance.randint(0, 2)}\n")
        if self.chance.random() < 0.3:
            lines.append("# " + "x" * self.chance.randint(0, 3) + "\n")
        if self.chance.random() < 0.05:
            lines.append("fail(1)\n")
        return "".join(lines)

    def patterns(self) -> str:
        """A list of one or two patterns."""
        return json.dumps(self.chance.sample(PATTERNS, self.chance.randint(1, 2)))

    def glob_with_directories(self) -> str:
        """A call of `glob`, most of the time one that finds directories too."""
        last = self.chance.choice(["0"] * 6 + ["1", "2", "True"])
        excludes = self.chance.choice(["[]", self.patterns()])
        includes = self.patterns()
        return f"glob({includes}, exclude = {excludes}, exclude_directories = {last})"

    def sources(self) -> str:
        """The text of a list of sources."""
        ways = [
            f"glob({self.patterns()})",
            f"glob({self.patterns()}, exclude = {self.patterns()})",
            self.glob_with_directories(),
            self.chance.choice(LETTERS + LETTERS.lower()),
            '["x.c"]',
            "[]",
        ]
        return self.chance.choice(ways)

    def package_text(self) -> str:
        """The text of a build file."""
        lines = [self.load_statement() for _ in range(self.chance.choice([0, 1, 1, 2]))]
        for number in range(self.chance.randint(0, 3)):
            lines.append(f'filegroup(name = "t{number}", srcs = {self.sources()})\n')
        return "".join(lines)

    def batch(self) -> Command:
        """Changes in one command, most of which can be made."""
        made = [self.command() for _ in range(12)]
        changes = [it for it in made if it["op"] in ("put", "del")]
        return edit(changes[: self.chance.randint(1, 4)])

    def command(self) -> Command:
        """An edit or a request."""
        kind = self.chance.random()
        if kind < 0.2:
            return put(self.path(["BUILD", "BUILD", "BUILD.bazel"]), self.package_text())
        if kind < 0.4:
            return put(self.path(["m.bzl", "n.bzl"]), self.module_text())
        if kind < 0.5:
            return put(self.path(["f.c", "g.c", "h.h"]), "")
        if kind < 0.6:
            return delete(self.path(["BUILD", "BUILD.bazel", "m.bzl", "n.bzl", "f.c", "g.c"]))
        if kind < 0.65:
            return find(self.chance.choice(DIRECTORIES))
        if kind < 0.73:
            return module(self.label())
        if kind < 0.8:
            return under(self.chance.choice([*DIRECTORIES, "b", "a/"]))
        count = self.chance.randint(1, 5)
        return load(*[self.chance.choice(DIRECTORIES) for _ in range(count)])

    def change(self) -> Command:
        """A change, most of the time one that may be made, else one of a bad path, or one where a
        file or a directory is."""
        kind = self.chance.random()
        if kind < 0.08:
            return put(self.chance.choice(["a", "a/b", "a//b", "../a", "f.c/g"]), "")
        if kind < 0.12:
            return delete(self.chance.choice(["a", "zz", "a/"]))
        while True:
            made = self.command()
            if made["op"] in ("put", "del"):
                return made


def script(number: int) -> list[Command]:
    """A random script, a tenth of it batches."""
    maker = Maker(number)
    count = maker.chance.randint(10, 60)
    return [maker.batch() if maker.chance.random() < 0.1 else maker.command() for _ in range(count)]


def short_script(number: int) -> list[Command]:
    """A shorter random script, a tenth of it batches."""
    maker = Maker(number)
    count = maker.chance.randint(10, 40)
    return [maker.batch() if maker.chance.random() < 0.1 else maker.command() for _ in range(count)]


def script_of_batches(number: int) -> list[Command]:
    """A random script in which two of five commands are batches, some of them refused."""
    maker = Maker(f"batches {number}")
    lines = []
    for _ in range(maker.chance.randint(10, 40)):
        if maker.chance.random() < 0.4:
            count = maker.chance.choice([0, 1, 2, 2, 3, 4, 6, 257])
            lines.append(edit([maker.change() for _ in range(count)]))
        else:
            lines.append(maker.command())
    return lines
