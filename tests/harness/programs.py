"""The programs of the language in tests/language, as lines with their answers.

A topic file has notes up to its first line `---`; lines that begin with `####` are notes
everywhere. Each line `---` begins a program, or several where each line is one. What comes after it
says of which kind they are:

    ---             the text of BUILD, which is loaded
    --- module      the text of m.bzl beside an empty BUILD, and the module is asked for
    --- function    the text of m.bzl, and a BUILD shows `repr(f())`
    --- values      each line is a program: an expression of which a BUILD shows the `repr`
    --- lists       each line is a program: an expression that is a list of strings
    --- lines       each line is a program: a BUILD of this line
    --- pieces      each line is a program: a BUILD of this line without a newline

With `in //P` after its kind a program is in the package P, else in `k`. In a program these lines
say more:

    === NAME          the text of another file of the package begins; with `//` before it the name
                      is from the root
    ### beside NAMES  files with no text; where each line is a program, they are beside all of them
    ### text TEXTS    the exact text of the file, for bytes that no line shows: strings with `+` and
                      `N *` between
    ### no newline at the end          the last line of a file

How it ends is said after a line, or on a line of its own:

    ### fault CODE: WORDS            at this line; on a line of its own, and with fault 3, in the
                                     whole file (line 0)
    ### fault CODE at line N: WORDS  at a line that is not shown
    ### fault CODE of NAME: WORDS    in a file that is not shown; for a cycle its labels are in the
                                     place of NAME
    ### gives X                      what `repr` or the list shows
    ### holds JSON                   a target, one a line; `nothing` where there is none
    ### exports JSON                 the names of a module

The expected answers are made of these comments alone.
"""

import ast
import glob
import json
import os
import re
from collections.abc import Iterator

from harness.commands import Command, delete, load, module, put
from harness.context import ROOT, bytes_of
from harness.model import Answer

SYNTAX = 3
ONE_LINE = {
    "values": ('filegroup(name = "t", tags = [repr(', "\n)])\n"),
    "lists": ('filegroup(name = "t", tags = ', "\n)\n"),
    "lines": ("", "\n"),
    "pieces": ("", ""),
}
BESIDE_MODULE = {
    "module": "",
    "function": 'load(":m.bzl", "f")\nfilegroup(name = "t", tags = [repr(f())])\n',
}

HEAD = re.compile(r"---(?: ([a-z]+))?(?: in //(\S*))?")
SAID = re.compile(r"(.*?)\s*### (fault|gives|holds|exports|beside|text|no newline) (.*)")
# How a program of a kind may end; one of any other kind ends with a fault or holds targets.
ENDS = {
    "module": ("fault", "exports"),
    "function": ("fault", "gives"),
    "values": ("fault", "gives"),
    "lists": ("fault", "gives"),
}
FAULT = re.compile(r"(\d+)(?: at line (\d+))?(?: of (\S.*?))?: (.*)")

# A command with its answer. Of an accepted edit the answer says version 0.
Row = tuple[Command, Answer]
Words = dict[int, str]


class Malformed(Exception):
    """A topic file is not as it should be."""


def words_of_faults() -> Words:
    """The words of each fault code, by the table of docs/LANGUAGE.md."""
    text = bytes_of("docs/LANGUAGE.md").decode()
    rows = re.findall(r"^\| (\d+) \| (.+?) \| (\d+) \| (.+?) \|$", text, re.M)
    return {int(code): words for row in rows for code, words in (row[:2], row[2:])}


def exact(node: ast.expr) -> str:
    """The text of strings that are joined by `+` and repeated by `N *`."""
    if isinstance(node, ast.BinOp) and isinstance(node.op, ast.Add):
        return exact(node.left) + exact(node.right)
    if isinstance(node, ast.BinOp) and isinstance(node.op, ast.Mult):
        return int(ast.literal_eval(node.left)) * exact(node.right)
    return str(ast.literal_eval(node))


def said_in(line: str, place: str) -> re.Match[str] | None:
    """The comment in a line that says something of the program, or None."""
    said = SAID.fullmatch(line)
    if "### " in line and not said and not line.startswith("####"):
        raise Malformed(f"{place}: '{line}' has a comment that says nothing known")
    return said


class Program:
    """A program: its files, the kind of its request, and what its comments say of the answer."""

    def __init__(self, place: str, kind: str, package: str) -> None:
        self.place, self.kind, self.package = place, kind, package
        self.files: dict[str, str] = {}
        self.said: list[tuple[str, str, str, int]] = []
        self.present = self.path("BUILD")
        if kind in BESIDE_MODULE:
            self.files[self.present] = BESIDE_MODULE[kind]
            self.present = self.path("m.bzl")
        self.files[self.present] = ""

    def path(self, name: str) -> str:
        """The path of a file of the package, or from the root."""
        return name[2:] if name.startswith("//") else f"{self.package}/{name}".lstrip("/")

    def say(self, word: str, rest: str, line: int) -> None:
        """Takes what a comment says at a line of the present file."""
        if word == "beside":
            self.files.update((self.path(name), "") for name in rest.split())
        elif word == "text":
            self.files[self.present] = exact(ast.parse(rest, mode="eval").body)
        elif word == "no newline":
            self.files[self.present] = self.files[self.present].removesuffix("\n")
        else:
            self.said.append((word, rest, self.present, line))

    def read(self, line: str) -> None:
        """Takes a line of a program of many lines."""
        said = said_in(line, self.place)
        if line.startswith("=== "):
            self.present = self.path(line[4:])
            self.files.setdefault(self.present, "")
        elif said and not said[1]:
            self.say(said[2], said[3], 0)
        elif not line.startswith("####"):
            self.files[self.present] += (said[1] if said else line) + "\n"
            if said:
                self.say(said[2], said[3], self.files[self.present].count("\n"))

    def read_alone(self, line: str, beside: str) -> None:
        """Takes the line that is the whole program."""
        said = said_in(line, self.place)
        before, after = ONE_LINE[self.kind]
        self.files[self.present] = before + (said[1] if said else line) + after
        self.say("beside", beside, 0)
        if said:
            self.say(said[2], said[3], 1)

    def fault(self, words: Words) -> Answer:
        """The fault that the program ends with."""
        _, rest, path, line = self.said[0]
        found = FAULT.fullmatch(rest)
        known = words.get(int(found[1]), "").split(", or ") if found else []
        if not found or found[4] not in known or len(self.said) > 1:
            what = "is not one fault with the words of docs/LANGUAGE.md"
            raise Malformed(f"{self.place}: '{rest}' {what}")
        code, of = int(found[1]), found[3] or ""
        if of.startswith("["):
            return {"code": code, "cycle": json.loads(of)}
        if found[2] or of or code == SYNTAX:
            line = int(found[2] or 0)
        return {"code": code, "line": line, "path": self.path(of) if of else path}

    def targets(self) -> Iterator[Answer]:
        """The targets that the program ends with."""
        for word, rest, _, _ in self.said:
            if word == "gives":
                tags = json.loads(rest) if self.kind == "lists" else [rest]
                yield {"attrs": {"tags": tags}, "kind": "filegroup", "name": "t"}
            elif rest != "nothing":
                yield json.loads(rest)

    def answer(self, words: Words) -> Answer:
        """The answer to the program's request."""
        ends = ENDS.get(self.kind, ("fault", "holds"))
        if {word for word, *_ in self.said} not in [{word} for word in ends]:
            raise Malformed(f"{self.place}: how the program ends is not said")
        if self.said[0][0] == "fault":
            part: Answer = {"fault": self.fault(words)}
        elif self.kind == "module":
            part = {"exports": json.loads(self.said[0][1])}
        else:
            part = {"targets": list(self.targets())}
        return part if self.kind == "module" else {"packages": [{**part, "name": self.package}]}

    def rows(self, words: Words) -> Iterator[Row]:
        """The program's files, its request, and the removal of the files."""
        is_module = self.kind == "module"
        label = f"//{self.package}:m.bzl"
        for path, text in self.files.items():
            yield put(path, text), {"ok": 0}
        yield module(label) if is_module else load(self.package), self.answer(words)
        for path in self.files:
            yield delete(path), {"ok": 0}


def begun(line: str, place: str) -> tuple[str, str] | None:
    """The kind and the package of the programs that begin with a line `---`, or None."""
    found = HEAD.fullmatch(line)
    kinds = ["", *ONE_LINE, *BESIDE_MODULE]
    if line.startswith("--- ") and not found or found and (found[1] or "") not in kinds:
        raise Malformed(f"{place}: '{line}' begins no programs")
    return (found[1] or "", "k" if found[2] is None else found[2]) if found else None


def programs_of(path: str) -> Iterator[Program]:
    """The programs of a topic file, in their order."""
    with open(path, encoding="utf-8", newline="\n") as file:
        lines = file.read().removesuffix("\n").split("\n")
    program: Program | None = None
    head: tuple[str, str] | None = None
    beside = ""
    for number, line in enumerate(lines, 1):
        place = f"{os.path.basename(path)}:{number}"
        begins = begun(line, place)
        if begins:
            if program:
                yield program
            head, beside = begins, ""
            program = None if head[0] in ONE_LINE else Program(place, *head)
        elif program:
            program.read(line)
        elif head and line.startswith("### beside "):
            beside = line.removeprefix("### beside ")
        elif head and line and not line.startswith("####"):
            alone = Program(place, *head)
            alone.read_alone(line, beside)
            yield alone
    if program:
        yield program


def topics() -> list[str]:
    """The topic files."""
    return sorted(glob.glob(os.path.join(ROOT, "tests/language/*.star")))
