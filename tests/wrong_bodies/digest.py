"""The digest of a crate: of all texts that decide whether its wrong bodies are refused.

These are the crate's sources, definitions, proofs and edits, the definitions and contracts of the
crates below that these name, or that those name in turn, and the kit's logic. Comments, idle
imports, hints on inlining and the way that lines are broken count for nothing, and neither does a
function below that the crate's sources and edits do not name."""

import collections
import fcntl
import functools
import hashlib
import os
import re
import subprocess
from collections.abc import Iterator

from wrong_bodies.edits import FOLDERS, FUNCTION, PARTS, Crate, Repository, below, functions
from wrong_bodies.edits import item_around, read

TABLE = "wrong-bodies.txt"
HEAD = (
    "# The crates whose wrong bodies were all refused: how many, and the digest of the texts at "
    "which that was seen.\n# Written by `make wrong-bodies`; `make test` compares the digests.\n"
)
# Hints to who compiles a function, which change no proof.
HINT = re.compile(r" *#\[(?:inline.*|cold)\]$")
# A private type or constant, with its attributes.
PRIVATE_ITEM = re.compile(
    r"(?m)^(?:#\[.*\]\n)*(?:const|struct|enum) (\w+)\b"
    r"(?:[^;{]*;|[^;{]*\{\n(?:    .*\n)*\})(?:\n|\Z)"
)
DROP_IMPL = re.compile(r"(?m)^impl(?:<.*>)? Drop for .*\{\n(?:    #\[.*\]\n)*\}\n?")
DROP_DERIVED = re.compile(r"(?m)^#\[derive\(Drop\)\]\n|(?<=[(, ])Drop, (?=.*\)\]$)|, Drop(?=\)\]$)")
DECLARED = re.compile(
    r"(?m)^ *pub(?:\([a-z ]+\))? (?:const |unsafe )*(?:fn|struct|enum|trait|type|const) (\w+)"
)


def without_comments(text: str, mark: str) -> str:
    """A text without the lines that are comments or hints, and without empty lines."""
    lines = [line for line in text.split("\n") if line.strip() and not HINT.match(line)]
    return "\n".join(line for line in lines if not line.lstrip().startswith(mark))


@functools.cache
def parts_shown(text: str) -> tuple[tuple[str, str], ...]:
    """What a source shows to the crates above, in parts: without comments, imports, bodies and
    private functions. A part that is a function which is called by its name begins with that name,
    and all other parts with nothing."""
    lines = [line for line in text.split("\n") if not HINT.match(line)]
    parts, at = [], 0
    for it in functions("", "\n".join(lines)):
        if it.first - 1 < at:
            continue
        spans = range(it.first - 1, it.last)
        first = next(at for at in spans if FUNCTION.match(lines[at]))
        begins = (at for at in range(first, it.last) if begins_body(lines[at]))
        body = next(begins, it.last)
        around = item_around(lines, first)
        is_shared = bool(re.match(r"(pub )?trait |impl.* for ", around))
        parts.append(("", items_of(lines[at : it.first - 1])))
        if lines[first].lstrip().startswith("pub ") or is_shared:
            name = "" if is_shared else it.id.name
            parts.append((name, items_of(lines[it.first - 1 : body])))
        at = it.last
    return (*parts, ("", items_of(lines[at:])))


def items_of(lines: list[str]) -> str:
    """Lines of a source without comments, imports and empty lines."""
    is_no_item = re.compile(r" *(//|use |ghost use )")
    return "\n".join(line for line in lines if line.strip() and not is_no_item.match(line))


@functools.cache
def contracts_in(text: str, words: frozenset[str] | None) -> str:
    """What a source shows to a crate above that has these words, or to all: beside what it does not
    show to any, it is without the functions that the crate does not name, and without how a type
    that contracts see as a model is represented."""
    parts = parts_shown(text)
    named = [it for name, it in parts if it and (not name or words is None or name in words)]
    return without_private_items(without_drops(without_representations("\n".join(named))))


def begins_body(line: str) -> bool:
    """Whether the body of a function begins in a line of it."""
    return bool(re.match(r" *\{|.*(?<!record )\{$", line))


def without_drops(shown: str) -> str:
    """A source's items without what lets a type go. A drop that is written out has no contract, and
    says no more than a derived one."""
    return DROP_DERIVED.sub("", DROP_IMPL.sub("", shown))


def without_representations(shown: str) -> str:
    """A source's items without the private fields of the types that have a model, and without how
    that is computed. The crates above know such a type by its model alone."""
    for name in re.findall(r"(?m)^impl(?:<.*?>)? Model for (\w+)", shown):
        fields = rf"(?m)(^pub struct {name}\b[^;{{]*\{{\n)((?:    .*\n)*)"
        shown = re.sub(fields, lambda it: it[1] + public_lines(it[2]), shown)
    return re.sub(r"(?m)^    ghost view = \{(?:.*\};$|(?:.*\n)*?    \};$)\n?", "", shown)


def public_lines(fields: str) -> str:
    """The public ones of the lines of a type's fields."""
    return "".join(f"{line}\n" for line in fields.split("\n") if line.startswith("    pub "))


def without_private_items(shown: str) -> str:
    """A source's items without the private types and constants that none of them names."""
    for item in PRIVATE_ITEM.finditer(shown):
        rest = shown.replace(item[0], "", 1)
        if not re.search(rf"\b{item[1]}\b", rest):
            return without_private_items(rest)
    return shown


def imports_in(lines: list[str], shown: str) -> Iterator[tuple[str, str]]:
    """The ghost imports of a source that a text names: each name with its module."""
    for line in lines:
        it = re.match(r" *ghost use ([^;{]+?)(?:\.\{(.*)\}| as (\S+))?;", line)
        for name in (it[2] or it[3] or it[1].rpartition(".")[2]).split(", ") if it else []:
            if it and is_named(name.rpartition(" as ")[2], shown):
                yield it[1], name


def is_named(name: str, text: str) -> bool:
    """Whether a text names a definition; an operator, by each of its parts."""
    if "◌" in name:
        return all(part in text for part in name.split("◌"))
    return bool(re.search(rf"(?<![\w.]){re.escape(name)}(?!\w)", text))


def imports_of(lines: list[str], shown: str) -> list[str]:
    """The ghost imports of a source that a text names, one name each."""
    return sorted({f"{module} {name}" for module, name in imports_in(lines, shown)})


@functools.cache
def own_text(text: str, is_source: bool) -> str:
    """What counts of a text of the crate itself: it is without comments, and a source is without
    imports for contracts that nothing names."""
    if not is_source:
        return without_comments(text, "--")
    lines = without_comments(text, "//").split("\n")
    code = "\n".join(line for line in lines if not re.match(r" *(pub )?ghost use ", line))
    return "\n".join([*imports_of(lines, code), code])


@functools.cache
def shown_text(text: str, is_source: bool, words: frozenset[str] | None = None) -> str:
    """What counts of a text of a crate below, in one line, for a crate with these words."""
    if not is_source:
        return in_one_line(without_comments(text, "--"))
    shown = contracts_in(text, words)
    return in_one_line("\n".join([*imports_of(text.split("\n"), shown), shown]))


def in_one_line(text: str) -> str:
    """A text in which it does not show how its lines were broken."""
    return re.sub(r"\s*\n\s*", " ", text)


class Digests:
    """The digests of a repository's crates at one state of its files. Each file is read once."""

    def __init__(self, repository: Repository, logic: str) -> None:
        self.repository, self.logic = repository, logic
        self.uses = repository.uses()
        self.text = functools.cache(read)
        self.homes = functools.cache(self._homes)
        self.named_from = functools.cache(self._named_from)

    def digest(self, name: str) -> str:
        """The digest of all texts that decide whether the crate's wrong bodies are refused."""
        made = hashlib.sha256(self.logic.encode())
        crate = self.repository.crate(name)
        words = self.words_of(crate)
        own, shown = own_files(crate), self.reached_from(crate)
        texts = [(it, in_one_line(own_text(self.text(it), is_source(it)))) for it in own]
        texts += [(it, in_one_line(self.text(it))) for it in crate.edits()]
        texts += [(it, shown_text(self.text(it), is_source(it), words)) for it in shown]
        for file, text in texts:
            for part in os.path.relpath(file, self.repository.root), text:
                made.update(f"{len(part.encode())} ".encode() + part.encode())
        return made.hexdigest()[:32]

    def reached_from(self, crate: Crate) -> list[str]:
        """The files of the crates below on which a crate's texts depend: those that they name, and
        those that these name in turn."""
        own, words = own_files(crate), self.words_of(crate)
        found: set[str] = set()
        left = [(it, True) for it in own]
        while left:
            file, is_own = left.pop()
            home = os.path.relpath(file, f"{self.repository.root}/crates").partition("/")[0]
            reached = (home, *below(home, self.uses))
            further = self.named_from(file, reached, None if is_own else words) - found
            found |= further
            left += [(it, False) for it in further]
        return sorted(found - set(own))

    def words_of(self, crate: Crate) -> frozenset[str]:
        """All words of a crate's sources and edits, the names of what it calls among them."""
        texts = [self.text(it) for it in crate.files(PARTS, ".rt") + crate.edits()]
        return frozenset(word for it in texts for word in re.findall(r"\w+", it))

    def _named_from(
        self, file: str, reached: tuple[str, ...], words: frozenset[str] | None
    ) -> set[str]:
        """The files of some crates that a file names, which is one of the crate itself, or of one
        below as a crate sees it that has some words."""
        text = self.text(file)
        if not is_source(file):
            paths = re.findall(r"\bRattle\.\w+\.specs\.[\w.]+", text)
            return {it for it in map(self.module_file, paths) if it}
        lines = text.split("\n")
        shown = own_text(text, True) if words is None else contracts_in(text, words)
        modules = [it for it, _ in imports_in(lines, shown) if ".specs." in it]
        found = {it for it in map(self.module_file, modules) if it}
        for name, crates in self.names_used(lines, shown, reached):
            found |= {home for it in crates for home in self.homes(it).get(name, ())}
        return found

    def names_used(
        self, lines: list[str], text: str, reached: tuple[str, ...]
    ) -> Iterator[tuple[str, tuple[str, ...]]]:
        """The names of Rust items that a text has by the imports of its source, each with the
        crates that it may be of. The source is of the first of these crates."""
        for line in re.findall(r"(?ms)^ *(?:pub )?use ([^;]*);", "\n".join(lines)):
            first, _, rest = line.partition("::")
            is_crate = first in ("crate", "self", "super")
            at = reached[:1] if is_crate else (first,) if first in reached else ()
            for name in re.findall(r"\w+", rest) if at else []:
                if re.search(rf"\b{name}\b", text):
                    # One that is not found there is passed on from another crate.
                    yield name, at if self.homes(at[0]).get(name) else reached
        # A type's functions are where the type is found, so of a path that begins with one only the
        # type counts.
        for first, name in re.findall(r"\b([a-z]\w*)::(\w+)", text):
            is_there = first in reached and self.homes(first).get(name)
            yield name, (first,) if is_there else reached

    def _homes(self, name: str) -> dict[str, set[str]]:
        """The sources of a crate in which each name is declared or is the type of an `impl`, and
        each module."""
        found: dict[str, set[str]] = collections.defaultdict(set)
        for file in self.repository.crate(name).sources():
            text = self.text(file)
            for declared in DECLARED.findall(text):
                found[declared].add(file)
            for head in re.findall(r"(?m)^impl\b(.*)\{$", text):
                for word in re.findall(r"\w+", head):
                    found[word].add(file)
            found[os.path.basename(file).removesuffix(".rt")].add(file)
        return found

    def module_file(self, path: str) -> str | None:
        """The file of the crates that a ghost import goes to: definitions, or the source where a
        type is declared."""
        crate, _, rest = path.removeprefix("Rattle.").partition(".specs.")
        parts, folder, ending, more = rest.split("."), "specs", ".antt", []
        if parts[0] == "declared":
            parts, folder, ending, more = parts[1:], "src", ".rt", ["lib"]
        names = ["/".join(parts[:count]) for count in range(len(parts), 0, -1)] + more
        home = f"{self.repository.root}/crates/{crate}/{folder}"
        files = (f"{home}/{it}{ending}" for it in names)
        return next((it for it in files if os.path.exists(it)), None)


def own_files(crate: Crate) -> list[str]:
    """The sources, definitions and proofs of a crate, the sources first."""
    return crate.files(PARTS, ".rt") + crate.files(PARTS, ".antt")


def is_source(file: str) -> bool:
    """Whether a file is a source, and not definitions or proofs."""
    return file.endswith(".rt")


def kit_logic() -> str:
    """The sum of the kit's rules and definitions. They alone decide whether a body meets its
    contract. How well the prover searches, which differs from kit to kit, decides only whether that
    is found."""
    ran = subprocess.run(["rt", "version"], capture_output=True, text=True, check=True)
    return ran.stdout.partition("logic ")[2].strip()


class Table:
    """The file that has a line for each crate whose edits were all refused: their number, and the
    digest."""

    def __init__(self, repository: Repository) -> None:
        self.repository, self.file = repository, f"{repository.root}/{TABLE}"

    def lines(self) -> dict[str, tuple[str, ...]]:
        """The number and the digest of each crate that has a line."""
        lines = read(self.file).split("\n") if os.path.exists(self.file) else []
        rows = [line.split() for line in lines if line and line[0] != "#"]
        return {row[0]: tuple(row[1:]) for row in rows}

    def write(self, name: str, line: tuple[str, str] | None) -> None:
        """Writes a crate's line, or takes it out. Another run may do so at the same time."""
        lock = os.open(self.repository.root, os.O_RDONLY)
        fcntl.flock(lock, fcntl.LOCK_EX)
        table = self.lines()
        table[name] = line or ()
        rows = [f"{it} {' '.join(table[it])}\n" for it in self.repository.uses() if table.get(it)]
        with open(f"{self.file}.new", "w", encoding="utf-8") as out:
            out.write(HEAD + "".join(rows))
        os.replace(f"{self.file}.new", self.file)
        os.close(lock)


def stale(repository: Repository, logic: str) -> list[str]:
    """The crates whose wrong bodies were not all refused at the present texts. What the gate itself
    tries needs no line."""
    digests, lines, found = Digests(repository, logic), Table(repository).lines(), []
    for name in repository.uses():
        edits = repository.crate(name).edits()
        is_tried = any(f"/{FOLDERS[0]}/" in it for it in edits)
        if is_tried and lines.get(name) != (str(len(edits)), digests.digest(name)):
            found.append(name)
    return found
