"""A source without the loader: its statements, its loads and the names that it binds.

No answer depends on these alone. They propose places, and the loader confirms them. The loads are
the exception that `needs` relies on: they may be more than the loader sees, but never fewer.
"""

from __future__ import annotations

import ast
import re
import warnings
from typing import Iterator, NamedTuple

MAX_RESTARTS = 20

_SOURCE = "<sefgulaw>"
warnings.filterwarnings("ignore", module=re.escape(_SOURCE))


class Span(NamedTuple):
    """A piece of a file. Lines and columns count from 1; the end column is one past it."""

    line: int
    column: int
    end_line: int
    end_column: int


class LoadText(NamedTuple):
    """The label of a load statement as its string means it, and the place of the string."""

    label: str
    span: Span


class Trouble(NamedTuple):
    """What Python's parser says about a piece that it cannot read."""

    span: Span
    message: str


_STRING = (
    r'"""(?:\\.|[^\\])*?"""'
    r"|'''(?:\\.|[^\\])*?'''"
    r'|"(?:\\.|[^"\\\n])*"'
    r"|'(?:\\.|[^'\\\n])*'"
)
_LOAD = re.compile(r"^load *\((?:[ \n]|#[^\n]*\n)*(" + _STRING + ")", re.M | re.S)
_ESCAPE = re.compile(r"\\([\\\"'ntr])")
_MEANT = {"n": "\n", "t": "\t", "r": "\r"}

_MARK = re.compile(r"""[#"'()\[\]{}]""")
_BEGINNING = re.compile(r"[A-Za-z_]\w*\s*[(=]|def\s|load\s*\(")
_CONTINUES = re.compile(r"[\s)\]}#]|(?:else|elif)\b|\Z")
_BOUND = re.compile(r"(?:def\s+)?([A-Za-z_]\w*)\s*(?:=(?!=)|\()")
_ITEM = re.compile(r"""([A-Za-z_]\w*)\s*=\s*["']|["']([A-Za-z_]\w*)["']""")


def loads(text: str) -> list[LoadText]:
    """Returns the loads of a file: each load statement of a file that parses is among them.

    By the grammar a load statement begins at the first column, and only spaces, newlines and
    comments stand before its string. Text that looks so inside a long string is found as well,
    which does no harm.
    """
    found = []
    for match in _loads(text):
        found.append(LoadText(_unquoted(match[1]), _span_of(text, match.start(1), match.end(1))))
    return found


def load_labels(text: str) -> list[str]:
    """Returns the labels of `loads`, which takes no time for their places."""
    return [_unquoted(match[1]) for match in _loads(text)]


def _loads(text: str) -> Iterator[re.Match[str]]:
    """Yields what `_LOAD.finditer` yields, and tries the pattern only where a line begins so."""
    at = text.find("load")
    while at >= 0:
        found = _LOAD.match(text, at) if at == 0 or text[at - 1] == "\n" else None
        if found is not None:
            yield found
        at = text.find("load", at + 4 if found is None else found.end())


def _unquoted(literal: str) -> str:
    quotes = 3 if literal[:3] in ('"""', "'''") else 1
    inner = literal[quotes:-quotes]
    return _ESCAPE.sub(lambda match: _MEANT.get(match[1], match[1]), inner)


def _span_of(text: str, start: int, end: int) -> Span:
    line = text.count("\n", 0, start) + 1
    end_line = line + text.count("\n", start, end)
    column = start - text.rfind("\n", 0, start)
    return Span(line, column, end_line, end - text.rfind("\n", 0, end))


class _Extent(NamedTuple):
    """A statement as the scanner sees it: the lines from `first` up to `after`, counted from 0."""

    first: int
    after: int
    closed: bool
    guesses: list[int]


class _Scanner:
    """Counts brackets and strings line by line."""

    def __init__(self) -> None:
        self.depth = 0
        self.quote = ""

    def take(self, line: str) -> None:
        """Goes over one line. A string in single quotes ends with its line, closed or not."""
        at = 0
        while at < len(line):
            if self.quote:
                at = self._in_string(line, at)
                continue
            mark = _MARK.search(line, at)
            if mark is None or mark[0] == "#":
                break
            at = mark.end()
            if mark[0] in "\"'":
                triple = mark[0] * 3
                self.quote = triple if line.startswith(triple, at - 1) else mark[0]
                at += len(self.quote) - 1
            else:
                self.depth = max(0, self.depth + (1 if mark[0] in "([{" else -1))
        if len(self.quote) == 1:
            self.quote = ""

    def _in_string(self, line: str, at: int) -> int:
        while at < len(line):
            if line[at] == "\\":
                at += 2
            elif line.startswith(self.quote, at):
                at += len(self.quote)
                self.quote = ""
                break
            else:
                at += 1
        return at


def _extent(lines: list[str], first: int) -> _Extent:
    """Finds where the statement that begins at a line ends, by its brackets."""
    scanner = _Scanner()
    guesses: list[int] = []
    scanner.take(lines[first])
    for number in range(first + 1, len(lines)):
        line = lines[number]
        if not scanner.quote and not _CONTINUES.match(line):
            if scanner.depth == 0:
                return _Extent(first, number, True, guesses)
            if _BEGINNING.match(line):
                guesses.append(number)
        scanner.take(line)
    return _Extent(first, len(lines), scanner.depth == 0 and not scanner.quote, guesses)


def _extents(lines: list[str]) -> Iterator[_Extent]:
    """Yields the statements. One that no parser can read ends where a line looks as another one
    does.
    """
    first, restarts = 0, 0
    while first < len(lines):
        if _CONTINUES.match(lines[first]) and not lines[first].startswith((")", "]", "}")):
            first += 1
            continue
        extent = _extent(lines, first)
        if extent.guesses and not _is_whole(lines, extent):
            restarts += 1
            guesses = extent.guesses if restarts > MAX_RESTARTS else extent.guesses[:1]
            for guess in guesses[:-1]:
                yield _Extent(first, guess, False, [])
                first = guess
            extent = _Extent(first, guesses[-1], False, [])
        yield extent
        first = extent.after


def _is_whole(lines: list[str], extent: _Extent) -> bool:
    if not extent.closed:
        return False
    return not isinstance(_parse_lines(lines[extent.first : extent.after]), SyntaxError)


def statements(text: str) -> list[Span]:
    """Returns the statements at file level, each from its first column to its last line that says
    something.

    Brackets tell where a statement ends. Where one is left open, the statement ends before the
    first line that looks as the beginning of another one.
    """
    lines = text.split("\n")
    found = []
    for extent in _extents(lines):
        last = extent.after - 1
        while last > extent.first and not lines[last].strip(" \t"):
            last -= 1
        while last > extent.first and lines[last].startswith("#"):
            last -= 1
            while last > extent.first and not lines[last].strip(" \t"):
                last -= 1
        end = len(lines[last].rstrip()) + 1
        found.append(Span(extent.first + 1, 1, last + 1, end))
    return found


def _parse_lines(lines: list[str]) -> ast.Module | SyntaxError:
    """Python's tree of some lines. Whatever keeps Python from it comes as a syntax error."""
    try:
        return ast.parse("\n".join(lines) + "\n", filename=_SOURCE)
    except SyntaxError as error:
        return error
    except (ValueError, RecursionError, MemoryError) as error:
        return SyntaxError(str(error) or "too deep", (_SOURCE, 1, 1, "", 1, 1))


def parse(text: str, span: Span | None = None) -> ast.Module | Trouble:
    """Parses a statement of a text, or all of the text, as Python does. The tree has the text's
    lines.
    """
    lines = text.split("\n")
    first, last = (span.line, span.end_line) if span else (1, len(lines))
    piece = lines[first - 1 : last]
    tree = _parse_lines(piece)
    if isinstance(tree, SyntaxError):
        return _trouble(tree, first, piece)
    if first > 1:
        ast.increment_lineno(tree, first - 1)
    return tree


def _trouble(error: SyntaxError, first: int, piece: list[str]) -> Trouble:
    at = min(max((error.lineno or 1) - 1, 0), len(piece) - 1)
    column = min(max(error.offset or 1, 1), len(piece[at]) + 1)
    end_at = min(max((error.end_lineno or 0) - 1, at), len(piece) - 1)
    end_column = max(error.end_offset or 0, 1)
    if end_at == at:
        end_column = max(end_column, column + 1)
    return Trouble(Span(first + at, column, first + end_at, end_column), error.msg)


def names_bound(text: str) -> set[str]:
    """Returns the names that a text binds at file level, by loads, assignments and functions.

    A statement that cannot be parsed is looked at by its first words, so a name that it would bind
    is known.
    """
    tree = parse(text)
    if isinstance(tree, ast.Module):
        return {name for node in tree.body for name in _bound_by(node)}
    found: set[str] = set()
    lines = text.split("\n")
    for span in statements(text):
        one = parse(text, span)
        if isinstance(one, ast.Module):
            found |= {name for node in one.body for name in _bound_by(node)}
        else:
            found |= _bound_at_a_glance("\n".join(lines[span.line - 1 : span.end_line]))
    return found


def _bound_at_a_glance(statement: str) -> set[str]:
    match = _BOUND.match(statement)
    if match is None:
        return set()
    if match[1] == "load":
        names = (one or other for one, other in _ITEM.findall(statement))
        return {name for name in names}
    if statement.startswith("def") or "=" in match[0]:
        return {match[1]}
    return set()


def _bound_by(node: ast.stmt) -> Iterator[str]:
    if isinstance(node, (ast.FunctionDef, ast.ClassDef)):
        yield node.name
    elif isinstance(node, ast.Expr) and isinstance(node.value, ast.Call):
        yield from _loaded_by(node.value)
    elif isinstance(node, (ast.Assign, ast.AugAssign, ast.AnnAssign, ast.For)):
        targets = node.targets if isinstance(node, ast.Assign) else [node.target]
        for target in targets:
            yield from _names_of_target(target)
    if isinstance(node, (ast.For, ast.If, ast.While)):
        for inner in [*node.body, *node.orelse]:
            yield from _bound_by(inner)


def _names_of_target(target: ast.expr) -> Iterator[str]:
    if isinstance(target, ast.Name):
        yield target.id
    elif isinstance(target, (ast.Tuple, ast.List)):
        for element in target.elts:
            yield from _names_of_target(element)
    elif isinstance(target, ast.Starred):
        yield from _names_of_target(target.value)


def _loaded_by(call: ast.Call) -> Iterator[str]:
    if not (isinstance(call.func, ast.Name) and call.func.id == "load"):
        return
    for item in call.args[1:]:
        if isinstance(item, ast.Constant) and isinstance(item.value, str):
            yield item.value
    for keyword in call.keywords:
        if keyword.arg is not None:
            yield keyword.arg
