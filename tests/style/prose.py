"""Prose: no sentence of over 40 words, a mean of 14 to 26 words a sentence, and no banned word.

The rule reads the documents for people, and of the programs beside the gate the comments, where it
counts the words of sentences alone. A paragraph, a list item, a heading and a cell of a table each
are a block of their own.
"""

import re
from collections.abc import Iterator

from style.tree import Tree

MAX_WORDS = 40
LEAST_MEAN, MOST_MEAN = 14, 26
# A page of fewer sentences has no mean that says something.
FEW_SENTENCES = 10

# Words and phrases that say less than plain ones.
BANNED = [
    "what is",
    "that of",
    "such that",
    "a refused growth",
    "want of memory",
    "in order to",
    "utilize",
    "leverage",
    "simply",
    "obviously",
    "basically",
    "very",
    "robust",
    "seamless",
    "blazing",
    "state of the art",
    "best in class",
    "cutting edge",
    "and/or",
    "etc.",
    "e.g.",
    "i.e.",
    "as well as",
    "a number of",
    "due to the fact",
    "anew",
    "hangs on",
    "stands beside",
    "this machine",
    "since then",
]


def blocks(text: str) -> Iterator[tuple[int, str]]:
    """The blocks of a document, each with the number of its first line."""
    fenced, begun = False, 0
    block: list[str] = []
    for number, line in enumerate(text.split("\n") + [""], 1):
        if line.lstrip().startswith("```"):
            fenced = not fenced
            line = ""
        begins = re.match(r"\s*([-*|#]|\d+\. )", line)
        ends = fenced or not line.strip() or begins or line.startswith("    ")
        if ends and block:
            yield begun, " ".join(block)
            block = []
        is_rule = re.fullmatch(r"[|: -]+", line.strip())
        if fenced or not line.strip() or line.startswith("    ") or is_rule:
            continue
        if line.lstrip().startswith("|"):
            for cell in cells(line):
                yield number, cell
            continue
        if not block:
            begun = number
        block.append(re.sub(r"^\s*([-*#]+|\d+\.)\s+", "", line.strip()))


def cells(line: str) -> list[str]:
    """The cells of a line of a table that are not empty."""
    plain = re.sub(r"`[^`]*`", lambda code: code[0].replace("|", " "), line)
    return [cell.strip() for cell in plain.split("|") if cell.strip()]


def sentences(text: str) -> list[str]:
    """The sentences of a block, in which a piece of code counts as one word."""
    text = re.sub(r"`[^`]*`", "code", text)
    text = re.sub(r"\[([^]]*)\]\([^)]*\)", r"\1", text)
    return re.split(r"(?<=[.?!])[*)\"]*\s+", text)


def words_of(sentence: str) -> list[str]:
    """The words of a sentence."""
    return [word for word in sentence.split() if re.search(r"\w", word)]


def check_sentences(path: str, line: int, block: str) -> Iterator[str]:
    """The sentences of a block that are too long."""
    for sentence in sentences(block):
        count = len(words_of(sentence))
        if count > MAX_WORDS:
            yield f"{path}:{line}: a sentence of {count} words: {sentence[:60]}.."


def check_words(path: str, line: int, block: str) -> Iterator[str]:
    """The banned words of a block."""
    plain = re.sub(r"`[^`]*`", "", block).lower()
    for word in BANNED:
        if re.search(r"(?<!\w)" + re.escape(word) + r"(?!\w)", plain):
            yield f"{path}:{line}: '{word}'"


def check_mean(path: str, text: str) -> Iterator[str]:
    """The mean length of a page's sentences, where headings, tables and code do not count. A list
    item that no full stop ends is a part of the sentence around it."""
    lines, words, ends = text.split("\n"), 0, 0
    for line, block in blocks(text):
        if not lines[line - 1].lstrip().startswith(("#", "|")):
            for sentence in sentences(block):
                words += len(words_of(sentence))
                ends += sentence.rstrip('*)"').endswith((".", "?", "!"))
    if ends >= FEW_SENTENCES and not LEAST_MEAN <= words / ends <= MOST_MEAN:
        yield f"{path}:1: {words / ends:.1f} words a sentence"


def check_document(path: str, text: str) -> Iterator[str]:
    """The faults of a document. A heading may have any word."""
    yield from check_mean(path, text)
    lines = text.split("\n")
    for line, block in blocks(text):
        yield from check_sentences(path, line, block)
        if not lines[line - 1].startswith("#"):
            yield from check_words(path, line, block)


def check_comments(path: str, text: str) -> Iterator[str]:
    """The faults of a program. Comments on lines of their own, one below the other, are one
    block."""
    begun = 0
    block: list[str] = []
    for number, line in enumerate(text.split("\n") + [""], 1):
        found = re.match(r"\s*(?://[/!]?|--)\s*(.*)", line)
        if found and found[1]:
            begun = begun if block else number
            block.append(found[1])
        elif block:
            yield from check_sentences(path, begun, " ".join(block))
            block = []


def check(tree: Tree) -> Iterator[str]:
    """The faults of all documents, and of the programs beside the gate."""
    for path, text in tree.documents():
        yield from check_document(path, text)
    for path, text in tree.matching(".rattle", ".proof"):
        yield from check_comments(path, text)
