"""Edits that are tried together: which can be made in one set of texts, and what the prover calls
their functions."""

import dataclasses
import os
import re
from collections.abc import Sequence

from wrong_bodies.digest import without_comments
from wrong_bodies.edits import Crate, Edit, Function, FunctionId, functions, item_around
from wrong_bodies.edits import module_of_type, read_edit, without_parameters


def next_batch(
    files: Sequence[str], folder: str
) -> tuple[list[Edit], list[str], list[tuple[str, str]]]:
    """Edits of different functions, made together in one set of texts; the files that are left; and
    those that can't be made, each with why."""
    texts: dict[str, str] = {}
    batch: list[Edit] = []
    left: list[str] = []
    bad: list[tuple[str, str]] = []
    hit: set[FunctionId] = set()
    for file in files:
        edit = read_edit(file, folder, texts)
        if isinstance(edit, str) and isinstance(read_edit(file, folder, {}), str):
            bad.append((file, edit))
        elif isinstance(edit, str) or hit & edit.functions:
            left.append(file)
        else:
            texts, hit, batch = edit.texts, hit | edit.functions, [*batch, edit]
    return [dataclasses.replace(it, texts=texts) for it in batch], left, bad


def functions_of(batch: Sequence[Edit]) -> set[FunctionId]:
    """The functions that some edits change."""
    found: set[FunctionId] = set()
    return found.union(*(it.functions for it in batch))


def same_functions(text: str, wanted: FunctionId) -> list[Function]:
    """The functions of a source that have the name and the type of one. Traits may have several of
    one name."""
    return [it for it in functions(wanted.path, text) if it.id == wanted]


def full_name(crate: Crate, batch: Sequence[Edit], wanted: FunctionId) -> str:
    """The prover's name of a function of these edits; nothing where it can't be told. Of a type's
    functions of one name, as of several traits, it is that of the edit's line."""
    text = batch[0].texts.get(wanted.path, "")
    lines = {line for it in batch for path, line in it.places if path == wanted.path}
    same = same_functions(text, wanted)
    own = [it for it in same if any(it.first <= line <= it.last for line in lines)]
    if not wanted.name or len(own) != 1:
        return ""
    above = item_around(text.split("\n"), own[0].last - 1)
    if bool(wanted.owner) != above.startswith("impl") or " as " in above:
        return ""
    trait = re.match(r"impl (\w+(?:<.*>)?) for ", without_parameters(above))
    # The name of an impl for one type of a generic kind, as `Vec<Run>`, has the names of both.
    kind = re.match(rf"impl \S+ for {wanted.owner}<([\w, ]+)> ", above)
    more = re.findall(r"\w+", f"{kind[1] if kind else ''} {trait[1] if trait else ''}")
    owner = ["".join([wanted.owner, *more])] if wanted.owner else []
    home = module_of_type(crate, wanted.path, wanted.owner)
    return "::".join([crate.name, *home, *owner, wanted.name])


def full_names(crate: Crate, batch: Sequence[Edit]) -> list[str]:
    """The prover's names of the functions of these edits; nothing where one is of no function, or
    can't be told."""
    found = {full_name(crate, batch, it) for it in functions_of(batch)}
    return [] if "" in found else sorted(found)


def answer_files(crate: Crate, batch: Sequence[Edit]) -> list[str]:
    """The files of answers of the functions of these edits, which are there or could be: one for
    each function, and one for those that call one another."""
    found = set()
    for wanted in functions_of(batch):
        whole = full_name(crate, batch, wanted)
        own = same_functions(batch[0].texts.get(wanted.path, ""), wanted)
        if whole and len(own) == 1:
            lines = batch[0].texts[wanted.path].split("\n")[own[0].first - 1 : own[0].last]
            found |= answer_folders(crate, whole, wanted.name, "\n".join(lines))
    answered = [it for it in found if not os.path.exists(f"{crate.folder}/{it}/Proof.antt")]
    return sorted(f"{it}/Answers.antt" for it in answered)


def answer_folders(crate: Crate, whole: str, name: str, text: str) -> set[str]:
    """The folder of answers of a function, by its whole name and its text, or none where it can't
    be told."""
    cycle = re.search(r"#\[cycle\((\w+)\)\]", text)
    home = "/".join(["proofs", *whole.split("::")[1:-1]])
    common = f"{home}/+{cycle[1] if cycle else name}"
    if os.path.isdir(f"{crate.folder}/{common}"):
        return {common}
    body = without_comments(text, "//").replace(f"fn {name}", "", 1)
    calls = rf"(?:(?<![.:\w])|self\.|Self::){name}(?:::<[^(]*>)?\("
    return set() if cycle or re.search(calls, body) else {f"{home}/{name}"}
