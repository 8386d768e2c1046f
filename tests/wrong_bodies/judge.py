"""What the prover said of edits: which of them it refused in their own functions, and what it could
not read.

Each line of the prover's output is looked at by itself. It counts for an edit where it says that a
goal of one of the edit's functions is refused: at a place in the text of the function, by the
function's name, or in its proof."""

import glob
import os
import re
from collections.abc import Sequence

from wrong_bodies.edits import Crate, Edit, functions, is_of_no_function, module_of
from wrong_bodies.edits import module_of_type

# What the prover says where a proof names something that the edit took away. That says nothing of
# the contract.
GONE = re.compile(r"has no field|is not in scope|has no `|was not admitted")
# A goal in a source that is refused.
AT_SOURCE = re.compile(
    r"(?:note: )?(?:what antt said .*?: )?(?:\./)?(src/\S+?):(\d+):\d+: "
    r"(?:error|it is not proved|`search` found no proof)"
)
AT_NAME = re.compile(r"fn (\S+?): .*`search` did not prove")
AT_PROOF = re.compile(r"\./(proofs/\S+)/\w+\.antt:\d+:\d+: error(?:: `(\w+)-)?")
ANYWHERE = re.compile(r"note: src/.* it is not proved|\./proofs/.*: error")
UNREAD = re.compile(r"(?:\./)?(?:src|specs)/\S+?:\d+:\d+: error(?:\[[^]]*\])?: (`[^`]*`: )?(.*)")


def own_folders(crate: Crate, path: str, owner: str, function: str) -> list[str]:
    """The folders of proofs that are the function's own. Those of a type's functions are below the
    module of the type, wherever the functions are written. A `+` marks those of functions that call
    themselves."""
    parts = ["**", f"{owner}*"] if owner else module_of(path)
    base = "/".join([f"{crate.folder}/proofs", *parts])
    patterns = [f"{base}/{mark}{function}" for mark in ("", "+")]
    return [crate.path(it) for pattern in patterns for it in glob.glob(pattern, recursive=True)]


def is_at_source(line: str, edit: Edit) -> bool:
    """Whether a line is of a goal that is in a function of the edit and is refused."""
    at = AT_SOURCE.match(line)
    if not at:
        return False
    own = [it for it in functions(at[1], edit.texts.get(at[1], "")) if it.id in edit.functions]
    return any(it.first <= int(at[2]) <= it.last for it in own)


def is_at_name(line: str, crate: Crate, edit: Edit) -> bool:
    """Whether a line says of a function of the edit that a goal of its own is refused."""
    found = AT_NAME.match(re.sub(r"<[^>]*>", "", line))
    parts = found[1].split("::") if found else [""]
    for it in edit.functions:
        home = [crate.name, *module_of_type(crate, it.path, it.owner)]
        is_home = parts[-1] == it.name and parts[: len(home)] == home
        if is_home and (not it.owner or parts[-2].startswith(it.owner)):
            return True
    return False


def is_at_proof(line: str, crate: Crate, edit: Edit) -> bool:
    """Whether a line is an error in the proof of a function of the edit. A function without a
    folder of its own may be proved in one with a `+`, together with those that it calls and that
    call it. There the name of what is refused begins with that of its function."""
    found = AT_PROOF.match(line)
    if not found or GONE.search(line):
        return False
    is_common = os.path.basename(found[1])[0] == "+"
    for it in edit.functions:
        own = own_folders(crate, it.path, it.owner, it.name)
        shared = "/".join(["proofs", *module_of(it.path), ""])
        beside = {at.id.name for at in functions(it.path, edit.texts.get(it.path, ""))} - {it.name}
        if is_common and found[2] in beside:
            continue
        if found[1] in own or not own and found[1].startswith(shared) and is_common:
            return True
    return False


def refused_in(batch: Sequence[Edit], said: Sequence[str], crate: Crate) -> list[Edit]:
    """The edits of a batch of which a goal is refused that can be no other's."""
    found: list[Edit] = []
    for line in said:
        hit = [it for it in batch if is_at(line, crate, it)]
        found += hit if len(hit) == 1 and hit[0] not in found else []
    return found


def is_at(line: str, crate: Crate, edit: Edit) -> bool:
    """Whether a line says that a goal of a function of the edit is refused."""
    return (
        is_at_source(line, edit) or is_at_name(line, crate, edit) or is_at_proof(line, crate, edit)
    )


def is_refused_alone(said: Sequence[str], crate: Crate, edit: Edit) -> bool:
    """Whether an edit is refused that was tried alone. One of no function, as of a constant, may be
    refused anywhere."""
    if not is_of_no_function(edit):
        return bool(refused_in([edit], said, crate))
    return any(ANYWHERE.match(it) and not GONE.search(it) for it in said)


def is_unread(line: str) -> bool:
    """Whether a line says that the prover could not read an edited text."""
    found = UNREAD.match(line)
    return bool(found and (not found[1] or GONE.search(found[2])))


def judge_alone(status: int, said: Sequence[str], crate: Crate, edit: Edit) -> str:
    """Why an edit that was tried alone counts as not refused, or nothing where it is refused."""
    if status == 0:
        return "the crate is still proved with it"
    unread = [it for it in said if is_unread(it)]
    if unread or not any(it.startswith(("logic=not-proved", "only=")) for it in said):
        lines = unread or [it for it in said if it.strip()] or [""]
        return f"the prover did not read it: {lines[0][:200]}"
    if not is_refused_alone(said, crate, edit):
        return "no goal of its own function is refused for the contract"
    return ""


def judge_batch(
    status: int, said: Sequence[str], crate: Crate, batch: Sequence[Edit]
) -> tuple[list[Edit], list[Edit]]:
    """Which edits of a batch have to be tried again together, and which alone. The rest is
    refused."""
    unread = [it for it in said if is_unread(it)]
    if unread or not any(it.startswith(("logic=", "only=")) for it in said):
        hit = [it for it in batch if any(is_at_source(line, it) for line in unread)]
        apart = hit or list(batch)
        return [it for it in batch if it not in apart], apart
    refused = refused_in(batch, said, crate) if status == 1 else []
    return [], [it for it in batch if it not in refused]
