"""A naive program that compares two trees on disk: it shares only the loader's process."""

from __future__ import annotations

import json
import os
from pathlib import Path
from typing import Any

import naive

Targets = dict[str, Any]
LABELS = ("srcs", "data", "tools", "tests", "actual")


def needs(target: Any) -> set[str]:
    """Returns the labels that a target names."""
    found: set[str] = set()
    for name in LABELS:
        value = target["attrs"].get(name, [])
        found |= {value} if isinstance(value, str) else set(value)
    return found


def side(loader: str, root: Path) -> tuple[Targets, dict[str, Any], dict[str, bytes]]:
    """Returns the targets, the faults of packages and the files of one side."""
    targets, faults = {}, {}
    for name, raw in naive.answers(loader, os.fsencode(root)).items():
        item = json.loads(raw)
        if "fault" in item:
            faults[name] = item["fault"]
        for target in item.get("targets", ()):
            targets[f"//{name}:{target['name']}"] = target
    files = {
        str(it.relative_to(root)): it.read_bytes()
        for it in root.rglob("*")
        if it.is_file() and ".git" not in it.relative_to(root).parts
    }
    return targets, faults, files


def package_of(label: str) -> str:
    """Returns the package of a label."""
    return label[2:].partition(":")[0]


def own_reasons(label: str, old: Targets, new: Targets, paths: set[str]) -> list[str]:
    """Returns the reasons that lie in a target itself."""
    if label not in new:
        return ["gone"]
    if label not in old:
        reasons = ["new"]
    else:
        one, other = old[label], new[label]
        reasons = [f"kind {other['kind']}"] if one["kind"] != other["kind"] else []
        names = sorted({*one["attrs"], *other["attrs"]})
        differing = [it for it in names if one["attrs"].get(it) != other["attrs"].get(it)]
        reasons += [f"attributes {' '.join(differing)}"] if differing else []
    made = {f"//{package_of(it)}:{out}" for it in new for out in new[it]["attrs"].get("outs", ())}
    for path in sorted(paths):
        named = {it for it in needs(new[label]) if path == it[2:].replace(":", "/", 1).strip("/")}
        reasons += [f"source {path}" for it in named if it not in new and it not in made]
    return reasons


def compare(loader: str, before: Path, after: Path) -> dict[str, list[str]]:
    """Returns the targets that differ, each with its reasons."""
    old, old_faults, old_files = side(loader, before)
    new, new_faults, new_files = side(loader, after)
    paths = {it for it in {*old_files, *new_files} if old_files.get(it) != new_files.get(it)}
    reasons: dict[str, list[str]] = {}
    whole = set()
    for label in {*old, *new}:
        if package_of(label) in new_faults:
            reasons[label] = ["fault"]
        else:
            reasons[label] = own_reasons(label, old, new, paths)
        if reasons[label] and reasons[label][0] in ("fault", "new", "gone"):
            whole.add(label)
    outs = {
        label: {f"//{package_of(label)}:{it}" for it in made(old, new, label)} for label in reasons
    }
    affected = {label for label, found in reasons.items() if found}
    while True:
        users = {
            label
            for label in new
            if package_of(label) not in new_faults
            and any(needs(new[label]) & ({it} | outs[it]) for it in affected - {label})
        }
        if users <= affected:
            break
        affected |= users
    for label in affected - whole:
        if label in new:
            named = needs(new[label])
            needed = {it for it in affected if it != label and named & ({it} | outs[it])}
            reasons[label] = reasons[label] + [f"needs {it}" for it in sorted(needed)]
    return {label: reasons[label] for label in affected}


def made(old: Targets, new: Targets, label: str) -> set[str]:
    """Returns the outputs that a target has on either side."""
    return {
        it for one in (old, new) for it in one.get(label, {"attrs": {}})["attrs"].get("outs", ())
    }
