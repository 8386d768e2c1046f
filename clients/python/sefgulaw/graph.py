"""Walks over graphs that are given by a function from a node to the nodes that it needs."""

from __future__ import annotations

from collections.abc import Callable, Collection, Iterable, Mapping, Sequence

Step = Callable[[str], Iterable[str]]


def reach(step: Step, roots: Iterable[str], depth: int | None = None) -> dict[str, int]:
    """Returns the nodes that are reached in at most so many steps, each with its distance."""
    found = dict.fromkeys(roots, 0)
    level = list(found)
    distance = 0
    while level and (depth is None or distance < depth):
        distance += 1
        following = []
        for node in level:
            for other in step(node):
                if other not in found:
                    found[other] = distance
                    following.append(other)
        level = following
    return found


def backwards(step: Step, nodes: Collection[str]) -> dict[str, list[str]]:
    """Returns which of the nodes need each node."""
    users: dict[str, list[str]] = {}
    for node in nodes:
        for other in step(node):
            known = users.get(other)
            if known is None:
                users[other] = [node]
            else:
                known.append(node)
    return users


def stepping(edges: Mapping[str, Sequence[str]]) -> Step:
    """Returns the step along some edges. A node without an edge leads nowhere."""

    def step(node: str) -> Iterable[str]:
        return edges.get(node, ())

    return step


def path(step: Step, starts: Iterable[str], ends: Collection[str]) -> list[str]:
    """Returns a shortest path from a start to an end, or none. Starts are tried in their order."""
    before: dict[str, str | None] = dict.fromkeys(starts)
    level = list(before)
    while level:
        following = []
        for node in level:
            if node in ends:
                return _back(before, node)
            for other in step(node):
                if other not in before:
                    before[other] = node
                    following.append(other)
        level = following
    return []


def _back(before: Mapping[str, str | None], node: str) -> list[str]:
    found = [node]
    above = before[node]
    while above is not None:
        found.append(above)
        above = before[above]
    return found[::-1]


def between(step: Step, starts: Iterable[str], ends: Iterable[str]) -> set[str]:
    """Returns the nodes of all paths from a start to an end."""
    after = reach(step, starts)
    users = stepping(backwards(step, after.keys()))
    return reach(users, (node for node in ends if node in after)).keys() & after.keys()
