"""Random trees whose graph is known by how they were made, and a naive evaluator over pairs."""

from __future__ import annotations

import random
import re
from collections.abc import Iterable, Mapping

Pair = tuple[str, str]
Targets = set[str]


class Model:
    """A tree of the four rules, with the kinds and the pairs of all its targets."""

    def __init__(self, chance: random.Random) -> None:
        self.chance = chance
        self.files: dict[str, str] = {".sefgulaw.toml": ""}
        self.kinds: dict[str, str] = {}
        self.pairs: set[Pair] = set()
        self.tags: dict[str, list[str]] = {}
        self.outs: dict[str, list[str]] = {}
        self.sources: dict[str, list[str]] = {}
        self.loads: dict[str, set[str]] = {}
        self.packages = ["", *chance.sample(["a", "a/b", "c", "c/d/e", "f"], 4)]
        for package in self.packages:
            self._package(package)
        self.rules = {it for it, kind in self.kinds.items() if kind.endswith(" rule")}
        for package in self.packages:
            self._write(package)

    def _package(self, package: str) -> None:
        head = f"//{package}:"
        for number in range(self.chance.randrange(1, 6)):
            kind = self.chance.choice(["filegroup", "genrule", "alias", "test_suite"])
            label = f"{head}t{number}"
            self.kinds[label] = f"{kind} rule"
            self.tags[label] = self.chance.sample(["fast", "slow", "manual"], 2)
            if kind == "genrule":
                self.outs[label] = [f"{head}o{number}.txt"]
                self.kinds[self.outs[label][0]] = "generated file"
                self.pairs.add((self.outs[label][0], label))
        for number in range(2):
            self.kinds[f"{head}s{number}.c"] = "source file"
        self.kinds[f"{head}BUILD"] = "source file"

    def _write(self, package: str) -> None:
        head = f"//{package}:"
        place = f"{package}/" if package else ""
        text = ""
        others = self.chance.sample(self.packages, 1)
        modules = {f"//{it}:m.bzl" for it in others if self.chance.random() < 0.6}
        self.loads[package] = modules
        for label in sorted(modules):
            text += f'load("{label}", "V")\n'
        own = [it for it in self.rules if it.startswith(head)]
        possible = sorted(self.rules | {it for made in self.outs.values() for it in made})
        for label in sorted(own):
            text += self._rule(label, head, possible)
        self.files[f"{place}BUILD"] = text
        self.files[f"{place}m.bzl"] = "V = 1\n"
        for number in range(2):
            self.files[f"{place}s{number}.c"] = ""

    def _rule(self, label: str, head: str, possible: list[str]) -> str:
        kind = self.kinds[label].removesuffix(" rule")
        needs = self.chance.sample(possible, min(len(possible), self.chance.randrange(4)))
        if kind == "alias":
            needs = needs[:1] or [self.chance.choice(possible)]
        if kind in ("filegroup", "genrule"):
            needs += self.chance.sample([f"{head}s0.c", f"{head}s1.c"], self.chance.randrange(3))
        self.pairs |= {(label, need) for need in needs}
        self.sources[label] = needs
        attribute = {"alias": "actual", "test_suite": "tests"}.get(kind, "srcs")
        value = repr(needs[0]) if kind == "alias" else repr(needs)
        words = f'{kind}(name = "{label.partition(":")[2]}", {attribute} = {value}'
        if kind == "genrule":
            words += f', outs = ["{self.outs[label][0].partition(":")[2]}"], cmd = "c"'
        return f"{words}, tags = {self.tags[label]!r})\n".replace("'", '"')

    # Sets of pairs.

    def after(self, roots: Iterable[str], depth: int | None = None) -> Targets:
        """Returns what is needed, by going over all pairs again and again."""
        found = set(roots)
        steps = 0
        while depth is None or steps < depth:
            more = {to for start, to in self.pairs if start in found} - found
            if not more:
                break
            found |= more
            steps += 1
        return found

    def before(self, within: Targets, roots: Iterable[str], depth: int | None = None) -> Targets:
        """Returns what needs some targets, among those that are within."""
        found = set(roots) & within
        steps = 0
        while depth is None or steps < depth:
            more = {it for it, to in self.pairs if to in found and it in within} - found
            if not more:
                break
            found |= more
            steps += 1
        return found

    def named(self, package: str) -> Targets:
        """Returns the targets of a package, and the files that it names."""
        head = f"//{package}:"
        rules = {it for it in self.rules if it.startswith(head)}
        made = {it for label in rules for it in self.outs.get(label, ())}
        read = {to for start, to in self.pairs if start in rules and to.startswith(head)}
        return rules | made | read | {f"{head}BUILD"}


class Expressions:
    """Random expressions, each with the targets that it stands for by the model."""

    def __init__(self, model: Model) -> None:
        self.model, self.chance = model, model.chance

    def leaf(self) -> tuple[str, Targets]:
        """Returns a pattern."""
        model = self.model
        package = self.chance.choice(model.packages)
        head = f"//{package}:"
        kind = self.chance.randrange(6)
        if kind == 0:
            return "//...", set(model.rules)
        if kind == 1:
            return f"//{package}:all", {it for it in model.rules if it.startswith(head)}
        if kind == 2:
            return f"//{package}:*", model.named(package)
        if kind == 3:
            below = f"//{package}/" if package else "//"
            found = {it for it in model.rules if it.startswith((head, below))}
            return (f"//{package}/..." if package else "//..."), found
        one = self.chance.choice(sorted(model.kinds))
        return one, {one}

    def one(self, depth: int) -> tuple[str, Targets]:
        """Returns an expression that is nested at most so deep."""
        if depth == 0 or self.chance.random() < 0.15:
            return self.leaf()
        return self.chance.choice([self._operation, self._let, self._walk, self._look])(depth - 1)

    def _operation(self, depth: int) -> tuple[str, Targets]:
        text, found = self.one(depth)
        for _ in range(self.chance.randrange(1, 4)):
            other, right = self.one(depth)
            name = self.chance.choice(["+", "-", "^", "union", "except", "intersect"])
            other = f"({other})" if " " in other else other
            if name in ("+", "union"):
                found = found | right
            else:
                found = found - right if name in ("-", "except") else found & right
            text = (
                f"{text} {name} {other}"
                if not text.startswith("let")
                else f"({text}) {name} {other}"
            )
        return text, found

    def _let(self, depth: int) -> tuple[str, Targets]:
        value, bound = self.one(depth)
        text, found = self.one(depth)
        name = f"v{self.chance.randrange(3)}"
        text = f"({text})"
        return f"let {name} = {value} in ${name} + {text}", bound | found

    def _walk(self, depth: int) -> tuple[str, Targets]:
        model = self.model
        text, roots = self.one(depth)
        steps = self.chance.choice([None, 0, 1, 2])
        limit = "" if steps is None else f", {steps}"
        kind = self.chance.randrange(5)
        if kind == 0:
            return f"deps({text}{limit})", model.after(roots, steps)
        if kind == 1:
            within, universe = self.one(depth)
            found = model.before(model.after(universe), roots, steps)
            return f"rdeps({within}, {text}{limit})", found
        if kind == 2:
            found = model.before(model.after(model.rules), roots, steps)
            return f"allrdeps({text}{limit})", found
        if kind == 3:
            other, ends = self.one(depth)
            found = model.before(model.after(roots), ends)
            return f"allpaths({text}, {other})", found
        packages = {it.partition(":")[0] for it in roots}
        beside = {it for name in packages for it in model.named(name[2:])}
        found = {
            start
            for start, to in model.pairs
            if start in beside and to in roots and start.partition(":")[0] == to.partition(":")[0]
        }
        return f"same_pkg_direct_rdeps({text})", found

    def _look(self, depth: int) -> tuple[str, Targets]:
        model = self.model
        text, roots = self.one(depth)
        kind = self.chance.randrange(8)
        if kind == 0:
            word = self.chance.choice(["rule", "^filegroup", "source|gen", "e rule$", "_suite"])
            found = {it for it in roots if re.search(word, model.kinds[it])}
            return f'kind("{word}", {text})', found
        if kind == 1:
            word = self.chance.choice([":t[01]$", "^//a", "\\.", "o"])
            return f'filter("{word}", {text})', {it for it in roots if re.search(word, it)}
        if kind == 2:
            word = self.chance.choice(["fast", "slow", "manual"])
            found = {it for it in roots if word in model.tags.get(it, ())}
            return f'attr(tags, "\\b{word}\\b", {text})', found
        if kind == 3:
            rules = [it for it in roots if model.kinds[it] in ("filegroup rule", "genrule rule")]
            return f"labels(srcs, {text})", {to for it in rules for to in model.sources[it]}
        if kind == 4:
            return f"labels(outs, {text})", {to for it in roots for to in model.outs.get(it, ())}
        packages = {it.partition(":")[0][2:] for it in roots}
        if kind == 5:
            return f"siblings({text})", {it for name in packages for it in model.named(name)}
        if kind == 6:
            return f"some({text})", set(sorted(roots)[:1])
        return f"tests({text})", set()


def build_files(
    model: Model, loads: Mapping[str, set[str]], roots: Targets
) -> tuple[Targets, Targets]:
    """Returns the .bzl files of the packages of some targets, and these with all BUILD files."""
    packages = {it.partition(":")[0][2:] for it in roots}
    modules = {label for name in packages for label in loads[name]}
    around = packages | {label.partition(":")[0][2:] for label in modules}
    return modules, modules | {f"//{name}:BUILD" for name in around}
