"""Dead definitions: what nothing reaches of the definitions and lemmas of the crates.

Reached is what a source names, by an import for its contracts or in an attribute, the answers and
invariants of functions, the programs beside the gate, and whatever these name in turn. A text names
a declaration of its own file or one that the file imports. The rows of tests are live as well.

`python3 tests/style/dead.py` prints a line for each dead declaration, and fails where there is one.
A name that a text binds itself, as by a pattern, counts as one that it names, so the list may lack
some.
"""

import fnmatch
import os
import re
import sys
from collections.abc import Iterator

HERE = os.path.dirname(os.path.abspath(__file__))
sys.path.insert(0, os.path.dirname(HERE))

from style.antt import Declaration, Import, Module, imports_in, read_module, words_of  # noqa: E402
from style.tree import Tree  # noqa: E402

# Modules whose declarations are rows of tests.
ROWS = (
    "Rattle.values_semantics.proofs.Examples",
    "Rattle.loader_replies.proofs.Rows",
    "Rattle.evaluator_semantics.proofs.RowsOf*",
)
# The proofs of a function: what is public in them is an answer to the prover.
OF_FUNCTIONS = ("Answers", "Invariants", "Proof")
ENDINGS = (".antt", ".proof")
# A path in an attribute of a source, as `crate::proofs::Words::outside`.
ATTRIBUTE = re.compile(r"\b(\w+)::(specs|proofs)::([\w:◌'-]+)")

Node = tuple[str, int]


def module_name(path: str) -> str:
    """The name by which a file of definitions or proofs is imported, or that of a program's."""
    home = re.sub(r"^(crates|tests|bench|examples)/", "", os.path.splitext(path)[0])
    return f"Rattle.{home.replace('/', '.')}"


class Scope:
    """The declarations that a text of a file may name, by the words that name them."""

    def __init__(self, graph: "Graph", name: str, module: Module) -> None:
        self.names: dict[str, set[Node]] = {}
        self.aliases: dict[str, str] = {}
        self.graph = graph
        for it in module.imports:
            self.add_import(it)
        for word, node in graph.declared.get(name, {}).items():
            self.names.setdefault(word, set()).update(node)

    def add_import(self, it: Import) -> None:
        """Adds a name that is imported. One of a whole module stands before a dot."""
        whole = f"{it.module}.{it.name}" if it.name else it.module
        if whole in self.graph.modules:
            self.aliases[it.here] = whole
        elif it.name:
            self.names.setdefault(it.here, set()).update(self.graph.find(it.module, it.name))
        else:
            home, _, name = it.module.rpartition(".")
            self.names.setdefault(it.here, set()).update(self.graph.find(home, name))

    def named(self, words: set[str]) -> Iterator[Node]:
        """The declarations that words name. An operator is named by all of its parts."""
        for word in words:
            yield from self.names.get(word, ())
            first, _, rest = word.partition(".")
            if first in self.aliases and rest:
                yield from self.graph.find(self.aliases[first], rest)
        for name, nodes in self.names.items():
            parts = [part for part in name.split("◌") if part]
            if "◌" in name and all(part in words for part in parts):
                yield from nodes


class Graph:
    """The declarations of all files, and which of them are reached."""

    def __init__(self, tree: Tree) -> None:
        self.tree = tree
        files = [it for it in tree.matching(*ENDINGS) if "/src/" not in it[0]]
        self.paths = {module_name(path): path for path, _ in files}
        self.modules = {module_name(path): read_module(text) for path, text in files}
        self.declared: dict[str, dict[str, set[Node]]] = {}
        for name, module in self.modules.items():
            found = self.declared.setdefault(name, {})
            for at, it in enumerate(module.declarations):
                for word in (it.name, *it.constructors):
                    found.setdefault(word, set()).add((name, at))
        self.scopes = {name: Scope(self, name, it) for name, it in self.modules.items()}

    def find(self, module: str, name: str) -> set[Node]:
        """The declarations of a name of a module, also where it only passes the name on."""
        found = self.declared.get(module, {}).get(name)
        if found or module not in self.modules:
            return found or set()
        passed = [it for it in self.modules[module].imports if it.is_passed_on and it.here == name]
        nodes: set[Node] = set()
        return nodes.union(*(self.find(it.module, it.name) for it in passed))

    def declaration(self, node: Node) -> Declaration:
        """The declaration of a node."""
        return self.modules[node[0]].declarations[node[1]]

    def roots(self) -> Iterator[Node]:
        """What is reached from outside: the answers of functions, rows of tests, all that the
        programs beside the gate declare, and what sources name."""
        for name, module in self.modules.items():
            is_program = not self.paths[name].startswith("crates/")
            is_row = any(fnmatch.fnmatch(name, row) for row in ROWS)
            is_answer = name.rpartition(".")[2] in OF_FUNCTIONS
            for at, it in enumerate(module.declarations):
                if is_program or is_row or is_answer and it.is_public:
                    yield name, at
        for path, text in self.tree.matching(".rt", ".rattle"):
            yield from self.named_by_source(path, text)

    def named_by_source(self, path: str, text: str) -> Iterator[Node]:
        """What a source names."""
        lines = text.split("\n")
        is_import = re.compile(r"\s*(?:pub )?ghost use ")
        imports = [it for line in lines if is_import.match(line) for it in imports_in(line)]
        scope = Scope(self, "", Module([], imports))
        code = [re.sub(r"//.*", "", line) for line in lines if not is_import.match(line)]
        yield from scope.named({word for line in code for word in words_of(line)})
        crate = path.split("/")[1]
        for first, part, rest in ATTRIBUTE.findall("\n".join(code)):
            home = ".".join(["Rattle", crate if first == "crate" else first, part])
            module, _, name = rest.replace("::", ".").rpartition(".")
            yield from self.find(f"{home}.{module}", name)

    def reached(self) -> set[Node]:
        """All that is reached."""
        found: set[Node] = set()
        left = list(self.roots())
        while left:
            node = left.pop()
            if node not in found:
                found.add(node)
                left += self.scopes[node[0]].named(self.declaration(node).words())
        return found

    def dead(self) -> list[Node]:
        """The declarations of the crates that nothing reaches, in the order of their files."""
        reached = self.reached()
        nodes = [
            (name, at)
            for name, module in self.modules.items()
            for at in range(len(module.declarations))
        ]
        return [it for it in nodes if it not in reached]


def main() -> int:
    """Prints what is dead."""
    tree = Tree.tracked(os.path.dirname(os.path.dirname(HERE)))
    graph = Graph(tree)
    dead = graph.dead()
    for node in dead:
        it = graph.declaration(node)
        print(f"{graph.paths[node[0]]}:{it.line}: {it.name} is reached by nothing")
    count = sum(len(it.declarations) for it in graph.modules.values())
    print(f"dead: {len(dead)} of {count} definitions and lemmas")
    return 1 if dead else 0


if __name__ == "__main__":
    sys.exit(main())
