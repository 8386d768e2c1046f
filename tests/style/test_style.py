"""Tests the rules of style: for each one a text that breaks it, and one that keeps it.

Run it by `python3 tests/style/test_style.py`. It needs no prover but for the layout, where a small
script takes the place of `rt fmt`.
"""

import os
import stat
import subprocess
import sys
import tempfile
import unittest
from collections.abc import Callable, Iterator
from unittest import mock

HERE = os.path.dirname(os.path.abspath(__file__))
sys.path.insert(0, os.path.dirname(HERE))

from style import contracts, errors, example, imports, layers, layout  # noqa: E402
from style import links, names, prose, signatures, sizes  # noqa: E402
from style.tree import Tree  # noqa: E402

WORDS_40 = " ".join(["word"] * 40)
CLAUSE = "    ensures { " + "a" * 90 + " }"


def lines(count: int) -> str:
    """A text of so many lines."""
    return "x\n" * count


def rust_function(count: int, field: str = "    x;\n") -> str:
    """A function of so many lines, with its first and its last."""
    return "fn f() {\n" + field * (count - 2) + "}\n"


class RuleTest(unittest.TestCase):
    """A folder of its own for each test."""

    def setUp(self) -> None:
        """Makes the folder, and removes it after the test."""
        room = tempfile.TemporaryDirectory()
        self.addCleanup(room.cleanup)
        self.root = room.name

    def tree(self, files: dict[str, str]) -> Tree:
        """A tree of these files."""
        for path, text in files.items():
            file = os.path.join(self.root, path)
            os.makedirs(os.path.dirname(file), exist_ok=True)
            with open(file, "w", encoding="utf-8") as out:
                out.write(text)
        return Tree(self.root, files)

    def breaks(
        self, check: Callable[[Tree], Iterator[str]], files: dict[str, str], *faults: str
    ) -> None:
        """The files have these faults and no other."""
        self.assertEqual(list(check(self.tree(files))), list(faults))


class ProseTest(RuleTest):
    """Sentences and words."""

    def test_long_sentence(self) -> None:
        long = f"{WORDS_40} more."
        fault = f": a sentence of 41 words: {long[:60]}.."
        self.breaks(prose.check, {"README.md": f"# A\n\n{WORDS_40}.\n"})
        self.breaks(prose.check, {"README.md": f"# A\n\n{long}\n"}, f"README.md:3{fault}")
        self.breaks(prose.check, {"docs/A.md": f"Short.\n\n- {long}\n"}, f"docs/A.md:3{fault}")
        self.breaks(
            prose.check, {"docs/A.md": f"| a | {long} |\n|---|---|\n"}, f"docs/A.md:1{fault}"
        )
        self.breaks(prose.check, {"a.proof": f"x\n-- {WORDS_40}\n-- more.\n"}, f"a.proof:2{fault}")
        self.breaks(prose.check, {"a.rattle": f"// {long}\n"}, f"a.rattle:1{fault}")

    def test_what_is_no_sentence(self) -> None:
        text = f"```\n{WORDS_40} more\n```\n\n    {WORDS_40} more\n\n`{WORDS_40} more` is code.\n"
        self.breaks(prose.check, {"README.md": text, "tests/A.md": f"{WORDS_40} more"})

    def test_mean(self) -> None:
        few, many = "It is so. " * 10, f"{' '.join(['word'] * 30)}. " * 10
        fault = "docs/A.md:1: {} words a sentence".format
        self.breaks(prose.check, {"docs/A.md": f"{few}\n"}, fault("3.0"))
        self.breaks(prose.check, {"docs/A.md": f"{many}\n"}, fault("30.0"))
        self.breaks(prose.check, {"docs/A.md": f"{few}\n\n{many}\n"})
        self.breaks(prose.check, {"docs/A.md": "It is so. " * 9 + "\n"})

    def test_banned_word(self) -> None:
        for word in prose.BANNED:
            with self.subTest(word):
                self.breaks(
                    prose.check, {"README.md": f"It is {word} so.\n"}, f"README.md:1: '{word}'"
                )
        self.breaks(prose.check, {"README.md": "# Very\n\nIt says `very` or every.\n"})


class DocumentTest(RuleTest):
    """Links, paths and the example."""

    def test_links(self) -> None:
        page = "# One head\n\n[a](A.md#one-head) [b](#one-head) [c](https://none.example/x)\n"
        self.breaks(links.check, {"docs/A.md": page, "README.md": "[a](docs/A.md)\n"})
        self.breaks(
            links.check,
            {"README.md": "x\n[a](docs/B.md)\n"},
            "README.md:2: a dead link to docs/B.md",
        )
        fault = "docs/A.md:1: no heading for #other"
        self.breaks(links.check, {"docs/A.md": "[a](#other)\n# One\n"}, fault)

    def test_paths(self) -> None:
        text = "`crates/a/src` and `crates/a/out/b`\n"
        self.breaks(links.check, {"README.md": text, "crates/a/src/lib.rt": ""})
        self.breaks(
            links.check,
            {"docs/A.md": "`tests/none.py`\n"},
            "docs/A.md:1: a dead path, tests/none.py",
        )

    def test_example(self) -> None:
        files = {"README.md": 'It is:\n\n{"op":"a"}\n', example.EXAMPLE: '{"op":"a"}\n'}
        self.breaks(example.check, files)
        files[example.EXAMPLE] = '{"op":"b"}\n'
        fault = "README.md:1: its session is not that of examples/session.jsonl"
        self.breaks(example.check, files, fault)


class SizeTest(RuleTest):
    """Sizes of files and functions."""

    def test_files(self) -> None:
        self.breaks(sizes.check, {"a.rt": lines(800), "clients/a.py": "x\n" * 400})
        for ending in sizes.ENDINGS:
            path = f"tests/a{ending}"
            self.breaks(sizes.check, {path: lines(801)}, f"{path}:1: 801 lines")
        for folder in sizes.MODULES:
            path = f"{folder}a.py"
            self.breaks(sizes.check, {path: lines(401)}, f"{path}:1: 401 lines")

    def test_crates(self) -> None:
        files = {f"crates/a/src/{name}.rt": "use b;\n\n// c\n" + lines(750) for name in "xy"}
        self.breaks(sizes.check, files)
        files["crates/a/src/z.rt"] = lines(1)
        fault = "crates/a/src/lib.rt:1: 1501 lines of code in the crate"
        self.breaks(sizes.check, files, fault)

    def test_functions(self) -> None:
        self.breaks(sizes.check, {"a.rt": rust_function(60)})
        self.breaks(sizes.check, {"a.rt": "x\n" + rust_function(61)}, "a.rt:2: f has 61 lines")
        self.breaks(sizes.check, {"a.rattle": rust_function(61)}, "a.rattle:1: f has 61 lines")
        self.breaks(sizes.check, {"a.rt": rust_function(100, "    field: value,\n")})
        declared = "trait A {\n    fn f();\n    fn g()\n        ensures { a };\n" + lines(70)
        self.breaks(sizes.check, {"a.rt": declared + "}\n"})
        for (path, name), count in sizes.LONG.items():
            text = rust_function(count).replace("f()", f"{name}()")
            self.breaks(sizes.check, {path: text})
            text = rust_function(count + 1).replace("f()", f"{name}()")
            self.breaks(sizes.check, {path: text}, f"{path}:1: {name} has {count + 1} lines")

    def test_python_functions(self) -> None:
        body = "    x = 1\n" * 59
        for path in ("clients/a.py", "tests/run.py", "tests/checks/a.py"):
            self.breaks(sizes.check, {path: f"def f():\n{body}"})
            self.breaks(
                sizes.check, {path: f"\n@at\ndef f():\n{body}"}, f"{path}:2: f has 61 lines"
            )


class SignatureTest(RuleTest):
    """Parameters, contracts and bodies of functions."""

    PATH = "crates/a/src/a.rt"

    def of(self, text: str, *faults: str, table: str = "") -> None:
        """Compares the faults of one source, beside a table of those that may be over."""
        files = {self.PATH: text, signatures.TABLE: f"# a comment\n{table}"}
        self.breaks(signatures.check, files, *faults)

    def test_parameters(self) -> None:
        def head(count: int) -> str:
            given = ", ".join(f"x{at}: Vec<(u8, u8)>" for at in range(count))
            return (
                f"fn f<R: Fn(u8) -> u8, S>({given}, alloc: Global) -> Result<(), Memory> {{\n}}\n"
            )

        self.of(head(6))
        fault = f"{self.PATH}:1: f: parameters of 7, of at most 6"
        self.of(head(7), fault)
        self.of(head(7), table="parameters 7 a/src/a.rt f\n")

    def test_contracts(self) -> None:
        def text(count: int) -> str:
            return "fn f()\n" + "    ensures { a }\n" * count + "{\n    x\n}\n"

        self.of(text(10))
        self.of(text(11), f"{self.PATH}:1: f: contract of 11, of at most 10")

    def test_bodies(self) -> None:
        def text(count: int) -> str:
            return "fn f()\n    ensures { a }\n{\n" + "    x;\n" * count + "}\n"

        self.of(text(39))
        self.of(text(41), f"{self.PATH}:1: f: body of 42, of at most 40")

    def test_an_idle_line(self) -> None:
        fault = f"{signatures.TABLE}:1: an idle line: body a/src/a.rt f"
        self.of("fn f() {\n}\n", fault, table="body 50 a/src/a.rt f\n")


class CrateTest(RuleTest):
    """Sources, definitions and proofs of the crates."""

    def test_contracts(self) -> None:
        path = "crates/a/src/a.rt"
        self.breaks(contracts.check, {path: f"fn f()\n{CLAUSE[:98]} }}\n{{\n"})
        fault = f"{path}:1: a clause of over 100 columns: {CLAUSE.strip()[:60]}"
        self.breaks(contracts.check, {path: f"fn f()\n{CLAUSE}\n{{\n"}, fault)
        more = "    ensures {\n" + "a" * 101 + "\n    }\n" + "b" * 101 + "\n"
        fault = f"{path}:1: a clause of over 100 columns: {'a' * 60}"
        self.breaks(contracts.check, {path: more}, fault)

    def test_double_imports(self) -> None:
        text = "use a::{b, c};\nuse d::{e};\n"
        for path in ("crates/a/src/a.rt", "crates/a/specs/A.antt"):
            self.breaks(imports.check, {path: text})
            fault = f"{path}:1: a module imported from twice: use a::"
            self.breaks(imports.check, {path: f"{text}use a::{{f}};\n"}, fault)

    def test_idle_imports(self) -> None:
        path = "crates/a/src/a.rt"
        text = "ghost use Rattle.b.specs.B.{one, two as three, _◌+◌_};\n"
        self.breaks(imports.check, {path: f"{text}one three _ + _\n"})
        faults = [f"{path}:1: an idle import: {it}" for it in ("one", "three", "_◌+◌_")]
        self.breaks(imports.check, {path: f"{text}ones x.one two\n"}, *faults)

    def test_names(self) -> None:
        for path in ("crates/a/src/held.rt", "crates/a/specs/LaidAndAsked.antt", "a/made.proof"):
            name = os.path.basename(path).partition(".")[0]
            self.breaks(names.check, {path: ""}, f"{path}:1: {name} says that something was done")
        fault = "a/a.rattle:1: FilesKept says that something was done"
        self.breaks(names.check, {"a/a.rattle": "pub struct FilesKept {\n"}, fault)
        self.breaks(names.check, {"a/a.rattle": "pub struct Refused {\nenum Keeper {\n"})

    def test_unnamed_fields(self) -> None:
        path = "crates/a/src/a.rt"
        self.breaks(names.check, {path: "pub enum A {\n    B(u64),\n    At(Text, u64),\n}\n"})
        fault = f"{path}:1: a field with no name: Text, bool"
        self.breaks(names.check, {path: "enum A {\n    B(Text, bool),\n}\n"}, fault)

    def test_errors(self) -> None:
        head = "an error of an allocation that nothing told:"
        path = "crates/a/src/a.rt"
        self.breaks(errors.check, {path: "Err(AllocError)\n"}, f"{path}:1: {head} AllocError")
        fault = f"{path}:1: {head} Memory::no_number_left"
        self.breaks(errors.check, {path: "Memory::no_number_left()\n"}, fault)
        taken = "use core::AllocError;\nfn f(at: AllocError) -> Result<u64, AllocError> {\n"
        self.breaks(errors.check, {path: f"{taken}    Memory::from(at) // AllocError\n"})
        home = "crates/values_heap/src/heap.rt"
        self.breaks(errors.check, {home: "Memory::no_number_left()\n"})


class LayerTest(RuleTest):
    """The list of crates."""

    def check(self, text: str, *faults: str) -> None:
        """A list of crates has these faults, where some crates are there."""
        names = ["base_a", "base_b", "labels", "syntax", "values", "values_semantics", "other_a"]
        files = {f"crates/{it}/src/lib.rt": "" for it in names}
        self.breaks(
            layers.check, {**files, layers.LIST: text}, *(f"{layers.LIST}:{it}" for it in faults)
        )

    def test_uses(self) -> None:
        base = "# base\nbase_a: core\nbase_b may_wait=1: base_a\n"
        self.check(f"# The crates.\n\n{base}\n# files, on base\nlabels: base_a thiserror\n")
        fault = "2: base_b uses base_a, which is not above it"
        self.check("# base\nbase_b: base_a\nbase_a:\n", fault)
        fault = "5: labels uses base_b, whose layer its heading lacks"
        self.check(f"{base}# files\nlabels: base_b\n", fault)
        self.check("# base\nbase_c: base_a\n", "2: there is no crate base_c")

    def test_later_layer(self) -> None:
        later = "# values\nvalues_semantics:\nvalues:\n"
        self.check(f"# syntax, on values\nsyntax: values_semantics\n{later}")
        fault = "2: syntax uses values, which is not above it"
        self.check(f"# syntax, on values\nsyntax: values\n{later}", fault)

    def test_places(self) -> None:
        self.check("base_a:\n# base\nbase_b:\n", "1: base_a is under no heading")
        self.check("# base\nbase_a:\nlabels:\n", "3: labels is under base")
        self.check("# files\nlabels:\nbase_a:\n", "3: base_a is under files")

    def test_headings(self) -> None:
        fault = "1: the heading of base names {} for nothing".format
        self.check("# base, on files\nbase_a:\n", fault("files"))
        self.check("# base, on base\nbase_a:\nbase_b: base_a\n", fault("base"))
        fault = "{}: no layer, or not in its place: {}".format
        self.check("# other\nother_a:\n", fault(1, "other"))
        self.check("# files\nlabels:\n# base\nbase_a:\n", fault(3, "base"))
        self.check("# base\nbase_a:\n# base\nbase_b:\n", fault(3, "base"))
        comment = "# a shared text, and so on"
        told = f"2: a comment that is no heading: {comment}"
        self.check(f"# base\n{comment}\nbase_a:\n", told)


# Takes the place of `rt fmt`: it takes the spaces at the ends of lines away.
FORMATTER = """#!/bin/sh
grep -q unreadable src/lib.rt && exit 1
sed -i 's/ *$//' src/lib.rt
"""


class LayoutTest(RuleTest):
    """The layout of the crates."""

    def setUp(self) -> None:
        """Puts the script at the head of the path."""
        super().setUp()
        script = os.path.join(self.root, "bin/rt")
        self.tree({"bin/rt": FORMATTER})
        os.chmod(script, os.stat(script).st_mode | stat.S_IXUSR)
        path = f"{os.path.dirname(script)}:{os.environ['PATH']}"
        given = mock.patch.dict(os.environ, {"PATH": path})
        given.start()
        self.addCleanup(given.stop)

    def test_layout(self) -> None:
        path = "crates/a/src/lib.rt"
        self.breaks(layout.check, {path: "fn f();\n"})
        self.breaks(layout.check, {path: "fn f(); \n"}, f"{path}:1: not in the layout of `rt fmt`")
        fault = "crates/a:1: `rt fmt` can't read it"
        self.breaks(layout.check, {path: "unreadable\n"}, fault)


class TreeTest(RuleTest):
    """The files that the rules look at."""

    def test_tracked(self) -> None:
        self.tree({"a.md": "", "docs/b.md": "", "docs/in/c.md": "", "README.md": "", "left.md": ""})
        for words in (["init", "-q"], ["add", "a.md", "docs", "README.md"]):
            subprocess.run(["git", *words], cwd=self.root, check=True)
        os.remove(os.path.join(self.root, "a.md"))
        tree = Tree.tracked(self.root)
        self.assertEqual(tree.paths, ["README.md", "docs/b.md", "docs/in/c.md"])
        self.assertEqual([path for path, _ in tree.documents()], ["README.md", "docs/b.md"])
        self.assertEqual(
            [path for path, _ in tree.matching(".md", below="docs/in")], ["docs/in/c.md"]
        )


if __name__ == "__main__":
    unittest.main()
