"""Tests the search for dead definitions: each way to reach one, and what is not reached."""

import os
import sys
import tempfile
import unittest

HERE = os.path.dirname(os.path.abspath(__file__))
sys.path.insert(0, os.path.dirname(HERE))

from style.dead import Graph  # noqa: E402
from style.tree import Tree  # noqa: E402

SPECS = """-- definitions
pub mod Other

abbrev pub seen : ℕ → ℕ
seen n = inner n

inner : ℕ → ℕ
inner n = n

unfoldable pub left : ℕ → ℕ
unfolding seen
left n = seen n

pub data Way : Type 0 where
  Up : Way
  Down : ℕ → Way

pub record Pair : Type 0 where
  pub first : ℕ
  pub second : Way

abbrev pub ◌also◌ : ℕ → ℕ → ℕ
n also m = n
"""


class DeadTest(unittest.TestCase):
    """A small crate `a`, and sometimes a crate `b` above it."""

    def dead(self, **files: str) -> list[str]:
        """The dead declarations of files. A name has `__` in the place of a slash."""
        with tempfile.TemporaryDirectory() as root:
            paths = []
            for name, text in files.items():
                path, _, ending = name.replace("__", "/").rpartition("_")
                paths.append(f"{path}.{ending}")
                os.makedirs(os.path.dirname(f"{root}/{paths[-1]}"), exist_ok=True)
                with open(f"{root}/{paths[-1]}", "w", encoding="utf-8") as out:
                    out.write(text)
            graph = Graph(Tree(root, paths))
            return [graph.declaration(it).name for it in graph.dead()]

    def test_nothing_is_reached(self) -> None:
        found = self.dead(crates__a__specs__A_antt=SPECS)
        self.assertEqual(found, ["seen", "inner", "left", "Way", "Pair", "◌also◌"])

    def test_import_alone_reaches_nothing(self) -> None:
        source = "ghost use Rattle.a.specs.A.{left};\n// left\nfn f() {}\n"
        found = self.dead(crates__a__specs__A_antt=SPECS, crates__a__src__a_rt=source)
        self.assertIn("left", found)

    def test_source_reaches_what_its_contracts_name(self) -> None:
        source = "ghost use Rattle.a.specs.A.{left, Down as D};\n    ensures { left D }\n"
        found = self.dead(crates__a__specs__A_antt=SPECS, crates__a__src__a_rt=source)
        self.assertEqual(found, ["Pair", "◌also◌"])

    def test_alias_and_operator(self) -> None:
        source = "ghost use Rattle.a.specs.A as q;\nghost use Rattle.a.specs.A.{◌also◌};\n"
        uses = f"{source}    ensures {{ q.Pair also q.Way }}\n"
        found = self.dead(crates__a__specs__A_antt=SPECS, crates__a__src__a_rt=uses)
        self.assertEqual(found, ["seen", "inner", "left"])

    def test_attribute_of_a_source(self) -> None:
        lemmas = "pub one : ℕ\none = two\n\ntwo : ℕ\ntwo = 2\n\npub three : ℕ\nthree = 3\n"
        source = "#[tactic(auto, using(crate::proofs::L::one))]\nfn f() {}\n"
        found = self.dead(crates__a__proofs__L_antt=lemmas, crates__a__src__a_rt=source)
        self.assertEqual(found, ["three"])
        above = source.replace("crate::", "a::")
        found = self.dead(crates__a__proofs__L_antt=lemmas, crates__b__src__a_rt=above)
        self.assertEqual(found, ["three"])

    def test_answers_and_rule_sets(self) -> None:
        lemmas = "pub ruleset all = (one, two)\n\npub one : ℕ\none = 1\n\npub two : ℕ\ntwo = 2\n"
        answers = (
            "use Rattle.a.proofs.L.{all}\nuse Rattle.a.proofs.f.Goals as goal\n\n"
            "pub T::returns : goal.T::returns\nT::returns c = search all\n\n"
            "helper : ℕ\nhelper = 1\n"
        )
        self.assertEqual(self.dead(crates__a__proofs__L_antt=lemmas), ["all", "one", "two"])
        found = self.dead(
            crates__a__proofs__L_antt=lemmas, crates__a__proofs__f__Answers_antt=answers
        )
        self.assertEqual(found, ["helper"])

    def test_modules_with_parameters_and_mutual(self) -> None:
        lemmas = (
            "module _ {X : Type 0} (h : given)\n    (i : X) where\n"
            "  pub one : ℕ\n  one = 1\n\n"
            "  module _ (j : X) where\n    two : ℕ\n    two = one\n\n"
            "  three : ℕ\n  three = 3\n\n"
            "abbrev mutual\n  pub even : ℕ\n  even = odd\n\n  odd : ℕ\n  odd = even\n\n"
            "given : Type 0\ngiven = ℕ\n"
        )
        answers = "use Rattle.a.proofs.L.{one, even}\npub returns : goal\nreturns c = (one, even)\n"
        self.assertEqual(
            self.dead(crates__a__proofs__L_antt=lemmas),
            ["one", "two", "three", "even", "odd", "given"],
        )
        found = self.dead(
            crates__a__proofs__L_antt=lemmas, crates__a__proofs__f__Answers_antt=answers
        )
        self.assertEqual(found, ["two", "three"])

    def test_local_lemmas_belong_to_their_own(self) -> None:
        lemmas = "pub one : ℕ\none = two\n  where\n    two : ℕ\n    two = 2\n"
        self.assertEqual(self.dead(crates__a__proofs__L_antt=lemmas), ["one"])

    def test_names_that_are_passed_on(self) -> None:
        passes = "pub use Rattle.a.specs.A.{seen, Pair}\n"
        source = "ghost use Rattle.a.specs.B.{seen};\n    ensures { seen }\n"
        found = self.dead(
            crates__a__specs__A_antt=SPECS,
            crates__a__specs__B_antt=passes,
            crates__b__src__a_rt=source,
        )
        self.assertEqual(found, ["left", "Way", "Pair", "◌also◌"])

    def test_rows_and_programs_are_live(self) -> None:
        rows = "use Rattle.a.specs.A.{seen}\npub row : ℕ\nrow = seen\n"
        for path in (
            "crates__evaluator_semantics__proofs__RowsOfSteps_antt",
            "tests__t__proofs__P_proof",
        ):
            with self.subTest(path):
                found = self.dead(crates__a__specs__A_antt=SPECS, **{path: rows})
                self.assertEqual(found, ["left", "Way", "Pair", "◌also◌"])
        found = self.dead(crates__evaluator_semantics__proofs__Steps_antt=rows)
        self.assertEqual(found, ["row"])


if __name__ == "__main__":
    unittest.main()
