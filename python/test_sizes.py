"""Tests of how lines of code, specification and proof are counted.   python3 -m unittest discover -s python"""

import os
import sys
import unittest
from pathlib import Path

TOP = Path(__file__).resolve().parent.parent
sys.path.insert(0, str(TOP / "benchmarks"))
import sizes  # noqa: E402

CODE = """//! A remark.
ghost use Rattle.a.specs.B.{c,
    d};
use a::b;

/// Answers.
pub fn f(x: u64) -> u64
    requires { x < 2 }
    ensures same { result ≡ x
        + 0 }
{
    x
}
"""


class Counts(unittest.TestCase):
    def test_code_clauses_and_imports_are_told_apart(self) -> None:
        size = sizes.Size()
        sizes.of_code(CODE.splitlines(), size)
        self.assertEqual((size.code, size.specification, size.imports), (4, 3, 3))
        self.assertEqual(size.code_bytes, len("pub fn f(x: u64) -> u64") + len("{") + len("x") + len("}"))

    def test_logic_has_imports_too(self) -> None:
        size = sizes.Size()
        sizes.of_logic(["-- a remark", "use Rattle.a.specs.B.{c}", "", "pub record A : Type 0 where", "  pub a : ℕ"], size, "proof")
        self.assertEqual((size.proof, size.specification, size.imports), (2, 0, 1))
        self.assertEqual(size.proof_bytes, len("pub record A : Type 0 where".encode()) + len("pub a : ℕ".encode()))

    def test_each_crate_has_a_layer(self) -> None:
        before = os.getcwd()
        os.chdir(TOP)
        try:
            layers = dict(sizes.listed())
        finally:
            os.chdir(before)
        self.assertLessEqual(set(layers.values()), set(sizes.NAMES))
        some = ("run_cursor", "merge_step", "disk_trait", "script_text", "store_trial", "blsm", "hostile_cases")
        self.assertEqual([layers[crate] for crate in some], ["leaves", "middle", "laws", "text and program", "middle", "text and program", "tests"])


if __name__ == "__main__":
    unittest.main()
