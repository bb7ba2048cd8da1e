"""Tests of what makes wrong changes, without building any.   python3 -m unittest discover -s python"""

import tempfile
import unittest
from pathlib import Path

import changes
from changes import TOP, Change, chosen, judge, read_changes, texts_of, verdict, with_lowest, write_cases

TEXT = """# a remark
change: one thing
file: crates/a/src/lib.rt
old: x < y
new: x <= y
row: damage - | cut
"""


class Tables(unittest.TestCase):
    def test_a_table_is_read(self) -> None:
        self.assertEqual(read_changes(TEXT), [Change("one thing", [("crates/a/src/lib.rt", "x < y", "x <= y")], ["damage - | cut"])])
        with self.assertRaises(ValueError):
            read_changes("what: x\n")

    def test_each_change_can_be_made(self) -> None:
        rows = (TOP / changes.CASES / "stdin").read_text().splitlines()
        for change in read_changes((TOP / "python/changes.txt").read_text()):
            with self.subTest(change.what):
                self.assertTrue(change.edits)
                self.assertTrue(change.rows or change.elsewhere)
                for file, old, new in change.edits:
                    self.assertEqual((TOP / file).read_text().count(old), 1)
                    self.assertNotEqual(old, new)
                for prefix in change.rows:
                    self.assertTrue(any(row.startswith(prefix) for row in rows), prefix)

    def test_a_change_is_chosen(self) -> None:
        self.assertEqual(chosen("x < y", [(1, "x"), (4, "y")]), "(if refusal::is_changed(1) { x } else if refusal::is_changed(4) { y } else { x < y })")
        self.assertEqual(chosen("f();", [(2, "g();")]), "if refusal::is_changed(2) { g(); } else { f(); }")

    def test_the_lowest_crate_is_named(self) -> None:
        self.assertEqual(with_lowest("a: b", {"a"}), "a: b refusal")
        self.assertEqual(with_lowest("a: b refusal", {"a"}), "a: b refusal")
        self.assertEqual(with_lowest("c: b", {"a"}), "c: b")

    def test_a_case_has_its_rows(self) -> None:
        lines = ["# a remark", "script two | 1 get a", "damage - | cut | 4 not a store", "fail 1 two | 7 | fault | a none"]
        with tempfile.TemporaryDirectory() as room:
            cases = write_cases(Path(room) / "cases", lines, read_changes(TEXT))
            self.assertEqual(cases, {"0": lines[2:], "1": lines[2:3]})
            self.assertEqual((Path(room) / "cases/1").read_text(), "script two | 1 get a\ndamage - | cut | 4 not a store\n")
            with self.assertRaises(ValueError):
                write_cases(Path(room) / "others", lines[:2], read_changes(TEXT))

    def test_a_case_has_the_store_that_it_begins_with(self) -> None:
        lines = ["script two | 1 get a", "fail 1 two | 7 | fault | a none", "store --low 0", "damage - | cut | 4 not a store"]
        with tempfile.TemporaryDirectory() as room:
            cases = write_cases(Path(room) / "cases", lines, read_changes(TEXT))
            self.assertEqual(cases, {"0": [lines[1], lines[3]], "1": [lines[3]]})
            self.assertEqual((Path(room) / "cases/1").read_text(), "script two | 1 get a\nstore --low 0\ndamage - | cut | 4 not a store\n")


class Verdicts(unittest.TestCase):
    def test_rows_that_stand(self) -> None:
        self.assertEqual(judge("a | b: answer 0: x\n2 cases\n", ["a | b", "c | d"]), ["c | d"])
        self.assertEqual(judge("it fell", ["a | b"]), [])

    def test_a_line_for_each_case(self) -> None:
        self.assertEqual(verdict(None, ["a"], ["a"]), (True, "no change: 0 of 1 rows depart"))
        self.assertEqual(verdict(None, ["a"], [])[0], False)
        self.assertEqual(verdict("one thing", ["a"], []), (True, "refused: one thing"))
        self.assertEqual(verdict("one thing", ["a"], ["a"])[0], False)

    def test_texts_by_names(self) -> None:
        self.assertEqual(texts_of("== 0\n2 cases\ncase=0 run=ended\n== 12\nx\n"), {"0": "2 cases\ncase=0 run=ended\n", "12": "x\n"})


if __name__ == "__main__":
    unittest.main()
