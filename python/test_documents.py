"""Tests of the documents: the names and files that they cite are there.   python3 -m unittest discover -s python"""

import sys
import unittest
from functools import cache
from pathlib import Path

TOP = Path(__file__).resolve().parent.parent
sys.path.insert(0, str(TOP / "docs"))
import names  # noqa: E402
import proofs  # noqa: E402
from sources import Sources  # noqa: E402


@cache
def sources() -> Sources:
    return Sources()


@cache
def known() -> frozenset[str]:
    return frozenset(sources().all_tokens() | names.scripts())


def told(text: str) -> list[str]:
    return [what for _, what in names.missing(text, sources(), known())]


class Names(unittest.TestCase):
    def test_each_name_of_the_documents_is_in_the_sources(self) -> None:
        self.assertEqual(names.all_missing(sources(), known()), [])

    def test_names_and_files_that_are_gone_are_told(self) -> None:
        self.assertEqual(told("`write_gated` and `gone_for_good`, `Lanes::append`, `0 made 4`"), ["no name `gone_for_good`"])
        text = "docs/PLAN.md, crates/tree_core/src/gone.rt, `python3 benchmarks/sizes.py`, crates/*/specs"
        self.assertEqual(told(text), ["no file crates/tree_core/src/gone.rt"])

    def test_a_clause_is_its_functions_own(self) -> None:
        self.assertEqual(told("`gated` of `write_gated`, `steps` of `admit`, `replies` of `HasCauses`, `is_page` of `page_file`"), [])
        text = "`run` of `each_run_keeps_pace`, `run` and `pass` of `merges_are_few`"
        self.assertEqual(told(text), ["no `run` of `each_run_keeps_pace`", "no `pass` of `merges_are_few`"])
        self.assertEqual(told("`seats_apart` `holds`, `swap_deep`, `rotate` `swaps`"), ["no `holds` of `seats_apart`"])

    def test_a_row_names_the_file_of_a_word(self) -> None:
        text = "| `open_byte` and `plan`, `gated_write/specs/Gated.antt` | `plan`, `gear_sched/src/lib.rt` |"
        self.assertEqual(told(text), ["no `plan` in gated_write/specs/Gated.antt"])

    def test_a_line_of_a_crate_begins_with_its_names(self) -> None:
        of_crate = ["### `gated_write`", "- `write_gated` `gated`, `written`: as `Affects` says.", "- `write_gated` `appends`: no.", "- `read_page`: no."]
        lines = [*of_crate, "## The rest", "- `read_page`: of no crate."]
        self.assertEqual([number for number, _ in names.astray("\n".join(lines), sources())], [3, 4])


class Index(unittest.TestCase):
    def test_the_index_is_what_the_sources_make(self) -> None:
        self.assertEqual(proofs.PAGE.read_text(encoding="utf-8"), proofs.Index(sources()).text(), "run docs/proofs.py")

    def test_no_clause_that_is_named_is_gone(self) -> None:
        self.assertEqual(proofs.gone(sources()), [])

    def test_a_clause_has_its_marks_its_word_and_a_comment(self) -> None:
        lines = "\n".join(proofs.Index(sources()).of_crate(proofs.Index(sources()).public("gated_write")))
        self.assertIn("- `write_gated` (`lib.rt`). Writes the text behind a closed gate,", lines)
        self.assertIn("  - `gated` **[H]** `LeavesGated`: Where the gate was closed,", lines)
        self.assertIn("  - `written` **[h]** **[b]** *Ok* `HasWritten`: These bytes were written over what was there,", lines)

    def test_each_public_clause_is_in_the_index(self) -> None:
        index, text = proofs.Index(sources()), proofs.PAGE.read_text(encoding="utf-8")
        lost = [it.called() for crate in index.crates() for it in index.public(crate) if f"`{it.called()}`" not in text]
        self.assertEqual(lost, [])


if __name__ == "__main__":
    unittest.main()
