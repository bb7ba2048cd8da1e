"""Tests of the picture of merged bytes.   python3 -m unittest discover -s python"""

import sys
import unittest
from pathlib import Path
from xml.etree import ElementTree

sys.path.insert(0, str(Path(__file__).resolve().parent.parent / "benchmarks"))
import plot_merged  # noqa: E402
from plot_merged import Merged  # noqa: E402


def wrote(size: int, at: int, file: str = "/t/a.blsm") -> str:
    return f'7 pwrite64(3<{file}>, ""..., {size}, {at}) = {size}'


APPEND = (wrote(34, 4096), wrote(1, 4096))


class Counting(unittest.TestCase):
    def test_pages_count_for_the_append_before_them(self) -> None:
        pages, commit = wrote(4096, 397_312), wrote(85, 512)
        trace = [wrote(1, 0), pages, *APPEND, *APPEND, pages, pages, *APPEND, pages, commit, wrote(1, 135_168), *APPEND]
        self.assertEqual(plot_merged.pages_after_appends(trace, Path("/t/a.blsm")), [0, 8192, 4096, 0])

    def test_the_first_page_is_behind_the_lanes(self) -> None:
        self.assertEqual(plot_merged.pages_after_appends([*APPEND, wrote(4096, 397_311)], Path("/t/a.blsm")), [0, 0])
        self.assertEqual(plot_merged.pages_after_appends([*APPEND, wrote(4096, 397_312)], Path("/t/a.blsm")), [4096])

    def test_other_files_and_failed_calls_count_for_nothing(self) -> None:
        failed = '7 pwrite64(3</t/a.blsm>, ""..., 4096, 397312) = -1 EIO (Input/output error)'
        self.assertEqual(plot_merged.pages_after_appends([*APPEND, failed, wrote(4096, 397_312, "/t/b.blsm")], Path("/t/a.blsm")), [0])

    def test_tables_count_for_the_write_before_them(self) -> None:
        text = "1 1 get a => none m9\n2 1 put a 1 - => ok m0\n3 1 get a => is 1 - m70\n4 1 add a 1 => ok m5\n5 1 work 3 => did 0 m1\n"
        self.assertEqual(plot_merged.tables_after_writes(text), [70, 6])


class Pictures(unittest.TestCase):
    def test_a_stem_rises_by_one_step_for_each_doubling(self) -> None:
        heights = [plot_merged.height_of(1024 << i) for i in range(11)]
        self.assertEqual(heights, [1, *range(15, 151, 15)])
        self.assertEqual(plot_merged.height_of(0), 0)

    def test_each_value_is_in_one_column(self) -> None:
        for count in (1, 799, 800, 801, 15_928):
            columned = plot_merged.columns(range(count))
            self.assertEqual([value for column in columned for value in column], list(range(count)))
            self.assertTrue(all(columned))
            self.assertLessEqual(len(columned), 800)

    def test_it_is_a_picture_with_the_greatest_and_the_sums(self) -> None:
        svg = plot_merged.draw([Merged("blsm", [0, 4096, 8192] * 700, "#111"), Merged("LevelDB", [0] * 2099 + [300_000], "#222")], "a run")
        words = "\n".join(element.text or "" for element in ElementTree.fromstring(svg).iter())
        self.assertIn("blsm: bytes merged after each write, 8,192 at most; after 1,400 of 2,100 writes some", words)
        self.assertIn("LevelDB: bytes merged after each write, 300,000 at most; after 1 of 2,100 writes some", words)
        self.assertIn("blsm: 8,601,600", words)
        self.assertIn("LevelDB: 300,000", words)


if __name__ == "__main__":
    unittest.main()
