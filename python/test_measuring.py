"""Tests of what the measuring scripts share, of the scripts of scans, and of what trials are checked by.   python3 -m unittest discover -s python"""

import sys
import unittest
from pathlib import Path

sys.path.insert(0, str(Path(__file__).resolve().parent.parent / "benchmarks"))
import judge  # noqa: E402
import measuring  # noqa: E402
import scans  # noqa: E402
import trials  # noqa: E402
from blsm import MOST_BYTES, MOST_LINES, Hold, Next, Row  # noqa: E402


class Scripts(unittest.TestCase):
    def test_lines_are_dealt_in_turn(self) -> None:
        self.assertEqual(measuring.dealt(["get a", "get b", "get c"], 2), "1 get a\n2 get b\n1 get c\n")

    def test_parts_have_as_many_lines_and_bytes_as_a_script(self) -> None:
        short = ["drop"] * (2 * MOST_LINES + 1)
        self.assertEqual([len(part) for part in measuring.in_parts(short)], [MOST_LINES, MOST_LINES, 1])
        long = [f"put {place:06} 1 {'x' * 435}" for place in range(40_000)]
        parts = list(measuring.in_parts(long))
        self.assertEqual([command for part in parts for command in part], long)
        line = len(measuring.dealt(long[:1], 1))
        self.assertEqual([len(part) for part in parts], [MOST_BYTES // line, MOST_BYTES // line, 40_000 - 2 * (MOST_BYTES // line)])
        self.assertEqual(list(measuring.in_parts([])), [])


class Traces(unittest.TestCase):
    def test_calls_of_the_stores_files_are_counted(self) -> None:
        trace = """12 read(0</t/script.txt>, ""..., 4096) = 4096
12 pwrite64(3</t/a.blsm>, ""..., 41, 4096) = 41
12 fdatasync(3</t/a.blsm>) = 0
12 pread64(3</t/a.blsm>, ""..., 4096, 8192) = 100
12 pwrite64(3</t/a.blsm2>, ""..., 41, 4096) = 41
12 pwrite64(3</t/a.blsm>, ""..., 41, 4096) = -1 EIO (Input/output error)
12 write(1<pipe:[7]>, ""..., 9) = 9
12 +++ exited with 0 +++
"""
        self.assertEqual(measuring.calls_of(iter(trace.splitlines()), Path("/t/a.blsm")), measuring.Calls(1, 1, 1, 41, 100))

    def test_calls_of_threads_come_into_one_another(self) -> None:
        trace = """12 fdatasync(3</t/db/3.log> <unfinished ...>
13 write(5</t/db/4.ldb>, ""..., 70 <unfinished ...>
12 <... fdatasync resumed>)          = 0
14 read(6</t/other>, "" <unfinished ...>
13 <... write resumed>)              = 70
14 <... read resumed>""..., 9)       = 9
12 fsync(4</t/db>)                   = 0
"""
        self.assertEqual(measuring.calls_of(iter(trace.splitlines()), Path("/t/db")), measuring.Calls(2, 1, 0, 70, 0))


class Replies(unittest.TestCase):
    def test_quanta_and_merged_bytes_are_no_part_of_a_reply(self) -> None:
        blsm = "open charge 0\n1 1 put a 1 - => ok q2\n2 1 work 9 => did 3 q1\n3 1 get a => is 1 - q0\nend c0 14 of 65536 callers 3 workers 0 swaps 0 0\n"
        leveldb = "1 1 put a 1 - => ok m0\n2 1 work 9 => did 0 m0\n3 1 get a => is 1 - m4096\n"
        self.assertEqual(measuring.replies(blsm), ["ok", "is 1 -"])
        self.assertEqual(measuring.replies(leveldb), measuring.replies(blsm))


class Scans(unittest.TestCase):
    def test_a_scan_asks_for_each_row_once(self) -> None:
        rows = scans.rows_of(70)
        self.assertEqual(scans.scan_of(rows), [["hold ! " + "~" * 64, "next 32", "next 32", "next 32"]])
        rows = scans.rows_of(scans.MOST_ROWS + 1)
        first, second = scans.scan_of(rows)
        self.assertEqual(len(first), 1 + scans.MOST_ROWS // 32)
        self.assertEqual(second, [Hold(rows[-2].key + "!", "~" * 64).line(), Next(32).line()])

    def test_a_store_has_room_for_its_rows(self) -> None:
        for count, half in ((1000, 32_768), (15_000, 32_768), (20_000, 65_536), (200_000, 524_288)):
            commands = scans.filling(scans.rows_of(count))
            geometry = scans.geometry_for(commands)
            self.assertEqual((geometry.half, geometry.low), (half, half // 2))
            self.assertLessEqual(64 * count, geometry.limit("put"))

    def test_a_filling_puts_each_row_once(self) -> None:
        rows = scans.rows_of(100)
        *puts, work = scans.filling(rows)
        self.assertEqual(sorted(puts), sorted(f"put {row.line()}" for row in rows))
        self.assertNotEqual(puts, sorted(puts))
        self.assertTrue(work.startswith("work "))

    def test_the_rows_of_a_history_are_those_of_its_nexts(self) -> None:
        text = """open charge 9
1 1 hold ! ~ => held q0
2 1 next 2 => rows 2 a 1 - b 2 xyz q0
3 1 get a => is 1 - q0
4 1 next 2 => rows 1 c 3 q0 q0
5 1 next 2 => rows 0 q0
"""
        self.assertEqual(scans.given(text), [Row("a", 1), Row("b", 2, "xyz"), Row("c", 3, "q0")])
        self.assertEqual(scans.given(text.replace(" q0\n", " m0\n")), scans.given(text))


class Trials(unittest.TestCase):
    HISTORY = """open charge 0
1 1 put a 1 x => ok q2
2 1 add a 1 => ok q0
3 1 get a => is 2 x q0
4 1 put b 1 x => full 77 q0
end c0 29 of 65536 callers 2 workers 0 swaps 1 0
"""
    TEXT = "trial seed 7 count 4\nputs 2 adds 1 dels 0 gets 1\nfull 1\nc0 29 of 65536\nlargest q 2 of 3\nquanta 2 swaps 1 0\nkeys 1 charge 29\n"

    def test_a_trial_is_what_its_history_sums_up_to(self) -> None:
        begins = trials.summary(7, 4, judge.parse(self.HISTORY), 1)
        self.assertTrue(trials.is_summary(self.TEXT, begins))
        changes = {"puts 2": "puts 3", "full 1": "full 0", "c0 29": "c0 30", "q 2": "q 3", "quanta 2": "quanta 1", "keys 1": "keys 2"}
        for old, new in changes.items():
            self.assertFalse(trials.is_summary(self.TEXT.replace(old, new), begins))
        self.assertFalse(trials.is_summary(self.TEXT + "more\n", begins))

    def test_shares_are_summed_by_name(self) -> None:
        report = """    26.48%  [.] __memmove_evex_unaligned_erms
    10.47%  [.] __memset_evex_unaligned_erms
     7.82%  [.] core::cmp::slices::RefSliceOrd::cmp::<#914af4d8504a0b72>
     1.02%  [.] memcpy@plt
     0.50%  [k] memset_orig
"""
        self.assertEqual(trials.shares(report), {"memmove": 27.5, "memset": 10.97})


if __name__ == "__main__":
    unittest.main()
