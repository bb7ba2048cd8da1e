"""Tests of what damages a store and fails calls, and of its judges over texts by hand.   python3 -m unittest discover -s python

Those that need gcc or the built program are skipped where it isn't there.
"""

import os
import random
import shutil
import sys
import tempfile
import unittest
from pathlib import Path

import blsm
import hostile
import reading
from hostile import CHECK, Ended, Failing, call, expected, lookups, places_by_kind, run_case, sample, values
from judge import Illegal, Map
from test_reading import MERGED, SMALLEST, WRITES, store

BUILT = os.environ.get("BLSM", str(blsm.PROGRAM))
HAS_PROGRAM = os.access(BUILT, os.X_OK)
HAS_GCC = shutil.which("gcc") is not None


class Places(unittest.TestCase):
    def setUp(self) -> None:
        self.found = reading.read(store(*MERGED, WRITES))
        self.kinds = places_by_kind(self.found)

    def test_each_place_is_of_one_kind(self) -> None:
        end = 0
        for places in sorted((places for kind in self.kinds.values() for places in kind if places), key=lambda places: places.start):
            self.assertEqual(places.start, end)
            end = places.stop
        self.assertEqual(end, SMALLEST.length)

    def test_what_is_where(self) -> None:
        page = SMALLEST.page_at(1)
        lane_a, lane_b = 4096 + SMALLEST.region, 4096 + 2 * SMALLEST.region
        self.assertEqual(self.kinds["lanes"], [range(lane_a, lane_a + 31), range(lane_b, lane_b + 1)])
        self.assertEqual(self.kinds["heads of pages"], [range(page, page + 8)])
        self.assertEqual(self.kinds["entries of pages"], [range(page + 8, page + 25)])
        self.assertEqual(self.kinds["ends of pages"], [range(page + 25, page + 4096)])

    def test_a_sample_has_all_kinds_and_no_place_twice(self) -> None:
        taken = sample(random.Random(1), self.kinds, 2000)
        self.assertEqual(len({*taken}), 2000)
        for kind, ranges in self.kinds.items():
            with self.subTest(kind):
                self.assertTrue(any(at in places for at in taken for places in ranges))
        self.assertTrue({*taken} >= {at for kind in ("superblock", "slots") for places in self.kinds[kind] for at in places})

    def test_values_are_others_than_the_byte(self) -> None:
        for old in range(256):
            found = values(random.Random(old), old)
            self.assertEqual(len({*found}), 4)
            self.assertNotIn(old, found)


class Answers(unittest.TestCase):
    def test_what_a_check_must_answer(self) -> None:
        file = store(*MERGED, WRITES)
        self.assertEqual(expected(file)[:2], (0, "ok version 4 c1 0 0 c1x 0 0 c2 1 17 lanes 2 0\n"))
        file[SMALLEST.page_at(1)] = 1
        self.assertEqual(expected(file)[:2], (6, "damaged page 1\n"))
        file[0] = 0
        self.assertEqual(expected(file)[:2], (4, "not a store\n"))

    def test_lookups_ask_for_all_rows(self) -> None:
        found = {b"k%02d" % i: (i, b"t" * (i % 2)) for i in range(33)}
        *gets, hold, first, second = lookups(random.Random(1), found)
        self.assertEqual({answer for _, answer in gets}, {b"none"})
        self.assertEqual(hold, (b"hold ! ~~~~", b"held"))
        self.assertTrue(first[1].startswith(b"rows 32 k00 0 - k01 1 t "))
        self.assertEqual(second, (b"next 32", b"rows 1 k32 32 -"))


WROTE = "1 put a 1 -\n2 put b 2 -\n"
UNSURE = "open charge 0\n1 1 put a 1 - => ok q0\n2 2 put b 2 - => fault unsure q0\nend c0 14 of 34816 callers 0 workers 0 swaps 0 0\n"
WHOLE = UNSURE.replace("fault unsure", "ok")


class StandIn(hostile.Bench):
    """A bench whose file has a given map when it is opened again."""

    def __init__(self, after: Map) -> None:
        self.map, self.after, self.found, self.copy = {}, after, reading.read(store()), Path(os.devnull)

    def must_hold(self, maps: object) -> None:
        if self.after not in maps:  # type: ignore[operator]
            raise Illegal(0, "another map")


class Judges(unittest.TestCase):
    def test_an_unsure_write_may_be_there(self) -> None:
        case = run_case(WROTE)
        for after in ({"a": (1, "")}, {"a": (1, ""), "b": (2, "")}):
            self.assertEqual(hostile.judge_calls(StandIn(after), case, Ended(7, UNSURE.encode(), 9, 1)), "a history with an unsure write")
        for after in ({}, {"b": (2, "")}):
            with self.assertRaises(Illegal):
                hostile.judge_calls(StandIn(after), case, Ended(7, UNSURE.encode(), 9, 1))

    def test_a_call_that_failed_is_told(self) -> None:
        bench, case = StandIn({"a": (1, ""), "b": (2, "")}), run_case(WROTE)
        self.assertEqual(hostile.judge_calls(bench, case, Ended(0, WHOLE.encode(), 9, 0)), "nothing failed")
        for ended in (Ended(0, WHOLE.encode(), 9, 1), Ended(7, UNSURE.encode(), 9, 0), Ended(-11, b"", 9, 1), Ended(7, b"disk fault\n", 9, 1)):
            with self.subTest(ended), self.assertRaises(Illegal):
                hostile.judge_calls(bench, case, ended)
        self.assertEqual(hostile.judge_calls(StandIn({}), case, Ended(7, b"disk fault\n", 9, 1)), "disk fault")

    def test_refused_memory(self) -> None:
        case = run_case(WROTE)
        self.assertEqual(hostile.judge_memory(StandIn({}), case, Ended(10, b"no memory\n", 9, 1)), "status 10")
        done = StandIn({"a": (1, ""), "b": (2, "")})
        self.assertEqual(hostile.judge_memory(done, case, Ended(0, WHOLE.encode(), 9, 1)), "done all the same")
        for ended in (Ended(10, b"no memory\n", 9, 1), Ended(10, WHOLE.encode(), 9, 1), Ended(7, WHOLE.encode(), 9, 1), Ended(-6, b"", 9, 1)):
            with self.subTest(ended), self.assertRaises(Illegal):
                hostile.judge_memory(done, case, ended)
        with self.assertRaises(Illegal):
            hostile.judge_memory(StandIn({}), case, Ended(10, b"no memory\n", 9, 0))

    def test_a_check_must_give_the_report(self) -> None:
        bench = StandIn({})
        self.assertEqual(hostile.judge_calls(bench, CHECK, Ended(0, bench.found.report.encode(), 9, 0)), "nothing failed")
        with self.assertRaises(Illegal):
            hostile.judge_calls(bench, CHECK, Ended(0, b"ok\n", 9, 0))

    def test_making(self) -> None:
        empty, other = StandIn({}), StandIn({"a": (1, "")})
        self.assertEqual(hostile.judge_make(empty, hostile.MAKE, Ended(0, b"made 3481600\n", 9, 0)), "nothing refused")
        self.assertEqual(hostile.judge_make(empty, hostile.MAKE, Ended(10, b"no memory\n", 9, 1)), "status 10")
        other.copy = Path("no such file")
        self.assertEqual(hostile.judge_make(other, hostile.MAKE, Ended(7, b"disk fault\n", 9, 1)), "status 7")
        other.copy = Path(os.devnull)
        for ended in (Ended(7, b"disk fault\n", 9, 1), Ended(0, b"made 3481600\n", 9, 1)):
            with self.subTest(ended), self.assertRaises(Illegal):
                hostile.judge_make(other, hostile.MAKE, ended)
        for ended in (Ended(5, b"not empty 100\n", 9, 1), Ended(7, b"disk fault\n", 9, 0), Ended(7, b"no memory\n", 9, 1), Ended(0, b"made 1\n", 9, 0)):
            with self.subTest(ended), self.assertRaises(Illegal):
                hostile.judge_make(empty, hostile.MAKE, ended)

    def test_a_trial(self) -> None:
        judged = hostile.judge_trial(b"trial\n")
        self.assertEqual(judged(StandIn({}), hostile.TRIAL, Ended(10, b"no memory\n", 9, 1)), "status 10")
        self.assertEqual(judged(StandIn({}), hostile.TRIAL, Ended(0, b"trial\n", 9, 1)), "done all the same")
        for ended in (Ended(10, b"no memory\n", 9, 0), Ended(0, b"tri", 9, 1), Ended(7, b"disk fault\n", 9, 1)):
            with self.subTest(ended), self.assertRaises(Illegal):
                judged(StandIn({}), hostile.TRIAL, ended)

    def test_streams(self) -> None:
        case, done = run_case(WROTE), StandIn({"a": (1, ""), "b": (2, "")})
        self.assertEqual(hostile.judge_source(StandIn({}), case, Ended(8, b"source fault\n", 9, 1)), "status 8")
        with self.assertRaises(Illegal):
            hostile.judge_source(done, case, Ended(8, b"source fault\n", 9, 1))
        judged = hostile.judge_sink(WHOLE.encode())
        self.assertEqual(judged(done, case, Ended(9, WHOLE[:14].encode(), 9, 1)), "status 9 with a front of the text")
        for ended in (Ended(9, WHOLE.encode(), 9, 1), Ended(9, b"open charge 1\n", 9, 1), Ended(0, WHOLE[:14].encode(), 9, 1)):
            with self.subTest(ended), self.assertRaises(Illegal):
                judged(done, case, ended)

    def test_the_source_of_a_session(self) -> None:
        case, one = hostile.session_case(WROTE), StandIn({"a": (1, "")})
        told = "open charge 0\n1 1 put a 1 - => ok q0\nend c0 14 of 34816 callers 0 workers 0 swaps 0 0\n"
        ended = Ended(8, f"{told}source fault\n".encode(), 9, 1)
        self.assertEqual(hostile.judge_session_source(one, case, ended), "status 8 behind a history")
        for after, text in (({}, ended.text), ({"a": (1, ""), "b": (2, "")}, ended.text), ({"a": (1, "")}, told.encode()), ({}, b"source fault\n")):
            with self.subTest(text=text, after=after), self.assertRaises(Illegal):
                hostile.judge_session_source(StandIn(after), case, Ended(8, text, 9, 1))

    def test_the_sink_of_a_session(self) -> None:
        case, judged = hostile.session_case(WROTE), hostile.judge_session_sink(WHOLE.encode())
        none, one, both = ({}, {"a": (1, "")}, {"a": (1, ""), "b": (2, "")})
        for told, may in ((0, [none]), (1, [none, one]), (2, [one, both]), (3, [both])):
            text = "".join(WHOLE.splitlines(keepends=True)[:told]).encode()
            for after in (none, one, both):
                with self.subTest(told=told, after=after):
                    if after in may:
                        self.assertEqual(judged(StandIn(after), case, Ended(9, text, 9, 1)), "status 9 behind a front of the history")
                    else:
                        self.assertRaises(Illegal, judged, StandIn(after), case, Ended(9, text, 9, 1))


WRITES_ONCE = "import os\ntry: os.write(1, b'text')\nexcept OSError as why: print(why.errno)"
READS_ALL = "import os\ntry: print(os.read(0, 9), os.read(0, 9))\nexcept OSError as why: print(why.errno)"


@unittest.skipUnless(HAS_GCC, "gcc isn't there")
class Calls(unittest.TestCase):
    def setUp(self) -> None:
        room = tempfile.TemporaryDirectory()
        self.addCleanup(room.cleanup)
        self.library = hostile.compile_library(Path(room.name))

    def outcome(self, program: str, script: bytes, failing: Failing) -> Ended:
        return call([sys.executable, "-c", program], script, failing, self.library)

    def test_one_write_fails(self) -> None:
        ended = self.outcome(WRITES_ONCE, b"", Failing("sink", 1, 1))
        self.assertEqual((ended.status, ended.text, ended.failed), (0, b"5\n", 1))
        self.assertEqual(self.outcome(WRITES_ONCE, b"", Failing("sink", 2, 2)), Ended(0, b"text", 1, 0))
        self.assertEqual(self.outcome(WRITES_ONCE, b"", Failing("sink", 1, 1, torn=True)), Ended(0, b"t", 1, 1))

    def test_reads_fail_from_one_on(self) -> None:
        self.assertEqual(self.outcome(READS_ALL, b"abc", Failing("source", 3, 9)), Ended(0, b"b'abc' b''\n", 2, 0))
        self.assertEqual(self.outcome(READS_ALL, b"abc", Failing("source", 2, 9)), Ended(0, b"5\n", 2, 1))
        self.assertEqual(self.outcome(READS_ALL, b"abc", Failing("source", 1, 1, torn=True)), Ended(0, b"b'a' b'bc'\n", 2, 1))

    def test_no_other_kind_fails(self) -> None:
        ended = self.outcome(WRITES_ONCE, b"", Failing("source", 1, 9))
        self.assertEqual((ended.status, ended.text, ended.failed), (0, b"text", 0))

    def test_standard_error_is_refused(self) -> None:
        with self.assertRaises(Illegal):
            call([sys.executable, "-c", "import sys; sys.stderr.write('fell')"])


@unittest.skipUnless(HAS_PROGRAM, f"the built program isn't there: {BUILT}")
class OverTheProgram(unittest.TestCase):
    def test_some_bytes(self) -> None:
        with tempfile.TemporaryDirectory() as room:
            told = hostile.try_bytes(BUILT, Path(room), 40, 7, 1, 5)
        self.assertTrue(told.startswith("40 changes of 3481600 bytes (ok version "))


if __name__ == "__main__":
    unittest.main()
