"""Tests of the judge over texts by hand: right histories, and wrong ones that it must refuse.   python3 -m unittest discover -s python"""

import unittest

from judge import Geometry, Illegal, judge, maps_after_fronts, parse

COUNTERS = """1 put apple 3 red
2 put pear 5 green
1 add apple 4
2 add plum 7
2 get apple
1 get plum
1 del pear
2 get pear
1 put apple 1 -
2 get apple
"""

COUNTERS_HISTORY = """open charge 0
1 1 put apple 3 red => ok q0
2 2 put pear 5 green => ok q0
3 1 add apple 4 => ok q0
4 2 add plum 7 => ok q0
5 2 get apple => is 7 red q0
6 1 get plum => is 7 - q0
7 1 del pear => ok q0
8 2 get pear => none q0
9 1 put apple 1 - => ok q0
10 2 get apple => is 1 - q0
end c0 60 of 65536 callers 0 workers 0 swaps 0 0
"""

WORK = """open charge 0
1 1 put x 100 old => ok q0
2 1 work 100 => did 6 q2
3 1 del x => ok q0
4 1 add x 7 => ok q0
5 1 get x => is 7 - q0
end c0 17 of 65536 callers 2 workers 0 swaps 1 1
"""

HOLD = """open charge 0
1 1 put a 1 - => ok q0
2 1 put b 2 - => ok q0
3 1 work 1000 => did 6 q2
4 1 hold a c => held q0
5 1 put a 9 - => ok q0
6 1 del b => ok q0
7 1 work 1000 => did 6 q2
8 1 next 32 => rows 2 a 1 - b 2 - q0
9 1 next 32 => rows 0 q0
10 1 get b => none q0
11 1 drop => ok q0
12 1 next 1 => nohold q0
end c0 28 of 65536 callers 4 workers 0 swaps 2 2
"""

EMPTY = "open charge 0\nend c0 0 of 65536 callers 0 workers 0 swaps 0 0\n"

FAULT = """open charge 0
1 1 put a 1 - => ok q0
2 1 put b 2 - => fault unsure q0
3 1 get a => stopped fault 1 q0
end c0 14 of 65536 callers 0 workers 0 swaps 0 0
"""


def script_of(text: str) -> str:
    """The lines of a history in its own order."""
    return "".join(line.split(" ", 1)[1].split(" => ")[0] + "\n" for line in text.splitlines()[1:-1])


def wrapped(*entries: str, callers: int = 0, charge: int = 0) -> str:
    numbered = "".join(f"{i} {line}\n" for i, line in enumerate(entries, 1))
    return f"open charge {charge}\n{numbered}end c0 0 of 65536 callers {callers} workers 0 swaps 0 0\n"


class Legal(unittest.TestCase):
    def test_two_callers(self) -> None:
        self.assertEqual(judge(COUNTERS, COUNTERS_HISTORY, workers=0), {"apple": (1, ""), "plum": (7, "")})

    def test_merges_change_no_value(self) -> None:
        self.assertEqual(judge(script_of(WORK), WORK), {"x": (7, "")})

    def test_a_hold_over_merges(self) -> None:
        self.assertEqual(judge(script_of(HOLD), HOLD), {"a": (9, "")})

    def test_no_line(self) -> None:
        self.assertEqual(judge("", EMPTY, {"k": (1, "t")}), {"k": (1, "t")})

    def test_counts_wrap(self) -> None:
        text = wrapped("1 add n 18446744073709551615 => ok q0", "1 add n 2 => ok q0", "1 get n => is 1 - q0")
        judge(script_of(text), text)

    def test_tails(self) -> None:
        long = "x" * 70
        text = wrapped(
            *("1 put a 5 hello => ok q0", "1 tail a world => ok q0", "1 get a => is 5 helloworld q0"),
            *(f"1 put b 0 {long} => ok q0", "1 tail b y => ok q0", f"1 get b => is 0 {long[:63]}y q0", f"1 tail b {'z' * 64} => ok q0"),
            *("1 del a => ok q0", "1 tail a z => ok q0", "1 add a 3 => ok q0", "1 get a => is 3 z q0"),
        )
        self.assertEqual(judge(script_of(text), text), {"a": (3, "z"), "b": (0, "z" * 64)})

    def test_a_tail_is_full_as_a_put_is(self) -> None:
        text = wrapped("1 tail a yz => full 121841 q0", "1 tail a y => ok q0", charge=121841).replace("65536", "34816")
        self.assertEqual(judge(script_of(text), text, geometry=Geometry(half=17408, ratio=2)), {"a": (0, "y")})

    def test_writes_that_look_first(self) -> None:
        text = wrapped(
            *("1 new a 1 x => ok q0", "1 new a 2 y => kept 1 x q0", "1 swap a 1 7 z => ok q0", "1 swap a 1 9 z => kept 7 z q0"),
            *("1 swap b 0 1 - => kept none q0", "1 get a => is 7 z q0", "1 swap a 7 7 - => ok q0", "1 new b 5 - => ok q0", "1 swap b 5 6 - => ok q0"),
        )
        self.assertEqual(judge(script_of(text), text), {"a": (7, ""), "b": (6, "")})

    def test_a_change_that_comes_first_makes_a_key(self) -> None:
        gone = ["1 put a 1 x => ok q0", "1 del a => ok q0", "1 swap a 1 2 y => kept none q0"]
        text = wrapped(*gone, "1 tail d z => ok q0", "1 swap d 0 1 - => ok q0", "1 get d => is 1 - q0")
        judge(script_of(text), text)

    def test_one_new_of_sixteen(self) -> None:
        script = "".join(f"{caller} new lock {caller} -\n" for caller in range(1, 17))
        text = wrapped("7 new lock 7 - => ok q0", *(f"{caller} new lock {caller} - => kept 7 - q0" for caller in range(16, 0, -1) if caller != 7))
        self.assertEqual(judge(script, text), {"lock": (7, "")})

    def test_a_lookup_that_comes_first_and_fails_stops_nothing(self) -> None:
        text = wrapped("1 new a 1 - => fault q0", "1 new a 1 - => ok q0", "1 swap a 1 2 - => fault q0", "1 get a => is 1 - q0")
        judge(script_of(text), text)
        text = wrapped("1 swap a 1 2 - => damaged page 7 q0", "1 get a => none q0")
        judge(script_of(text), text, honest=False)

    def test_a_full_store_looks_first(self) -> None:
        text = wrapped(
            *("1 new a 2 - => kept 1 - q0", "1 new b 2 - => full 121856 q0", "1 swap a 1 2 - => full 121856 q0", "1 swap a 2 3 - => kept 1 - q0"),
            charge=121856,
        )
        small = Geometry(half=17408, ratio=2)
        self.assertEqual(judge(script_of(text), text.replace("65536", "34816"), {"a": (1, "")}, geometry=small), {"a": (1, "")})

    def test_what_an_unsure_new_may_leave(self) -> None:
        text = wrapped("1 put a 1 - => ok q0", "1 swap a 1 2 x => fault unsure q0", "1 get a => stopped fault 1 q0")
        self.assertEqual(judge(script_of(text), text), {"a": (1, "")})
        fronts = list(maps_after_fronts(parse(text).entries))
        self.assertEqual(fronts, [{}, {"a": (1, "")}, {"a": (1, "")}, {"a": (2, "x")}, {"a": (1, "")}])
        text = wrapped("1 new a 1 x => fault lost q0", "1 get a => stopped fault 1 q0")
        self.assertEqual(judge(script_of(text), text), {})

    def test_callers_come_between_one_another(self) -> None:
        script = "1 put a 1 -\n2 put a 2 -\n2 get a\n"
        judge(script, wrapped("2 put a 2 - => ok q0", "1 put a 1 - => ok q0", "2 get a => is 1 - q0"))
        judge(script, wrapped("2 put a 2 - => ok q0", "2 get a => is 2 - q0", "1 put a 1 - => ok q0"))

    def test_a_hold_replaces_the_earlier_one(self) -> None:
        text = wrapped("1 put a 1 - => ok q0", "1 put b 2 - => ok q0", "1 hold a c => held q0", "1 hold b c => held q0", "1 next 32 => rows 1 b 2 - q0")
        judge(script_of(text), text)

    def test_a_hold_without_memory_leaves_the_earlier_one(self) -> None:
        text = wrapped("1 put a 1 - => ok q0", "1 hold a c => held q0", "1 hold b c => no memory q0", "1 next 1 => rows 1 a 1 - q0")
        judge(script_of(text), text)

    def test_a_range_turned_round_has_no_rows(self) -> None:
        text = wrapped("1 put a 1 - => ok q0", "1 hold c a => held q0", "1 next 1 => rows 0 q0")
        judge(script_of(text), text)

    def test_a_full_store(self) -> None:
        geometry = Geometry(half=17408, ratio=2)
        text = wrapped("1 put a 1 - => full 121856 q0", "1 del a => ok q0", "1 put a 1 - => full 121870 q0", charge=121856)
        judge(script_of(text), text.replace("65536", "34816"), geometry=geometry)

    def test_a_fault_stops_the_store(self) -> None:
        self.assertEqual(judge(script_of(FAULT), FAULT), {"a": (1, "")})

    def test_a_work_tells_its_own_stop_after_others_were_told(self) -> None:
        text = wrapped("2 get a => stopped fault 1 q0", "1 work 3 => fault q1", "1 get a => stopped fault 1 q0", callers=1)
        judge(script_of(text), text)

    def test_a_get_that_fails_stops_nothing(self) -> None:
        text = wrapped("1 put a 1 - => ok q0", "1 get a => fault q0", "1 get a => is 1 - q0")
        judge(script_of(text), text)

    def test_a_damaged_page_on_a_disk_that_is_not_honest(self) -> None:
        text = wrapped("1 get a => damaged page 7 q0")
        judge(script_of(text), text, honest=False)

    def test_a_pass_that_is_under_way(self) -> None:
        letters = [f"1 put {key} 0 {'x' * 435} => ok q0" for key in "bcdef"]
        later = ["1 work 2 => did 2 q1", "1 put c 1 - => ok q0", "1 put g 2 - => ok q0", "1 get c => is 1 - q0", "1 get g => is 2 - q0", "1 work 3 => did 3 q1", "1 get c => is 1 - q0", "1 get g => is 2 - q0"]
        text = wrapped(*letters, *later, callers=2).replace("c0 0", "c0 2273")
        self.assertEqual(judge(script_of(text), text, geometry=Geometry(quantum=1024), workers=0)["c"], (1, ""))

    def test_what_an_earlier_run_left(self) -> None:
        text = wrapped("1 get n => is 5 - q0", charge=14)
        self.assertEqual(judge(script_of(text), text, {"n": (5, "")}), {"n": (5, "")})

    def test_a_hundred_equal_writes(self) -> None:
        text = wrapped(*(f"1 put {'k' * 64} 9 {'x' * 435} => ok q{int(i % 33 == 0)}" for i in range(1, 101)), callers=3)
        self.assertEqual(judge(script_of(text), text, workers=0), {"k" * 64: (9, "x" * 435)})

    def test_a_store_that_gets_full(self) -> None:
        puts = [f"1 put k{i:063} 1 {'x' * 435} => ok q0" for i in range(238)]
        text = wrapped(*puts, "1 put a 1 - => full 121856 q0", "1 del a => ok q0", "1 put a 1 - => full 121870 q0").replace("65536", "34816")
        self.assertEqual(len(judge(script_of(text), text, geometry=Geometry(half=17408, ratio=2))), 238)

    def test_a_work_that_a_fault_ends(self) -> None:
        text = wrapped("1 add n 5 => ok q0", "1 work 3 => fault q1", callers=1)
        self.assertEqual(judge(script_of(text), text), {"n": (5, "")})

    def test_sixteen_callers_in_any_order(self) -> None:
        script = "".join(f"{caller} put a {caller} -\n" for caller in range(1, 17))
        for order in (range(1, 17), range(16, 0, -1), (16, *range(1, 16))):
            text = wrapped(*(f"{caller} put a {caller} - => ok q0" for caller in order))
            self.assertEqual(judge(script, text), {"a": (list(order)[-1], "")})

    def test_fronts(self) -> None:
        fronts = list(maps_after_fronts(parse(FAULT).entries))
        self.assertEqual(fronts, [{}, {"a": (1, "")}, {"a": (1, "")}, {"a": (1, ""), "b": (2, "")}, {"a": (1, "")}])


class Wrong(unittest.TestCase):
    def refuse(self, place: int, text: str, script: str | None = None, **more: object) -> None:
        with self.assertRaises(Illegal) as caught:
            judge(script_of(text) if script is None else script, text, **more)  # type: ignore[arg-type]
        self.assertEqual(caught.exception.place, place)

    def changed(self, place: int, text: str, old: str, new: str, **more: object) -> None:
        self.assertEqual(text.count(old), 1)
        self.refuse(place, text.replace(old, new), script_of(text), **more)

    def test_a_lost_write(self) -> None:
        self.changed(5, WORK, "is 7 -", "none")

    def test_a_caller_that_does_not_see_its_own_write(self) -> None:
        script = "1 put a 1 -\n2 put a 2 -\n2 get a\n"
        self.refuse(3, wrapped("1 put a 1 - => ok q0", "2 put a 2 - => ok q0", "2 get a => is 1 - q0"), script)
        self.refuse(3, wrapped("1 put a 1 - => ok q0", "2 put a 2 - => ok q0", "2 get a => none q0"), script)

    def test_an_old_value(self) -> None:
        self.changed(5, WORK, "is 7 -", "is 107 old")

    def test_a_value_of_nobody(self) -> None:
        self.changed(10, COUNTERS_HISTORY, "is 1 -", "is 8 red")

    def test_a_text_kept_after_a_del(self) -> None:
        self.changed(5, WORK, "is 7 -", "is 7 old")

    def test_tails_in_the_wrong_order(self) -> None:
        tails = "1 tail a x => ok q0", "1 tail a y => ok q0"
        for wrong in ("yx", "y", "x"):
            self.refuse(3, wrapped(*tails, f"1 get a => is 0 {wrong} q0"))
        self.refuse(3, wrapped(f"1 put a 0 {'x' * 64} => ok q0", "1 tail a y => ok q0", f"1 get a => is 0 {'x' * 64}y q0"))

    def test_a_new_that_overwrites(self) -> None:
        self.refuse(2, wrapped("1 new a 1 - => ok q0", "2 new a 2 - => ok q0"))

    def test_a_swap_that_compares_nothing(self) -> None:
        self.refuse(2, wrapped("1 put a 1 - => ok q0", "1 swap a 2 3 - => ok q0"))
        self.refuse(1, wrapped("1 swap a 0 1 - => ok q0"))

    def test_a_swap_that_compares_the_new_count(self) -> None:
        self.refuse(2, wrapped("1 put a 1 - => ok q0", "1 swap a 1 2 - => kept 1 - q0"))

    def test_kept_out_by_nothing(self) -> None:
        for wrong in ("kept none", "kept 0 -"):
            self.refuse(1, wrapped(f"1 new a 1 - => {wrong} q0"))
        self.refuse(2, wrapped("1 put a 1 x => ok q0", "1 new a 2 - => kept none q0"))
        self.refuse(2, wrapped("1 put a 1 x => ok q0", "1 new a 2 - => kept 1 - q0"))

    def test_one_that_was_kept_out_changes_nothing(self) -> None:
        self.refuse(3, wrapped("1 put a 1 - => ok q0", "1 new a 2 - => kept 1 - q0", "1 get a => is 2 - q0"))

    def test_full_before_it_looks(self) -> None:
        self.refuse(1, wrapped("1 new a 1 - => full 1048576 q0", charge=1048576), opening={"a": (1, "")})
        self.refuse(1, wrapped("1 swap a 1 2 - => full 1048576 q0", charge=1048576))

    def test_a_write_that_failed_before_it_looked(self) -> None:
        for reply in ("fault lost", "fault unsure"):
            self.refuse(1, wrapped(f"1 new a 1 - => {reply} q0"), opening={"a": (1, "")})
            self.refuse(1, wrapped(f"1 swap a 1 2 - => {reply} q0"), opening={"a": (2, "")})

    def test_a_lookup_that_failed_does_not_stop_the_store(self) -> None:
        for reply in ("fault", "damaged page 3"):
            self.refuse(2, wrapped(f"1 new a 1 - => {reply} q0", "1 new a 1 - => kept none q0"), honest=False)

    def test_one_that_was_kept_out_takes_no_quanta(self) -> None:
        for reply in ("kept 1 -", "fault", "full 1048576"):
            text = wrapped(f"1 swap a {2 if reply == 'kept 1 -' else 1} 2 - => {reply} q1", callers=1, charge=1048576)
            self.refuse(1, text, opening={"a": (1, "")})

    def test_full_though_a_new_fits(self) -> None:
        self.refuse(1, wrapped("1 new a 1 - => full 1015794 q0", charge=1048576))

    def test_a_swap_that_weighs_its_old_count(self) -> None:
        self.refuse(1, wrapped("1 swap a 1 2 xy => full 1015792 q0", charge=1048576), opening={"a": (1, "")})

    def test_a_page_without_a_number(self) -> None:
        self.refuse(1, wrapped("1 get a => damaged page x q0"), honest=False)

    def test_a_put_does_not_fail_as_a_lookup(self) -> None:
        self.refuse(1, wrapped("1 put a 1 - => fault q0"))

    def test_an_invented_entry(self) -> None:
        self.refuse(2, wrapped("1 get a => none q0", "1 get a => none q0"), "1 get a\n")

    def test_an_entry_of_a_caller_who_asked_nothing(self) -> None:
        self.refuse(2, wrapped("1 get a => none q0", "2 get a => none q0"), "1 get a\n")

    def test_a_line_left_out(self) -> None:
        self.refuse(0, wrapped("1 get a => none q0"), "1 get a\n1 get b\n")

    def test_a_callers_order_turned(self) -> None:
        self.refuse(1, wrapped("1 get a => none q0", "1 put a 1 - => ok q0"), "1 put a 1 -\n1 get a\n")

    def test_another_callers_command(self) -> None:
        self.refuse(1, wrapped("2 put a 1 - => ok q0"), "1 put a 1 -\n")

    def test_rows_of_another_moment(self) -> None:
        self.changed(8, HOLD, "rows 2 a 1 - b 2 -", "rows 1 a 9 -")

    def test_rows_given_twice(self) -> None:
        self.changed(9, HOLD, "rows 0", "rows 1 b 2 -")

    def test_rows_that_do_not_rise(self) -> None:
        self.changed(8, HOLD, "a 1 - b 2 -", "b 2 - a 1 -")

    def test_rows_past_the_end(self) -> None:
        text = wrapped("1 put c 1 - => ok q0", "1 hold a c => held q0", "1 next 1 => rows 1 c 1 - q0")
        self.refuse(3, text)

    def test_a_hold_that_is_forgotten(self) -> None:
        self.changed(11, HOLD, "drop => ok", "drop => nohold")

    def test_another_callers_hold(self) -> None:
        self.refuse(2, wrapped("1 hold a c => held q0", "2 next 1 => rows 0 q0"))

    def test_full_though_it_fits(self) -> None:
        self.refuse(1, wrapped("1 put a 1 - => full 100 q0"))

    def test_full_by_a_charge_that_nobody_made(self) -> None:
        self.refuse(1, wrapped("1 put a 1 - => full 1048576 q0"))

    def test_a_full_write_changes_nothing(self) -> None:
        self.refuse(2, wrapped("1 put a 1 - => full 1048576 q0", "1 get a => is 1 - q0", charge=1048576))

    def test_too_many_quanta(self) -> None:
        self.refuse(1, wrapped("1 put a 1 - => ok q3", callers=3))

    def test_quanta_of_a_get(self) -> None:
        self.refuse(1, wrapped("1 get a => none q1", callers=1))

    def test_a_work_of_more_turns(self) -> None:
        self.refuse(1, wrapped("1 work 3 => did 4 q0"))

    def test_more_quanta_than_turns(self) -> None:
        self.refuse(1, wrapped("1 work 3 => did 1 q2", callers=2))

    def test_an_answer_after_a_stop(self) -> None:
        self.changed(3, FAULT, "stopped fault 1", "is 1 -")

    def test_two_causes_of_one_stop(self) -> None:
        self.refuse(2, wrapped("1 get a => stopped fault 1 q0", "1 get a => stopped fault 2 q0"))

    def test_two_entries_that_stop(self) -> None:
        self.refuse(2, wrapped("1 put a 1 - => fault lost q0", "2 work 1 => fault q0"))

    def test_a_next_without_a_hold_does_not_fail(self) -> None:
        self.refuse(1, wrapped("1 next 1 => fault q0"))

    def test_a_damaged_page_on_an_honest_disk(self) -> None:
        self.refuse(1, wrapped("1 get a => damaged page 7 q0"))

    def test_a_sum_that_is_none(self) -> None:
        self.changed(0, WORK, "callers 2", "callers 3")

    def test_quanta_of_nobody(self) -> None:
        self.changed(0, WORK, "workers 0", "workers 1", workers=0)

    def test_a_peak_past_the_high_mark(self) -> None:
        self.changed(0, WORK, "c0 17", "c0 65537")

    def test_a_text_that_is_cut_off(self) -> None:
        self.refuse(0, WORK[:-1], script_of(WORK))
        self.refuse(0, "".join(WORK.splitlines(True)[:-1]), script_of(WORK))

    def test_numbers_left_out(self) -> None:
        self.changed(2, WORK, "2 1 work", "3 1 work")


if __name__ == "__main__":
    unittest.main()
