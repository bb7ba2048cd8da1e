"""Tests of the picture of a run: the rules, done again over dictionaries, give what runs print.   python3 -m unittest discover -s python"""

import contextlib
import io
import sys
import unittest
from collections.abc import Iterator
from pathlib import Path
from xml.etree import ElementTree

sys.path.insert(0, str(Path(__file__).resolve().parent.parent / "examples"))
import plot_pacing  # noqa: E402
from test_conditions import BEHIND_A_WORK, ONE_KEY, OTHER_WRITES  # noqa: E402


def trial(seed: int, count: int) -> Iterator[list[str]]:
    """The commands of a trial."""
    state = seed
    for _ in range(count):
        drawn = []
        for _ in range(4):
            state = (state * 6364136223846793005 + 1442695040888963407) % 2**64
            drawn.append(state >> 33)
        kind, key, number = drawn[0] % 100, drawn[1] % 1500, drawn[2] % 1000
        name = f"k{key:05}"
        if kind < 60:
            yield ["put", name, str(number), chr(ord("a") + key % 26) * (160 + drawn[3] % 40)]
        elif kind < 78:
            yield ["add", name, str(number)]
        else:
            yield ["del" if kind < 80 else "get", name]


def default() -> plot_pacing.Tree:
    return plot_pacing.Tree(32768, 4, 16384, 4096)


def equal_writes(quanta: str = "1") -> list[str]:
    """A hundred puts of the greatest weight, of which every 33rd takes a quantum."""
    entries = [f"{i} 1 put {'k' * 64} 9 {'x' * 435} => ok q{quanta if i % 33 == 0 else 0}" for i in range(1, 101)]
    return ["open charge 0", *entries, "end c0 512 of 65536 callers 3 workers 0 swaps 3 0"]


class Rules(unittest.TestCase):
    def test_the_trial_of_seed_7(self) -> None:
        tree, quanta = default(), []
        for words in trial(7, 20_000):
            if words[0] != "get":
                tree.admit(0, words[1], plot_pacing.record_of(words))
                quanta.append(tree.pay(0))
        self.assertEqual((tree.peak, max(quanta), sum(quanta), tree.passes, tree.deeps, tree.charge()), (29831, 3, 5410, 117, 3, 485669))

    def test_a_store_that_gets_full(self) -> None:
        tree = plot_pacing.Tree(17408, 2, 16384, 4096)
        for i in range(238):
            tree.admit(0, f"k{i:063}", ("base", 1, "x" * 435))
            self.assertLessEqual(tree.pay(0), 3)
        self.assertEqual(tree.charge(), 121856)
        tree.admit(0, "a", ("tomb", 0, ""))
        self.assertEqual((tree.charge(), tree.capacity - tree.half), (121870, 121856))

    def test_the_work_bound(self) -> None:
        self.assertEqual([default().work_bound(heavy) for heavy in (0, 14, 218, 512)], [0, 2, 3, 4])


class Pictures(unittest.TestCase):
    def drawn(self, lines: list[str]) -> tuple[plot_pacing.Drawn, str]:
        tree = default()
        drawn = plot_pacing.Drawn(lines, tree)
        return drawn, plot_pacing.draw(drawn, tree)

    def words(self, svg: str) -> str:
        return "\n".join(element.text or "" for element in ElementTree.fromstring(svg).iter() if element.tag.endswith("text"))

    def test_equal_writes_are_done_again(self) -> None:
        drawn, svg = self.drawn(equal_writes())
        self.assertTrue(drawn.is_exact)
        self.assertIn("the same as printed", self.words(svg))
        self.assertIn("work bound of the heaviest write (512 bytes)", self.words(svg))
        self.assertIn("swaps that ended a pass, by entry: 3", self.words(svg))

    def test_a_pass_that_is_under_way_is_done_again(self) -> None:
        entries = [f"1 put {key} 0 {'x' * 435} => ok q0" for key in "bcdef"] + ["1 work 2 => did 2 q1", "1 put c 1 - => ok q0", "1 put g 2 - => ok q0", "1 work 3 => did 3 q1"]
        lines = ["open charge 0", *(f"{i} {line}" for i, line in enumerate(entries, 1)), "end c0 2273 of 65536 callers 2 workers 0 swaps 1 0"]
        self.assertTrue(plot_pacing.Drawn(lines, plot_pacing.Tree(32768, 4, 16384, 1024)).is_exact)

    def test_tails_are_done_again(self) -> None:
        puts = ["1 1 put a 5 hello => ok q0", f"2 1 put b 0 {'x' * 70} => ok q0", "3 1 work 100 => did 6 q2"]
        lines = [*puts, "4 1 tail a world => ok q0", "5 1 tail b y => ok q0", "6 1 work 100 => did 6 q2"]
        tree = default()
        drawn = plot_pacing.Drawn(["open charge 0", *lines, "end c0 103 of 65536 callers 4 workers 0 swaps 2 2"], tree)
        self.assertTrue(drawn.is_exact)
        self.assertEqual([(entry.is_write, entry.weight) for entry in drawn.entries[3:5]], [(True, 19), (True, 15)])
        self.assertEqual(tree.c2.records, {"a": ("base", 5, "helloworld"), "b": ("base", 0, "x" * 63 + "y")})
        self.assertEqual(tree.charge(), 102)

    def test_news_and_swaps_are_done_again(self) -> None:
        for history, records in ((ONE_KEY, {"a": ("base", 7, "z")}), (BEHIND_A_WORK, {"x": ("base", 7, "new")}), (OTHER_WRITES, None)):
            tree = default()
            drawn = plot_pacing.Drawn(["open charge 0", *history.splitlines()], tree)
            self.assertTrue(drawn.is_exact)
            self.assertEqual(tree.a.records, records or {"a": ("base", 3, "z"), "c": ("base", 6, ""), "d": ("base", 1, "")})
            self.assertEqual(sum(entry.is_write for entry in drawn.entries), sum(" => ok " in line for line in history.splitlines()))

    def test_tails_fold_as_texts_do(self) -> None:
        tail, add, tomb = ("delta", 0, "z" * 60), ("delta", 2, ""), ("tomb", 0, "")
        self.assertEqual(plot_pacing.fold(tail, ("delta", 1, "abcdef")), ("delta", 1, "cdef" + "z" * 60))
        self.assertEqual(plot_pacing.fold(add, ("base", 1, "y" * 70)), ("base", 3, "y" * 70))
        self.assertEqual(plot_pacing.fold(tail, tomb), ("base", 0, "z" * 60))

    def test_works_stand_apart_from_writes(self) -> None:
        lines = ["open charge 0", "1 1 put x 100 old => ok q0", "2 1 work 100 => did 6 q2", "3 1 del x => ok q0", "4 1 add x 7 => ok q0", "5 1 get x => is 7 - q0", "end c0 17 of 65536 callers 2 workers 0 swaps 1 1"]
        _, svg = self.drawn(lines)
        self.assertIn("merge quanta of each work, 2 at most", self.words(svg))
        self.assertIn("merge quanta of each write, 0 at most", self.words(svg))
        self.assertIn("writes of callers 0, works of callers 2, workers (a sum alone) 0", self.words(svg))

    def test_a_history_that_departs_from_the_rules(self) -> None:
        for lines in (equal_writes("2"), [*equal_writes()[:-1], "end c0 511 of 65536 callers 3 workers 0 swaps 3 0"], ["open charge 0", "1 1 put a 1 - => full 7 q0", "end c0 0 of 65536 callers 0 workers 0 swaps 0 0"]):
            with self.subTest(lines[-1]), self.assertRaises(SystemExit):
                self.drawn(lines)

    def test_workers_are_known_as_a_sum_alone(self) -> None:
        lines = [*equal_writes("0")[:-1], "end c0 512 of 65536 callers 0 workers 3 swaps 3 0"]
        drawn, svg = self.drawn(lines)
        self.assertFalse(drawn.is_exact)
        self.assertIn("of the workers' only the sum is known", self.words(svg))
        self.assertIn("workers (a sum alone) 3", self.words(svg))

    def test_neighbours_share_a_column_where_there_are_many(self) -> None:
        for count in (1, 999, 1000, 1001, 20_000):
            columned = plot_pacing.columns(range(count))
            self.assertEqual([value for column in columned for value in column], list(range(count)))
            self.assertTrue(all(columned))
            self.assertLessEqual(len(columned), 1000)

    def test_a_column_shows_the_range_of_its_values_and_the_greatest_stem(self) -> None:
        picture = plot_pacing.Picture(2000)
        picture.curve("c", [50, 100, 0, 50] * 500, 100, (), 100, "#111")
        self.assertIn(f"M80 {plot_pacing.TOP + 100}h1v-50v-50h1v100v-50h1v-50", picture.out[-1])
        picture.stems("s", [0, 3, 1, 0] * 500, 4, 100, "#222")
        top = plot_pacing.TOP + 100 + plot_pacing.GAP
        self.assertIn(f"M81 {top + 100}V{top + 25}M82 {top + 100}V{top + 75}", picture.out[-1])

    def test_several_callers_are_drawn_as_printed(self) -> None:
        lines = ["open charge 0", "1 2 put a 1 - => ok q0", "2 1 put a 2 - => ok q0", "end c0 14 of 65536 callers 0 workers 0 swaps 0 0"]
        drawn, svg = self.drawn(lines)
        self.assertFalse(drawn.is_exact)
        self.assertIn("not what was in this run", self.words(svg))

    def test_a_history_over_a_store_that_has_something_is_refused(self) -> None:
        with contextlib.redirect_stdout(io.StringIO()), self.assertRaises(SystemExit):
            sys.argv, old = ["plot_pacing.py", "-"], sys.argv
            stdin, sys.stdin = sys.stdin, io.StringIO("open charge 14\nend c0 0 of 65536 callers 0 workers 0 swaps 0 0\n")
            try:
                plot_pacing.main()
            finally:
                sys.argv, sys.stdin = old, stdin


if __name__ == "__main__":
    unittest.main()
