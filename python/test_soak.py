"""Tests of the soak's scripts.   python3 -m unittest discover -s python"""

import collections
import random
import unittest

import soak
from judge import WRITES, Map, is_met, write


class Scripts(unittest.TestCase):
    def test_conditions_hold_often_and_often_not(self) -> None:
        store: Map = {}
        drawn: collections.Counter[tuple[str, bool]] = collections.Counter()
        for words in (tuple(line.split(" ")[1:]) for line in soak.shared_script(random.Random(1), 3000).splitlines()):
            if words[0] in WRITES:
                drawn[words[0], is_met(store, words)] += 1
                if is_met(store, words):
                    write(store, words)
        for verb in ("new", "swap"):
            self.assertGreater(min(drawn[verb, True], drawn[verb, False]), 40)

    def test_a_front_has_no_write_that_is_kept_out(self) -> None:
        news = ("1 new own011 1 -", "1 new own011 2 -", "2 put own021 5 -")
        lines = (*news, "1 swap own011 2 3 -", "1 swap own011 1 4 x", "1 del own011", "1 swap own011 4 5 -")
        fronts = soak.fronts("".join(f"{line}\n" for line in lines), 1, {"own012": (7, ""), "own021": (4, "")})
        own = [{}, {"own011": (1, "")}, {"own011": (4, "x")}, {}]
        self.assertEqual(fronts, [{"own012": (7, ""), **front} for front in own])


if __name__ == "__main__":
    unittest.main()
