"""Tests of the comparison's scripts.   python3 -m unittest discover -s python"""

import sys
import unittest
from pathlib import Path

sys.path.insert(0, str(Path(__file__).resolve().parent.parent / "benchmarks"))
import compare  # noqa: E402
from judge import PlainMap, Geometry, entry, weight  # noqa: E402


class Scripts(unittest.TestCase):
    def test_the_generator_makes_the_trial(self) -> None:
        script = compare.generated(7, 2000)
        self.assertEqual(len(script.commands), 2000)
        self.assertEqual(script.durable(), sum(not command.startswith("get ") for command in script.commands))

    def test_gets_alone_are_of_the_keys_that_were_put(self) -> None:
        script = compare.gets(300)
        put = {command.split(" ")[1] for command in script.filling if command.startswith("put ")}
        self.assertEqual(len(put), 300)
        self.assertEqual(sorted(command.split(" ", 1)[1] for command in script.commands), sorted(put))
        self.assertTrue(script.filling[-1].startswith("work "))
        self.assertEqual(script.durable(), 0)

    def test_a_store_is_filled_to_nine_tenths_by_new_keys(self) -> None:
        script = compare.filled(7, 1)
        sizes = [weight(tuple(command.split(" "))) for command in script.filling]
        self.assertEqual(len({command.split(" ")[1] for command in script.filling}), len(sizes))
        self.assertLessEqual(sum(sizes), Geometry().capacity * 9 // 10)
        self.assertGreater(sum(sizes) + 250, Geometry().capacity * 9 // 10)

    def test_each_write_of_the_mix_fits(self) -> None:
        script = compare.filled(7, 3000)
        present, charge, works = compare.Present(), 0, 0
        for command in script.filling:
            present.write(command)
            charge += compare.weight(command)
        self.assertEqual(charge, present.sum)
        for command in script.commands:
            if command.startswith("work "):
                charge, works = present.sum, works + 1
            elif compare.is_write(command):
                charge += compare.weight(command)
                present.write(command)
            self.assertLessEqual(charge, Geometry().limit("put"))
        self.assertEqual(sum(not command.startswith("work ") for command in script.commands), 3000)
        self.assertGreater(works, 3)

    def test_the_weights_are_those_of_a_plain_map(self) -> None:
        present, plain = compare.Present(), PlainMap({}, Geometry(), 0, True)
        tails = ("tail a uvw", "tail b x", f"put c 1 {'y' * 70}", "tail c z", "tail d z")
        looking = ("new e 1 x", "swap e 1 2 yz", "swap e 2 3 -")
        for place, command in enumerate(("add a 1", "put a 2 xyz", "add a 3", "del a", "del a", "add a 4", "put b 1 -", *tails, *looking), 1):
            present.write(command)
            plain.take(entry(f"{place} 1 {command} => ok q0", place))
            self.assertEqual(present.weights, {key: 13 + len(key) + len(text) for key, (_, text) in plain.store.items()})
            self.assertEqual(present.sum, sum(present.weights.values()))


if __name__ == "__main__":
    unittest.main()
