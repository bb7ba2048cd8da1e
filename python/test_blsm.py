"""Tests of the store from Python. Those that need the built program are skipped where it isn't there; the others run a small stand-in that prints a given text.

    python3 -m unittest discover -s python
"""

import os
import re
import shutil
import subprocess
import sys
import tempfile
import unittest
from pathlib import Path

import blsm
from blsm import Absent, Add, Del, Did, Done, Drop, Full, Get, Held, Hold, Is, Kept, New, Next, NoHold, NotDone
from blsm import Put, Row, Rows, Stopped, Store, Swap, Tail, Value, Work, WriteFailed
from judge import Geometry, judge

BUILT = os.environ.get("BLSM", str(blsm.PROGRAM))
HAS_PROGRAM = os.access(BUILT, os.X_OK)
WHY = f"the built program isn't there: {BUILT}"

SAY = """import pathlib, sys
here = pathlib.Path(sys.argv[1])
number = len(list(here.glob("asked_*")))
(here / f"asked_{number}").write_text(" ".join(sys.argv[2:]) + "\\n" + sys.stdin.read())
status, text = (here / f"says_{number}").read_text().split("\\n", 1)
sys.stdout.write(text)
sys.exit(int(status))
"""


class WithStandIn(unittest.TestCase):
    """A store whose program prints what the test says, call by call, and notes what it was asked."""

    def setUp(self) -> None:
        self.room = tempfile.TemporaryDirectory()
        self.addCleanup(self.room.cleanup)
        self.here = Path(self.room.name)
        (self.here / "say.py").write_text(SAY)
        self.store = Store("-file", [sys.executable, str(self.here / "say.py"), str(self.here)])

    def says(self, *texts: str, status: int = 0) -> None:
        for number, text in enumerate(texts):
            (self.here / f"says_{number}").write_text(f"{status}\n{text}")

    def asked(self, number: int = 0) -> str:
        return (self.here / f"asked_{number}").read_text()


class Batches(WithStandIn):
    def test_each_reply_has_its_type(self) -> None:
        self.says(
            "open charge 3\n1 2 add plum 7 => ok q1\n2 1 put a 1 hi => full 9 q0\n3 1 get a => is 1 - q0\n4 1 get b => none q0\n5 1 work 3 => did 2 q1\n"
            "6 1 hold a c => held q0\n7 1 next 2 => rows 2 a 1 - b 2 hi q0\n8 1 drop => nohold q0\n9 2 tail plum sweet => ok q0\n"
            "end c0 20 of 65536 callers 2 workers 5 swaps 1 0\n"
        )
        mine = [Put("a", 1, "hi"), Get("a"), Get("b"), Work(3), Hold("a", "c"), Next(2), Drop()]
        run = self.store.run({1: mine, 2: [Add("plum", 7), Tail("plum", "sweet")]}, workers=2, turns=5)
        self.assertEqual(run.replies(1), [Full(9), Is(1, ""), Absent(), Did(2), Held(), Rows((Row("a", 1), Row("b", 2, "hi"))), NoHold()])
        self.assertEqual(run.replies(2), [Done(), Done()])
        self.assertEqual([entry.quanta for entry in run.entries], [1, 0, 0, 0, 1, 0, 0, 0, 0])
        self.assertEqual((run.charge, run.peak, run.high_mark, run.callers_quanta, run.workers_quanta, run.passes, run.deep_merges), (3, 20, 65536, 2, 5, 1, 0))
        self.assertIs(run.entries[1].command, mine[0])
        self.assertEqual(
            self.asked(), "run --workers 2 --turns 5 -- -file\n1 put a 1 hi\n2 add plum 7\n1 get a\n2 tail plum sweet\n1 get b\n1 work 3\n1 hold a c\n1 next 2\n1 drop\n"
        )

    def test_writes_that_look_first(self) -> None:
        entries = (
            *("new a 1 hi => ok", "new a 2 - => kept 1 hi", "swap a 1 2 - => ok", "swap a 1 3 x => kept 2 -"),
            *("swap b 0 1 - => kept none", "new c 1 - => full 9", "new c 1 - => fault"),
        )
        printed = "".join(f"{place} 1 {entry} q0\n" for place, entry in enumerate(entries, 1))
        self.says(f"open charge 0\n{printed}end c0 16 of 65536 callers 0 workers 0 swaps 0 0\n")
        asked = [New("a", 1, "hi"), New("a", 2), Swap("a", 1, 2), Swap("a", 1, 3, "x"), Swap("b", 0, 1), New("c", 1), New("c", 1)]
        run = self.store.run({1: asked})
        self.assertEqual(run.replies(1), [Done(), Kept(Value(1, "hi")), Done(), Kept(Value(2)), Kept(None), Full(9), blsm.Failed()])
        self.assertEqual(self.asked().splitlines()[1:], [f"1 {entry.split(' => ')[0]}" for entry in entries])

    def test_ships_are_the_writes_that_were_done(self) -> None:
        entries = ("put a 1 hi => ok", "get a => is 1 hi", "new b 2 - => ok", "new b 3 - => kept 2 -", "swap a 1 7 z => ok", "drop => ok", "del b => ok", "add c 1 => full 9")
        printed = "open charge 0\n" + "".join(f"{place} 1 {entry} q0\n" for place, entry in enumerate(entries, 1))
        end = "end c0 16 of 65536 callers 0 workers 0 swaps 0 0\n"
        ships = "ship 4 put a 1 hi\nship 5 put b 2 -\nship 6 put a 7 z\nship 7 del b\n"
        asked = {1: [Put("a", 1, "hi"), Get("a"), New("b", 2), New("b", 3), Swap("a", 1, 7, "z"), Drop(), Del("b"), Add("c", 1)]}
        self.says(printed + end + ships, *(printed + end + text for text in (ships[:-11], ships.replace("6 put", "7 put"), ships + "ship 8 del a\n", "", ships.replace("put b", "new b"))))
        run = self.store.run(asked, ships=4)
        self.assertEqual("".join(f"{ship.line()}\n" for ship in run.ships), ships)
        self.assertEqual(self.asked().splitlines()[0], "run --workers 0 --turns 1000 --ships 4 -- -file")
        for _ in range(5):
            with self.assertRaises(blsm.Unreadable):
                self.store.run(asked, ships=4)
        with self.assertRaises(ValueError):
            self.store.run(asked, ships=(1 << 63) + 1)

    def test_what_is_held_in_the_end(self) -> None:
        end = "open charge 0\n1 1 put a 1 hi => ok q0\nend c0 16 of 65536 callers 0 workers 0 swaps 0 0\n"
        ship = "ship 3 put a 1 hi\n"
        wrong = (
            *("", ship, f"{ship}resident 16\n", f"resident 16\nresident 16\n{ship}"),
            *(f"resident -1\n{ship}", f"resident 16 \n{ship}", f"resident\n{ship}"),
        )
        self.says(f"{end}resident 16\n{ship}", f"{end}resident 0\n", end, f"{end}resident 16\n", *(end + text for text in wrong))
        asked = {1: [Put("a", 1, "hi")]}
        run = self.store.run(asked, ships=3, resident=True)
        self.assertEqual((run.resident, run.ships), (16, (blsm.Ship(3, Put("a", 1, "hi")),)))
        self.assertEqual(self.asked().splitlines()[0], "run --workers 0 --turns 1000 --ships 3 --resident 1 -- -file")
        self.assertEqual(self.store.run(asked, resident=True).resident, 0)
        self.assertIsNone(self.store.run(asked).resident)
        self.assertEqual(self.asked(2).splitlines()[0], "run --workers 0 --turns 1000 -- -file")
        with self.assertRaises(blsm.Unreadable):
            self.store.run(asked)
        for _ in wrong:
            with self.assertRaises(blsm.Unreadable):
                self.store.run(asked, ships=3, resident=True)

    def test_a_condition_is_answered(self) -> None:
        for reply, is_put in (("ok", True), ("kept 1 -", False)):
            with self.subTest(reply):
                printed = (f"1 1 {line} => {reply} q0\n" for line in ("new a 2 x", "swap a 7 2 x"))
                self.says(*(f"open charge 0\n{entry}end c0 0 of 65536 callers 0 workers 0 swaps 0 0\n" for entry in printed))
                for old in self.here.glob("asked_*"):
                    old.unlink()
                self.assertEqual([self.store.new("a", 2, "x"), self.store.swap("a", 7, 2, "x")], [is_put, is_put])

    def test_a_history_of_other_commands_is_refused(self) -> None:
        for text in (
            "open charge 0\n1 1 get b => none q0\nend c0 0 of 65536 callers 0 workers 0 swaps 0 0\n",
            "open charge 0\nend c0 0 of 65536 callers 0 workers 0 swaps 0 0\n",
            "open charge 0\n1 1 get a => none q0\n",
            "open charge 0\n1 1 get a => perhaps q0\nend c0 0 of 65536 callers 0 workers 0 swaps 0 0\n",
            "open charge 0\n1 1 get a => is 1 \u00ff q0\nend c0 0 of 65536 callers 0 workers 0 swaps 0 0\n",
            "",
        ):
            with self.subTest(text), self.assertRaises(blsm.Unreadable):
                for old in self.here.glob("asked_*"):
                    old.unlink()
                self.says(text)
                self.store.run({1: [Get("a")]})

    def test_what_no_script_can_spell_never_runs(self) -> None:
        for command in (Put("", 1), Put("a b", 1), Put("k" * 65, 1), Put("a", 1, "-"), Put("a", 1, "x" * 436), Put("a", 2**64), Put("a", -1), Tail("a", ""), Tail("a", "-"), Tail("a", "x" * 65), Tail("a", "b c"), Get("a\n1 del b"), Next(33), Next(0), Work(0)):
            with self.subTest(command), self.assertRaises(ValueError):
                self.store.run({1: [command]})
        news = (New("a b", 1), New("k" * 65, 1), New("a", 2**64), New("a", -1), New("a", 1, "-"), New("a", 1, "x" * 436))
        for command in (*news, Swap("", 1, 2), Swap("a", -1, 2), Swap("a", 2**64, 2), Swap("a", 1, 2**64), Swap("a", 1, 2, "x" * 436)):
            with self.subTest(command), self.assertRaises(ValueError):
                self.store.run({1: [command]})
        for caller in (0, 17):
            with self.assertRaises(ValueError):
                self.store.run({caller: [Get("a")]})
        self.assertEqual(list(self.here.glob("asked_*")), [])

    def test_what_a_settling_took(self) -> None:
        self.says("settled version 7 quanta 3 of 26\n")
        self.assertEqual(self.store.settle(), blsm.Settled(version=7, quanta=3, bound=26))
        self.assertEqual(self.asked(), "settle -- -file\n")
        for text in ("settled version 7 quanta 3\n", "settled version 7 quanta 3 of 26", "ok version 7\n"):
            with self.subTest(text), self.assertRaises(blsm.Unreadable):
                for old in self.here.glob("asked_*"):
                    old.unlink()
                self.says(text)
                self.store.settle()

    def test_a_refused_write_raises_where_it_stands_alone(self) -> None:
        self.says("open charge 0\n1 1 add a 1 => full 5 q0\nend c0 0 of 65536 callers 0 workers 0 swaps 0 0\n")
        with self.assertRaises(NotDone) as caught:
            self.store.add("a", 1)
        self.assertEqual(caught.exception.reply, Full(5))
        self.assertIn("larger", caught.exception.advice)


class Refusals(WithStandIn):
    def test_each_status_has_its_class(self) -> None:
        for status, line, kind in (
            (1, "usage", blsm.Usage),
            (2, "bad line 3", blsm.BadLine),
            (3, "too big", blsm.TooBig),
            (4, "not a store", blsm.NotAStore),
            (5, "not empty 100", blsm.NotEmpty),
            (6, "damaged page 7", blsm.Damaged),
            (7, "disk fault", blsm.DiskFault),
            (8, "source fault", blsm.SourceFault),
            (10, "no memory", blsm.NoMemory),
        ):
            with self.subTest(line), self.assertRaises(kind) as caught:
                for old in self.here.glob("asked_*"):
                    old.unlink()
                self.says(line + "\n", status=status)
                self.store.check()
            self.assertEqual(caught.exception.line, line)
            self.assertIsNone(caught.exception.run)
            self.assertIn(caught.exception.advice, str(caught.exception))

    def test_a_run_that_met_a_fault_tells_what_was_done(self) -> None:
        text = "open charge 0\n1 1 put a 1 - => ok q0\n2 1 put b 2 - => fault unsure q0\n3 1 get a => stopped fault 1 q0\nend c0 14 of 65536 callers 0 workers 0 swaps 0 0\n"
        self.says(text, status=7)
        with self.assertRaises(blsm.DiskFault) as caught:
            self.store.run({1: [Put("a", 1), Put("b", 2), Get("a")]})
        assert caught.exception.run
        self.assertEqual(caught.exception.run.replies(1), [Done(), WriteFailed(True), Stopped(False, 1)])


def printed(rows: list[str], nexts: int, first: str, greatest: str | None) -> str:
    """The history of a part of `rows`."""
    lines = [f"hold {first} {blsm.GREATEST_KEY} => held", f"get {blsm.GREATEST_KEY} => {greatest or 'none'}"]
    for i in range(nexts):
        part = rows[32 * i : 32 * i + 32]
        lines.append(" ".join([f"next 32 => rows {len(part)}", *part]))
    lines.append("drop => ok")
    body = "".join(f"{i} 1 {line} q0\n" for i, line in enumerate(lines, 1))
    return f"open charge 0\n{body}end c0 0 of 65536 callers 0 workers 0 swaps 0 0\n"


class Scans(WithStandIn):
    def test_rows_of_one_script(self) -> None:
        self.says("ok version 3 c1 40 600 c1x 0 0 c2 30 400 lanes 2 1\n", printed([f"k{i:02} {i} -" for i in range(70)], 3, "!", "is 9 z"))
        rows = list(self.store.rows())
        self.assertEqual(rows, [*(Row(f"k{i:02}", i) for i in range(70)), Row(blsm.GREATEST_KEY, 9, "z")])
        self.assertEqual(self.asked(1).count("next 32"), 3)

    def test_a_range_asks_for_no_greatest_key(self) -> None:
        self.says(
            "ok version 1 c1 0 0 c1x 0 0 c2 0 0 lanes 1 0\n",
            "open charge 14\n1 1 hold a c => held q0\n2 1 next 32 => rows 1 a 1 - q0\n3 1 drop => ok q0\nend c0 0 of 65536 callers 0 workers 0 swaps 0 0\n",
        )
        self.assertEqual(list(self.store.rows("a", "c")), [Row("a", 1)])

    def test_a_lookup_that_fails_raises(self) -> None:
        self.says(
            "ok version 1 c1 0 0 c1x 0 0 c2 0 0 lanes 1 0\n",
            "open charge 14\n1 1 hold a c => held q0\n2 1 next 32 => fault q0\n3 1 drop => ok q0\nend c0 0 of 65536 callers 0 workers 0 swaps 0 0\n",
        )
        with self.assertRaises(NotDone):
            list(self.store.rows("a", "c"))

    def test_dumped_lines_are_loaded(self) -> None:
        lines = ["a 1 -\n", "b 18446744073709551615 hi\n"]
        self.says("open charge 0\n1 1 put a 1 - => ok q0\n2 1 put b 18446744073709551615 hi => ok q0\nend c0 0 of 65536 callers 0 workers 0 swaps 0 0\n")
        self.assertEqual(self.store.load(lines), 2)
        self.assertEqual([Row.of_line(line.strip()).line() + "\n" for line in lines], lines)

    def test_successors(self) -> None:
        self.assertEqual(blsm.successor("a"), "a!")
        self.assertEqual(blsm.successor("a" * 64), "a" * 63 + "b")
        self.assertEqual(blsm.successor("b" + "~" * 63), "c")
        self.assertIsNone(blsm.successor(blsm.GREATEST_KEY))


@unittest.skipUnless(HAS_PROGRAM, WHY)
class Built(unittest.TestCase):
    """Over the built program, and files."""

    def setUp(self) -> None:
        self.room = tempfile.TemporaryDirectory()
        self.addCleanup(self.room.cleanup)
        self.path = Path(self.room.name) / "a.blsm"

    def test_a_store_keeps_what_was_put(self) -> None:
        store = Store.make(self.path)
        store.put("apple", 3, "red")
        store.add("apple", 4)
        store.add("plum", 7)
        store.tail("apple", "ripe")
        store.tail("pear", "green")
        self.assertEqual(Store.open(self.path).get("apple"), Value(7, "redripe"))
        self.assertEqual(store.get("pear"), Value(0, "green"))
        store.delete("plum")
        self.assertIsNone(store.get("plum"))

    def test_histories_are_legal(self) -> None:
        store = Store.make(self.path, low=0)
        batch = {caller: [Tail(f"k{i % 40:02}", f"c{caller}") if i % 3 else Add(f"k{i % 40:02}", caller) for i in range(200)] + [Del(f"k{caller:02}"), Get("k05"), Hold("k", "l"), Next(32), Next(32), Drop()] for caller in range(1, 17)}
        opening: dict[str, tuple[int, str]] = {}
        for workers in (0, 2, 8):
            run = store.run(batch, workers=workers)
            opening = judge(run.script, run.text, opening, Geometry(low=0), workers)
            self.assertEqual([(row.key, (row.count, row.text)) for row in store.rows()], sorted(opening.items()))

    def test_the_callers_order_stays(self) -> None:
        run = Store.make(self.path).run({1: [Put("a", 1)], 2: [Put("a", 2), Get("a")]}, workers=2)
        self.assertIn(run.replies(2)[1], (Is(1, ""), Is(2, "")))

    def test_a_dump_survives_a_round_trip(self) -> None:
        first, second = Store.make(self.path), Store.make(self.path.with_name("b.blsm"), half=65536)
        keys = ["!", *(f"k{i:03}" for i in range(500)), "~" * 63, blsm.GREATEST_KEY]
        first.run({1: [Put(key, i, "x" * (i % 436)) for i, key in enumerate(keys)]})
        lines = list(first.dump())
        self.assertEqual(len(lines), len(keys))
        self.assertEqual(second.load(lines), len(keys))
        self.assertEqual(list(second.dump()), lines)

    def test_a_hold_of_a_full_memory_table_has_all_its_rows(self) -> None:
        store = Store.make(self.path, low=32768)
        keys = [f"{chr(33 + i // 94)}{chr(33 + i % 94)}" for i in range(2184)]  # of weight 15, up to the low mark: none is merged
        nexts = [Next(32)] * (len(keys) // 32 + 1)
        run = store.run({1: [*(Put(key, place) for place, key in enumerate(keys)), Hold("!", "~~"), *nexts]})
        rows = [row for reply in run.replies(1)[len(keys) + 1 :] for row in (reply.rows if isinstance(reply, Rows) else ())]
        self.assertEqual(rows, [Row(key, place, "") for place, key in enumerate(keys)])
        self.assertEqual((run.callers_quanta, run.passes), (0, 0))

    def test_a_tail_is_refused_as_full_as_a_put_is(self) -> None:
        store = Store.make(self.path, half=17408, ratio=2, low=16384)
        heaviest = [Put(f"{i:064}", 1, "x" * 435) for i in range(238)]  # of weight 512 each: half a spring below the capacity
        run = store.run({1: [*heaviest, Put("a", 1), Add("a", 1), Tail("a", "t"), Del("a"), Put("a", 1), Tail("a", "t")]})
        self.assertEqual(run.replies(1)[len(heaviest) :], [Full(121_856), Full(121_856), Full(121_856), Done(), Full(121_870), Full(121_870)])
        self.assertEqual(len(list(store.rows())), len(heaviest))

    def test_refusals(self) -> None:
        with self.assertRaises(blsm.DiskFault):
            Store.open(self.path)
        Store.make(self.path)
        with self.assertRaises(blsm.NotEmpty):
            Store.make(self.path)
        with self.assertRaises(blsm.Usage):
            Store.make(self.path, low=40000)
        self.path.write_bytes(bytes(100))
        with self.assertRaises(blsm.NotAStore):
            Store.open(self.path)


@unittest.skipUnless(HAS_PROGRAM, WHY)
@unittest.skipUnless(shutil.which("strace"), "strace isn't there")
class Folders(unittest.TestCase):
    """The folder that names a file is synced once the file was made, as the system is called. No clause can say it."""

    def setUp(self) -> None:
        self.room = tempfile.TemporaryDirectory()
        self.addCleanup(self.room.cleanup)
        self.here = Path(self.room.name).resolve()

    def synced(self, path: Path) -> list[str]:
        """The paths that a making of this file syncs, in order."""
        calls = self.here / "calls"
        done = subprocess.run(["strace", "-f", "-y", "-o", str(calls), "-e", "trace=fsync,fdatasync", BUILT, "make", str(path)], stdout=subprocess.DEVNULL, stderr=subprocess.PIPE, text=True)
        if not calls.exists() or "ptrace" in done.stderr:
            self.skipTest("calls can't be traced here")
        self.assertEqual(done.returncode, 0, done.stderr)
        return re.findall(r"f(?:data)?sync\(\d+<([^>]*)>\) += 0", calls.read_text())

    def test_the_folder_of_a_file_that_was_made(self) -> None:
        folder = self.here / "folder"
        folder.mkdir()
        synced = self.synced(folder / "a.blsm")
        self.assertIn(str(folder), synced)
        self.assertIn(str(folder / "a.blsm"), synced)
        self.assertNotIn(str(self.here), synced)

    def test_the_folder_of_a_links_target(self) -> None:
        folder, other = self.here / "folder", self.here / "other"
        folder.mkdir()
        other.mkdir()
        (other / "a.blsm").touch()
        (folder / "link").symlink_to(other / "a.blsm")
        synced = self.synced(folder / "link")
        self.assertIn(str(other), synced)
        self.assertNotIn(str(folder), synced)


@unittest.skipUnless(HAS_PROGRAM, WHY)
@unittest.skipUnless(shutil.which("strace"), "strace isn't there")
class Reads(unittest.TestCase):
    """How often gets read the file, over a store each of whose components has more than a hundred pages."""

    LEAST_FULL = 3577  # bytes of entries: all pages of a component but its last have as many
    PUTS = 5300  # some two marks of C1 into C2 and C1', and the rest into C1 while these merge
    CHANGED = 20  # keys that were put first, and were added to once while C1' was filled and once while C1 was
    ADDS_BEHIND = (3300, 4800)

    def setUp(self) -> None:
        self.room = tempfile.TemporaryDirectory()
        self.addCleanup(self.room.cleanup)
        self.here = Path(self.room.name).resolve()

    @staticmethod
    def key(number: int) -> str:
        return f"k{number * 40503 % 65536:05}"

    def writes(self) -> list[str]:
        lines = []
        for number in range(self.PUTS):
            lines.append(f"1 put {self.key(number)} {number} {'x' * 435}")
            if number in self.ADDS_BEHIND:
                lines += [f"1 add {self.key(changed)} 10000" for changed in range(self.CHANGED)]
        return lines

    def run_over_new(self, gets: list[str]) -> tuple[list[str], int]:
        """Runs the writes and these gets over a new store. Answers what the gets were told, and how often the file was read."""
        path, calls, script = self.here / "a.blsm", self.here / "calls", self.here / "script.txt"
        path.unlink(missing_ok=True)
        subprocess.run([BUILT, "make", "--half", "163840", "--ratio", "3", "--", str(path)], stdout=subprocess.DEVNULL, check=True)
        script.write_text("".join(f"{line}\n" for line in [*self.writes(), *gets]))
        with open(script) as lines:
            told = subprocess.run(["strace", "-f", "-y", "-s", "0", "-o", str(calls), "-e", "trace=read,pread64", BUILT, "run", "--workers", "0", "--", str(path)], stdin=lines, stdout=subprocess.PIPE, text=True, check=True).stdout
        reads = sum(f"<{path}>" in line for line in calls.read_text().splitlines())
        return [line.split(" => ")[1].rsplit(" q", 1)[0] for line in told.splitlines() if " get " in line], reads

    def test_gets_read_a_page_of_each_component_that_may_have_the_key(self) -> None:
        _, before = self.run_over_new([])
        report = Store(self.here / "a.blsm", [BUILT]).check()
        for component in (report.c1, report.c1x, report.c2):
            self.assertGreater(component.weight, 100 * self.LEAST_FULL)

        told, reads = self.run_over_new([f"1 get {self.key(number)}" for number in range(self.CHANGED)])
        self.assertEqual(told, [f"is {number + 20000} {'x' * 435}" for number in range(self.CHANGED)])
        self.assertEqual(reads - before, 3 * self.CHANGED)

        # a base takes one read, and none from the memory table; a filter may be wrong once in fifty times
        present = range(self.CHANGED, self.PUTS, 10)
        absent = [f"1 get {self.key(number)}y" for number in present]
        told, reads = self.run_over_new([f"1 get {self.key(number)}" for number in present] + absent)
        self.assertEqual(told, [f"is {number} {'x' * 435}" for number in present] + ["none"] * len(absent))
        self.assertLessEqual(reads - before, len(present) + len(present) // 25)
        self.assertGreater(reads - before, len(present) * 9 // 10)


if __name__ == "__main__":
    unittest.main()
