"""Tests of news and swaps through the built program, over files. They are skipped where it isn't there.   python3 -m unittest discover -s python"""

import os
import random
import re
import shutil
import subprocess
import tempfile
import unittest
from pathlib import Path

import blsm
import live
import reading
from blsm import Command, Done, Full, Get, Is, Kept, New, Put, Reply, Store, Swap, Value, Work
from judge import judge

BUILT = os.environ.get("BLSM", str(blsm.PROGRAM))
HAS_PROGRAM = os.access(BUILT, os.X_OK)
WHY = f"the built program isn't there: {BUILT}"
CALLERS = range(1, blsm.CALLERS + 1)
LONGEST_KEY, LONGEST_TEXT = "k" * 64, "t" * 435

ONE_KEY = """1 1 new a 1 x => ok q0
2 1 new a 2 y => kept 1 x q0
3 1 swap a 1 7 z => ok q0
4 1 swap a 1 9 z => kept 7 z q0
5 1 swap b 0 1 - => kept none q0
6 1 get a => is 7 z q0
end c0 15 of 65536 callers 0 workers 0 swaps 0 0
"""

OTHER_WRITES = """1 1 put a 1 x => ok q0
2 1 del a => ok q0
3 1 swap a 1 2 y => kept none q0
4 1 new a 3 z => ok q0
5 1 add c 5 => ok q0
6 1 swap c 5 6 - => ok q0
7 1 tail d z => ok q0
8 1 swap d 0 1 - => ok q0
9 1 get a => is 3 z q0
10 1 get c => is 6 - q0
11 1 get d => is 1 - q0
end c0 44 of 65536 callers 0 workers 0 swaps 0 0
"""

BEHIND_A_WORK = """1 1 put x 100 old => ok q0
2 1 work 100 => did 6 q2
3 1 new x 1 - => kept 100 old q0
4 1 swap x 100 7 new => ok q0
5 1 get x => is 7 new q0
end c0 17 of 65536 callers 2 workers 0 swaps 1 1
"""


def script_of(history: str) -> str:
    """The lines of a history without its first one, in its order."""
    return "".join(re.sub(r" => .*", "", line).split(" ", 1)[1] + "\n" for line in history.splitlines()[:-1])


class OverAFile(unittest.TestCase):
    def setUp(self) -> None:
        room = tempfile.TemporaryDirectory()
        self.addCleanup(room.cleanup)
        self.path = Path(room.name).resolve() / "a.blsm"

    def run_script(self, script: str) -> tuple[int, str]:
        """The status and the text of a run without workers."""
        words = [BUILT, "run", "--workers", "0", "--", str(self.path)]
        ended = subprocess.run(words, input=script, stdout=subprocess.PIPE, text=True, check=False)
        return ended.returncode, ended.stdout


@unittest.skipUnless(HAS_PROGRAM, WHY)
class Scripts(OverAFile):
    def test_printed_histories(self) -> None:
        for history in (ONE_KEY, OTHER_WRITES, BEHIND_A_WORK):
            with self.subTest(history):
                self.path.unlink(missing_ok=True)
                Store.make(self.path)
                self.assertEqual(self.run_script(script_of(history)), (0, "open charge 0\n" + history))

    def test_one_of_sixteen_callers_has_a_lock(self) -> None:
        for workers in (0, 2, 8):
            self.path.unlink(missing_ok=True)
            run = Store.make(self.path).run({caller: [New("lock", caller)] for caller in CALLERS}, workers=workers)
            first, *others = run.entries
            self.assertEqual(first.reply, Done())
            self.assertEqual([entry.reply for entry in others], [Kept(Value(first.caller))] * 15)
            self.assertEqual(judge(run.script, run.text, workers=workers), {"lock": (first.caller, "")})

    def test_a_full_store_looks_first(self) -> None:
        store = Store.make(self.path, half=17408, ratio=2)
        heaviest = [Put(f"{i:064}", i, LONGEST_TEXT) for i in range(238)]  # of weight 512 each: half a spring below the capacity
        present, absent = heaviest[7].key, "absent"
        asked = [New(present, 1), New(absent, 1), Swap(present, 7, 8), Swap(present, 8, 9), Swap(absent, 0, 1)]
        run = store.run({1: [*heaviest, *asked, Get(present), Get(absent)]})
        kept, full = Kept(Value(7, LONGEST_TEXT)), Full(121_856)
        self.assertEqual(run.replies(1)[len(heaviest) :], [kept, full, full, kept, Kept(None), Is(7, LONGEST_TEXT), blsm.Absent()])

    def test_lines_that_are_none(self) -> None:
        Store.make(self.path).put("a", 1, "x")
        before = self.path.read_bytes()
        numbers = [f"1 new a {number} x" for number in ("01", "-1", "1x", "", 2**64)]
        numbers += [f"1 swap a {number} 2 x" for number in ("01", "-1", "1x", "", 2**64)]
        numbers += [f"1 swap a 1 {number} x" for number in ("02", "-2", "2x", "", 2**64)]
        words = ["1 new", "1 new a", "1 new a 1", "1 new a 1 x y", "1 swap", "1 swap a", "1 swap a 1", "1 swap a 1 2", "1 swap a 1 2 x y"]
        texts = [f"1 new a 2 {LONGEST_TEXT}t", f"1 swap a 1 2 {LONGEST_TEXT}t", "1 new a 2 ", "1 swap a 1 2 "]
        keys = [f"1 new {LONGEST_KEY}k 2 -", f"1 swap {LONGEST_KEY}k 1 2 -", "1 new  1 x", "1 swap  1 2 x"]
        for line in (*numbers, *words, *texts, *keys, "17 new a 1 x", "0 swap a 1 2 x", "1 New a 1 x"):
            with self.subTest(line):
                self.assertEqual(self.run_script(f"1 put a 2 -\n{line}\n"), (2, "bad line 2\n"))
        self.assertEqual(self.path.read_bytes(), before)

    def test_the_longest_lines(self) -> None:
        Store.make(self.path)
        most = blsm.MOST_COUNT
        swap = f"1 swap {LONGEST_KEY}"
        lines = [f"1 new {LONGEST_KEY} {most} {LONGEST_TEXT}", f"{swap} {most} {most} {LONGEST_TEXT}", f"{swap} {most - 1} 0 -"]
        status, text = self.run_script("".join(f"{line}\n" for line in lines))
        replies = ("ok", "ok", f"kept {most} {LONGEST_TEXT}")
        printed = [f"{place} {line} => {reply} q0" for place, (line, reply) in enumerate(zip(lines, replies), 1)]
        self.assertEqual((status, text.splitlines()[1:-1]), (0, printed))


class Adder:
    """A caller that adds one to the count: it reads it, swaps it for the next one, and begins anew where another came between."""

    def __init__(self, caller: int) -> None:
        self.caller, self.seen, self.is_done, self.kept = caller, -1, False, 0

    def next(self) -> Command:
        return Get("n") if self.seen < 0 else Swap("n", self.seen, self.seen + 1)

    def take(self, reply: Reply) -> None:
        if isinstance(reply, Is):
            self.seen = reply.count
        elif isinstance(reply, Kept):
            self.seen, self.kept = -1, self.kept + 1
        else:
            self.is_done = reply.need() == Done()


@unittest.skipUnless(HAS_PROGRAM, WHY)
class Counts(OverAFile):
    """Sixteen callers add one each to a count, by a get and a swap until that is done: the count is how many did."""

    def setUp(self) -> None:
        super().setUp()
        self.store = Store.make(self.path)
        self.store.put("n", 0)
        self.adders = [Adder(caller) for caller in CALLERS]

    def left(self) -> list[Adder]:
        return [adder for adder in self.adders if not adder.is_done]

    def check(self) -> None:
        self.assertEqual(self.store.get("n"), Value(len(self.adders)))
        self.assertGreater(sum(adder.kept for adder in self.adders), 0)

    def test_in_one_session_in_any_order(self) -> None:
        draw = random.Random(7)
        program = live.Program(self.store, blsm.CALLERS)
        while self.left():
            adder = draw.choice(self.left())
            adder.take(answer(program, adder.next(), adder.caller))
        program.finish()
        self.check()

    def test_on_threads_in_rounds(self) -> None:
        """In each round all who aren't done swap what they saw in the one before, and look again, each on a thread of its own."""
        for _round in range(len(self.adders) + 1):
            asked = {adder.caller: adder for adder in self.left()}
            batch = {caller: [adder.next(), Get("n")] for caller, adder in asked.items()}
            for entry in self.store.run(batch, workers=2).entries:
                if not asked[entry.caller].is_done:
                    asked[entry.caller].take(entry.reply)
        self.assertEqual(self.left(), [])
        self.check()


def answer(program: live.Program, command: Command, caller: int = 1) -> Reply:
    (entry,) = program.answers([f"{caller} {command.line()}\n"], [command])
    return entry.reply


@unittest.skipUnless(HAS_PROGRAM, WHY)
class Sessions(OverAFile):
    def test_each_is_answered(self) -> None:
        store = Store.make(self.path)
        self.assertEqual([store.new("a", 1, "x"), store.new("a", 2), store.swap("a", 2, 3), store.swap("a", 1, 3, "y")], [True, False, False, True])
        with store.live() as opened:
            self.assertEqual([opened.new("a", 9), opened.new("b", 9), opened.swap("b", 9, 9), opened.swap("c", 0, 1)], [False, True, True, False])
            self.assertEqual(opened.ask(Swap("a", 1, 2)).reply, Kept(Value(3, "y")))
            entries = opened.batch([New("c", 4), New("c", 5), Swap("d", 0, 0)])
            self.assertEqual([entry.reply for entry in entries], [Done(), Kept(Value(4)), Kept(None)])
        self.assertEqual({row.key: row.count for row in store.rows()}, {"a": 3, "b": 9, "c": 4})

    def test_a_damaged_page_stops_nothing(self) -> None:
        """Its filter says no for the keys of one byte that are written meanwhile."""
        store = Store.make(self.path)
        store.put("x", 1, "old")
        program = live.Program(store, 1)
        answer(program, Work(100))
        (page,) = reading.read(self.path.read_bytes()).pages
        good = self.changed(page, b"\x77")
        for asked, other in ((New("x", 2), New("y", 2)), (Swap("x", 1, 2), Swap("y", 2, 3))):
            self.assertIsInstance(answer(program, asked), blsm.PageDamaged)
            self.assertEqual(answer(program, other), Done())
        self.changed(page, good)
        self.assertEqual(answer(program, New("x", 2)), Kept(Value(1, "old")))
        program.finish()
        self.assertEqual(program.end(), 6)
        self.assertEqual({row.key: row.count for row in store.rows()}, {"x": 1, "y": 3})

    def changed(self, place: int, byte: bytes) -> bytes:
        """Changes a byte of the file. Answers the old one."""
        with self.path.open("r+b") as file:
            file.seek(place)
            old = file.read(1)
            file.seek(place)
            file.write(byte)
        return old


@unittest.skipUnless(HAS_PROGRAM, WHY)
@unittest.skipUnless(shutil.which("strace"), "strace isn't there")
class Calls(OverAFile):
    """How often the file is read, and called in all, as the system is called."""

    NAMES = "read,pread64,pwrite64,fsync,fdatasync"

    def calls(self, lines: list[str]) -> tuple[str, int, int]:
        """Runs the lines over a new store. Answers what the last one was told, how often the file was read, and how often it was called."""
        self.path.unlink(missing_ok=True)
        Store.make(self.path)
        trace = self.path.with_suffix(".trace")
        words = ["strace", "-f", "-y", "-s", "0", "-o", str(trace), "-e", f"trace={self.NAMES}", BUILT, "run", "--workers", "0", "--", str(self.path)]
        script = "".join(f"{line}\n" for line in lines)
        told = subprocess.run(words, input=script, stdout=subprocess.PIPE, stderr=subprocess.PIPE, text=True, check=False)
        if not trace.exists() or "ptrace" in told.stderr:
            self.skipTest("calls can't be traced here")
        self.assertEqual(told.returncode, 0, told.stderr)
        made = [line for line in trace.read_text().splitlines() if f"<{self.path}>" in line]
        reply = told.stdout.splitlines()[-2].split(" => ")[1].rsplit(" q", 1)[0]
        return reply, sum("read" in line.split("(")[0] for line in made), len(made)

    def check(self, before: list[str], *wanted: tuple[str, str, int, int]) -> None:
        """Each of these lines, behind those before, is told this, and reads and calls the file so often."""
        _reply, reads, calls = self.calls(before)
        for line, reply, more_reads, more_calls in wanted:
            with self.subTest(line, before=before):
                self.assertEqual(self.calls([*before, line]), (reply, reads + more_reads, calls + more_calls))

    def test_over_one_page_whose_filter_says_yes_for_some_keys(self) -> None:
        """It has x alone. Its filter says yes for xB and 8, too, and 8 is below all that the page has."""
        self.check(
            ["1 put x 100 old", "1 work 100"],
            ("1 get x", "is 100 old", 1, 1),
            ("1 new x 1 -", "kept 100 old", 1, 1),
            ("1 swap x 7 1 -", "kept 100 old", 1, 1),
            ("1 swap x 100 1 -", "ok", 1, 5),
            ("1 new xB 1 -", "ok", 1, 5),
            ("1 swap xB 0 1 -", "kept none", 1, 1),
            ("1 new 8 1 -", "ok", 0, 4),
            ("1 new y 1 -", "ok", 0, 4),
            ("1 swap y 0 1 -", "kept none", 0, 0),
        )

    def test_what_the_memory_table_has_is_kept_without_a_call(self) -> None:
        under = ["1 put x 100 old", "1 work 100"]
        self.check([*under, "1 put x 1 -"], ("1 new x 1 -", "kept 1 -", 0, 0), ("1 swap x 2 3 -", "kept 1 -", 0, 0), ("1 swap x 1 2 -", "ok", 0, 4))
        self.check([*under, "1 del x"], ("1 swap x 100 1 -", "kept none", 0, 0), ("1 new x 1 -", "ok", 0, 4))
        self.check([*under, "1 add x 1"], ("1 new x 1 -", "kept 101 old", 1, 1), ("1 swap x 101 7 -", "ok", 1, 5))


if __name__ == "__main__":
    unittest.main()
