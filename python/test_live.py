"""Tests of the store that stays open.   python3 -m unittest discover -s python

Those that need the built program are skipped where it isn't there; the others run a small stand-in, whose answers to each line are the test's.
"""

import os
import random
import signal
import subprocess
import sys
import tempfile
import threading
import time
import unittest
from pathlib import Path
from typing import Any
from unittest import mock

import blsm
import live
import reading
from blsm import Absent, Add, Command, Del, Did, Done, Drop, Entry, Get, Held, Hold, Is, New, Next, NoHold, NotDone
from blsm import Put, Row, Rows, Store, Swap, Tail, Value, Work
from judge import Geometry, judge
from live import AHEAD, NoCallerLeft, Totals, Unanswered

BUILT = os.environ.get("BLSM", str(blsm.PROGRAM))
HAS_PROGRAM = os.access(BUILT, os.X_OK)
WHY = f"the built program isn't there: {BUILT}"
LONG = 600.0  # seconds after which a program that doesn't answer is killed

# Each block of what it says, parted by a line with a dash, is written as a line; before each but the first it waits for one, and notes what it read.
# With a status below zero it is killed behind the last block, before more is read; that block has no line end then where it ends in a `<`.
SAY = """import os, pathlib, sys
here = pathlib.Path(sys.argv[1])
number = len(list(here.glob("asked_*")))
status, *blocks = (here / f"says_{number}").read_text().split("\\n-\\n")
with (here / f"asked_{number}").open("w") as asked:
    for place, block in enumerate(blocks):
        if place:
            asked.write(sys.stdin.readline())
        print(block.removesuffix("<"), end="" if block.endswith("<") else "\\n", flush=True)
    if int(status) < 0:
        os.kill(os.getpid(), -int(status))
    asked.write(sys.stdin.read())
sys.exit(int(status))
"""
OPEN = "open charge 0"
END = "end c0 14 of 65536 callers 1 workers 0 swaps 0 0"


class WithRoom(unittest.TestCase):
    def setUp(self) -> None:
        room = tempfile.TemporaryDirectory()
        self.addCleanup(room.cleanup)
        self.here = Path(room.name)
        self.path = self.here / "a.blsm"


class OverAStandIn(WithRoom):
    """A store whose programs say what the test has them say, one after the other."""

    def setUp(self) -> None:
        super().setUp()
        (self.here / "say.py").write_text(SAY)
        self.store = Store("-file", [sys.executable, str(self.here / "say.py"), str(self.here)])
        self.begun = 0

    def says(self, *blocks: str, status: int = 0) -> None:
        """What the next program says."""
        (self.here / f"says_{self.begun}").write_text("\n-\n".join((str(status), *blocks)))
        self.begun += 1

    def asked(self, number: int) -> str:
        return (self.here / f"asked_{number}").read_text()

    def test_a_stop_closes_and_the_next_call_opens(self) -> None:
        self.says(OPEN, "1 1 put a 1 - => fault unsure q0", END, status=7)
        self.says("open charge 14", "1 1 get a => is 1 - q0", END)
        with self.store.live() as opened:
            with self.assertRaises(NotDone) as caught:
                opened.put("a", 1)
            self.assertEqual(caught.exception.reply, blsm.WriteFailed(True))
            self.assertEqual(opened.get("a"), Value(1))
        self.assertEqual((self.asked(0), self.asked(1)), ("1 put a 1 -\n", "1 get a\n"))

    def test_all_of_a_batch_is_answered_behind_a_stop(self) -> None:
        self.says(OPEN, "1 1 put a 1 - => fault lost q0", "2 1 get a => stopped fault 1 q0", END, status=7)
        self.says(OPEN, END)
        opened = self.store.live()
        entries = opened.batch([Put("a", 1), Get("a")])
        self.assertEqual([entry.reply for entry in entries], [blsm.WriteFailed(False), blsm.Stopped(False, 1)])
        self.assertEqual(opened.batch([]), [])
        self.assertEqual(opened.close(), Totals(14, 65536, 1, 0, 0, 1))

    def test_a_ship_stands_right_behind_its_entry(self) -> None:
        self.says(OPEN, "1 1 put a 1 - => ok q0\nship 7 put a 1 -", "2 1 get a => is 1 - q0", f"{END}\nno room 3")
        self.says("open charge 14", "1 1 new b 2 - => ok q0\nship 8 put b 2 -", END)
        with self.store.live(ships=7) as opened:
            opened.put("a", 1)
            opened.get("a")
            self.assertTrue(opened.new("b", 2))
            self.assertEqual([ship.line() for ship in opened.ships], ["ship 7 put a 1 -", "ship 8 put b 2 -"])
        self.assertEqual(len(opened.ships), 2)

    def test_a_ship_that_is_another_is_no_ship(self) -> None:
        self.says(OPEN, "1 1 put a 1 - => ok q0\nship 8 put a 1 -")
        opened = self.store.live(ships=7)
        with self.assertRaises(blsm.Unreadable):
            opened.put("a", 1)

    def test_what_has_no_room_behind_a_stop_isnt_done(self) -> None:
        self.says(OPEN, "1 1 put a 1 - => fault lost q0", f"{END}\nno room 2", status=7)
        with self.assertRaises(blsm.DiskFault) as caught:
            self.store.live().batch([Put("a", 1), Put("b", 2)])
        self.assertEqual(caught.exception.entries, [Entry(1, Put("a", 1), blsm.WriteFailed(False), 0)])

    def test_a_lookup_that_failed_may_be_asked_again(self) -> None:
        self.says(OPEN, "1 1 get a => fault q0", "2 1 get a => none q0", END, status=7)
        with self.store.live() as opened:
            self.assertRaises(NotDone, opened.get, "a")
            self.assertIsNone(opened.get("a"))

    def test_a_lookup_of_a_write_that_failed_stops_nothing(self) -> None:
        self.says(OPEN, "1 1 new a 1 - => fault q0", "2 1 new a 1 - => ok q0", "3 1 swap a 2 3 - => kept 1 - q0", END, status=7)
        with self.store.live() as opened:
            self.assertRaises(NotDone, opened.new, "a", 1)
            self.assertEqual((opened.new("a", 1), opened.swap("a", 2, 3)), (True, False))
        self.assertEqual(self.asked(0), "1 new a 1 -\n1 new a 1 -\n1 swap a 2 3 -\n")

    def test_a_fault_that_no_reply_told_is_raised_at_the_close(self) -> None:
        self.says(OPEN, "1 1 put a 1 - => ok q1", END, status=7)
        opened = self.store.live()
        opened.put("a", 1)
        self.assertRaises(blsm.DiskFault, opened.close)
        self.assertRaises(ValueError, opened.get, "a")

    def test_lines_without_room_are_sent_to_a_new_program(self) -> None:
        self.says(OPEN, "1 1 put a 1 - => ok q0", f"{END}\nno room 2", status=11)
        self.says(OPEN, "1 1 put b 2 - => ok q0", "2 1 get b => is 2 - q0", END)
        opened = self.store.live()
        replies = [entry.reply for entry in opened.batch([Put("a", 1), Put("b", 2), Get("b")])]
        self.assertEqual(replies, [Done(), Done(), Is(2, "")])
        self.assertEqual(opened.close(), Totals(14, 65536, 2, 0, 0, 2))
        self.assertEqual((self.asked(0), self.asked(1)), ("1 put a 1 -\n1 put b 2 -\n1 get b\n", "1 put b 2 -\n1 get b\n"))

    def test_no_room_from_the_first_line_on_is_raised(self) -> None:
        self.says(OPEN, f"{END}\nno room 1", status=11)
        self.assertRaises(blsm.NoRoom, self.store.live().get, "a")

    def test_a_refusal_where_it_is_opened_again_tells_what_was_answered(self) -> None:
        self.says(OPEN, "1 1 put a 1 - => ok q0", f"{END}\nno room 2", status=11)
        self.says("disk fault", status=7)
        with self.assertRaises(blsm.DiskFault) as caught:
            self.store.live().batch([Put("a", 1), Put("b", 2)])
        self.assertEqual(caught.exception.entries, [Entry(1, Put("a", 1), Done(), 0)])

    def test_a_program_that_ends_without_an_answer(self) -> None:
        for said in ("1 1 put a 1 - => ok q0", "1 1 put a 1 - => ok q0\n2 1 add<"):
            self.says(OPEN, said, status=-signal.SIGKILL)
            with self.subTest(said), self.assertRaises(Unanswered) as caught:
                self.store.live().batch([Put("a", 1), Add("a", 2), Get("a")])
            self.assertEqual([entry.command for entry in caught.exception.entries], [Put("a", 1)])
            self.assertEqual(caught.exception.command, Add("a", 2))

    def test_other_entries_are_refused(self) -> None:
        others = ("2 1 get a => none q0", "1 2 get a => none q0", "1 1 get b => none q0", "1 1 get a => so q0", "1 1 get a => is x - q0", "so")
        for said in others:
            self.says(OPEN, said)
            opened = self.store.live()
            with self.subTest(said), self.assertRaises((blsm.BlsmError, ValueError)):
                opened.get("a")
            self.assertIsNone(opened._program)

    def test_a_refused_opening(self) -> None:
        refusals = ((4, "not a store", blsm.NotAStore), (6, "damaged slots", blsm.Damaged), (10, "no memory", blsm.NoMemory))
        for status, line, kind in refusals:
            self.says(line, status=status)
            with self.subTest(line), self.assertRaises(kind):
                self.store.live()

    def test_so_many_lines_ahead(self) -> None:
        commands = [Get(f"k{i}") for i in range(3 * AHEAD)]
        sent: list[int] = []
        program = mock.Mock(spec=live.Program)
        program.send = lambda lines: sent.append(len(lines))
        program.answer = lambda line, command: Entry(1, command, Absent(), 0)
        entries = live.Program.answers(program, [f"1 {command.line()}\n" for command in commands], commands)
        for done, _entry in enumerate(entries):
            self.assertLessEqual(done + 1, sum(sent))
            self.assertLessEqual(sum(sent) - done, AHEAD)
        self.assertEqual(sum(sent), len(commands))


class Noted(live.Program):
    """A program whose lines are kept, those that it read and those that it wrote."""

    kept: list["Noted"] = []

    def __init__(self, store: Store, callers: int, ships: int = 0) -> None:
        self.read: list[str] = []
        self.wrote: list[str] = []
        super().__init__(store, callers, ships)
        self.kept.append(self)

    def line(self) -> str:
        line = super().line()
        self.wrote.append(line)
        return line

    def send(self, lines: Any) -> None:
        self.read += lines
        super().send(lines)

    def judged(self, opening: Any) -> Any:
        """The map that it left."""
        history = "".join(f"{line}\n" for line in self.wrote if not line.startswith(("no room ", "ship ")))
        return judge("".join(self.read[: self.count]), history, opening, Geometry(), 0)


@unittest.skipUnless(HAS_PROGRAM, WHY)
class Built(WithRoom):
    """Over the built program. One that doesn't answer in time is killed, and the test fails."""

    def setUp(self) -> None:
        super().setUp()
        self.store = Store.make(self.path)
        Noted.kept = []
        patched = mock.patch("live.Program", Noted)
        patched.start()
        self.addCleanup(patched.stop)
        late = threading.Timer(LONG, lambda: [program.process.kill() for program in Noted.kept])
        late.daemon = True
        late.start()
        self.addCleanup(late.cancel)

    def process(self) -> "subprocess.Popen[bytes]":
        return Noted.kept[-1].process

    def test_each_command(self) -> None:
        with self.store.live() as opened:
            opened.put("apple", 3, "red")
            opened.add("apple", 4)
            opened.tail("apple", "ripe")
            opened.put("plum", 1)
            self.assertEqual(opened.get("apple"), Value(7, "redripe"))
            self.assertIsNone(opened.get("pear"))
            self.assertEqual(opened.work(), 6)
            opened.delete("plum")
            self.assertIsNone(opened.get("plum"))
            self.assertEqual(opened.ask(Get("apple")).reply, Is(7, "redripe"))
            replies = [entry.reply for entry in opened.batch([Put("b", 1), Hold("a", "c"), Put("b", 2), Next(32), Drop(), Drop(), Work(9)])]
            rows = Rows((Row("apple", 7, "redripe"), Row("b", 1)))
            self.assertEqual(replies, [Done(), Held(), Done(), rows, Done(), NoHold(), Did(6)])
            self.assertEqual(list(opened.rows("a", "b")), [Row("apple", 7, "redripe")])
            totals = opened.close()
        self.assertEqual((totals.high_mark, totals.passes, totals.deep_merges, totals.programs), (65536, 2, 2, 1))
        self.assertEqual(dict((row.key, row.count) for row in self.store.rows()), {"apple": 7, "b": 2})

    def test_what_no_line_can_spell_is_never_sent(self) -> None:
        with self.store.live() as opened:
            for command in (Put("a b", 1), Put("a", 2**64), Tail("a", ""), Next(33), Work(0)):
                with self.subTest(command), self.assertRaises(ValueError):
                    opened.batch([Put("a", 1), command])
            self.assertIsNone(opened.get("a"))
        self.assertEqual(Noted.kept[0].read, ["1 get a\n"])
        self.assertRaises(ValueError, self.store.live, 16)

    def test_the_file_is_locked_while_it_lives(self) -> None:
        with self.store.live() as opened:
            opened.put("a", 1)
            self.assertRaises(blsm.DiskFault, self.store.get, "a")
            self.assertRaises(blsm.DiskFault, self.store.live)
        self.assertEqual(self.store.get("a"), Value(1))
        self.assertRaises(ValueError, opened.get, "a")

    def test_each_answer_comes_before_the_next_line_is_sent(self) -> None:
        with self.store.live() as opened:
            for number in range(100):
                opened.put("a", number)
                self.assertEqual(Noted.kept[0].count, number + 1)
                self.assertEqual(len(Noted.kept[0].read), number + 1)

    def test_a_scan_is_of_one_moment(self) -> None:
        keys = [f"k{i:03}" for i in range(100)] + [blsm.GREATEST_KEY]
        with self.store.live(scans=2) as opened:
            opened.batch([Put(key, 1, "x") for key in keys])
            before, part = opened.rows(), opened.rows("k010", "k020")
            opened.batch([Put(key, 2) for key in keys] + [Del("k015"), Put("k0155", 2)])
            opened.work()
            self.assertEqual(list(before), [Row(key, 1, "x") for key in keys])
            self.assertEqual(list(part), [Row(key, 1, "x") for key in keys[10:20]])
            self.assertEqual([row.key for row in opened.rows("k014", "k017")], ["k014", "k0155", "k016"])

    def test_so_many_scans_at_once(self) -> None:
        with self.store.live(scans=2) as opened:
            opened.batch([Put(f"k{i:03}", i) for i in range(50)])
            one, other = opened.rows(), opened.rows()
            next(other)
            self.assertRaises(NoCallerLeft, opened.rows)
            one.close()
            self.assertEqual(len(list(opened.rows())), 50)
            self.assertEqual(len(list(other)), 49)
            for _row in opened.rows():
                break  # a scan that is let go
            self.assertEqual([len(list(scan)) for scan in (opened.rows(), opened.rows())], [50, 50])
        self.assertEqual([len(list(rows)) for rows in (one, other)], [0, 0])

    def test_a_scan_goes_on_behind_its_last_row_in_a_new_program(self) -> None:
        with self.store.live(scans=15) as opened:
            opened.batch([Put(f"k{i:03}", 1) for i in range(100)])
            scan = opened.rows()
            first = [next(scan) for _ in range(40)]
            opened.batch([Get("a")] * 4000)  # 4,096 lines of a caller have room
            opened.batch([Put(f"k{i:03}", 2) for i in range(100)])
            self.assertEqual(len(Noted.kept), 2)
            rows = first + list(scan)
        self.assertEqual([row.key for row in rows], [f"k{i:03}" for i in range(100)])
        self.assertEqual([row.count for row in rows], [1] * 64 + [2] * 36)

    def test_five_thousand_puts_of_a_program_with_room_for_fewer(self) -> None:
        commands = [Put(f"k{i % 700:03}", i) for i in range(5000)]
        with self.store.live(scans=15) as opened:
            entries = opened.batch(commands)
            totals = opened.close()
        self.assertEqual([entry.command for entry in entries], commands)
        self.assertEqual({entry.reply for entry in entries}, {Done()})
        self.assertEqual(totals.programs, 2)
        self.assertEqual({row.key: row.count for row in self.store.rows()}, {f"k{i % 700:03}": i for i in range(5000)})
        opening: Any = {}
        for program in Noted.kept:
            opening = program.judged(opening)

    def test_histories_are_legal(self) -> None:
        for seed in range(3):
            draw = random.Random(seed)
            commands = [self.any_command(draw) for _ in range(400)]
            opening = {row.key: (row.count, row.text) for row in self.store.rows()}
            with self.store.live(scans=1) as opened:
                opened.batch(commands[:200])
                scan = opened.rows()
                for command in commands[200:]:
                    opened.ask(command)
                    next(scan, None)
            left = Noted.kept[-1].judged(opening)
            self.assertEqual([(row.key, (row.count, row.text)) for row in self.store.rows()], sorted(left.items()))

    @staticmethod
    def any_command(draw: random.Random) -> Command:
        key = f"k{draw.randrange(40):02}"
        count, text = draw.randrange(3), "x" * draw.randrange(436)
        plain = draw.choice((Put(key, draw.randrange(99), text), Add(key, 7), Tail(key, "t" * draw.randrange(1, 65)), Del(key)))
        looking = draw.choice((New(key, count, text), Swap(key, count, draw.randrange(3), text)))
        return draw.choice((plain, plain, plain, looking, looking, Get(key), Work(draw.randrange(1, 9))))

    def test_a_program_that_was_killed(self) -> None:
        opened = self.store.live()
        opened.put("a", 1)
        self.process().kill()
        self.assertRaises(Unanswered, opened.add, "a", 1)
        self.assertEqual(opened.get("a"), Value(1))  # the add was never read
        self.process().kill()
        self.assertRaises(blsm.Killed, opened.close)
        self.assertEqual(self.store.get("a"), Value(1))

    def test_what_was_answered_stays_where_a_program_is_killed(self) -> None:
        draw = random.Random(7)
        for trial in range(10):
            commands = [Put(f"k{i % 50:02}", 1000 * trial + i, "x" * draw.randrange(400)) for i in range(1000)]
            values = {row.key: row.count for row in self.store.rows()}
            opened = self.store.live()
            process = self.process()
            late = threading.Timer(draw.random() / 2, process.send_signal, [signal.SIGKILL])
            late.start()
            try:
                answered = opened.batch(commands)
            except Unanswered as error:
                answered = list(error.entries)
                self.assertEqual(error.command, commands[len(answered)])
            late.join()
            process.wait()  # it holds the file until it has ended
            values.update((put.key, put.count) for put in commands[: len(answered)])
            untold = values | {put.key: put.count for put in commands[len(answered) : len(answered) + 1]}
            self.assertIn({row.key: row.count for row in self.store.rows()}, (values, untold))

    def test_a_second_store_takes_the_ships(self) -> None:
        draw = random.Random(11)
        commands = [self.any_command(draw) for _ in range(3000)]
        with self.store.live(scans=15, ships=5) as opened:
            opened.batch(commands[:2000])
            opened.work()
            opened.batch(commands[2000:] + [Get("a")] * 2000)
            totals = opened.close()
        self.assertEqual(totals.programs, 2)  # each had room for 4,096 lines of a caller
        self.assertEqual([ship.number for ship in opened.ships], list(range(5, 5 + len(opened.ships))))
        other = Store.make(self.here / "other.blsm")
        replies = {entry.reply for entry in other.run({1: [ship.command for ship in opened.ships]}).entries}
        self.assertEqual(replies, {Done()})
        self.assertEqual(list(other.rows()), list(self.store.rows()))
        opening: Any = {}
        for program in Noted.kept[:2]:
            opening = program.judged(opening)

    def test_a_killed_program_leaves_one_write_without_its_ship(self) -> None:
        draw = random.Random(13)
        written = 0
        for _trial in range(10):
            opened = self.store.live(ships=1)
            process = self.process()
            late = threading.Timer(draw.random() / 2, process.send_signal, [signal.SIGKILL])
            late.start()
            with self.assertRaises(Unanswered):
                while True:
                    opened.batch([Put(f"k{written + len(opened.ships) + i:06}", 1) for i in range(100)])
            late.join()
            process.wait()  # it holds the file until it has ended
            told = [ship.command for ship in opened.ships]
            self.assertEqual(told, [Put(f"k{written + i:06}", 1) for i in range(len(told))])
            left = len(list(self.store.rows()))
            self.assertIn(left - written - len(told), (0, 1))
            written = left

    def test_a_reader_that_is_gone(self) -> None:
        opened = self.store.live()
        opened.put("a", 1)
        program = Noted.kept[0]
        program.send(["1 put b 2 -\n"])
        opened._abandon()
        self.assertIn(program.process.returncode, (0, 9))  # 9 where its line couldn't be told
        self.assertEqual(self.store.get("a"), Value(1))
        self.assertIn(self.store.get("b"), (None, Value(2)))  # it may have been gone before the line was read

    def test_a_damaged_page(self) -> None:
        self.store.put("x", 1)
        with self.store.live() as opened:
            opened.work()
            found = reading.read(self.path.read_bytes())
            (page,) = found.pages
            with self.path.open("r+b") as file:
                file.seek(page)
                good = file.read(1)
                file.seek(page)
                file.write(b"\x77")
            with self.assertRaises(NotDone) as caught:
                opened.get("x")
            self.assertIsInstance(caught.exception.reply, blsm.PageDamaged)
            opened.put("y", 2)  # a lookup stops nothing
            with self.assertRaises(NotDone) as caught:
                opened.work()
            self.assertIsInstance(caught.exception.reply, blsm.PageDamaged)
            self.assertRaises(blsm.Damaged, opened.get, "y")  # it was closed, and can't be opened
            with self.path.open("r+b") as file:
                file.seek(page)
                file.write(good)
            self.assertEqual((opened.get("x"), opened.get("y")), (Value(1), Value(2)))

    def served(self, lines: bytes, *words: str) -> tuple[int, bytes]:
        """The status of a program that gets all these lines at once, and its text but for the first line and the last one of the history."""
        done = subprocess.run([BUILT, "serve", *words, str(self.path)], input=lines, stdout=subprocess.PIPE, check=False)
        _open, _newline, rest = done.stdout.partition(b"\n")
        entries, _end, reason = rest.rpartition(b"end c0 ")
        return done.returncode, entries + reason.partition(b"\n")[2]

    def test_lines_that_are_none(self) -> None:
        told = b"1 1 put a 5 hi => ok q0\nbad line 2\n"
        longest = b"16 put " + b"k" * 64 + b" 18446744073709551615 " + b"t" * 435 + b"\n"
        self.assertEqual(self.served(longest), (0, b"1 " + longest[:-1] + b" => ok q0\n"))
        cut_off = (b"1 get a", b"1 put a 6 h", b"k" * 4096)
        cut_short = (b"1 new a 1\n", b"1 swap a 1 2\n")
        for line in (b"1 get a\r\n", b"1 get \0\n", b"\n", b"17 get a\n", b" 1 get a\n", longest[:-1] + b"t\n", *cut_short, *cut_off):
            with self.subTest(line):
                self.assertEqual(self.served(b"1 put a 5 hi\n" + line), (2, told))
        self.assertEqual(self.store.get("a"), Value(5, "hi"))

    def test_all_the_room_is_one_callers(self) -> None:
        status, told = self.served(b"1 get a\n" * 65_537, "--callers", "1")
        self.assertEqual((status, told.count(b"\n"), told[-39:]), (11, 65_537, b"65536 1 get a => none q0\nno room 65537\n"))

    def test_standard_output_that_is_closed(self) -> None:
        words = [BUILT, "serve", str(self.path)]
        done = subprocess.run(words, input=b"1 put a 1 -\n", preexec_fn=lambda: os.close(1), check=False)
        self.assertEqual(done.returncode, 9)
        self.assertIsNone(self.store.get("a"))

    def test_words_counted(self) -> None:
        script = Path(__file__).resolve().parent.parent / "examples" / "word_counts.py"
        texts = ["the cat and the dog\n", "The end\n"]
        for text in texts:
            done = subprocess.run([sys.executable, str(script), str(self.path), "-"], input=text, stdout=subprocess.PIPE, text=True, check=True)
        self.assertEqual(done.stdout.split(), ["3", "the", "1", "and", "1", "cat", "1", "dog", "1", "end"])


if __name__ == "__main__":
    unittest.main()
