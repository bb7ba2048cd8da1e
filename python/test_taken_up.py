"""Tests of a deep merge that is taken up again, over the built program.

Openings with and without what a slot names of it, damage of that, and drawn stores.
They are skipped where the program isn't there.   python3 -m unittest discover -s python
"""

import os
import random
import struct
import subprocess
import tempfile
import unittest
from collections.abc import Iterator
from dataclasses import replace
from pathlib import Path

import blsm
import reading
from reading import FLAG, KEY, OUTPUT, PAGE, SLOTS, Component, Found, Progress, read
from test_reading import EMPTY, SMALLEST, named, page, slot, store

BUILT = os.environ.get("BLSM", str(blsm.PROGRAM))
HAS_PROGRAM = os.access(BUILT, os.X_OK)
LEAST = ["--half", "17408", "--ratio", "2"]

Told = tuple[int, str]


def put(number: int) -> str:
    """A put of weight 512, whose keys rise with the numbers."""
    return f"1 put {'k' * 61}{number:03} 1 {'t' * 435}\n"


def entry(number: int) -> bytes:
    return struct.pack(">BHHQ", reading.BASE, 64, 435, 1) + f"{'k' * 61}{number:03}".encode() + b"t" * 435


def slot_of(found: Found) -> int:
    return SLOTS[1 - found.catalogue.version % 2]


def changed(file: bytes, *parts: tuple[int, bytes]) -> bytes:
    new = bytearray(file)
    for at, part in parts:
        new[at : at + len(part)] = part
    return bytes(new)


def without(file: bytes) -> bytes:
    """The file as a program leaves it that names nothing of a deep merge."""
    return changed(file, (slot_of(read(file)) + FLAG, b"\x00"))


def with_progress(file: bytes, progress: Progress) -> bytes:
    return changed(file, (slot_of(read(file)) + FLAG, named(progress)))


def pages_of(file: bytes, progress: Progress) -> list[int]:
    """The numbers of the finished pages, in order."""
    sizes, number, numbers = read(file).sizes, progress.output.first, []
    for _ in range(progress.output.pages):
        numbers.append(number)
        number = struct.unpack_from(">I", file, sizes.page_at(number) + 4)[0]
    return numbers


@unittest.skipUnless(HAS_PROGRAM, f"the built program isn't there: {BUILT}")
class OverTheProgram(unittest.TestCase):
    def setUp(self) -> None:
        room = tempfile.TemporaryDirectory()
        self.addCleanup(room.cleanup)
        self.path = Path(room.name) / "a.blsm"

    def call(self, command: str, *options: str, script: str = "") -> Told:
        ended = subprocess.run([BUILT, command, *options, "--", str(self.path)], input=script.encode(), stdout=subprocess.PIPE, check=False)
        return ended.returncode, ended.stdout.decode()

    def after(self, script: str, *options: str) -> bytes:
        """The file of a new store behind a script of one caller without workers."""
        self.path.unlink(missing_ok=True)
        self.assertEqual(self.call("make", *LEAST, *options)[0], 0)
        self.assertEqual(self.call("run", "--workers", "0", script=script)[0], 0)
        return self.path.read_bytes()

    def settled(self, file: bytes) -> tuple[blsm.Settled, Found]:
        """What settling this file tells, and leaves."""
        self.path.write_bytes(file)
        told = blsm.Store(self.path, [BUILT]).settle()
        return told, read(self.path.read_bytes())

    def in_both_ways(self, file: bytes) -> tuple[int, int]:
        """How many quanta it takes to settle a file with what it names of a deep merge, and without. Its map stays, and nothing is named then."""
        quanta = []
        for one in (file, without(file)):
            told, found = self.settled(one)
            self.assertEqual(found.map, read(file).map)
            self.assertIsNone(found.catalogue.progress)
            self.assertLessEqual(told.quanta, told.bound)
            quanta.append(told.quanta)
        return quanta[0], quanta[1]


class Versions(OverTheProgram):
    PUTS = 238  # fill the store

    def versions(self) -> Iterator[tuple[int, bytes]]:
        """The file behind the first put that leads to each version."""
        last = 1
        for puts in range(30, self.PUTS + 1):
            file = self.after("".join(map(put, range(puts))))
            version = read(file).catalogue.version
            if version != last:
                yield version, file
            last = version

    def test_each_version(self) -> None:
        quanta = {}
        for version, file in self.versions():
            with self.subTest(version):
                self.assertEqual(read(file).catalogue.progress is not None, version == 6)
                quanta[version] = self.in_both_ways(file)
        self.assertEqual([*quanta], [2, 3, 4, 5, 6, 7, 8])
        self.assertEqual(quanta[5][0], quanta[5][1])
        self.assertLess(quanta[6][0] + 17, quanta[6][1])


class Damage(OverTheProgram):
    def setUp(self) -> None:
        super().setUp()
        self.file = self.after("".join(map(put, range(200))))
        self.found = read(self.file)
        progress = self.found.catalogue.progress
        assert progress
        self.progress, self.output, self.sizes = progress, progress.output, self.found.sizes
        self.pages = pages_of(self.file, progress)

    def answers(self, file: bytes) -> set[Told]:
        """What check, settle and run answer, which leave the file as it is."""
        self.path.write_bytes(file)
        told = {self.call("check"), self.call("settle"), self.call("run", script="1 get a\n")}
        self.assertEqual(self.path.read_bytes(), file)
        return told

    def refused(self, place: str, file: bytes) -> None:
        self.assertEqual(self.answers(file), {(6, f"damaged {place}\n")})
        with self.assertRaisesRegex(reading.Unread, f"^damaged {place}$"):
            read(file)

    def naming(self, **numbers: int) -> bytes:
        return with_progress(self.file, replace(self.progress, output=replace(self.output, **numbers)))

    def test_what_is_named(self) -> None:
        self.assertEqual((self.sizes.pages, self.found.catalogue.version), (798, 6))
        self.assertEqual((self.output.pages, self.output.entries, self.output.weight, self.progress.taken), (20, 140, 71_680, 71_680))
        # C1' weighs 82,944; C1 and lane A, which a pass folds, 17,920 and 1,536
        self.assertEqual(self.settled(self.file)[0], blsm.Settled(8, 8, (82_944 - 71_680 + 17_920 + 1_536) // 4096 + 5))
        self.assertEqual(self.settled(without(self.file))[0], blsm.Settled(8, 26, (82_944 + 17_920 + 1_536) // 4096 + 5))

    def test_slots(self) -> None:
        at = slot_of(self.found)
        wrong = [
            changed(self.file, (at + FLAG, b"\x02")),
            changed(self.file, (at + 36, struct.pack(">IIQQ", *vars(EMPTY).values()))),
            *(self.naming(first=number) for number in (798, reading.NO_PAGE)),
            *(self.naming(pages=number) for number in (0, 799)),
            self.naming(entries=0),
            self.naming(weight=13),
            *(with_progress(self.file, replace(self.progress, following=number)) for number in (798, reading.NO_PAGE)),
            *(with_progress(self.file, replace(self.progress, key=key)) for key in (b"", b"k" * 65)),
        ]
        for file in wrong:
            with self.subTest(file[at : at + KEY]):
                self.refused("slots", file)

    def test_sums_are_told_at_the_last_page(self) -> None:
        key = self.progress.key
        wrong = [
            *(self.naming(entries=140 + by) for by in (1, -1)),
            *(self.naming(weight=71_680 + by) for by in (1, -1)),
            *(with_progress(self.file, replace(self.progress, taken=71_680 + by)) for by in (1, -1)),
            *(with_progress(self.file, replace(self.progress, following=self.progress.following + by)) for by in (1, -1)),
            with_progress(self.file, replace(self.progress, key=key[:-1] + bytes([key[-1] - 1]))),
        ]
        for file in wrong:
            with self.subTest(file[slot_of(self.found) + OUTPUT :][:102]):
                self.refused(f"page {self.pages[-1]}", file)

    def test_other_pages(self) -> None:
        c1x = self.found.catalogue.components[1]
        self.refused(f"page {self.pages[18]}", self.naming(pages=19))
        self.refused(f"page {self.progress.following}", self.naming(pages=21))
        self.refused(f"page {c1x.first}", self.naming(first=c1x.first))

    def test_pages(self) -> None:
        number = self.pages[5]
        at = self.sizes.page_at(number)
        count, used, following = struct.unpack_from(">HHI", self.file, at)
        entries = self.file[at + 8 : at + 8 + used]
        fewer = struct.pack(">HHI", count - 1, used - 512, following)
        for parts in (
            ((at + 2, struct.pack(">H", 4089)),),
            ((at + 8, b"\x02"), (at + 8 + 3, bytes(2))),
            ((at + 8 + 5, struct.pack(">Q", 77)),),
            ((at, (fewer + entries[512:]).ljust(PAGE, b"\x00")),),
        ):
            with self.subTest(parts[0]):
                self.refused(f"page {number}", changed(self.file, *parts))

    def test_a_key_that_is_higher(self) -> None:
        key = self.progress.key
        higher = with_progress(self.file, replace(self.progress, key=key[:-1] + bytes([key[-1] + 1])))  # still below the next one
        self.assertEqual(self.settled(higher)[0].quanta, self.settled(self.file)[0].quanta)
        self.assertEqual(read(self.path.read_bytes()).map, self.found.map)
        self.refused(f"page {self.pages[-1]}", with_progress(self.file, replace(self.progress, key=f"{'k' * 61}140".encode())))

    def test_an_entry_has_to_come_behind_them(self) -> None:
        entries = [entry(number) for number in range(161)]
        run = Component(0, 23, 161, 161 * 512)
        output = replace(run, first=23)
        parts = []
        for first in (run.first, output.first):
            for i in range(23):
                last = first == run.first and i == 22
                text = page(*entries[7 * i : 7 * i + 7], following=reading.NO_PAGE if last else first + i + 1)
                parts.append((SMALLEST.page_at(first + i), text))
        progress = Progress(output, 46, 161 * 512, f"{'k' * 61}160".encode())
        catalogue = slot(3, (0, 1, 2), EMPTY, run, EMPTY)[:FLAG]
        file = bytes(store((512, catalogue + named(progress)), *parts))
        unnamed = changed(file, (SLOTS[0] + FLAG, b"\x00"))
        self.assertEqual(self.settled(unnamed)[1].map, read(unnamed).map)
        self.refused("page 45", file)


class Drawn(OverTheProgram):
    """Stores with tombstones and sums among their keys, of which records are dropped on both sides of the last key."""

    def writes(self, draw: random.Random, keys: list[str]) -> Iterator[str]:
        for _ in range(420):
            key, kind = draw.choice(keys), draw.random()
            if kind < 0.86:
                yield f"1 put {key} {draw.randrange(10)} {'t' * draw.randrange(380, 436)}\n"
            else:
                yield f"1 add {key} 5\n" if kind < 0.9 else f"1 del {key}\n" if kind < 0.97 else f"1 tail {key} abc\n"

    def check_all_is_found(self, file: bytes, keys: list[str]) -> None:
        """Gets of all keys right behind the opening that takes the merge up, and a hold."""
        found = read(file).map
        self.path.write_bytes(file)
        script = "".join(f"1 get {key}\n" for key in keys) + "1 hold a z\n" + "1 next 32\n" * 9
        status, text = self.call("run", "--workers", "0", script=script)
        self.assertEqual(status, 0)
        replies = [line.split(" => ")[1].rsplit(" ", 1)[0] for line in text.splitlines()[1:-1]]
        for key, reply in zip(keys, replies):
            value = found.get(key.encode())
            self.assertEqual(reply, f"is {value[0]} {value[1].decode() or '-'}" if value else "none")
        rows = [word for reply in replies[len(keys) + 1 :] for word in reply.split()[2:]]
        self.assertEqual(rows, [word for key, (count, text) in sorted(found.items()) for word in (key.decode(), str(count), text.decode() or "-")])

    def check_store(self, seed: int) -> tuple[int, int, int]:
        """How many files named a progress, how many of these were settled in fewer quanta by it, and in how many it had dropped a record."""
        draw = random.Random(seed)
        keys = [f"{'k' * draw.randrange(40, 61)}{number:03}" for number in range(draw.choice((150, 170, 200, 260)))]
        writes, quantum = [*self.writes(draw, keys)], draw.choice(("1024", "2000", "4096"))
        files = fewer = dropped = 0
        for count in range(160, 420, 12):
            file = self.after("".join(writes[:count]), "--quantum", quantum)
            progress = read(file).catalogue.progress
            if not progress:
                continue
            less, all_of_it = self.in_both_ways(file)
            self.assertLessEqual(less, all_of_it)
            self.check_all_is_found(file, keys)
            files, fewer, dropped = files + 1, fewer + (less < all_of_it), dropped + (progress.taken != progress.output.weight)
        return files, fewer, dropped

    def test_some(self) -> None:
        told = [self.check_store(seed) for seed in range(4)]
        for what in zip(*told):
            self.assertGreater(sum(what), 0)


if __name__ == "__main__":
    unittest.main()
