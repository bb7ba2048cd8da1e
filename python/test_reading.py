"""Tests of the reader of a store's bytes, over files that are put together by hand.   python3 -m unittest discover -s python"""

import struct
import unittest
from collections.abc import Callable
from dataclasses import replace

import reading
from reading import BASE, DELTA, TOMBSTONE, Component, Found, Progress, Record, Sizes, Unread, fold, read

SMALLEST = Sizes(17_408, 2, 8_704, 1_024)
EMPTY = Component(reading.NO_PAGE, 0, 0, 0)
X = bytes.fromhex("01 0001 0003 0000000000000064 78 6f6c64")  # put x 100 old
ADD_X = bytes.fromhex("02 0001 0000 0000000000000007 78")
DEL_X = bytes.fromhex("03 0001 0000 0000000000000000 78")
PUT_A = bytes.fromhex("01 0001 0002 0000000000000005 61 6869")  # put a 5 hi
TAIL_X = bytes.fromhex("04 0001 0003 0000000000000007 78 656e64")  # tail x end, and 7 added
DEL_A = bytes.fromhex("03 0001 0000 0000000000000000 61")
LANE = SMALLEST.region


def slot(version: int, lanes: tuple[int, int, int] = (0, 1, 2), *components: Component) -> bytes:
    numbers = [(c.first, c.pages, c.entries, c.weight) for c in (*components, EMPTY, EMPTY, EMPTY)[:3]]
    return struct.pack(">BQBBB", 1, version, *lanes) + b"".join(struct.pack(">IIQQ", *four) for four in numbers) + b"\x00"


def named(progress: Progress) -> bytes:
    """What stands behind the numbers of a slot that names a deep merge's progress."""
    output = struct.pack(">IIQQ", *vars(progress.output).values())
    return b"\x01" + output + struct.pack(">IQH", progress.following, progress.taken, len(progress.key)) + progress.key


def page(*entries: bytes, count: int | None = None, used: int | None = None, following: int = reading.NO_PAGE) -> bytes:
    text = b"".join(entries)
    return struct.pack(">HHI", len(entries) if count is None else count, len(text) if used is None else used, following) + text


def store(*parts: tuple[int, bytes]) -> bytearray:
    """A store that was just made, with these parts over it."""
    file = bytearray(SMALLEST.length)
    file[:27] = b"\x01BLSM0001\x00\x01" + struct.pack(">IIII", 17_408, 2, 8_704, 1_024)
    for at, part in ((512, slot(1)), *parts):
        file[at : at + len(part)] = part
    return file


# C2 has x on page 1; lane A, which is region 1, deletes x and adds 7 to it
MERGED = ((512, bytes(85)), (1024, slot(4, (1, 2, 0), EMPTY, EMPTY, Component(1, 1, 1, 17))), (SMALLEST.page_at(1), page(X)))
WRITES = (4096 + LANE, b"\x01" + DEL_X + b"\x01" + ADD_X + b"\x00")




def several(*entries: bytes, count: int | None = None, length: int | None = None) -> bytes:
    """A record of a lane that has several entries."""
    text = b"".join(entries)
    return struct.pack(">BBH", 5, len(entries) if count is None else count, len(text) if length is None else length) + text


def heavy(key: str, kind: int = BASE) -> bytes:
    """A put of weight 449, or a tombstone."""
    text = b"t" * 435 if kind == BASE else b""
    return struct.pack(">BHHQ", kind, 1, len(text), 0) + key.encode() + text


# C1' has a to h on page 0, and a tombstone of i, and j on page 1; C2 has i on page 4. Of the deep merge page 2 is finished, and page 3 comes next.
DONE = Progress(Component(2, 1, 8, 8 * 449), 3, 8 * 449, b"h")
FRONT = [heavy(key) for key in "abcdefgh"]
NEWER, OLDER = Component(0, 2, 10, 9 * 449 + 14), Component(4, 1, 1, 449)


def left(progress: Progress, *parts: tuple[int, bytes]) -> tuple[tuple[int, bytes], ...]:
    """The parts of a store whose deep merge was left with this progress."""
    pages = [(0, page(*FRONT, following=1)), (1, page(heavy("i", TOMBSTONE), heavy("j"))), (2, page(*FRONT, following=3)), (4, page(heavy("i")))]
    return (512, slot(3, (0, 1, 2), EMPTY, NEWER, OLDER)[:84] + named(progress)), *((SMALLEST.page_at(n), text) for n, text in pages), *parts


class Folding(unittest.TestCase):
    def test_each_pair(self) -> None:
        base, delta, tombstone = Record(BASE, 5, b"t"), Record(DELTA, 2**64 - 1), Record(TOMBSTONE, 0)
        for newer in (base, tombstone):
            for older in (base, delta, tombstone, None):
                self.assertEqual(fold(newer, older), newer)
        self.assertEqual(fold(delta, None), delta)
        self.assertEqual(fold(delta, base), Record(BASE, 4, b"t"))
        self.assertEqual(fold(delta, delta), Record(DELTA, 2**64 - 2))
        self.assertEqual(fold(delta, tombstone), Record(BASE, 2**64 - 1))

    def test_tails(self) -> None:
        base, tombstone, tail = Record(BASE, 5, b"t" * 70), Record(TOMBSTONE, 0), Record(DELTA, 1, b"end")
        self.assertEqual(fold(tail, base), Record(BASE, 6, b"t" * 61 + b"end"))
        self.assertEqual(fold(tail, tombstone), Record(BASE, 1, b"end"))
        self.assertEqual(fold(tail, Record(DELTA, 2, b"old")), Record(DELTA, 3, b"oldend"))
        self.assertEqual(fold(Record(DELTA, 2), tail), Record(DELTA, 3, b"end"))
        self.assertEqual(fold(Record(DELTA, 2), base), Record(BASE, 7, b"t" * 70))


class Right(unittest.TestCase):
    def test_lengths(self) -> None:
        self.assertEqual(SMALLEST.length, 3_481_600)
        self.assertEqual(Sizes(32_768, 4, 16_384, 4_096).length, 23_511_040)

    def test_a_new_store(self) -> None:
        found = read(store())
        self.assertEqual((found.report, found.map), ("ok version 1 c1 0 0 c1x 0 0 c2 0 0 lanes 0 0\n", {}))
        self.assertEqual((found.pages, found.lanes), ({}, {4096: 1, 4096 + LANE: 1}))

    def test_two_records_in_lane_a(self) -> None:
        text = bytes.fromhex("01 0100010002000000000000000561 6869 01 0300010000000000000000000061 00")
        found = read(store((4096, text)))
        self.assertEqual((found.report, found.map), ("ok version 1 c1 0 0 c1x 0 0 c2 0 0 lanes 2 0\n", {}))
        self.assertEqual(found.lanes[4096], 33)

    def test_a_record_of_several_entries(self) -> None:
        found = read(store((4096, b"\x01" + several(PUT_A, DEL_A) + b"\x01" + X + b"\x00")))
        self.assertEqual(found.map, {b"x": (100, b"old")})
        self.assertIn(" lanes 3 0", found.report)

    def test_a_page_below_a_lane(self) -> None:
        self.assertEqual(read(store(*MERGED)).map, {b"x": (100, b"old")})
        found = read(store(*MERGED, WRITES))
        self.assertEqual((found.report, found.map), ("ok version 4 c1 0 0 c1x 0 0 c2 1 17 lanes 2 0\n", {b"x": (7, b"")}))
        self.assertEqual(found.pages, {SMALLEST.page_at(1): 17})

    def test_a_tail_over_a_page(self) -> None:
        lane = 4096 + LANE, b"\x01" + TAIL_X + b"\x00"
        self.assertEqual(read(store(*MERGED, lane)).map, {b"x": (107, b"oldend")})
        self.assertEqual(read(store(lane)).map, {b"x": (7, b"end")})
        longest = b"\x04" + struct.pack(">HHQ", 1, 64, 0) + b"x" + b"t" * 64
        self.assertEqual(read(store(*MERGED, (lane[0], b"\x01" + longest + b"\x00"))).map, {b"x": (100, b"t" * 64)})

    def test_lane_b_is_over_lane_a(self) -> None:
        a = (4096, b"\x01" + PUT_A + b"\x00")
        self.assertEqual(read(store(a)).map, {b"a": (5, b"hi")})
        found = read(store(a, (4096 + LANE, b"\x01" + DEL_A + b"\x00")))
        self.assertEqual((found.report, found.map), ("ok version 1 c1 0 0 c1x 0 0 c2 0 0 lanes 1 1\n", {}))

    def test_the_newer_slot_counts(self) -> None:
        self.assertEqual(read(store(*MERGED, (512, slot(3)))).map, {b"x": (100, b"old")})
        self.assertEqual(read(store(*MERGED, (512, slot(5)))).map, {})

    def test_what_nothing_names_may_be_anything(self) -> None:
        spare = (4096 + 2 * LANE, b"\x01\xff")
        self.assertEqual(read(store((27, b"\xff"), (4096, b"\x02\xff"), spare, (SMALLEST.page_at(0), b"\xff" * 4096))).map, {})


class Outputs(unittest.TestCase):
    def test_what_a_deep_merge_has_finished(self) -> None:
        found = read(store(*left(DONE)))
        self.assertEqual((found.catalogue.progress, len(found.map)), (DONE, 9))
        self.assertEqual(sorted(found.pages), [SMALLEST.page_at(n) for n in (0, 1, 2, 4)])
        self.assertEqual(found.report, read(store(*left(DONE, (512 + 84, b"\x00")))).report)

    def test_the_key_may_lie_higher_where_nothing_is_between(self) -> None:
        self.assertEqual(read(store(*left(replace(DONE, key=b"hz")))).catalogue.progress, replace(DONE, key=b"hz"))
        self.assertEqual(len(read(store(*left(replace(DONE, key=b"i", taken=DONE.taken + 449 + 14)))).map), 9)

    def test_slots(self) -> None:
        output = DONE.output
        for wrong in (
            *(replace(DONE, output=replace(output, first=number)) for number in (SMALLEST.pages, reading.NO_PAGE)),
            *(replace(DONE, output=replace(output, pages=number)) for number in (0, SMALLEST.pages + 1)),
            replace(DONE, output=replace(output, entries=0)),
            replace(DONE, output=replace(output, weight=13)),
            replace(DONE, following=SMALLEST.pages),
            replace(DONE, key=b""),
            replace(DONE, key=b"h" * 65),
        ):
            with self.subTest(wrong):
                refused(self, 6, "damaged slots", *left(wrong))

    def test_numbers_are_told_at_the_last_page(self) -> None:
        output = DONE.output
        for wrong in (
            *(replace(DONE, output=replace(output, entries=8 + by)) for by in (1, -1)),
            *(replace(DONE, output=replace(output, weight=output.weight + by)) for by in (1, -1)),
            *(replace(DONE, taken=DONE.taken + by) for by in (1, -1)),
            replace(DONE, following=2),
            replace(DONE, following=5),
            replace(DONE, key=b"g"),
        ):
            with self.subTest(wrong):
                refused(self, 6, "damaged page 2", *left(wrong))

    def test_pages(self) -> None:
        at = SMALLEST.page_at(2)
        deltas = [struct.pack(">BHHQ", DELTA, 1, 0, 0) + b"a", *FRONT[1:], heavy("i")]
        for part in (page(*FRONT), page(*FRONT, following=3, used=4089), page(*deltas, following=3), page(*FRONT[:7], heavy("i"), following=3)):
            with self.subTest(part[:8]):
                refused(self, 6, "damaged page 2", *left(DONE, (at, part)))
        refused(self, 6, "damaged page 3", *left(replace(DONE, output=replace(DONE.output, pages=2))))
        refused(self, 6, "damaged page 0", *left(replace(DONE, output=replace(DONE.output, first=0))))

    def test_an_entry_has_to_come_behind_them(self) -> None:
        parts = left(DONE, (SMALLEST.page_at(1), page(heavy("i", TOMBSTONE), heavy("j", TOMBSTONE)).ljust(4096, b"\x00")))
        refused(self, 6, "damaged page 2", *parts, (512 + 36, struct.pack(">IIQQ", 0, 2, 10, 8 * 449 + 28)))


def refused(test: unittest.TestCase, status: int, line: str, *parts: tuple[int, bytes]) -> None:
    with test.assertRaises(Unread) as why:
        read(store(*parts))
    test.assertEqual((why.exception.status, why.exception.line), (status, line))


class Wrong(unittest.TestCase):
    def refused(self, status: int, line: str, *parts: tuple[int, bytes], change: Callable[[bytearray], None] = lambda file: None) -> None:
        file = store(*parts)
        change(file)
        with self.assertRaises(Unread) as why:
            read(file)
        self.assertEqual((why.exception.status, why.exception.line), (status, line))

    def test_no_store(self) -> None:
        numbers = ((23, 1_000), (19, 17_409), (15, 1), (11, 17_409))
        for part in ((0, b"\x00"), (1, b"X"), (9, b"\x00\x02"), *((at, struct.pack(">I", number)) for at, number in numbers)):
            with self.subTest(part):
                self.refused(4, "not a store", part)
        self.refused(4, "not a store", change=lambda file: file.append(0))
        self.refused(4, "not a store", change=lambda file: file.__delitem__(-1))
        self.refused(4, "not a store", change=lambda file: file.clear())

    def test_slots(self) -> None:
        heavy = Component(0, 1, 1, SMALLEST.c1_mark)
        for at, part in (
            (512, b"\x00"),
            (512, slot(2)),
            (512, slot(0)),
            (512, slot(1, (0, 0, 1))),
            (512, slot(1, (0, 1, 2), Component(reading.NO_PAGE, 0, 0, 14))),
            (512, slot(1, (0, 1, 2), Component(0, 1, 1, 13))),
            (512, slot(1, (0, 1, 2), Component(SMALLEST.pages, 1, 1, 14))),
            (512, slot(1, (0, 1, 2), heavy)),
            (512, slot(1, (0, 1, 2), EMPTY, heavy, Component(2, 1, 1, SMALLEST.capacity - SMALLEST.c1_mark + 1))),
            (1024, slot(1)),
            (512 + 84, b"\x01"),  # progress, and no C1'
            (512 + 84, b"\x02"),
        ):
            with self.subTest(part):
                self.refused(6, "damaged slots", (at, part))

    def test_a_version_that_is_worn(self) -> None:
        self.refused(6, "worn 4611686018427387905", (512, slot(2**62 + 1)))
        self.assertEqual(read(store((1024, slot(2**62)))).catalogue.version, 2**62)

    def test_lanes(self) -> None:
        self.refused(6, "damaged lane 0", (4096, b"\x01\x00"))
        self.refused(6, "damaged lane 1", (4096 + LANE, b"\x01\x00"))
        self.refused(6, "damaged lane 1", *MERGED, (4096, b"\x01\x00"), (4096 + LANE, b"\x01\x00"))
        # an entry must leave room for a gate
        whole = b"\x01" + ADD_X
        self.refused(6, "damaged lane 0", (4096, whole * (LANE // len(whole)) + b"\x01" + ADD_X[: LANE % len(whole)]))

    def test_records_of_several_entries(self) -> None:
        for record in (
            several(count=0),
            several(PUT_A),
            several(*[DEL_A] * 33),
            several(PUT_A, DEL_A, count=3),
            several(PUT_A, DEL_A, PUT_A, count=2),
            several(PUT_A, DEL_A, length=29),
            several(PUT_A, DEL_A, length=31),
            several(heavy("a"), *[DEL_A] * 5),
            several(PUT_A, several(PUT_A, DEL_A)),
        ):
            with self.subTest(record):
                self.refused(6, "damaged lane 0", (4096, b"\x01" + record + b"\x00"))

    def test_entries_of_no_kind(self) -> None:
        for kind, text, count in ((0, 0, 0), (1, 436, 0), (2, 1, 0), (3, 1, 0), (3, 0, 1), (4, 0, 1), (4, 65, 0), (5, 0, 0)):
            entry = struct.pack(">BBHHQ", 1, kind, 1, text, count) + b"x" + b"t" * text
            with self.subTest((kind, text, count)):
                self.refused(6, "damaged lane 0", (4096, entry + b"\x00"))

    def test_a_table_that_weighs_too_much(self) -> None:
        def put(i: int) -> bytes:
            return b"\x01" + struct.pack(">BHHQ", BASE, 4, 435, 0) + b"%04d" % i + bytes(435)

        most = 2 * 17_408 // 452
        self.assertEqual(len(read(store((4096, b"".join(map(put, range(most)))))).map), most)
        self.refused(6, "damaged lane 0", (4096, b"".join(map(put, range(most + 1)))))
        self.assertEqual(len(read(store((4096, b"".join(map(put, range(most))) + put(0)))).map), most)
        self.refused(6, "damaged lane 1", (4096, b"".join(map(put, range(most)))), (4096 + LANE, put(0)))

    def test_pages(self) -> None:
        at = SMALLEST.page_at(1)
        for part in (
            page(X, count=0),
            page(X, count=2),
            page(X, used=4089),
            page(X, used=16),
            page(X, following=1),
            page(X, following=2),
            page(X) + b"\x01",
            page(ADD_X),
            page(TAIL_X, used=17, count=1),
            page(TAIL_X),
            page(X, X),
        ):
            with self.subTest(part):
                self.refused(6, "damaged page 1", *MERGED, (at, part))

    def test_sums_are_told_at_the_last_page(self) -> None:
        for component in (Component(1, 1, 1, 18), Component(1, 1, 2, 17), Component(1, 2, 1, 17)):
            with self.subTest(component):
                self.refused(6, "damaged page 1", *MERGED, (1024, slot(4, (1, 2, 0), EMPTY, EMPTY, component)))

    def test_a_page_of_two_components(self) -> None:
        both = Component(1, 1, 1, 17)
        self.refused(6, "damaged page 1", *MERGED, (1024, slot(4, (1, 2, 0), both, EMPTY, both)))

    def test_pages_come_before_lanes(self) -> None:
        self.refused(6, "damaged page 1", *MERGED, (SMALLEST.page_at(1), page(X, count=0)), (4096 + LANE, b"\x01\x00"))

    def test_what_is_found_is_told(self) -> None:
        self.assertIsInstance(read(store()), Found)


if __name__ == "__main__":
    unittest.main()
