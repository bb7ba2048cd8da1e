"""Reads the bytes of a store's file by its written form: what `check` must print of it and its map, or the first place that isn't of that form.

A file is read in one order: superblock and length, catalogue slots, version, the pages of C1, C1' and C2, those that a deep merge has finished, lane A, lane B.
Nothing here is the program's:
`hostile.py` compares the program's answers over damaged files with these.
"""

from __future__ import annotations

import struct
from collections.abc import Iterable, Iterator
from dataclasses import dataclass, field
from functools import lru_cache

SUPERBLOCK = 27
SLOTS = (512, 1024)  # of odd and of even versions
SLOT = 187  # at most
FLAG, OUTPUT, KEY = 84, 85, 123  # where a slot has its flag, and behind it a deep merge's progress, the last of which is a key
REGIONS = 4096  # where the lanes' regions begin
PAGE = 4096
MOST_USED = 4088
LEAST_USED = 3577  # of a page with a next one
NO_PAGE = 2**32 - 1
MOST_VERSION = 2**62
BASE, DELTA, TOMBSTONE, TAILED = 1, 2, 3, 4
SEVERAL = 5  # the kind of a record of several entries
MOST_TAIL = 64
TEXT_LENGTHS = {BASE: range(436), DELTA: range(1), TOMBSTONE: range(1), TAILED: range(1, MOST_TAIL + 1)}

Bytes = bytes | bytearray | memoryview


class Unread(Exception):
    """The file isn't read: the program prints this line and ends with this status."""

    def __init__(self, status: int, line: str) -> None:
        super().__init__(line)
        self.status, self.line = status, line


def damaged(place: str) -> Unread:
    return Unread(6, f"damaged {place}")


@dataclass(frozen=True)
class Record:
    """A delta adds its count, and puts its text behind. In the file it is of kind `TAILED` where it has a text, and of kind `DELTA` else."""

    kind: int
    count: int
    text: bytes = b""


Entry = tuple[bytes, Record]


def weight(key: bytes, record: Record) -> int:
    return 13 + len(key) + len(record.text)


def fold(newer: Record, older: Record | None) -> Record:
    if newer.kind != DELTA or older is None:
        return newer
    count = (older.count + newer.count) % 2**64
    return Record(DELTA if older.kind == DELTA else BASE, count, with_tail(older.text, newer.text))


def with_tail(text: bytes, tail: bytes) -> bytes:
    """The text with a tail behind it, of which the last 64 bytes stay."""
    return (text + tail)[-MOST_TAIL:] if tail else text


def fold_in(table: dict[bytes, Record], entries: Iterable[Entry]) -> None:
    for key, record in entries:
        table[key] = fold(record, table.get(key))


@dataclass(frozen=True)
class Sizes:
    half: int
    ratio: int
    low: int
    quantum: int

    @property
    def c1_mark(self) -> int:
        return 2 * self.ratio * self.half

    @property
    def capacity(self) -> int:
        return self.ratio * self.c1_mark

    @property
    def region(self) -> int:
        return 4 * self.half

    @property
    def first_page(self) -> int:
        return REGIONS + 3 * self.region

    @property
    def pages(self) -> int:
        return 19 * (-(-self.capacity // LEAST_USED) + 3)

    @property
    def length(self) -> int:
        return self.first_page + PAGE * self.pages

    def page_at(self, number: int) -> int:
        return self.first_page + PAGE * number

    def are_right(self) -> bool:
        return 17_408 <= self.half <= 67_108_864 and 2 <= self.ratio <= 8 and self.low <= self.half and 1024 <= self.quantum <= 65_536


@dataclass(frozen=True)
class Component:
    first: int
    pages: int
    entries: int
    weight: int

    def is_right(self, pages: int) -> bool:
        if self.first == NO_PAGE:
            return (self.pages, self.entries, self.weight) == (0, 0, 0)
        return self.first < pages and 1 <= self.pages <= pages and 1 <= self.entries and 14 <= self.weight


@dataclass(frozen=True)
class Progress:
    """What the finished pages of a deep merge have: all that C1' and C2 have up to the key, which weighs `taken` there. Behind them comes page `following`."""

    output: Component
    following: int
    taken: int
    key: bytes

    def is_right(self, newer: Component, pages: int) -> bool:
        return newer.pages > 0 and self.output.pages > 0 and self.output.is_right(pages) and self.following < pages and 1 <= len(self.key) <= 64


@dataclass(frozen=True)
class Catalogue:
    version: int
    lanes: tuple[int, int, int]  # the regions of A, B and the spare one
    components: tuple[Component, Component, Component]  # C1, C1', C2
    progress: Progress | None = None

    @property
    def weight(self) -> int:
        return sum(component.weight for component in self.components)


@dataclass
class Found:
    """What a file has: `report` is what `check` prints, `map` the values by key, and the rest is where it stands in the file."""

    sizes: Sizes
    catalogue: Catalogue
    report: str
    map: dict[bytes, tuple[int, bytes]]
    pages: dict[int, int] = field(default_factory=dict)  # where each page that must stay begins, and how much of it is used
    lanes: dict[int, int] = field(default_factory=dict)  # where the regions of lanes A and B begin, and how long the text is with its closed gate


def read_sizes(file: Bytes) -> Sizes:
    refusal = Unread(4, "not a store")
    if len(file) < SUPERBLOCK:
        raise refusal
    gate, magic, form, *numbers = struct.unpack_from(">B8sHIIII", file, 0)
    sizes = Sizes(*numbers)
    if (gate, magic, form) != (1, b"BLSM0001", 1) or not sizes.are_right() or len(file) != sizes.length:
        raise refusal
    return sizes


def read_progress(file: Bytes, slot: int) -> Progress | None:
    """The progress that a slot names, or none where its flag is 0."""
    flag = file[slot + FLAG]
    if flag == 0:
        return None
    if flag != 1:
        raise damaged("slots")
    *output, following, taken, length = struct.unpack_from(">IIQQIQH", file, slot + OUTPUT)
    return Progress(Component(*output), following, taken, bytes(file[slot + KEY : slot + KEY + length]))


def read_slot(file: Bytes, parity: int, pages: int) -> Catalogue | None:
    """The catalogue of a slot, or none where its gate is closed."""
    at = SLOTS[1 - parity]
    gate, version, *numbers = struct.unpack_from(">BQBBB" + 3 * "IIQQ", file, at)
    if gate != 1:
        return None
    progress = read_progress(file, at)
    c1, c1x, c2 = (Component(*numbers[i : i + 4]) for i in (3, 7, 11))
    a, b, spare = numbers[:3]
    if version < 1 or version % 2 != parity or {a, b, spare} != {0, 1, 2} or not all(component.is_right(pages) for component in (c1, c1x, c2)):
        raise damaged("slots")
    if progress and not progress.is_right(c1x, pages):
        raise damaged("slots")
    return Catalogue(version, (a, b, spare), (c1, c1x, c2), progress)


def read_catalogue(file: Bytes, sizes: Sizes) -> Catalogue:
    open_slots = [slot for slot in (read_slot(file, parity, sizes.pages) for parity in (1, 0)) if slot]
    if not open_slots:
        raise damaged("slots")
    newest = max(open_slots, key=lambda slot: slot.version)
    if newest.components[0].weight >= sizes.c1_mark or newest.weight > sizes.capacity:
        raise damaged("slots")
    if newest.version > MOST_VERSION:
        raise Unread(6, f"worn {newest.version}")
    return newest


def read_entry(file: Bytes, at: int, end: int) -> tuple[bytes, Record, int] | None:
    """The entry that stands at this place and ends before that one, and where it ends."""
    if end < at + 13:
        return None
    kind, key_length, text_length, count = struct.unpack_from(">BHHQ", file, at)
    behind = at + 13 + key_length + text_length
    lengths = TEXT_LENGTHS.get(kind, range(0))
    if not 1 <= key_length <= 64 or text_length not in lengths or behind > end or kind == TOMBSTONE and count:
        return None
    key = bytes(file[at + 13 : at + 13 + key_length])
    return key, Record(DELTA if kind == TAILED else kind, count, bytes(file[at + 13 + key_length : behind])), behind


@lru_cache(maxsize=512)
def read_page(page: bytes, pages: int) -> tuple[int, tuple[Entry, ...]] | None:
    """The next page's number and the entries, or none where this is no valid page."""
    count, used, following = struct.unpack_from(">HHI", page)
    if count < 1 or used > MOST_USED or not (following == NO_PAGE or following < pages and used >= LEAST_USED) or any(page[8 + used :]):
        return None
    entries: list[Entry] = []
    at = 8
    while at < 8 + used:
        found = read_entry(page, at, 8 + used)
        if not found or entries and found[0] <= entries[-1][0]:
            return None
        entries.append(found[:2])
        at = found[2]
    return (following, tuple(entries)) if len(entries) == count else None


def read_component(file: Bytes, sizes: Sizes, component: Component, only_bases: bool, met: dict[int, int]) -> list[Entry]:
    """The entries of a component. `met` has the pages that were met so far, where each begins and how much of it is used."""
    entries: list[Entry] = []
    number = component.first
    for left in range(component.pages - 1, -1, -1):
        at = sizes.page_at(number)
        page = read_page(bytes(file[at : at + PAGE]), sizes.pages) if number < sizes.pages and at not in met else None
        if page is None:
            raise damaged(f"page {number}")
        following, more = page
        rises = not entries or entries[-1][0] < more[0][0]
        if not rises or (following == NO_PAGE) != (left == 0) or only_bases and any(record.kind != BASE for _, record in more):
            raise damaged(f"page {number}")
        entries += more
        met[at] = struct.unpack_from(">H", file, at + 2)[0]
        if left == 0 and (len(entries), sum(weight(*entry) for entry in entries)) != (component.entries, component.weight):
            raise damaged(f"page {number}")
        number = following
    return entries


def read_output(file: Bytes, sizes: Sizes, progress: Progress, newer: list[Entry], older: list[Entry], met: dict[int, int]) -> None:
    """Tests that the finished pages are what a deep merge of these lists writes up to the key, and that more is to come behind it."""
    merged = sorted(settled([older, newer]))
    due = [(key, Record(BASE, *value)) for key, value in merged if key <= progress.key]
    last, number, left = progress.output.first, progress.output.first, progress.output.pages
    entries: list[Entry] = []
    while len(entries) < len(due):
        at = sizes.page_at(number)
        if left == 0 or number >= sizes.pages:
            raise damaged(f"page {last}")
        page = read_page(bytes(file[at : at + PAGE]), sizes.pages) if at not in met else None
        if page is None or page[0] == NO_PAGE or list(page[1]) != due[len(entries) : len(entries) + len(page[1])]:
            raise damaged(f"page {number}")
        met[at] = struct.unpack_from(">H", file, at + 2)[0]
        entries += page[1]
        last, number, left = number, page[0], left - 1
    if left > 0:
        raise damaged(f"page {number if number < sizes.pages else last}")
    taken = sum(weight(*entry) for entry in newer + older if entry[0] <= progress.key)
    sums = (number, taken, len(entries), sum(weight(*entry) for entry in entries))
    named = (progress.following, progress.taken, progress.output.entries, progress.output.weight)
    if sums != named or sizes.page_at(number) in met or len(merged) == len(due):
        raise damaged(f"page {last}")


@lru_cache(maxsize=64)
def read_record(region: bytes, at: int, end: int) -> tuple[tuple[Entry, ...], int] | None:
    """The entries of the record that stands at this place of a lane and ends before that one, and where it ends."""
    if at + 4 > end or region[at] != SEVERAL:
        found = read_entry(region, at, end)
        return ((found[:2],), found[2]) if found else None
    _, count, length = struct.unpack_from(">BBH", region, at)
    at += 4
    behind = at + length
    if not 2 <= count <= 32 or length > 512 or behind > end:
        return None
    entries: list[Entry] = []
    for _ in range(count):
        found = read_entry(region, at, behind)
        if not found:
            return None
        entries.append(found[:2])
        at = found[2]
    return (tuple(entries), at) if at == behind else None


def read_lane(region: bytes) -> tuple[tuple[Entry, ...], int | None]:
    """The entries of a region, and where its closed gate stands, or none where the lane is damaged behind them."""
    entries: list[Entry] = []
    at = 0
    while region[at] == 1:
        found = read_record(region, at + 1, len(region) - 1)
        if not found:
            return tuple(entries), None
        entries.extend(found[0])
        at = found[1]
    return tuple(entries), at


def replay(file: Bytes, sizes: Sizes, lane: int, room: int, met: dict[int, int]) -> tuple[dict[bytes, Record], int]:
    """The table of a lane, and how many records it has. At no record the table may weigh more than the room."""
    begin = REGIONS + sizes.region * lane
    entries, end = read_lane(bytes(file[begin : begin + sizes.region]))
    table: dict[bytes, Record] = {}
    held = 0
    for key, record in entries:
        older = table.get(key)
        table[key] = fold(record, older)
        held += weight(key, table[key]) - (weight(key, older) if older else 0)
        if held > room:
            raise damaged(f"lane {lane}")
    if end is None:
        raise damaged(f"lane {lane}")
    met[begin] = end + 1
    return table, len(entries)


def table_weight(table: dict[bytes, Record]) -> int:
    return sum(weight(key, record) for key, record in table.items())


def settled(layers: Iterable[Iterable[Entry]]) -> Iterator[tuple[bytes, tuple[int, bytes]]]:
    """The values of these lists of entries, of which the first are the oldest."""
    table: dict[bytes, Record] = {}
    for layer in layers:
        fold_in(table, layer)
    return ((key, (record.count, record.text)) for key, record in table.items() if record.kind != TOMBSTONE)


def read(file: Bytes) -> Found:
    """Reads a whole file, or raises the first reason against it."""
    sizes = read_sizes(file)
    catalogue = read_catalogue(file, sizes)
    pages: dict[int, int] = {}
    c1, c1x, c2 = (read_component(file, sizes, component, i == 2, pages) for i, component in enumerate(catalogue.components))
    if catalogue.progress:
        read_output(file, sizes, catalogue.progress, c1x, c2, pages)
    lanes: dict[int, int] = {}
    room = min(2 * sizes.half, sizes.capacity - catalogue.weight)
    a, count_a = replay(file, sizes, catalogue.lanes[0], room, lanes)
    b, count_b = replay(file, sizes, catalogue.lanes[1], room - table_weight(a), lanes)
    numbers = [f"{name} {component.entries} {component.weight}" for name, component in zip(("c1", "c1x", "c2"), catalogue.components)]
    report = f"ok version {catalogue.version} {' '.join(numbers)} lanes {count_a} {count_b}\n"
    return Found(sizes, catalogue, report, dict(settled([c2, c1x, c1, a.items(), b.items()])), pages, lanes)
