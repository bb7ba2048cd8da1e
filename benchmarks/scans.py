#!/usr/bin/env python3
"""Measures scans of a whole store, 32 rows at a time, in the program and in LevelDB beside it, and prints tables.

    scans.py BLSM FOLDER [--beside BLSM] [--rows 20000,200000] [--most-beside 20000] [--runs 3]

It wants what compare.py wants. Each store is filled with so many rows (--rows) of 64 bytes of weight, in an order that comes back to no
neighbourhood soon, and merged; a store of the program has the default half spring, doubled until they have room. A scan is a hold of all keys and
as many `next 32` as give all rows. One script asks for 131,072 rows at most, so a larger store takes several, each with a hold from behind the last
row of the one before. LevelDB has a snapshot and an iterator on it; it runs as it comes, and with a write buffer as large as the program's memory
table. Another build of the program may run beside (--beside), over stores of so many rows at most (--most-beside): one that begins each next at a
component's first page takes minutes for 200,000 rows.

Each store is scanned once under strace, which counts the calls that read its files (LevelDB reads its tables by calls in that run, and else by a map
of memory), and then some times without it, in turns. As many openings without a scan are counted and measured beside: what a row takes is what a scan
takes more than these. User and system time are of the run that took the least of both, wall time is the least. All must give all rows, else it ends
with status 1. The second table has the wall time of Python's `rows` and `dump` over the same stores, the least of as many runs.
"""

from __future__ import annotations

import argparse
import sys
import time
from collections.abc import Callable, Iterable, Sequence
from dataclasses import dataclass, field
from pathlib import Path

from compare import weight
from measuring import (
    ALL_TURNS,
    Blsm,
    Calls,
    Store,
    Took,
    blsm,
    builds,
    compiled,
    counted,
    dealt,
    head_of,
    judge,
    least,
    line_of,
    machine,
    remove,
    runner_of_leveldb,
    stores_of,
    took,
    version_of,
)

TEXT = 42  # of a row, in bytes: with its key of nine it weighs 64
MOST_ROWS = blsm.MOST_NEXTS * blsm.MOST_ROWS  # of one script


# ---- rows and scripts


def rows_of(count: int) -> list[blsm.Row]:
    return [blsm.Row(f"key{place:06}", place, "x" * TEXT) for place in range(count)]


def filling(rows: Sequence[blsm.Row]) -> list[str]:
    """A put of each row, and a work that merges all."""
    puts = [blsm.Put(row.key, row.count, row.text).line() for row in rows]
    places = sorted(range(len(rows)), key=lambda place: (place * 40503 % 65537, place))
    return [*(puts[place] for place in places), f"work {ALL_TURNS}"]


def geometry_for(commands: Sequence[str]) -> judge.Geometry:
    """The first double of the default half spring with room for these commands."""
    charge = sum(weight(command) for command in commands if command.startswith("put "))
    half = judge.Geometry().half
    while judge.Geometry(half).limit("put") < charge:
        half *= 2
    return judge.Geometry(half, low=half // 2)


def scan_of(rows: Sequence[blsm.Row]) -> list[list[str]]:
    """The scripts that scan all rows, each from behind the last row of the one before."""
    return [part_of_scan(rows, first) for first in range(0, len(rows), MOST_ROWS)]


def part_of_scan(rows: Sequence[blsm.Row], first: int) -> list[str]:
    low = blsm.successor(rows[first - 1].key) if first else blsm.LEAST_KEY
    nexts = -(-min(MOST_ROWS, len(rows) - first) // blsm.MOST_ROWS)
    return [blsm.Hold(low or blsm.GREATEST_KEY, blsm.GREATEST_KEY).line(), *[blsm.Next(blsm.MOST_ROWS).line()] * nexts]


def given(text: str) -> list[blsm.Row]:
    """The rows that a history prints."""
    replies = (line.split(" => ", 1)[1].rsplit(" ", 1)[0] for line in text.splitlines() if " => rows " in line)
    return [row for reply in map(blsm.reply_of, replies) if isinstance(reply, blsm.Rows) for row in reply.rows]


# ---- measuring


@dataclass
class Spent:
    """The calls that read and their bytes, and what each run took, of some scripts one after the other."""

    reads: int = 0
    read: int = 0
    runs: list[Took] = field(default_factory=list)

    def count(self, calls: Calls) -> None:
        self.reads, self.read = self.reads + calls.reads, self.read + calls.read


def together(parts: Sequence[Took]) -> Took:
    wall, user, system = (sum(times) for times in zip(*((it.wall, it.user, it.system) for it in parts)))
    return Took(wall, user, system, max(it.peak for it in parts))


@dataclass
class Scan:
    """A store with its rows and the scripts that scan it; what these took, and what as many openings alone did."""

    store: Store
    rows: Sequence[blsm.Row]
    scripts: Sequence[Path]
    opening: Path
    whole: Spent = field(default_factory=Spent)
    openings: Spent = field(default_factory=Spent)

    def count(self, folder: Path) -> None:
        """The calls of the openings, and then of the scan. No opening is counted that is the first one, in which LevelDB makes a table of its log."""
        counted(self.store, self.opening, folder)
        for _ in self.scripts:
            self.openings.count(counted(self.store, self.opening, folder)[0])
        calls, texts = zip(*(counted(self.store, script, folder) for script in self.scripts))
        for it in calls:
            self.whole.count(it)
        self.check("".join(texts))

    def run(self, measure: str, folder: Path) -> None:
        self.openings.runs.append(together([took(measure, self.store.words, self.opening, folder)[0] for _ in self.scripts]))
        parts, texts = zip(*(took(measure, self.store.words, script, folder) for script in self.scripts))
        self.whole.runs.append(together(parts))
        self.check("".join(texts))

    def check(self, text: str) -> None:
        if given(text) != self.rows:
            sys.exit(f"{self.store.name}, {len(self.rows):,} rows: it gives others")

    def cells(self) -> list[str]:
        spent, openings = least(self.whole.runs), least(self.openings.runs)
        row = (spent.processor - openings.processor) / len(self.rows)
        times = [f"{it:.3f} s" for it in (spent.user, spent.system, openings.processor, min(took.wall for took in self.whole.runs))]
        counts = [f"{it:,}" for it in (len(self.scripts), self.whole.reads, self.openings.reads, self.whole.read)]
        return [self.store.name, *counts, *times, f"{row * 1e6:.1f} us"]


OF_OPENINGS = "Of openings, user and system"
HEAD = ("Rows", "Store", "Scripts", "Reads", "Of openings", "Bytes read", "User", "System", OF_OPENINGS, "Wall", "A row, user and system")


def scanned(stores: Sequence[Store], rows: Sequence[blsm.Row], runs: int, measure: str, folder: Path) -> list[Scan]:
    """Fills the stores, and scans them in turns."""
    opening = written(folder / "opening.txt", [blsm.Drop().line()])
    scripts = [written(folder / f"scan{place}.txt", script) for place, script in enumerate(scan_of(rows))]
    scans = [Scan(store, rows, scripts, opening) for store in stores]
    for scan in scans:
        scan.store.fill(filling(rows), folder)
        scan.count(folder)
    for _ in range(runs):
        for scan in scans:
            scan.run(measure, folder)
    return scans


def written(path: Path, commands: Sequence[str]) -> Path:
    path.write_text(dealt(commands, 1))
    return path


# ---- Python


def from_python(store: Blsm, rows: Sequence[blsm.Row], runs: int) -> list[str]:
    """The wall times of `rows` and of `dump`."""
    opened = blsm.Store(store.path, [store.words[0]])
    walls = [wall(opened.rows, rows, runs), wall(opened.dump, [row.line() + "\n" for row in rows], runs)]
    return [store.name, *(f"{it:.2f} s" for it in walls)]


def wall(call: Callable[[], Iterable[object]], wanted: Sequence[object], runs: int) -> float:
    """The least time of a call and of all that it gives, in seconds."""
    walls = []
    for _ in range(runs):
        began = time.perf_counter()
        found = list(call())
        walls.append(time.perf_counter() - began)
        if found != wanted:
            sys.exit("Python gives other rows")
    return min(walls)


# ---- the tables


def asked() -> argparse.Namespace:
    words = argparse.ArgumentParser(description=__doc__, formatter_class=argparse.RawDescriptionHelpFormatter)
    words.add_argument("program")
    words.add_argument("folder")
    words.add_argument("--beside", help="another build of the program")
    words.add_argument("--rows", default="20000,200000")
    words.add_argument("--most-beside", type=int, default=20_000, help="of so many rows at most are the stores of the other build")
    words.add_argument("--runs", type=int, default=3)
    return words.parse_args()


def programs_for(count: int, words: argparse.Namespace) -> dict[str, str]:
    return builds(words.program, words.beside if count <= words.most_beside else None)


def main() -> None:
    words = asked()
    folder = Path(words.folder).resolve()
    folder.mkdir(parents=True, exist_ok=True)
    leveldb, measure = runner_of_leveldb(folder), compiled("measure", folder)
    python: list[str] = []
    print(f"{machine(folder)}; LevelDB {version_of(leveldb)}; runs {words.runs}\n\n{head_of(HEAD)}")
    for count in map(int, words.rows.split(",")):
        rows = rows_of(count)
        stores = stores_of(programs_for(count, words), leveldb, folder, geometry_for(filling(rows)))
        try:
            scans = scanned(stores, rows, words.runs, measure, folder)
        except judge.Illegal as why:
            sys.exit(f"{count:,} rows: no plain map answers so: {why}")
        print("\n".join(line_of([f"{count:,}", *scan.cells()]) for scan in scans), flush=True)
        if words.beside and count > words.most_beside:
            print(line_of([f"{count:,}", f"blsm, beside: not run, more than {words.most_beside:,} rows", *[""] * (len(HEAD) - 2)]))
        python += [line_of([f"{count:,}", *from_python(store, rows, words.runs)]) for store in stores if isinstance(store, Blsm)]
        for store in stores:
            remove(store.path)
    print("\n" + head_of(["Rows", "From Python", "`rows`", "`dump`"]) + "\n" + "\n".join(python))


if __name__ == "__main__":
    main()
