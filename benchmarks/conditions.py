#!/usr/bin/env python3
"""Measures news and swaps that are kept out by what is there, beside as many gets of the same keys, and prints a table.

    conditions.py BLSM FOLDER [--count 20000] [--runs 3]

It wants g++ and strace. One caller without workers fills a new store, so that each component has more than a hundred pages while merges run, and
last puts a few keys more, which stay in the memory table. Behind these writes the same script asks for so many keys (--count): the keys that the
components have in turn, or those few, by gets, by news, or by swaps of another count.

Each script runs once under strace, which counts the calls that read, write or sync the file, and then some times without it, in turns: user and
system time are of the run that took the least of both. What the commands took is what their script took more than the writes alone. Each history
must be one of a plain map, each new and swap must be kept, by the value that the get of its key is answered, and none may change the map; else it
ends with status 1.
"""

from __future__ import annotations

import argparse
import sys
from collections.abc import Sequence
from dataclasses import dataclass, field
from pathlib import Path

from measuring import Blsm, Calls, Took, blsm, compiled, counted, dealt, head_of, judge, least, line_of, machine, remove, run, took

GEOMETRY = judge.Geometry(half=163_840, ratio=3)
PUTS = 5_300  # some two marks of C1 into C2 and C1', and the rest into C1 while these merge
LAST = 20  # keys that are put last
TEXT = "x" * 435
LEAST_PAGES = 100
LEAST_FULL = 3_577  # bytes of entries: all pages of a component but its last have as many


# ---- scripts


def key(number: int) -> str:
    return f"k{number * 40503 % 65536:05}"


def writes() -> list[str]:
    return [blsm.Put(key(number), number, TEXT).line() for number in range(PUTS + LAST)]


def asked_for(first: int, size: int, count: int) -> list[int]:
    """So many numbers of keys, of these in turn, in an order that comes back to no neighbourhood soon."""
    return [first + place * 40503 % size for place in range(count)]


def commands(kind: str, numbers: Sequence[int]) -> list[str]:
    made = {
        "gets": lambda number: blsm.Get(key(number)),
        "news": lambda number: blsm.New(key(number), 0),
        "swaps": lambda number: blsm.Swap(key(number), number + 1, 0),
    }
    return [made[kind](number).line() for number in numbers]


# ---- measuring


@dataclass
class Part:
    """Commands behind the writes, and what their script took."""

    name: str
    path: Path
    count: int
    calls: Calls = field(default_factory=Calls)
    runs: list[Took] = field(default_factory=list)
    answers: list[str] = field(default_factory=list)

    def cells(self, alone: Part, gets: Part) -> list[str]:
        calls = [getattr(self.calls, name) - getattr(alone.calls, name) for name in ("reads", "writes", "syncs")]
        spent = self.spent(alone)
        times = [f"{1e6 * spent / self.count:.1f} us", f"{spent / gets.spent(alone):.2f}"]
        return [self.name.split(" ")[0], *(f"{n:,}" for n in calls), *times]

    def spent(self, alone: Part) -> float:
        return least(self.runs).processor - least(alone.runs).processor


def values(text: str) -> list[str]:
    """What the commands behind the writes were answered, without the words before the values."""
    replies = (line.split(" => ", 1)[1].rsplit(" q", 1)[0] for line in text.splitlines()[1:-1])
    return [reply.split(" ", 1)[1] for reply in replies if reply.startswith(("is ", "kept "))]


def checked(store: Blsm, part: Part, text: str, rows: judge.Map | None) -> judge.Map:
    """The map after a run. All commands must have been answered, by a value each, and the map must be these rows."""
    after = store.judged(part.path.read_text(), text)
    part.answers = values(text)
    if len(part.answers) != part.count or rows is not None and after != rows:
        sys.exit(f"{part.name}: a command was answered otherwise, or changed the map")
    return after


def measure(store: Blsm, parts: Sequence[Part], runs: int, runner: str, folder: Path) -> None:
    rows = None
    for part in parts:
        store.empty()
        part.calls, text = counted(store, part.path, folder)
        rows = checked(store, part, text, rows)
    for _ in range(runs):
        for part in parts:
            store.empty()
            spent, text = took(runner, store.words, part.path, folder)
            checked(store, part, text, rows)
            part.runs.append(spent)


def pages(store: Blsm, alone: Part) -> list[int]:
    """How many pages each component has behind the writes, at least."""
    store.empty()
    run(store.words, alone.path)
    report = blsm.Store(store.path, [store.words[0]]).check()
    return [component.weight // LEAST_FULL for component in (report.c1, report.c1x, report.c2)]


# ---- the table

HEAD = ("Keys in", "Commands", "Reads", "Writes", "Syncs", "User and system, a command", "Times of the gets'")


def asked() -> argparse.Namespace:
    words = argparse.ArgumentParser(description=__doc__, formatter_class=argparse.RawDescriptionHelpFormatter)
    words.add_argument("program")
    words.add_argument("folder")
    words.add_argument("--count", type=int, default=20_000)
    words.add_argument("--runs", type=int, default=3)
    return words.parse_args()


PLACES = {"the components": (0, PUTS), "the memory table": (PUTS, LAST)}  # the first key's number, and how many there are
KINDS = ("gets", "news", "swaps")


def scripted(folder: Path, name: str, behind: Sequence[str]) -> Part:
    path = folder / f"{name.replace(' ', '_')}.txt"
    path.write_text(dealt([*writes(), *behind], 1))
    return Part(name, path, len(behind))


def parts_of(folder: Path, place: str, count: int) -> list[Part]:
    numbers = asked_for(*PLACES[place], count)
    return [scripted(folder, f"{kind} {place}", commands(kind, numbers)) for kind in KINDS]


def main() -> None:
    words = asked()
    folder = Path(words.folder).resolve()
    folder.mkdir(parents=True, exist_ok=True)
    file, program = folder / "conditions.blsm", str(Path(words.program).resolve())
    sizes = [f"--{name}={size}" for name, size in vars(GEOMETRY).items()]
    ran = [program, "run", "--workers", "0", str(file)]
    store = Blsm("blsm", file, ran, ran, [program, "make", *sizes, str(file)], GEOMETRY)
    alone = scripted(folder, "writes alone", [])
    table = {place: parts_of(folder, place, words.count) for place in PLACES}
    found = pages(store, alone)
    if min(found) < LEAST_PAGES:
        sys.exit(f"the components have {found} pages")
    try:
        measure(store, [alone, *(part for parts in table.values() for part in parts)], words.runs, compiled("measure", folder), folder)
    except judge.Illegal as why:
        sys.exit(f"no plain map answers so: {why}")
    print(f"{machine(folder)}; pages of C1, C1' and C2 {found}; {words.count:,} commands, runs {words.runs}\n")
    print(head_of(HEAD))
    for place, parts in table.items():
        if any(part.answers != parts[0].answers for part in parts):
            sys.exit(f"{place}: the values differ")
        for part in parts:
            print(line_of([place, *part.cells(alone, parts[0])]))
    remove(file)


if __name__ == "__main__":
    main()
