#!/usr/bin/env python3
"""Measures the opening of a large store that rests settled, and prints a table.

    openings.py BLSM FOLDER [--beside BLSM] [--keys 400000] [--half 8388608] [--ratio 4] [--runs 3]

It wants g++ and strace. The first build fills a store with so many keys (--keys), each of weight 512, in an order that comes back to no neighbourhood
soon, merges all into C2, and opens it once more, so that nothing is left to be merged: such an opening writes nothing. Then each build opens it by a
script without a line, once under strace, which counts the calls that read, write or sync the file, and some times without it, in turns. User and
system time are of the run that took the least of both, the peak memory is the greatest. `check` must tell so many entries, else it ends with status 1.
"""

from __future__ import annotations

import argparse
import os
import sys
from collections.abc import Iterator
from pathlib import Path

from measuring import ALL_TURNS, Blsm, Took, blsm, builds, compiled, counted, dealt, head_of, judge, least, line_of, machine, remove, run, took

TEXT = "x" * 435
KEYS = 2**22  # of so many numbers each comes once
BATCH = 15_000  # puts of one script, whose lines are within its bytes

HEAD = ("Build", "Reads", "Bytes read", "Writes", "Syncs", "User", "System", "Wall", "Peak memory")


def key(number: int) -> str:
    """A key of 64 bytes, so that an entry weighs 512."""
    return f"{number * 2654435 % KEYS:064}"


def batches(keys: int) -> Iterator[list[str]]:
    for first in range(0, keys, BATCH):
        yield [blsm.Put(key(number), number, TEXT).line() for number in range(first, min(first + BATCH, keys))]


def fill(store: Blsm, keys: int, script: Path) -> None:
    """A store of these keys, settled. No write may be refused."""
    store.empty()
    for puts in batches(keys):
        script.write_text(dealt([*puts, f"work {ALL_TURNS}"], 1))
        if " => full" in run(store.words, script):
            sys.exit("the store has no room for so many keys")
    run(store.words, Path(os.devnull))


def cells(calls, runs: list[Took]) -> list[str]:
    best = least(runs)
    counts = [f"{n:,}" for n in (calls.reads, calls.read, calls.writes, calls.syncs)]
    times = [f"{seconds:.2f} s" for seconds in (best.user, best.system, min(took.wall for took in runs))]
    return [*counts, *times, f"{max(took.peak for took in runs):,} KB"]


def asked() -> argparse.Namespace:
    words = argparse.ArgumentParser(description=__doc__, formatter_class=argparse.RawDescriptionHelpFormatter)
    words.add_argument("program")
    words.add_argument("folder")
    words.add_argument("--beside")
    words.add_argument("--keys", type=int, default=400_000)
    words.add_argument("--half", type=int, default=8_388_608)
    words.add_argument("--ratio", type=int, default=4)
    words.add_argument("--runs", type=int, default=3)
    return words.parse_args()


def main() -> None:
    words = asked()
    folder = Path(words.folder).resolve()
    folder.mkdir(parents=True, exist_ok=True)
    file, script = folder / "openings.blsm", folder / "puts.txt"
    geometry = judge.Geometry(half=words.half, ratio=words.ratio)
    sizes = [f"--{name}={size}" for name, size in vars(geometry).items()]
    stores = []
    for name, program in builds(words.program, words.beside).items():
        ran = [program, "run", "--workers", "0", str(file)]
        stores.append(Blsm(name, file, ran, ran, [program, "make", *sizes, str(file)], geometry))
    fill(stores[0], words.keys, script)
    report = blsm.Store(file, [stores[0].words[0]]).check()
    if report.c2.entries != words.keys:
        sys.exit(f"C2 has {report.c2.entries} entries")
    nothing, runner = Path(os.devnull), compiled("measure", folder)
    calls = [counted(store, nothing, folder)[0] for store in stores]
    runs: list[list[Took]] = [[] for _ in stores]
    for _ in range(words.runs):
        for store, spent in zip(stores, runs):
            spent.append(took(runner, store.words, nothing, folder)[0])
    print(f"{machine(folder)}; {words.keys:,} keys, C2 weighs {report.c2.weight:,} bytes; runs {words.runs}\n")
    print(head_of(HEAD))
    for store, counts, spent in zip(stores, calls, runs):
        print(line_of([store.name, *cells(counts, spent)]))
    remove(file)


if __name__ == "__main__":
    main()
