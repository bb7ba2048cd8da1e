#!/usr/bin/env python3
"""Measures commands that are sent one by one to a store that stays open, beside one run of them all.

    live.py BLSM FOLDER [--puts 20000] [--gets 20000] [--runs 3] [--seed 7]

The puts are of drawn keys, over a new store each time: as one script (`run --workers 0`), as a live batch, and one by one, each sent once the answer
to the one before was read. Then come as many gets as are asked for, one by one. It prints wall times in seconds, the least of the runs, and the
middle one of all round trips. All must leave the same rows, else it ends with status 1.
"""

from __future__ import annotations

import argparse
import random
import statistics
import sys
import time
from collections.abc import Sequence
from pathlib import Path

sys.path.insert(0, str(Path(__file__).resolve().parent.parent / "python"))
from blsm import Command, Get, Put, Store  # noqa: E402


def drawn(seed: int, count: int) -> list[Put]:
    draw = random.Random(seed)
    return [Put(f"k{draw.randrange(count // 4 + 1):06}", draw.randrange(1000), "x" * draw.randrange(40)) for _ in range(count)]


def run(store: Store, commands: Sequence[Command], _trips: list[float]) -> None:
    for entry in store.run({1: commands}).entries:
        entry.reply.need()


def batch(store: Store, commands: Sequence[Command], _trips: list[float]) -> None:
    with store.live() as live:
        for entry in live.batch(commands):
            entry.reply.need()


def one_by_one(store: Store, commands: Sequence[Command], trips: list[float]) -> None:
    with store.live() as live:
        for command in commands:
            began = time.perf_counter()
            live.ask(command).reply.need()
            trips.append(time.perf_counter() - began)


WAYS = {"one run": run, "a live batch": batch, "one by one": one_by_one}
GETS = "gets, one by one"


def main() -> None:
    parser = argparse.ArgumentParser(description="Measures commands that are sent one by one to a store that stays open.")
    parser.add_argument("program")
    parser.add_argument("folder", type=Path)
    for name, value in (("puts", 20_000), ("gets", 20_000), ("runs", 3), ("seed", 7)):
        parser.add_argument(f"--{name}", type=int, default=value)
    args = parser.parse_args()
    args.folder.mkdir(parents=True, exist_ok=True)
    path = args.folder / "live.blsm"
    puts = drawn(args.seed, args.puts)
    gets = [Get(put.key) for put in drawn(args.seed + 1, args.gets)]
    walls: dict[str, list[float]] = {name: [] for name in (*WAYS, GETS)}
    trips: dict[str, list[float]] = {name: [] for name in walls}

    def measure(name: str, store: Store, commands: Sequence[Command]) -> None:
        began = time.perf_counter()
        WAYS.get(name, one_by_one)(store, commands, trips[name])
        walls[name].append(time.perf_counter() - began)

    for _run in range(args.runs):
        found = []
        for name in WAYS:
            path.unlink(missing_ok=True)
            store = Store.make(path, program=[args.program])
            measure(name, store, puts)
            found.append(list(store.rows()))
        measure(GETS, store, gets)
        if any(rows != found[0] for rows in found):
            sys.exit("other rows")
    path.unlink(missing_ok=True)
    print(f"{len(puts)} puts and {len(gets)} gets, the least of {args.runs} runs")
    for name in walls:
        trip = f", a round trip {1e6 * statistics.median(trips[name]):.0f} us" if trips[name] else ""
        print(f"{name:18}{min(walls[name]):8.2f} s{trip}")
    print(f"puts one by one take {min(walls['one by one']) / min(walls['one run']):.2f} times as long as one run")


if __name__ == "__main__":
    main()
