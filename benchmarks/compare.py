#!/usr/bin/env python3
"""Runs scripts over the program and over LevelDB, on files in one folder, and prints a table of what each took.

    compare.py BLSM FOLDER [--seed 7] [--counts 5000,20000,60000] [--full 5000] [--gets 20000] [--callers 1] [--workers 0] [--runs 3]
               [--beside BLSM]

It wants g++, strace, and LevelDB's headers and library (Debian: libleveldb-dev). The scripts are the generator's, of so many commands (--counts), a mix of
so many (--full) over a store that puts of new keys had filled to nine tenths of its capacity, and a get of each of so many keys (--gets) over the store of
them; a work merges all whenever no more writes would fit. The lines are dealt out among the callers in turn, and each caller of either store has a thread
of its own. LevelDB runs twice: as it comes, and with a write buffer as large as the program's memory table. Another build of the program may run beside
(--beside).

Each store is run once under strace, which counts the calls that sync, write or read its files (LevelDB reads its tables by calls in that run, and else by a
map of memory), and then some times without it: user and system time are of the run that took the least of both, wall time is the least, peak memory the
most. Each printed history must be one that a plain map could have answered, and with one caller the replies of all stores must be the same; else it ends
with status 1.
"""

from __future__ import annotations

import argparse
import itertools
import subprocess
import sys
from collections.abc import Iterator, Sequence
from dataclasses import dataclass
from pathlib import Path

HERE = Path(__file__).resolve().parent
sys.path.insert(0, str(HERE.parent / "python"))
import generate  # noqa: E402
import judge  # noqa: E402
from measuring import (  # noqa: E402
    ALL_TURNS,
    GEOMETRY,
    Calls,
    Store,
    Took,
    builds,
    compiled,
    counted,
    dealt,
    head_of,
    least,
    line_of,
    machine,
    replies,
    runner_of_leveldb,
    stores_of,
    took,
    version_of,
)

FULL_TENTHS = 9


# ---- scripts


@dataclass(frozen=True)
class Script:
    """Commands without their callers, and what each store has before them."""

    name: str
    commands: Sequence[str]
    filling: Sequence[str] = ()

    def durable(self) -> int:
        return sum(is_write(command) for command in self.commands)

    def dealt(self, callers: int) -> str:
        return dealt(self.commands, callers)


def is_write(command: str) -> bool:
    return command.split(" ", 1)[0] in judge.WRITES


def generated(seed: int, count: int) -> Script:
    told = subprocess.run([sys.executable, str(HERE / "generate.py"), str(seed), str(count)], stdout=subprocess.PIPE, text=True, check=True).stdout
    return Script(f"{count:,}", [line.split(" ", 1)[1] for line in told.splitlines()])


class Present:
    """The weights of the keys present, in bytes, and their sum."""

    def __init__(self) -> None:
        self.weights: dict[str, int] = {}
        self.sum = 0

    def write(self, command: str) -> None:
        """The command is done: a new and a swap are puts then."""
        verb, key = command.split(" ")[:2]
        old = self.weights.pop(key, 0)
        bare = weight(f"del {key}")
        tailed = bare + min(max(old - bare, 0) + weight(command) - bare, judge.MOST_TAIL)
        new = {"add": old or bare, "tail": tailed, "del": 0}.get(verb, weight(command))
        self.sum += new - old
        if new:
            self.weights[key] = new


def weight(command: str) -> int:
    return judge.weight(tuple(command.split(" ")))


def filled(seed: int, count: int) -> Script:
    """A mix as the generator's, over all keys of a store that is filled to nine tenths."""
    drawn, present, filling = generate.draws(seed), Present(), []
    for place in scattered():
        command = generate.command(0, place, next(drawn) % 1000, 160 + next(drawn) % 40)
        if 10 * (present.sum + weight(command)) > FULL_TENTHS * GEOMETRY.capacity:
            break
        filling.append(command)
        present.write(command)
    places = list(itertools.islice(scattered(), len(filling)))
    return Script(f"{count:,} at nine tenths", list(mixed(drawn, places, present, count)), filling)


def gets(count: int) -> Script:
    """A get of each of so many keys, in an order that has nothing to do with the one in which they were put; the store is merged before."""
    keys = [f"key{place:06}" for place in sorted(range(count), key=lambda place: (place * 40503 % 65537, place))]
    filling = [f"put {key} {place} {'x' * 20}" for place, key in enumerate(sorted(keys))]
    return Script(f"{count:,} gets alone", [f"get {key}" for key in keys], worked(filling))


def worked(filling: Sequence[str]) -> list[str]:
    """The writes, with a work before each that would not fit, and one at the end."""
    commands, charge, present = [], 0, 0
    for command in filling:
        if charge + weight(command) > GEOMETRY.limit("put"):
            commands.append(f"work {ALL_TURNS}")
            charge = present
        charge, present = charge + weight(command), present + weight(command)
        commands.append(command)
    return [*commands, f"work {ALL_TURNS}"]


def scattered() -> Iterator[int]:
    """The numbers below 65,536, in an order that comes back to no neighbourhood soon."""
    return (i * 40503 % 2**16 for i in range(2**16))


def mixed(drawn: Iterator[int], places: Sequence[int], present: Present, count: int) -> Iterator[str]:
    """The mix, with a work before each write that would not fit: after it only the keys present weigh."""
    charge = present.sum
    for _ in range(count):
        kind, place, number, size = (next(drawn) for _ in range(4))
        command = generate.command(kind % 100, places[place % len(places)], number % 1000, 160 + size % 40)
        if is_write(command):
            if charge + weight(command) > GEOMETRY.limit("put"):
                yield f"work {ALL_TURNS}"
                charge = present.sum
            charge += weight(command)
            present.write(command)
        yield command


# ---- measuring


@dataclass(frozen=True)
class Row:
    """What a store took for a script."""

    store: Store
    calls: Calls
    runs: Sequence[Took]
    text: str

    def cells(self, count: int) -> list[str]:
        spent, calls = least(self.runs), self.calls
        numbers = [f"{n:,}" for n in (calls.syncs, calls.writes, calls.written, calls.reads, calls.read)]
        times = [f"{spent.user / count * 1e6:.0f} us", f"{spent.system / count * 1e6:.0f} us", f"{min(took.wall for took in self.runs):.2f} s"]
        return [self.store.name, *numbers, *times, f"{max(took.peak for took in self.runs) / 1024:.1f} MB"]

    def note(self) -> str:
        """What the program's history says beside."""
        quanta = [0] + [int(line.rsplit(" q", 1)[1]) for line in self.text.splitlines() if " => " in line and is_write(line.split(" ", 2)[2])]
        refused = sum(" => full " in line for line in self.text.splitlines())
        return f"{sum(quanta):,} quanta of writes, {max(quanta)} at most; {refused} writes refused; {self.text.splitlines()[-1]}"


def measured(store: Store, script: Path, runs: int, measure: str, folder: Path) -> Row:
    store.again()
    calls, text = counted(store, script, folder)
    store.judged(script.read_text(), text)
    times = []
    for _ in range(runs):
        store.again()
        spent, text = took(measure, store.words, script, folder)
        store.judged(script.read_text(), text)
        times.append(spent)
    return Row(store, calls, times, text)


# ---- the table

HEAD = ("Commands", "Durable writes", "Store", "Syncs", "Writes", "Bytes written", "Reads", "Bytes read", "User, a command", "System, a command", "Wall", "Peak memory")


def compared(script: Script, stores: Sequence[Store], callers: int, runs: int, measure: str, folder: Path) -> list[Row]:
    """Runs a script over each store. With one caller all must answer the same."""
    path = folder / "script.txt"
    path.write_text(script.dealt(callers))
    rows = []
    for store in stores:
        store.fill(script.filling, folder)
        store.keep()
        rows.append(measured(store, path, runs, measure, folder))
    if callers == 1 and any(replies(row.text) != replies(rows[0].text) for row in rows):
        sys.exit(f"{script.name}: the replies differ")
    return rows


def asked() -> argparse.Namespace:
    words = argparse.ArgumentParser(description=__doc__, formatter_class=argparse.RawDescriptionHelpFormatter)
    words.add_argument("program")
    words.add_argument("folder")
    words.add_argument("--seed", type=int, default=7)
    words.add_argument("--counts", default="5000,20000,60000")
    words.add_argument("--full", type=int, default=5000, help="commands over a store at nine tenths of its capacity; 0 leaves that out")
    words.add_argument("--gets", type=int, default=20000, help="gets over a store of as many keys; 0 leaves that out")
    words.add_argument("--beside", help="another build of the program")
    words.add_argument("--callers", type=int, default=1, choices=range(1, judge.CALLERS + 1), metavar="1..16")
    words.add_argument("--workers", type=int, default=0, choices=range(9), metavar="0..8")
    words.add_argument("--runs", type=int, default=3)
    return words.parse_args()


def main() -> None:
    words = asked()
    folder = Path(words.folder).resolve()
    folder.mkdir(parents=True, exist_ok=True)
    measure = compiled("measure", folder)
    leveldb = runner_of_leveldb(folder)
    stores = stores_of(builds(words.program, words.beside), leveldb, folder, workers=words.workers)
    print(f"{machine(folder)}; LevelDB {version_of(leveldb)}; seed {words.seed}, callers {words.callers}, workers {words.workers}, runs {words.runs}\n")
    print(head_of(HEAD))
    scripts = [generated(words.seed, int(count)) for count in words.counts.split(",") if count]
    scripts += [filled(words.seed, words.full)] if words.full else []
    scripts += [gets(words.gets)] if words.gets else []
    notes = []
    for script in scripts:
        try:
            rows = compared(script, stores, words.callers, words.runs, measure, folder)
        except judge.Illegal as why:
            sys.exit(f"{script.name}: no plain map answers so: {why}")
        first = [script.name, f"{script.durable():,}"]
        for row in rows:
            print(line_of(first + row.cells(len(script.commands))), flush=True)
            first = ["", ""]
        notes.append(f"- {script.name}: {rows[0].note()}")
    print("\n" + "\n".join(notes))


if __name__ == "__main__":
    main()
