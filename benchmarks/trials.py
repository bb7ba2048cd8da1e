#!/usr/bin/env python3
"""Measures trials of the program beside a sorted map of the standard library that does the same commands, and prints a table.

    trials.py BLSM [--beside BLSM] [--counts 20000,60000] [--runs 5] [--seed 7] [--profile]

It wants g++, and for --profile perf. A trial makes its commands from a seed and does them over a store in memory; the map's runner (map_run.cc)
reads them as the generator's lines and prints a history, and tells what the commands alone took. Another build of the program may run beside
(--beside). The runs take turns; user and system time are of the run that took the least of both, wall time is the least.

Each count is also run once as a script over a new store in a file (in the folder for temporary files): its history must be one of a plain map, each
build's trial must print what this history sums up to, and the map's replies must be the same; else it ends with status 1. With --profile a second
table says which share of the time of a trial of 60,000 commands copies bytes and sets them (memmove, memset), as perf samples it.
"""

from __future__ import annotations

import argparse
import os
import re
import subprocess
import sys
import tempfile
from collections.abc import Mapping, Sequence
from dataclasses import dataclass
from pathlib import Path

from compare import generated
from measuring import Blsm, Took, builds, compiled, head_of, judge, least, line_of, machine, plain_map, replies, run, took

NOTHING = Path(os.devnull)
PROFILED = 60_000
SAMPLES = 3999  # a second
COPIES = {"memmove": ("memmove", "memcpy"), "memset": ("memset",)}  # what is told, and what its functions have in their names


@dataclass(frozen=True)
class Trials:
    """What is run: the builds by their names, the map's runner, and the runner that measures."""

    programs: Mapping[str, str]
    map_run: str
    measure: str
    folder: Path
    seed: int

    def words(self, program: str, count: int) -> list[str]:
        return [program, "trial", "--seed", str(self.seed), "--count", str(count)]


# ---- what is the same


def summary(seed: int, count: int, history: judge.History, keys: int) -> list[str]:
    """How the lines of a trial begin that did what a history tells."""
    verbs = [entry.verb for entry in history.entries]
    counts = [f"{verb}s {verbs.count(verb)}" for verb in ("put", "add", "del", "get")]
    return [
        f"trial seed {seed} count {count}",
        " ".join(counts),
        f"full {sum(entry.reply.startswith('full ') for entry in history.entries)}",
        f"c0 {history.peak} of {history.high}",
        f"largest q {max(entry.quanta for entry in history.entries)} of ",
        f"quanta {history.callers} swaps {history.passes} {history.deeps}",
        f"keys {keys} charge ",
    ]


def is_summary(text: str, begins: Sequence[str]) -> bool:
    lines = text.splitlines()
    return len(lines) == len(begins) and all(line.startswith(begin) for line, begin in zip(lines, begins))


def checked(trials: Trials, script: Path, count: int) -> None:
    """Ends the program where trials, a run over a file and the map don't do the same."""
    file = trials.folder / "store.blsm"
    program = next(iter(trials.programs.values()))
    store = Blsm("", file, [program, "run", "--workers", "0", str(file)], (), [program, "make", str(file)])
    store.empty()
    lines, text = script.read_text(), run(store.words, script)
    try:
        rows = store.judged(lines, text)
        told = run([trials.map_run], script)
        plain_map(lines, told, {})
    except judge.Illegal as why:
        sys.exit(f"{count:,}: no plain map answers so: {why}")
    if replies(told) != replies(text):
        sys.exit(f"{count:,}: the map's replies are others")
    texts = {run(trials.words(build, count), NOTHING) for build in trials.programs.values()}
    begins = summary(trials.seed, count, judge.parse(text), len(rows))
    if len(texts) != 1 or not is_summary(texts.pop(), begins):
        sys.exit(f"{count:,}: the trials don't say what the run over a file did")


# ---- what is measured


@dataclass(frozen=True)
class Measured:
    """What the trials took by their builds' names, what the map's runner took, and of that the commands alone, in seconds of the processor."""

    of_builds: Mapping[str, Sequence[Took]]
    of_map: Sequence[Took]
    alone: Sequence[float]

    def lines(self, count: int) -> list[str]:
        rows = [self.cells(name, runs) for name, runs in self.of_builds.items()]
        rows.append(self.cells("std::map, its lines read and printed", self.of_map))
        alone = min(self.alone)
        rows.append(["std::map, the commands alone", "", "", seconds(alone), "", *self.times(alone)])
        return [line_of([f"{count:,}" if place == 0 else "", *row]) for place, row in enumerate(rows)]

    def cells(self, name: str, runs: Sequence[Took]) -> list[str]:
        spent = least(runs)
        wall = min(took.wall for took in runs)
        return [name, *map(seconds, (spent.user, spent.system, spent.processor, wall)), *self.times(spent.processor)]

    def times(self, processor: float) -> list[str]:
        """So many times what the map's runner took, and what its commands alone did."""
        return [f"{processor / of_map:.1f}" for of_map in (least(self.of_map).processor, min(self.alone))]


def seconds(time: float) -> str:
    return f"{time:.3f} s"


def measured(trials: Trials, script: Path, count: int, runs: int) -> Measured:
    of_builds: dict[str, list[Took]] = {name: [] for name in trials.programs}
    of_map, alone = [], []
    told = trials.folder / "alone.txt"
    for _ in range(runs):
        for name, program in trials.programs.items():
            of_builds[name].append(took(trials.measure, trials.words(program, count), NOTHING, trials.folder)[0])
        of_map.append(took(trials.measure, [trials.map_run, str(told)], script, trials.folder)[0])
        alone.append(float(told.read_text()))
    return Measured(of_builds, of_map, alone)


HEAD = ("Commands", "Program", "User", "System", "User and system", "Wall", "Times of std::map's", "Times of its commands alone")


# ---- the profile


def shares(report: str) -> dict[str, float]:
    """The shares of the functions that copy and set bytes, in percent, by a report of perf with a function a line."""
    found = dict.fromkeys(COPIES, 0.0)
    for line in report.splitlines():
        function = re.match(r" +([\d.]+)% +\[.\] (\S+)", line)
        for name, marks in COPIES.items():
            if function and any(mark in function[2] for mark in marks):
                found[name] += float(function[1])
    return found


def profile(words: Sequence[str], folder: Path) -> dict[str, float]:
    data = str(folder / "perf.data")
    subprocess.run(["perf", "record", "-q", "-F", str(SAMPLES), "-o", data, "--", *words], stdout=subprocess.DEVNULL, check=True)
    reporting = ["perf", "report", "-q", "--stdio", "-i", data, "--no-children", "-g", "none", "-F", "overhead,symbol"]
    return shares(subprocess.run(reporting, stdout=subprocess.PIPE, stderr=subprocess.DEVNULL, text=True, check=True).stdout)


def print_profiles(trials: Trials) -> None:
    print("\n" + head_of([f"A trial of {PROFILED:,}", *COPIES, "Both"]))
    for name, program in trials.programs.items():
        found = profile(trials.words(program, PROFILED), trials.folder)
        print(line_of([name, *(f"{share:.1f} %" for share in [*found.values(), sum(found.values())])]), flush=True)


# ---- the table


def asked() -> argparse.Namespace:
    words = argparse.ArgumentParser(description=__doc__, formatter_class=argparse.RawDescriptionHelpFormatter)
    words.add_argument("program")
    words.add_argument("--beside", help="another build of the program")
    words.add_argument("--counts", default="20000,60000")
    words.add_argument("--runs", type=int, default=5)
    words.add_argument("--seed", type=int, default=7)
    words.add_argument("--profile", action="store_true", help=f"also the shares of a trial of {PROFILED:,} commands, by perf")
    return words.parse_args()


def main() -> None:
    words = asked()
    with tempfile.TemporaryDirectory() as made:
        folder = Path(made)
        trials = Trials(builds(words.program, words.beside), compiled("map_run", folder), compiled("measure", folder), folder, words.seed)
        print(f"{machine(folder)}; seed {words.seed}, runs {words.runs}\n\n{head_of(HEAD)}")
        script = folder / "script.txt"
        for count in map(int, words.counts.split(",")):
            script.write_text(generated(words.seed, count).dealt(1))
            checked(trials, script, count)
            print("\n".join(measured(trials, script, count, words.runs).lines(count)), flush=True)
        if words.profile:
            print_profiles(trials)


if __name__ == "__main__":
    main()
