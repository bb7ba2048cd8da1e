#!/usr/bin/env python3
"""How much of the memory table is held in memory while passes take it, beside what it weighs.

    python3 benchmarks/resident.py BLSM FOLDER [--sample 200]

Runs the generator's 20,000 lines (seed 7) over new stores, by one caller without workers, up to each of so many writes that are spread
evenly over them, at a low mark of 0 and at the default one. What is held is what `--resident 1` tells; what the table weighs then is read
from the lanes of the file. Prints the means of both in bytes, and the one as a part of the other. With FOLDER in memory (/dev/shm) it takes
some two minutes.
"""
import argparse
import pathlib
import shutil
import subprocess
import sys

HERE = pathlib.Path(__file__).resolve().parent
sys.path.insert(0, str(HERE.parent / "python"))
import reading

LINES = 20_000
SEED = 7
LOW_MARKS = {"low mark 0": ("--low", "0"), "default": ()}


def blsm(program, *words, script=""):
    return subprocess.run([program, *words], input=script.encode(), capture_output=True, check=True).stdout.decode()


def generated():
    words = [sys.executable, str(HERE / "generate.py"), str(SEED), str(LINES)]
    return subprocess.run(words, capture_output=True, text=True, check=True).stdout.splitlines(keepends=True)


def behind_writes(lines, sample):
    """How many lines there are up to each of so many writes, evenly spread, of which the last one is the last."""
    ends = [place for place, line in enumerate(lines, 1) if " get " not in line]
    return [ends[len(ends) * part // sample - 1] for part in range(1, sample + 1)]


def table_weight(file):
    """What the memory table of a file weighs, both halves."""
    sizes = reading.read_sizes(file)
    lanes = reading.read_catalogue(file, sizes).lanes[:2]
    return sum(reading.table_weight(reading.replay(file, sizes, lane, 2 * sizes.half, {})[0]) for lane in lanes)


def held_behind(program, store, script):
    """What is held once a script was run over a store, and what the memory table weighs then."""
    text = blsm(program, "run", str(store), "--workers", "0", "--resident", "1", script=script)
    held = text.splitlines()[-1].removeprefix("resident ")
    return int(held), table_weight(store.read_bytes())


def main():
    parser = argparse.ArgumentParser(description="Measures how much of the memory table is held in memory, beside what it weighs.")
    parser.add_argument("program")
    parser.add_argument("folder", type=pathlib.Path)
    parser.add_argument("--sample", type=int, default=200)
    asked = parser.parse_args()
    lines = generated()
    made, store = asked.folder / "resident-made.blsm", asked.folder / "resident.blsm"
    for name, words in LOW_MARKS.items():
        made.unlink(missing_ok=True)
        blsm(asked.program, "make", *words, str(made))
        held = weight = 0
        for end in behind_writes(lines, asked.sample):
            shutil.copyfile(made, store)
            one, all_of_it = held_behind(asked.program, store, "".join(lines[:end]))
            held, weight = held + one, weight + all_of_it
        print(f"{name}: {held / asked.sample:.0f} of {weight / asked.sample:.0f} bytes are held, {held / weight:.3f}", flush=True)
    made.unlink()
    store.unlink()


if __name__ == "__main__":
    main()
