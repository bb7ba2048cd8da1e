#!/usr/bin/env python3
"""Runs random scripts of sixteen callers over stores in files, judges each history, and kills runs at random moments.

    BLSM=crates/blsm/out/blsm python3 python/soak.py --runs 100 --kills 30

A run: each history must be one that a plain map could have answered, the file must pass a check, and what it holds when it is
opened again must be the map after the history. A kill: replies are printed at the end, so none is there; callers write keys of
their own, and what the file holds must be, for each caller, what a front of its lines makes of its keys. It proves nothing.
"""
from __future__ import annotations

import argparse
import os
import random
import subprocess
import sys
import tempfile
import time

from blsm import Store
from judge import WRITES, Illegal, Map, is_met, judge, write

CALLERS = 16
GREATEST_TEXT = 435


def text_of(draw: random.Random) -> str:
    most = GREATEST_TEXT if draw.random() < 0.3 else 20
    return "x" * draw.randrange(1, most)


def count_of(draw: random.Random) -> int:
    """Often one of two, so that a swap's condition holds often, and often not."""
    return draw.randrange(draw.choice((2, 2, 1000)))


def line(draw: random.Random, caller: int, key: str) -> str:
    kind = draw.randrange(24)
    if kind < 9:
        return f"{caller} put {key} {count_of(draw)} {text_of(draw)}"
    if kind < 11:
        return f"{caller} add {key} {count_of(draw)}"
    if kind == 11:
        return f"{caller} tail {key} {text_of(draw)[:64]}"
    if kind < 15:
        return f"{caller} del {key}"
    if kind < 17:
        return f"{caller} new {key} {count_of(draw)} {text_of(draw)}"
    if kind < 19:
        return f"{caller} swap {key} {draw.randrange(2)} {count_of(draw)} {text_of(draw)}"
    if kind < 22:
        return f"{caller} get {key}"
    if kind == 22:
        return draw.choice((f"{caller} hold a z", f"{caller} next 5", f"{caller} drop"))
    return f"{caller} work {draw.randrange(1, 40)}"


def shared_script(draw: random.Random, lines: int) -> str:
    """All callers meet at a few hundred keys."""
    return "".join(line(draw, draw.randrange(1, CALLERS + 1), f"key{draw.randrange(300):03}") + "\n" for _ in range(lines))


def writes_apart(draw: random.Random, lines: int) -> str:
    """Each caller writes keys that no other has."""
    made = []
    while len(made) < lines:
        caller = draw.randrange(1, CALLERS + 1)
        one = line(draw, caller, f"own{caller:02}{draw.randrange(50):02}")
        if one.split(" ")[1] in (*WRITES, "work"):
            made.append(one + "\n")
    return "".join(made)


def contents(store: Store) -> Map:
    return {row.key: (row.count, row.text) for row in store.rows()}


def run(program: str, path: str, script: str, options: list[str]) -> str:
    ended = subprocess.run([program, "run", *options, "--", path], input=script.encode("ascii"), stdout=subprocess.PIPE, check=False)
    if ended.returncode != 0:
        raise Illegal(0, f"status {ended.returncode}")
    return ended.stdout.decode("ascii")


def judged_run(program: str, path: str, draw: random.Random, opening: Map, lines: int) -> Map:
    """One run over a store that has this map, and the map after it."""
    workers = draw.choice((0, 2, 2, 2, 8))
    script = shared_script(draw, lines)
    after = judge(script, run(program, path, script, ["--workers", str(workers)]), opening, workers=workers)
    store = Store.open(path, [program])
    if contents(store) != after:
        raise Illegal(0, "the file holds another map when it is opened again")
    return after


def fronts(script: str, caller: int, opening: Map) -> list[Map]:
    """The maps of a caller's own keys after each front of its lines."""
    own = {key: value for key, value in opening.items() if key.startswith(f"own{caller:02}")}
    found = [dict(own)]
    for words in (one.split(" ") for one in script.splitlines()):
        if words[0] == str(caller) and words[1] in WRITES and is_met(own, tuple(words[1:])):
            write(own, tuple(words[1:]))
            found.append(dict(own))
    return found


def killed_run(program: str, path: str, draw: random.Random, opening: Map, lines: int, most_seconds: float) -> tuple[Map, bool]:
    """One run that is killed, and what the file holds then; whether it was killed before its end."""
    script = writes_apart(draw, lines)
    with subprocess.Popen([program, "run", "--", path], stdin=subprocess.PIPE, stdout=subprocess.DEVNULL) as started:
        assert started.stdin
        started.stdin.write(script.encode("ascii"))
        started.stdin.close()
        time.sleep(draw.random() * most_seconds)
        started.kill()
        was_killed = started.wait() != 0
    held = contents(Store.open(path, [program]))
    for caller in range(1, CALLERS + 1):
        own = {key: value for key, value in held.items() if key.startswith(f"own{caller:02}")}
        if own not in fronts(script, caller, opening):
            raise Illegal(0, f"caller {caller}'s keys are no front of its lines")
    return held, was_killed


def main() -> None:
    parser = argparse.ArgumentParser(description="Random scripts of sixteen callers, judged; and runs that are killed.")
    parser.add_argument("--runs", type=int, default=100)
    parser.add_argument("--kills", type=int, default=30)
    parser.add_argument("--lines", type=int, default=3000)
    parser.add_argument("--seed", type=int, default=1)
    args = parser.parse_args()
    program = os.environ.get("BLSM", os.path.join(os.path.dirname(os.path.abspath(__file__)), "../crates/blsm/out/blsm"))
    draw = random.Random(args.seed)
    began = time.monotonic()
    with tempfile.TemporaryDirectory() as folder:
        path = f"{folder}/runs.blsm"
        Store.make(path, program=[program])
        held: Map = {}
        for _ in range(args.runs):
            held = judged_run(program, path, draw, held, args.lines)
        path = f"{folder}/kills.blsm"
        Store.make(path, program=[program])
        held, cut = {}, 0
        for _ in range(args.kills):
            held, was_killed = killed_run(program, path, draw, held, args.lines, most_seconds=1.0)
            cut += was_killed
    print(f"{args.runs} runs judged and opened again, {cut} of {args.kills} runs killed before their end, {time.monotonic() - began:.0f} seconds")


if __name__ == "__main__":
    try:
        main()
    except Illegal as why:
        sys.exit(f"illegal: {why}")
