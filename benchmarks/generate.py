#!/usr/bin/env python3
"""Writes the script that `blsm trial --seed S --count N` runs, as lines of caller 1.

    generate.py SEED COUNT > script.txt
"""
import sys

KEYS = 1500


def draws(state):
    """The 31 high bits of each state of a linear congruential generator modulo 2^64."""
    while True:
        state = (state * 6364136223846793005 + 1442695040888963407) % 2**64
        yield state >> 33


def command(kind, place, count, size):
    key = f"k{place:05d}"
    if kind < 60:
        return f"put {key} {count} {chr(ord('a') + place % 26) * size}"
    if kind < 78:
        return f"add {key} {count}"
    return f"del {key}" if kind < 80 else f"get {key}"


def main():
    drawn = draws(int(sys.argv[1]))
    for _ in range(int(sys.argv[2])):
        kind, place, count, size = (next(drawn) for _ in range(4))
        print(1, command(kind % 100, place % KEYS, count % 1000, 160 + size % 40))


if __name__ == "__main__":
    main()
