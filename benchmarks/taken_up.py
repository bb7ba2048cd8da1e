#!/usr/bin/env python3
"""What an opening costs after a stop in the middle of a deep merge of 1 MB, taken up and begun anew.

    python3 benchmarks/taken_up.py BLSM FOLDER

Runs scripts of drawn puts over new stores of ratio 5, until one leaves a deep merge of 1,000,000 bytes and more of which
a commit names between 40 and 60 percent as taken. Settles that image, and the same one with the flag set to 0, under `strace`, and prints
the quanta and the calls on the file of both. It needs `strace`, and takes half a minute.
"""
import pathlib
import random
import re
import subprocess
import sys

sys.path.insert(0, str(pathlib.Path(__file__).resolve().parent.parent / "python"))
import reading

CALLS = ("pread64", "pwrite64", "fsync", "fdatasync")


def blsm(program, *words, script=""):
    return subprocess.run([program, *words], input=script.encode(), capture_output=True, check=True).stdout.decode()


def image_of(program, store, lines):
    store.unlink(missing_ok=True)
    blsm(program, "make", str(store), "--ratio", "5")
    blsm(program, "run", str(store), "--workers", "0", script="".join(lines))
    return store.read_bytes()


def middle_of_a_merge(program, store):
    draw = random.Random(7)
    lines = [f"1 put key{draw.randrange(20000):05d} {n} {'t' * draw.randint(100, 400)}\n" for n in range(12000)]
    for count in range(3000, len(lines), 40):
        image = image_of(program, store, lines[:count])
        catalogue = reading.read(image).catalogue
        both = catalogue.components[1].weight + catalogue.components[2].weight
        if catalogue.progress and both >= 1_000_000 and 0.4 <= catalogue.progress.taken / both <= 0.6:
            return count, image, both, catalogue
    raise SystemExit("no such image")


def opening_of(program, store, image):
    store.write_bytes(image)
    trace = store.with_suffix(".trace")
    text = subprocess.run(["strace", "-f", "-o", str(trace), "-e", "trace=" + ",".join(CALLS), program, "settle", str(store)],
                          capture_output=True, check=True).stdout.decode().strip()
    calls = re.findall(r"(\w+)\(", trace.read_text())
    return text, {name: calls.count(name) for name in CALLS if calls.count(name)}


def main():
    program, folder = sys.argv[1], pathlib.Path(sys.argv[2])
    store = folder / "taken-up"
    count, image, both, catalogue = middle_of_a_merge(program, store)
    print(f"{count} puts: C1' and C2 weigh {both}, of which {catalogue.progress.taken} are named as taken, on {catalogue.progress.output.pages} pages")
    anew = bytearray(image)
    anew[reading.SLOTS[1 - catalogue.version % 2] + 84] = 0
    for name, bytes_of in (("taken up", image), ("begun anew", bytes(anew))):
        text, calls = opening_of(program, store, bytes_of)
        print(f"{name}: {text}; " + ", ".join(f"{calls[call]} {call}" for call in calls))


if __name__ == "__main__":
    main()
