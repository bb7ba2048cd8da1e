#!/usr/bin/env python3
"""Times the memory table beside those of other revisions and beside Rust's BTreeMap.

    python3 benchmarks/memory_table.py FOLDER [REVISION..]

FOLDER is made, and has a small repository for the crates as they stand here and one for each revision, with the program of
memory_table.txt, which `rt run` proves and builds; `rustc -O` builds memory_table.rs. Keys have eight bytes, texts a hundred. Prints
for each number of keys and each order in which they come, least of five runs, in nanoseconds: an insertion, a lookup that copies the
record out, a step from a key to the next one. Where `chrt` may give it, the programs run ahead of all other work (real-time, 10), so
that a busy machine disturbs them less; the programs of the revisions take turns. Then the program as it stands here runs with
500,000,000 bytes of memory at most, for a table of the largest high mark, 134,217,728.

A lookup's record is used by a call of its own (`seen`): otherwise the compiler leaves its bytes uncopied, in some revisions and not in
others.
"""
import os
import re
import resource
import subprocess
import sys

HERE = os.path.dirname(os.path.dirname(os.path.abspath(__file__)))
NEEDED = ("refusal", "blsm_model", "record_delta", "entry_store", "mem_table")
RUNS = 5
LOOKUPS = 200_000
MOST = 500_000_000
INVARIANT = """use Rattle.std.proofs.Common.{◌≡◌}
use Rattle.table_times.proofs.fill.Given as goal

abbrev pub invariant-keys : goal.invariant-keys
invariant-keys l = l.table.reserved ≡ 134217728
"""


def write(path, text):
    os.makedirs(os.path.dirname(path), exist_ok=True)
    with open(path, "w", encoding="utf-8") as it:
        it.write(text)


def crates_of(revision):
    """The lines of crates.txt that are needed, of a revision or of the files as they stand."""
    if revision is None:
        with open(os.path.join(HERE, "crates.txt"), encoding="utf-8") as it:
            lines = it.read()
    else:
        lines = subprocess.check_output(["git", "-C", HERE, "show", f"{revision}:crates.txt"], text=True)
    return [line for line in lines.splitlines() if line.partition(":")[0] in NEEDED]


def build(folder, revision):
    """Makes the small repository and answers the program's path."""
    lines = crates_of(revision)
    names = [f"crates/{line.partition(':')[0]}" for line in lines]
    os.makedirs(folder)
    if revision is None:
        packed = subprocess.Popen(["tar", "-C", HERE, "--exclude=out", "--exclude=must-fail", "-c", *names], stdout=subprocess.PIPE)
    else:
        packed = subprocess.Popen(["git", "-C", HERE, "archive", revision, *names], stdout=subprocess.PIPE)
    subprocess.check_call(["tar", "-C", folder, "-x"], stdin=packed.stdout)
    crate = os.path.join(folder, "crates/table_times")
    with open(os.path.join(HERE, "benchmarks/memory_table.txt"), encoding="utf-8") as it:
        write(os.path.join(crate, "src/main.rt"), it.read())
    write(os.path.join(crate, "proofs/fill/Invariants.antt"), INVARIANT)
    write(os.path.join(folder, "crates.txt"), "\n".join(lines) + "\ntable_times: blsm_model mem_table record_delta refusal\n")
    subprocess.check_call(["rt", "run"], cwd=crate, stdout=subprocess.DEVNULL)
    return os.path.join(crate, "out/table_times")


def ahead():
    """What runs a program ahead of others: nothing where that isn't allowed."""
    words = ["chrt", "-f", "10"]
    try:
        allowed = subprocess.run([*words, "true"], stderr=subprocess.DEVNULL).returncode == 0
    except FileNotFoundError:
        allowed = False
    return words if allowed else []


def measure(programs):
    """The least nanoseconds of each operation, by program, number of keys and order."""
    first = ahead()
    times = {name: {} for name in programs}
    for _ in range(RUNS):
        for name, program in programs.items():
            least = times[name]
            for line in subprocess.check_output([*first, program], text=True).splitlines():
                order, count, fill, look, walk, _, found, passed = line.split()
                assert int(found) == LOOKUPS and passed == count, line
                each = (int(fill) // int(count), int(look) // LOOKUPS, int(walk) // int(count))
                before = least.get((int(count), order), each)
                least[int(count), order] = tuple(map(min, each, before))
    return times


def main():
    if len(sys.argv) < 2:
        sys.exit(__doc__)
    folder, revisions = os.path.abspath(sys.argv[1]), sys.argv[2:]
    here = build(os.path.join(folder, "here"), None)
    programs = {"here": here}
    for revision in revisions:
        programs[revision] = build(os.path.join(folder, re.sub(r"\W", "_", revision)), revision)
    rust = os.path.join(folder, "btree")
    subprocess.check_call(["rustc", "-O", "-o", rust, os.path.join(HERE, "benchmarks/memory_table.rs")])
    programs["BTreeMap"] = rust
    times = measure(programs)
    print("| Keys | Order | " + " | ".join(f"{name}: insertion, lookup, step" for name in times) + " |")
    print("|---" * (2 + len(times)) + "|")
    for count, order in times["here"]:
        cells = (", ".join(map(str, times[name][count, order])) for name in times)
        print(f"| {count:,} | {order.lower()} | " + " | ".join(cells) + " |")
    limited = subprocess.run([here], stdout=subprocess.PIPE, text=True, preexec_fn=lambda: resource.setrlimit(resource.RLIMIT_AS, (MOST, MOST)))
    print(f"with {MOST:,} bytes of memory: " + ("it runs" if limited.returncode == 0 and "no memory" not in limited.stdout else "no memory"))


main()
