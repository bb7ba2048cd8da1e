#!/usr/bin/env python3
"""Prints where the gate's processor time goes, by crate and part.

    python3 benchmarks/gate_times.py            runs `rt ci`, which proves only what it has not kept
    python3 benchmarks/gate_times.py --anew     runs `rt ci --anew`: all from nothing

It looks at the checker's processes every fifth of a second and adds up what each took. Parts: `proof` (the crate), `tests` (the
crate with its tests) and `edits` (its must-fail edits, with the check that they begin with). What a process takes after the last
look at it is lost, so short ones count for a little less than they took. The last line has what the gate took in all, by the
system's own count: its scripts, builds and runs of tests and programs too. It ends with the gate's own status.
"""
import os
import resource
import subprocess
import sys
import time

LOOK_SECONDS = 0.2
PARTS = ("proof", "tests", "edits")


def children_of(root):
    """The process ids below this one."""
    parents = {}
    for name in os.listdir("/proc"):
        if name.isdigit():
            try:
                with open(f"/proc/{name}/stat", encoding="utf-8", errors="replace") as stat:
                    parents[int(name)] = int(stat.read().rpartition(")")[2].split()[1])
            except (OSError, ValueError, IndexError):
                continue
    below, found = {root}, True
    while found:
        found = {pid for pid, parent in parents.items() if parent in below and pid not in below}
        below |= found
    return below


def place_of(pid):
    """The crate and the part that a checker's process is at, or None."""
    try:
        with open(f"/proc/{pid}/cmdline", "rb") as it:
            words = it.read().decode(errors="replace").split("\0")
        folder = os.readlink(f"/proc/{pid}/cwd")
    except OSError:
        return None
    if "--crate-name" not in words:
        return None
    crate = words[words.index("--crate-name") + 1]
    if os.path.basename(folder).startswith("rt-edit-"):
        return crate, "edits"
    return crate, "tests" if "--test" in words else "proof"


def began_and_took(pid):
    """When a process began, and the processor time in seconds that it took with its threads."""
    with open(f"/proc/{pid}/stat", encoding="utf-8", errors="replace") as stat:
        fields = stat.read().rpartition(")")[2].split()
    return int(fields[19]), (int(fields[11]) + int(fields[12])) / os.sysconf("SC_CLK_TCK")


def watch(gate):
    """What each checker's process took, by its place, until the gate ends."""
    places, took = {}, {}
    while gate.poll() is None:
        for pid in children_of(gate.pid):
            try:
                began, seconds = began_and_took(pid)
                # A number comes again, and a process may be seen before it is the checker.
                process = pid, began
                place = places.get(process) or place_of(pid)
                if place:
                    places[process] = place
                    took[process] = seconds
            except (OSError, ValueError, IndexError):
                continue
        time.sleep(LOOK_SECONDS)
    sums = {}
    for process, seconds in took.items():
        sums[places[process]] = sums.get(places[process], 0) + seconds
    return sums


def table(sums):
    """The rows by crate, what took most first, and the sums of the parts."""
    crates = {}
    for (crate, part), seconds in sums.items():
        crates.setdefault(crate, dict.fromkeys(PARTS, 0))[part] += seconds
    rows = sorted(crates.items(), key=lambda row: -sum(row[1].values()))
    rows.append(("all", {part: sum(row[part] for _, row in rows) for part in PARTS}))
    yield f"{'crate':20}" + "".join(f"{part:>10}" for part in (*PARTS, "minutes"))
    for crate, row in rows:
        cells = [row[part] / 60 for part in PARTS]
        yield f"{crate:20}" + "".join(f"{cell:10.1f}" for cell in (*cells, sum(cells)))


def main():
    began = time.monotonic()
    gate = subprocess.Popen(["rt", "ci", *sys.argv[1:]])
    sums = watch(gate)
    print("\n".join(table(sums)))
    used = resource.getrusage(resource.RUSAGE_CHILDREN)
    print(f"{(time.monotonic() - began) / 60:.1f} minutes on {os.cpu_count()} processors, {(used.ru_utime + used.ru_stime) / 60:.1f} of one in all")
    return gate.returncode


if __name__ == "__main__":
    sys.exit(main())
