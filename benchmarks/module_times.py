#!/usr/bin/env python3
"""Lists what took long in the last check of a crate, by the times of the files that `rt check` keeps.

    python3 benchmarks/module_times.py CRATE [COUNT]      run at the top of the repository, COUNT lines (30)

A checker of one job (`rt check --jobs 1`) writes a file for each module as it is done, so the time between two files is what the later
one took. After an edit only what was checked anew has new times: begin without `crates/CRATE/out` for all. A gap that is longer than any
module may take lies between two checks and is left out.
"""
import pathlib
import sys

LONGEST_SECONDS = 120


def files_of(crate):
    """The kept files of a crate's modules, the oldest first, with their times."""
    kept = pathlib.Path("crates", crate, "out", "incremental").glob("*/*.oantt")
    return sorted((file.stat().st_mtime, file.stem) for file in kept if not file.parent.name.endswith("-offers"))


def gaps_of(files):
    """The seconds that each module took, by its name."""
    for (before, _), (after, name) in zip(files, files[1:]):
        if after - before <= LONGEST_SECONDS:
            yield after - before, name


def main():
    crate, count = sys.argv[1], int(sys.argv[2]) if len(sys.argv) > 2 else 30
    gaps = sorted(gaps_of(files_of(crate)), reverse=True)
    for seconds, name in gaps[:count]:
        print(f"{seconds:7.2f} {name.removeprefix(f'Rattle-{crate}')}")
    print(f"{sum(seconds for seconds, _ in gaps):7.2f} in all")


if __name__ == "__main__":
    main()
