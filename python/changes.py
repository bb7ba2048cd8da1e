#!/usr/bin/env python3
"""Makes wrong changes in a copy of the program, and tells which rows of crates/hostile_cases refuse each. It proves nothing.

    python3 python/changes.py [FOLDER]

The changes are those of `changes.txt`. They are built into one program, without a proof, in which an argument chooses one of them: the number comes by a
function in C that the copy alone has. Each is run over its rows, and must make each of them depart or end the program; without a change none may depart. The
copy is made in FOLDER, or in a new one that is removed afterwards.
"""

from __future__ import annotations

import os
import re
import shutil
import subprocess
import sys
import tempfile
import time
from collections import defaultdict
from dataclasses import dataclass, field
from pathlib import Path

TOP = Path(__file__).resolve().parent.parent
CASES = "crates/hostile_cases"
LOWEST = "refusal"  # the crate that all others may name
SECONDS = "600"

CHOICE = """
unsafe extern "C" {
    safe fn chosen_change() -> u64;
}

/// Whether this change was chosen.
pub fn is_changed(number: u64) -> bool {
    chosen_change() == number
}
"""

CHOSEN = r"""
#include <fcntl.h>
#include <stdint.h>
#include <stdlib.h>
#include <string.h>
#include <unistd.h>

/* The number behind "change=" in the program's words, or 0. */
uint64_t chosen_change(void) {
    static int64_t chosen = -1;
    if (chosen < 0) {
        char words[4096];
        int file = open("/proc/self/cmdline", O_RDONLY);
        ssize_t count = file < 0 ? 0 : read(file, words, sizeof words - 1);
        close(file);
        int64_t found = 0;
        for (ssize_t at = 0; at < count; at += strlen(words + at) + 1) {
            words[count] = 0;
            if (!strncmp(words + at, "change=", 7)) {
                found = atoll(words + at + 7);
            }
        }
        chosen = found;
    }
    return (uint64_t)chosen;
}
"""


@dataclass
class Change:
    what: str
    edits: list[tuple[str, str, str]] = field(default_factory=list)  # file, old, new
    rows: list[str] = field(default_factory=list)
    elsewhere: list[str] = field(default_factory=list)  # what refuses it that isn't tried here


def read_changes(text: str) -> list[Change]:
    changes: list[Change] = []
    file = old = ""
    for line in text.splitlines():
        word, _, rest = line.partition(": ")
        if word == "change":
            changes.append(Change(rest))
        elif word == "file":
            file = rest
        elif word == "old":
            old = rest
        elif word == "new":
            changes[-1].edits.append((file, old, rest))
        elif word == "row":
            changes[-1].rows.append(rest)
        elif word in ("test", "hostile", "edit"):
            changes[-1].elsewhere.append(f"{word} {rest}")
        elif line and not line.startswith("#"):
            raise ValueError(f"no line of a change: {line}")
    return changes


def chosen(old: str, ways: list[tuple[int, str]]) -> str:
    """The old text, or the new one of the change that is chosen."""
    text = "".join(f"if refusal::is_changed({number}) {{ {new} }} else " for number, new in ways) + f"{{ {old} }}"
    return text if old.endswith(";") else f"({text})"


def apply(folder: Path, changes: list[Change]) -> None:
    ways: dict[tuple[str, str], list[tuple[int, str]]] = defaultdict(list)
    for number, change in enumerate(changes, 1):
        for file, old, new in change.edits:
            ways[file, old].append((number, new))
    for (file, old), those in ways.items():
        path = folder / file
        text = path.read_text()
        if text.count(old) != 1:
            raise ValueError(f"{file} doesn't have once: {old}")
        path.write_text(text.replace(old, chosen(old, those)))
    with (folder / "crates" / LOWEST / "src/lib.rt").open("a") as file:
        file.write(CHOICE)
    (folder / "crates" / LOWEST / "c").mkdir()
    (folder / "crates" / LOWEST / "c/chosen.c").write_text(CHOSEN)
    crates = {file.split("/")[1] for file, _ in ways}
    listed = folder / "crates.txt"
    listed.write_text("\n".join(with_lowest(line, crates) for line in listed.read_text().splitlines()) + "\n")


def with_lowest(line: str, crates: set[str]) -> str:
    name, _, below = line.partition(":")
    return f"{line} {LOWEST}" if name in crates and LOWEST not in below.split() else line


def copy(folder: Path) -> None:
    for name in ("crates.txt", "HANDLES"):
        shutil.copyfile(TOP / name, folder / name)
    shutil.copytree(TOP / "crates", folder / "crates", ignore=shutil.ignore_patterns("out"))


def write_cases(folder: Path, lines: list[str], changes: list[Change]) -> dict[str, list[str]]:
    """A file of rows for each change, and for none all rows, with the stores that they begin with. Gives the rows of each."""
    folder.mkdir()
    scripts = [line for line in lines if line.startswith("script ")]
    rows = [line for line in lines if line and not line.startswith(("#", "script ", "store "))]
    cases = {"0": rows}
    for number, change in enumerate(changes, 1):
        if change.elsewhere:
            continue
        taken = [row for row in rows if any(row.startswith(prefix) for prefix in change.rows)]
        unknown = [prefix for prefix in change.rows if not any(row.startswith(prefix) for row in rows)]
        if unknown or not taken:
            raise ValueError(f"no row begins so: {unknown}")
        cases[str(number)] = taken
    for name, taken in cases.items():
        placed = [line for line in lines if line.startswith("store ") or line in taken]
        (folder / name).write_text("\n".join([*scripts, *placed]) + "\n")
        (folder / f"{name}.args").write_text(f"change={name}\n")
    return cases


def judge(said: str, taken: list[str]) -> list[str]:
    """The rows that didn't depart, in what a run printed. Where it didn't end well each row counts as one that departed."""
    if not re.search(r"(?m)^\d+ cases$", said):
        return []
    return [row for row in taken if f"{row}: " not in said]


def texts_of(output: str) -> dict[str, str]:
    """What the run of each case printed, by the case's name."""
    return dict(re.findall(r"(?ms)^== (\w+)\n(.*?)(?=^== \w+$|\Z)", output))


def verdict(what: str | None, taken: list[str], stood: list[str]) -> tuple[bool, str]:
    """Whether a case is as it should be, and a line that tells it. Without a change each row stands."""
    if what is None:
        return stood == taken, f"no change: {len(taken) - len(stood)} of {len(taken)} rows depart"
    rows = "".join(f"\n    {row[:100]}" for row in stood)
    return not stood, f"NOT REFUSED: {what}, but these rows stand:{rows}" if stood else f"refused: {what}"


def main() -> int:
    changes = read_changes((TOP / "python/changes.txt").read_text())
    given = Path(sys.argv[1]) if len(sys.argv) > 1 else None
    with tempfile.TemporaryDirectory() as room:
        folder = given or Path(room)
        folder.mkdir(parents=True, exist_ok=True)
        copy(folder)
        apply(folder, changes)
        cases = write_cases(folder / "cases", (TOP / CASES / "stdin").read_text().splitlines(), changes)
        began = time.monotonic()
        words = ["rt", "try", "--steps", "1", "--seconds", SECONDS, "--cases", str(folder / "cases")]
        ran = subprocess.run(words, cwd=folder / CASES, env=os.environ | {"RT_ALLOW_C": LOWEST}, stdout=subprocess.PIPE, stderr=subprocess.STDOUT, text=True, check=False)
    said = texts_of(ran.stdout)
    if not all(re.search(rf"(?m)^case={name} run=(?!no-answer)", ran.stdout) for name in cases):
        sys.exit(f"not all cases ran to their end:\n{ran.stdout[-3000:]}")
    passed = 0
    for name, taken in cases.items():
        is_right, line = verdict(changes[int(name) - 1].what if name != "0" else None, taken, judge(said.get(name, ""), taken))
        passed += is_right
        print(line)
    print(f"{passed} of {len(cases)} as they should be, {len(changes) + 1 - len(cases)} not tried here, {time.monotonic() - began:.0f} seconds")
    return 0 if passed == len(cases) else 1


if __name__ == "__main__":
    sys.exit(main())
