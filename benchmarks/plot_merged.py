#!/usr/bin/env python3
"""Draws what merges wrote after each durable write of one run, in the program and in LevelDB beside it.

    plot_merged.py BLSM FOLDER [--seed 7] [--count 20000] > merged.svg

It wants what compare.py wants. Both run the generator's script, with one caller and no worker, on files in the folder; LevelDB has a write buffer as large
as the program's memory table, so that both merge. A write's bytes are those that went into pages (of LevelDB: into tables) between the append of that write
to the log and the append of the next one. The program's are counted from a trace of its calls: a write of more than a byte into the lanes is an append,
all behind the lanes are pages. LevelDB's are counted by the file that its tables are written through; it merges on a thread of its own, so its bytes are
those that came while the write was the last one.
"""

from __future__ import annotations

import argparse
import math
import re
import sys
from collections.abc import Iterable, Sequence
from dataclasses import dataclass
from pathlib import Path

import compare
import measuring

LANES = 4096  # where the lanes begin in a file
PAGES = LANES + 12 * compare.GEOMETRY.half  # and where the pages do
WRITTEN = re.compile(r'\bpwrite64\(\d+<([^>]*)>, ""\.\.\., (\d+), (\d+)\) += \2$')


# ---- counting


def pages_after_appends(trace: Iterable[str], file: Path) -> list[int]:
    """The bytes of pages that a traced run of the program wrote after each append."""
    merged: list[int] = []
    for call in filter(None, (WRITTEN.search(line.rstrip()) for line in trace)):
        size, at = int(call[2]), int(call[3])
        if call[1] != str(file):
            continue
        if LANES <= at < PAGES and size > 1:
            merged.append(0)
        elif at >= PAGES and merged:
            merged[-1] += size
    return merged


def tables_after_writes(text: str) -> list[int]:
    """The bytes of tables after each write of LevelDB's history, those of the gets behind it among them."""
    merged: list[int] = []
    for line in text.splitlines():
        command, size = line.split(" ", 2)[2], int(line.rsplit(" m", 1)[1])
        if compare.is_write(command):
            merged.append(size)
        elif merged:
            merged[-1] += size
    return merged


def of_program(store: measuring.Store, script: Path, folder: Path) -> list[int]:
    trace = folder / "trace.txt"
    store.fill((), folder)
    text = measuring.run(["strace", "-f", "--seccomp-bpf", "-y", "-s", "0", "-o", str(trace), "-e", "trace=pwrite64", *store.words], script)
    store.judged(script.read_text(), text)
    with open(trace) as lines:
        merged = pages_after_appends(lines, store.path)
    trace.unlink()
    return merged


def of_leveldb(store: measuring.Store, script: Path, folder: Path) -> list[int]:
    store.fill((), folder)
    text = measuring.run(store.counting, script)
    store.judged(script.read_text(), text)
    return tables_after_writes(text)


# ---- the picture

WIDTH, HEIGHT, LEFT, TOP, GAP = 800, 150, 76, 46, 44
LEAST, MOST = 1024, 1024 * 1024  # of the panels with bytes a write
COLOURS = ("#1565c0", "#ef6c00")


@dataclass(frozen=True)
class Merged:
    """What a store merged after each write, in bytes."""

    name: str
    bytes: Sequence[int]
    colour: str

    def title(self) -> str:
        some = sum(size > 0 for size in self.bytes)
        return f"{self.name}: bytes merged after each write, {max(self.bytes):,} at most; after {some:,} of {len(self.bytes):,} writes some"


def text(x: float, y: float, words: str, more: str = "") -> str:
    words = words.replace("&", "&amp;").replace("<", "&lt;")
    return f'<text x="{x:g}" y="{y:g}"{more}>{words}</text>'


def size_name(size: int) -> str:
    return f"{size // 2**20} MiB" if size >= 2**20 else f"{size // 1024} KiB"


def height_of(size: int) -> int:
    """How high a stem is: a step for each doubling from the least size on."""
    share = math.log2(max(size, LEAST) / LEAST) / math.log2(MOST / LEAST)
    return max(1, round(HEIGHT * share)) if size else 0


def columns(values: Sequence[int]) -> list[Sequence[int]]:
    """The values by the column in which they are drawn; each has one at least."""
    count = min(WIDTH, len(values))
    return [values[i * len(values) // count : (i + 1) * len(values) // count] for i in range(count)]


def scale(y: float, height: float, label: str) -> list[str]:
    at = y + HEIGHT - height
    return [f'<path d="M{LEFT} {at:g}h{WIDTH}" stroke="#ccc" stroke-dasharray="4 3"/>', text(LEFT - 6, at + 4, label, ' text-anchor="end"')]


def stems(merged: Merged, y: int) -> list[str]:
    """The greatest of each column, on a scale that doubles."""
    out = [text(LEFT, y - 8, merged.title(), f' fill="{merged.colour}"')]
    for size in (4096, 16384, 65536, 262144, 1048576):
        out += scale(y, height_of(size), size_name(size))
    columned = columns(merged.bytes)
    step = WIDTH / len(columned)
    path = "".join(f"M{LEFT + (i + 0.5) * step:.4g} {y + HEIGHT}v-{height_of(max(column))}" for i, column in enumerate(columned) if max(column))
    return [*out, f'<path d="{path}" stroke="{merged.colour}" stroke-width="{max(1, step):g}"/>', f'<path d="M{LEFT} {y + HEIGHT}h{WIDTH}" stroke="#666"/>']


def sums(all_merged: Sequence[Merged], y: int) -> list[str]:
    """All bytes merged until each write, on a plain scale."""
    most = max(1, *(sum(merged.bytes) for merged in all_merged))
    out = [text(LEFT, y - 8, "all bytes merged so far")]
    for part in (0, most / 2, most):
        out += scale(y, HEIGHT * part / most, f"{part / 2**20:.1f} MiB")
    for place, merged in enumerate(all_merged):
        columned, total, at = columns(merged.bytes), 0, y + HEIGHT
        path = f"M{LEFT} {at}"
        for i, column in enumerate(columned):
            total += sum(column)
            to = y + HEIGHT - round(HEIGHT * total / most)
            path += f"H{LEFT + i * WIDTH / len(columned):.4g}V{to}" if to != at else ""
            at = to
        out.append(f'<path d="{path}H{LEFT + WIDTH}" fill="none" stroke="{merged.colour}" stroke-width="1.5"/>')
        out.append(text(LEFT + 12, y + 20 + 16 * place, f"{merged.name}: {total:,}", f' fill="{merged.colour}"'))
    return out


def draw(all_merged: Sequence[Merged], heading: str) -> str:
    height = TOP + (len(all_merged) + 1) * (HEIGHT + GAP)
    size = f'width="{LEFT + WIDTH + 20}" height="{height}" viewBox="0 0 {LEFT + WIDTH + 20} {height}"'
    out = [f'<svg xmlns="http://www.w3.org/2000/svg" {size} font-family="sans-serif" font-size="12">', '<rect width="100%" height="100%" fill="white"/>']
    out.append(text(LEFT, 16, heading, ' fill="#444"'))
    y = TOP
    for merged in all_merged:
        out += stems(merged, y)
        y += HEIGHT + GAP
    out += sums(all_merged, y)
    y += HEIGHT + 16
    out += [text(LEFT, y, "write 1"), text(LEFT + WIDTH, y, f"write {len(all_merged[0].bytes):,}", ' text-anchor="end"'), "</svg>"]
    return "\n".join(out)


def main() -> None:
    words = argparse.ArgumentParser(description=__doc__, formatter_class=argparse.RawDescriptionHelpFormatter)
    words.add_argument("program")
    words.add_argument("folder")
    words.add_argument("--seed", type=int, default=7)
    words.add_argument("--count", type=int, default=20000)
    asked = words.parse_args()
    folder = Path(asked.folder).resolve()
    folder.mkdir(parents=True, exist_ok=True)
    generated = compare.generated(asked.seed, asked.count)
    script = folder / "script.txt"
    script.write_text(generated.dealt(1))
    program, _, leveldb = measuring.stores_of(measuring.builds(asked.program), measuring.runner_of_leveldb(folder), folder)
    pages, tables = of_program(program, script, folder), of_leveldb(leveldb, script, folder)
    if not len(pages) == len(tables) == generated.durable():
        sys.exit(f"the script has {generated.durable()} writes, the program appended {len(pages)} times, LevelDB wrote {len(tables)} times")
    heading = f"The generator's {asked.count:,} commands (seed {asked.seed}), one caller, no worker; LevelDB has a write buffer of {compare.GEOMETRY.high_mark:,} bytes"
    print(draw([Merged("blsm", pages, COLOURS[0]), Merged("LevelDB", tables, COLOURS[1])], heading))


if __name__ == "__main__":
    main()
