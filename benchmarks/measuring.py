"""What the measuring scripts share: stores in a folder, runs of scripts over them, what a run took, and which calls it made."""

from __future__ import annotations

import os
import platform
import re
import shutil
import subprocess
import sys
from abc import ABC, abstractmethod
from collections.abc import Iterator, Mapping, Sequence
from dataclasses import dataclass, field
from pathlib import Path

HERE = Path(__file__).resolve().parent
sys.path.insert(0, str(HERE.parent / "python"))
import blsm  # noqa: E402
import judge  # noqa: E402

GEOMETRY = judge.Geometry()  # as `make` takes it
ALL_TURNS = 100_000  # of one work: more than a merge of a whole store takes
CALLS = {
    "syncs": ("fsync", "fdatasync", "sync_file_range", "msync"),
    "writes": ("write", "pwrite64", "writev", "pwritev", "pwritev2"),
    "reads": ("read", "pread64", "readv", "preadv", "preadv2"),
}


# ---- scripts


def dealt(commands: Sequence[str], callers: int) -> str:
    """A script of the commands, which the callers do in turn."""
    return "".join(f"{i % callers + 1} {command}\n" for i, command in enumerate(commands))


def in_parts(commands: Sequence[str]) -> Iterator[list[str]]:
    """The commands, as many as one script of one caller may have at a time."""
    part: list[str] = []
    size = 0
    for command in commands:
        length = len(dealt([command], 1))
        if len(part) == blsm.MOST_LINES or size + length > blsm.MOST_BYTES:
            yield part
            part, size = [], 0
        part.append(command)
        size += length
    if part:
        yield part


def plain_map(script: str, text: str, before: Mapping[str, judge.Value], geometry: judge.Geometry = GEOMETRY) -> judge.Map:
    """The map after a history without first and last lines. Raises `Illegal` where a plain map could not have answered it."""
    lines = [re.sub(r" m\d+$", " q0", line) for line in text.splitlines()]
    entries = [judge.entry(line, place) for place, line in enumerate(lines, 1)]
    judge.check_order(script, entries)
    plain = judge.PlainMap(dict(before), geometry, 0, True)
    for entry in entries:
        plain.take(entry)
    return plain.store


# ---- stores


@dataclass
class Store(ABC):
    """A store of one kind in the folder. `path` is its file or its folder, `words` what runs a script over it."""

    name: str
    path: Path
    words: Sequence[str]
    counting: Sequence[str]  # words for the run under strace
    make: Sequence[str] = ()
    geometry: judge.Geometry = GEOMETRY
    workers: int = 0
    map_before: Mapping[str, judge.Value] = field(default_factory=dict)

    @property
    def kept(self) -> Path:
        return self.path.with_suffix(".kept")

    def empty(self) -> None:
        remove(self.path)
        if self.make:
            subprocess.run(self.make, stdout=subprocess.DEVNULL, check=True)

    def fill(self, filling: Sequence[str], folder: Path) -> None:
        """Makes the store that each run begins with."""
        self.empty()
        self.map_before = {}
        script = folder / "filling.txt"
        for part in in_parts(filling):
            script.write_text(dealt(part, 1))
            self.map_before = self.judged(script.read_text(), run(self.words, script))

    def keep(self) -> None:
        """Keeps a copy of the store as it is, for `again`."""
        remove(self.kept)
        if self.path.exists():
            copy(self.path, self.kept)

    def again(self) -> None:
        """The store as it was kept."""
        remove(self.path)
        if self.kept.exists():
            copy(self.kept, self.path)
            for file in self.path.iterdir() if self.path.is_dir() else [self.path]:
                sync(file)

    @abstractmethod
    def judged(self, script: str, text: str) -> judge.Map:
        """The map after a history. Raises `Illegal` where a plain map could not have answered it."""


class Blsm(Store):
    def judged(self, script: str, text: str) -> judge.Map:
        return judge.judge(script, text, self.map_before, self.geometry, self.workers)


class LevelDb(Store):
    def judged(self, script: str, text: str) -> judge.Map:
        return plain_map(script, text, self.map_before, self.geometry)


def remove(path: Path) -> None:
    if path.is_dir():
        shutil.rmtree(path)
    elif path.exists():
        path.unlink()


def copy(source: Path, target: Path) -> None:
    if source.is_dir():
        shutil.copytree(source, target)
    else:
        shutil.copyfile(source, target)


def sync(file: Path) -> None:
    """Makes a copy durable, so that no run pays for it."""
    opened = os.open(file, os.O_RDONLY)
    os.fsync(opened)
    os.close(opened)


def run(words: Sequence[str], script: Path) -> str:
    """What a run prints."""
    with open(script) as lines:
        return subprocess.run(words, stdin=lines, stdout=subprocess.PIPE, text=True, check=True).stdout


def compiled(name: str, folder: Path, libraries: Sequence[str] = ()) -> str:
    program = str(folder / name)
    subprocess.run(["g++", "-O2", "-o", program, str(HERE / f"{name}.cc"), *libraries], check=True)
    return program


def runner_of_leveldb(folder: Path) -> str:
    return compiled("leveldb_run", folder, ["-lleveldb", "-pthread"])


def version_of(runner: str) -> str:
    return run([runner, "--version"], Path(os.devnull)).strip()


def builds(program: str, beside: str | None = None) -> dict[str, str]:
    """The paths of the builds that are measured, by their names in a table."""
    named = {"blsm": program, "blsm, beside": beside}
    return {name: str(Path(path).resolve()) for name, path in named.items() if path}


def stores_of(programs: Mapping[str, str], leveldb: str, folder: Path, geometry: judge.Geometry = GEOMETRY, workers: int = 0) -> list[Store]:
    """A store of each build, and two of LevelDB: as it comes, and with a write buffer as large as a memory table. None is made yet."""
    stores: list[Store] = []
    sizes = [f"--{name}={size}" for name, size in vars(geometry).items()]
    for name, program in programs.items():
        file = folder / f"store{len(stores)}.blsm"
        words = [program, "run", "--workers", str(workers), str(file)]
        stores.append(Blsm(name, file, words, words, [program, "make", *sizes, str(file)], geometry, workers))
    for name, options in (("LevelDB", []), (f"LevelDB, buffer {geometry.high_mark:,}", ["--buffer", str(geometry.high_mark)])):
        path = folder / f"store{len(stores)}.leveldb"
        stores.append(LevelDb(name, path, [leveldb, *options, str(path)], [leveldb, "--count", *options, str(path)], geometry=geometry))
    return stores


# ---- measuring


@dataclass
class Calls:
    """Calls of a store's files, and the bytes of those that read or write."""

    syncs: int = 0
    writes: int = 0
    reads: int = 0
    written: int = 0
    read: int = 0

    def note(self, call: str, result: int) -> None:
        if call in CALLS["syncs"]:
            self.syncs += 1
        elif call in CALLS["writes"]:
            self.writes, self.written = self.writes + 1, self.written + result
        else:
            self.reads, self.read = self.reads + 1, self.read + result


BEGUN = re.compile(r"(\d+) +(\w+)\(\d+<([^>]*)>")
RESUMED = re.compile(r"(\d+) +<\.\.\. \w+ resumed>")
RESULT = re.compile(r"= (\d+)$")


def calls_of(lines: Iterator[str], path: Path) -> Calls:
    """Counts the lines of a trace. A call of one thread that another's comes into stands in two lines."""
    calls = Calls()
    begun: dict[str, str | None] = {}  # the call that each thread is in, where it is of the store's files
    for line in map(str.rstrip, lines):
        start, resumed, result = BEGUN.match(line), RESUMED.match(line), RESULT.search(line)
        if start:
            is_ours = start[3] == str(path) or start[3].startswith(f"{path}/")
            begun[start[1]] = start[2] if is_ours else None
        call = begun.get((start or resumed)[1]) if start or resumed else None
        if call and result:
            calls.note(call, int(result[1]))
    return calls


def counted(store: Store, script: Path, folder: Path) -> tuple[Calls, str]:
    trace = folder / "trace.txt"
    names = ",".join(name for names in CALLS.values() for name in names)
    text = run(["strace", "-f", "--seccomp-bpf", "-y", "-s", "0", "-o", str(trace), "-e", f"trace={names}", *store.counting], script)
    with open(trace) as lines:
        calls = calls_of(lines, store.path)
    trace.unlink()
    return calls, text


@dataclass(frozen=True)
class Took:
    """Seconds, and kilobytes at the peak."""

    wall: float
    user: float
    system: float
    peak: int

    @property
    def processor(self) -> float:
        return self.user + self.system


def took(measure: str, words: Sequence[str], script: Path, folder: Path) -> tuple[Took, str]:
    told = folder / "told.txt"
    text = run([measure, str(told), *words], script)
    wall, user, system, peak = told.read_text().split()
    return Took(float(wall), float(user), float(system), int(peak)), text


def least(runs: Sequence[Took]) -> Took:
    """The run that took the least of the processor."""
    return min(runs, key=lambda took: took.processor)


def replies(text: str) -> list[str]:
    """What each line of a history answers, without its quanta or merged bytes; of works nothing."""
    split = (line.split(" => ", 1) for line in text.splitlines() if " => " in line)
    return [re.sub(r" [qm]\d+$", "", answer) for asked, answer in split if asked.split(" ")[2] != "work"]


# ---- tables


def head_of(cells: Sequence[str]) -> str:
    return line_of(cells) + "\n" + line_of(["---"] * len(cells))


def line_of(cells: Sequence[str]) -> str:
    return f"| {' | '.join(cells)} |"


def machine(folder: Path) -> str:
    """The processors, the kernel and the folder's file system."""
    with open("/proc/cpuinfo") as lines:
        model = next((line.split(": ", 1)[1].strip() for line in lines if line.startswith("model name")), platform.machine())
    with open("/proc/mounts") as lines:
        mounts = [line.split(" ")[1:3] for line in lines]
    system = max((it for it in mounts if folder.is_relative_to(it[0])), key=lambda it: len(it[0]))[1]
    return f"{os.cpu_count()} processors ({model}), {platform.system()} {platform.release()}, {system}"
