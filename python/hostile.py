#!/usr/bin/env python3
"""Damages a store, refuses memory and fails calls under the built program, and judges what it answers then. It proves nothing.

    python3 python/hostile.py bytes crates/blsm/out/blsm FOLDER --sample 20000
    python3 python/hostile.py memory crates/blsm/out/blsm FOLDER
    python3 python/hostile.py calls crates/blsm/out/blsm FOLDER
    python3 python/hostile.py streams crates/blsm/out/blsm FOLDER
    python3 python/hostile.py sessions crates/blsm/out/blsm FOLDER

The store of all has all three components and records in both lanes. Files are made in FOLDER: in memory (/dev/shm) a sync costs nothing.

- bytes: a byte is changed, `check` must print what `reading.py` says of such a file, and each tenth time a run must answer the same or have the same map.
- memory: each request for memory, and each thread that is to be made, is refused in turn. The answer is status 10 with no line of a history and the same map as
  before, or a history that a plain map could have answered, in which a hold may have been refused. A trial answers status 10, or its text.
- calls: each call of the file in turn fails, alone (a write that fails may have written its first half) or with all behind it. The status is 7, a history is
  legal, and the file opens to a map that is allowed: each write that was answered `ok`, and the unsure one or not.
- Of a `make` of a new name, in memory and calls: the status is 7 (or 10), and there is no file then, or one that opens as a store without keys.
- streams: each read of the script and each write of the history in turn fails, or takes one byte. The status is 8 with nothing run, or 9 with a front of the
  text.
- sessions: the same of `serve`, and each call of the file. Where the source failed (8) the lines that came are done and told, and no other; where the sink
  failed (9) one line at most is done that isn't told.

`hostile.c` makes the calls fail: it is compiled by gcc, and stands between the program and the C library.
"""

from __future__ import annotations

import argparse
import bisect
import collections
import itertools
import os
import random
import re
import shutil
import struct
import subprocess
import sys
import time
from collections.abc import Callable, Iterable, Iterator, Sequence
from concurrent.futures import ProcessPoolExecutor
from dataclasses import dataclass
from pathlib import Path

import reading
from blsm import Store
from judge import Geometry, Illegal, Map, judge, maps_after_fronts, parse, write
from reading import Found, Unread

GEOMETRY = Geometry(half=17_408, ratio=2, low=4_096, quantum=1_024)
KEYS = 2500  # that scripts write
VALUES = 4  # to which each byte is changed
MOST_SECONDS = 120
MOST_CALLS = 100_000


# ---- the store


def make(program: str, path: Path) -> Store:
    return Store.make(path, GEOMETRY.half, GEOMETRY.ratio, GEOMETRY.low, GEOMETRY.quantum, [program])


def key(draw: random.Random) -> str:
    return f"key{draw.randrange(KEYS):04}"


def deep_script(draw: random.Random, lines: int) -> str:
    """Some keys that `work` brings to C2, and then writes that fill C1."""
    def text() -> str:
        return "t" * draw.randrange(1, draw.choice((8, 100, 435)))

    first = [f"1 put {key(draw)} 4 {text()}" for _ in range(100)]
    rest = [
        draw.choice((f"1 put {one} 5 {text()}", f"1 put {one} 6 {text()}", f"1 add {one} 7", f"1 tail {one} {text()[:64]}", f"1 del {one}"))
        for one in (key(draw) for _ in range(lines))
    ]
    return "".join(line + "\n" for line in [*first, "1 work 100000", *rest])


def has_all(found: Found) -> bool:
    """All components, pages that a deep merge has finished, and records in both lanes."""
    catalogue = found.catalogue
    has_pages = all(component.pages for component in catalogue.components) and catalogue.progress is not None
    return has_pages and len(found.lanes) == 2 and all(end > 200 for end in found.lanes.values())


def deep_store(program: str, path: Path, seed: int) -> Found:
    """Makes a store that a run left with all three components, finished pages of a deep merge, and records in both lanes."""
    for lines in range(1300, 3000, 9):
        path.unlink(missing_ok=True)
        store = make(program, path)
        store._call("run", ["--workers", "0"], deep_script(random.Random(seed), lines))
        found = reading.read(path.read_bytes())
        if has_all(found):
            return found
    raise Illegal(0, "no run left all three components")


def plain(found: dict[bytes, tuple[int, bytes]]) -> Map:
    return {key.decode("latin-1"): (count, text.decode("latin-1")) for key, (count, text) in found.items()}


# ---- the program


@dataclass(frozen=True)
class Ended:
    status: int
    text: bytes
    calls: int = 0
    failed: int = 0

    def __str__(self) -> str:
        return f"status {self.status}, {self.text[:200]!r}, {self.failed} of {self.calls} calls failed"


@dataclass(frozen=True)
class Failing:
    """Which calls of a kind fail: those from the first to the last one."""

    kind: str
    first: int
    last: int
    torn: bool = False

    def environment(self, library: Path, told: Path) -> dict[str, str]:
        return {
            "LD_PRELOAD": str(library),
            "HOSTILE_KIND": self.kind,
            "HOSTILE_FIRST": str(self.first),
            "HOSTILE_LAST": str(self.last),
            "HOSTILE_TORN": str(int(self.torn)),
            "HOSTILE_TOLD": str(told),
        }


def call(words: Sequence[str], script: bytes = b"", failing: Failing | None = None, library: Path = Path()) -> Ended:
    """Runs the program, and fails calls under it. Nothing but standard output may be written."""
    environment, told = dict(os.environ), Path(f"{library}.told")
    if failing:
        told.write_bytes(bytes(16))
        environment |= failing.environment(library, told)
    ended = subprocess.run(words, input=script, capture_output=True, check=False, timeout=MOST_SECONDS, env=environment)
    if ended.stderr:
        raise Illegal(0, f"it wrote to standard error: {ended.stderr[:300]!r}")
    calls, failed = struct.unpack("=QQ", told.read_bytes()) if failing else (0, 0)
    return Ended(ended.returncode, ended.stdout, calls, failed)


def compile_library(folder: Path) -> Path:
    library = folder / "hostile.so"
    subprocess.run(["gcc", "-O1", "-shared", "-fPIC", "-o", str(library), str(Path(__file__).with_suffix(".c")), "-ldl"], check=True)
    return library


def contents(program: str, path: Path) -> Map:
    return {row.key: (row.count, row.text) for row in Store.open(path, [program]).rows()}


# ---- bytes


def places_by_kind(found: Found) -> dict[str, list[range]]:
    """All places of the file, by what stands there."""
    sizes, live = found.sizes, found.pages
    slots = [range(slot, slot + reading.SLOT) for slot in reading.SLOTS]
    regions = [range(begin, begin + sizes.region) for begin in (reading.REGIONS + sizes.region * i for i in range(3))]
    lanes = {begin: range(begin, begin + end) for begin, end in found.lanes.items()}
    pages = (sizes.page_at(i) for i in range(sizes.pages))
    return {
        "superblock": [range(reading.SUPERBLOCK)],
        "slots": slots,
        "head": [range(reading.SUPERBLOCK, slots[0].start), range(slots[0].stop, slots[1].start), range(slots[1].stop, reading.REGIONS)],
        "lanes": [*lanes.values()],
        "behind lanes": [range(lanes[region.start].stop, region.stop) if region.start in lanes else region for region in regions],
        "heads of pages": [range(page, page + 8) for page in live],
        "entries of pages": [range(page + 8, page + 8 + used) for page, used in live.items()],
        "ends of pages": [range(page + 8 + used, page + reading.PAGE) for page, used in live.items()],
        "free pages": [range(page, page + reading.PAGE) for page in pages if page not in live],
    }


# in percent of a sample; more than there are takes all
SHARES = {
    "superblock": 5,
    "slots": 20,
    "head": 2,
    "lanes": 20,
    "behind lanes": 5,
    "heads of pages": 8,
    "entries of pages": 28,
    "ends of pages": 7,
    "free pages": 5,
}


def drawn(draw: random.Random, ranges: list[range], count: int) -> list[int]:
    """So many places of these ranges, or all."""
    ends = [*itertools.accumulate(map(len, ranges))]
    total = ends[-1] if ends else 0
    if total == 0:
        return []
    found = []
    for number in draw.sample(range(total), min(count, total)):
        at = bisect.bisect_right(ends, number)
        found.append(ranges[at].stop - (ends[at] - number))
    return found


def sample(draw: random.Random, kinds: dict[str, list[range]], count: int) -> list[int]:
    """So many places, some of each kind; what kinds leave of their shares is filled up."""
    taken = [at for kind, ranges in kinds.items() for at in drawn(draw, ranges, -(-count * SHARES[kind] // 100))]
    for kind in ("entries of pages", "free pages"):
        met = {*taken}
        taken += [at for at in drawn(draw, kinds[kind], count) if at not in met][: max(0, count - len(taken))]
    return sorted(taken[:count])


def values(draw: random.Random, old: int) -> list[int]:
    """The values to which a byte is changed: those of a gate, the greatest, a near one, any."""
    found = [value for value in (0, 1, 255, old ^ 1) if value != old]
    while len({*found}) < VALUES:
        found.append(draw.randrange(256))
        found = [value for value in found if value != old]
    return list(dict.fromkeys(found))[:VALUES]


def expected(file: bytes | bytearray) -> tuple[int, str, Found | None]:
    """What `check` must answer of a file."""
    try:
        found = reading.read(file)
    except Unread as why:
        return why.status, why.line + "\n", None
    return 0, found.report, found


def is_visible(found: dict[bytes, tuple[int, bytes]]) -> bool:
    return all(33 <= byte <= 126 for key, (_, text) in found.items() for byte in key + text)


LOW, HIGH = b"!", b"~~~~"


def lookups(draw: random.Random, found: dict[bytes, tuple[int, bytes]]) -> list[tuple[bytes, bytes]]:
    """Lookups, and what a plain map answers: some keys, and all rows."""
    def spelled(value: tuple[int, bytes]) -> bytes:
        return b"%d %s" % (value[0], value[1] or b"-")

    asked = [key(draw).encode("ascii") for _ in range(8)]
    lines = [(b"get " + key, b"is " + spelled(found[key]) if key in found else b"none") for key in asked]
    rows = [b" %s %s" % (key, spelled(found[key])) for key in sorted(found) if LOW <= key < HIGH]
    parts = [rows[i : i + 32] for i in range(0, len(rows) + 1, 32)]
    return [*lines, (b"hold %s %s" % (LOW, HIGH), b"held"), *((b"next 32", b"rows %d" % len(part) + b"".join(part)) for part in parts)]


FRAME = re.compile(rb"(?s)open charge \d+\n(.*)end c0 \d+ of \d+ callers 0 workers 0 swaps \d+ \d+\n")


def check_run(program: str, path: Path, draw: random.Random, wanted: tuple[int, str, Found | None]) -> str:
    """A run over the file answers as a check does, or each lookup by the map. It tells whether Python's judge could read the text."""
    status, line, found = wanted
    asked = lookups(draw, found.map if found else {})
    script = b"".join(b"1 %s\n" % command for command, _ in asked)
    before = path.read_bytes()
    ended = call([program, "run", "--workers", "0", "--", str(path)], script)
    if not found:
        if (ended.status, ended.text.decode("latin-1")) != (status, line) or path.read_bytes() != before:
            raise Illegal(0, f"a run answers otherwise than a check or writes: {ended}")
        return "refused"
    frame = FRAME.fullmatch(ended.text)
    if ended.status or not frame or frame[1] != b"".join(b"%d 1 %s => %s q0\n" % (i, *pair) for i, pair in enumerate(asked, 1)):
        raise Illegal(0, f"a run doesn't answer by the map: {ended}")
    try:
        judge(script.decode("ascii"), ended.text.decode("ascii"), plain(found.map), GEOMETRY, 0)
    except (Illegal, UnicodeDecodeError):
        if is_visible(found.map):
            raise
        return "run, with a key or text of other bytes than visible ASCII, which `judge.py` can't read"
    return "run"


Change = tuple[int, int]


def try_changes(program: str, original: Path, copy: Path, changes: Sequence[Change], seed: int, each: int) -> collections.Counter[str]:
    """Makes these changes, one at a time, in a copy of the file."""
    draw = random.Random(seed)
    file = bytearray(original.read_bytes())
    shutil.copyfile(original, copy)
    whole = reading.read(file)
    told: collections.Counter[str] = collections.Counter()
    for count, (at, value) in enumerate(changes):
        old, file[at] = file[at], value
        patch(copy, at, value)
        wanted = expected(file)
        try:
            ended = call([program, "check", "--", str(copy)])
            if (ended.status, ended.text.decode("ascii")) != wanted[:2]:
                raise Illegal(0, f"a check must answer {wanted[:2]}: {ended}")
            told[outcome(wanted, whole)] += 1
            if count % each == 0:
                told["run: " + check_run(program, copy, draw, wanted)] += 1
                shutil.copyfile(original, copy)
        except (Illegal, UnicodeDecodeError, subprocess.TimeoutExpired) as why:
            raise Illegal(0, f"byte {at} changed from {old} to {value}: {why}") from None
        file[at] = old
        patch(copy, at, old)
    return told


def patch(path: Path, at: int, value: int) -> None:
    with path.open("r+b", buffering=0) as file:
        file.seek(at)
        file.write(bytes([value]))


def outcome(wanted: tuple[int, str, Found | None], whole: Found) -> str:
    """The kind of an answer, for the sums."""
    status, line, found = wanted
    if found:
        return "0 with the same map" if found.map == whole.map else "0 with another map"
    return f"{status} " + re.sub(r" \d+$", "", line.strip())


def try_bytes(program: str, folder: Path, count: int, seed: int, processes: int, each: int) -> str:
    draw = random.Random(seed)
    original = folder / "whole.blsm"
    found = deep_store(program, original, seed)
    file = original.read_bytes()
    changes = [(at, value) for at in sample(draw, places_by_kind(found), count // VALUES) for value in values(draw, file[at])]
    draw.shuffle(changes)
    told: collections.Counter[str] = collections.Counter()
    with ProcessPoolExecutor(processes) as pool:
        parts = [pool.submit(try_changes, program, original, folder / f"copy{i}.blsm", changes[i::processes], seed + i, each) for i in range(processes)]
        for part in parts:
            told += part.result()
    sums = ", ".join(f"{count} times {what}" for what, count in sorted(told.items()))
    return f"{len(changes)} changes of {len(file)} bytes ({found.report.strip()}): {sums}"


# ---- refused memory, failing calls, failing streams


@dataclass(frozen=True)
class Case:
    """A command, and what it is given: a copy of the store, the name of no file, or no name."""

    words: tuple[str, ...]
    script: str
    workers: int = 0
    given: str = "copy"


CALLERS = 16

PUTS = [f"put a{i:03} {i} text{i}" for i in range(80)]
# the last of them begins a pass, which has the others on a finished page when they are held
PAGE = [f"put a9{i:02} {i} {'p' * 400}" for i in range(8)]
FIRST_HOLD = [*PUTS[:40], *PAGE, "hold a b", "next 1"]
SECOND_HOLD = [*PUTS[40:], "put a000 9 -", "hold a z", "next 2", "next 32", "next 32", "get a000", "drop", "next 1"]
# writes that look first: in the memory table, and at keys some of which the components have, by their counts and by others
CONDITIONS = ["new a000 1 -", "swap a000 9 10 -", "swap a000 9 11 -", "new b000 1 -"]
CONDITIONS += [f"{asked} key{i:04} {rest}" for i in range(0, KEYS, 250) for asked, rest in (("new", "3 n"), ("swap", "5 6 s"))]
HOLDS = "".join(f"1 {line}\n" for line in [*FIRST_HOLD, *SECOND_HOLD, *CONDITIONS])


def many_callers(draw: random.Random, lines: int) -> str:
    """Writes and lookups of all callers at keys that the store has and at others."""
    def line(caller: int) -> str:
        one, kind = key(draw), draw.randrange(17)
        text = "t" * draw.randrange(1, 300)
        if kind < 5:
            return f"{caller} put {one} {kind} {text}"
        if kind > 12:
            return f"{caller} new {one} 4 {text}" if kind < 15 else f"{caller} swap {one} {draw.choice((4, 5, 6))} 4 {text}"
        words = f"add {one} {kind}", f"tail {one} {chr(97 + caller) * draw.randrange(1, 65)}", f"del {one}", f"get {one}", f"get {one}", f"hold {one} z", "next 4", "work 3"
        return f"{caller} {words[kind - 5]}"

    return "".join(line(i % CALLERS + 1) + "\n" for i in range(lines))


def allowed_maps(script: str, text: str, before: Map, workers: int) -> list[Map]:
    """What a file may hold behind a history that is legal: a write that was answered `fault unsure` or not."""
    after = judge(script, text, before, GEOMETRY, workers)
    maps = [after]
    for entry in parse(text).entries:
        if entry.reply == "fault unsure":
            maps.append(dict(after))
            write(maps[-1], entry.words)
    return maps


class Bench:
    """A store, and calls of the program over copies of it."""

    def __init__(self, program: str, folder: Path, seed: int) -> None:
        self.program, self.folder = program, folder
        self.whole, self.copy = folder / "whole.blsm", folder / "copy.blsm"
        self.found = deep_store(program, self.whole, seed)
        self.map = plain(self.found.map)
        self.library = compile_library(folder)

    def over_a_copy(self, case: Case, failing: Failing) -> Ended:
        self.copy.unlink(missing_ok=True)
        if case.given == "copy":
            shutil.copyfile(self.whole, self.copy)
        name = () if case.given == "nothing" else ("--", str(self.copy))
        return call([self.program, *case.words, *name], case.script.encode("ascii"), failing, self.library)

    def must_hold(self, maps: Iterable[Map]) -> None:
        if contents(self.program, self.copy) not in [*maps]:
            raise Illegal(0, "the file holds another map when it is opened again")

    def judge_whole(self, case: Case, ended: Ended) -> None:
        """What is right where nothing failed, or only a hold was refused."""
        if case.words[0] == "check":
            if ended.text.decode("ascii") != self.found.report:
                raise Illegal(0, f"it isn't the store's report: {ended}")
            self.must_hold([self.map])
        else:
            self.must_hold(allowed_maps(case.script, ended.text.decode("ascii"), self.map, case.workers))


def sweep(bench: Bench, case: Case, kind: str, judged: Callable[[Bench, Case, Ended], str], how: str) -> collections.Counter[str]:
    """Fails each call in turn, until a run makes fewer."""
    told: collections.Counter[str] = collections.Counter()
    for number in range(1, MOST_CALLS):
        failing = Failing(kind, number, MOST_CALLS if how == "and after" else number, how == "torn")
        try:
            ended = bench.over_a_copy(case, failing)
            told[judged(bench, case, ended)] += 1
        except (Illegal, UnicodeDecodeError, subprocess.TimeoutExpired) as why:
            raise Illegal(0, f"{' '.join(case.words)}, {kind} {number} {how}: {why}") from None
        if not ended.failed:
            return told
    raise Illegal(0, "it makes calls without end")


def judge_memory(bench: Bench, case: Case, ended: Ended) -> str:
    if ended.status == 10:
        if ended.text != b"no memory\n" or not ended.failed:
            raise Illegal(0, f"no memory was refused, or more was printed: {ended}")
        bench.must_hold([bench.map])
        return "status 10"
    if ended.status != 0:
        raise Illegal(0, f"{ended}")
    bench.judge_whole(case, ended)
    return "nothing refused" if not ended.failed else "a hold refused" if b"=> no memory q0\n" in ended.text else "done all the same"


def judge_calls(bench: Bench, case: Case, ended: Ended) -> str:
    if ended.status != (7 if ended.failed else 0):
        raise Illegal(0, f"{ended}")
    if not ended.failed:
        bench.judge_whole(case, ended)
        return "nothing failed"
    if ended.text == b"disk fault\n":
        bench.must_hold([bench.map])
        return "disk fault"
    text = ended.text.decode("ascii")
    bench.must_hold(allowed_maps(case.script, text, bench.map, case.workers))
    return "a history with an unsure write" if "=> fault unsure " in text else "a history"


MADE = f"made {reading.Sizes(GEOMETRY.half, GEOMETRY.ratio, GEOMETRY.low, GEOMETRY.quantum).length}\n".encode()
NOT_MADE = {(7, b"disk fault\n"), (10, b"no memory\n")}


def judge_make(bench: Bench, case: Case, ended: Ended) -> str:
    """A store without keys, or, where a call or memory was refused, no file."""
    is_made = (ended.status, ended.text) == (0, MADE)
    if not is_made and not (ended.failed and (ended.status, ended.text) in NOT_MADE):
        raise Illegal(0, f"{ended}")
    if is_made or bench.copy.exists():
        bench.must_hold([{}])
    return f"status {ended.status}" if ended.failed else "nothing refused"


def judge_trial(text: bytes) -> Callable[[Bench, Case, Ended], str]:
    def judged(bench: Bench, case: Case, ended: Ended) -> str:
        if ended.failed and (ended.status, ended.text) == (10, b"no memory\n"):
            return "status 10"
        if (ended.status, ended.text) != (0, text):
            raise Illegal(0, f"{ended}")
        return "done all the same" if ended.failed else "nothing refused"

    return judged


def judge_source(bench: Bench, case: Case, ended: Ended) -> str:
    if ended.failed and ended.status == 8 and ended.text == b"source fault\n":
        bench.must_hold([bench.map])
        return "status 8"
    if ended.status:
        raise Illegal(0, f"{ended}")
    bench.judge_whole(case, ended)
    return "one byte taken" if ended.failed else "nothing failed"


def judge_sink(text: bytes) -> Callable[[Bench, Case, Ended], str]:
    def judged(bench: Bench, case: Case, ended: Ended) -> str:
        maps = allowed_maps(case.script, text.decode("ascii"), bench.map, case.workers)
        if ended.failed and ended.status == 9 and text.startswith(ended.text) and ended.text != text:
            bench.must_hold(maps)
            return "status 9 with a front of the text"
        if ended.status or ended.text != text:
            raise Illegal(0, f"{ended}")
        bench.must_hold(maps)
        return "one byte taken" if ended.failed else "nothing failed"

    return judged


def judge_session_source(bench: Bench, case: Case, ended: Ended) -> str:
    """What came before the source failed is done and told, and nothing else is."""
    text = ended.text.decode("ascii")
    if not ended.failed or ended.status != 8:
        return judge_source(bench, case, ended)
    if not text.endswith("\nsource fault\n"):
        raise Illegal(0, f"{ended}")
    history = text.removesuffix("source fault\n")
    done = case.script.splitlines(keepends=True)[: len(parse(history).entries)]
    bench.must_hold(allowed_maps("".join(done), history, bench.map, 0))
    return "status 8 behind a history"


def judge_session_sink(text: bytes) -> Callable[[Bench, Case, Ended], str]:
    """One command at most is done that isn't told, and none before the first line is out."""
    def judged(bench: Bench, case: Case, ended: Ended) -> str:
        if not (ended.failed and ended.status == 9 and text.startswith(ended.text) and ended.text != text):
            return judge_sink(text)(bench, case, ended)
        told = ended.text.count(b"\n") - 1
        fronts = [*maps_after_fronts(parse(text.decode("ascii")).entries, bench.map)]
        bench.must_hold(fronts[max(told, 0) : told + 2])
        return "status 9 behind a front of the history"

    return judged


def sums(what: str, told: collections.Counter[str]) -> str:
    return f"{what}: " + ", ".join(f"{count} times {kind}" for kind, count in sorted(told.items()))


def run_case(script: str, workers: int = 0) -> Case:
    return Case(("run", "--workers", str(workers)), script, workers)


def session_case(script: str) -> Case:
    return Case(("serve",), script)


CHECK = Case(("check",), "")
GEOMETRY_WORDS = [f"--{name}={getattr(GEOMETRY, name)}" for name in ("half", "ratio", "low", "quantum")]
MAKE = Case(("make", *GEOMETRY_WORDS), "", given="a new name")
TRIAL = Case(("trial", "--seed", "7", "--count", "50"), "", given="nothing")


def try_memory(program: str, folder: Path, seed: int) -> Iterator[str]:
    bench, draw = Bench(program, folder, seed), random.Random(seed)
    cases = {"check": CHECK, "run of holds": run_case(HOLDS), "run of sixteen callers and two workers": run_case(many_callers(draw, 96), 2)}
    for name, case in cases.items():
        yield sums(name, sweep(bench, case, "memory", judge_memory, "alone"))
    yield sums("make", sweep(bench, MAKE, "memory", judge_make, "alone"))
    text = bench.over_a_copy(TRIAL, Failing("memory", 0, 0)).text
    yield sums("trial", sweep(bench, TRIAL, "memory", judge_trial(text), "alone"))


def try_calls(program: str, folder: Path, seed: int, lines: int) -> Iterator[str]:
    bench, draw = Bench(program, folder, seed), random.Random(seed)
    cases = {"check": CHECK, "run of holds": run_case(HOLDS), "run of sixteen callers and two workers": run_case(many_callers(draw, lines), 2)}
    for name, case in cases.items():
        for how in ("alone", "torn", "and after"):
            yield sums(f"{name}, {how}", sweep(bench, case, "device", judge_calls, how))
    for how in ("alone", "torn", "and after"):
        yield sums(f"make, {how}", sweep(bench, MAKE, "device", judge_make, how))


def try_streams(program: str, folder: Path, seed: int) -> Iterator[str]:
    bench, draw = Bench(program, folder, seed), random.Random(seed)
    long = run_case("".join(f"1 get {key(draw)}\n" for _ in range(2_000)))
    short = run_case(HOLDS)
    text = bench.over_a_copy(short, Failing("sink", 0, 0)).text
    for how in ("alone", "torn"):
        yield sums(f"source, {how}", sweep(bench, long, "source", judge_source, how))
        yield sums(f"sink, {how}", sweep(bench, short, "sink", judge_sink(text), how))


def try_sessions(program: str, folder: Path, seed: int) -> Iterator[str]:
    bench, draw = Bench(program, folder, seed), random.Random(seed)
    long = session_case("".join(f"1 get {key(draw)}\n" for _ in range(2_000)))
    short = session_case(HOLDS)
    text = bench.over_a_copy(short, Failing("sink", 0, 0)).text
    for how in ("alone", "torn"):
        yield sums(f"source, {how}", sweep(bench, long, "source", judge_session_source, how))
        yield sums(f"sink, {how}", sweep(bench, short, "sink", judge_session_sink(text), how))
    for how in ("alone", "torn", "and after"):
        yield sums(f"calls of the file, {how}", sweep(bench, short, "device", judge_calls, how))


def main() -> None:
    parser = argparse.ArgumentParser(description="Damages a store, refuses memory and fails calls under the built program, and judges its answers.")
    commands = parser.add_subparsers(dest="command", required=True)
    for name in ("bytes", "memory", "calls", "streams", "sessions"):
        command = commands.add_parser(name)
        command.add_argument("program")
        command.add_argument("folder", type=Path)
        command.add_argument("--seed", type=int, default=7)
        if name == "bytes":
            command.add_argument("--sample", type=int, default=20_000)
            command.add_argument("--processes", type=int, choices=(1, 2), default=1)
            command.add_argument("--run-each", type=int, default=10, help="a run after so many checks")
        if name == "calls":
            command.add_argument("--lines", type=int, default=96)
    args = parser.parse_args()
    began = time.monotonic()
    args.folder.mkdir(parents=True, exist_ok=True)
    if args.command == "bytes":
        print(try_bytes(args.program, args.folder, args.sample, args.seed, args.processes, args.run_each))
    else:
        more = (args.lines,) if args.command == "calls" else ()
        tried = {"memory": try_memory, "calls": try_calls, "streams": try_streams, "sessions": try_sessions}[args.command]
        for line in tried(args.program, args.folder, args.seed, *more):
            print(line, flush=True)
    print(f"{time.monotonic() - began:.0f} seconds")


if __name__ == "__main__":
    try:
        main()
    except Illegal as why:
        sys.exit(f"illegal: {why}")
