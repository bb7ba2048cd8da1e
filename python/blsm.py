"""A store, opened by its path. Each call runs the built program (`crates/blsm/out/blsm`, or what the environment's BLSM names); nothing here writes the file.

    store = Store.make("/tmp/fruit.blsm")          # or Store.open, of one that is there
    store.add("apple", 3)
    store.tail("apple", "ripe")
    store.get("apple")                             # Value(count=3, text='ripe')
    store.new("apple", 1)                          # False: it is there
    store.swap("apple", 3, 4, "ripe")              # True: its count was 3
    run = store.run({1: [Put("pear", 5, "green"), Get("pear")], 2: [Add("plum", 7)]}, workers=2)
    run.replies(1)                                 # [Done(), Is(count=5, text='green')]
    list(store.rows("a", "q"))                     # of one moment
    with store.live() as live: ...                 # many commands, each answered before the next one: see live.py

A batch is some commands of each caller, 1 to 16. Each caller's are done in their order; how callers come between one another is the threads' business, and
`run.entries` has the order in which they took effect. A reply is a value of one of the classes below `Reply`. A call of the program that is refused raises
one of the classes below `Refused`, and a reply that is a refusal does where its value is asked for; `advice` says what a person does then.
"""

from __future__ import annotations

import os
import re
import subprocess
from collections.abc import Iterable, Iterator, Mapping, Sequence
from dataclasses import dataclass
from pathlib import Path
from typing import TYPE_CHECKING

if TYPE_CHECKING:
    from live import Live

CALLERS = 16
LEAST_KEY = "!"
GREATEST_KEY = "~" * 64
MOST_COUNT = 2**64 - 1
MOST_LINES = 65_536
MOST_BYTES = 8_388_608
MOST_ROWS = 32  # of one `next`
MOST_NEXTS = 131_072 // MOST_ROWS  # of one script
PROGRAM = Path(__file__).resolve().parent.parent / "crates" / "blsm" / "out" / "blsm"


# ---- refusals


class BlsmError(Exception):
    """What was asked for was not done, or not wholly. `advice` says what a person does, `entries` what of a live store's batch was answered before."""

    advice = "Look at the program's output."
    entries: Sequence[Entry] = ()


class Refused(BlsmError):
    """The program ended with a status that isn't 0. `line` is what it wrote, `run` the history where it wrote one: what it tells was done."""

    def __init__(self, line: str, run: Run | None = None) -> None:
        super().__init__(f"{line or 'no line'}: {self.advice}")
        self.line, self.run = line, run


class Usage(Refused):
    advice = "The words were refused: see the table of commands; the low mark is at most the half spring."


class BadLine(Refused):
    advice = "A line is outside the grammar or past a limit, and nothing was done: mend it."


class TooBig(Refused):
    advice = "The script has more than 8,388,608 bytes, and nothing was done: run it in parts."


class NotAStore(Refused):
    advice = "Is it the right file? A `make` that was killed leaves a part: look, remove it, and make it again."


class NotEmpty(Refused):
    advice = "The file has bytes already: take another name, or remove the part that a killed `make` left."


class Damaged(Refused):
    advice = "A place of the file isn't of the written form: keep a copy, and load a dump into a new store."


class DiskFault(Refused):
    advice = (
        "The file could not be had (is it there? is another run using it? may its folder be read?), or a call of it failed. Where a sync failed the system may "
        "keep pages that the device doesn't have: don't trust what a read gives before the machine was restarted."
    )


class SourceFault(Refused):
    advice = "The script could not be read, and nothing was done: run it again."


class SinkFault(Refused):
    advice = "The output could not be written; what was asked for may be done: check, and look before it is run again."


class NoMemory(Refused):
    advice = "Memory was refused before the first command: free some, or run fewer lines."


class NoRoom(Refused):
    advice = "A line's caller has no room for it, and it isn't done: open the store again, and send it again."


class Killed(Refused):
    advice = "The program was ended from outside: open the store again; it has a front of what was asked for."


class Unreadable(BlsmError):
    """The program wrote what it never writes over a file that nobody else wrote."""

    advice = "Is it the program that this module belongs to? Or a byte of a key or a text was changed in the file: restore a dump."


class NotDone(BlsmError):
    """A reply is a refusal. `reply` says which."""

    def __init__(self, reply: Reply) -> None:
        super().__init__(f"{reply}: {reply.advice}")
        self.reply, self.advice = reply, reply.advice


STATUSES: Mapping[int, type[Refused]] = {
    1: Usage,
    2: BadLine,
    3: TooBig,
    4: NotAStore,
    5: NotEmpty,
    6: Damaged,
    7: DiskFault,
    8: SourceFault,
    9: SinkFault,
    10: NoMemory,
    11: NoRoom,
}


def refusal_of(status: int, line: str, run: Run | None = None) -> Refused:
    """The refusal of a program that ended with a status and wrote this line."""
    return STATUSES.get(status, Killed if status < 0 else Refused)(line, run)


# ---- keys, values, commands


def check_key(key: str) -> str:
    """A key has 1 to 64 visible ASCII characters."""
    if not re.fullmatch(r"[!-~]{1,64}", key):
        raise ValueError(f"{key!r} is no key: 1 to 64 visible ASCII characters")
    return key


def check_text(text: str) -> str:
    """A text has 0 to 435 visible ASCII characters; that of one dash alone can't be spelled. Answers how it is spelled."""
    if text == "-" or not re.fullmatch(r"[!-~]{0,435}", text):
        raise ValueError(f"{text!r} is no text: at most 435 visible ASCII characters, and no dash alone")
    return text or "-"


def check_tail(tail: str) -> str:
    """A tail has 1 to 64 visible ASCII characters, and isn't one dash alone."""
    if tail == "-" or not re.fullmatch(r"[!-~]{1,64}", tail):
        raise ValueError(f"{tail!r} is no tail: 1 to 64 visible ASCII characters, and no dash alone")
    return tail


def check_number(number: int, most: int = MOST_COUNT, least: int = 0) -> int:
    if not least <= number <= most:
        raise ValueError(f"{number} isn't from {least} to {most}")
    return number


@dataclass(frozen=True)
class Value:
    count: int
    text: str = ""


@dataclass(frozen=True)
class Row:
    key: str
    count: int
    text: str = ""

    def line(self) -> str:
        return f"{check_key(self.key)} {check_number(self.count)} {check_text(self.text)}"

    @staticmethod
    def of_line(line: str) -> Row:
        key, count, text = line.split(" ")
        return Row(key, int(count), "" if text == "-" else text)


class Command:
    """One command of a caller. `line` is how a script spells it, behind the caller."""

    def line(self) -> str:
        raise NotImplementedError


@dataclass(frozen=True)
class Put(Command):
    key: str
    count: int
    text: str = ""

    def line(self) -> str:
        return f"put {check_key(self.key)} {check_number(self.count)} {check_text(self.text)}"


@dataclass(frozen=True)
class Add(Command):
    """Adds modulo 2^64; an absent key becomes this count with an empty text."""

    key: str
    count: int

    def line(self) -> str:
        return f"add {check_key(self.key)} {check_number(self.count)}"


@dataclass(frozen=True)
class Tail(Command):
    """Puts a tail behind the text, of which the last 64 characters stay; an absent key becomes the count 0 with this text."""

    key: str
    tail: str

    def line(self) -> str:
        return f"tail {check_key(self.key)} {check_tail(self.tail)}"


@dataclass(frozen=True)
class New(Command):
    """Puts where the key is absent."""

    key: str
    count: int
    text: str = ""

    def line(self) -> str:
        return f"new {check_key(self.key)} {check_number(self.count)} {check_text(self.text)}"


@dataclass(frozen=True)
class Swap(Command):
    """Puts where the key is present with the old count; texts aren't compared."""

    key: str
    old: int
    count: int
    text: str = ""

    def line(self) -> str:
        return f"swap {check_key(self.key)} {check_number(self.old)} {check_number(self.count)} {check_text(self.text)}"


@dataclass(frozen=True)
class Del(Command):
    key: str

    def line(self) -> str:
        return f"del {check_key(self.key)}"


@dataclass(frozen=True)
class Get(Command):
    key: str

    def line(self) -> str:
        return f"get {check_key(self.key)}"


@dataclass(frozen=True)
class Hold(Command):
    """Holds the rows from low on, without high, as they are when it is done."""

    low: str
    high: str

    def line(self) -> str:
        return f"hold {check_key(self.low)} {check_key(self.high)}"


@dataclass(frozen=True)
class Next(Command):
    rows: int

    def line(self) -> str:
        return f"next {check_number(self.rows, MOST_ROWS, 1)}"


@dataclass(frozen=True)
class Drop(Command):
    def line(self) -> str:
        return "drop"


@dataclass(frozen=True)
class Work(Command):
    """Turns of merging, until nothing is left to do."""

    turns: int

    def line(self) -> str:
        return f"work {check_number(self.turns, 100_000, 1)}"


# ---- replies


class Reply:
    """One command's reply."""

    advice = ""

    def need(self) -> Reply:
        """This reply, where it is no refusal."""
        if self.advice:
            raise NotDone(self)
        return self


@dataclass(frozen=True)
class Done(Reply):
    """It was taken; a write is durable."""


@dataclass(frozen=True)
class Is(Reply):
    count: int
    text: str


@dataclass(frozen=True)
class Absent(Reply):
    pass


@dataclass(frozen=True)
class Kept(Reply):
    """The condition of a new or a swap doesn't hold, and nothing changed: this is the key's value, if it has one."""

    value: Value | None


@dataclass(frozen=True)
class Held(Reply):
    pass


@dataclass(frozen=True)
class Rows(Reply):
    rows: tuple[Row, ...]


@dataclass(frozen=True)
class NoHold(Reply):
    advice = "The caller holds nothing: hold a range first."


@dataclass(frozen=True)
class Did(Reply):
    turns: int


@dataclass(frozen=True)
class Full(Reply):
    """Nothing changed."""

    charge: int
    advice = "The store is full: delete, work, and write again, or load a dump into a larger one."


@dataclass(frozen=True)
class HoldRefused(Reply):
    """Memory was refused; an earlier hold stays."""

    advice = "Memory was refused for the hold: drop others, and ask again."


@dataclass(frozen=True)
class WriteFailed(Reply):
    """A call of the file failed, and the store stopped. Where it is unsure the write may be in the file."""

    is_unsure: bool
    advice = "A call of the file failed: open the store again, and look whether the write is there where it is unsure."


@dataclass(frozen=True)
class Failed(Reply):
    advice = "A call of the file failed: a lookup, a new or a swap may be asked again, after a work the store is stopped."


@dataclass(frozen=True)
class PageDamaged(Reply):
    page: int
    advice = "A page isn't of the written form: keep a copy of the file, and check it."


@dataclass(frozen=True)
class Stopped(Reply):
    """The store was stopped before, by a fault (at this count of them) or by a page."""

    by_page: bool
    number: int
    advice = "The store was stopped before: run what is left again."


def reply_of(text: str) -> Reply:
    """Reads a reply as a history prints it."""
    words = text.split(" ")
    plain: Mapping[str, Reply] = {
        "ok": Done(),
        "none": Absent(),
        "kept none": Kept(None),
        "held": Held(),
        "nohold": NoHold(),
        "no memory": HoldRefused(),
        "fault": Failed(),
        "fault lost": WriteFailed(False),
        "fault unsure": WriteFailed(True),
    }
    if text in plain:
        return plain[text]
    match words:
        case ["is", count, value]:
            return Is(int(count), "" if value == "-" else value)
        case ["kept", count, value]:
            return Kept(Value(int(count), "" if value == "-" else value))
        case ["rows", count, *rest] if len(rest) == 3 * int(count):
            return Rows(tuple(Row.of_line(" ".join(rest[i : i + 3])) for i in range(0, len(rest), 3)))
        case ["did", turns]:
            return Did(int(turns))
        case ["full", charge]:
            return Full(int(charge))
        case ["damaged", "page", page]:
            return PageDamaged(int(page))
        case ["stopped", ("fault" | "page") as kind, number]:
            return Stopped(kind == "page", int(number))
    raise Unreadable(f"{text!r} is no reply")


# ---- runs


@dataclass(frozen=True)
class Entry:
    """A command that was done: by whom, what it was answered, and how many merge quanta its caller did for it."""

    caller: int
    command: Command
    reply: Reply
    quanta: int


@dataclass(frozen=True)
class Ship:
    """A write that was done, for a second store to take: its number, and the command, a put where a new or a swap was done."""

    number: int
    command: Command

    def line(self) -> str:
        return f"ship {self.number} {self.command.line()}"


def ships_of(first: int, entries: Iterable[Entry]) -> Iterator[Ship]:
    """The ships of a history, of which the first has this number."""
    writes = (entry.command for entry in entries if entry.reply == Done() and isinstance(entry.command, (Put, Add, Tail, New, Swap, Del)))
    for number, write in enumerate(writes, first):
        yield Ship(number, Put(write.key, write.count, write.text) if isinstance(write, (New, Swap)) else write)


@dataclass(frozen=True)
class Run:
    """What a run did, in the order in which it took effect. Charge, peak and `resident`, what was held of the memory table in the end, in bytes;
    `text` is what was printed: the history, and behind it what else was asked for."""

    charge: int
    entries: tuple[Entry, ...]
    peak: int
    high_mark: int
    callers_quanta: int
    workers_quanta: int
    passes: int
    deep_merges: int
    script: str
    text: str
    ships: tuple[Ship, ...] = ()
    resident: int | None = None

    def replies(self, caller: int) -> list[Reply]:
        return [entry.reply for entry in self.entries if entry.caller == caller]


ENTRY = re.compile(r"(\d+) (\d+) (.*) => (.*) q(\d+)")
FIRST = re.compile(r"open charge (\d+)")
LAST = re.compile(r"end c0 (\d+) of (\d+) callers (\d+) workers (\d+) swaps (\d+) (\d+)")
RESIDENT = re.compile(r"resident (\d+)")


def run_of(batch: Mapping[int, Sequence[Command]], script: str, text: str, ships: int = 0, resident: bool = False) -> Run:
    """Reads a history, and behind it what was held in the end, if that was asked for, and the ships, of which the first has this number; each entry
    gets the command object that its caller gave."""
    printed = text.splitlines()
    lines = [line for line in printed if not line.startswith(("resident ", "ship "))]
    first, last = FIRST.fullmatch(lines[0]) if lines else None, LAST.fullmatch(lines[-1]) if lines else None
    if not first or not last or not text.endswith("\n"):
        raise Unreadable("the history is cut off")
    left = {caller: iter(commands) for caller, commands in batch.items()}
    entries = []
    for place, line in enumerate(lines[1:-1], 1):
        found = ENTRY.fullmatch(line)
        command = next(left.get(int(found[2]), iter(())), None) if found else None
        if not found or int(found[1]) != place or command is None or command.line() != found[3]:
            raise Unreadable(f"{line!r} is no entry {place} of this batch")
        entries.append(Entry(int(found[2]), command, reply_of(found[4]), int(found[5])))
    if len(entries) != sum(map(len, batch.values())):
        raise Unreadable("the history lacks commands")
    held = [found for line in printed[len(lines) :] if (found := RESIDENT.fullmatch(line))]
    if len(held) != int(resident):
        raise Unreadable("what was held in the end is told twice, or not as it was asked for")
    shipped = tuple(ships_of(ships, entries)) if ships else ()
    if printed != [*lines, *(found[0] for found in held), *(ship.line() for ship in shipped)]:
        raise Unreadable("the ships aren't the history's writes")
    told = int(held[0][1]) if held else None
    return Run(int(first[1]), tuple(entries), *(int(last[i]) for i in range(1, 7)), script, text, shipped, told)


@dataclass(frozen=True)
class Component:
    entries: int
    weight: int


@dataclass(frozen=True)
class Report:
    """What a check tells: the catalogue's version, C1, C1' and C2, and the records of the log's lanes A and B."""

    version: int
    c1: Component
    c1x: Component
    c2: Component
    lane_a: int
    lane_b: int

    def most_keys(self) -> int:
        return self.c1.entries + self.c1x.entries + self.c2.entries + self.lane_a + self.lane_b


REPORT = re.compile(r"ok version (\d+) c1 (\d+) (\d+) c1x (\d+) (\d+) c2 (\d+) (\d+) lanes (\d+) (\d+)\n")


@dataclass(frozen=True)
class Settled:
    """What a settling tells: the newest catalogue's version behind it, how many quanta it took, and how many it might have taken at most."""

    version: int
    quanta: int
    bound: int


SETTLED = re.compile(r"settled version (\d+) quanta (\d+) of (\d+)\n")


def successor(key: str) -> str | None:
    """The least key above this one, if there is any."""
    if len(key) < 64:
        return key + LEAST_KEY
    front = key.rstrip("~")
    return front[:-1] + chr(ord(front[-1]) + 1) if front else None


class Store:
    """The store in the file of this path. `program` is the built program and what stands before its words, by default that of this repository."""

    def __init__(self, path: str | os.PathLike[str], program: Sequence[str] | None = None) -> None:
        self.path = os.fspath(path)
        self.program = list(program) if program is not None else [os.environ.get("BLSM", str(PROGRAM))]

    @classmethod
    def make(cls, path: str | os.PathLike[str], half: int = 32768, ratio: int = 4, low: int = 16384, quantum: int = 4096, program: Sequence[str] | None = None) -> Store:
        """Makes a store in a file that is new or has no bytes. Sizes in bytes, but for the ratio."""
        store = cls(path, program)
        store._call("make", ["--half", str(half), "--ratio", str(ratio), "--low", str(low), "--quantum", str(quantum)])
        return store

    @classmethod
    def open(cls, path: str | os.PathLike[str], program: Sequence[str] | None = None) -> Store:
        """The store that is there, which is checked once."""
        store = cls(path, program)
        store.check()
        return store

    def _call(
        self,
        command: str,
        options: Sequence[str] = (),
        script: str = "",
        batch: Mapping[int, Sequence[Command]] | None = None,
        ships: int = 0,
        resident: bool = False,
    ) -> str:
        ended = subprocess.run([*self.program, command, *options, "--", self.path], input=script.encode("ascii"), stdout=subprocess.PIPE, check=False)
        try:
            text = ended.stdout.decode("ascii")
        except UnicodeDecodeError:
            raise Unreadable("a text of other bytes than ASCII") from None
        if ended.returncode == 0:
            return text
        is_told = text.startswith("open charge ") and ended.returncode in (6, 7)
        run = run_of(batch or {}, script, text, ships, resident) if is_told else None
        raise refusal_of(ended.returncode, "the history tells it" if run else text.strip(), run)

    def check(self) -> Report:
        """Reads the whole store, and tells its numbers or raises what is wrong with it. It writes nothing."""
        text = self._call("check")
        found = REPORT.fullmatch(text)
        if not found:
            raise Unreadable(f"{text!r} is no report")
        n = [int(word) for word in found.groups()]
        return Report(n[0], Component(n[1], n[2]), Component(n[3], n[4]), Component(n[5], n[6]), n[7], n[8])

    def settle(self) -> Settled:
        """Opens the store, which merges all that a crash or a run left to be merged, and tells how much that took, or raises why it can't be opened."""
        text = self._call("settle")
        found = SETTLED.fullmatch(text)
        if not found:
            raise Unreadable(f"{text!r} tells no settling")
        return Settled(*map(int, found.groups()))

    def run(
        self, batch: Mapping[int, Iterable[Command]], workers: int = 0, turns: int = 1000, ships: int = 0, resident: bool = False
    ) -> Run:
        """Does the commands of these callers, each caller's in order, beside so many merge workers with so many turns each. The limits of a script hold. Where a
        call of the file failed, or a page was found damaged, the exception's `run` has what was done. With a number above 0 its `ships` are the writes
        that were done, the first of that number; its `resident` is there where it is asked for."""
        wanted = {check_number(caller, CALLERS, 1): list(commands) for caller, commands in batch.items()}
        # line by line, so that one thread alone would take them in turns
        most = max(map(len, wanted.values()), default=0)
        script = "".join(f"{caller} {commands[i].line()}\n" for i in range(most) for caller, commands in wanted.items() if i < len(commands))
        options = ["--workers", str(check_number(workers, 8)), "--turns", str(check_number(turns, 1_000_000))]
        if check_number(ships, 1 << 63):
            options += ["--ships", str(ships)]
        if resident:
            options += ["--resident", "1"]
        return run_of(wanted, script, self._call("run", options, script, wanted, ships, resident), ships, resident)

    def live(self, scans: int = 1, ships: int = 0) -> Live:
        """This store, kept open: commands are answered one by one, beside so many open scans (15 at most). The file is locked until it is closed.
        With a number above 0 its `ships` are the writes that were done, the first of that number."""
        from live import Live  # which stands above this module

        return Live(self, scans, ships)

    def _one(self, command: Command) -> Reply:
        return self.run({1: [command]}).entries[0].reply.need()

    def put(self, key: str, count: int, text: str = "") -> None:
        self._one(Put(key, count, text))

    def add(self, key: str, count: int) -> None:
        self._one(Add(key, count))

    def tail(self, key: str, tail: str) -> None:
        self._one(Tail(key, tail))

    def new(self, key: str, count: int, text: str = "") -> bool:
        """Puts where the key is absent. Answers whether it was."""
        return isinstance(self._one(New(key, count, text)), Done)

    def swap(self, key: str, old: int, count: int, text: str = "") -> bool:
        """Puts where the key is present with the old count. Answers whether it was."""
        return isinstance(self._one(Swap(key, old, count, text)), Done)

    def delete(self, key: str) -> None:
        self._one(Del(key))

    def get(self, key: str) -> Value | None:
        reply = self._one(Get(key))
        return Value(reply.count, reply.text) if isinstance(reply, Is) else None

    def rows(self, low: str = LEAST_KEY, high: str | None = None) -> Iterator[Row]:
        """The rows from low on, without high (or to the end), in order. They are held in one script, so they are of one moment; past 131,072 rows a new script
        goes on behind the last one, at a later moment."""
        at: str | None = low
        while at is not None:
            rows, more = self._part(at, high)
            yield from rows
            at = successor(rows[-1].key) if more else None

    def _part(self, low: str, high: str | None) -> tuple[list[Row], bool]:
        nexts = min(MOST_NEXTS, self.check().most_keys() // MOST_ROWS + 1)
        # no range has the greatest key before its end, so that is asked for by itself
        last: list[Command] = [Get(GREATEST_KEY)] if high is None else []
        run = self.run({1: [Hold(low, high or GREATEST_KEY), *last, *[Next(MOST_ROWS)] * nexts, Drop()]})
        rows: list[Row] = []
        more = False
        greatest: list[Row] = []
        for entry in run.entries:
            reply = entry.reply.need()
            if isinstance(reply, Rows):
                rows += reply.rows
                more = len(reply.rows) == MOST_ROWS
            elif isinstance(reply, Is):
                greatest = [Row(GREATEST_KEY, reply.count, reply.text)]
        more = more and nexts == MOST_NEXTS
        return (rows, True) if more else (rows + greatest, False)

    def dump(self) -> Iterator[str]:
        """Each row as a line, `KEY COUNT TEXT` with a newline. `load` takes such lines."""
        for row in self.rows():
            yield row.line() + "\n"

    def load(self, lines: Iterable[str]) -> int:
        """Puts each row of a dump, and answers how many there were. Each script of them is durable when the next one begins; a store that gets full raises
        `NotDone` and has a front of the rows."""
        count, batch, size = 0, [], 0
        for line in lines:
            row = Row.of_line(line.rstrip("\n"))
            batch.append(Put(row.key, row.count, row.text))
            size += len(line) + 8
            if len(batch) == MOST_LINES or MOST_BYTES - 1024 < size:
                count += self._load(batch)
                batch, size = [], 0
        return count + (self._load(batch) if batch else 0)

    def _load(self, batch: Sequence[Command]) -> int:
        for entry in self.run({1: batch}).entries:
            entry.reply.need()
        return len(batch)
