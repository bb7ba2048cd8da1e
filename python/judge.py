"""Judges a printed history: could a plain map, one command after another, have answered it?

It reads a script and the history that a run printed, and knows nothing of trees: a dictionary, sorted where rows are asked for. A history is legal where

- its entries are numbered from 1, and each caller's lines stand in it once, in their order (callers may come between one another in any order);
- each reply is that of the map at its place, or a refusal that may come there: `full` by the charge of a write whose condition holds, `no memory` of
  a hold, `fault` and `damaged page` of a lookup, of a new or swap, or of a work, `fault lost` and `fault unsure` of a write whose condition holds, and
  `stopped` from then on, with one cause for all;
- a write took no more quanta than its work bound, a work of n turns no more than n, all others none; and the last line has their sum.

    judge.py SCRIPT HISTORY        (the store was empty before; --half, --ratio, --quantum as they were given to `make`, --workers as to `run`)
"""

from __future__ import annotations

import argparse
import sys
from collections.abc import Iterable, Iterator, Mapping
from dataclasses import dataclass, field

CALLERS = 16
OVERHEAD = 13
MODULUS = 2**64
MOST_TAIL = 64  # of a text and the tail behind it, so many bytes stay
WRITES = ("put", "add", "tail", "del", "new", "swap")
LOOKS_FIRST = ("new", "swap")

Value = tuple[int, str]  # the count, and the text ("" is printed as "-")
Map = dict[str, Value]


class Illegal(Exception):
    """The text is no legal history of the script. `place` is the entry's number, or 0 for the first and the last line and what is missing."""

    def __init__(self, place: int, why: str) -> None:
        super().__init__(f"entry {place}: {why}" if place else why)
        self.place, self.why = place, why


@dataclass(frozen=True)
class Geometry:
    """The sizes of a store: half spring, low mark and quantum in bytes."""

    half: int = 32768
    ratio: int = 4
    low: int = 16384
    quantum: int = 4096

    @property
    def high_mark(self) -> int:
        return 2 * self.half

    @property
    def capacity(self) -> int:
        return self.ratio * 2 * self.ratio * self.half

    def limit(self, verb: str) -> int:
        """The charge up to which such a write is taken."""
        return self.capacity if verb == "del" else self.capacity - self.half

    def work_bound(self, weight: int) -> int:
        """The most merge quanta of a write of this weight."""
        return -(-(4 * self.ratio + 4) * weight // self.quantum) + -(-(self.ratio + 2) * weight // self.quantum)


@dataclass(frozen=True)
class Entry:
    number: int
    caller: int
    words: tuple[str, ...]
    reply: str
    quanta: int

    @property
    def verb(self) -> str:
        return self.words[0]


@dataclass(frozen=True)
class History:
    """A printed history. Charge and peak in bytes."""

    charge: int
    entries: tuple[Entry, ...]
    peak: int
    high: int
    callers: int
    workers: int
    passes: int
    deeps: int


def number(word: str, place: int) -> int:
    if not (word.isascii() and word.isdigit()) or (len(word) > 1 and word[0] == "0"):
        raise Illegal(place, f"{word!r} is no number")
    return int(word)


def parse(text: str) -> History:
    """Reads a history as `run` prints it."""
    lines = text.split("\n")
    if lines[-1] != "" or len(lines) < 3:
        raise Illegal(0, "the text is cut off")
    first, *middle, last = lines[:-1]
    opened, end = first.split(" "), last.split(" ")
    if opened[:2] != ["open", "charge"] or len(opened) != 3:
        raise Illegal(0, "it doesn't begin with the charge")
    if [end[i] for i in (0, 1, 3, 5, 7, 9) if i < len(end)] != ["end", "c0", "of", "callers", "workers", "swaps"] or len(end) != 12:
        raise Illegal(0, "it doesn't end with the totals")
    totals = [number(end[i], 0) for i in (2, 4, 6, 8, 10, 11)]
    return History(number(opened[2], 0), tuple(entry(line, i) for i, line in enumerate(middle, 1)), *totals)


def entry(line: str, place: int) -> Entry:
    command, found, rest = line.partition(" => ")
    reply, mark, quanta = rest.rpartition(" q")
    words = command.split(" ")
    if not found or not mark or len(words) < 3 or number(words[0], place) != place:
        raise Illegal(place, f"this is no entry of this number: {line!r}")
    return Entry(place, number(words[1], place), tuple(words[2:]), reply, number(quanta, place))


def weight(words: tuple[str, ...]) -> int:
    """The weight of a write, in bytes."""
    text = words[-1] if words[0] in ("put", "tail", "new", "swap") and words[-1] != "-" else ""
    return OVERHEAD + len(words[1]) + len(text)


def value_text(value: Value) -> str:
    return f"{value[0]} {value[1] or '-'}"


def is_met(store: Map, words: tuple[str, ...]) -> bool:
    """Whether the condition of a write holds in a plain map: a new asks that its key is absent, a swap that it has this count."""
    value = store.get(words[1])
    if words[0] == "new":
        return value is None
    return words[0] != "swap" or (value is not None and value[0] == int(words[2]))


def write(store: Map, words: tuple[str, ...]) -> None:
    """Does a write to a plain map."""
    verb, key = words[0], words[1]
    if verb in ("put", "new", "swap"):
        store[key] = (int(words[-2]), "" if words[-1] == "-" else words[-1])
    elif verb == "add":
        count, text = store.get(key, (0, ""))
        store[key] = ((count + int(words[2])) % MODULUS, text)
    elif verb == "tail":
        count, text = store.get(key, (0, ""))
        store[key] = (count, (text + words[2])[-MOST_TAIL:])
    else:
        store.pop(key, None)


@dataclass
class PlainMap:
    """The sequential map, and what a history has told so far of the store's stop."""

    store: Map
    geometry: Geometry
    charge: int
    honest: bool
    held: dict[int, list[tuple[str, Value]]] = field(default_factory=dict)
    stop: str | None = None  # the cause that the first `stopped` named
    stopping: bool = False  # an entry is the one that stopped the store

    @property
    def runs(self) -> bool:
        return self.stop is None and not self.stopping

    def take(self, e: Entry) -> None:
        """Judges the next entry, and does it."""
        others = {"get": self.got, "hold": self.holds, "next": self.read_on, "drop": self.dropped, "work": self.worked}
        kinds = {**dict.fromkeys(WRITES, self.written), **others}
        if e.verb not in kinds:
            raise Illegal(e.number, f"there is no command {e.verb}")
        if e.reply.startswith("stopped "):
            self.stopped(e)
        else:
            if not self.runs and not (e.verb == "work" and fails(e.reply)):
                raise Illegal(e.number, "the store was stopped before")
            kinds[e.verb](e)
        if e.quanta > self.most_quanta(e):
            raise Illegal(e.number, f"{e.quanta} quanta are too many")

    def most_quanta(self, e: Entry) -> int:
        if e.verb == "work":
            return int(e.words[1])
        return self.geometry.work_bound(weight(e.words)) if e.verb in WRITES and e.reply == "ok" else 0

    def stopped(self, e: Entry) -> None:
        kind, _, rest = e.reply.removeprefix("stopped ").partition(" ")
        if kind not in ("fault", "page") or (kind == "page" and self.honest):
            raise Illegal(e.number, f"this is no stop: {e.reply}")
        number(rest, e.number)
        if self.stop not in (None, e.reply):
            raise Illegal(e.number, f"another cause was told before: {self.stop}")
        self.stop = e.reply

    def wants(self, e: Entry, reply: str) -> None:
        if e.reply != reply:
            raise Illegal(e.number, f"the map answers {reply!r}, and not {e.reply!r}")

    def may_fail(self, e: Entry) -> bool:
        if e.reply.startswith("damaged page "):
            number(e.reply.removeprefix("damaged page "), e.number)
            if self.honest:
                raise Illegal(e.number, "no page is damaged on an honest disk")
        return fails(e.reply)

    def written(self, e: Entry) -> None:
        if e.verb in LOOKS_FIRST and self.may_fail(e):
            return
        if not is_met(self.store, e.words):
            value = self.store.get(e.words[1])
            self.wants(e, "kept none" if value is None else f"kept {value_text(value)}")
        elif e.reply in ("fault lost", "fault unsure"):
            self.stopping = True
        elif e.reply.startswith("full "):
            charge = number(e.reply.removeprefix("full "), e.number)
            if charge + weight(e.words) <= self.geometry.limit(e.verb):
                raise Illegal(e.number, f"it fits at the charge {charge}")
            if charge > self.charge:
                raise Illegal(e.number, f"the charge can't be more than {self.charge}")
        else:
            self.wants(e, "ok")
            write(self.store, e.words)
            self.charge += weight(e.words)

    def got(self, e: Entry) -> None:
        if not self.may_fail(e):
            value = self.store.get(e.words[1])
            self.wants(e, "none" if value is None else f"is {value_text(value)}")

    def holds(self, e: Entry) -> None:
        if e.reply != "no memory":
            self.wants(e, "held")
            low, high = e.words[1], e.words[2]
            self.held[e.caller] = [(key, self.store[key]) for key in sorted(self.store) if low <= key < high]

    def read_on(self, e: Entry) -> None:
        rows = self.held.get(e.caller)
        if self.may_fail(e):
            if rows is None:
                raise Illegal(e.number, "the caller holds nothing that could fail")
        elif rows is None:
            self.wants(e, "nohold")
        else:
            count = int(e.words[1])
            given, self.held[e.caller] = rows[:count], rows[count:]
            self.wants(e, "".join([f"rows {len(given)}", *(f" {key} {value_text(value)}" for key, value in given)]))

    def dropped(self, e: Entry) -> None:
        self.wants(e, "nohold" if self.held.pop(e.caller, None) is None else "ok")

    def worked(self, e: Entry) -> None:
        if self.may_fail(e):
            if self.stopping:
                raise Illegal(e.number, "another entry stopped the store")
            self.stopping = True
            return
        verb, _, count = e.reply.partition(" ")
        if verb != "did" or number(count, e.number) > int(e.words[1]) or e.quanta > int(count):
            raise Illegal(e.number, f"a work of {e.words[1]} turns can't answer {e.reply!r} with {e.quanta} quanta")


def fails(reply: str) -> bool:
    return reply == "fault" or reply.startswith("damaged page ")


def lines_of(script: str) -> dict[int, list[tuple[str, ...]]]:
    """Each caller's commands, in order."""
    asked: dict[int, list[tuple[str, ...]]] = {caller: [] for caller in range(1, CALLERS + 1)}
    for line in script.splitlines():
        caller, *words = line.split(" ")
        asked[int(caller)].append(tuple(words))
    return asked


def check_order(script: str, entries: Iterable[Entry]) -> None:
    """Each caller's lines stand in the history once, in order, and nothing else does."""
    asked = lines_of(script)
    at = dict.fromkeys(asked, 0)
    for e in entries:
        mine = asked.get(e.caller)
        if mine is None or at[e.caller] == len(mine):
            raise Illegal(e.number, f"caller {e.caller} asked for no such thing")
        if mine[at[e.caller]] != e.words:
            raise Illegal(e.number, f"caller {e.caller} asks for {' '.join(mine[at[e.caller]])!r} first")
        at[e.caller] += 1
    for caller, mine in asked.items():
        if at[caller] < len(mine):
            raise Illegal(0, f"{' '.join(mine[at[caller]])!r} of caller {caller} is missing")


def judge(
    script: str,
    text: str,
    opening: Mapping[str, Value] | None = None,
    geometry: Geometry = Geometry(),
    workers: int = 8,
    honest: bool = True,
) -> Map:
    """Raises `Illegal` where the text is no legal history of the script, over a store that had this map. Else answers the map after it, in which a write
    that was answered `fault unsure` doesn't count. `workers` is how many the run had; over an honest disk no page may be told as damaged."""
    history = parse(text)
    check_order(script, history.entries)
    plain = PlainMap(dict(opening or {}), geometry, history.charge, honest)
    for e in history.entries:
        plain.take(e)
    if history.callers != sum(e.quanta for e in history.entries):
        raise Illegal(0, "the callers' quanta aren't the sum of the entries'")
    if history.high != geometry.high_mark or history.peak > history.high:
        raise Illegal(0, f"the memory table weighed {history.peak} of {history.high} bytes")
    if workers == 0 and history.workers:
        raise Illegal(0, "a worker that wasn't there took a quantum")
    return plain.store


def maps_after_fronts(entries: Iterable[Entry], opening: Mapping[str, Value] | None = None) -> Iterator[Map]:
    """The map before the first entry, after the first, and so on: what a crash may leave is one of these (and one more where a write is unsure)."""
    store: Map = dict(opening or {})
    yield dict(store)
    for e in entries:
        if e.verb in WRITES and e.reply == "ok":
            write(store, e.words)
        yield dict(store)
        if e.reply == "fault unsure":
            unsure = dict(store)
            write(unsure, e.words)
            yield unsure


def main() -> None:
    parser = argparse.ArgumentParser(description="Judges whether a plain map could have answered a printed history.")
    parser.add_argument("script")
    parser.add_argument("history")
    for name, value in (("half", 32768), ("ratio", 4), ("quantum", 4096), ("workers", 8)):
        parser.add_argument(f"--{name}", type=int, default=value)
    args = parser.parse_args()
    with open(args.script, encoding="ascii") as script, open(args.history, encoding="ascii") as history:
        try:
            judge(script.read(), history.read(), None, Geometry(args.half, args.ratio, 0, args.quantum), args.workers)
        except Illegal as why:
            sys.exit(f"illegal: {why}")
    print("legal")


if __name__ == "__main__":
    main()
