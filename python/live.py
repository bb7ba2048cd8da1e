"""A store that stays open: its commands are done and answered one by one, by one program (`serve`) that has the file to itself while it lives.

    with Store.open("/tmp/fruit.blsm").live() as live:
        live.put("apple", 3, "red")                    # durable when it returns
        live.get("apple")                              # Value(count=3, text='red'), without a sync
        for row in live.rows("a", "q"):                # of the moment of the call, whatever is written between
            live.add(row.key, 1)

A program has room for 65,536 lines, dealt out evenly to its callers: one for commands, and one for each scan that may be open. Where there is no
more, it is ended and begun again, and what it didn't do is sent again. Nobody notices but whoever holds rows: a scan goes on behind its last row, at
a later moment.

It isn't for two threads at once.
"""

from __future__ import annotations

import re
import subprocess
from collections import deque
from collections.abc import Iterable, Iterator, Sequence
from dataclasses import dataclass
from types import TracebackType
from typing import IO

import blsm
from blsm import (
    Add,
    BlsmError,
    Command,
    Del,
    Did,
    Done,
    Drop,
    Entry,
    Get,
    Hold,
    Is,
    New,
    Next,
    NoHold,
    Put,
    Reply,
    Row,
    Rows,
    Store,
    Swap,
    Tail,
    Unreadable,
    Value,
    Work,
)

# Lines that were sent and aren't answered yet. A pipe takes so many of the longest, so that a program which waits until its answers are read never
# makes us wait.
AHEAD = 64
OWN = 1  # the caller of commands; those behind it have a scan each
NO_ROOM = re.compile(r"no room \d+")
OUT_OF_ROOM = 11  # the status behind it


class Unanswered(BlsmError):
    """The program ended without an answer to `command`. No other one that isn't in `entries` may be done, and none is sent again."""

    advice = "All that was answered is done, and nothing behind this command is. It may be done or not: look."

    def __init__(self, command: Command) -> None:
        super().__init__(f"{command.line()}: {self.advice}")
        self.command = command


class NoCallerLeft(BlsmError):
    """As many scans are open as there may be."""

    advice = "Close a scan, or ask `live` for more of them."


@dataclass(frozen=True)
class Totals:
    """What the programs told at their ends: the greatest weight of the memory table and its high mark, in bytes, quanta, swaps, and how many they were."""

    peak: int = 0
    high_mark: int = 0
    quanta: int = 0
    passes: int = 0
    deep_merges: int = 0
    programs: int = 0

    def with_program(self, last: re.Match[str]) -> Totals:
        peak, high_mark, callers, workers, passes, deep_merges = map(int, last.groups())
        swaps = self.passes + passes, self.deep_merges + deep_merges
        return Totals(max(self.peak, peak), high_mark, self.quanta + callers + workers, *swaps, self.programs + 1)


def tells_failure(reply: Reply) -> bool:
    """Whether a call of the file failed, or a page was found damaged."""
    return isinstance(reply, blsm.WriteFailed | blsm.Failed | blsm.PageDamaged | blsm.Stopped)


def tells_stop(entry: Entry) -> bool:
    """Whether the store does nothing more."""
    if isinstance(entry.command, Work):
        return tells_failure(entry.reply)
    return isinstance(entry.reply, blsm.WriteFailed | blsm.Stopped)


class Program:
    """The program, from its first line to its last one."""

    def __init__(self, store: Store, callers: int, ships: int = 0) -> None:
        options = ["--ships", str(ships)] if ships else []
        words = [*store.program, "serve", "--callers", str(callers), *options, "--", store.path]
        self.next_ship = ships  # with 0 there are none
        self.ships: list[blsm.Ship] = []
        self.process = subprocess.Popen(words, stdin=subprocess.PIPE, stdout=subprocess.PIPE)
        self.count = 0  # of the commands that were done
        self.has_failed = False  # as a reply told
        self.is_stopped = False
        self.last: re.Match[str] | None = None  # its last line, once that came
        try:
            first = self.line()
        except BaseException:
            self.end()
            raise
        if not blsm.FIRST.fullmatch(first):
            raise blsm.refusal_of(self.end(), first)

    def line(self) -> str:
        """Its next line, or nothing where it ended before that was whole."""
        assert self.process.stdout
        line = self.process.stdout.readline()
        try:
            return line[:-1].decode("ascii") if line.endswith(b"\n") else ""
        except UnicodeDecodeError:
            raise Unreadable("a text of other bytes than ASCII") from None

    def send(self, lines: Iterable[str]) -> None:
        assert self.process.stdin
        try:
            self.process.stdin.write("".join(lines).encode("ascii"))
            self.process.stdin.flush()
        except BrokenPipeError:
            pass  # it has ended; what it wrote before tells why

    def answers(self, lines: Sequence[str], commands: Sequence[Command]) -> Iterator[Entry]:
        """The entries of the commands, which these lines spell, each as it comes. Where they end too soon the next line has no room, and it ends."""
        sent = 0
        for done, command in enumerate(commands):
            if sent - done <= AHEAD // 2:
                self.send(lines[sent : done + AHEAD])
                sent = done + AHEAD
            entry = self.answer(lines[done], command)
            if not entry:
                return
            yield entry

    def answer(self, line: str, command: Command) -> Entry | None:
        """The entry of this command, or nothing where it has no room."""
        told = self.line()
        found = blsm.ENTRY.fullmatch(told)
        if found:
            return self.entry(found, line, command)
        if not told:
            raise Unanswered(command)
        self.last = blsm.LAST.fullmatch(told)
        if not self.last:
            raise Unreadable(f"{told!r} is no entry")
        reason = self.line()
        if self.count and not self.is_stopped and NO_ROOM.fullmatch(reason):
            return None
        raise blsm.refusal_of(self.end(), reason or told)

    def entry(self, found: re.Match[str], line: str, command: Command) -> Entry:
        self.count += 1
        if int(found[1]) != self.count or f"{found[2]} {found[3]}\n" != line:
            raise Unreadable(f"{found[0]!r} is no entry {self.count}, of {line!r}")
        entry = Entry(int(found[2]), command, blsm.reply_of(found[4]), int(found[5]))
        self.has_failed |= tells_failure(entry.reply)
        self.is_stopped |= tells_stop(entry)
        for ship in blsm.ships_of(self.next_ship, [entry]) if self.next_ship else ():
            told = self.line()
            if not told:
                raise Unanswered(command)
            if told != ship.line():
                raise Unreadable(f"{told!r} isn't {ship.line()!r}")
            self.ships.append(ship)
            self.next_ship += 1
        return entry

    def finish(self) -> re.Match[str]:
        """Lets it end as it does where no more commands come. Answers its last line, and raises what no reply told."""
        shut(self.process.stdin)
        self.last = self.last or blsm.LAST.fullmatch(self.line())
        status = self.end()
        if not self.last or status not in (0, OUT_OF_ROOM) and not self.has_failed:
            raise blsm.refusal_of(status, "no reply tells it")
        return self.last

    def end(self) -> int:
        """Closes its streams, by which it ends, and answers its status."""
        shut(self.process.stdout)
        shut(self.process.stdin)
        return self.process.wait()


def shut(stream: IO[bytes] | None) -> None:
    if stream:
        try:
            stream.close()
        except BrokenPipeError:
            pass  # the program ended before it took all


class Live:
    """A store that stays open until `close`, or the end of a `with`. `Store.live` makes it. Each call raises what the store's own would."""

    def __init__(self, store: Store, scans: int = 1, ships: int = 0) -> None:
        self._first_ship = blsm.check_number(ships, 1 << 63)
        self._ships: list[blsm.Ship] = []  # of the programs that have ended
        self._store, self._callers = store, 1 + blsm.check_number(scans, blsm.CALLERS - 1)
        self._idle = list(range(self._callers, OWN, -1))  # callers without a scan
        self._left: list[int] = []  # those whose scan is over, and who may hold rows still
        self._totals = Totals()
        self._is_closed = False
        self._program: Program | None = Program(store, self._callers, self._first_ship)

    def __enter__(self) -> Live:
        return self

    def __exit__(self, kind: type[BaseException] | None, _error: BaseException | None, _trace: TracebackType | None) -> None:
        try:
            self.close()
        except BlsmError:
            if kind is None:
                raise

    def close(self) -> Totals:
        """Closes the store, and tells what was done since it was opened. Raises what no reply told: a call that failed behind the last write."""
        self._is_closed = True
        self._finish()
        return self._totals

    @property
    def ships(self) -> tuple[blsm.Ship, ...]:
        """The writes that were done and told so far, for a second store to take; none where no number was given for the first one."""
        return (*self._ships, *(self._program.ships if self._program else ()))

    def _finish(self) -> None:
        self._keep_ships()
        program, self._program = self._program, None
        if program:
            self._totals = self._totals.with_program(program.finish())

    def _keep_ships(self) -> None:
        if self._program:
            self._ships += self._program.ships

    def _abandon(self) -> None:
        self._keep_ships()
        program, self._program = self._program, None
        if program:
            program.end()

    def _open(self) -> Program:
        if not self._program:
            self._program = Program(self._store, self._callers, self._first_ship and self._first_ship + len(self._ships))
        return self._program

    def _answers(self, lines: Sequence[str], commands: Sequence[Command]) -> Iterator[Entry]:
        """The entries of the commands, which these lines spell, each as it comes, from as many programs as it takes."""
        done = 0
        while done < len(commands):
            for entry in self._open().answers(lines[done:], commands[done:]):
                done += 1
                yield entry
            if done < len(commands):
                self._finish()

    def _all(self, caller: int, commands: Sequence[Command]) -> list[Entry]:
        """The entries of the commands. What no line can spell is refused before any is sent."""
        if self._is_closed:
            raise ValueError("the live store was closed")
        lines = [f"{caller} {command.line()}\n" for command in commands]
        entries: list[Entry] = []
        try:
            self._drop_left()
            for entry in self._answers(lines, commands):
                entries.append(entry)
            if self._program and self._program.is_stopped:
                self._finish()
        except BaseException as error:
            self._abandon()
            if isinstance(error, BlsmError):
                error.entries = entries
            raise
        return entries

    def _drop_left(self) -> None:
        """Drops what scans held that are over."""
        while self._left:
            caller = self._left.pop()
            self._idle.append(caller)
            if self._program:
                deque(self._answers([f"{caller} drop\n"], [Drop()]), maxlen=0)

    def ask(self, command: Command) -> Entry:
        """Does a command. A hold of one's own is gone where the program had to be begun again: a `next` is answered `NoHold` then."""
        return self._all(OWN, [command])[0]

    def batch(self, commands: Iterable[Command]) -> list[Entry]:
        """Does the commands in order; some are sent before the first one is answered. Where it raises, `entries` of the exception has what was."""
        return self._all(OWN, list(commands))

    def _one(self, command: Command) -> Reply:
        return self.ask(command).reply.need()

    def put(self, key: str, count: int, text: str = "") -> None:
        self._one(Put(key, count, text))

    def add(self, key: str, count: int) -> None:
        self._one(Add(key, count))

    def tail(self, key: str, tail: str) -> None:
        self._one(Tail(key, tail))

    def new(self, key: str, count: int, text: str = "") -> bool:
        """Puts where the key is absent. Answers whether it was."""
        return isinstance(self._one(New(key, count, text)), Done)

    def swap(self, key: str, old: int, count: int, text: str = "") -> bool:
        """Puts where the key is present with the old count. Answers whether it was."""
        return isinstance(self._one(Swap(key, old, count, text)), Done)

    def delete(self, key: str) -> None:
        self._one(Del(key))

    def get(self, key: str) -> Value | None:
        reply = self._one(Get(key))
        return Value(reply.count, reply.text) if isinstance(reply, Is) else None

    def work(self, turns: int = 100_000) -> int:
        """Makes up to so many turns of merging, until nothing is left to do. Answers how many did something."""
        reply = self._one(Work(turns))
        return reply.turns if isinstance(reply, Did) else 0

    def rows(self, low: str = blsm.LEAST_KEY, high: str | None = None) -> Scan:
        """The rows from low on, without high (or to the end), in order, as they are now."""
        if not self._idle:
            self._all(OWN, [])
        if not self._idle:
            raise NoCallerLeft(f"{self._callers - 1} scans are open: {NoCallerLeft.advice}")
        return Scan(self, self._idle.pop(), low, high)


class Scan(Iterator[Row]):
    """The rows of a range, in order, of the moment at which it was begun. It is over at its end, by `close`, and where it is let go.

    Where a new program had to be begun the rows behind the last one are of a later moment. What fails may be asked again."""

    def __init__(self, live: Live, caller: int, low: str, high: str | None) -> None:
        self._live, self._caller, self._high = live, caller, high
        self._at: str | None = low  # from where on rows are to be asked for still
        self._rows: deque[Row] = deque()
        self._greatest: list[Row] = []  # no range has the greatest key before its end
        try:
            self._hold(low)
        except BaseException:
            self.close()
            raise

    def __next__(self) -> Row:
        while not self._rows and self._at is not None:
            self._more(self._at)
        if not self._rows:
            self.close()
            raise StopIteration
        return self._rows.popleft()

    def _hold(self, at: str) -> None:
        last = [Get(blsm.GREATEST_KEY)] if self._high is None else []
        for entry in self._live._all(self._caller, [Hold(at, self._high or blsm.GREATEST_KEY), *last]):
            reply = entry.reply.need()
            if isinstance(entry.command, Get):
                self._greatest = [Row(blsm.GREATEST_KEY, reply.count, reply.text)] if isinstance(reply, Is) else []

    def _more(self, at: str) -> None:
        reply = self._live._all(self._caller, [Next(blsm.MOST_ROWS)])[0].reply
        if isinstance(reply, NoHold):  # it went with its program
            self._hold(at)
            return
        rows = reply.rows if isinstance(reply.need(), Rows) else ()
        self._rows.extend(rows)
        self._at = blsm.successor(rows[-1].key) if len(rows) == blsm.MOST_ROWS else None
        if self._at is None:
            self._rows.extend(self._greatest)

    def close(self) -> None:
        self._at = None
        self._rows.clear()
        if self._caller:
            self._live._left.append(self._caller)
            self._caller = 0

    def __del__(self) -> None:
        self.close()
