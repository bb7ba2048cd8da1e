#!/usr/bin/env python3
"""Draws the pacing of a run from its printed history: the memory table's weight and the charge after each entry, the swaps, and the merge quanta of writes
and of works, with the work bound of the heaviest write.

    plot_pacing.py HISTORY > pacing.svg        (HISTORY may be -, standard input; --half, --ratio, --low, --quantum as given to `make`)

The history prints neither the table's weight nor the charge, so the run is done again here, over plain dictionaries, by the rules of the pacing. It wants a
history of a run that began with an empty store (`open charge 0`).

One caller without workers has one run: then what the history does print (each entry's quanta, the charge of a refused write, the peak, the swaps) must come
out the same, else it says where it doesn't and ends with status 1. Of several callers, or workers, the history doesn't tell in which order they paid, and of
the workers' quanta only the sum. Then the quanta are drawn as they are printed, and weight, charge and swaps as the rules give them where each command is
done whole before the next one and nobody helps: the picture says so.
"""
import argparse
import bisect
import sys


MOST_TAIL = 64  # of a text and the tail behind it, so many bytes stay


def weight(key, record):
    return 13 + len(key) + len(record[2])


def fold(newer, older):
    """A record over an older one. A delta has what it adds and its tail, which may be empty."""
    if newer[0] != "delta" or older is None:
        return newer
    if older[0] == "tomb":
        return ("base", newer[1], newer[2])
    return (older[0], (older[1] + newer[1]) % 2**64, (older[2] + newer[2])[-MOST_TAIL:] if newer[2] else older[2])


def settle(record):
    """A record with nothing older under it."""
    return None if record[0] == "tomb" else ("base", record[1], record[2])


class Run:
    """Records in key order, and their weight."""

    def __init__(self):
        self.records, self.keys, self.weight = {}, [], 0

    def put(self, key, record):
        old = self.records.get(key)
        if old is None:
            bisect.insort(self.keys, key)
        else:
            self.weight -= weight(key, old)
        self.records[key] = record
        self.weight += weight(key, record)

    def after(self, key):
        """The least key above this one (or above none), if any."""
        place = 0 if key is None else bisect.bisect_right(self.keys, key)
        return self.keys[place] if place < len(self.keys) else None


class Merge:
    """What a running merge has taken and made, of a newer run and an older one."""

    def __init__(self, is_deep):
        self.is_deep, self.cursor, self.taken, self.out = is_deep, None, 0, Run()

    def is_done(self, newer, older):
        return newer.after(self.cursor) is None and older.after(self.cursor) is None

    def take(self, newer, older, quantum):
        """A quantum: whole groups of a key until so much is taken or nothing is left. Answers the weight."""
        taken = 0
        while taken < quantum and not self.is_done(newer, older):
            key = min(key for key in (newer.after(self.cursor), older.after(self.cursor)) if key is not None)
            group = [run.records[key] for run in (newer, older) if key in run.records]
            taken += sum(weight(key, record) for record in group)
            record = group[0] if len(group) == 1 else fold(*group)
            record = settle(record) if self.is_deep else record
            if record is not None:
                self.out.put(key, record)
            self.cursor = key
        self.taken += taken
        return taken


class Tree:
    def __init__(self, half, ratio, low, quantum):
        self.half, self.low, self.quantum = half, low, quantum
        self.mark = 2 * ratio * half
        self.gears = (4 * ratio + 4, ratio + 2)
        self.a, self.b, self.c1, self.c1x, self.c2 = Run(), Run(), Run(), Run(), Run()
        self.snow = self.deep = None
        self.spring = self.admitted = self.since_rotation = 0
        self.debts = [[0] * 16, [0] * 16]
        self.passes = self.deeps = self.peak = self.at_begin = 0
        self.capacity = ratio * self.mark

    def table(self):
        return self.a.weight + self.b.weight

    def note_peak(self):
        self.peak = max(self.peak, self.table())

    def pass_is_done(self):
        return self.snow is not None and self.snow.is_done(self.a, self.c1)

    def deep_is_done(self):
        return self.deep is not None and self.deep.is_done(self.c1x, self.c2)

    def rotate(self):
        self.c1x, self.c1 = self.c1, Run()
        self.deep, self.since_rotation, self.debts[1] = Merge(True), 0, [0] * 16
        self.deep_input = self.c1x.weight + self.c2.weight

    def swap_deep(self):
        self.c2, self.c1x, self.deep, self.debts[1] = self.deep.out, Run(), None, [0] * 16
        self.deeps += 1

    def swap_pass(self):
        self.c1, self.a, self.b, self.snow, self.debts[0] = self.snow.out, self.b, Run(), None, [0] * 16
        self.spring = self.a.weight
        self.passes += 1
        if self.c1.weight >= self.mark:
            self.rotate()

    def begin(self):
        self.snow, self.admitted, self.at_begin = Merge(False), 0, self.table()

    def charge(self):
        """The components as last committed, and what was written since."""
        memory = self.table() if self.snow is None else self.at_begin + self.admitted
        return self.c1.weight + self.c1x.weight + self.c2.weight + memory

    def work_bound(self, heavy):
        """The most quanta of a write of this weight."""
        return sum(-(-gear * heavy // self.quantum) for gear in self.gears)

    def admit(self, seat, key, record):
        heavy = weight(key, record)
        if self.deep_is_done():
            self.swap_deep()
        if self.pass_is_done():
            self.swap_pass()
        if self.snow is None and self.spring + heavy > self.low:
            self.begin()
        behind = self.snow is not None and self.snow.cursor is not None and key <= self.snow.cursor
        table = self.b if behind else self.a
        table.put(key, fold(record, table.records.get(key)))
        if self.snow is None:
            self.spring += heavy
        else:
            self.admitted += heavy
            self.debts[0][seat] += self.gears[0] * heavy
        if self.deep is not None:
            self.since_rotation += heavy
            self.debts[1][seat] += self.gears[1] * heavy
        self.note_peak()

    def forgive(self, which, seat, merge, is_over, admitted):
        debts = self.debts[which]
        ahead = merge is not None and merge.taken + sum(debts) - debts[seat] >= self.gears[which] * admitted
        if is_over or ahead:
            debts[seat] = 0

    def pay(self, seat):
        """Pays what the seat owes. Answers the quanta."""
        quanta = 0
        while True:
            self.forgive(0, seat, self.snow, self.snow is None or self.pass_is_done(), self.admitted)
            self.forgive(1, seat, self.deep, self.deep is None or self.deep_is_done(), self.since_rotation)
            if self.debts[0][seat]:
                taken = self.snow.take(self.a, self.c1, self.quantum)
                self.debts[0][seat] = max(0, self.debts[0][seat] - taken)
            elif self.debts[1][seat]:
                taken = self.deep.take(self.c1x, self.c2, self.quantum)
                self.debts[1][seat] = max(0, self.debts[1][seat] - taken)
            else:
                return quanta
            quanta += 1

    def is_behind(self):
        """The deep merge's progress is less than that of C1's way to its mark."""
        return self.deep.taken * (self.mark - self.half) < self.since_rotation * self.deep_input

    def turn(self):
        """A turn of work. Answers its quanta, or nothing where there is nothing to do."""
        if self.deep_is_done():
            self.swap_deep()
        elif self.pass_is_done():
            self.swap_pass()
        elif self.deep is not None and (self.snow is None or self.is_behind()):
            self.deep.take(self.c1x, self.c2, self.quantum)
            return 1
        elif self.snow is not None:
            self.snow.take(self.a, self.c1, self.quantum)
            return 1
        elif self.table():
            self.begin()
        elif self.c1.weight:
            self.rotate()
        else:
            return None
        self.note_peak()
        return 0

    def work(self, turns):
        quanta = 0
        for _ in range(turns):
            made = self.turn()
            if made is None:
                break
            quanta += made
        return quanta


WRITES = ("put", "add", "tail", "del", "new", "swap")


def record_of(words):
    if words[0] in ("put", "new", "swap"):
        return ("base", int(words[-2]), "" if words[-1] == "-" else words[-1])
    if words[0] == "add":
        return ("delta", int(words[2]), "")
    if words[0] == "tail":
        return ("delta", 0, words[2])
    return ("tomb", 0, "")


class Entry:
    """A printed entry, and what stands after it as the run is done again."""

    def __init__(self, line):
        head, rest = line.split(" => ")
        self.number, seat, command = head.split(" ", 2)
        self.seat, self.words = int(seat) - 1, command.split(" ")
        self.reply, quanta = rest.rsplit(" q", 1)
        self.quanta = int(quanta)
        self.is_write = self.words[0] in WRITES and self.reply == "ok"
        self.is_work = self.words[0] == "work"
        self.weight = weight(self.words[1], record_of(self.words)) if self.words[0] in WRITES else 0
        self.table = self.charge = self.passes = self.deeps = 0

    def redo(self, tree):
        """Does it again. Answers its quanta by the rules."""
        if self.is_write:
            tree.admit(self.seat, self.words[1], record_of(self.words))
            return tree.pay(self.seat)
        return tree.work(int(self.words[1])) if self.is_work and self.reply.startswith("did") else 0


class Drawn:
    """A history, done again."""

    def __init__(self, lines, tree):
        self.entries = [Entry(line) for line in lines[1:-1]]
        end = lines[-1].split(" ")
        self.peak, self.by_callers, self.by_workers, self.passes, self.deeps = (int(end[i]) for i in (2, 6, 8, 10, 11))
        told = {entry.reply.split(" ")[0] for entry in self.entries}
        # one caller without workers and without a fault: the run can be done again, step by step
        self.is_exact = len({entry.seat for entry in self.entries}) <= 1 and not self.by_workers and not told & {"fault", "damaged", "stopped"}
        for entry in self.entries:
            self.redo(entry, tree)
        if self.is_exact and [self.peak, self.passes, self.deeps] != [tree.peak, tree.passes, tree.deeps]:
            sys.exit(f"the history ends with peak and swaps {[self.peak, self.passes, self.deeps]}, the rules give {[tree.peak, tree.passes, tree.deeps]}")

    def redo(self, entry, tree):
        passes, deeps, charge = tree.passes, tree.deeps, tree.charge()
        quanta = entry.redo(tree)
        if self.is_exact and quanta != entry.quanta:
            sys.exit(f"entry {entry.number}: the history has q{entry.quanta}, the rules give q{quanta}")
        if self.is_exact and entry.reply.startswith("full") and entry.reply != f"full {charge}":
            sys.exit(f"entry {entry.number}: the history has {entry.reply}, the rules give the charge {charge}")
        entry.table, entry.charge = tree.table(), tree.charge()
        entry.passes, entry.deeps = tree.passes - passes, tree.deeps - deeps


WIDTH, LEFT, TOP, GAP, LINE = 1000, 80, 64, 52, 14


def level(value, most, height):
    return height - height * value / most


def columns(values):
    """The values by the column in which they are drawn: one each, or where there are more than the picture is wide some neighbours in each."""
    count = min(WIDTH, len(values))
    return [values[i * len(values) // count : (i + 1) * len(values) // count] for i in range(count)]


class Picture:
    """An SVG of panels, one below the other. A column that stands for several entries shows the range of a curve's values, and the greatest of stems."""

    def __init__(self, count):
        self.step, self.y, self.out = WIDTH / max(1, min(WIDTH, count)), TOP, []

    def text(self, x, y, words, more=""):
        words = words.replace("&", "&amp;").replace("<", "&lt;")
        self.out.append(f'<text x="{x:.1f}" y="{y:.1f}"{more}>{words}</text>')

    def across(self, y, label, name="", colour="#bbb", lower=0):
        """A line over the whole width, with its value at the left and its name at the right, both so much lower where another line is near above."""
        self.out.append(f'<line x1="{LEFT}" x2="{LEFT + WIDTH}" y1="{y:.1f}" y2="{y:.1f}" stroke="{colour}" stroke-dasharray="4 3"/>')
        self.text(4, y + 4 + lower, str(label))
        if name:
            self.text(LEFT + WIDTH - 4, y - 3 + lower, name, ' text-anchor="end" fill="#666"')

    def curve(self, title, values, most, marks, height, colour):
        self.text(LEFT, self.y - 8, title)
        above = None
        for value, name in (*marks, (0, "")):
            y = self.y + level(value, most, height)
            self.across(y, value, name, lower=LINE if above is not None and y - above < LINE else 0)
            above = y
        at, path = height, f"M{LEFT} {self.y + height}"
        for column in columns(values):
            path += f"h{self.step:.4g}"
            for value in (min(column), max(column), column[-1]):
                to = round(level(value, most, height))
                path += f"v{to - at}" if to != at else ""
                at = to
        self.out.append(f'<path fill="none" stroke="{colour}" d="{path}"/>')
        self.y += height + GAP

    def stems(self, title, values, most, height, colour, bound=None):
        """One stem for each column that has a value; a bound is a line."""
        self.text(LEFT, self.y - 8, title)
        self.across(self.y + height, 0)
        if bound:
            self.across(self.y + level(bound[0], most, height), bound[0], bound[1], "#c62828")
        else:
            self.across(self.y, most)
        path = ""
        for i, column in enumerate(columns(values)):
            if max(column):
                path += f"M{LEFT + (i + 1) * self.step:.5g} {self.y + height}V{self.y + level(max(column), most, height):.5g}"
        self.out.append(f'<path stroke="{colour}" stroke-width="{max(0.5, self.step * 0.7):.2f}" d="{path}"/>')
        self.y += height + GAP

    def bars(self, title, parts):
        """Sums beside one another, as long as their share."""
        self.text(LEFT, self.y - 8, title)
        most, x = max(1, sum(value for _, value, _ in parts)), LEFT
        for name, value, colour in parts:
            self.out.append(f'<rect x="{x:.1f}" y="{self.y}" width="{WIDTH * value / most:.1f}" height="16" fill="{colour}"/>')
            x += WIDTH * value / most
        self.text(LEFT, self.y + 32, ", ".join(f"{name} {value}" for name, value, _ in parts))
        self.y += 16 + GAP

    def whole(self):
        size = f'width="{LEFT + WIDTH + 20}" height="{self.y}"'
        return "\n".join([f'<svg xmlns="http://www.w3.org/2000/svg" {size} font-family="sans-serif" font-size="12">', '<rect width="100%" height="100%" fill="white"/>', *self.out, "</svg>"])


REDONE = "Done again by the rules, and the same as printed: quanta, peak, swaps."
NOT_REDONE = (
    "Several callers, workers or faults: quanta are as printed; of the workers' only the sum is known. Weight, charge and swaps are what the rules give",
    "where each command is done whole before the next one and no worker helps: not what was in this run.",
)


def draw(drawn, tree):
    entries = drawn.entries
    picture = Picture(len(entries))
    for i, line in enumerate((REDONE,) if drawn.is_exact else NOT_REDONE):
        picture.text(LEFT, 16 + 15 * i, line, ' fill="#444"')
    high = 2 * tree.half
    marks = ((high, "high mark"), (tree.half, "half spring"), (tree.low, "low mark"))
    picture.curve("weight of the memory table after each entry, in bytes", [e.table for e in entries], high, marks, 240, "#1565c0")
    full = ((tree.capacity, "capacity"), (tree.capacity - tree.half, "a del alone passes"))
    picture.curve("charge after each entry, in bytes", [e.charge for e in entries], tree.capacity, full, 120, "#2e7d32")
    for title, values, colour in (("swaps that ended a pass", [e.passes for e in entries], "#6a1b9a"), ("swaps that ended a deep merge", [e.deeps for e in entries], "#ef6c00")):
        picture.stems(f"{title}, by entry: {sum(values)}", values, max([1, *values]), 24, colour)
    heaviest = max([e.weight for e in entries if e.is_write], default=0)
    bound = tree.work_bound(heaviest)
    writes = [e.quanta if e.is_write else 0 for e in entries]
    works = [e.quanta if e.is_work else 0 for e in entries]
    line = (bound, f"work bound of the heaviest write ({heaviest} bytes)") if bound else None
    picture.stems(f"merge quanta of each write, {max(writes, default=0)} at most", writes, max([1, bound, *writes]), 100, "#37474f", line)
    if any(e.is_work for e in entries):
        picture.stems(f"merge quanta of each work, {max(works)} at most", works, max(1, *works, 1), 80, "#5d4037")
    parts = (("writes of callers", sum(writes), "#37474f"), ("works of callers", sum(works), "#5d4037"), ("workers (a sum alone)", drawn.by_workers, "#00838f"))
    picture.bars("all merge quanta", parts)
    picture.text(LEFT, picture.y - 22, "entry 1")
    picture.text(LEFT + WIDTH, picture.y - 22, f"entry {len(entries)}", ' text-anchor="end"')
    return picture.whole()


def main():
    parser = argparse.ArgumentParser(description="Draws the pacing of a printed history as an SVG.")
    parser.add_argument("history")
    for name, value in (("half", 32768), ("ratio", 4), ("low", 16384), ("quantum", 4096)):
        parser.add_argument(f"--{name}", type=int, default=value)
    args = parser.parse_args()
    with sys.stdin if args.history == "-" else open(args.history, encoding="ascii") as file:
        lines = file.read().splitlines()
    if len(lines) < 2 or lines[0] != "open charge 0" or not lines[-1].startswith("end c0 "):
        sys.exit("this is no history that began with an empty store")
    tree = Tree(args.half, args.ratio, args.low, args.quantum)
    print(draw(Drawn(lines, tree), tree))


if __name__ == "__main__":
    main()
