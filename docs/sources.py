"""The names of the sources: functions with their clauses, and the words of the specifications with their fields, each with the comment above it."""

from __future__ import annotations

import re
from collections.abc import Iterator
from dataclasses import dataclass, field
from functools import cached_property
from pathlib import Path

TOP = Path(__file__).resolve().parent.parent
TESTS = re.compile(r"_tests$|^merge_trip$|^hostile_cases$")
NAME = re.compile(r"[^\W\d]\w*")
RT_COMMENT = re.compile(r"^\s*//[/!]? ?(.*)$")
ANTT_COMMENT = re.compile(r"^\s*--+ ?(.*)$")
HOME = re.compile(r"^(pub(?:\(\w+\))? )?(impl(?:<.*?>)?|trait)\s+(?:(\w+)(?:<[^{]*?>)? for )?&?(?:mut )?(\w+)")
FUNCTION = re.compile(r"^(\s*)(pub )?(?:pub\(\w+\) )?(?:const |unsafe )*fn (\w+)")
CLAUSE = re.compile(r"^\s*(requires|ensures)(?: already)?(?: (\w+))? \{(.*)$")
LAW = re.compile(r"^\s+ghost (\w+): (.*)$")
BINDER = re.compile(r"[({][\w' ]+ : [^(){}]*(?:\([^(){}]*\)[^(){}]*)*[)}]")  # what is said for each value of a type
WORD = re.compile(r"^(?:abbrev |unfoldable )?(?:pub )?(?:abbrev |unfoldable )?(?:record |data )?([^\W\d]\w*)(?: .*| *):")
FIELD = re.compile(r"^ +(?:pub )?([^\W\d]\w*) :(.*)$")


@dataclass
class Clause:
    kind: str
    name: str
    comment: str
    body: str


@dataclass
class Function:
    crate: str
    file: str
    home: str  # the type or the trait that it is of
    name: str
    is_public: bool
    comment: str
    clauses: list[Clause] = field(default_factory=list)
    is_law: bool = False  # it does nothing, or is a law of a trait

    def called(self) -> str:
        return f"{self.home}::{self.name}" if self.home else self.name

    def promises(self) -> list[Clause]:
        return [clause for clause in self.clauses if clause.kind == "ensures"]


@dataclass
class Word:
    crate: str
    file: str
    name: str
    comment: str
    body: str = ""
    fields: list[Clause] = field(default_factory=list)


def functions(crate: str, path: Path) -> Iterator[Function]:
    """The functions of a file, each with its clauses, and the laws of its traits. A comment is of what stands next."""
    home, is_open, is_trait, above, last, is_head = "", False, False, [], None, False
    for line in path.read_text(encoding="utf-8").splitlines():
        comment, function, clause, law, place = (it.match(line) for it in (RT_COMMENT, FUNCTION, CLAUSE, LAW, HOME))
        if comment:
            above.append(comment[1])
            continue
        if function:
            if last:
                yield last
            home = home if function[1] else ""
            is_public = bool(function[2]) or bool(home) and is_open
            last, is_head = Function(crate, str(path.relative_to(TOP)), home, function[3], is_public, joined(above)), True
        elif is_head and last and clause:
            last.clauses.append(Clause(clause[1], clause[2] or "", joined(above), clause[3]))
            above = []
            is_head = not line.rstrip().endswith(";")
            continue
        elif law and is_trait:
            yield Function(crate, str(path.relative_to(TOP)), home, law[1], True, joined(above), [Clause("ensures", "", "", law[2])], True)
        elif is_head and last and line.strip() in ("{", "{}"):
            is_head, last.is_law = False, line.strip() == "{}"
        elif is_head and last and last.clauses and line.strip():
            last.clauses[-1].body += " " + line.strip()
            is_head = not line.rstrip().endswith(";")
            continue
        elif line.lstrip().startswith("#["):
            continue
        elif place:
            home, is_trait = place[4], place[2] == "trait"
            is_open = is_trait or place[3] is not None
        above = []
    if last:
        yield last


def words(crate: str, path: Path) -> Iterator[Word]:
    """The words of a specification: records with their fields, and definitions."""
    above, last = [], None
    for line in path.read_text(encoding="utf-8").splitlines():
        comment, inside, word = ANTT_COMMENT.match(line), FIELD.match(line), None if line.startswith("use ") else WORD.match(line)
        if comment:
            above.append(comment[1])
            continue
        if inside and last:
            last.fields.append(Clause("field", inside[1], joined(above), inside[2]))
        elif word:
            if last:
                yield last
            last = Word(crate, str(path.relative_to(TOP)), word[1], joined(above), line)
        elif line.strip() and last and not line.startswith("use "):
            if line.startswith(" ") and last.fields:
                last.fields[-1].body += line
            last.body += "\n" + line
        above = []
    if last:
        yield last


def joined(lines: list[str]) -> str:
    return " ".join(line.strip() for line in lines if line.strip())


class Sources:
    """All crates of crates.txt."""

    def __init__(self) -> None:
        self.crates = [line.split(":")[0] for line in (TOP / "crates.txt").read_text().splitlines() if NAME.match(line)]
        self.functions: list[Function] = []
        self.words: list[Word] = []
        for crate in self.crates:
            for path in self.files(crate, "src", ".rt"):
                self.functions += functions(crate, path)
            for folder in ("specs", "proofs"):
                for path in self.files(crate, folder, ".antt"):
                    self.words += words(crate, path)

    def files(self, crate: str, folder: str, ending: str) -> list[Path]:
        return sorted((TOP / "crates" / crate).glob(f"{folder}/**/*{ending}"))

    @cached_property
    def tokens(self) -> dict[str, set[str]]:
        """The names in each crate's code and specifications, without comments, and those of its files."""
        found: dict[str, set[str]] = {}
        for crate in self.crates:
            names = {crate}
            for folder, ending, comment in (("src", ".rt", "//"), ("specs", ".antt", "--"), ("proofs", ".antt", "--")):
                for path in self.files(crate, folder, ending):
                    names.update([path.stem, *path.relative_to(TOP).parts])
                    for line in path.read_text(encoding="utf-8").splitlines():
                        names.update(NAME.findall(line.split(comment)[0]))
            names.update(path.stem for path in (TOP / "crates" / crate / "must-fail").glob("*.edit"))
            found[crate] = names
        return found

    def all_tokens(self) -> set[str]:
        return set().union(*self.tokens.values())

    @cached_property
    def owners(self) -> dict[str, list[Function | Word]]:
        """Functions and words by name; a function also as `Type::name`."""
        by_name: dict[str, list[Function | Word]] = {}
        for it in [*self.functions, *self.words]:
            for name in {it.name, it.called() if isinstance(it, Function) else it.name}:
                by_name.setdefault(name, []).append(it)
        return by_name

    @cached_property
    def homes(self) -> dict[str, set[str]]:
        """The functions of each type or trait, with their clauses."""
        found: dict[str, set[str]] = {}
        for it in self.functions:
            found.setdefault(it.home, set()).update([it.name, *(clause.name for clause in it.clauses)])
        return found

    def belongs(self, name: str, owner: str, depth: int = 2) -> bool:
        """Whether a clause, a field, or what a clause cites has this name: of the function, the record, the type or the crate that is named."""
        if owner in self.tokens:
            return name in self.tokens[owner]
        return name in self.homes.get(owner, ()) or any(self.is_in(name, it, depth, set()) for it in self.owners.get(owner, []))

    def is_in(self, name: str, it: Function | Word, depth: int, seen: set[str]) -> bool:
        parts = it.clauses if isinstance(it, Function) else it.fields
        bodies = [part.body for part in parts] + ([it.body] if isinstance(it, Word) else [])
        cited = {word for body in bodies for word in NAME.findall(BINDER.sub("", body))}
        if any(part.name == name for part in parts) or name in cited and name[0].isupper():
            return True
        records = {word for word in cited if word[0].isupper()} - seen
        seen |= records
        words = [word for one in records for word in self.owners.get(one, []) if isinstance(word, Word)]
        return depth > 0 and any(self.is_in(name, word, depth - 1, seen) for word in words)
