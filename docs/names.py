#!/usr/bin/env python3
"""Finds each name in backticks of the documents in the sources, and each file that they name. Prints those that are not there, with their lines.

A name is a word of the code, of the specifications or of the scripts. Where a document says `clause` of `function`, or puts them side by side,
the clause must be the function's own, or a field of a record that its clauses name; so with a field of a record, and with what stands in a crate.
In a page with a section for each crate a line begins with names of that crate. In a row of a table a name is in the file that stands behind it.
"""

from __future__ import annotations

import re
import sys
from collections.abc import Iterator
from pathlib import Path

sys.path.insert(0, str(Path(__file__).resolve().parent))
from sources import NAME, TOP, Sources  # noqa: E402

SPAN = re.compile(r"`([^`]+)`")
PATH = re.compile(r"(?<![\w/.])((?:crates|docs|python|benchmarks|examples)/[\w./*-]+)")
IN_CRATE = re.compile(r"(?<![\w/])([a-z_]+/(?:src|specs|proofs|must-fail)/[\w./*-]+)")  # a path below crates/
NAMED = re.compile(r"[^\W\d]\w*(?:(?:::|\.)[^\W\d]\w*)*")
# `a`, `b` and `c` of `d`
OF = re.compile(r"(`[^`]+`(?:(?:, | and | or )`[^`]+`)*) of `([^`]+)`")
# `a`, `b` `c`, where c is of the one or the other
BESIDE = re.compile(r"(`[^`]+`(?:(?:, | and )`[^`]+`)*) `([^`]+)`")
FOREIGN = {"qN", "Lts", "Proof", "requires", "ensures"}  # of what is printed, of the checker and of the language
PAGES = (TOP / "docs/CLAUSES.md",)  # with a section for each crate
SCRIPTS = ("python/*", "benchmarks/*", "examples/*", "docs/*.py")


def documents() -> list[Path]:
    """All that are written by hand: the index of clauses is made of the sources."""
    return [TOP / "README.md", *(path for path in sorted((TOP / "docs").glob("*.md")) if path.name != "PROOFS.md")]


def scripts() -> set[str]:
    """The names of the scripts and of their files, and those of files at the top. The tests of this one name what is gone."""
    found = {name for path in TOP.iterdir() for name in NAME.findall(path.name)} | FOREIGN
    for path in (path for pattern in SCRIPTS for path in TOP.glob(pattern) if path.name != "test_documents.py"):
        found.update(NAME.findall(path.name))
        if path.suffix in (".py", ".cc", ".sh", ".txt", ".rs", ".c"):
            found.update(NAME.findall(path.read_text(encoding="utf-8")))
    return found


def missing(text: str, sources: Sources, known: frozenset[str] | set[str]) -> Iterator[tuple[int, str]]:
    """The lines with what isn't there."""
    for number, line in enumerate(text.splitlines(), 1):
        for path in PATH.findall(line) + [f"crates/{path}" for path in IN_CRATE.findall(line)]:
            if "/out/" not in path and not list(TOP.glob(path.rstrip("./"))):
                yield number, f"no file {path}"
        for span in SPAN.findall(line):
            if NAMED.fullmatch(span):
                yield from ((number, f"no name `{name}`") for name in NAME.findall(span) if name not in known)
        if line.startswith("|"):
            yield from ((number, what) for what in elsewhere(line))
        for names, owner in OF.findall(line):
            yield from ((number, f"no `{name}` of `{owner}`") for name in SPAN.findall(names) if is_apart(name, owner, sources))
        for owners, name in BESIDE.findall(line):
            if all(is_apart(name, owner, sources) for owner in SPAN.findall(owners)):
                yield number, f"no `{name}` of {owners}"


def astray(text: str, sources: Sources) -> Iterator[tuple[int, str]]:
    """What stands at the head of a line of a crate's section, and is neither declared in that crate nor a clause there."""
    crates: list[str] = []
    for number, line in enumerate(text.splitlines(), 1):
        if line.startswith("#"):
            crates = [name for name in SPAN.findall(line) if name in sources.tokens]
        if not crates or not line.startswith("- "):
            continue
        owners: list[str] = []
        for name in SPAN.findall(head_of(line)):
            if not NAMED.fullmatch(name):
                continue
            if is_declared(name, crates, sources):
                owners.append(name)
            elif not any(sources.belongs(last(name), owner) for owner in owners or called_in(crates, sources)):
                yield number, f"no `{name}` of {', '.join(owners) or ', '.join(crates)}"


def head_of(line: str) -> str:
    """What stands before the first colon outside of backticks."""
    return SPAN.sub(lambda span: span[0].replace(":", "\0"), line).split(":")[0].replace("\0", ":")


def is_declared(name: str, crates: list[str], sources: Sources) -> bool:
    is_home = name in sources.homes and any(name in sources.tokens[crate] for crate in crates)
    return name in crates or is_home or any(it.crate in crates for it in sources.owners.get(name, []))


def called_in(crates: list[str], sources: Sources) -> list[str]:
    return [it.called() for it in sources.functions if it.crate in crates]


def elsewhere(line: str) -> Iterator[str]:
    """In a row of a table: names that aren't in the file that stands behind them."""
    for piece in (piece for cell in line.split("|") for piece in cell.split(";")):
        names: list[str] = []
        for span in SPAN.findall(piece):
            if IN_CRATE.fullmatch(span) and (TOP / "crates" / span).is_file():
                there = NAME.findall((TOP / "crates" / span).read_text(encoding="utf-8"))
                yield from (f"no `{name}` in {span}" for name in names if not set(NAME.findall(name)) <= set(there))
            elif NAMED.fullmatch(span):
                names.append(span)


def is_apart(name: str, owner: str, sources: Sources) -> bool:
    """Whether both are names, and the one isn't the other's."""
    are_names = NAMED.fullmatch(name) and NAMED.fullmatch(owner) and name not in FOREIGN
    return bool(are_names) and not sources.belongs(last(name), last(owner) if owner.count("::") > 1 else owner)


def last(name: str) -> str:
    return re.split(r"::|\.", name)[-1]


def all_missing(sources: Sources, known: frozenset[str] | set[str]) -> list[str]:
    found = [(path, *it) for path in documents() for it in missing(path.read_text(encoding="utf-8"), sources, known)]
    found += [(page, *it) for page in PAGES for it in astray(page.read_text(encoding="utf-8"), sources)]
    return [f"{path.relative_to(TOP)}:{number}: {what}" for path, number, what in found]


def main() -> None:
    sources = Sources()
    found = all_missing(sources, sources.all_tokens() | scripts())
    print("\n".join(found) or "each name is there")
    sys.exit(bool(found))


if __name__ == "__main__":
    main()
