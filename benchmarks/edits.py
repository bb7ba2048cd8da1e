#!/usr/bin/env python3
"""Lists the must-fail edits with the functions that they change, and whether these have written answers.

    python3 benchmarks/edits.py             all crates, run at the top of the repository
    python3 benchmarks/edits.py CRATE..     these crates alone

What costs in an edit is a goal without a written answer: the search for one runs to its limit. A row has the crate, the edit, the
function (with its module and its type) and `answers` where a file with its answers stands in `proofs/`, `search` where none does;
`no function` where what the edit changes stands outside of all functions, as a constant; and `broken`, with status 1, where an edit
doesn't apply.
"""
import pathlib
import re
import sys

FUNCTION = re.compile(r"^\s*(?:pub(?:\([a-z]+\))? )?(?:const )?fn (\w+)")
OF_A_TYPE = re.compile(r"^\s*impl\b(?:<[^{]*?>)? (?:.* for )?(\w+)")
WRITTEN = ("Answers.antt", "Proof.antt")


class Broken(Exception):
    """An edit that can't be applied."""


def field_of(line, name):
    """The text of a line `name: TEXT`, or None."""
    head = f"{name}: "
    return line[len(head):] if line.startswith(head) else None


def pairs_of(edit):
    """The file that an edit changes, and its texts, old and new."""
    file, old, pairs = None, None, []
    for line in edit.read_text(encoding="utf-8").splitlines():
        if (text := field_of(line, "file")) is not None:
            file = text
        elif (text := field_of(line, "old")) is not None:
            old = text
        elif (text := field_of(line, "new")) is not None:
            pairs.append((old, text))
    if file is None or not pairs:
        raise Broken("has no file or no texts")
    return file, pairs


def line_of(source, text):
    """The number of the line in which a text begins that stands once in a source."""
    if source.count(text) != 1:
        raise Broken(f"stands {source.count(text)} times: {text}")
    return source[: source.index(text)].count("\n")


def head_above(lines, place, pattern, indent):
    """The nearest line above a place that the pattern fits and that stands further left, with what it names."""
    for number in range(place, -1, -1):
        found = pattern.match(lines[number])
        left = len(lines[number]) - len(lines[number].lstrip())
        if found and left < indent:
            return number, left, found.group(1)
    return None


def function_at(lines, place):
    """The type (or None) and the name of the function that a line stands in; None where it stands in none."""
    own = FUNCTION.match(lines[place])
    left = len(lines[place]) - len(lines[place].lstrip())
    found = (place, left, own.group(1)) if own else head_above(lines, place, FUNCTION, max(left, 1))
    if found is None:
        return None
    number, indent, name = found
    if any(line == " " * indent + "}" for line in lines[number:place]):
        return None
    if indent == 0:
        return None, name
    return head_above(lines, number, OF_A_TYPE, indent)[2], name


def folder_of(crate, file, kind, name):
    """The folder of a function's proof."""
    modules = pathlib.PurePath(file).relative_to("src").with_suffix("").parts
    modules = () if modules in (("lib",), ("main",)) else modules
    return crate.joinpath("proofs", *modules, *([kind] if kind else []), name)


def places_of(crate, edit):
    """Each function that an edit changes, with its answers' kind."""
    file, pairs = pairs_of(edit)
    source = crate.joinpath(file).read_text(encoding="utf-8")
    for old, new in pairs:
        lines, place = source.splitlines(), line_of(source, old)
        found = function_at(lines, place) if file.endswith(".rt") else None
        if found is None:
            yield file, "no function"
        else:
            folder = folder_of(crate, file, *found)
            written = any(folder.joinpath(name).exists() for name in WRITTEN)
            label = "/".join(part for part in folder.relative_to(crate / "proofs").parts)
            yield label, "answers" if written else "search"
        source = source.replace(old, new)


def main():
    top = pathlib.Path("crates")
    names = sys.argv[1:] or sorted(path.name for path in top.iterdir())
    counts, status = {}, 0
    for name in names:
        for edit in sorted(top.joinpath(name, "must-fail").glob("*.edit")):
            try:
                rows = sorted(set(places_of(top / name, edit)))
            except (Broken, OSError) as why:
                rows, status = [(str(why), "broken")], 1
            for place, kind in rows:
                print(f"{name:16} {edit.stem:50} {kind:12} {place}")
                counts[kind] = counts.get(kind, 0) + 1
    print(", ".join(f"{count} {kind}" for kind, count in sorted(counts.items())))
    return status


if __name__ == "__main__":
    sys.exit(main())
