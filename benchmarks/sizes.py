#!/usr/bin/env python3
"""Prints the lines of code, specification and proof of each layer and crate, with imports and bytes, as the tables of docs/MEASURED.md.

Lines without blank ones, comments and tests; imports are counted by themselves. Clauses and ghost items of the code count as specification, as all of
specs/ does; proofs/ is proof. Bytes are those of the same lines, without their margins. Of a crate of tests alone the root file counts.
"""
import os
import re
from dataclasses import dataclass, fields

IMPORT = re.compile(r"(pub(\(crate\))? )?use |ghost use ")
CLAUSE = re.compile(r"(requires|ensures|decreases|ghost )")
TESTS = re.compile(r"_tests$|^merge_trip$|^hostile_cases$")
LAWS = ("disk_trait", "pacing", "tree_machine", "paced_tree", "alone_run", "tree_file", "core_pace", "core_lists", "core_chain")
# where a layer begins, in the order of crates.txt
LAYERS = {"refusal": "leaves", "merge_step": "middle", "script_text": "text and program", "store_serve": "middle", "blsm_run": "text and program"}
NAMES = {
    "leaves": "leaves: up to the sorted runs",
    "middle": "middle: merges up to scripts over a disk",
    "laws": "laws: crates without code of their own",
    "text and program": "text and program",
    "tests": "tests alone",
}


@dataclass
class Size:
    """Lines, and bytes."""

    code: int = 0
    specification: int = 0
    proof: int = 0
    imports: int = 0
    code_bytes: int = 0
    specification_bytes: int = 0
    proof_bytes: int = 0

    def add(self, kind, line):
        setattr(self, kind, getattr(self, kind) + 1)
        if kind != "imports":
            name = f"{kind}_bytes"
            setattr(self, name, getattr(self, name) + len(line.encode()))

    def __add__(self, other):
        return Size(*(getattr(self, it.name) + getattr(other, it.name) for it in fields(self)))

    def cells(self):
        return [f"{getattr(self, it.name):,}" for it in fields(self)]


def is_test(crate, path):
    inside = os.path.basename(path) == "tests.rt" or f"{os.sep}tests{os.sep}" in path
    return inside or (bool(TESTS.search(crate)) and os.path.basename(path) not in ("lib.rt", "main.rt"))


def of_code(lines, size):
    """The lines of code and of clauses in a file."""
    depth, in_import = 0, False
    for line in map(str.strip, lines):
        if not line or line.startswith("//"):
            continue
        if in_import or IMPORT.match(line):
            size.add("imports", line)
            in_import = not line.endswith(";")
        elif depth > 0 or CLAUSE.match(line):
            size.add("specification", line)
            depth = max(depth + line.count("{") - line.count("}"), 0)
        else:
            size.add("code", line)


def of_logic(lines, size, kind):
    for line in map(str.strip, lines):
        if line and not line.startswith("--"):
            size.add("imports" if re.match(r"(pub )?use ", line) else kind, line)


def files(folder, ending):
    return sorted(os.path.join(at, name) for at, _, names in os.walk(folder) for name in names if name.endswith(ending))


def of_crate(crate):
    folder, size = f"crates/{crate}", Size()
    for path in files(f"{folder}/src", ".rt"):
        if not is_test(crate, path):
            with open(path, encoding="utf-8") as lines:
                of_code(lines, size)
    for part, kind in (("specs", "specification"), ("proofs", "proof")):
        for path in files(f"{folder}/{part}", ".antt"):
            with open(path, encoding="utf-8") as lines:
                of_logic(lines, size, kind)
    return size


def listed():
    """The crates, in the order of crates.txt, each with its layer."""
    layer = ""
    with open("crates.txt", encoding="utf-8") as lines:
        for crate in (line.split(":")[0] for line in lines if re.match(r"[a-z]", line)):
            layer = LAYERS.get(crate, layer)
            yield crate, "tests" if TESTS.search(crate) else "laws" if crate in LAWS else layer


def table(first, rows):
    heads = (first, "Code", "Specification", "Proof", "Imports", "Bytes of code", "Of specification", "Of proof")
    print(f"| {' | '.join(heads)} |\n|{'---|' * len(heads)}")
    for name, size in rows:
        print(f"| {name} | {' | '.join(size.cells())} |")


def ratio(size):
    """Lines of specification and of proof for a line of code, and so for bytes."""
    lines = [f"{part / size.code:.2f}" for part in (size.specification, size.proof)]
    return " | ".join([*lines, *(f"{part / size.code_bytes:.2f}" for part in (size.specification_bytes, size.proof_bytes))])


def main():
    os.chdir(os.path.join(os.path.dirname(os.path.abspath(__file__)), ".."))
    sizes = [(crate, layer, of_crate(crate)) for crate, layer in listed()]
    layers = [(layer, sum((size for _, its, size in sizes if its == layer), Size())) for layer in NAMES]
    whole = sum((size for _, _, size in sizes), Size())
    table("Layer", [*((NAMES[layer], size) for layer, size in layers), ("all", whole)])
    print("\n| Layer | Specification a line of code | Proof | Bytes of specification a byte of code | Of proof |\n|---|---|---|---|---|")
    for name, size in [*((NAMES[layer], size) for layer, size in layers if layer not in ("laws", "tests")), ("all", whole)]:
        print(f"| {name} | {ratio(size)} |")
    print()
    table("Crate", [(f"`{crate}`", size) for crate, _, size in sizes])


if __name__ == "__main__":
    main()
