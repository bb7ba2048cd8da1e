#!/usr/bin/env python3
"""Makes docs/PROOFS.md, the index of all clauses of public functions, from the sources: names, and the comments that stand above them.

    proofs.py            writes the index; ends with status 1 where docs/CLAUSES.md names a clause that is gone
    proofs.py --check    writes nothing; ends with status 1 also where the index isn't what the sources make

A clause's line has its name, marks that are read off the clause, the word of the specifications that it states, and the comment above the clause,
or else the one above that word. Clauses without a comment stand behind what the function does. Functions whose clauses are equations alone are
listed by name.
"""

from __future__ import annotations

import re
import sys
from collections import Counter
from collections.abc import Iterator
from functools import cached_property
from pathlib import Path

sys.path.insert(0, str(Path(__file__).resolve().parent))
from names import PAGES, astray, missing, scripts  # noqa: E402
from sources import BINDER, NAME, TESTS, TOP, Clause, Function, Sources, Word  # noqa: E402

PAGE = TOP / "docs/PROOFS.md"
EQUATION = re.compile(r"^\s*(?:IsTrue result ↔|result(?:\.\w+)* ≡|\w+\.(?:new|now)(?:\.\w+)* ≡)")
WRAPPED = re.compile(r"^\s*(?:OnOk|OnErr|IfOk|IfErr) \S+ \((?:λ [^.]*\. )?(.*)\)\s*$")
IMPORT = re.compile(r"Rattle\.(\w+)\.specs\.[\w.]+?\.\{([^}]*)\}")
MANY = 12  # a word that so many clauses state stands at the top, with its comment, and in each line by name alone

HEAD = (
    "# The clauses\n"
    "\n"
    "An index, made by `python3 docs/proofs.py` from the sources: each clause of each public function, with the comment that stands above"
    " it, or above the word that it states. What clauses mean together, and what they leave open, is in `docs/CLAUSES.md` and "
    "`docs/AUDIT.md`.\n"
    "\n"
    "- **[H]** it speaks of an honest disk; **[h]** a part of its word does. **[B]** it speaks of a disk that tells its bytes; **[b]** a "
    "part of its word does. No mark: on every disk, or of no disk.\n"
    "- *Ok*, *Err*: it speaks of that answer. *law*: the function does nothing, and the clause is a theorem over plain values; or it is "
    "what a trait asks of its values.\n"
    "- What stands above a word is said where the word comes first in a crate. A name of a file is one of the crate's `src/`.\n"
    "- Functions under \"Equations\" have clauses of the form `result ≡ ..`, `self.new ≡ ..` or `result` exactly where .. alone.\n"
)


class Index:
    def __init__(self, sources: Sources) -> None:
        self.sources = sources

    @cached_property
    def by_name(self) -> dict[str, list[Word]]:
        found: dict[str, list[Word]] = {}
        for word in self.sources.words:
            if "/specs/" in word.file:
                found.setdefault(word.name, []).append(word)
        return found

    @cached_property
    def imports(self) -> dict[str, dict[str, str]]:
        """By file: from which crate it takes a word."""
        found: dict[str, dict[str, str]] = {}
        for file in {it.file for it in self.sources.functions}:
            text = (TOP / file).read_text(encoding="utf-8")
            found[file] = {name: crate for crate, names in IMPORT.findall(text) for name in NAME.findall(names)}
        return found

    def public(self, crate: str) -> list[Function]:
        return [it for it in self.sources.functions if it.crate == crate and it.is_public and it.promises() and "/tests" not in it.file]

    def word_of(self, clause: Clause, it: Function) -> Word | None:
        """The word that the clause states: the first of the last fact of its conclusion."""
        body = clause.body.strip()
        body = body[: body.rfind("}")].strip() if body.endswith("}") else body
        for name in (name for fact in reversed(facts_of(body)) for name in NAME.findall(BINDER.sub("", fact)) if name[0].isupper()):
            home = self.imports[it.file].get(name, it.crate)
            for word in self.by_name.get(name, []):
                if word.crate == home:
                    return word
        return None

    @cached_property
    def shared(self) -> list[Word]:
        """Words that many clauses state."""
        count: Counter[tuple[str, str]] = Counter()
        words: dict[tuple[str, str], Word] = {}
        for it in (it for crate in self.crates() for it in self.public(crate)):
            for word in filter(None, (self.word_of(clause, it) for clause in it.promises())):
                count[word.crate, word.name] += 1
                words[word.crate, word.name] = word
        return [words[key] for key, often in sorted(count.items()) if often >= MANY]

    def crates(self) -> list[str]:
        return [crate for crate in self.sources.crates if not TESTS.search(crate)]

    def text(self) -> str:
        lines = [HEAD, "Words that many clauses state:", ""]
        lines += [f"- `{word.name}` (`{word.file.removeprefix('crates/')}`): {word.comment or 'see there.'}" for word in self.shared]
        for crate in self.crates():
            functions = self.public(crate)
            if functions:
                lines += ["", f"## `{crate}`", "", *self.of_crate(functions)]
        return "\n".join(lines) + "\n"

    def of_crate(self, functions: list[Function]) -> Iterator[str]:
        equations = [it for it in functions if not it.is_law and all(EQUATION.match(clause.body) for clause in it.promises())]
        seen = set(map(id, self.shared))
        for it in (it for it in functions if it not in equations):
            told, bare = self.of_clauses(it, seen)
            place = f"`{Path(it.file).name}`, *law*" if it.is_law else f"`{Path(it.file).name}`"
            alone = f"{'Clauses: ' if len(bare) > 1 else ''}{', '.join(bare)}." if bare else ""
            yield " ".join(filter(None, [f"- `{it.called()}` ({place}).", sentence(it.comment), alone]))
            yield from (f"  - {line}" for line in told)
        if equations:
            yield f"- Equations: {', '.join(f'`{name}`' for name in dict.fromkeys(it.called() for it in equations))}."

    def of_clauses(self, it: Function, seen: set[int]) -> tuple[list[str], list[str]]:
        """Lines of clauses with a comment; and the other clauses. What stands above a word is said once a crate."""
        told: list[str] = []
        bare: list[str] = []
        for clause in it.promises():
            word = self.word_of(clause, it)
            head = " ".join(filter(None, [f"`{clause.name}`" if clause.name else "", self.marks(clause, word), f"`{word.name}`" if word else ""]))
            is_new = word is not None and id(word) not in seen
            comment = clause.comment or (word.comment if word and is_new else "")
            if word and not clause.comment:
                seen.add(id(word))
            listed = fields(word) if word and is_new and not clause.name and not it.is_law else ""
            if comment or listed:
                told.append(f"{head or 'its clause'}: {' '.join(filter(None, [ended(comment), listed]))}")
            elif head:
                bare.append(head)
        return told, bare

    def marks(self, clause: Clause, word: Word | None) -> str:
        found = []
        for mark, name in (("H", "is_honest"), ("B", "tells_bytes")):
            if re.search(rf"{name}\)* +→", clause.body):
                found.append(f"**[{mark}]**")
            elif name in clause.body or word and any(name in body for body in (word.body, *(it.body for it in word.fields))):
                found.append(f"**[{mark.lower()}]**")
        if re.match(r"\s*(OnOk|IfOk)", clause.body):
            found.append("*Ok*")
        if re.match(r"\s*(OnErr|IfErr|IsErr)", clause.body):
            found.append("*Err*")
        return " ".join(found)


def facts_of(body: str) -> list[str]:
    """The facts of a clause's conclusion, behind its premises and inside of an answer's test."""
    fact = parted(body, "→")[-1]
    wrapped = WRAPPED.match(fact)
    return facts_of(wrapped[1]) if wrapped else parted(fact, "×")


def parted(body: str, sign: str) -> list[str]:
    """The parts of a fact between signs that are in no bracket."""
    depth, parts = 0, [""]
    for letter in body:
        depth += (letter in "([{") - (letter in ")]}")
        if letter == sign and depth == 0:
            parts.append("")
        else:
            parts[-1] += letter
    return parts


def fields(word: Word) -> str:
    """The fields of a record that is a call's one clause, by name."""
    return f"Fields: {', '.join(f'`{it.name}`' for it in word.fields)}." if len(word.fields) >= 5 else ""


def ended(comment: str) -> str:
    return comment if not comment or comment[-1] in ".:" else f"{comment}."


def sentence(comment: str) -> str:
    """The first sentence of a comment."""
    found = re.match(r"(.*?[.:])(?: [A-Z]|$)", comment)
    return found[1] if found else comment


def gone(sources: Sources) -> list[str]:
    """What the page that one reads names, and is not there."""
    known = sources.all_tokens() | scripts()
    found = []
    for page in PAGES:
        text = page.read_text(encoding="utf-8")
        found += [f"{page.relative_to(TOP)}:{number}: {what}" for number, what in [*missing(text, sources, known), *astray(text, sources)]]
    return found


def main() -> None:
    sources = Sources()
    made, lost = Index(sources).text(), gone(sources)
    print("\n".join(lost), end="\n" if lost else "")
    if "--check" in sys.argv[1:]:
        stale = PAGE.read_text(encoding="utf-8") != made
        print("docs/PROOFS.md isn't what the sources make: run docs/proofs.py" if stale else "docs/PROOFS.md is what the sources make")
        sys.exit(bool(stale or lost))
    PAGE.write_text(made, encoding="utf-8")
    sys.exit(bool(lost))


if __name__ == "__main__":
    main()
