#!/usr/bin/env python3
"""Keeps counters of words in a store: each word of the texts is added to its count, and the most frequent ones are printed.

    word_counts.py STORE TEXT..        (a TEXT may be -, standard input; the store is made where there is none; --most N)

The store stays open meanwhile. Standard input is counted line by line as it comes, and each other text at once; what was counted is durable before
more is read. Where the program is refused, the refusal and what to do is printed, with status 1.
"""
import argparse
import os
import re
import sys
from collections import Counter
from collections.abc import Iterable
from pathlib import Path

sys.path.insert(0, str(Path(__file__).resolve().parent.parent / "python"))
from blsm import Add, BlsmError, Store  # noqa: E402
from live import Live  # noqa: E402


def words_of(text: str) -> Counter[str]:
    """How often each word stands there, in small letters; words of more than 64 letters are left out."""
    return Counter(word for word in re.findall(r"[a-z]+", text.lower()) if len(word) <= 64)


def parts_of(name: str) -> Iterable[str]:
    """A text, or standard input line by line."""
    return sys.stdin if name == "-" else [Path(name).read_text(encoding="utf-8", errors="replace")]


def add_counts(live: Live, counts: Counter[str]) -> None:
    for entry in live.batch(Add(word, counts[word]) for word in sorted(counts)):
        entry.reply.need()


def main() -> None:
    parser = argparse.ArgumentParser(description="Keeps counters of words in a store.")
    parser.add_argument("store")
    parser.add_argument("texts", nargs="*", metavar="TEXT")
    parser.add_argument("--most", type=int, default=10, help="how many words are printed")
    args = parser.parse_args()
    try:
        store = Store(args.store) if os.path.exists(args.store) else Store.make(args.store)
        with store.live() as live:
            for name in args.texts:
                for part in parts_of(name):
                    add_counts(live, words_of(part))
            rows = sorted(live.rows("a", "{"), key=lambda row: (-row.count, row.key))
    except BlsmError as error:
        sys.exit(f"word_counts: {error}")
    for row in rows[: args.most]:
        print(f"{row.count:8} {row.key}")


if __name__ == "__main__":
    main()
