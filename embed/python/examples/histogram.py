#!/usr/bin/env python3
"""Counts the instructions of a store of Souper IR, or its distinct items.

    PYTHONPATH=embed/python embed/python/examples/histogram.py [--keys] KIND FILE...

Prints each instruction after the number of statements that have it, the greatest number first.
Items that are the same graph modulo names are counted once, and of an item the needed statements.
With --keys: prints the key of each distinct item after the number of items that have it.
"""

import argparse
import sys
from collections import Counter
from collections.abc import Iterable
from pathlib import Path

import souper


def shown(text: str) -> str:
    """The text; at a terminal without what that may obey."""
    if not sys.stderr.isatty():
        return text
    return "".join(c if c.isprintable() else "\ufffd" for c in text)


def texts(kind: str, paths: Iterable[Path]) -> Counter[str]:
    """The canonical text of each distinct item, with the names %0, %1, .., and its count."""
    found: Counter[str] = Counter()
    for path in paths:
        try:
            records = souper.records(kind, path.read_bytes(), rename=True)
        except souper.Refused as refusal:
            _, line, column = refusal.location or (0, refusal.line, refusal.column)
            hint = f"\nhint: {shown(refusal.hint)}" if refusal.hint else ""
            sys.exit(shown(f"{path}:{line}:{column}: {refusal.message}") + hint)
        found.update(record.text for record in records)
    return found


def instructions(kind: str, distinct: Iterable[str]) -> Counter[str]:
    """How many statements of the items have each instruction. The texts are canonical."""
    return Counter(
        statement.value.op.value
        for item in souper.read(kind, "\n".join(distinct))
        for statement in item.statements
        if isinstance(statement, souper.Assignment)
        and isinstance(statement.value, souper.Instruction)
    )


def main() -> None:
    parser = argparse.ArgumentParser(description="Counts the instructions of a store of Souper IR.")
    parser.add_argument("--keys", action="store_true", help="count distinct items by their keys")
    parser.add_argument("kind", choices=[kind.value for kind in souper.Kind])
    parser.add_argument("files", nargs="+", type=Path, metavar="FILE")
    arguments = parser.parse_args()
    counts = texts(arguments.kind, arguments.files)
    if arguments.keys:
        counts = Counter({souper.key(arguments.kind, text): n for text, n in counts.items()})
    else:
        counts = instructions(arguments.kind, counts)
    for name, count in counts.most_common():
        print(f"{count:8} {name}")


if __name__ == "__main__":
    main()
