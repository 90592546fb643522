"""Where two texts differ, line by line."""

from __future__ import annotations

import difflib
from typing import TypeAlias

Row: TypeAlias = tuple[str, str]
"""A mark and a text: ``-`` and a line of the first text alone, ``+`` and one of the second alone, a
space and one of both, ``@`` and the number of the first text's next line, ``…`` where more differs,
or ``\\`` where the newline at the end is missing.
"""

_AROUND = 2
_MOST_ROWS = 200
_FIRST_LINES = 10
_MOST_PAIRS = 60_000
"""Of longer texts the first lines that differ are shown, and no more is compared."""


def rows(first: str, second: str) -> list[Row]:
    """What differs, with some lines around it; nothing if the texts are equal."""
    old, new = _lines(first), _lines(second)
    if old == new:
        last: list[Row] = [("@", str(len(old))), *((" ", line) for line in old[-1:]), ("\\", "")]
        return [] if first == second else last
    start = max(_alike(old, new) - _AROUND, 0)
    end = max(_alike(old[start:][::-1], new[start:][::-1]) - _AROUND, 0)
    return _compared(old[start : len(old) - end], new[start : len(new) - end], start)


def _lines(text: str) -> list[str]:
    lines = text.split("\n")
    return lines[:-1] if lines[-1] == "" else lines


def _alike(old: list[str], new: list[str]) -> int:
    """How many lines at the beginning are equal."""
    pairs = enumerate(zip(old, new))
    return next((count for count, (a, b) in pairs if a != b), min(len(old), len(new)))


def _compared(old: list[str], new: list[str], start: int) -> list[Row]:
    if len(old) * len(new) > _MOST_PAIRS:
        skipped = _alike(old, new)
        found: list[Row] = [("@", str(start + skipped + 1))]
        found += [("-", line) for line in old[skipped:][:_FIRST_LINES]]
        found += [("+", line) for line in new[skipped:][:_FIRST_LINES]]
        return [*found, ("…", "")]
    found = []
    matcher = difflib.SequenceMatcher(None, old, new, autojunk=False)
    for group in matcher.get_grouped_opcodes(_AROUND):
        found.append(("@", str(start + group[0][1] + 1)))
        for tag, old_from, old_to, new_from, new_to in group:
            if tag == "equal":
                found += [(" ", line) for line in old[old_from:old_to]]
            else:
                found += [("-", line) for line in old[old_from:old_to]]
                found += [("+", line) for line in new[new_from:new_to]]
    return found if len(found) <= _MOST_ROWS else [*found[:_MOST_ROWS], ("…", "")]
