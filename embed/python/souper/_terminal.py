"""Messages at a terminal, as `souper_items` shows them there, without color.

What a terminal may obey, or does not show, is another character or a number, and a long line is cut.
"""

from __future__ import annotations

import unicodedata

COLUMNS = 160
"""The most columns of a line that are shown."""

_OTHERS = {
    **{code: chr(0x2400 + code) for code in range(0x20)},
    0x7F: "\u2421",
    **dict.fromkeys((*range(0x80, 0xA0), *range(0x202A, 0x202F), *range(0x2066, 0x206A)), "\ufffd"),
    # Bytes of a name that is not UTF-8.
    **dict.fromkeys(range(0xDC80, 0xDD00), "\ufffd"),
}


def _is_unseen(character: str) -> bool:
    """Whether a terminal shows the character as nothing, by itself."""
    is_in_syllable = "\u1160" <= character <= "\u11ff"
    return is_in_syllable or unicodedata.category(character) in ("Mn", "Me", "Cf", "Zl", "Zp")


def _shown(character: str) -> str:
    """The character, or what is shown in its place."""
    other = _OTHERS.get(ord(character), character)
    return f"<U+{ord(other):04X}>" if _is_unseen(other) else other


def _columns(shown: str) -> int:
    is_wide = len(shown) == 1 and unicodedata.east_asian_width(shown) in ("F", "W")
    return 2 if is_wide else len(shown)


def around(line: str, caret: int = 0) -> tuple[str, int]:
    """A line, or of a long one what is around the character at `caret`, and the columns before."""
    parts = [_shown(character) for character in line]
    widths = [_columns(part) for part in parts]
    before, total = sum(widths[:caret]), sum(widths)
    first = min(max(before - COLUMNS // 2, 0), max(total - COLUMNS, 0))
    column, skipped, kept = 0, 0, ["…"] if first else []
    for part, width in zip(parts, widths):
        after = column + width
        if column < first:
            skipped = after
        elif after <= first + COLUMNS:
            kept.append(part)
        column = after
    if first + COLUMNS < total:
        kept.append("…")
    return "".join(kept), before - skipped + (first > 0)


def message(text: str) -> str:
    """The lines of a message."""
    return "\n".join(around(line)[0] for line in text.split("\n"))


def parse_error(text: str) -> str:
    """The four lines of a parse error, with the caret below its character."""
    head, frame, source, mark = text.rsplit("\n", 3)
    number, bar, line = source.partition("| ")
    before = line.encode()[: len(mark) - len(frame) - 2].decode(errors="ignore")
    shown, columns = around(line, len(before))
    return "\n".join((message(head), frame, f"{number}{bar}{shown}", f"{frame} {' ' * columns}^"))
