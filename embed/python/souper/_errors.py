"""Why a call has no answer."""

from __future__ import annotations

import re
from dataclasses import dataclass
from enum import Enum
from typing import NamedTuple

from ._checks import documented


@documented(
    offset="In bytes, from the first byte of the text.",
    line="From 1.",
    column="In bytes and from 1.",
)
class Location(NamedTuple):
    """Where a text is at fault.

    It is where the token at fault begins or, if the text ended where more is wanted, where the text
    ends, without the white space at its end.
    """

    offset: int
    line: int
    column: int


def four_lines(message: str, line: int, column: int, source: str) -> str:
    """What a parse error shows: why and where, the line, and a caret below the column."""
    caret = " " * (column - 1) + "^"
    return f"unknown:{line}:{column}: {message}\n     |\n{line:>4} | {source}\n     | {caret}"


class Refused(ValueError):
    """A text spells no list of items of the kind.

    Its fields:

    shown: why and where, in four lines without a newline at the end; `str` of it. Where is the
        `location` or, without one, `line` and `column`.
    message: why, alone.
    location: where the text is at fault; `None` if memory ran out for it.
    at_end: whether the text ended where more is wanted; `False` without a location.
    hint: what the writer may have meant, for a person, in one line; `None` if there is no hint.
    input: which text of the call was refused: 0 the first, 1 the second.
    offset: the number of bytes before the error.
    line: the line of the last of these bytes, or of the first byte if there is none; from 1.
    column: the column of that byte, in bytes and from 1.

    `args` are `shown`, `offset`, `line`, `column` and `input`.
    """

    def __init__(
        self,
        shown: str,
        offset: int,
        line: int,
        column: int,
        input: int = 0,
        location: Location | None = None,
        at_end: bool = False,
        hint: str | None = None,
    ) -> None:
        super().__init__(shown, offset, line, column, input)
        self.shown = shown
        self.offset = offset
        self.line = line
        self.column = column
        self.input = input
        self.location = location
        self.at_end = at_end
        self.hint = hint

    @property
    def message(self) -> str:
        """Why, alone: the first line of `shown` without the place."""
        return self.shown.rsplit("\n", 3)[0].partition(": ")[2]

    def __str__(self) -> str:
        return self.shown


class NotUtf8(UnicodeError):
    """Bytes of a stream are not UTF-8. Its cause is the `UnicodeDecodeError`.

    Its fields:

    offset: where the first byte is that is in no character.
    line: its line, from 1.
    """

    def __init__(self, offset: int, line: int) -> None:
        super().__init__(offset, line)
        self.offset = offset
        self.line = line

    def __str__(self) -> str:
        return f"line {self.line}: not UTF-8 at byte {self.offset}"


class FlawReason(Enum):
    """Why an item is not well formed, in the order in which the reasons are looked for.

    A reason that only a newer library has is ``FlawReason.UNKNOWN``, with its number in its value:
    ``unknown(10)``.
    """

    INVALID_NAME = "the name is not % and letters, digits, _ or ."
    EMPTY_BITS = "a list of bits is empty"
    ZERO_WIDTH = "a width is 0"
    USE_BEFORE_DEFINITION = "it uses what is not a statement before it"
    NOT_AN_ASSIGNMENT = "an operand is no assignment"
    NOT_A_BLOCK = "what it uses as a block is none"
    VALUE_COUNT = "it has not one value per predecessor of its block"
    PREDECESSOR_OUT_OF_RANGE = "its block has no such predecessor"
    DUPLICATE_NAME = "an assignment before it has the same name"

    @classmethod
    def _missing_(cls, value: object) -> FlawReason | None:
        if not isinstance(value, str) or not _UNKNOWN.fullmatch(value):
            return None
        reason = object.__new__(cls)
        reason._name_, reason._value_ = "UNKNOWN", value
        # One object for each number. If two threads make it, the first stays.
        found: FlawReason = cls._value2member_map_.setdefault(value, reason)  # type: ignore[assignment]
        return found


_UNKNOWN = re.compile(r"unknown\(\d+\)")


def place(location: int | str, name: object = None) -> str:
    """The words for a statement, by its position, or for a last line, by its word."""
    if isinstance(location, str):
        return location if _UNKNOWN.fullmatch(location) else f"{location} line"
    if not isinstance(name, str) or not name:
        return f"statement {location}"
    # Of a name that is not UTF-8, what can be printed.
    return f"statement {location} ({name.encode(errors='backslashreplace').decode()})"


@documented(
    location='The position of a statement; "infer", "result" or "cand" for that line; or what a newer '
    'library calls by a number, such as "unknown(5)".',
    reason="Which condition of a well-formed item fails.",
    name="The name of the statement, if it is an assignment.",
)
@dataclass(frozen=True, slots=True)
class Flaw:
    """The first flaw of an item: of its needed statements in their order, then of its last lines.

    `str` of it says where and why.
    """

    location: int | str
    reason: FlawReason
    name: str | None = None

    def __str__(self) -> str:
        return f"{place(self.location, self.name)}: {self.reason.value}"


class NotWellFormed(ValueError):
    """An item is not well formed, so it has no canonical text.

    In a well-formed item a needed statement uses assignments before it, and the last lines use
    assignments; the needed assignments have distinct names of the characters that a name may have;
    numbers are in range and lists of bits are not empty; a phi uses a block and has a value for
    each of its predecessors, and a block's path condition has the index of one of them.

    Its fields:

    index: the number of items before the item.
    flaw: its first `Flaw`; `None` if memory ran out for it.
    """

    def __init__(self, index: int, flaw: Flaw | None = None) -> None:
        super().__init__(index, flaw)
        self.index = index
        self.flaw = flaw

    def __str__(self) -> str:
        why = f": {self.flaw}" if self.flaw else ""
        return f"item {self.index} is not well formed{why}"


class NoCode(ValueError):
    """Bytes are the code of no list of items of the kind.

    Its fields:

    index: the number of items that were read before.
    offset: the number of bytes before the place where the code of an item is missing.
    """

    def __init__(self, index: int, offset: int) -> None:
        super().__init__(index, offset)
        self.index = index
        self.offset = offset

    def __str__(self) -> str:
        return f"no code of an item at byte {self.offset}, after {self.index} items"
