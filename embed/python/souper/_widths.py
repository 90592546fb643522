"""The widths of items."""

from __future__ import annotations

import ctypes
from dataclasses import dataclass
from enum import Enum

from . import _library
from ._calls import _LINES, _failure, _flaw
from ._checks import documented
from ._code import encode
from ._errors import NotWellFormed, place
from ._library import DONE, NO_WIDTHS, NOT_WELL_FORMED, NUMBERS, Outcome, WidthNumbers
from ._values import Assignment, Item, Kind


class WidthReason(Enum):
    """Why an item has no widths.

    A reason that only a newer library has is ``WidthReason.UNKNOWN``.
    """

    TYPED_BLOCK = "a block has no width"
    FACT_ON_COMPUTED = "only an input has facts"
    BLOCK_AS_VALUE = "a block is no value"
    PAIR_AS_VALUE = "only extractvalue takes the value of a word .with.overflow"
    NOT_A_PAIR = "extractvalue takes the value of a word .with.overflow"
    BAD_INDEX = "the index of extractvalue is 0 or 1"
    CONFLICT = "two widths clash"
    UNDETERMINED = "a width is missing"
    NOT_WIDER = "the result is not wider than the operand"
    NOT_NARROWER = "the result is not narrower than the operand"
    BYTE_SWAP = "the width of bswap is a multiple of 16"
    CONSTANT_TOO_WIDE = "a constant does not fit its width"
    BIT_COUNT = "not as many bits as the width"
    SIGN_BITS = "more sign bits than the width"
    RANGE = "not a range of the width"
    UNKNOWN = "unknown"


# By their numbers.
_REASONS = dict(enumerate(WidthReason, 1))


@documented(
    location='The position of a statement; "infer", "result" or "cand" for that line; or what a newer '
    'library calls by a number, such as "unknown(5)".',
    reason="What is wrong there.",
    widths="The two widths that clash.",
    name="The name of the statement, if it is an assignment.",
)
@dataclass(frozen=True, slots=True)
class WidthFlaw:
    """The first flaw of an item that has no widths. `str` of it says where and why."""

    location: int | str
    reason: WidthReason
    widths: tuple[int, int] | None = None
    name: str | None = None

    def __str__(self) -> str:
        why = self.reason.value
        if self.widths:
            left, right = self.widths
            why = f"i{left} and i{right} clash"
        return f"{place(self.location, self.name)}: {why}"


class NoWidths(ValueError):
    """An item has no widths. Its field `flaw` is the first `WidthFlaw`."""

    def __init__(self, flaw: WidthFlaw) -> None:
        super().__init__(flaw)
        self.flaw = flaw

    def __str__(self) -> str:
        return f"no widths: {self.flaw}"


@documented(
    results="Of the result of each statement; 0 of a block and a path condition.",
    operands="Of the operands of each statement. The condition of a select has one bit besides.",
    root="Of the operands of the last lines.",
)
@dataclass(frozen=True, slots=True)
class Widths:
    """The widths of an item, in bits, by position; 0 of a statement that it does not need."""

    results: tuple[int, ...]
    operands: tuple[int, ...]
    root: int


def _width_flaw(found: WidthNumbers, item: Item) -> WidthFlaw:
    reason = _REASONS.get(found.reason, WidthReason.UNKNOWN)
    widths = (found.left, found.right) if reason is WidthReason.CONFLICT else None
    if found.location != 1:
        line = _LINES.get(found.location) or _library.unknown(found.location)
        return WidthFlaw(line, reason, widths)
    statements = item.statements
    statement = statements[found.position] if found.position < len(statements) else None
    name = statement.name if isinstance(statement, Assignment) else None
    return WidthFlaw(found.position, reason, widths, name)


def widths(kind: Kind | str, item: Item) -> Widths:
    """The widths of an item.

    `NoWidths` if it has none, with its first flaw. `NotWellFormed`, `ValueError` and `TypeError` as
    `write` raises them.

    >>> [item] = read("lhs", "%x:i8 = var  %y = add %x, 1  infer %y")
    >>> widths("lhs", item)
    Widths(results=(8, 8), operands=(0, 8), root=8)
    >>> [item] = read("lhs", "%x:i8 = var  %y:i9 = add %x, 1  infer %y")
    >>> widths("lhs", item)
    Traceback (most recent call last):
        ...
    souper.NoWidths: no widths: statement 1 (%y): i8 and i9 clash
    """
    kind = Kind(kind)
    code = encode(kind, [item])
    count = len(item.statements)
    # A pointer to no element may be null.
    out = (ctypes.c_uint32 * max(2 * count, 1))()
    found: WidthNumbers = _library.LIBRARY.souper_widths(
        NUMBERS[kind], code, len(code), out, 2 * count
    )
    if found.status == NO_WIDTHS:
        raise NoWidths(_width_flaw(found, item))
    if found.status == NOT_WELL_FORMED:
        raise NotWellFormed(0, _flaw(kind, code, item))
    if found.status != DONE:
        raise _failure(kind, Outcome(status=found.status), code, b"")
    return Widths(tuple(out[:count]), tuple(out[count : 2 * count]), found.root)
