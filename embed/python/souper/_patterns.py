"""Patterns, in the syntax of `re`, of the common forms of the parts of a code.

crates/souper_code/src/lib.rt describes the parts. What matches a pattern is the code of such a
part, and does not begin another that matches it, so that there is one way to match.
"""

from __future__ import annotations

import functools
import re

from ._values import Kind, Op


def _size(number: int) -> bytes:
    return re.escape(number.to_bytes(8, "little"))


def _one_of(forms: list[bytes]) -> bytes:
    return b"(?:" + b"|".join(forms) + b")"


def _lists(element: bytes, lengths: range | tuple[int, ...]) -> bytes:
    """Lists of these lengths, of which each element has the pattern."""
    return _one_of([_size(n) + element + b"{%d}" % n for n in lengths])


def _instructions() -> bytes:
    """Instructions with as many operands as each has, the commonest numbers first."""
    forms = []
    for arity in (2, 1, 3, 0):
        ops = b"".join(b"\\x%02x" % op.number for op in Op if op.arity == arity)
        forms.append(b"[" + ops + b"]" + _size(arity) + OPERAND * arity)
    return _one_of(forms)


_WIDTHS = (1, 2, 3, 4, 8, 16, 24, 32, 48, 64, 128)
_TYPE = rb"(?:\x00|\x01..)"
OPERAND = rb"(?:\x00.{8}|\x01.{16}" + _TYPE + b")"
_NAME = _one_of([_size(n) + rb"%%[0-9A-Za-z_.]{%d}" % (n - 1) for n in range(2, 65)])
_ATTRIBUTE = rb"(?:\x00" + _lists(rb"[\x00-\x02]", _WIDTHS) + rb"|[\x01-\x05]|\x06.|\x07.{32})"
_ATTRIBUTES = _lists(_ATTRIBUTE, range(4))
_PHI = rb"\x02.{8}" + _lists(OPERAND, range(9))
_RHS = rb"(?:\x05" + _instructions() + rb"|[\x00\x03\x04]|" + _PHI + rb"|\x01.{4})"
_CONDITION = rb"(?:\x01|\x02.{12})" + OPERAND * 2
STATEMENT = rb"(?:\x00" + _NAME + _TYPE + _RHS + _ATTRIBUTES + b"|" + _CONDITION + b")"
_ROOT_ATTRIBUTES = _lists(rb"(?:\x00" + _lists(rb"[\x00\x01]", _WIDTHS) + rb"|\x01)", range(3))
_INFER = rb".{8}" + _ROOT_ATTRIBUTES
LAST_LINES = {
    Kind.LHS: rb"\x00" + _INFER,
    Kind.RHS: rb"\x01" + OPERAND,
    Kind.REP: rb"(?:\x02" + _INFER + OPERAND + rb"|\x03" + OPERAND * 2 + _ROOT_ATTRIBUTES + b")",
}
# The parts of a statement that matches: the name and the type, the right side, and the attributes
# if there are any; or the condition. Where a name ends is clear: its characters begin no type.
PARTS = (
    rb"\x00.{8}(%[0-9A-Za-z_.]+" + _TYPE + b")(" + _RHS + rb")(?:\x00{8}|(" + _ATTRIBUTES + b"))"
    b"|(" + _CONDITION + b")"
)


@functools.cache
def compiled(pattern: bytes) -> re.Pattern[bytes]:
    """The compiled pattern. It is compiled when it is first wanted."""
    return re.compile(pattern, re.DOTALL)
