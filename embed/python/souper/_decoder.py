"""The items of a code, whose values are made when they are first asked for.

`decode` finds where each item ends. For that it matches the code with a pattern that has the common
forms, and only these; an item of another form is decoded at once, by `CodeReader`.
"""

from __future__ import annotations

import struct
from collections import deque
from collections.abc import Callable
from typing import Any, TypeVar

from ._checks import check_type
from ._code import OPS, CodeReader, Damaged
from ._errors import NoCode
from ._patterns import LAST_LINES, OPERAND, PARTS, STATEMENT, compiled
from ._values import (
    Assignment,
    BlockPc,
    Coded,
    Ending,
    Instruction,
    Item,
    Kind,
    Operand,
    Pc,
    Rhs,
    Statement,
)

_T = TypeVar("_T")


_U64 = struct.Struct("<Q").unpack_from
_new = object.__new__
_set_code, _set_end = (Coded.__dict__[name].__set__ for name in ("_code", "_end"))
_set_statements, _set_ending = (Item.__dict__[name].__set__ for name in ("statements", "ending"))
_get_code, _get_end = (Coded.__dict__[name].__get__ for name in ("_code", "_end"))
_delete_statements = Item.__dict__["statements"].__delete__


class _Cutter:
    """Finds where items of a kind end."""

    def __init__(self, kind: Kind) -> None:
        self._four = compiled(STATEMENT + b"{4}").match
        self._one = compiled(STATEMENT).match
        self._last = compiled(LAST_LINES[kind]).match

    def ends(self, code: bytes, start: int) -> tuple[int, int] | None:
        """Where the statements and the item end that begin at `start`; `None` if the item has a
        form without a pattern, or none."""
        [count] = _U64(code, start)
        at = start + 8
        while count:
            step, match = (4, self._four) if count >= 4 else (1, self._one)
            found = match(code, at)
            if found is None:
                return None
            at = found.end()
            count -= step
        last = self._last(code, at)
        return None if last is None else (at, last.end())


def decode(kind: Kind | str, code: bytes | bytearray | memoryview) -> list[Item]:
    """The items whose code the bytes are, as `encode` and ``souper_read`` of C write it.

    `NoCode` if the bytes are the code of no list of items of the kind. A length in the code that is
    larger than the code costs neither time nor memory.

    >>> items = read("lhs", "%x = var infer %x")
    >>> decode("lhs", encode("lhs", items)) == items
    True
    >>> decode("lhs", bytes(8))
    Traceback (most recent call last):
        ...
    souper.NoCode: no code of an item at byte 0, after 0 items
    """
    kind = Kind(kind)
    check_type("code", code, "bytes", bytes, bytearray, memoryview)
    code = bytes(code)
    ends_of = _Cutter(kind).ends
    items: list[Item] = []
    at = 0
    while at < len(code):
        start = at
        try:
            ends = ends_of(code, start)
            item = _new(Item)
            if ends is None:
                ends = _decode_at_once(item, kind, code, start)
        except UnicodeDecodeError as error:
            raise NoCode(len(items), start) from error
        except (Damaged, IndexError, struct.error):
            raise NoCode(len(items), start) from None
        end, at = ends
        _set_code(item, code[start:at])
        _set_end(item, end - start)
        items.append(item)
    return items


def _decode_at_once(item: Item, kind: Kind, code: bytes, start: int) -> tuple[int, int]:
    """Gives an item its values. Where its statements and it end."""
    reader = CodeReader(code, start)
    _set_statements(item, reader.sequence(reader.statement))
    end = reader.at
    _set_ending(item, reader.ending())
    if item.kind is not kind or reader.at > len(code):
        raise Damaged
    return end, reader.at


class _Kept(dict[bytes, _T]):
    """What codes mean. Values are immutable, so that one object serves all that are equal.

    It has room for a number of codes, and is emptied when it did not know eight times as many.
    """

    def __init__(self, make: Callable[[bytes], _T], most: int = 4096) -> None:
        super().__init__()
        self._make = make
        self._most = most
        self._unknown = 0

    def __missing__(self, code: bytes) -> _T:
        value = self._make(code)
        if len(self) < self._most:
            if len(code) < 64:
                self[code] = value
            return value
        self._unknown += 1
        if self._unknown > 8 * self._most:
            self.clear()
            self._unknown = 0
        return value


def _read_by(method: Callable[[CodeReader], _T]) -> Callable[[bytes], _T]:
    return lambda code: method(CodeReader(code, 0))


def _name_and_width(code: bytes) -> tuple[str, int | None]:
    name, tag, width = code.partition(b"\x01")
    return (name.decode(), int.from_bytes(width, "little")) if tag else (name[:-1].decode(), None)


def _operands(code: bytes, start: int = 8) -> tuple[Operand, ...]:
    return tuple([_OPERANDS[operand] for operand in compiled(OPERAND).findall(code, start)])


def _condition(code: bytes) -> Statement:
    if code[0] == 1:
        return Pc(*_operands(code, 1))
    reader = CodeReader(code, 1)
    return BlockPc(reader.value(), reader.u32(), *_operands(code, 13))


class _Assignment:
    """An `Assignment` whose fields are not set yet: setting frozen fields takes twice as long."""

    __slots__ = ("name", "width", "value", "attributes")


class _Instruction:
    """An `Instruction` whose fields are not set yet."""

    __slots__ = ("op", "operands")


def _right_side(code: bytes) -> Rhs:
    if code[0] != 5:
        return CodeReader(code, 0).rhs()
    made: Any = _new(_Instruction)
    made.op = OPS[code[1]]
    made.operands = _LISTS[code[2:]]
    made.__class__ = Instruction
    rhs: Instruction = made
    return rhs


_NAMES = _Kept(_name_and_width)
_OPERANDS = _Kept(_read_by(CodeReader.operand))
_LISTS = _Kept(_operands)
_RIGHT_SIDES = _Kept(_right_side)
_ATTRIBUTE_LISTS = _Kept(_read_by(CodeReader.attributes))
_CONDITIONS = _Kept(_condition)
_ENDINGS = _Kept(_read_by(CodeReader.ending))


def values_of_code(item: Item) -> tuple[tuple[Statement, ...], Ending] | None:
    """The values of an item's code, if it has one. The item keeps them, as `Item` says."""
    try:
        code, end = _get_code(item), _get_end(item)
    except AttributeError:
        return None
    is_first = end >= 0
    if not is_first:
        end = ~end
    statements = _statements(code, end)
    ending = _ENDINGS[code[end:]]
    _set_statements(item, statements)
    _set_ending(item, ending)
    if is_first and len(statements) <= _SMALL:
        _set_end(item, ~end)
        _RECENT.append(item)
        if len(_RECENT) > _MOST_RECENT:
            _drop_statements(_RECENT.popleft())
    return statements, ending


Coded._values_of_code = staticmethod(values_of_code)


def _statements(code: bytes, end: int) -> tuple[Statement, ...]:
    statements: list[Statement] = []
    add = statements.append
    made: Any
    for name, rhs, attributes, condition in compiled(PARTS).findall(code, 8, end):
        if condition:
            add(_CONDITIONS[condition])
            continue
        made = _new(_Assignment)
        made.name, made.width = _NAMES[name]
        made.value = _RIGHT_SIDES[rhs]
        made.attributes = _ATTRIBUTE_LISTS[attributes] if attributes else ()
        made.__class__ = Assignment
        add(made)
    return tuple(statements)


# The items that made their values last, for the first time. A walk over many items would otherwise
# fill the memory with values that it is done with. An item that makes its values again keeps them.
_RECENT: deque[Item] = deque()
_MOST_RECENT = 64
_SMALL = 64


def _drop_statements(item: Item) -> None:
    try:
        _delete_statements(item)
    except AttributeError:
        # Two threads made the values at once, and noted the item twice.
        pass
