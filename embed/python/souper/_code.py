"""The code: the bytes by which the library and the package exchange items.

It is little-endian, and nothing in it is aligned. crates/souper_code/src/lib.rt describes it.
"""

from __future__ import annotations

import struct
from collections.abc import Callable, Iterable
from typing import TypeVar

from ._checks import check_int, check_range, check_type
from ._errors import place
from ._values import (
    Assignment,
    Attribute,
    Block,
    BlockPc,
    Cand,
    Constant,
    DemandedBits,
    Ending,
    HarvestedFromUse,
    HasExternalUses,
    Infer,
    Instruction,
    Item,
    Kind,
    KnownBits,
    Negative,
    NonNegative,
    NonZero,
    Op,
    Operand,
    Pc,
    Phi,
    PowerOfTwo,
    Range,
    Replace,
    ReservedConst,
    ReservedInst,
    Result,
    Rhs,
    RootAttribute,
    SignBits,
    Statement,
    Value,
    Var,
    kind_of_code,
    known_code,
)

OPS = tuple(Op)
# The attributes without contents, from number 1.
FLAGS: tuple[Attribute, ...] = (
    PowerOfTwo(),
    Negative(),
    NonNegative(),
    NonZero(),
    HasExternalUses(),
)
KNOWN_BITS = "01x"
DEMANDED_BITS = "01"

_T = TypeVar("_T")


class Damaged(Exception):
    """The bytes do not begin with a code."""


_U64 = struct.Struct("<Q").unpack_from
_U32 = struct.Struct("<I").unpack_from
_U16 = struct.Struct("<H").unpack_from


class CodeReader:
    """A code from a byte on.

    Each length is compared with the rest before bytes are taken. Past the end, and at a byte that no
    code has there, a method raises `Damaged`, or what Python raises there.
    """

    __slots__ = ("code", "at")

    def __init__(self, code: bytes, at: int) -> None:
        self.code = code
        self.at = at

    def take(self, length: int) -> bytes:
        start, end = self.at, self.at + length
        if end > len(self.code):
            raise Damaged
        self.at = end
        return self.code[start:end]

    def byte(self) -> int:
        at = self.at
        self.at = at + 1
        return self.code[at]

    def size(self) -> int:
        at = self.at
        self.at = at + 8
        number: int = _U64(self.code, at)[0]
        return number

    def u32(self) -> int:
        at = self.at
        self.at = at + 4
        number: int = _U32(self.code, at)[0]
        return number

    def number(self) -> int:
        return int.from_bytes(self.take(16), "little", signed=True)

    def width(self) -> int | None:
        at = self.at
        tag = self.code[at]
        if tag == 0:
            self.at = at + 1
            return None
        if tag != 1:
            raise Damaged
        self.at = at + 3
        bits: int = _U16(self.code, at + 1)[0]
        return bits

    def length(self) -> int:
        # Each element of a list has one byte or more.
        length = self.size()
        if length > len(self.code) - self.at:
            raise Damaged
        return length

    def sequence(self, element: Callable[[], _T]) -> tuple[_T, ...]:
        length = self.length()
        return tuple([element() for _ in range(length)]) if length else ()

    def bits(self, alphabet: str) -> str:
        bits = self.take(self.size())
        if bits.translate(None, bytes(range(len(alphabet)))):
            raise Damaged
        return bits.translate(alphabet.encode().ljust(256)).decode()

    def value(self) -> Value:
        return Value(self.size())

    def operand(self) -> Operand:
        match self.byte():
            case 0:
                return self.value()
            case 1:
                return Constant(self.number(), self.width())
        raise Damaged

    def operands(self) -> tuple[Operand, ...]:
        return self.sequence(self.operand)

    def instruction(self) -> Instruction:
        number = self.byte()
        if number >= len(OPS):
            raise Damaged
        op = OPS[number]
        operands = self.operands()
        if len(operands) != op.arity:
            raise Damaged
        return Instruction(op, operands)

    def rhs(self) -> Rhs:
        match self.byte():
            case 0:
                return Var()
            case 1:
                return Block(self.u32())
            case 2:
                return Phi(self.value(), self.operands())
            case 3:
                return ReservedInst()
            case 4:
                return ReservedConst()
            case 5:
                return self.instruction()
        raise Damaged

    def attribute(self) -> Attribute:
        match self.byte():
            case 0:
                return KnownBits(self.bits(KNOWN_BITS))
            case 6:
                return SignBits(self.byte())
            case 7:
                return Range(self.number(), self.number())
            case flag if flag <= len(FLAGS):
                return FLAGS[flag - 1]
        raise Damaged

    def root_attribute(self) -> RootAttribute:
        match self.byte():
            case 0:
                return DemandedBits(self.bits(DEMANDED_BITS))
            case 1:
                return HarvestedFromUse()
        raise Damaged

    def attributes(self) -> tuple[Attribute, ...]:
        return self.sequence(self.attribute)

    def statement(self) -> Statement:
        match self.byte():
            case 0:
                name = self.take(self.size()).decode()
                return Assignment(name, self.width(), self.rhs(), self.attributes())
            case 1:
                return Pc(self.operand(), self.operand())
            case 2:
                return BlockPc(self.value(), self.u32(), self.operand(), self.operand())
        raise Damaged

    def infer(self) -> Infer:
        return Infer(self.value(), self.sequence(self.root_attribute))

    def ending(self) -> Ending:
        match self.byte():
            case 0:
                return self.infer()
            case 1:
                return Result(self.operand())
            case 2:
                return Replace(self.infer(), self.operand())
            case 3:
                return Cand(self.operand(), self.operand(), self.sequence(self.root_attribute))
        raise Damaged


class _Writer:
    """The bytes of a code so far.

    What has no code is a `TypeError` or a `ValueError`, about the statement or the line at `place`.
    """

    __slots__ = ("code", "place")

    def __init__(self) -> None:
        self.code = bytearray()
        self.place: int | str | None = None

    def integer(self, what: str, number: int, length: int, signed: bool = False) -> None:
        try:
            self.code += number.to_bytes(length, "little", signed=signed)
        except (AttributeError, OverflowError):
            check_int(what, number)
            half = 1 << (8 * length - 1)
            check_range(what, number, -half if signed else 0, half - 1 if signed else 2 * half - 1)
            raise

    def tag(self, number: int) -> None:
        self.code.append(number)

    def size(self, number: int) -> None:
        self.code += number.to_bytes(8, "little")

    def number(self, what: str, number: int) -> None:
        self.integer(what, number, 16, signed=True)

    def width(self, width: int | None) -> None:
        self.tag(0 if width is None else 1)
        if width is not None:
            self.integer("width", width, 2)

    def sequence(self, what: str, write: Callable[[_T], None], elements: tuple[_T, ...]) -> None:
        try:
            self.size(len(elements))
        except TypeError:
            check_type(what, elements, "a tuple", tuple)
            raise
        for element in elements:
            write(element)

    def bits(self, bits: str, alphabet: str) -> None:
        check_type("bits", bits, "a str", str)
        if not set(bits) <= set(alphabet):
            raise ValueError(f"{bits!r} has a character other than {' '.join(alphabet)}")
        self.size(len(bits))
        self.code += bytes(map(alphabet.index, bits))

    def value(self, what: str, value: Value) -> None:
        check_type(what, value, "a Value", Value)
        self.integer("position", value.position, 8)

    def operand(self, operand: Operand) -> None:
        match operand:
            case Value(position):
                self.tag(0)
                self.integer("position", position, 8)
            case Constant(value, width):
                self.tag(1)
                self.number("a constant", value)
                self.width(width)
            case _:
                check_type("an operand", operand, "a Value or a Constant", Value, Constant)

    def instruction(self, op: Op, operands: tuple[Operand, ...]) -> None:
        check_type("op", op, "an Op", Op)
        check_type("operands", operands, "a tuple", tuple, list)
        check_arity(op, len(operands))
        self.tag(op.number)
        self.sequence("operands", self.operand, operands)

    def rhs(self, rhs: Rhs) -> None:
        match rhs:
            case Var():
                self.tag(0)
            case Block(predecessors):
                self.tag(1)
                self.integer("predecessors", predecessors, 4)
            case Phi(block, values):
                self.tag(2)
                self.value("block", block)
                self.sequence("values", self.operand, values)
            case ReservedInst():
                self.tag(3)
            case ReservedConst():
                self.tag(4)
            case Instruction(op, operands):
                self.tag(5)
                self.instruction(op, operands)
            case _:
                raise TypeError(f"value is {rhs!r}, which is no right side")

    def attribute(self, attribute: Attribute) -> None:
        match attribute:
            case KnownBits(bits):
                self.tag(0)
                self.bits(bits, KNOWN_BITS)
            case SignBits(count):
                self.tag(6)
                self.integer("count", count, 1)
            case Range(low, high):
                self.tag(7)
                self.number("low", low)
                self.number("high", high)
            case flag if flag in FLAGS:
                self.tag(FLAGS.index(flag) + 1)
            case _:
                raise TypeError(f"attributes has {attribute!r}, which is no attribute")

    def root_attribute(self, attribute: RootAttribute) -> None:
        match attribute:
            case DemandedBits(bits):
                self.tag(0)
                self.bits(bits, DEMANDED_BITS)
            case HarvestedFromUse():
                self.tag(1)
            case _:
                raise TypeError(f"attributes has {attribute!r}, which is none of the last lines")

    def name(self, name: str) -> None:
        check_type("name", name, "a str", str)
        try:
            encoded = name.encode()
        except UnicodeEncodeError as error:
            raise ValueError("the name is not UTF-8") from error
        self.size(len(encoded))
        self.code += encoded

    def statement(self, statement: Statement) -> None:
        match statement:
            case Assignment(name, width, value, attributes):
                self.tag(0)
                self.name(name)
                self.width(width)
                self.rhs(value)
                self.sequence("attributes", self.attribute, attributes)
            case Pc(x, y):
                self.tag(1)
                self.operand(x)
                self.operand(y)
            case BlockPc(block, predecessor, x, y):
                self.tag(2)
                self.value("block", block)
                self.integer("predecessor", predecessor, 4)
                self.operand(x)
                self.operand(y)
            case _:
                raise TypeError(f"{statement!r} is no statement")

    def infer(self, infer: Infer) -> None:
        self.place = "infer"
        check_type("infer", infer, "an Infer", Infer)
        self.value("value", infer.value)
        self.sequence("attributes", self.root_attribute, infer.attributes)

    def ending(self, ending: Ending) -> None:
        match ending:
            case Infer():
                self.tag(0)
                self.infer(ending)
            case Result(operand):
                self.place = "result"
                self.tag(1)
                self.operand(operand)
            case Replace(infer, result):
                self.tag(2)
                self.infer(infer)
                self.place = "result"
                self.operand(result)
            case Cand(lhs, rhs, attributes):
                self.place = "cand"
                self.tag(3)
                self.operand(lhs)
                self.operand(rhs)
                self.sequence("attributes", self.root_attribute, attributes)
            case _:
                self.place = None
                raise TypeError(f"ending is {ending!r}, which is no last line")

    def item(self, kind: Kind, item: Item) -> None:
        self.place = None
        statements = item.statements
        check_type("statements", statements, "a tuple", tuple, list)
        self.size(len(statements))
        for self.place, statement in enumerate(statements):
            self.statement(statement)
        self.ending(item.ending)
        if item.kind is not kind:
            self.place = None
            raise ValueError(f"it is of the kind {item.kind.value}, not {kind.value}")

    def told(self, error: Exception, index: int, item: Item) -> Exception:
        """The error of an item at an index, which says where it is."""
        where = ""
        if isinstance(self.place, int):
            where = place(self.place, getattr(item.statements[self.place], "name", None)) + ": "
        elif self.place is not None:
            where = place(self.place) + ": "
        told = TypeError if isinstance(error, TypeError) else ValueError
        return told(f"item {index} has no code: {where}{error}")


def check_arity(op: Op, count: int) -> None:
    if count != op.arity:
        operands = "operand" if op.arity == 1 else "operands"
        raise ValueError(f"{op.value} has {op.arity} {operands}, not {count}")


def encode(kind: Kind | str, items: Iterable[Item]) -> bytes:
    """The code of items of the kind, with all their statements, as ``souper_write`` of C takes it.

    The items need not be well formed. `ValueError` if one has no code: it is of another kind, a
    number does not fit into its bytes, an instruction has too many or too few operands, a list of
    bits has another character, or a name is not UTF-8. `TypeError` if a part is of another type.
    The message names the item, and the statement or the line, as that of `NotWellFormed` does:

    >>> wide = Item((Assignment("%x", 65536, Var()),), Infer(Value(0)))
    >>> encode("lhs", [wide])
    Traceback (most recent call last):
        ...
    ValueError: item 0 has no code: statement 0 (%x): width 65536 is not in 0 to 65535
    """
    kind = Kind(kind)
    check_type("items", items, "an iterable of items", Iterable)
    writer = _Writer()
    for index, item in enumerate(items):
        known = known_code(item)
        if known is not None and kind_of_code(*known) is kind:
            writer.code += known[0]
            continue
        check_type(f"items[{index}]", item, "an Item", Item)
        try:
            writer.item(kind, item)
        except (TypeError, ValueError) as error:
            raise writer.told(error, index, item) from error.__cause__
    return bytes(writer.code)
