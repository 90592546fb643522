"""Items in few bytes, for pickles.

Numbers are in groups of 7 bits, the lowest first, with the bit 7 in each byte but the last. A
signed number has its sign in the lowest bit. The lowest bits of a number may be flags.
"""

from __future__ import annotations

from collections.abc import Callable
from typing import TypeVar

from ._code import FLAGS
from ._values import (
    Assignment,
    Attribute,
    Block,
    BlockPc,
    Cand,
    Constant,
    DemandedBits,
    Ending,
    HarvestedFromUse,
    Infer,
    Instruction,
    Item,
    KnownBits,
    Op,
    Operand,
    Pc,
    Phi,
    Range,
    Replace,
    ReservedConst,
    ReservedInst,
    Result,
    Rhs,
    RootAttribute,
    SignBits,
    Statement,
    Value,
    Var,
)

_OPS = tuple(Op)
# The forms of statements: the right sides of assignments, and the conditions.
_VAR, _BLOCK, _PHI, _RESERVED_INST, _RESERVED_CONST, _INSTRUCTION, _PC, _BLOCK_PC = range(8)
_HAS_WIDTH, _HAS_ATTRIBUTES, _NAME = 8, 16, 5
_KNOWN_BITS, _SIGN_BITS, _RANGE = 0, 6, 7

_T = TypeVar("_T")


class _Packer:
    def __init__(self) -> None:
        self.bytes = bytearray()

    def number(self, number: int) -> None:
        while number > 127:
            self.bytes.append(number & 127 | 128)
            number >>= 7
        self.bytes.append(number)

    def text(self, text: str) -> None:
        encoded = text.encode()
        self.number(len(encoded))
        self.bytes += encoded

    def value(self, value: Value) -> None:
        self.number(value.position)

    def operand(self, operand: Operand) -> None:
        match operand:
            case Value(position):
                self.number(position << 1)
            case Constant(value, width):
                has_width = width is not None
                self.number(_with_sign(value) << 2 | has_width << 1 | 1)
                if width is not None:
                    self.number(width)

    def each(self, pack: Callable[[_T], None], elements: tuple[_T, ...]) -> None:
        self.number(len(elements))
        for element in elements:
            pack(element)

    def statement(self, statement: Statement) -> None:
        match statement:
            case Assignment():
                self.assignment(statement)
            case Pc(x, y):
                self.number(_PC)
                self.operand(x)
                self.operand(y)
            case BlockPc(block, predecessor, x, y):
                self.number(_BLOCK_PC)
                self.value(block)
                self.number(predecessor)
                self.operand(x)
                self.operand(y)

    def assignment(self, it: Assignment) -> None:
        name = it.name.encode()
        length = len(name) if len(name) < 8 else 0
        width = 0 if it.width is None else _HAS_WIDTH
        attributes = _HAS_ATTRIBUTES if it.attributes else 0
        self.bytes.append(_form(it.value) | width | attributes | length << _NAME)
        if not length:
            self.number(len(name))
        self.bytes += name
        if it.width is not None:
            self.number(it.width)
        self.rhs(it.value)
        if it.attributes:
            self.each(self.attribute, it.attributes)

    def rhs(self, rhs: Rhs) -> None:
        match rhs:
            case Block(predecessors):
                self.number(predecessors)
            case Phi(block, values):
                self.value(block)
                self.each(self.operand, values)
            case Instruction(op, operands):
                self.number(op.number)
                for operand in operands:
                    self.operand(operand)

    def attribute(self, attribute: Attribute) -> None:
        match attribute:
            case KnownBits(bits):
                self.number(_KNOWN_BITS)
                self.text(bits)
            case SignBits(count):
                self.number(_SIGN_BITS)
                self.number(count)
            case Range(low, high):
                self.number(_RANGE)
                self.number(_with_sign(low))
                self.number(_with_sign(high))
            case _:
                self.number(FLAGS.index(attribute) + 1)

    def root_attribute(self, attribute: RootAttribute) -> None:
        match attribute:
            case DemandedBits(bits):
                self.number(1)
                self.text(bits)
            case HarvestedFromUse():
                self.number(0)

    def item(self, item: Item) -> None:
        form, operands, attributes = _ending_parts(item.ending)
        has_attributes = len(attributes) > 0
        self.number(len(item.statements) << 3 | has_attributes << 2 | form)
        for statement in item.statements:
            self.statement(statement)
        for operand in operands:
            self.operand(operand)
        if attributes:
            self.each(self.root_attribute, attributes)


def _with_sign(number: int) -> int:
    return number << 1 if number >= 0 else ~number << 1 | 1


def _form(rhs: Rhs) -> int:
    match rhs:
        case Var():
            return _VAR
        case Block():
            return _BLOCK
        case Phi():
            return _PHI
        case ReservedInst():
            return _RESERVED_INST
        case ReservedConst():
            return _RESERVED_CONST
    return _INSTRUCTION


def _ending_parts(
    ending: Ending,
) -> tuple[int, tuple[Operand, ...], tuple[RootAttribute, ...]]:
    match ending:
        case Infer(value, attributes):
            return 0, (value,), attributes
        case Result(operand):
            return 1, (operand,), ()
        case Replace(Infer(value, attributes), result):
            return 2, (value, result), attributes
        case Cand(lhs, rhs, attributes):
            return 3, (lhs, rhs), attributes


class _Unpacker:
    def __init__(self, data: bytes) -> None:
        self.bytes = data
        self.at = 0

    def number(self) -> int:
        number = shift = 0
        while True:
            byte = self.bytes[self.at]
            self.at += 1
            number |= (byte & 127) << shift
            if byte < 128:
                return number
            shift += 7

    def signed(self) -> int:
        return _without_sign(self.number())

    def text(self, length: int) -> str:
        start, self.at = self.at, self.at + length
        return self.bytes[start : self.at].decode()

    def value(self) -> Value:
        return Value(self.number())

    def operand(self) -> Operand:
        number = self.number()
        if number & 1 == 0:
            return Value(number >> 1)
        return Constant(_without_sign(number >> 2), self.number() if number & 2 else None)

    def each(self, unpack: Callable[[], _T]) -> tuple[_T, ...]:
        return tuple([unpack() for _ in range(self.number())])

    def statement(self) -> Statement:
        head = self.bytes[self.at]
        self.at += 1
        match head & 7:
            case 6:
                return Pc(self.operand(), self.operand())
            case 7:
                return BlockPc(self.value(), self.number(), self.operand(), self.operand())
            case form:
                name = self.text(head >> _NAME or self.number())
                width = self.number() if head & _HAS_WIDTH else None
                value = self.rhs(form)
                attributes = self.each(self.attribute) if head & _HAS_ATTRIBUTES else ()
                return Assignment(name, width, value, attributes)

    def rhs(self, form: int) -> Rhs:
        match form:
            case 0:
                return Var()
            case 1:
                return Block(self.number())
            case 2:
                return Phi(self.value(), self.each(self.operand))
            case 3:
                return ReservedInst()
            case 4:
                return ReservedConst()
        op = _OPS[self.number()]
        return Instruction(op, tuple([self.operand() for _ in range(op.arity)]))

    def attribute(self) -> Attribute:
        match self.number():
            case 0:
                return KnownBits(self.text(self.number()))
            case 6:
                return SignBits(self.number())
            case 7:
                return Range(self.signed(), self.signed())
            case flag:
                return FLAGS[flag - 1]

    def root_attribute(self) -> RootAttribute:
        return DemandedBits(self.text(self.number())) if self.number() else HarvestedFromUse()

    def item(self) -> Item:
        head = self.number()
        statements = tuple([self.statement() for _ in range(head >> 3)])
        operands = [self.operand() for _ in range(2 if head & 2 else 1)]
        attributes = self.each(self.root_attribute) if head & 4 else ()
        match head & 3, operands:
            case 0, [Value() as value]:
                return Item(statements, Infer(value, attributes))
            case 1, [operand]:
                return Item(statements, Result(operand))
            case 2, [Value() as value, operand]:
                return Item(statements, Replace(Infer(value, attributes), operand))
            case 3, [lhs, rhs]:
                return Item(statements, Cand(lhs, rhs, attributes))
        raise ValueError("the bytes are no item")


def _without_sign(number: int) -> int:
    return ~(number >> 1) if number & 1 else number >> 1


def packed(item: Item) -> bytes:
    """An item that has a code, in few bytes."""
    packer = _Packer()
    packer.item(item)
    return bytes(packer.bytes)


def unpacked(data: bytes) -> Item:
    """The item of `packed` bytes."""
    return _Unpacker(data).item()
