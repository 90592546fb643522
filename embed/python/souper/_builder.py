"""`Builder`."""

from __future__ import annotations

import functools
import inspect
import itertools
import re
from collections.abc import Callable, Iterable
from typing import Concatenate, ParamSpec, TypeVar

from ._checks import check_int, check_range, check_type
from ._code import DEMANDED_BITS, FLAGS, KNOWN_BITS, check_arity
from ._errors import place
from ._values import (
    Assignment,
    Attribute,
    Block,
    BlockPc,
    Cand,
    Constant,
    DemandedBits,
    Ending,
    HarvestedFromUse,
    Infer,
    Instruction,
    Item,
    KnownBits,
    Op,
    Operand,
    Pc,
    Phi,
    Range,
    Replace,
    ReservedConst,
    ReservedInst,
    Result,
    Rhs,
    RootAttribute,
    SignBits,
    Statement,
    Value,
    Var,
)

_NAME = re.compile(r"%[0-9A-Za-z_.]+")
_LOWEST, _GREATEST = -(2**127), 2**127 - 1


_P = ParamSpec("_P")
_T = TypeVar("_T")
_Method = Callable[Concatenate["Builder", _P], _T]


def _at(line: str | None = None) -> Callable[[_Method[_P, _T]], _Method[_P, _T]]:
    """A method whose errors begin with the last line, or with the statement that it would add."""

    def placed(method: _Method[_P, _T]) -> _Method[_P, _T]:
        parameters = inspect.signature(method)

        @functools.wraps(method)
        def call(self: Builder, /, *args: _P.args, **named: _P.kwargs) -> _T:
            position = len(self._statements)
            try:
                return method(self, *args, **named)
            except (TypeError, ValueError) as error:
                try:
                    name = parameters.bind(self, *args, **named).arguments.get("name")
                except TypeError:
                    # The arguments are not those of the method.
                    raise error from None
                if isinstance(name, str):
                    name = "%" + name.removeprefix("%")
                told = TypeError if isinstance(error, TypeError) else ValueError
                where = place(position if line is None else line, name)
                raise told(f"{where}: {error}") from error.__cause__

        return call

    return placed


def _check_bits(bits: str, alphabet: str) -> None:
    check_type("bits", bits, "a str", str)
    if not bits or not set(bits) <= set(alphabet):
        raise ValueError(f"{bits!r} is not one or more of {' '.join(alphabet)}")


class _Built(Value):
    """A value as a builder returns it, equal to the `Value` that items have. A copy has no mark."""

    __slots__ = ("mark",)
    mark: int

    def __init__(self, position: int, mark: int) -> None:
        super().__init__(position)
        object.__setattr__(self, "mark", mark)

    def __eq__(self, other: object) -> bool:
        return isinstance(other, Value) and other.position == self.position

    __hash__ = Value.__hash__

    def __repr__(self) -> str:
        return f"Value(position={self.position})"

    def __reduce__(self) -> tuple[type[Value], tuple[int]]:
        return Value, (self.position,)


# A builder and its copies have one mark.
_MARKS = itertools.count()


class Builder:
    """Builds an item statement by statement. A definition returns its value, an operand for others.

    An operand is a `Value` of this builder, a `Constant`, or an `int`: a constant without a type.
    A name may be without its ``%``. The default is ``%`` and the position, or the next number that
    is free. `ValueError` if an argument would make the item not well formed, or a value is another
    builder's; the message begins with the statement or the line. A builder may begin with the
    statements of an item, which it does not test; their values stay.

    >>> b = Builder()
    >>> block = b.block(2)
    >>> x = b.var("x", 8, attributes=[NonZero()])
    >>> y = b.phi(block, x, Constant(1, 8), width=8)
    >>> b.block_pc(block, 0, x, 3)
    >>> print(write("rep", [b.cand(b.inst("udiv", y, y), 1, DemandedBits("00000001"))]), end="")
    %0 = block 2
    %x:i8 = var (nonZero)
    %2:i8 = phi %0, %x, 1:i8
    %4 = udiv %2, %2
    blockpc %0 0 %x 3
    cand %4 1 (demandedBits=00000001)
    <BLANKLINE>

    `infer`, `result`, `replace` and `cand` return an item with the statements so far. More
    statements and items may follow.
    """

    def __init__(self, statements: Iterable[Statement] = ()) -> None:
        check_type("statements", statements, "an iterable of statements", Iterable)
        self._statements: list[Statement] = list(statements)
        for index, statement in enumerate(self._statements):
            check_type(f"statements[{index}]", statement, "a statement", Assignment, Pc, BlockPc)
        self._names = {it.name for it in self._statements if isinstance(it, Assignment)}
        self._next = 0
        self._mark = next(_MARKS)

    @_at()
    def var(
        self,
        name: str | None = None,
        width: int | None = None,
        *,
        attributes: Iterable[Attribute] = (),
    ) -> Value:
        """Defines an input."""
        return self._define(Var(), name, width, attributes)

    @_at()
    def block(self, predecessors: int, name: str | None = None) -> Value:
        """Defines a block with a number of predecessors."""
        check_int("predecessors", predecessors)
        check_range("a number of predecessors", predecessors, 0, 2**32 - 1)
        return self._define(Block(predecessors), name, None, ())

    @_at()
    def phi(
        self,
        block: Value,
        *values: Operand | int,
        name: str | None = None,
        width: int | None = None,
        attributes: Iterable[Attribute] = (),
    ) -> Value:
        """Defines a phi, with a value for each predecessor of the block."""
        predecessors = self._predecessors(block)
        if len(values) != predecessors:
            raise ValueError(f"the block has {predecessors} predecessors, not {len(values)}")
        rhs = Phi(self._plain(block), tuple(map(self._operand, values)))
        return self._define(rhs, name, width, attributes)

    @_at()
    def inst(
        self,
        op: Op | str,
        *operands: Operand | int,
        name: str | None = None,
        width: int | None = None,
        attributes: Iterable[Attribute] = (),
    ) -> Value:
        """Defines an instruction. `op` may be its word."""
        op = op if isinstance(op, Op) else Op(op)
        check_arity(op, len(operands))
        rhs = Instruction(op, tuple(map(self._operand, operands)))
        return self._define(rhs, name, width, attributes)

    @_at()
    def reserved_inst(
        self,
        name: str | None = None,
        width: int | None = None,
        *,
        attributes: Iterable[Attribute] = (),
    ) -> Value:
        """Defines a place for an instruction."""
        return self._define(ReservedInst(), name, width, attributes)

    @_at()
    def reserved_const(
        self,
        name: str | None = None,
        width: int | None = None,
        *,
        attributes: Iterable[Attribute] = (),
    ) -> Value:
        """Defines a place for a constant."""
        return self._define(ReservedConst(), name, width, attributes)

    @_at()
    def pc(self, x: Operand | int, y: Operand | int) -> None:
        """Adds a path condition: the operands are equal."""
        self._statements.append(Pc(self._operand(x), self._operand(y)))

    @_at()
    def block_pc(self, block: Value, predecessor: int, x: Operand | int, y: Operand | int) -> None:
        """Adds a path condition on a predecessor of a block, which is given by its index from 0."""
        check_int("predecessor", predecessor)
        if not 0 <= predecessor < self._predecessors(block):
            raise ValueError(f"the block has no predecessor {predecessor}")
        of = self._plain(block)
        self._statements.append(BlockPc(of, predecessor, self._operand(x), self._operand(y)))

    def infer(self, value: Value, *attributes: RootAttribute) -> Item:
        """A left-hand side."""
        return self._item(self._infer(value, attributes))

    def result(self, operand: Operand | int) -> Item:
        """A right-hand side."""
        return self._item(Result(self._result(operand)))

    def replace(self, value: Value, result: Operand | int, *attributes: RootAttribute) -> Item:
        """A replacement of a value by an operand, printed with ``infer`` and ``result``."""
        return self._item(Replace(self._infer(value, attributes), self._result(result)))

    @_at("cand")
    def cand(self, lhs: Operand | int, rhs: Operand | int, *attributes: RootAttribute) -> Item:
        """A replacement of an operand by another, printed with ``cand``."""
        self._check_root_attributes(attributes)
        return self._item(Cand(self._operand(lhs), self._operand(rhs), attributes))

    def _item(self, ending: Ending) -> Item:
        return Item(tuple(self._statements), ending)

    @_at("infer")
    def _infer(self, value: Value, attributes: tuple[RootAttribute, ...]) -> Infer:
        plain = self._plain(value)
        self._check_root_attributes(attributes)
        return Infer(plain, attributes)

    @_at("result")
    def _result(self, operand: Operand | int) -> Operand:
        return self._operand(operand)

    def _define(
        self, rhs: Rhs, name: str | None, width: int | None, attributes: Iterable[Attribute]
    ) -> Value:
        if width is not None:
            check_int("width", width)
            check_range("a width", width, 1, 65535)
        check_type("attributes", attributes, "an iterable of attributes", Iterable)
        facts = tuple(attributes)
        for attribute in facts:
            self._check_attribute(attribute)
        name = self._new_name(name)
        self._names.add(name)
        self._statements.append(Assignment(name, width, rhs, facts))
        return _Built(len(self._statements) - 1, self._mark)

    def _new_name(self, name: str | None) -> str:
        if name is None:
            number = max(self._next, len(self._statements))
            while f"%{number}" in self._names:
                number += 1
            self._next = number + 1
            return f"%{number}"
        check_type("name", name, "a str", str)
        name = "%" + name.removeprefix("%")
        if not _NAME.fullmatch(name):
            raise ValueError(f"{name!r} is not a name: % and one or more of 0-9 A-Z a-z _ .")
        if name in self._names:
            raise ValueError(f"{name!r} is defined already")
        return name

    def _assignment(self, value: Value) -> Assignment:
        check_type("a value", value, "a Value", Value)
        check_int("position", value.position)
        if isinstance(value, _Built) and value.mark != self._mark:
            raise ValueError(f"{value!r} is a value of another builder")
        if 0 <= value.position < len(self._statements):
            statement = self._statements[value.position]
            if isinstance(statement, Assignment):
                return statement
        raise ValueError(f"{value!r} is not a value of this builder")

    def _plain(self, value: Value) -> Value:
        """The value as an item has it."""
        self._assignment(value)
        return Value(value.position)

    def _predecessors(self, block: Value) -> int:
        match self._assignment(block).value:
            case Block(predecessors):
                return predecessors
        raise ValueError(f"{block!r} is not a block")

    def _operand(self, operand: Operand | int) -> Operand:
        match operand:
            case int():
                operand = Constant(operand)
            case Value():
                return self._plain(operand)
        check_type("an operand", operand, "a Value, a Constant or an int", Constant)
        check_range("a constant", operand.value, _LOWEST, _GREATEST)
        if operand.width is not None:
            check_range("a width", operand.width, 1, 65535)
        return operand

    def _check_attribute(self, attribute: Attribute) -> None:
        match attribute:
            case KnownBits(bits):
                _check_bits(bits, KNOWN_BITS)
            case SignBits(count):
                check_int("count", count)
                check_range("a number of bits", count, 0, 255)
            case Range(low, high):
                check_int("low", low)
                check_int("high", high)
                check_range("an end of a range", low, _LOWEST, _GREATEST)
                check_range("an end of a range", high, _LOWEST, _GREATEST)
            case flag if flag not in FLAGS:
                raise TypeError(f"attributes has {attribute!r}, which is no attribute")

    def _check_root_attributes(self, attributes: tuple[RootAttribute, ...]) -> None:
        for attribute in attributes:
            if isinstance(attribute, DemandedBits):
                _check_bits(attribute.bits, DEMANDED_BITS)
            elif not isinstance(attribute, HarvestedFromUse):
                raise TypeError(f"attributes has {attribute!r}, which is none of the last lines")
