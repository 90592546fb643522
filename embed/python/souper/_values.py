"""The values that items are made of.

They are immutable and hashable, with tuples for sequences. A width is in bits, from 1 to 65535, and
None if the text has no type. What `help` shows of the fields is in `documented`.
"""

from __future__ import annotations

import enum
from collections.abc import Callable, Iterable, Mapping
from dataclasses import dataclass, replace
from typing import TYPE_CHECKING, Any, ClassVar, TypeAlias

from ._checks import check_int, check_range, check_type, documented

if TYPE_CHECKING:
    from ._passes import Users


class Kind(enum.Enum):
    """The kind of the items of a text. Calls also take its value: ``'lhs'`` for ``Kind.LHS``.

    Its members:

    LHS: left-hand sides, each ended by ``infer``.
    RHS: right-hand sides, each ended by ``result``.
    REP: replacements, each ended by ``cand``, or by ``infer`` and ``result``.
    """

    LHS = "lhs"
    RHS = "rhs"
    REP = "rep"

    @classmethod
    def _missing_(cls, value: object) -> Kind:
        raise ValueError(f"a kind is lhs, rhs or rep, not {value!r}")


class Op(enum.Enum):
    """An instruction. Its value is its word: ``Op('add')`` is ``Op.ADD``.

    Its fields:

    arity: the number of operands.
    number: the number of the instruction in the code.
    """

    number: int
    arity: int

    # With the defaults, a call with a word alone has the right type.
    def __new__(cls, word: str, number: int = 0, arity: int = 0) -> Op:
        op = object.__new__(cls)
        op._value_ = word
        op.number = number
        op.arity = arity
        return op

    @classmethod
    def _missing_(cls, value: object) -> Op:
        raise ValueError(f"{value!r} is no instruction")

    ADD = "add", 0, 2
    ADD_NSW = "addnsw", 1, 2
    ADD_NUW = "addnuw", 2, 2
    ADD_NW = "addnw", 3, 2
    SUB = "sub", 4, 2
    SUB_NSW = "subnsw", 5, 2
    SUB_NUW = "subnuw", 6, 2
    SUB_NW = "subnw", 7, 2
    MUL = "mul", 8, 2
    MUL_NSW = "mulnsw", 9, 2
    MUL_NUW = "mulnuw", 10, 2
    MUL_NW = "mulnw", 11, 2
    UDIV = "udiv", 12, 2
    SDIV = "sdiv", 13, 2
    UDIV_EXACT = "udivexact", 14, 2
    SDIV_EXACT = "sdivexact", 15, 2
    UREM = "urem", 16, 2
    SREM = "srem", 17, 2
    AND = "and", 18, 2
    OR = "or", 19, 2
    XOR = "xor", 20, 2
    SHL = "shl", 21, 2
    SHL_NSW = "shlnsw", 22, 2
    SHL_NUW = "shlnuw", 23, 2
    SHL_NW = "shlnw", 24, 2
    LSHR = "lshr", 25, 2
    LSHR_EXACT = "lshrexact", 26, 2
    ASHR = "ashr", 27, 2
    ASHR_EXACT = "ashrexact", 28, 2
    SELECT = "select", 29, 3
    ZEXT = "zext", 30, 1
    SEXT = "sext", 31, 1
    TRUNC = "trunc", 32, 1
    EQ = "eq", 33, 2
    NE = "ne", 34, 2
    ULT = "ult", 35, 2
    SLT = "slt", 36, 2
    ULE = "ule", 37, 2
    SLE = "sle", 38, 2
    CTPOP = "ctpop", 39, 1
    BSWAP = "bswap", 40, 1
    BIT_REVERSE = "bitreverse", 41, 1
    CTTZ = "cttz", 42, 1
    CTLZ = "ctlz", 43, 1
    FSHL = "fshl", 44, 3
    FSHR = "fshr", 45, 3
    SADD_WITH_OVERFLOW = "sadd.with.overflow", 46, 2
    UADD_WITH_OVERFLOW = "uadd.with.overflow", 47, 2
    SSUB_WITH_OVERFLOW = "ssub.with.overflow", 48, 2
    USUB_WITH_OVERFLOW = "usub.with.overflow", 49, 2
    SMUL_WITH_OVERFLOW = "smul.with.overflow", 50, 2
    UMUL_WITH_OVERFLOW = "umul.with.overflow", 51, 2
    SADD_SAT = "sadd.sat", 52, 2
    UADD_SAT = "uadd.sat", 53, 2
    SSUB_SAT = "ssub.sat", 54, 2
    USUB_SAT = "usub.sat", 55, 2
    EXTRACT_VALUE = "extractvalue", 56, 2
    HOLE = "hole", 57, 0
    FREEZE = "freeze", 58, 1


@documented(position="The index of the assignment among the item's statements, from 0.")
@dataclass(frozen=True, slots=True)
class Value:
    """The value of an assignment of the item."""

    position: int


@documented(value="A signed number of 128 bits.", width="In bits, from 1; `None` without a type.")
@dataclass(frozen=True, slots=True)
class Constant:
    """A constant, ``1`` or ``1:i8``."""

    value: int
    width: int | None = None

    def __post_init__(self) -> None:
        check_int("value", self.value)
        if self.width is not None:
            check_int("width", self.width)

    @staticmethod
    def from_bits(bits: int, width: int) -> Constant:
        """The constant of a width, 1 to 128, that has these bits, of which the lowest `width` count.

        It is signed, as Souper prints constants. (``255:i8`` is well formed too, and another graph
        with another text.)

        >>> Constant.from_bits(0xff, 8), Constant.from_bits(0x7f, 8)
        (Constant(value=-1, width=8), Constant(value=127, width=8))
        """
        check_int("bits", bits)
        check_int("width", width)
        check_range("a width", width, 1, 128)
        bits &= (1 << width) - 1
        return Constant(bits - (bits >> (width - 1) << width), width)


Operand: TypeAlias = Value | Constant
"""An operand of an instruction, a phi, a path condition or the last lines."""


def _values_of(operands: Iterable[Operand]) -> tuple[Value, ...]:
    return tuple(operand for operand in operands if isinstance(operand, Value))


def plain_operand(what: str, operand: Operand | int) -> Operand:
    """The operand as an item has it, also if a builder returned it."""
    match operand:
        case int():
            return Constant(operand)
        case Value(position):
            return Value(position)
    check_type(what, operand, "a Value, a Constant or an int", Constant)
    return operand


def _replacing(of: Value, by: Operand | int) -> Callable[[Operand], Operand]:
    """The function that gives `by` for the value `of`, and any other operand for itself."""
    check_type("of", of, "a Value", Value)
    new = plain_operand("by", by)
    return lambda operand: new if operand == of else operand


@documented(bits="A character for each bit: ``0``, ``1``, or ``x`` for a bit that is not known.")
@dataclass(frozen=True, slots=True)
class KnownBits:
    """``(knownBits=0xx1)``: the bits that are known."""

    bits: str


@dataclass(frozen=True, slots=True)
class PowerOfTwo:
    """``(powerOfTwo)``."""


@dataclass(frozen=True, slots=True)
class Negative:
    """``(negative)``."""


@dataclass(frozen=True, slots=True)
class NonNegative:
    """``(nonNegative)``."""


@dataclass(frozen=True, slots=True)
class NonZero:
    """``(nonZero)``."""


@dataclass(frozen=True, slots=True)
class HasExternalUses:
    """``(hasExternalUses)``."""


@documented(count="0 to 255.")
@dataclass(frozen=True, slots=True)
class SignBits:
    """``(signBits=2)``."""

    count: int


@documented(low="The least number.", high="The number after the greatest.")
@dataclass(frozen=True, slots=True)
class Range:
    """``(range=[0,10))``, without its end. Both are signed numbers of 128 bits."""

    low: int
    high: int


Attribute: TypeAlias = (
    KnownBits | PowerOfTwo | Negative | NonNegative | NonZero | HasExternalUses | SignBits | Range
)
"""An attribute of an assignment."""


@documented(bits="A character for each bit, ``0`` or ``1``.")
@dataclass(frozen=True, slots=True)
class DemandedBits:
    """``(demandedBits=0011)``: the bits that are wanted."""

    bits: str


@dataclass(frozen=True, slots=True)
class HarvestedFromUse:
    """``(harvestedFromUse)``."""


RootAttribute: TypeAlias = DemandedBits | HarvestedFromUse
"""An attribute of ``infer`` or ``cand``."""


@dataclass(frozen=True, slots=True)
class Var:
    """``var``: an input."""


@documented(predecessors="The number of predecessors, 0 to 2**32 - 1.")
@dataclass(frozen=True, slots=True)
class Block:
    """``block 2``: a basic block."""

    predecessors: int


@documented(block="The value of a `Block`.", values="An operand for each predecessor of the block.")
@dataclass(frozen=True, slots=True)
class Phi:
    """``phi %b, %x, %y``: an operand for each predecessor of the block."""

    block: Value
    values: tuple[Operand, ...]


@dataclass(frozen=True, slots=True)
class ReservedInst:
    """``reservedinst``: a place for an instruction that is not known."""


@dataclass(frozen=True, slots=True)
class ReservedConst:
    """``reservedconst``: a place for a constant that is not known."""


@documented(op="The instruction.", operands="As many as ``op.arity``.")
@dataclass(frozen=True, slots=True)
class Instruction:
    """``add %x, 1``: an instruction and its operands."""

    op: Op
    operands: tuple[Operand, ...]


Rhs: TypeAlias = Var | Block | Phi | ReservedInst | ReservedConst | Instruction
"""The right side of an assignment."""


@documented(
    name="With its ``%``.",
    width="In bits, from 1 to 65535; `None` without a type.",
    value="The right side.",
    attributes="In the order of the text.",
)
@dataclass(frozen=True, slots=True)
class Assignment:
    """``%x:i8 = add %y, 1 (nonZero)``."""

    name: str
    width: int | None
    value: Rhs
    attributes: tuple[Attribute, ...] = ()

    @property
    def operands(self) -> tuple[Operand, ...]:
        """The operands of the right side, from left to right. A phi's block is its first."""
        value = self.value
        if isinstance(value, Instruction):
            return value.operands
        return (value.block, *value.values) if isinstance(value, Phi) else ()

    @property
    def uses(self) -> tuple[Value, ...]:
        """The values among the operands, repeats kept. A phi's block is its first."""
        return _values_of(self.operands)

    def map_operands(self, f: Callable[[Operand], Operand]) -> Assignment:
        """The assignment with ``f(operand)`` for each operand. A phi's block stays."""
        value = self.value
        if not isinstance(value, Instruction | Phi):
            return self
        old = value.operands if isinstance(value, Instruction) else value.values
        new = tuple(map(f, old))
        if new == old:
            return self
        if isinstance(value, Instruction):
            return Assignment(self.name, self.width, Instruction(value.op, new), self.attributes)
        return Assignment(self.name, self.width, Phi(value.block, new), self.attributes)

    def replace_uses(self, of: Value, by: Operand | int) -> Assignment:
        """The assignment with `by` for each operand that is the value `of`. A phi's block stays."""
        return self.map_operands(_replacing(of, by))


@documented(x="An operand.", y="The operand that is equal to it.")
@dataclass(frozen=True, slots=True)
class Pc:
    """``pc %x 1``, a path condition: the operands are equal."""

    x: Operand
    y: Operand

    @property
    def operands(self) -> tuple[Operand, ...]:
        """x and y."""
        return (self.x, self.y)

    @property
    def uses(self) -> tuple[Value, ...]:
        """The values among the operands, repeats kept."""
        return _values_of(self.operands)

    def map_operands(self, f: Callable[[Operand], Operand]) -> Pc:
        """The condition with ``f(operand)`` for each operand."""
        return Pc(f(self.x), f(self.y))

    def replace_uses(self, of: Value, by: Operand | int) -> Pc:
        """The condition with `by` for each operand that is the value `of`."""
        return self.map_operands(_replacing(of, by))


@documented(
    block="The value of a `Block`.",
    predecessor="The index of the predecessor, from 0.",
    x="An operand.",
    y="The operand that is equal to it.",
)
@dataclass(frozen=True, slots=True)
class BlockPc:
    """``blockpc %b 0 %x 1``: the operands are equal if the block is entered by a predecessor."""

    block: Value
    predecessor: int
    x: Operand
    y: Operand

    @property
    def operands(self) -> tuple[Operand, ...]:
        """The block, x and y."""
        return (self.block, self.x, self.y)

    @property
    def uses(self) -> tuple[Value, ...]:
        """The values among the operands, repeats kept. The block is the first."""
        return _values_of(self.operands)

    def map_operands(self, f: Callable[[Operand], Operand]) -> BlockPc:
        """The condition with ``f(operand)`` for x and for y. The block stays."""
        return replace(self, x=f(self.x), y=f(self.y))

    def replace_uses(self, of: Value, by: Operand | int) -> BlockPc:
        """The condition with `by` for x and y, where they are the value `of`. The block stays."""
        return self.map_operands(_replacing(of, by))


Statement: TypeAlias = Assignment | Pc | BlockPc
"""A statement of an item."""


@documented(value="The root.", attributes="In the order of the text.")
@dataclass(frozen=True, slots=True)
class Infer:
    """``infer %x``, the end of a left-hand side."""

    value: Value
    attributes: tuple[RootAttribute, ...] = ()


@documented(operand="The root.")
@dataclass(frozen=True, slots=True)
class Result:
    """``result %x``, the end of a right-hand side."""

    operand: Operand


@documented(infer="The replaced value.", result="What takes its place.")
@dataclass(frozen=True, slots=True)
class Replace:
    """``infer %x`` and ``result %y``, the end of a replacement."""

    infer: Infer
    result: Operand


@documented(
    lhs="The replaced operand.",
    rhs="What takes its place.",
    attributes="In the order of the text.",
)
@dataclass(frozen=True, slots=True)
class Cand:
    """``cand %x %y``, the end of a replacement: `lhs` may be replaced by `rhs`."""

    lhs: Operand
    rhs: Operand
    attributes: tuple[RootAttribute, ...] = ()


Ending: TypeAlias = Infer | Result | Replace | Cand
"""The last lines of an item."""


def _mapped_infer(infer: Infer, f: Callable[[Operand], Operand]) -> Infer:
    """The line has a value, and keeps it where a constant would take its place."""
    match f(infer.value):
        case Value() as value:
            return replace(infer, value=value)
    return infer


def mapped_ending(ending: Ending, f: Callable[[Operand], Operand]) -> Ending:
    match ending:
        case Infer():
            return _mapped_infer(ending, f)
        case Result(operand):
            return Result(f(operand))
        case Replace(infer, result):
            return Replace(_mapped_infer(infer, f), f(result))
        case Cand(lhs, rhs):
            return replace(ending, lhs=f(lhs), rhs=f(rhs))


class Coded:
    """What a decoded item has beside its fields. Without values it makes them of its code."""

    __slots__ = ("_code", "_end")

    _code: bytes
    """The code of the item."""
    _end: int
    """Where the code of the statements ends; its complement, if the values were made before."""
    _values_of_code: ClassVar[Callable[[Any], tuple[Any, Any] | None]]
    """It is in `_decoder`."""


_get_code, _get_end = (Coded.__dict__[name].__get__ for name in ("_code", "_end"))
_FIELDS = ("statements", "ending")
# By the byte that the code of the last lines begins with.
_KINDS = (Kind.LHS, Kind.RHS, Kind.REP, Kind.REP)


def known_code(item: object) -> tuple[bytes, int] | None:
    """The code of an item that was decoded, and where the code of its statements ends."""
    try:
        code, end = _get_code(item), _get_end(item)
    except (AttributeError, TypeError):
        return None
    return code, end if end >= 0 else ~end


def kind_of_code(code: bytes, end: int) -> Kind:
    """The kind of an item, by its code and where the code of its statements ends."""
    return _KINDS[code[end]]


@documented(statements="In the order of the text.", ending="The last lines.")
@dataclass(frozen=True, slots=True)
class Item(Coded):
    """A left-hand side, a right-hand side or a replacement.

    An item that was read makes its values when they are first asked for. Those of up to 64
    statements are dropped once, when 64 other items have made theirs, and are then made again and
    kept: a walk over many items takes little memory.

    `str` of it is the canonical text, without the newline that `write` writes after it; if it has
    none, `NotWellFormed` or another error of `write`. Jupyter shows its graph, if ``dot`` is there.
    """

    statements: tuple[Statement, ...]
    ending: Ending

    if not TYPE_CHECKING:

        def __getattr__(self, name: str) -> Any:
            values = Coded._values_of_code(self) if name in _FIELDS else None
            if values is None:
                message = f"'Item' object has no attribute {name!r}"
                raise AttributeError(message, name=name, obj=self)
            return values[name == "ending"]

    def __str__(self) -> str:
        from ._calls import write

        return write(self.kind, [self])[:-1]

    def __reduce__(self) -> tuple[object, ...]:
        from ._code import encode
        from ._packed import packed, unpacked

        try:
            encode(self.kind, [self])
        except (TypeError, ValueError):
            # It has parts that `packed` does not take.
            return Item, (self.statements, self.ending)
        return unpacked, (packed(self),)

    def __copy__(self) -> Item:
        return self

    def __deepcopy__(self, memo: object) -> Item:
        return self

    def _repr_svg_(self) -> str | None:
        """The graph in SVG, as `souper.draw.svg` makes it; `None` if that is an error."""
        from . import draw

        try:
            return draw.svg(self)
        except (TypeError, ValueError, draw.DotFailed):
            return None

    def to_networkx(self) -> Any:
        """The graph of the canonical text, a ``MultiDiGraph`` of the package networkx.

        A node is the position of a needed statement in printed order, and after these of a last
        line. It has the attributes ``text``, the line; ``mark``, such as ``instruction``; and
        ``root``, whether a last line has it as its operand. An edge leads from a statement to each
        use of it, with the ``operand``: its number from 1, or 0 for the block of a phi or of a path
        condition. `ImportError` without networkx, `NotWellFormed` without a canonical text.
        """
        from ._pictures import networkx

        return networkx(self)

    @property
    def kind(self) -> Kind:
        """The kind of an item with these last lines."""
        known = known_code(self)
        if known is not None:
            return kind_of_code(*known)
        match self.ending:
            case Infer():
                return Kind.LHS
            case Result():
                return Kind.RHS
        return Kind.REP

    def assignment(self, value: Value) -> Assignment:
        """The assignment that defines the value.

        `IndexError` if the item has no such statement, `ValueError` if it is a path condition.
        """
        if not 0 <= value.position < len(self.statements):
            raise IndexError(f"the item has no statement {value.position}")
        statement = self.statements[value.position]
        if not isinstance(statement, Assignment):
            raise ValueError(f"statement {value.position} is not an assignment")
        return statement

    def users(self) -> Users:
        """What uses each statement, made once, in time linear in the item."""
        from ._passes import Users

        return Users(self)

    def map_operands(self, f: Callable[[Operand], Operand]) -> Item:
        """The item with ``f(operand)`` for each operand, also in the last lines.

        ``infer`` has a value, and keeps it where `f` returns a constant. Blocks stay.
        """
        statements = tuple([statement.map_operands(f) for statement in self.statements])
        ending = mapped_ending(self.ending, f)
        is_same = statements == self.statements and ending == self.ending
        return self if is_same else Item(statements, ending)

    def replace_uses(self, of: Value, by: Operand | int) -> Item:
        """The item with `by` for each operand that is the value `of`, also in the last lines.

        ``infer`` has a value, and keeps it if `by` is a constant. The blocks of phis and of path
        conditions stay. Whether the item is well formed then is not tested. This pass replaces each
        sum of x and 0 by x:

        >>> text = "%x = var  %1 = add %x, 0  %2 = add %1, 0  %3 = mul %2, %1  infer %3"
        >>> [item] = read("lhs", text)
        >>> for position in range(len(item.statements)):
        ...     match item.statements[position]:
        ...         case Assignment(value=Instruction(Op.ADD, (x, Constant(0)))):
        ...             item = item.replace_uses(Value(position), x)
        >>> print(write("lhs", [item]), end="")
        %x = var
        %3 = mul %x, %x
        infer %3
        <BLANKLINE>
        """
        return self.map_operands(_replacing(of, by))

    def replace_many(self, pairs: Mapping[Value, Operand | int]) -> Item:
        """The item with another operand for each of many values, as by `replace_uses`, in one walk.

        Chains are followed: of a by b and b by 5, both become 5. `ValueError` if the replacements
        of a value come back to it, as of a by b and b by a. Of a value by itself nothing changes.

        >>> text = "%x = var  %1 = add %x, 0  %2 = add %1, 0  %3 = mul %2, %1  infer %3"
        >>> [item] = read("lhs", text)
        >>> print(item.replace_many({Value(2): Value(1), Value(1): Value(0)}), end="")
        %x = var
        %3 = mul %x, %x
        infer %3
        """
        from ._passes import with_replaced

        return with_replaced(self, pairs)

    def sort(self) -> Item:
        """The item with each assignment before the statements that use it.

        So a pass may append statements, and sort at the end, in linear time. A statement that
        stands too late comes right before the first that uses it, and the order of the others
        stays. Uses are of the same statements, at their new positions. An assignment whose name is
        empty gets one as in a `Builder`. Where statements use one another in a cycle, a use before
        its definition remains.

        >>> [item] = read("lhs", "%x = var  %y = mul %x, 3  infer %y")
        >>> x, y = item.statements
        >>> shift = Assignment("", None, Instruction(Op.SHL, (Value(0), Constant(1))))
        >>> total = Assignment("%y", None, Instruction(Op.ADD, (Value(2), Value(0))))
        >>> print(Item((x, total, shift), item.ending).sort(), end="")
        %x = var
        %1 = shl %x, 1
        %y = add %1, %x
        infer %y
        """
        from ._passes import sorted_item

        return sorted_item(self)

    def insert_before(self, place: Value | int, statement: Statement) -> Item:
        """The item with a statement more, before the one at a place, or at the end.

        It has the position of the place, and the statements from there on have the next ones. Its
        operands are values of this item, and uses are of the same statements, at their new
        positions. An assignment whose name is empty gets one as in a `Builder`. It takes time
        linear in the item: many statements are appended, and then `sort` puts them before their
        uses.

        >>> [item] = read("lhs", "%x = var  %y = freeze %x  infer %y")
        >>> shift = Assignment("", None, Instruction(Op.SHL, (Value(0), Constant(1))))
        >>> item.insert_before(Value(1), shift).statements[2].value.operands
        (Value(position=0),)
        >>> item.insert_before(Value(1), shift).ending
        Infer(value=Value(position=2), attributes=())
        """
        from ._passes import inserted_before

        return inserted_before(self, place, statement)

    def move_before(self, which: Value | int, place: Value | int) -> Item:
        """The item with one of its statements before the one at a place, or at the end.

        Uses are of the same statements, at their new positions. `IndexError` if the item has no
        statement `which`.
        """
        from ._passes import moved_before

        return moved_before(self, which, place)
