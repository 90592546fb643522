"""What a picture of an item shows: a box for each line of its canonical text, and the uses."""

from __future__ import annotations

import enum
import importlib
from collections.abc import Iterable, Iterator
from dataclasses import dataclass
from typing import Any, TypeAlias

from ._calls import records, read
from ._values import Assignment, Block, BlockPc, Cand, Ending, Infer, Item, Kind, Operand, Pc, Phi
from ._values import Replace, ReservedConst, ReservedInst, Result, Statement, Value, Var


class Mark(enum.Enum):
    """What kind of line a box has."""

    INPUT = "input"
    """``var``, ``reservedinst`` or ``reservedconst``."""
    INSTRUCTION = "instruction"
    BLOCK = "block"
    PHI = "phi"
    PC = "pc"
    BLOCK_PC = "blockpc"
    LAST = "last"
    """A last line: ``infer``, ``result`` or ``cand``."""


@dataclass(frozen=True, slots=True)
class Use:
    """A use of a statement."""

    position: int
    """The index of the statement's box."""
    label: str
    """``block``, or the number of the operand, from 1; empty if the line has one operand."""


@dataclass(frozen=True, slots=True)
class Box:
    """A line of a canonical text."""

    text: str
    mark: Mark
    uses: tuple[Use, ...]
    is_root: bool = False
    """Whether a last line has the statement as its operand."""


Picture: TypeAlias = tuple[Box, ...]
"""The needed statements of an item in printed order, and after them the last lines."""

_LAST_WORDS = ("infer", "result", "cand")


def pictures(kind: Kind | str, text: str | bytes) -> list[Picture]:
    """The picture of each item that the text spells. `Refused` if it spells none of the kind."""
    texts = [record.text for record in records(kind, text)]
    items = read(kind, "\n".join(texts))
    return [_picture(item, canonical) for item, canonical in zip(items, texts, strict=True)]


def networkx(item: Item) -> Any:
    """The picture of an item as a graph of networkx. `Item.to_networkx` says more."""
    graph = importlib.import_module("networkx").MultiDiGraph()
    [picture] = pictures(item.kind, str(item))
    for position, box in enumerate(picture):
        graph.add_node(position, text=box.text, mark=box.mark.value, root=box.is_root)
        for use in box.uses:
            operand = 0 if use.label == "block" else int(use.label or 1)
            graph.add_edge(use.position, position, operand=operand)
    return graph


def _picture(item: Item, canonical: str) -> Picture:
    """The picture of an item that was read from its canonical text."""
    lines = canonical.split("\n")
    last = [line for line in lines if line.startswith(_LAST_WORDS)]
    first = [line for line in lines if line and not line.startswith(_LAST_WORDS)]
    operands = list(_last_operands(item.ending))
    roots = {use.position for each in operands for use in _numbered(each)}
    boxes = [
        Box(line, _mark(statement), tuple(_uses(statement)), position in roots)
        for position, (line, statement) in enumerate(zip(first, item.statements, strict=True))
    ]
    for line, each in zip(last, operands, strict=True):
        boxes.append(Box(line, Mark.LAST, tuple(_numbered(each))))
    return tuple(boxes)


def _last_operands(ending: Ending) -> Iterator[tuple[Operand, ...]]:
    """The operands of each last line."""
    match ending:
        case Infer(value):
            yield (value,)
        case Result(operand):
            yield (operand,)
        case Replace(infer, result):
            yield (infer.value,)
            yield (result,)
        case Cand(lhs, rhs):
            yield lhs, rhs


def _mark(statement: Statement) -> Mark:
    match statement:
        case Assignment(value=Var() | ReservedInst() | ReservedConst()):
            return Mark.INPUT
        case Assignment(value=Block()):
            return Mark.BLOCK
        case Assignment(value=Phi()):
            return Mark.PHI
        case Pc():
            return Mark.PC
        case BlockPc():
            return Mark.BLOCK_PC
    return Mark.INSTRUCTION


def _uses(statement: Statement) -> Iterator[Use]:
    match statement:
        case Assignment(value=Phi(block, values)):
            yield Use(block.position, "block")
            yield from _numbered(values)
        case BlockPc(block, _, x, y):
            yield Use(block.position, "block")
            yield from _numbered((x, y))
        case _:
            yield from _numbered(statement.operands)


def _numbered(operands: Iterable[Operand]) -> Iterator[Use]:
    """The operands that are values, with their numbers."""
    every = tuple(operands)
    for number, operand in enumerate(every, 1):
        if isinstance(operand, Value):
            yield Use(operand.position, str(number) if len(every) > 1 else "")
