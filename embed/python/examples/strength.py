#!/usr/bin/env python3
"""Strength reduction: shifts and sums in the place of products.

    PYTHONPATH=embed/python embed/python/examples/strength.py lhs|rhs|rep <ITEMS

Reads items from standard input, and writes them with shifts and sums in the place of products by 3,
5 and 9, and with shifts in that of products by powers of two. Products of a width of at most 64
bits are looked at.
"""

import sys
from dataclasses import replace

import souper
from souper import Assignment, Constant, Instruction, Item, Kind, Op, Operand, Value


def product_of(value: Operand, by: Operand, width: int) -> tuple[Operand, int, bool] | None:
    """The operand, the power of two, and whether the operand is added once more."""
    if not isinstance(by, Constant):
        return None
    bits = by.value & ((1 << width) - 1)
    power = max(bits.bit_length() - 1, 0)
    match bits - (1 << power):
        case 0:
            return value, power, False
        case 1 if power in (1, 2, 3):
            return value, power, True
    return None


def reduced(item: Item) -> Item:
    """The item without products by 3, 5, 9 and powers of two."""
    statements = list(item.statements)
    same: dict[Value, Operand] = {}  # the products by 1
    for position, statement in enumerate(item.statements):
        match statement:
            case Assignment(width=int(width), value=Instruction(Op.MUL, (x, y))) if width <= 64:
                found = product_of(x, y, width) or product_of(y, x, width)
            case _:
                continue
        if found is None:
            continue
        value, power, is_sum = found
        shift = Instruction(Op.SHL, (value, Constant.from_bits(power, width)))
        if power == 0 and isinstance(value, Value):
            same[Value(position)] = value
        elif not is_sum:
            statements[position] = replace(statement, value=shift)
        else:
            # The shift is a statement more. Without a name, it gets one from `sort`, which puts it
            # before the sum.
            total = Instruction(Op.ADD, (Value(len(statements)), value))
            statements[position] = replace(statement, value=total)
            statements.append(Assignment("", width, shift))
    return Item(tuple(statements), item.ending).replace_many(same).sort()


def main() -> None:
    kinds = [kind.value for kind in Kind]
    if len(sys.argv) != 2 or sys.argv[1] not in kinds:
        sys.exit("usage: strength.py lhs|rhs|rep <ITEMS")
    try:
        items = souper.read(sys.argv[1], sys.stdin.buffer.read())
    except souper.Refused as refusal:
        line = refusal.location.line if refusal.location else refusal.line
        sys.exit(f"line {line} is refused")
    except UnicodeDecodeError as error:
        sys.exit(f"not UTF-8 at byte {error.start}")
    sys.stdout.write(souper.write(sys.argv[1], map(reduced, items)))


if __name__ == "__main__":
    main()
