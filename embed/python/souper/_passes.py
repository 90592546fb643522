"""What passes over items call. The methods of `Item` say what each does."""

from __future__ import annotations

from collections.abc import Callable, Iterable, Iterator, Mapping

from ._checks import check_int, check_range, check_type
from ._errors import place
from ._values import (
    Assignment,
    BlockPc,
    Item,
    Operand,
    Pc,
    Phi,
    Statement,
    Value,
    mapped_ending,
    plain_operand,
)


def _position(what: str, statement: Value | int) -> int:
    position = statement.position if isinstance(statement, Value) else statement
    check_int(what, position)
    check_range(what, position, 0, 2**64 - 1)
    return position


class Users:
    """What uses each statement of an item. `Item.users` makes it.

    >>> [item] = read("lhs", "%x = var  %y = mul %x, %x  pc %x 1  infer %y")
    >>> users = item.users()
    >>> users.of(Value(0)), users.of(Value(1)), users.in_last_lines(Value(1))
    ((1, 2), (), True)
    """

    def __init__(self, item: Item) -> None:
        found: list[list[int]] = [[] for _ in item.statements]
        for user, statement in enumerate(item.statements):
            for position in {used.position for used in statement.uses}:
                if position < len(found):
                    found[position].append(user)
        self._users: list[tuple[int, ...]] = [tuple(users) for users in found]
        self._last = {used.position for used in _last_uses(item)}

    def of(self, statement: Value | int) -> tuple[int, ...]:
        """The positions of the statements that use this one, each once, in their order."""
        position = _position("a position", statement)
        return self._users[position] if position < len(self._users) else ()

    def in_last_lines(self, statement: Value | int) -> bool:
        """Whether a last line uses the statement."""
        return _position("a position", statement) in self._last


def _last_uses(item: Item) -> list[Value]:
    found: list[Value] = []

    def note(operand: Operand) -> Operand:
        if isinstance(operand, Value):
            found.append(operand)
        return operand

    mapped_ending(item.ending, note)
    return found


def with_replaced(item: Item, pairs: Mapping[Value, Operand | int]) -> Item:
    by = _ends_of_chains(item, pairs)

    def other(operand: Operand) -> Operand:
        return by.get(operand.position, operand) if isinstance(operand, Value) else operand

    return item.map_operands(other)


def _ends_of_chains(item: Item, pairs: Mapping[Value, Operand | int]) -> dict[int, Operand]:
    """What comes in the place of each value in the end, by its position."""
    check_type("pairs", pairs, "a mapping", Mapping)
    first: dict[int, Operand] = {}
    for of, by in pairs.items():
        check_type("of", of, "a Value", Value)
        first[of.position] = plain_operand("by", by)
    last: dict[int, Operand] = {}
    for start in first:
        chain: dict[int, None] = {}
        end: Operand = Value(start)
        while isinstance(end, Value) and end.position in first:
            position = end.position
            if position in last or end == first[position]:
                end = last.get(position, end)
                chain[position] = None
                break
            if position in chain:
                where = place(position, _name(item, position))
                raise ValueError(f"{where}: its replacements come back to it")
            chain[position] = None
            end = first[position]
        last.update(dict.fromkeys(chain, end))
    return last


def _name(item: Item, position: int) -> str | None:
    statement = item.statements[position] if position < len(item.statements) else None
    return statement.name if isinstance(statement, Assignment) else None


def inserted_before(item: Item, before: Value | int, statement: Statement) -> Item:
    check_type("a statement", statement, "a statement", Assignment, BlockPc, Pc)
    at = min(_position("a position", before), len(item.statements))
    statements = (*item.statements[:at], statement, *item.statements[at:])
    return _renumbered(item, statements, lambda used: used + (used >= at))


def moved_before(item: Item, which: Value | int, before: Value | int) -> Item:
    start = _position("a position", which)
    count = len(item.statements)
    if start >= count:
        raise IndexError(f"the item has no statement {start}")
    to = min(_position("a position", before), count)
    order = [position for position in range(count) if position != start]
    order.insert(to - (to > start), start)
    return _in_order(item, order)


def sorted_item(item: Item) -> Item:
    return _in_order(item, _order(item.statements))


def _order(statements: tuple[Statement, ...]) -> list[int]:
    """An order with each assignment before its uses: a walk in depth, from each in turn."""
    order: list[int] = []
    seen = [False] * len(statements)
    for start in range(len(statements)):
        path = [(start, False)]
        while path:
            position, is_last = path.pop()
            if is_last:
                order.append(position)
            elif not seen[position]:
                seen[position] = True
                path.append((position, True))
                used = [value.position for value in reversed(statements[position].uses)]
                path += [
                    (n, False)
                    for n in used
                    if n < len(seen) and not seen[n] and isinstance(statements[n], Assignment)
                ]
    return order


def _in_order(item: Item, order: list[int]) -> Item:
    new = [0] * len(order)
    for position, old in enumerate(order):
        new[old] = position
    statements = tuple([item.statements[old] for old in order])
    return _renumbered(item, statements, lambda used: new[used] if used < len(new) else used)


def _renumbered(
    item: Item, statements: Iterable[Statement], number: Callable[[int], int]
) -> Item:
    """The item with these statements, in which each use is of another position."""

    def value(used: Value) -> Value:
        return Value(number(used.position))

    def operand(used: Operand) -> Operand:
        return value(used) if isinstance(used, Value) else used

    def statement(old: Statement) -> Statement:
        match old:
            case Assignment(name, width, Phi(block, values), attributes):
                phi = Phi(value(block), tuple(map(operand, values)))
                return Assignment(name, width, phi, attributes)
            case BlockPc(block, predecessor, x, y):
                return BlockPc(value(block), predecessor, operand(x), operand(y))
        return old.map_operands(operand)

    named = _named(list(map(statement, statements)))
    return Item(tuple(named), mapped_ending(item.ending, operand))


def _named(statements: list[Statement]) -> Iterator[Statement]:
    """Gives each assignment without a name ``%`` and its position, or the next free number."""
    names = {it.name for it in statements if isinstance(it, Assignment)}
    free = 0
    for position, it in enumerate(statements):
        if isinstance(it, Assignment) and not it.name:
            free = max(free, position)
            while f"%{free}" in names:
                free += 1
            yield Assignment(f"%{free}", it.width, it.value, it.attributes)
            free += 1
        else:
            yield it
