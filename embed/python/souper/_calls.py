"""The calls: reading, writing, comparing, keys, and answers."""

from __future__ import annotations

import ctypes
from collections.abc import Iterable
from typing import Any, NamedTuple

from . import _library
from ._checks import check_type, documented
from ._code import encode
from ._decoder import decode
from ._errors import Flaw, FlawReason, Location, NotWellFormed, Refused, four_lines
from ._library import DIFFERENT, DONE, NOT_UTF8, NOT_WELL_FORMED, OUT_OF_MEMORY, REFUSED, SHORT
from ._library import KEY, NUL, NUMBERS, RENAME, Outcome
from ._values import Assignment, Item, Kind


def _utf8(text: str | bytes) -> bytes:
    check_type("a text", text, "str or bytes", str, bytes)
    return text.encode() if isinstance(text, str) else text


def _written(
    function: Any, head: tuple[int | bytes, ...], data: bytes, room: int
) -> tuple[Outcome, bytes]:
    """The outcome and the output of a function. `room` is the first size of the buffer."""
    while True:
        out = bytearray(room)
        first = ctypes.c_char.from_buffer(out)
        outcome: Outcome = function(*head, data, len(data), ctypes.byref(first), room)
        if outcome.status != SHORT:
            has_written = outcome.status in (DONE, REFUSED)
            return outcome, bytes(memoryview(out)[: outcome.length if has_written else 0])
        room = outcome.length


def _formatted(kind: Kind, data: bytes) -> tuple[Outcome, bytes]:
    room = len(data) + len(data) // 4 + 256
    return _written(_library.LIBRARY.souper_format, (NUMBERS[kind],), data, room)


def _line_at(data: bytes, offset: int) -> str:
    """The line of a byte of a text, without its line end."""
    begin, end = data.rfind(b"\n", 0, offset) + 1, data.find(b"\n", offset)
    line = data[begin:] if end < 0 else data[begin:end].removesuffix(b"\r")
    return line.decode()


def hint(kind: Kind, lines: int, data: bytes) -> str | None:
    """The hint for a refused text that this number of lines precedes. `None` also if memory ran out for it."""
    outcome, out = _written(_library.LIBRARY.souper_hint, (NUMBERS[kind], lines), data, 256)
    return out.decode() or None if outcome.status == REFUSED else None


def _refused(kind: Kind, outcome: Outcome, data: bytes, shown: bytes) -> Refused:
    numbers = (outcome.offset, outcome.line, outcome.column, outcome.input)
    meant = hint(kind, 0, data)
    refusal = Refused(shown.decode(), *numbers, hint=meant)
    found = _library.LIBRARY.souper_locate(NUMBERS[kind], data, len(data))
    if found.status != REFUSED:
        return refusal
    location = Location(found.offset, found.line, found.column)
    located = four_lines(refusal.message, *location[1:], _line_at(data, location.offset))
    return Refused(located, *numbers, location, found.at_end == 1, meant)


def _failure(kind: Kind, outcome: Outcome, data: bytes, shown: bytes) -> Exception:
    """Why a call has no answer. `data` is the text that the outcome is about, `shown` a refusal."""
    if outcome.status == REFUSED:
        return _refused(kind, outcome, data, shown)
    if outcome.status == OUT_OF_MEMORY:
        return MemoryError()
    if outcome.status == NOT_UTF8:
        try:
            data.decode()
        except UnicodeDecodeError as error:
            return error
    return RuntimeError(f"the library returned the status {_library.unknown(outcome.status)}")


def _answer(kind: Kind, outcome: Outcome, data: bytes) -> bool:
    if outcome.status in (DONE, DIFFERENT):
        return outcome.status == DONE
    shown = b""
    if outcome.status == REFUSED:
        again, shown = _formatted(kind, data)
        if again.status != REFUSED:
            raise _failure(kind, again, data, b"")
    raise _failure(kind, outcome, data, shown)


def read(kind: Kind | str, text: str | bytes) -> list[Item]:
    """The items that the text spells, each with all its statements in the order of the text.

    `Refused` if the text spells no list of items of the kind.

    >>> read("rhs", "%x = var result %x")[0].ending
    Result(operand=Value(position=0))
    >>> read("lhs", "infer %x")
    Traceback (most recent call last):
        ...
    souper.Refused: unknown:1:7: no value named '%x' in scope
         |
       1 | infer %x
         |       ^
    """
    kind, data = Kind(kind), _utf8(text)
    # A code is rarely more than four times its text.
    room = 4 * len(data) + len(data) // 2 + 256
    outcome, out = _written(_library.LIBRARY.souper_read, (NUMBERS[kind],), data, room)
    if outcome.status != DONE:
        raise _failure(kind, outcome, data, out)
    return decode(kind, out)


# By their numbers.
_LINES = {2: "infer", 3: "result", 4: "cand"}
_REASONS = dict(enumerate(FlawReason, 1))


def _flaw(kind: Kind, code: bytes, item: Item) -> Flaw | None:
    """The first flaw of an item, with whose code the bytes begin. `None` if memory ran out."""
    found = _library.LIBRARY.souper_flaw(NUMBERS[kind], code, len(code))
    if found.status == OUT_OF_MEMORY:
        return None
    if found.status != NOT_WELL_FORMED:
        raise _failure(kind, Outcome(status=found.status), code, b"")
    unknown = _library.unknown
    reason = _REASONS.get(found.reason) or FlawReason(unknown(found.reason))
    if found.location != 1:
        return Flaw(_LINES.get(found.location) or unknown(found.location), reason)
    statements = item.statements
    statement = statements[found.position] if found.position < len(statements) else None
    name = statement.name if isinstance(statement, Assignment) else None
    return Flaw(found.position, reason, name)


def write(kind: Kind | str, items: Iterable[Item]) -> str:
    """The canonical text of each item, a newline after each.

    `NotWellFormed` if an item is not well formed; `ValueError` and `TypeError` as `encode` raises
    them.

    >>> write("rhs", [Item((), Result(Constant(1, 8)))])
    'result 1:i8\\n'
    >>> write("lhs", [Item((), Infer(Value(0)))])
    Traceback (most recent call last):
        ...
    souper.NotWellFormed: item 0 is not well formed: infer line: an operand is no assignment
    """
    kind = Kind(kind)
    check_type("items", items, "an iterable of items", Iterable)
    items = list(items)
    code = encode(kind, items)
    outcome, out = _written(_library.LIBRARY.souper_write, (NUMBERS[kind],), code, len(code) + 256)
    if outcome.status == NOT_WELL_FORMED:
        index, begin = outcome.length, outcome.offset
        flaw = _flaw(kind, code[begin:], items[index]) if index < len(items) else None
        raise NotWellFormed(index, flaw)
    if outcome.status != DONE:
        raise _failure(kind, outcome, code, out)
    return out.decode()


def canonical(kind: Kind | str, item: Item) -> Item:
    """The item that the canonical text of an item spells.

    Its statements are the needed ones in printed order, and each definition is before its uses.
    `NotWellFormed` if the item is not well formed.

    >>> [item] = read("lhs", "%unused = var  %x = var  infer %x")
    >>> canonical("lhs", item).statements
    (Assignment(name='%x', width=None, value=Var(), attributes=()),)
    """
    return read(kind, write(kind, [item]))[0]


def format(kind: Kind | str, text: str | bytes) -> str:
    """The canonical text of each item that the text spells, a newline after each.

    `Refused` if the text spells no list of items of the kind.

    >>> format("lhs", "%x=var ; a comment\\n%unused = var infer %x")
    '%x = var\\ninfer %x\\n\\n'
    """
    data = _utf8(text)
    kind = Kind(kind)
    outcome, out = _formatted(kind, data)
    if outcome.status != DONE:
        raise _failure(kind, outcome, data, out)
    return out.decode()


def library_version() -> int:
    """The version of the library that is loaded, as a number: 1,002,003 is 1.2.3."""
    version: int = _library.LIBRARY.souper_version()
    return version


def check(kind: Kind | str, text: str | bytes) -> bool:
    """Whether the text is canonical: `format` returns the text itself.

    `Refused` if the text spells no list of items of the kind.

    >>> check("lhs", "%x = var\\ninfer %x\\n\\n"), check("lhs", "%x = var infer %x")
    (True, False)
    """
    kind, data = Kind(kind), _utf8(text)
    return _answer(kind, _library.LIBRARY.souper_check(NUMBERS[kind], data, len(data)), data)


def same(kind: Kind | str, a: str | bytes, b: str | bytes) -> bool:
    """Whether the texts spell the same graphs, in the same order.

    `Refused` if a text spells no list of items of the kind; its `input` says which text.

    >>> same("lhs", "%y = var %x = var infer %x", "%x = var infer %x")
    True
    """
    kind, first, second = Kind(kind), _utf8(a), _utf8(b)
    outcome = _library.LIBRARY.souper_same(NUMBERS[kind], first, len(first), second, len(second))
    return _answer(kind, outcome, first if outcome.input == 0 else second)


def find(store: str | bytes, queries: str | bytes) -> list[list[str]]:
    """What the replacements of `store` answer for each left-hand side of `queries`, in order.

    An answer is the canonical text, without the newline that `format` writes after it, of a
    replacement whose left-hand side is the same graph up to names, with the names of the left-hand
    side that was asked for. The answers are in the order in which `store` has them first.

    Each call reads `store` anew, so many left-hand sides are best asked for at once.

    `Refused` if a text spells no list of its kind; its `input` is 0 for `store`, 1 for `queries`.

    >>> store = "%a = var  %b = add %a, %a  infer %b  %c = shl %a, 1  result %c"
    >>> [[answer], none] = find(store, "%x = var %y = add %x, %x infer %y  %x = var infer %x")
    >>> print(answer, end="")
    %x = var
    %y = add %x, %x
    infer %y
    %2 = shl %x, 1
    result %2
    >>> none
    []
    """
    given, asked = _utf8(store), _utf8(queries)
    head = (given, len(given))
    outcome, out = _written(_library.LIBRARY.souper_find, head, asked, 2 * len(asked) + 256)
    if outcome.status != DONE:
        kind, data = (Kind.REP, given) if outcome.input == 0 else (Kind.LHS, asked)
        raise _failure(kind, outcome, data, out)
    # Each left-hand side has its answers and a NUL, each answer its text and a newline.
    groups = out.decode().split("\0")[:-1]
    return [[text + "\n" for text in group.split("\n\n")[:-1]] for group in groups]


@documented(
    key="The SHA-256 of the text, in 64 hexadecimal digits.",
    text="The canonical text, without the newline that `format` writes after it.",
)
class Record(NamedTuple):
    """The key and the text of an item."""

    key: str
    text: str


def records(kind: Kind | str, text: str | bytes, *, rename: bool = False) -> list[Record]:
    """The key and the canonical text of each item that the text spells.

    With `rename` the values are named ``%0``, ``%1``, .. in printed order, so that items which
    differ in names alone have one record.

    `Refused` if the text spells no list of items of the kind.

    >>> [record] = records("lhs", "%x = var infer %x", rename=True)
    >>> record.key == key("lhs", "%y = var infer %y", rename=True), record.text
    (True, '%0 = var\\ninfer %0\\n')
    """
    # A record is "; ", the key, a newline, the text and a NUL.
    found = record_text(kind, text, key=True, rename=rename, nul=True)
    return [Record(record[2:66], record[67:]) for record in found.split("\0")[:-1]]


def record_text(
    kind: Kind | str,
    text: str | bytes,
    *,
    key: bool = False,
    rename: bool = False,
    nul: bool = False,
) -> str:
    """The record of each item that the text spells, as the program ``souper_items`` writes them.

    A record is the canonical text and a newline; with `nul`, a NUL in place of that newline.
    With `key` it begins with a comment line that has the key. With `rename` the values are named
    ``%0``, ``%1``, .. in printed order, so that items which differ in names alone have one record.

    `Refused` if the text spells no list of items of the kind.

    >>> record_text("lhs", "%x = var infer %x", rename=True)
    '%0 = var\\ninfer %0\\n\\n'
    """
    data = _utf8(text)
    kind = Kind(kind)
    flags = (KEY if key else 0) | (RENAME if rename else 0) | (NUL if nul else 0)
    head = (NUMBERS[kind], flags)
    outcome, out = _written(_library.LIBRARY.souper_key, head, data, 2 * len(data) + 256)
    if outcome.status != DONE:
        raise _failure(kind, outcome, data, out)
    return out.decode()


def keys(kind: Kind | str, text: str | bytes, *, rename: bool = False) -> list[str]:
    """The key of each item that the text spells.

    A key is the SHA-256 of the item's canonical text, in 64 hexadecimal digits. With `rename` the
    values are named ``%0``, ``%1``, .. in printed order, so that items which differ in names alone
    have one key.

    `Refused` if the text spells no list of items of the kind.
    """
    return [record.key for record in records(kind, text, rename=rename)]


def key(kind: Kind | str, item: Item | str | bytes, *, rename: bool = False) -> str:
    """The key of an item, or of the one item that a text spells, as `keys` has it.

    `ValueError` if the text spells another number of items.

    >>> key("lhs", "%x = var infer %x", rename=True) == key("lhs", "%y = var infer %y", rename=True)
    True
    """
    found = keys(kind, write(kind, [item]) if isinstance(item, Item) else item, rename=rename)
    if len(found) != 1:
        raise ValueError(f"the text spells {len(found)} items, not one")
    return found[0]
