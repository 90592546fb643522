"""Souper IR: graphs as Python values, their canonical texts and their keys.

Souper IR is the text format of the superoptimizer Souper. A text spells a list of *items* of one
kind: left-hand sides (``'lhs'``), right-hand sides (``'rhs'``) or replacements (``'rep'``). An item
is a list of statements and its last lines:

>>> import souper
>>> text = "%unused = var  %x:i8 = var  %y:i8 = add %x, 1:i8  infer %y"
>>> [item] = souper.read("lhs", text)
>>> item.statements[2].value
Instruction(op=<Op.ADD: 'add'>, operands=(Value(position=1), Constant(value=1, width=8)))

Two items are the same graph if a one-to-one map between the statements that they need carries one
to the other. Names and the order of path conditions count, the order of other statements does not.
Two items have the same canonical text if and only if they are the same graph:

>>> print(souper.format("lhs", text), end="")
%x:i8 = var
%y:i8 = add %x, 1:i8
infer %y
<BLANKLINE>
>>> souper.key("lhs", item)
'd66a7a1bb88ce7002c2c65fbd716f6b06125d531f1c578eb8eb33a3ccc1c8e93'

A graph is built by a `Builder`:

>>> b = souper.Builder()
>>> x = b.var("x", 8)
>>> y = b.inst("add", x, 1, width=8)
>>> b.pc(b.inst("slt", 0, x), 1)
>>> print(souper.write("lhs", [b.infer(y)]), end="")
%x:i8 = var
%1:i8 = add %x, 1
%2 = slt 0, %x
pc %2 1
infer %1
<BLANKLINE>

The statements of ``canonical(kind, item)`` are the needed ones in printed order: each definition is
before its uses, so a loop over them walks the graph.

**Library.** The package loads ``libsouper_c.so``, which is in its folder or where the environment
variable ``SOUPER_LIB`` says. ``embed/python/build`` builds it, by one line::

    gcc -O2 -shared -fPIC embed/heap.c -Wl,--whole-archive crates/souper_c/out/libsouper_c.a \\
        -Wl,--no-whole-archive -Wl,-z,defs -o embed/python/souper/libsouper_c.so

The contracts of the library's functions are proved, and ``docs/EMBEDDING.md`` lists them. The
package is only tested: the decoder and the encoder of the code that the library takes and returns,
the values, and `Builder`.

**Texts.** A text is a `str`, or `bytes` in UTF-8. Offsets and columns are in bytes of UTF-8.

**Streams.** ``stream(kind, file)`` gives the items of a binary file, which may be larger than memory,
one by one, and a `Reader` those of what is pushed to it part by part.

**Errors.** `Refused`, with its `Location` and hint, if a text is invalid, `UnicodeError` if not UTF-8,
`NotWellFormed`, with the item's first `Flaw`, if an item has no canonical text, `NoCode` if bytes
are the code of no items; these are `ValueError`. `MemoryError` if an allocation fails. What only a
newer library knows is ``unknown(N)``: a reason of a flaw, or a status, which is a `RuntimeError`.

**Threads.** There is no state, and values are immutable. Calls may run at once on any threads, and
while the library works, other threads of Python run. A `Builder` is for one thread at a time.
"""

from __future__ import annotations

from types import FunctionType

from ._builder import Builder
from ._calls import Record, canonical, check, find, format, key, keys, library_version
from ._calls import read, record_text, records, same, write
from ._code import encode
from ._decoder import decode
from ._errors import Flaw, FlawReason, Location, NoCode, NotUtf8, NotWellFormed, Refused
from ._passes import Users
from ._stream import Reader, stream
from ._values import (
    Assignment,
    Attribute,
    Block,
    BlockPc,
    Cand,
    Constant,
    DemandedBits,
    Ending,
    HarvestedFromUse,
    HasExternalUses,
    Infer,
    Instruction,
    Item,
    Kind,
    KnownBits,
    Negative,
    NonNegative,
    NonZero,
    Op,
    Operand,
    Pc,
    Phi,
    PowerOfTwo,
    Range,
    Replace,
    ReservedConst,
    ReservedInst,
    Result,
    Rhs,
    RootAttribute,
    SignBits,
    Statement,
    Value,
    Var,
)
from ._widths import NoWidths, WidthFlaw, WidthReason, Widths, widths

__all__ = [
    "Assignment",
    "Attribute",
    "Block",
    "BlockPc",
    "Builder",
    "Cand",
    "Constant",
    "DemandedBits",
    "Ending",
    "Flaw",
    "FlawReason",
    "HarvestedFromUse",
    "HasExternalUses",
    "Infer",
    "Instruction",
    "Item",
    "Kind",
    "KnownBits",
    "Location",
    "Negative",
    "NoCode",
    "NoWidths",
    "NonNegative",
    "NonZero",
    "NotUtf8",
    "NotWellFormed",
    "Op",
    "Operand",
    "Pc",
    "Phi",
    "PowerOfTwo",
    "Range",
    "Reader",
    "Record",
    "Refused",
    "Replace",
    "ReservedConst",
    "ReservedInst",
    "Result",
    "Rhs",
    "RootAttribute",
    "SignBits",
    "Statement",
    "Users",
    "Value",
    "Var",
    "WidthFlaw",
    "WidthReason",
    "Widths",
    "canonical",
    "check",
    "decode",
    "encode",
    "find",
    "format",
    "key",
    "keys",
    "library_version",
    "read",
    "record_text",
    "records",
    "same",
    "stream",
    "widths",
    "write",
]

__version__ = "2.0.0"

# Messages, pickles and help name the package, not the module of it.
for _public in map(globals().get, __all__):
    if isinstance(_public, type | FunctionType):
        _public.__module__ = __name__
del _public
