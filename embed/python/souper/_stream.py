"""The items of a stream that comes in parts."""

from __future__ import annotations

import re
from collections.abc import Callable, Iterator
from typing import BinaryIO, NoReturn

from . import _library
from ._calls import hint, read
from ._checks import check_type
from ._errors import Location, NotUtf8, Refused, four_lines
from ._library import DONE, NOT_UTF8, NUMBERS, Outcome
from ._values import Item, Kind

_STEP = 65536
"""In a longer segment a cut is looked for only when an eighth more is there."""


class Reader:
    """Reads the items of a stream that is pushed part by part, such as what a socket gives.

    `next` gives an item, or `None` if more of the stream is wanted. ``for item in reader`` takes the
    items that are there; after the next `push` another loop takes more. The stream is cut where an
    item ends and a line of the next begins, as the tokens of the lines show it. Between two cuts is
    a *segment*. An item is there when the first line of the next is whole, or after `finish`. In
    memory are what was pushed since the last cut, which is an unfinished segment, and the items of
    the segments that were cut last.

    An invalid segment gives no items. It raises `Refused`, with its place, `Location` and hint in
    the stream, and the next call of `next` reads on after it. With `refused` that function is called
    with the exception instead, and reading resumes. At bytes that are not UTF-8 it raises
    `NotUtf8`, after the segments before them, and is at its end.

    With `by_segments` each segment is read by itself: `offset` and `line` are then those of the
    item, if its segment has no other. It takes more time.

    >>> reader = Reader("rhs", refused=lambda refusal: print("refused:", refusal.location))
    >>> reader.push(b"result 1\\nresult\\nres")
    >>> [item.ending for item in reader]
    [Result(operand=Constant(value=1, width=None))]
    >>> reader.push(b"ult 2")
    >>> reader.finish()
    >>> [item.ending for item in reader]
    refused: Location(offset=15, line=2, column=7)
    [Result(operand=Constant(value=2, width=None))]
    """

    def __init__(
        self,
        kind: Kind | str,
        *,
        by_segments: bool = False,
        refused: Callable[[Refused], object] | None = None,
    ) -> None:
        self._kind = Kind(kind)
        self._by_segments = by_segments
        self._refused = refused
        self._buffer = bytearray()
        self._whole = 0  # the bytes up to the last newline
        self._goal = 1  # a cut is looked for when so many bytes are there
        self._chunk = b""  # which is read segment by segment
        self._at = 0  # the bytes of it that were read
        self._is_finished = False
        self._bytes = 0  # before what is not read yet, in the stream
        self._lines = 0
        self._last_line = b""
        self._items: Iterator[Item] = iter(())
        self._offset = 0
        self._line = 1

    @property
    def offset(self) -> int:
        """Where the part begins that the last item came from, or that was refused.

        That is its first byte that is not in white space nor in a comment. A part is one segment or
        more.
        """
        return self._offset

    @property
    def line(self) -> int:
        """The line of the byte at `offset`, from 1."""
        return self._line

    def push(self, part: bytes | bytearray | memoryview) -> None:
        """Takes the next bytes of the stream, which may be cut anywhere.

        `ValueError` after `finish`, and where the stream cannot be read on.
        """
        check_type("a part", part, "bytes", bytes, bytearray, memoryview)
        if self._is_finished:
            raise ValueError("the stream has ended")
        part = bytes(part)
        newline = part.rfind(b"\n")
        if newline >= 0:
            self._whole = len(self._buffer) + newline + 1
        self._buffer += part

    def finish(self) -> None:
        """Says that nothing comes after what was pushed."""
        self._is_finished = True

    def __iter__(self) -> Iterator[Item]:
        return _Ready(self)

    def next(self) -> Item | None:
        """The next item; `None` if more of the stream is wanted, or after the end."""
        while (item := next(self._items, None)) is None:
            try:
                if not self._read_part():
                    return None
            except Refused as refusal:
                if self._refused is None:
                    raise
                self._refused(refusal)
        return item

    def _next_chunk(self) -> int:
        """The length of the next chunk, which is cut at its end; 0 if there is none yet."""
        if self._is_finished:
            return len(self._buffer)
        if self._whole < self._goal:
            return 0
        lines = bytes(memoryview(self._buffer)[: self._whole])
        cut = _library.LIBRARY.souper_last_cut(NUMBERS[self._kind], lines, len(lines))
        if cut.status == NOT_UTF8:
            return self._whole
        self._check(cut)
        more = self._whole // 8 if self._whole > _STEP else 0
        self._goal = self._whole + 1 + more
        return int(cut.length)

    def _read_part(self) -> bool:
        """Reads the next part, if there is one."""
        if self._at == len(self._chunk):
            length = self._next_chunk()
            if not length:
                return False
            self._chunk = bytes(memoryview(self._buffer)[:length])
            self._at = 0
            del self._buffer[:length]
            self._whole = max(self._whole - length, 0)
            self._goal = self._whole + 1
            if not self._by_segments and self._reads_chunk():
                return True
        segment = _library.first_segment(self._kind, self._chunk, self._at)
        if segment.status == NOT_UTF8:
            self._fail(self._chunk[self._at :])
        self._check(segment)
        text = self._chunk[self._at : self._at + segment.length]
        try:
            items = read(self._kind, text)
        except Refused as refusal:
            placed = self._placed(refusal, text)
            self._pass(text, [])
            raise placed from None
        self._pass(text, items)
        return True

    def _reads_chunk(self) -> bool:
        """Reads the whole chunk, if all is valid."""
        try:
            items = read(self._kind, self._chunk)
        except (Refused, UnicodeDecodeError):
            return False
        self._pass(self._chunk, items)
        return True

    def _pass(self, text: bytes, items: list[Item]) -> None:
        """Passes over the next bytes of the chunk, which gave the items."""
        empty = text[: _gap(text)]
        self._offset = self._bytes + len(empty)
        self._line = self._lines + empty.count(b"\n") + 1
        self._bytes += len(text)
        self._lines += text.count(b"\n")
        self._last_line = text[text.rfind(b"\n", 0, len(text) - 1) + 1 :]
        self._items = iter(items)
        self._at += len(text)
        if self._at == len(self._chunk):
            self._chunk, self._at = b"", 0

    def _end(self) -> None:
        """Nothing more is read."""
        self._is_finished = True
        self._buffer = bytearray()
        self._chunk, self._at = b"", 0

    def _fail(self, text: bytes) -> NoReturn:
        """Ends the stream at bytes that are not UTF-8."""
        self._end()
        try:
            text.decode()
        except UnicodeDecodeError as error:
            lines = text.count(b"\n", 0, error.start)
            raise NotUtf8(self._bytes + error.start, self._lines + lines + 1) from error
        raise RuntimeError("the library says that UTF-8 is none")

    def _check(self, outcome: Outcome) -> None:
        """Ends the stream if the library, a newer one, returned a status that is not known."""
        if outcome.status != DONE:
            self._end()
            status = _library.unknown(outcome.status)
            raise RuntimeError(f"the library returned the status {status}")

    def _placed(self, refusal: Refused, text: bytes) -> Refused:
        """The refusal of a segment, with its place, its location and its hint in the stream."""
        at, meant = refusal.location, refusal.hint
        if meant is not None and self._lines:
            meant = hint(self._kind, self._lines, text)
        source = refusal.shown.rsplit("\n", 2)[1].partition(" | ")[2]
        number, column = refusal.line + self._lines, refusal.column
        if refusal.offset == 0 and self._bytes:
            # The byte before is the newline of the line before.
            number, column = self._lines, len(self._last_line)
            if at is None:
                source = self._last_line.decode().removesuffix("\n").removesuffix("\r")
        if at is not None:
            at = Location(at.offset + self._bytes, at.line + self._lines, at.column)
        place = at[1:] if at is not None else (number, column)
        shown = four_lines(refusal.message, *place, source)
        offset = refusal.offset + self._bytes
        return Refused(shown, offset, number, column, refusal.input, at, refusal.at_end, meant)


class _Ready(Iterator[Item]):
    """The items of a reader until more of the stream is wanted. From then on it is at its end."""

    def __init__(self, reader: Reader) -> None:
        self._reader: Reader | None = reader

    def __next__(self) -> Item:
        item = self._reader.next() if self._reader is not None else None
        if item is None:
            self._reader = None
            raise StopIteration
        return item


def _gap(text: bytes) -> int:
    """The length of the white space and the comments that the text begins with.

    Of white space that is not ASCII it knows nothing.
    """
    found = re.match(rb"(?:[ \t-\r]|;[^\n]*)*", text)
    return found.end() if found else 0


def stream(
    kind: Kind | str,
    file: BinaryIO,
    *,
    by_segments: bool = False,
    refused: Callable[[Refused], object] | None = None,
) -> Iterator[Item]:
    """The items of a binary file, which may be larger than memory, and may be a pipe or a socket.

    `Refused` at an invalid segment, which ends the iterator; with `refused` that function is called
    with the exception instead, and the iterator resumes. `Reader` says more.

    >>> import io
    >>> file = io.BytesIO(b"result 1\\nresult\\nresult 2")
    >>> [item.ending.operand.value for item in stream("rhs", file, refused=lambda refusal: None)]
    [1, 2]
    """
    reader = Reader(kind, by_segments=by_segments, refused=refused)
    # What is there is taken: `read` would wait for all bytes.
    take = getattr(file, "read1", file.read)
    while part := take(_STEP):
        reader.push(part)
        yield from reader
    reader.finish()
    yield from reader
