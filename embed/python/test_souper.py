"""Tests of the package souper: python3 -W error embed/python/test_souper.py"""

from __future__ import annotations

import concurrent.futures
import contextlib
import copy
import ctypes
import doctest
import hashlib
import importlib.util
import inspect
import io
import itertools
import os
import pickle
import pydoc
import random
import re
import shutil
import subprocess
import sys
import tempfile
import threading
import time
import tracemalloc
import unittest
import venv
from collections.abc import Callable, Iterator, Sequence
from dataclasses import FrozenInstanceError, dataclass, replace
from functools import partial
from pathlib import Path
from typing import Any
from unittest import mock

import souper
from souper import Assignment, BlockPc, Builder, Constant, Infer, Instruction, Item, Kind, Op
from souper import Pc, Phi, Value, Var, _decoder, _library, _values, draw

HERE = Path(__file__).resolve().parent
ROOT = HERE.parent.parent
DONE, SHORT, NO_CODE, NOT_WELL_FORMED = 0, 5, 7, 8
LIBRARY = _library.LIBRARY

# Each form of a node, in three items.
FORMS = {
    Kind.LHS: """
        %b:i1 = block 2
        %x:i8 = var (knownBits=01x) (powerOfTwo) (negative) (nonNegative) (nonZero)
        %y = var (hasExternalUses) (signBits=255)
            (range=[-5,170141183460469231731687303715884105727))
        %p = phi %b, %x, -170141183460469231731687303715884105728:i65535
        %i = reservedinst
        %c = reservedconst
        %h = hole
        %s:i8 = select %y, %p, 1:i8
        pc %s 1
        blockpc %b 1 %x %i
        infer %h (demandedBits=0110) (harvestedFromUse)""",
    Kind.RHS: "%x = var  %y = freeze %x  result %y  result 5:i7  result -1",
    Kind.REP: """
        %x = var  infer %x (harvestedFromUse)  %z = add %x, 1  result %z
        %x = var  cand %x, 3:i8""",
}


@dataclass
class Record:
    """A stored answer: a kind, a text, and the output of ``souper_format``."""

    kind: Kind
    is_refused: bool
    text: bytes
    answer: bytes


def stored_answers() -> Iterator[Record]:
    rest = (ROOT / "crates/replay_answers/stdin").read_bytes()
    while rest:
        head, _, rest = rest.partition(b"\n")
        kind, status, _, text, answer = head.decode().split(" ")
        end = int(text) + 1 + int(answer)
        yield Record(Kind(kind), status == "1", rest[: int(text)], rest[int(text) + 1 : end])
        rest = rest[end + 1 :]


RECORDS = list(stored_answers())
VALID = [record for record in RECORDS if not record.is_refused]
REFUSED = [record for record in RECORDS if record.is_refused]


def raw(name: str, kind: Kind, data: bytes) -> tuple[_library.Outcome, bytes]:
    """The outcome and the output of a function of C."""
    room = 100 * len(data) + 1000
    out = ctypes.create_string_buffer(room)
    outcome = getattr(LIBRARY, name)(list(Kind).index(kind), data, len(data), out, room)
    return outcome, out.raw[: outcome.length] if outcome.status == DONE else b""


def each_call(kind: Kind, text: bytes) -> Iterator[Callable[[], object]]:
    """Each call with the text alone."""
    yield partial(souper.read, kind, text)
    yield partial(souper.format, kind, text)
    yield partial(souper.check, kind, text)
    yield partial(souper.same, kind, text, b"")
    yield partial(souper.records, kind, text)
    yield partial(souper.keys, kind, text)
    yield partial(souper.key, kind, text)


class Answers(unittest.TestCase):
    """The stored answers."""

    def test_there_are_560(self) -> None:
        self.assertEqual((len(RECORDS), len(VALID) > 200, len(REFUSED) > 100), (560, True, True))

    def test_the_code_is_the_one_of_the_library(self) -> None:
        for record in VALID:
            code = raw("souper_read", record.kind, record.text)[1]
            items = souper.read(record.kind, record.text)
            self.assertEqual(souper.encode(record.kind, items), code, record)
            self.assertEqual(souper.decode(record.kind, code), items, record)

    def test_what_is_read_and_written_is_canonical(self) -> None:
        for record in VALID:
            answer = record.answer.decode()
            items = souper.read(record.kind, record.text)
            self.assertEqual(souper.write(record.kind, items), answer, record)
            self.assertEqual(souper.format(record.kind, record.text), answer, record)
            self.assertEqual(souper.format(record.kind, record.text.decode()), answer, record)

    def test_questions(self) -> None:
        for record in VALID:
            kind, text, answer = record.kind, record.text, record.answer
            self.assertIs(souper.check(kind, text), text == answer, record)
            self.assertIs(souper.check(kind, answer), True, record)
            self.assertIs(souper.same(kind, text, answer), True, record)
            self.assertIs(souper.same(kind, b"", text), not answer, record)

    def test_canonical_items(self) -> None:
        for record in VALID:
            read = souper.read(record.kind, record.text)
            items = [souper.canonical(record.kind, item) for item in read]
            self.assertEqual(items, souper.read(record.kind, record.answer), record)
            for item in items:
                self.assertEqual(souper.canonical(record.kind, item), item, record)
                for position, statement in enumerate(item.statements):
                    used = [o.position for o in statement.operands if isinstance(o, Value)]
                    self.assertTrue(all(use < position for use in used), record)

    def test_keys_are_hashes_of_canonical_texts(self) -> None:
        for record in VALID:
            kind = record.kind
            items = souper.read(kind, record.text)
            texts = [souper.write(kind, [item])[:-1] for item in items]
            keys = [hashlib.sha256(text.encode()).hexdigest() for text in texts]
            self.assertEqual(souper.keys(kind, record.text), keys, record)
            self.assertEqual([souper.key(kind, item) for item in items], keys, record)
            whole = "".join(f"; {key}\n{text}\0" for key, text in zip(keys, texts))
            self.assertEqual(souper.record_text(kind, record.text, key=True, nul=True), whole, record)
            lines = "".join(text + "\n" for text in texts)
            self.assertEqual(souper.record_text(kind, record.text), lines, record)

    def test_forms_of_records(self) -> None:
        # tools/record-formats compares the file with the stored texts of the program souper_items.
        path = ROOT / "embed/tests/record_formats.txt"
        rows = [
            line.replace("\\n", "\n").replace("\\0", "\0").split("\t")
            for line in path.read_text().split("\n")[:-1]
            if not line.startswith("#")
        ]
        self.assertGreater(len(rows), 6)
        for kind, flags, text, records in rows:
            has = flags.split(",")
            key, rename, nul = "key" in has, "rename" in has, "null" in has
            found = souper.record_text(kind, text, key=key, rename=rename, nul=nul)
            self.assertEqual(found, records)
            if not nul:
                pairs = souper.records(kind, text, rename=rename)
                lines = [f"; {pair.key}\n{pair.text}\n" if key else f"{pair.text}\n" for pair in pairs]
                self.assertEqual("".join(lines), records)

    def test_renamed_records(self) -> None:
        for record in VALID:
            renamed = souper.record_text(record.kind, record.text, rename=True)
            keys = souper.keys(record.kind, record.text, rename=True)
            self.assertEqual(souper.keys(record.kind, renamed), keys, record)
            for item in souper.read(record.kind, renamed):
                names = [s.name for s in item.statements if isinstance(s, Assignment)]
                self.assertEqual(names, [f"%{n}" for n in range(len(names))], record)

    def assert_refused(self, call: Callable[[], object], record: Record, input: int = 0) -> None:
        with self.assertRaises(souper.Refused) as raised:
            call()
        refusal = raised.exception
        # The place is the one of the last byte before the offset, or of the first byte.
        *lines, last = record.text[: max(refusal.offset - 1, 0)].split(b"\n")
        self.assertEqual((refusal.line, refusal.column), (len(lines) + 1, len(last) + 1), record)
        place = f"unknown:{refusal.line}:{refusal.column}: {refusal.message}\n     |\n"
        self.assertTrue(record.answer.decode().startswith(place), record)
        self.assertEqual(refusal.input, input, record)
        outcome = LIBRARY.souper_check(list(Kind).index(record.kind), record.text, len(record.text))
        self.assertEqual(refusal.offset, outcome.offset, record)
        location = refusal.location
        assert location is not None
        *lines, last = record.text[: location.offset].split(b"\n")
        self.assertEqual(location[1:], (len(lines) + 1, len(last) + 1), record)
        if refusal.at_end:
            self.assertEqual(location.offset, len(record.text.rstrip(b" \t\n\f\r")), record)
        else:
            self.assertEqual(location.offset, refusal.offset, record)
        source = record.text.split(b"\n")[location.line - 1]
        if record.text.count(b"\n") >= location.line:
            source = source.removesuffix(b"\r")
        self.assertEqual(refusal.shown, (
            f"unknown:{location.line}:{location.column}: {refusal.message}\n     |\n"
            f"{location.line:>4} | {source.decode()}\n     | {' ' * (location.column - 1)}^"
        ), record)
        self.assertEqual(str(refusal), refusal.shown, record)

    def test_refusals(self) -> None:
        for record in REFUSED:
            for call in each_call(record.kind, record.text):
                self.assert_refused(call, record)
            self.assert_refused(lambda: souper.same(record.kind, b"", record.text), record, 1)

    def test_eight_threads(self) -> None:
        def answers(first: int) -> list[object]:
            return [self.answer(RECORDS[(first + i) % 560]) for i in range(560)]

        alone = answers(0)
        with concurrent.futures.ThreadPoolExecutor(8) as pool:
            for first, found in zip(range(0, 560, 70), pool.map(answers, range(0, 560, 70))):
                self.assertEqual(found, alone[first:] + alone[:first])

    def answer(self, record: Record) -> object:
        """The results of the calls for a record."""
        try:
            items = souper.read(record.kind, record.text)
            written = souper.write(record.kind, items)
            return items, written, souper.keys(record.kind, record.text)
        except souper.Refused as refusal:
            return refusal.args


class Locations(unittest.TestCase):
    """Where texts are at fault: offsets, lines and columns that were counted by hand."""

    def assert_located(
        self, kind: Kind, text: str, location: tuple[int, int, int], at_end: bool = False
    ) -> None:
        calls = [*each_call(kind, text.encode()), partial(souper.same, kind, "", text)]
        for call in calls:
            with self.assertRaises(souper.Refused) as raised:
                call()
            found = raised.exception
            self.assertEqual((found.location, found.at_end), (location, at_end), text)
            self.assertIs(type(found.location), souper.Location)
            self.assertIs(type(found.at_end), bool)

    def test_where_the_token_at_fault_begins(self) -> None:
        for text, location in (
            ("%x = var\n%y = frob %x\ninfer %y", (14, 2, 6)),
            ("%x = var\n%x = var\ninfer %x", (9, 2, 1)),
            ("%x = var\ninfer %x\n\n%y = var\ninfer %z\n", (34, 5, 7)),
            ("5", (0, 1, 1)),
            ("%x = var ; é\ninfer\u2003%x 5", (25, 2, 12)),
        ):
            self.assert_located(Kind.LHS, text, location)

    def test_a_text_that_ends_early(self) -> None:
        for end in ("", "\n", " \t\n  "):
            self.assert_located(Kind.LHS, "%x = var\ninfer" + end, (14, 2, 6), True)
        self.assert_located(Kind.RHS, "result 1\nresult", (15, 2, 7), True)
        self.assert_located(Kind.REP, "%x = var\ncand %x", (16, 2, 8), True)

    def test_the_numbers_of_the_byte_before(self) -> None:
        with self.assertRaises(souper.Refused) as raised:
            souper.read("lhs", "%x = var\n%x = var\ninfer %x")
        refusal = raised.exception
        numbers = (refusal.offset, refusal.line, refusal.column)
        self.assertEqual((numbers, refusal.args[1:]), ((9, 1, 9), (9, 1, 9, 0)))
        self.assertEqual(repr(refusal.location), "Location(offset=9, line=2, column=1)")

    def test_what_is_shown(self) -> None:
        for text, line, column, source in (
            ("%x = var\r\ninfer %q\r\n", 2, 7, "infer %q"),
            ("%x = var\n%x = var\ninfer %x", 2, 1, "%x = var"),
            ("%x = var ; é\ninfer", 2, 6, "infer"),
            ("%x = var ; é\n\n \n", 1, 14, "%x = var ; é"),
            ("5", 1, 1, "5"),
        ):
            with self.assertRaises(souper.Refused) as raised:
                souper.format("lhs", text)
            found = raised.exception
            head = f"unknown:{line}:{column}: {found.message}\n     |\n"
            self.assertEqual(str(found), f"{head}{line:>4} | {source}\n     | {' ' * (column - 1)}^")

    def test_out_of_memory_for_the_location(self) -> None:
        refused = _library.Outcome(status=1, offset=9, line=1, column=9)
        library = mock.Mock(**{"souper_format.return_value": refused})
        library.souper_locate.return_value = _library.LocationNumbers(status=3)
        with mock.patch.object(_library, "LIBRARY", library):
            with self.assertRaises(souper.Refused) as raised:
                souper.format("lhs", "")
        found = raised.exception
        self.assertEqual((found.offset, found.location, found.at_end), (9, None, False))
        self.assertIsNone(found.hint)


class Hints(unittest.TestCase):
    """What the writers of refused texts may have meant."""

    TWICE = "%x = var\n%left = var\n%left = var\ninfer %left\n"

    def test_each_call(self) -> None:
        for kind, text, hint in (
            (Kind.LHS, "%x = var\n%y = ad %x, 1\ninfer %y", "did you mean 'add'?"),
            (Kind.RHS, "%x = var\nreslt %x", "did you mean 'result'?"),
            (Kind.REP, "cnd 1 2", "did you mean 'cand'?"),
            (Kind.LHS, self.TWICE, "'%left' is defined on line 2"),
            (Kind.LHS, "%x = var\n", "the 'infer' line is missing at the end"),
            (Kind.LHS, "%x = var\ninfer %y", None),
        ):
            calls = [*each_call(kind, text.encode()), partial(souper.same, kind, "", text)]
            if kind is Kind.REP:
                calls.append(partial(souper.find, text, ""))
            for call in calls:
                with self.assertRaises(souper.Refused) as raised:
                    call()
                found = raised.exception
                self.assertEqual(found.hint, hint, text)
                self.assertNotIn("hint", str(found))
                self.assertEqual(pickle.loads(pickle.dumps(found)).hint, hint)

    def of_stream(self, text: str, by_segments: bool) -> list[str | None]:
        found: list[str | None] = []
        items = souper.stream(
            "lhs", io.BytesIO(text.encode()), by_segments=by_segments,
            refused=lambda refusal: found.append(refusal.hint),
        )
        self.assertEqual(len(list(items)), 1)
        return found

    def test_the_lines_of_a_stream(self) -> None:
        rest = "%y = ad 1, 2\ninfer %y\n%x = var\ninfer %y\n"
        hints = ["'%left' is defined on line 5", "did you mean 'add'?", None]
        for by_segments in (False, True):
            found = self.of_stream(f"%x = var\ninfer %x\n\n{self.TWICE}{rest}", by_segments)
            self.assertEqual(found, hints)


class Streams(unittest.TestCase):
    """The reader of streams: the items and refusals of the segments, however the stream comes."""

    LHS = (
        "; a comment first\n%x = var\ninfer %x\n\n%y:i8 = var ; é\r\n%z = add %y, 1\r\npc %z 1\r\n"
        "infer %z\r\n%x = var\ninfer %q\n  # no comment\n%a = var\n%b = frob %a\ninfer %b\n%x = var\n"
        "infer\n%x = var infer %x %y = var\ninfer %y (harvestedFromUse)\n; infer %x\n%x = var\n\n\n"
        "; between\n infer %x\n%n = var\n%m = add %n,\n1\ninfer %m"
    ).encode()
    TEXTS = (
        (Kind.LHS, LHS),
        (Kind.REP, b"%x = var\ncand %x 1\n%x = var\ninfer %x\n%y = var\nresult %y\nresult 2\n\n"),
        (Kind.RHS, b"result 1\nresult 2 result 3\nresult\nresult %x\n%x = var result %x\n\n"),
        (Kind.RHS, b""),
        (Kind.LHS, b"; no item"),
        (Kind.RHS, b"result 5"),
        (Kind.RHS, b"\n\nresult"),
    )

    def told(self, refusal: souper.Refused) -> object:
        return refusal.shown, refusal.args[1:], refusal.location, refusal.at_end

    def wanted(self, kind: Kind, text: bytes) -> list[object]:
        """Each segment is read after as many blank bytes and lines as come before it."""
        found: list[object] = []
        at = 0
        while at < len(text):
            rest = text[at:]
            length = LIBRARY.souper_first_segment(list(Kind).index(kind), rest, len(rest)).length
            blank = re.sub(rb"[^\n]", b" ", text[:at])
            try:
                found += souper.read(kind, blank + rest[:length])
            except souper.Refused as refusal:
                found.append(self.told(refusal))
            at += length
        return found

    def found(
        self, kind: Kind, parts: Sequence[bytes | bytearray | memoryview], **options: bool
    ) -> list[object]:
        found: list[object] = []
        reader = souper.Reader(kind, refused=lambda r: found.append(self.told(r)), **options)
        for part in parts:
            reader.push(part)
            found.extend(reader)
        reader.finish()
        found.extend(reader)
        return found

    def parts(self, text: bytes, cuts: list[int]) -> list[bytes]:
        return [text[a:b] for a, b in zip([0, *cuts], [*cuts, len(text)])]

    def test_each_text_in_parts(self) -> None:
        for kind, text in self.TEXTS:
            wanted = self.wanted(kind, text)
            for cut in range(len(text) + 1):
                self.assertEqual(self.found(kind, self.parts(text, [cut])), wanted)
            for by_segments in (False, True):
                for parts in ([text], [text[i : i + 1] for i in range(len(text))]):
                    found = self.found(kind, parts, by_segments=by_segments)
                    self.assertEqual(found, wanted)
        self.assertEqual(len(self.wanted(*self.TEXTS[0])), 9)

    def test_each_split_of_a_small_text(self) -> None:
        text = b"result 1\nresult"
        wanted = self.wanted(Kind.RHS, text)
        inner = range(1, len(text))
        for split in range(1 << len(inner)):
            cuts = [at for at in inner if split >> (at - 1) & 1]
            if len(cuts) < 4 or split % 16 == 0:
                self.assertEqual(self.found(Kind.RHS, self.parts(text, cuts)), wanted)

    def test_random_cuts(self) -> None:
        r = random.Random(5)
        wanted = self.wanted(Kind.LHS, self.LHS)
        for n in range(2000):
            cuts = sorted(r.randrange(len(self.LHS)) for _ in range(r.randrange(12)))
            found = self.found(Kind.LHS, self.parts(self.LHS, cuts), by_segments=n % 5 == 0)
            self.assertEqual(found, wanted)

    def test_the_stored_texts(self) -> None:
        for kind in Kind:
            text = b"\n".join(record.text for record in RECORDS if record.kind is kind)
            parts = [text[i : i + 977] for i in range(0, len(text), 977)]
            self.assertEqual(self.found(kind, parts), self.wanted(kind, text))

    def test_what_a_refusal_shows_is_what_the_whole_text_shows(self) -> None:
        texts = [record.text for record in REFUSED if record.kind is Kind.LHS]
        for text in (*texts, b"result %x\n", b"\n\ninfer\n"):
            for begun in (b"%x = var\ninfer %x (harvestedFromUse)\r\n", b"%x = var infer %x\n" * 12345):
                self.assert_as_whole(begun + text)
                if len(begun) > 1000 and len(text) > 20:
                    break

    def assert_as_whole(self, text: bytes) -> None:
        with self.assertRaises(souper.Refused) as whole:
            souper.format("lhs", text)
        with self.assertRaises(souper.Refused) as raised:
            for _ in souper.stream("lhs", io.BytesIO(text)):
                pass
        found, wanted = raised.exception, whole.exception
        # A text that ends in its first invalid segment: the whole text may be at fault later.
        if found.location == wanted.location:
            self.assertEqual((found.args, found.at_end), (wanted.args, wanted.at_end), text)
            self.assertEqual(found.shown, wanted.shown)

    def test_reading_on(self) -> None:
        reader = souper.Reader("rhs", by_segments=True)
        reader.push(b"; first\nresult 1\nresult\nresult 2\nres")
        self.assertEqual(reader.next(), Item((), souper.Result(Constant(1))))
        self.assertEqual((reader.offset, reader.line), (8, 2))
        with self.assertRaises(souper.Refused) as raised:
            reader.next()
        self.assertEqual((raised.exception.location, raised.exception.at_end), ((23, 3, 7), True))
        self.assertEqual((reader.offset, reader.line), (17, 3))
        self.assertIsNone(reader.next())
        reader.push(b"ult 3")
        self.assertIsNone(reader.next())
        reader.push(b"\n")
        self.assertEqual([item.ending for item in reader], [souper.Result(Constant(2))])
        reader.finish()
        self.assertEqual([item.ending for item in reader], [souper.Result(Constant(3))])
        self.assertEqual((reader.offset, reader.line), (33, 5))
        self.assertRaisesRegex(ValueError, "^the stream has ended$", reader.push, b"result 4")
        self.assertIsNone(reader.next())

    def test_a_loop_that_has_ended_stays_at_its_end(self) -> None:
        reader = souper.Reader("rhs", refused=lambda refusal: None)
        reader.push(b"result 1\nresult 2\nres")
        loop = iter(reader)
        self.assertIs(iter(loop), loop)
        self.assertEqual([item.ending for item in loop], [souper.Result(Constant(1))])
        reader.push(b"ult 3\n")
        self.assertEqual(list(loop), [])
        self.assertEqual([item.ending for item in reader], [souper.Result(Constant(2))])
        reader.finish()
        self.assertEqual((next(loop, None), len(list(reader)), list(loop)), (None, 1, []))

    def test_an_iterator_after_a_refusal(self) -> None:
        reader = souper.Reader("rhs")
        reader.push(b"result 1\nresult\nresult 2\nresult 3\n")
        loop = iter(reader)
        self.assertEqual(next(loop).ending, souper.Result(Constant(1)))
        self.assertRaises(souper.Refused, next, loop)
        self.assertEqual([item.ending for item in loop], [souper.Result(Constant(2))])

    def test_time_is_linear(self) -> None:
        """A large part with a bad item, and one that is read by segments: four times the items."""
        item = b"%x:i8 = var\n%y = add %x, 1\npc %y 1\ninfer %y\n"
        for text, options in ((b"infer\n" + 2000 * item, {}), (2000 * item, {"by_segments": True})):
            times = [self.seconds(n * text, **options) for n in (1, 4, 1, 4)]
            self.assertLess(min(times[1::2]), 8 * min(times[::2]) + 0.1, options)

    def seconds(self, text: bytes, **options: bool) -> float:
        """The time of the thread that reading the text takes."""
        start = time.thread_time()
        self.found(Kind.LHS, [text], **options)
        return time.thread_time() - start

    def test_statuses(self) -> None:
        for status, said in ((9, r"unknown\(9\)"), (10, r"unknown\(10\)")):
            for name in ("souper_last_cut", "souper_first_segment"):
                outcome = _library.Outcome(status=status)
                library = mock.Mock(wraps=LIBRARY, **{f"{name}.side_effect": [outcome]})
                reader = souper.Reader("rhs", by_segments=True)
                reader.push(b"result 1\nresult 2\n")
                with mock.patch.object(_library, "LIBRARY", library):
                    self.assertRaisesRegex(RuntimeError, f"the status {said}", reader.next)
                self.assertIsNone(reader.next())
                self.assertRaises(ValueError, reader.push, b"")

    def test_bytes_that_are_not_utf8(self) -> None:
        text = "result 1\nresult 2\n; é ".encode() + b"\xe2\x82\nresult 3\nresult 4\n"
        for cut in range(len(text)):
            reader = souper.Reader("rhs")
            found = []
            with self.assertRaises(souper.NotUtf8) as raised:
                for part in (text[:cut], text[cut:]):
                    reader.push(part)
                    found.extend(reader)
            self.assertEqual((raised.exception.offset, raised.exception.line), (23, 3))
            self.assertEqual(str(raised.exception), "line 3: not UTF-8 at byte 23")
            self.assertIsInstance(raised.exception.__cause__, UnicodeDecodeError)
            self.assertIsNone(reader.next())
            self.assertLessEqual(len(found), 1)
        self.assertIsInstance(pickle.loads(pickle.dumps(raised.exception)), UnicodeError)

    def test_parts(self) -> None:
        parts: list[Any] = [None, 5, "result 1", [b"result"]]
        for part in parts:
            self.assertRaises(TypeError, souper.Reader("rhs").push, part)
        for kind in ("", None, 0):
            self.assertRaises(ValueError, souper.Reader, kind)
        found = self.found(Kind.RHS, [bytearray(b"result 1\n"), memoryview(b"result 2")])
        self.assertEqual(len(found), 2)

    def test_a_pipe_gives_items_as_they_come(self) -> None:
        read, write = os.pipe()
        with open(read, "rb") as file, open(write, "wb", buffering=0) as sink:
            sink.write(b"result 1\nresult 2\n")
            items = souper.stream("rhs", file)
            self.assertEqual(next(items).ending, souper.Result(Constant(1)))
            sink.write(b"result 3\n")
            self.assertEqual(next(items).ending, souper.Result(Constant(2)))
            sink.close()
            self.assertEqual(next(items).ending, souper.Result(Constant(3)))
            self.assertIsNone(next(items, None))

    def test_memory_stays_flat(self) -> None:
        text = b"%x:i8 = var\n%y = add %x, 1\npc %y 1\ninfer %y\n" * 400

        class Long(io.RawIOBase):
            left = 80

            def read(self, size: int = -1) -> bytes:
                self.left -= 1
                return text if self.left >= 0 else b""

        peaks = []
        for n in (4, 80):
            file = Long()
            file.left = n
            tracemalloc.start()
            count = sum(1 for _ in souper.stream("lhs", file))  # type: ignore[arg-type]
            peaks.append(tracemalloc.get_traced_memory()[1])
            tracemalloc.stop()
            self.assertEqual(count, 400 * n)
        self.assertLess(peaks[1], 1.5 * peaks[0])


class Instructions(unittest.TestCase):
    """The table of the instructions."""

    def test_numbers_are_the_ones_of_the_definition(self) -> None:
        numbers = (ROOT / "crates/souper_code/specs/Numbers.antt").read_text()
        rows = re.findall(r"^instruction_number \(?(\w+)((?: \w)*)\)? = (\d+)$", numbers, re.MULTILINE)
        defined = [(name.lower(), len(operands) // 2, int(n)) for name, operands, n in rows]
        ops = [(op.name.replace("_", "").lower(), op.arity, op.number) for op in Op]
        self.assertEqual((len(ops), ops), (59, defined))

    def test_words_are_the_ones_of_the_reader(self) -> None:
        for op in Op:
            text = f"%x = {op.value} {', '.join('123'[: op.arity])} infer %x"
            [item] = souper.read("lhs", text)
            operands = tuple(map(Constant, range(1, op.arity + 1)))
            self.assertEqual(item.assignment(Value(0)).value, Instruction(op, operands))
            self.assertEqual(souper.write("lhs", [item]), souper.format("lhs", text))
            self.assertIs(Op(op.value), op)

    def test_numbers_are_indices(self) -> None:
        self.assertEqual([op.number for op in Op], list(range(59)))


class Values(unittest.TestCase):
    """The values."""

    def test_each_form_is_read_and_written(self) -> None:
        for kind, text in FORMS.items():
            items = souper.read(kind, text)
            self.assertEqual([item.kind for item in items], [kind] * len(items))
            self.assertEqual(souper.write(kind, items), souper.format(kind, text))
            self.assertEqual(souper.write(kind.value, iter(items)), souper.format(kind.value, text))
            self.assertEqual(souper.encode(kind, items), raw("souper_read", kind, text.encode())[1])

    def test_values_are_immutable_and_hashable(self) -> None:
        [item] = souper.read("lhs", FORMS[Kind.LHS])
        self.assertEqual(len({item, souper.read("lhs", FORMS[Kind.LHS])[0]}), 1)
        self.assertRaises(FrozenInstanceError, setattr, item, "ending", Infer(Value(0)))

    def test_pickles(self) -> None:
        statements = tuple(s for kind in FORMS for i in souper.read(kind, FORMS[kind]) for s in i.statements)
        kept: list[object] = [*statements, Constant(1), Value(3), Op.ADD, Kind.LHS]
        kept += [souper.FlawReason("unknown(10)"), souper.Location(1, 2, 3)]
        for value in kept:
            self.assertEqual(pickle.loads(pickle.dumps(value)), value)
        none: Any = None
        items = [
            item for record in VALID for item in souper.read(record.kind, record.text)
        ]
        items += [item for kind, text in FORMS.items() for item in souper.read(kind, text)]
        # Items that are not well formed, and items that have no code.
        items += [Item((Assignment("", 0, Phi(Value(2**64 - 1), ())),), Infer(Value(5)))]
        items += [Item((Assignment("%x", 65536, Var()),), none), Item((), Infer(Value(-1)))]
        for protocol in range(pickle.HIGHEST_PROTOCOL + 1):
            self.assertEqual(pickle.loads(pickle.dumps(items, protocol)), items)
        for item in items:
            self.assertEqual(pickle.loads(pickle.dumps(item)), item)
            self.assertIs(copy.deepcopy(item), item)

    def test_pickles_are_no_larger_than_the_text(self) -> None:
        texts = ["%x = var\ninfer %x\n", "%x:i8 = var\n%y = add %x, 1\npc %y 1\ninfer %y\n"]
        texts += [record.text.decode() for record in VALID if record.kind is Kind.LHS]
        for text in texts:
            whole = "\n".join([text] * 100)
            items = souper.read("lhs", whole)
            self.assertLessEqual(len(pickle.dumps(items)), max(len(whole), 100), text)

    def test_an_item_is_shown_as_its_text(self) -> None:
        for record in VALID:
            for item in souper.read(record.kind, record.text):
                self.assertEqual(f"{item}\n", souper.write(record.kind, [item]), record)
        self.assertEqual(repr(Item((), souper.Result(Constant(1))))[:5], "Item(")
        self.assertRaises(souper.NotWellFormed, str, Item((), Infer(Value(0))))

    def test_help_shows_the_fields(self) -> None:
        for name in souper.__all__:
            public = getattr(souper, name)
            for field in getattr(public, "__dataclass_fields__", getattr(public, "_fields", ())):
                shown = inspect.getdoc(getattr(public, field))
                self.assertTrue(shown and "Alias for" not in shown, f"{name}.{field}")
                self.assertIn(str(shown).split("\n")[0], pydoc.plain(pydoc.render_doc(public)))
        for error in (souper.Refused("", 0, 1, 1), souper.NotUtf8(0, 1), souper.NotWellFormed(0), souper.NoCode(0, 0)):
            for field in vars(error):
                self.assertRegex(str(type(error).__doc__), rf"\n    {field}: ")
        for name in (*Kind.__members__, "arity", "number"):
            self.assertRegex(f"{Kind.__doc__}{Op.__doc__}", rf"\n    {name}: ")

    def test_the_values_of_each_form(self) -> None:
        [item] = souper.read("lhs", FORMS[Kind.LHS])
        least, greatest = -(2**127), 2**127 - 1
        block, x, y, phi, _, _, _, _, pc, block_pc = item.statements
        flags = (souper.PowerOfTwo(), souper.Negative(), souper.NonNegative(), souper.NonZero())
        self.assertEqual(block, Assignment("%b", 1, souper.Block(2)))
        self.assertEqual(x, Assignment("%x", 8, Var(), (souper.KnownBits("01x"), *flags)))
        facts = (souper.HasExternalUses(), souper.SignBits(255), souper.Range(-5, greatest))
        self.assertEqual(y, Assignment("%y", None, Var(), facts))
        values = (Value(1), Constant(least, 65535))
        self.assertEqual(phi, Assignment("%p", None, Phi(Value(0), values)))
        self.assertEqual(phi.operands, (Value(0), *values))
        self.assertEqual(pc, Pc(Value(7), Constant(1)))
        self.assertEqual(pc.operands, (Value(7), Constant(1)))
        self.assertEqual(y.operands, ())
        self.assertEqual(block_pc, BlockPc(Value(0), 1, Value(1), Value(4)))
        self.assertEqual(block_pc.operands, (Value(0), Value(1), Value(4)))
        ending = (souper.DemandedBits("0110"), souper.HarvestedFromUse())
        self.assertEqual(item.ending, Infer(Value(6), ending))

    def test_the_ends_of_replacements(self) -> None:
        first, second = souper.read("rep", FORMS[Kind.REP])
        infer = Infer(Value(0), (souper.HarvestedFromUse(),))
        self.assertEqual(first.ending, souper.Replace(infer, Value(1)))
        self.assertEqual(second.ending, souper.Cand(Value(0), Constant(3, 8)))

    def test_assignments(self) -> None:
        [item] = souper.read("lhs", "%x = var pc %x 1 infer %x")
        self.assertEqual(item.assignment(Value(0)).name, "%x")
        self.assertRaises(ValueError, item.assignment, Value(1))
        self.assertRaises(IndexError, item.assignment, Value(2))
        self.assertRaises(IndexError, item.assignment, Value(-1))

    def test_items_that_have_no_code(self) -> None:
        item = Item((Assignment("%x", 8, Var()),), Infer(Value(0)))

        def encode(**changes: Any) -> bytes:
            statement = replace(item.statements[0], **changes)
            return souper.encode("lhs", [replace(item, statements=(statement,))])

        self.assertEqual(souper.decode("lhs", encode()), [item])
        for width in (-1, 65536):
            self.assertRaises(ValueError, encode, width=width)
        for value in (-(2**127) - 1, 2**127):
            operands = (Constant(value), Constant(0))
            self.assertRaises(ValueError, encode, value=Instruction(Op.ADD, operands))
            self.assertRaises(ValueError, encode, attributes=(souper.Range(value, 0),))
        self.assertRaises(ValueError, encode, value=Instruction(Op.ADD, (Constant(0),)))
        self.assertRaises(ValueError, encode, value=souper.Block(2**32))
        self.assertRaises(ValueError, encode, value=Phi(Value(-1), ()))
        self.assertRaises(ValueError, encode, value=Phi(Value(2**64), ()))
        self.assertRaises(ValueError, encode, attributes=(souper.KnownBits("012"),))
        self.assertRaises(ValueError, encode, attributes=(souper.SignBits(256),))
        self.assertRaises(ValueError, encode, name="\ud800")
        self.assertRaises(TypeError, encode, value=None)
        self.assertRaises(TypeError, encode, attributes=(None,))
        self.assertRaises(ValueError, souper.encode, "rhs", [item])
        self.assertRaises(ValueError, souper.write, "rep", [item])
        bits = (souper.DemandedBits("01x"),)
        self.assertRaises(ValueError, souper.encode, "lhs", [Item((), Infer(Value(0), bits))])

    def test_what_has_no_code_is_named(self) -> None:
        none: Any = None
        x = Assignment("%x", 8, Var())
        least, greatest = -(2**127), 2**127 - 1

        def y(rhs: souper.Rhs, *attributes: souper.Attribute) -> Item:
            return Item((x, Assignment("%y", None, rhs, attributes)), Infer(Value(0)))

        def ended(ending: souper.Ending) -> Item:
            return Item((x,), ending)

        add = Instruction(Op.ADD, (Value(0), Constant(1)))
        block = partial(BlockPc, Value(0), x=Value(0), y=Value(0))
        for error, said, item in (
            (ValueError, "statement 1 (%y): width 65536 is not in 0 to 65535", y(replace(add, operands=(Constant(1, 65536), Value(0))))),
            (ValueError, "statement 1 (%y): add has 2 operands, not 1", y(Instruction(Op.ADD, (Value(0),)))),
            (ValueError, "statement 1 (%y): freeze has 1 operand, not 0", y(Instruction(Op.FREEZE, ()))),
            (TypeError, "statement 1 (%y): op is an Op, not str", y(Instruction(none or "add", ()))),
            (TypeError, "statement 1 (%y): operands is a tuple, not NoneType", y(Instruction(Op.ADD, none))),
            (TypeError, "statement 1 (%y): an operand is a Value or a Constant, not int", y(Instruction(Op.FREEZE, (none or 5,)))),
            (TypeError, "statement 1 (%y): value is None, which is no right side", y(none)),
            (ValueError, f"statement 1 (%y): a constant {greatest + 1} is not in {least} to {greatest}", y(Instruction(Op.FREEZE, (Constant(greatest + 1),)))),
            (ValueError, "statement 1 (%y): predecessors 4294967296 is not in 0 to 4294967295", y(souper.Block(2**32))),
            (TypeError, "statement 1 (%y): block is a Value, not NoneType", y(Phi(none, ()))),
            (TypeError, "statement 1 (%y): values is a tuple, not NoneType", y(Phi(Value(0), none))),
            (ValueError, "statement 1 (%y): position -1 is not in 0 to 18446744073709551615", y(Phi(Value(-1), ()))),
            (TypeError, "statement 1 (%y): position is an int, not str", y(Phi(Value(none or "0"), ()))),
            (ValueError, "statement 1 (%y): '012' has a character other than 0 1 x", y(add, souper.KnownBits("012"))),
            (TypeError, "statement 1 (%y): bits is a str, not int", y(add, souper.KnownBits(none or 1))),
            (ValueError, "statement 1 (%y): count 256 is not in 0 to 255", y(add, souper.SignBits(256))),
            (ValueError, f"statement 1 (%y): low {least - 1} is not in {least} to {greatest}", y(add, souper.Range(least - 1, 0))),
            (TypeError, "statement 1 (%y): attributes has None, which is no attribute", y(add, none)),
            (TypeError, "statement 0: name is a str, not int", Item((replace(x, name=none or 5),), Infer(Value(0)))),
            (TypeError, "statement 0 (%x): attributes is a tuple, not NoneType", Item((replace(x, attributes=none),), Infer(Value(0)))),
            (ValueError, "statement 1: predecessor -1 is not in 0 to 4294967295", Item((x, block(-1)), Infer(Value(0)))),
            (TypeError, "statement 1: None is no statement", Item((x, none), Infer(Value(0)))),
            (TypeError, "statements is a tuple, not NoneType", Item(none, Infer(Value(0)))),
            (TypeError, "infer line: value is a Value, not NoneType", ended(Infer(none))),
            (TypeError, "infer line: value is a Value, not Constant", ended(Infer(none or Constant(1)))),
            (TypeError, "infer line: attributes has 1, which is none of the last lines", ended(Infer(Value(0), (none or 1,)))),
            (ValueError, "infer line: '01x' has a character other than 0 1", ended(Infer(Value(0), (souper.DemandedBits("01x"),)))),
            (ValueError, "result line: width -1 is not in 0 to 65535", ended(souper.Result(Constant(1, -1)))),
            (TypeError, "infer line: infer is an Infer, not NoneType", ended(souper.Replace(none, Value(0)))),
            (TypeError, "result line: an operand is a Value or a Constant, not NoneType", ended(souper.Replace(Infer(Value(0)), none))),
            (TypeError, "cand line: an operand is a Value or a Constant, not NoneType", ended(souper.Cand(Value(0), none))),
            (TypeError, "ending is None, which is no last line", ended(none)),
        ):
            with self.subTest(said), self.assertRaises(error) as raised:
                souper.write(item.kind, [souper.read(item.kind, FORMS[item.kind])[0], item])
            self.assertEqual(str(raised.exception), f"item 1 has no code: {said}")
            self.assertIsNone(raised.exception.__cause__)
        with self.assertRaises(ValueError) as raised:
            souper.write("lhs", [Item((replace(x, name="%\ud800"),), Infer(Value(0)))])
        self.assertEqual(str(raised.exception), r"item 0 has no code: statement 0 (%\ud800): the name is not UTF-8")
        self.assertIsInstance(raised.exception.__cause__, UnicodeEncodeError)
        with self.assertRaises(ValueError) as raised:
            souper.write("rhs", [ended(souper.Result(Value(0))), ended(Infer(Value(0)))])
        self.assertEqual(str(raised.exception), "item 1 has no code: it is of the kind lhs, not rhs")

    def test_what_is_no_value(self) -> None:
        none: Any = None
        items = [Item((none,), Infer(Value(0))), Item((), none), Item((), souper.Result(none))]
        items.append(Item((), Infer(Value(0), (none,))))
        for item in items:
            self.assertRaises(TypeError, souper.encode, item.kind, [item])


class ReadItems(unittest.TestCase):
    """Items that were read: their values are made when they are first asked for."""

    TEXT = "%x:i8 = var  %y = add %x, 1  pc %y 0  infer %y (harvestedFromUse)  %x = var  infer %x"

    def counted(self) -> mock.Mock:
        """Counts the items that get values, until the test ends."""
        counted = mock.Mock(side_effect=_values.Coded._values_of_code)
        patched = mock.patch.object(_values.Coded, "_values_of_code", counted)
        patched.start()
        self.addCleanup(patched.stop)
        return counted

    def test_reading_and_writing_make_no_values(self) -> None:
        counted = self.counted()
        items = souper.read("lhs", self.TEXT)
        text = souper.format("lhs", self.TEXT)
        self.assertEqual(souper.write("lhs", items), text)
        self.assertEqual(souper.write("lhs", reversed(items[::-1])), text)
        self.assertEqual([item.kind for item in items], [Kind.LHS] * 2)
        self.assertEqual(len(souper.encode("lhs", items[:1])), len(items[0]._code))
        self.assertEqual(counted.call_count, 0)
        self.assertEqual(len(items[0].statements), 3)
        for _ in range(3):
            self.assertEqual(items[0].ending, Infer(Value(1), (souper.HarvestedFromUse(),)))
        self.assertEqual(counted.call_count, 1)
        self.assertEqual(souper.write("lhs", items), text)
        self.assertEqual(counted.call_count, 1)

    def test_each_field_may_be_the_first(self) -> None:
        made = Item((Assignment("%x", None, Var()),), Infer(Value(0)))
        uses: list[Callable[[Item], object]] = [
            lambda item: item.statements,
            lambda item: item.ending,
            lambda item: item == made,
            lambda item: made == item,
            hash,
            repr,
            lambda item: replace(item, ending=Infer(Value(7))),
            lambda item: item.assignment(Value(0)),
            lambda item: item.replace_uses(Value(0), Value(3)),
            lambda item: pickle.loads(pickle.dumps(item)),
            lambda item: Builder(item.statements).infer(Value(0)),
            lambda item: [item.users().of(0), item.sort(), item.insert_before(1, made.statements[0])],
        ]
        for use in uses:
            [_, item] = souper.read("lhs", self.TEXT)
            self.assertEqual(use(item), use(made))
        match souper.read("lhs", self.TEXT)[1]:
            case Item((Assignment("%x"),), Infer(Value(0))):
                pass
            case _:
                self.fail("a pattern")

    def test_values_stay(self) -> None:
        items = souper.read("lhs", self.TEXT)
        self.assertIs(items[0].statements, items[0].statements)
        for name in ("statements", "ending"):
            self.assertRaises(FrozenInstanceError, setattr, items[1], name, ())
            self.assertRaises(FrozenInstanceError, delattr, items[1], name)
        for name in ("_code", "_end", "other"):
            self.assertRaises((AttributeError, TypeError), setattr, items[1], name, ())
            self.assertRaises((AttributeError, TypeError), delattr, items[1], name)
        sum_of_x = items[0].assignment(Value(1))
        self.assertRaises(FrozenInstanceError, setattr, sum_of_x, "name", "%z")
        self.assertRaises(FrozenInstanceError, setattr, sum_of_x.value, "op", Op.SUB)

    def test_other_names_are_no_fields(self) -> None:
        [item, _] = souper.read("lhs", self.TEXT)
        for name in ("statement", "_repr_html_", "__array__"):
            with self.assertRaises(AttributeError) as raised:
                getattr(item, name)
            self.assertEqual(str(raised.exception), f"'Item' object has no attribute '{name}'")
        self.assertRaises(AttributeError, getattr, object.__new__(Item), "statements")
        self.assertFalse(hasattr(Item((), Infer(Value(0))), "_code"))

    def test_an_item_of_another_kind(self) -> None:
        [item, _] = souper.read("lhs", self.TEXT)
        with self.assertRaises(ValueError) as raised:
            souper.write("rhs", [item])
        self.assertEqual(str(raised.exception), "item 0 has no code: it is of the kind lhs, not rhs")

    def test_forms_without_a_pattern(self) -> None:
        x, block = Assignment("%x", 8, Var()), Assignment("%b", None, souper.Block(40))
        facts = (souper.NonZero(), souper.KnownBits("01x" * 9), souper.SignBits(3), souper.Range(-5, 9))
        demanded = tuple(souper.DemandedBits("01" * n) for n in (1, 9, 70))
        for n in range(12):
            statements = (
                x,
                block,
                Assignment("%" + "n" * (10 * n + 1), n, Phi(Value(1), (Value(0),) * n), facts[: n % 5]),
                BlockPc(Value(1), n, Value(0), Constant(2**127 - 1 - n, 65535)),
                Assignment("é\0%" * n, None, souper.Block(n), (souper.KnownBits("x" * n),)),
            )
            value, bits = Value(n << 60), demanded[: n % 4]
            for ending in (Infer(value, bits), souper.Result(value), souper.Cand(value, value, bits)):
                items = [Item(statements, ending), Item((), ending)]
                code = souper.encode(items[0].kind, items)
                found = souper.decode(items[0].kind, code)
                self.assertEqual(found, items)
                self.assertEqual(souper.encode(items[0].kind, found), code)
            replaced = Item(statements, souper.Replace(Infer(value, bits), value))
            self.assertEqual(souper.decode("rep", souper.encode("rep", [replaced])), [replaced])

    def test_what_is_kept_is_bounded(self) -> None:
        kept = _decoder._Kept(bytes.decode, 4)
        for n in range(100):
            self.assertEqual(kept[b"%d" % (n % 10)], str(n % 10))
            self.assertLessEqual(len(kept), 4)
        self.assertEqual(kept[b"n" * 64], "n" * 64)
        self.assertNotIn(b"n" * 64, kept)

    def test_threads_ask_for_one_item(self) -> None:
        text = "%x = var  " + "pc %x 1  " * 2000 + "infer %x"
        for _ in range(20):
            [item] = souper.read("lhs", text)
            with concurrent.futures.ThreadPoolExecutor(4) as pool:
                found = list(pool.map(lambda n: (item.ending, item.statements), range(4)))
            self.assertEqual(found, [(item.ending, item.statements)] * 4)

    def test_statements_are_dropped_once(self) -> None:
        items = souper.read("lhs", "%x = var infer %x " * 600)
        first = items[0].statements
        counted = self.counted()
        self.assertIs(items[0].statements, first)
        for turn, count in enumerate((599, 600, 0)):
            for item in items[turn == 0 :]:
                self.assertEqual((item.statements, item.ending), (first, Infer(Value(0))))
            self.assertLessEqual(counted.call_count, count)
            counted.reset_mock()
        self.assertIs(items[0].statements, items[0].statements)
        # A large item keeps them.
        [large] = souper.read("lhs", "%x = var " + "pc %x 1 " * 64 + "infer %x")
        statements = large.statements
        self.assertEqual(len({item.statements for item in souper.read("rhs", "result 1 " * 600)}), 1)
        self.assertIs(large.statements, statements)

    def test_a_walk_takes_little_memory(self) -> None:
        text = "".join(f"%x:i8 = var\n%y = add %x, {n}\ninfer %y\n" for n in range(20_000))
        tracemalloc.start()
        items = souper.read("lhs", text)
        before = tracemalloc.get_traced_memory()[0]
        self.assertLess(before, 400 * len(items))
        self.assertEqual(sum(len(item.statements) for item in items), 40_000)
        after = tracemalloc.get_traced_memory()[0]
        tracemalloc.stop()
        # What is kept of codes is bounded.
        self.assertLess(after - before, 12_000_000)


class Changes(unittest.TestCase):
    """What statements use, and operands that are replaced."""

    BEGUN = (
        "%x = var  %b = block 2  %p = phi %b, %x, 1  blockpc %b 1 %x 0  %y = add %p, %x  pc %y %p "
    )
    X, B, P, Y = Value(0), Value(1), Value(2), Value(4)

    def becomes(
        self, kind: str, last: str, of: Value, by: Value | Constant | int, expected: str
    ) -> None:
        [item] = souper.read(kind, self.BEGUN + last)
        before = pickle.dumps(item)
        self.assertEqual([item.replace_uses(of, by)], souper.read(kind, expected))
        self.assertEqual(pickle.dumps(item), before)

    def test_uses_come_in_the_order_of_the_text(self) -> None:
        [item] = souper.read("lhs", self.BEGUN + "%h = hole  %s = select 1, %y, %y  infer %s")
        on_block = (self.B, self.X)
        wanted = [(), (), on_block, on_block, (self.P, self.X), (self.Y, self.P), (), (self.Y,) * 2]
        self.assertEqual([statement.uses for statement in item.statements], wanted)

    def test_operands_are_mapped_from_left_to_right(self) -> None:
        last = "%h = hole  %s = select %x, %p, 3  infer %s"
        [item] = souper.read("lhs", self.BEGUN + last)
        numbers = itertools.count(1)
        changed = [it.map_operands(lambda _: Constant(next(numbers))) for it in item.statements]
        expected = """
            %x = var  %b = block 2  %p = phi %b, 1, 2  blockpc %b 1 3 4  %y = add 5, 6  pc 7 8
            %h = hole  %s = select 9, 10, 11  infer %s"""
        [wanted] = souper.read("lhs", expected)
        self.assertEqual(tuple(changed), wanted.statements)

    def test_uses_in_statements(self) -> None:
        by_7 = "%x = var %b = block 2 %p = phi %b, 7, 1 blockpc %b 1 7 0 %y = add %p, 7 pc %y %p "
        for by in (7, Constant(7)):
            self.becomes("lhs", "infer %y", self.X, by, by_7 + "infer %y")
        self.becomes("rhs", "result 0", self.X, 7, by_7 + "result 0")
        self.becomes("rep", "infer %y  result 0", self.X, 7, by_7 + "infer %y  result 0")
        self.becomes("rep", "cand %y 0", self.X, 7, by_7 + "cand %y 0")
        self.becomes("lhs", "infer %y", self.B, 7, self.BEGUN + "infer %y")
        [item] = souper.read("lhs", self.BEGUN + "infer %y")
        _, block, phi, block_pc, total, pc = item.statements
        self.assertEqual(block.replace_uses(self.X, 7), block)
        self.assertEqual(phi.replace_uses(self.X, 7).operands, (self.B, Constant(7), Constant(1)))
        self.assertEqual(block_pc.replace_uses(self.B, 7), block_pc)
        self.assertEqual(total.replace_uses(self.X, self.P).operands, (self.P, self.P))
        self.assertEqual(pc.replace_uses(self.P, self.X), Pc(self.Y, self.X))

    def test_uses_in_last_lines(self) -> None:
        def by_p(kind: str, last: str, expected: str) -> None:
            text = self.BEGUN.replace("pc %y %p", "pc %p %p") + expected
            self.becomes(kind, last, self.Y, self.P, text)

        by_p("lhs", "infer %y (harvestedFromUse)", "infer %p (harvestedFromUse)")
        by_p("lhs", "infer %x", "infer %x")
        by_p("rhs", "result %y", "result %p")
        by_p("rep", "infer %y  result %y", "infer %p  result %p")
        by_p("rep", "infer %x  result 3", "infer %x  result 3")
        by_p("rep", "cand %y %y (demandedBits=1)", "cand %p %p (demandedBits=1)")

    def test_an_infer_line_has_no_constant(self) -> None:
        def by_5(kind: str, last: str, expected: str) -> None:
            text = self.BEGUN.replace("pc %y %p", "pc 5 %p") + expected
            self.becomes(kind, last, self.Y, 5, text)

        by_5("lhs", "infer %y", "infer %y")
        by_5("rhs", "result %y", "result 5")
        by_5("rep", "infer %y  result %y", "infer %y  result 5")
        by_5("rep", "cand %x %y", "cand %x 5")

    def test_values_of_a_builder(self) -> None:
        b = Builder()
        x, y = b.var("x"), b.var("y")
        item = b.infer(y).replace_uses(y, x)
        self.assertEqual(item, b.infer(x))
        ending: Any = item.ending
        self.assertIs(type(ending.value), Value)
        self.assertEqual(Builder(item.statements).infer(ending.value), item)

    def test_types_of_arguments(self) -> None:
        [item] = souper.read("lhs", self.BEGUN + "infer %y")
        none: Any = None
        for value in (item, *item.statements):
            self.assertRaisesRegex(TypeError, "of is a Value", value.replace_uses, none, 1)
            self.assertRaisesRegex(TypeError, "of is a Value", value.replace_uses, 0, 1)
            self.assertRaisesRegex(TypeError, "by is a Value, ", value.replace_uses, self.X, none)


class Passes(unittest.TestCase):
    """Users, values that are replaced at once, statements that are inserted, moved and sorted."""

    BEGUN = Changes.BEGUN
    X, B, P, ON_BLOCK, Y, CONDITION = map(Value, range(6))

    def one(self, kind: str, text: str) -> Item:
        [item] = souper.read(kind, text)
        return item

    def unnamed(self, op: Op, *operands: souper.Operand, width: int | None = None) -> Assignment:
        return Assignment("", width, Instruction(op, operands))

    def test_users(self) -> None:
        users = self.one("rep", self.BEGUN + "infer %y result %x").users()
        found = [users.of(position) for position in range(7)]
        self.assertEqual(found, [(2, 3, 4), (2, 3), (4, 5), (), (5,), (), ()])
        self.assertEqual(users.of(self.X), (2, 3, 4))
        in_last = [users.in_last_lines(Value(position)) for position in range(7)]
        self.assertEqual(in_last, [True, False, False, False, True, False, False])
        twice = self.one("lhs", "%x = var %y = mul %x, %x infer %y").users()
        self.assertEqual(twice.of(0), (1,))
        none = Item((Pc(Value(7), Value(2**64 - 1)),), souper.Result(Value(7))).users()
        self.assertEqual((none.of(0), none.in_last_lines(0), none.in_last_lines(7)), ((), False, True))
        for last, used in (("cand %x %p", (self.X, self.P)), ("infer %p result 1", (self.P,))):
            users = self.one("rep", self.BEGUN + last).users()
            self.assertEqual(tuple(filter(users.in_last_lines, map(Value, range(6)))), used)
        self.assertRaisesRegex(ValueError, "^a position -1 is not in", users.of, -1)
        none_at_all: Any = "%x"
        self.assertRaisesRegex(TypeError, "^a position is an int, not str$", users.of, none_at_all)

    def becomes(self, kind: str, last: str, pairs: dict[Value, Any], wanted: str) -> None:
        item = self.one(kind, self.BEGUN + last)
        self.assertEqual(item.replace_many(pairs), self.one(kind, wanted))
        self.assertEqual(item, self.one(kind, self.BEGUN + last))

    def test_many_values(self) -> None:
        by_7 = "%x = var %b = block 2 %p = phi %b, 7, 1 blockpc %b 1 7 0 %y = add %p, 7 pc %y %p "
        for by in (7, Constant(7)):
            self.becomes("lhs", "infer %y", {self.X: by}, by_7 + "infer %y")
        chain = "%x = var %b = block 2 %p = phi %b, %x, 1 blockpc %b 1 %x 0 %y = add %x, %x pc %x %x "
        self.becomes("lhs", "infer %y", {self.Y: self.P, self.P: self.X}, chain + "infer %x")
        self.becomes("rep", "cand %y %p", {self.P: self.X, self.Y: self.P}, chain + "cand %x %x")
        by_5 = "%x = var %b = block 2 %p = phi %b, 5, 1 blockpc %b 1 5 0 %y = add 5, 5 pc 5 5 "
        to_5 = {self.Y: self.P, self.P: self.X, self.X: Constant(5)}
        root = "infer %y (harvestedFromUse)"
        self.becomes("lhs", root, to_5, by_5 + root)
        self.becomes("rhs", "result %p", to_5, by_5 + "result 5")
        self.becomes("rep", "infer %p result %p", to_5, by_5 + "infer %p result 5")
        self.becomes("rep", "cand %p %x", to_5, by_5 + "cand 5 5")
        # Blocks, values by themselves, and positions past the end.
        item = self.one("lhs", self.BEGUN + "infer %y")
        none = {self.B: self.X, self.X: self.X, Value(6): self.X, Value(2**64 - 1): self.X}
        self.assertIs(item.replace_many(none), item)
        self.assertIs(item.replace_many({}), item)
        past = self.one("rhs", "%x = var result %x").replace_many({Value(0): Value(9)})
        self.assertEqual(past.ending, souper.Result(Value(9)))

    def test_cycles(self) -> None:
        item = self.one("lhs", self.BEGUN + "infer %y")
        for pairs, shown in (
            ({self.X: self.P, self.P: self.X}, "statement 0 (%x)"),
            ({self.X: self.P, self.P: self.Y, self.Y: self.P}, "statement 2 (%p)"),
            ({self.X: Constant(1), self.P: self.Y, self.Y: self.P}, "statement 2 (%p)"),
            ({Value(3): Value(9), Value(9): Value(3)}, "statement 3"),
            ({Value(8): Value(9), Value(9): Value(8)}, "statement 8"),
        ):
            with self.assertRaises(ValueError) as raised:
                item.replace_many(pairs)
            self.assertEqual(str(raised.exception), f"{shown}: its replacements come back to it")
        none: Any = None
        self.assertRaisesRegex(TypeError, "^pairs is a mapping", item.replace_many, none or [(self.X, 1)])
        self.assertRaisesRegex(TypeError, "^of is a Value, not int", item.replace_many, {none or 0: 1})
        self.assertRaisesRegex(TypeError, "^by is a Value, a C", item.replace_many, {self.X: none})

    def test_inserted(self) -> None:
        item = self.one("lhs", "%x:i8 = var %y:i8 = mul %x, 3:i8 pc %y 0 infer %y")
        shift = self.unnamed(Op.SHL, self.X, Constant(1, 8), width=8)
        found = item.insert_before(Value(1), shift)
        text = "%x:i8 = var %1:i8 = shl %x, 1:i8 %y:i8 = mul %x, 3:i8 pc %y 0 infer %y"
        self.assertEqual(found, self.one("lhs", text))
        self.assertEqual(item.insert_before(1, shift), found)
        self.assertEqual(len(item.statements), 3)
        # Blocks, and the end.
        item = self.one("rep", self.BEGUN + "infer %y result %x")
        wanted = self.BEGUN.replace("%b = block", "%c = var %b = block") + "infer %y result %x"
        self.assertEqual(item.insert_before(self.B, Assignment("%c", None, Var())), self.one("rep", wanted))
        for place in (6, 7, Value(2**64 - 1)):
            wanted = self.BEGUN + "pc %x %p infer %y result %x"
            self.assertEqual(item.insert_before(place, Pc(self.X, self.P)), self.one("rep", wanted))
        # What it uses may stand after it.
        later = self.one("lhs", "%x = var %y = var infer %y")
        later = later.insert_before(0, self.unnamed(Op.ADD, Value(1), Value(0)))
        operands = (Value(2), Value(1))
        self.assertEqual(later.statements[0], Assignment("%0", None, Instruction(Op.ADD, operands)))
        none: Any = None
        self.assertRaisesRegex(TypeError, "^a statement is", later.insert_before, 0, none)
        self.assertRaisesRegex(ValueError, "^a position -1 is", later.insert_before, -1, Pc(self.X, self.X))

    def test_names(self) -> None:
        item = self.one("lhs", "%2 = var %x = add %2, 1 infer %x")
        item = item.insert_before(2, self.unnamed(Op.ADD, Value(1), Value(0)))
        item = item.insert_before(0, Assignment("", None, Var()))
        begun = "%0 = var %2 = var %x = add %2, 1 %3 = add %x, %2 "
        self.assertEqual(item, self.one("lhs", begun + "infer %x"))
        more = tuple(Assignment(name, None, Var()) for name in ("", "%4", "", "%007"))
        found = Item((*item.statements, *more), item.ending).sort()
        wanted = begun + "%5 = var %4 = var %6 = var %007 = var infer %x"
        self.assertEqual(found, self.one("lhs", wanted))

    def test_moved(self) -> None:
        item = self.one("rep", "%a = var %b = var %c = var %d = var pc %a %b cand %c %d")
        for which, place, wanted in (
            (0, 2, "bacdp"), (0, 4, "bcdap"), (3, 0, "dabcp"), (3, 2, "abdcp"), (2, 9, "abdpc"),
            (1, 1, "abcdp"), (1, 2, "abcdp"), (4, 5, "abcdp"), (4, 0, "pabcd"),
        ):
            found = item.move_before(which, Value(place))
            where = {name: Value(wanted.index(name)) for name in "abcd"}
            statements = tuple(
                Pc(where["a"], where["b"]) if name == "p" else Assignment(f"%{name}", None, Var())
                for name in wanted
            )
            self.assertEqual(found, Item(statements, souper.Cand(where["c"], where["d"])))
        self.assertRaisesRegex(IndexError, "no statement 5", item.move_before, 5, 0)

    def test_sorted(self) -> None:
        item = self.one("lhs", "%x:i8 = var %y:i8 = mul %x, 3:i8 pc %y 0 %z:i8 = mul %y, 5:i8 infer %z")
        statements = list(item.statements)
        statements.append(self.unnamed(Op.SHL, Value(5), Constant(2, 8), width=8))
        statements.append(self.unnamed(Op.FREEZE, self.X, width=8))
        statements[1] = replace(statements[1], value=Instruction(Op.ADD, (Value(4), self.X)))
        found = Item(tuple(statements), item.ending).sort()
        wanted = """
            %x:i8 = var %1:i8 = freeze %x %2:i8 = shl %1, 2:i8 %y:i8 = add %2, %x pc %y 0
            %z:i8 = mul %y, 5:i8 infer %z"""
        self.assertEqual(found, self.one("lhs", wanted))
        self.assertEqual(found.sort(), found)

    def test_a_cycle_stays(self) -> None:
        def of(name: str, op: Op, *positions: int) -> Assignment:
            return Assignment(name, None, Instruction(op, tuple(map(Value, positions))))

        cycle = (of("%a", Op.FREEZE, 1), of("%b", Op.FREEZE, 0), of("%c", Op.ADD, 3, 2**64 - 1))
        found = Item(cycle, Infer(Value(0))).sort()
        wanted = (of("%b", Op.FREEZE, 1), of("%a", Op.FREEZE, 0), of("%c", Op.ADD, 3, 2**64 - 1))
        self.assertEqual(found, Item(wanted, Infer(Value(1))))
        self.assertRaises(souper.NotWellFormed, str, found)
        # A path condition is no value, and stays.
        used = (of("%a", Op.FREEZE, 2), Pc(Constant(1), Value(0)), Pc(Constant(2), Value(0)))
        self.assertEqual(Item(used, Infer(Value(0))).sort(), Item(used, Infer(Value(0))))

    def test_shuffled_items(self) -> None:
        r = random.Random(1)
        for _ in range(200):
            b = Builder()
            values = [b.var(), b.var()]
            while len(values) < 30:
                values.append(b.inst("select", *r.choices(values, k=3), width=r.randrange(1, 9)))
            whole = b.replace(r.choice(values), r.choice(values))
            mixed = whole
            for _ in range(30):
                mixed = mixed.move_before(r.randrange(30), r.randrange(31))
            self.assertEqual(str(mixed.sort()), str(whole))

    def test_large_items(self) -> None:
        """A chain in which each statement is behind its user, and as many replacements."""
        count = 40_000
        chain = [self.unnamed(Op.FREEZE, Value(n + 1)) for n in range(count - 1)]
        item = Item((*chain, Assignment("", None, Var())), Infer(Value(0)))
        start = time.thread_time()
        found = item.sort()
        users = found.users()
        replaced = item.replace_many({Value(n): Value(n + 1) for n in range(count - 1)})
        seconds = time.thread_time() - start
        self.assertEqual((found.ending, users.of(7)), (Infer(Value(count - 1)), (8,)))
        self.assertEqual(found.assignment(Value(count - 1)).name, f"%{count - 1}")
        self.assertEqual(len(replaced.users().of(count - 1)), count - 1)
        self.assertEqual(replaced.ending, Infer(Value(count - 1)))
        self.assertLess(seconds, 20)


class Interpreter:
    """The values of an item. What is not interpreted, inputs too, is a number of what it is of."""

    def __init__(self, item: Item, seed: int) -> None:
        self.seed = seed
        self.values: list[int] = []
        self.widths = [getattr(it, "width", None) or 64 for it in item.statements]
        for statement in item.statements:
            self.values.append(self.value(statement))
        conditions = [it for it in item.statements if not isinstance(it, Assignment)]
        self.seen = [self.of(operand, 64) for it in conditions for operand in it.operands]
        match item.ending:
            case Infer(value) | souper.Result(value):
                self.seen.append(self.of(value, 64))
            case souper.Replace(Infer(x), y) | souper.Cand(x, y):
                self.seen += [self.of(x, 64), self.of(y, 64)]

    def of(self, operand: souper.Operand, width: int) -> int:
        if isinstance(operand, Value):
            return self.values[operand.position]
        return operand.value & ((1 << (operand.width or width)) - 1)

    def number(self, *of: object) -> int:
        return int.from_bytes(hashlib.sha256(repr((self.seed, of)).encode()).digest(), "little")

    def value(self, statement: souper.Statement) -> int:
        if not isinstance(statement, Assignment):
            return 0
        width = statement.width or 64
        match statement.value:
            case Instruction(op, operands):
                found = self.result(op, [self.of(operand, width) for operand in operands], width)
            case Phi(block, operands):
                values = [self.of(operand, width) for operand in operands]
                found = self.number("phi", self.values[block.position], values)
            case rhs:
                found = self.number(statement.name, rhs)
        return found & ((1 << width) - 1)

    def result(self, op: Op, operands: list[int], width: int) -> int:
        match op, operands:
            case Op.ADD, [x, y]:
                return x + y
            case Op.SUB, [x, y]:
                return x - y
            case Op.MUL, [x, y]:
                return x * y
            case Op.SHL, [x, y] if y < width:
                return x << y
            case Op.XOR, [x, y]:
                return x ^ y
        return self.number(op, operands)


class StrengthReduction(unittest.TestCase):
    """The example of a pass, by an interpreter on random inputs."""

    def setUp(self) -> None:
        spec = importlib.util.spec_from_file_location("strength", HERE / "examples/strength.py")
        assert spec is not None and spec.loader is not None
        self.strength = importlib.util.module_from_spec(spec)
        spec.loader.exec_module(self.strength)

    def random_item(self, r: random.Random) -> Item:
        b = Builder()
        width = r.choice((2, 3, 7, 8, 16, 33, 64))
        values = [b.var("x", width), b.var("y", width)]
        block = b.block(2)

        def factor() -> Constant:
            number = r.choice((0, 1, 2, 3, 4, 5, 6, 7, 8, 9, 10, -1, -2, 1 << (width - 1), r.getrandbits(width)))
            return Constant(number % (1 << width), r.choice((None, width)))

        def operand() -> souper.Operand:
            return r.choice((r.choice(values), r.choice(values), factor()))

        for _ in range(r.randrange(1, 12)):
            match r.randrange(8):
                case 0:
                    b.pc(operand(), operand())
                case 1:
                    b.block_pc(block, r.randrange(2), operand(), operand())
                case 2:
                    values.append(b.phi(block, operand(), operand(), width=width))
                case 3:
                    op = r.choice((Op.ADD, Op.SUB, Op.XOR, Op.SHL, Op.UDIV, Op.MUL_NSW))
                    values.append(b.inst(op, operand(), operand(), width=width))
                case _:
                    pair = [r.choice((r.choice(values), factor())), factor()]
                    r.shuffle(pair)
                    values.append(b.inst("mul", *pair, width=width))
        match r.randrange(4):
            case 0:
                return b.infer(values[-1])
            case 1:
                return b.result(operand())
            case 2:
                return b.replace(values[-1], operand())
        return b.cand(values[-1], operand())

    def products(self, item: Item) -> Iterator[tuple[Assignment, souper.Operand]]:
        for it in item.statements:
            match it:
                case Assignment(value=Instruction(Op.MUL, operands)):
                    yield from ((it, operand) for operand in operands)

    def test_values_stay(self) -> None:
        r = random.Random(7)
        counts = {"products": 0, "sums": 0}
        for turn in range(1000):
            item = self.random_item(r)
            item = souper.canonical(item.kind, item)
            found = self.strength.reduced(item)
            # Of the items before and after, and of what the text after spells.
            again = souper.canonical(found.kind, found)
            for seed in range(4):
                seen = Interpreter(item, seed).seen
                self.assertEqual(Interpreter(found, seed).seen, seen, item)
                self.assertEqual(Interpreter(again, seed).seen, seen, item)
            for product, operand in self.products(again):
                if isinstance(operand, Constant):
                    bits = operand.value & ((1 << (product.width or 64)) - 1)
                    self.assertNotIn(bits, (3, 5, 9, *(1 << n for n in range(64))), product)
            counts["products"] += sum(1 for _ in self.products(item)) // 2
            counts["sums"] += len(found.statements) - len(item.statements)
        self.assertGreater(counts["products"], 1000)
        self.assertGreater(counts["sums"], 150)

    def run_program(self, kind: str, text: str) -> subprocess.CompletedProcess[str]:
        library = {"SOUPER_LIB": LIBRARY._name, "PYTHONPATH": str(HERE), "PYTHONWARNINGS": "error"}
        program = [sys.executable, str(HERE / "examples/strength.py"), kind]
        return subprocess.run(
            program, input=text, env={**os.environ, **library}, capture_output=True, text=True, check=False
        )

    def test_the_program(self) -> None:
        found = self.run_program("lhs", "%x:i8 = var  %y:i8 = mul %x, 3:i8  infer %y")
        text = "%x:i8 = var\n%1:i8 = shl %x, 1:i8\n%y:i8 = add %1, %x\ninfer %y\n\n"
        self.assertEqual((found.returncode, found.stderr, found.stdout), (0, "", text))
        for kind, text, said in (
            ("lhs", "%x = var\ninfer %y", "line 2 is refused\n"),
            ("none", "", "usage: strength.py lhs|rhs|rep <ITEMS\n"),
        ):
            found = self.run_program(kind, text)
            self.assertEqual((found.returncode, found.stdout, found.stderr), (1, "", said))


class IllFormed(unittest.TestCase):
    """Items without a canonical text."""

    GOOD = Item((Assignment("%x", 8, Var()),), Infer(Value(0)))

    def assert_ill_formed(self, *statements: souper.Statement, root: int = -1) -> None:
        item = Item(statements, Infer(Value(root % len(statements))))
        with self.assertRaises(souper.NotWellFormed) as raised:
            souper.write("lhs", [self.GOOD, item, self.GOOD, item])
        self.assertEqual(raised.exception.index, 1)
        self.assertEqual(str(raised.exception), f"item 1 is not well formed: {raised.exception.flaw}")
        self.assertIsInstance(raised.exception.flaw, souper.Flaw)
        self.assertRaises(souper.NotWellFormed, souper.canonical, "lhs", item)
        self.assertRaises(souper.NotWellFormed, souper.key, "lhs", item)
        self.assertEqual(souper.decode("lhs", souper.encode("lhs", [item])), [item])

    def assert_shown(self, item: Item, shown: str) -> None:
        with self.assertRaises(souper.NotWellFormed) as raised:
            souper.write(item.kind, iter([item]))
        self.assertEqual(str(raised.exception), f"item 0 is not well formed: {shown}")

    def test_flaws(self) -> None:
        x = Assignment("%x", 8, Var())
        pc = Pc(Value(0), Constant(1))
        twice = Item((x, pc, x), Infer(Value(2)))
        self.assert_shown(twice, "statement 2 (%x): an assignment before it has the same name")
        later = Item((x, Pc(Value(2), Constant(1))), Infer(Value(0)))
        self.assert_shown(later, "statement 1: it uses what is not a statement before it")
        self.assert_shown(Item((), Infer(Value(0))), "infer line: an operand is no assignment")
        self.assert_shown(Item((), souper.Result(Constant(1, 0))), "result line: a width is 0")

    def test_names(self) -> None:
        for name in ("", "x", "%", "%x y", "%x\ninfer", "%é", "%x\0"):
            self.assert_ill_formed(Assignment(name, None, Var()))
        x = Assignment("%x", None, Var())
        use = Assignment("%x", None, Instruction(Op.FREEZE, (Value(0),)))
        self.assert_ill_formed(x, use)

    def test_uses(self) -> None:
        for position in (1, 2, 2**64 - 1):
            use = Instruction(Op.FREEZE, (Value(position),))
            self.assert_ill_formed(Assignment("%x", 8, Var()), Assignment("%y", 8, use))
        self.assert_ill_formed(Pc(Constant(1), Constant(1)))
        self.assert_ill_formed(Assignment("%x", 8, Phi(Value(0), ())))

    def test_numbers(self) -> None:
        self.assert_ill_formed(Assignment("%x", 0, Var()))
        self.assert_ill_formed(Assignment("%x", 8, Var(), (souper.KnownBits(""),)))
        constant = Instruction(Op.FREEZE, (Constant(1, 0),))
        self.assert_ill_formed(Assignment("%x", 8, constant))
        block = Assignment("%b", None, souper.Block(1))
        self.assert_ill_formed(block, Assignment("%x", 8, Phi(Value(0), ())))
        self.assert_ill_formed(block, BlockPc(Value(0), 1, Constant(1), Constant(1)), root=0)

    def test_statements_that_are_not_needed_are_free(self) -> None:
        unneeded = Assignment("", 0, Phi(Value(7), ()))
        item = replace(self.GOOD, statements=(*self.GOOD.statements, unneeded))
        self.assertEqual(souper.write("lhs", [item]), "%x:i8 = var\ninfer %x\n\n")
        self.assertEqual(souper.canonical("lhs", item), self.GOOD)



class WidthsOfItems(unittest.TestCase):
    def assert_flawed(self, text: str, shown: str) -> None:
        [item] = souper.read("lhs", text)
        with self.assertRaises(souper.NoWidths) as raised:
            souper.widths("lhs", item)
        self.assertEqual(str(raised.exception.flaw), shown)

    def test_widths(self) -> None:
        text = "%x:i8 = var %p = uadd.with.overflow %x, 1 %o = extractvalue %p, 1 infer %o"
        [item] = souper.read("lhs", text)
        self.assertEqual(souper.widths("lhs", item), souper.Widths((8, 9, 1), (0, 8, 9), 1))

    def test_no_statements(self) -> None:
        item = Item((), souper.Result(Constant(1, 8)))
        self.assertEqual(souper.widths("rhs", item), souper.Widths((), (), 8))

    def test_flaws(self) -> None:
        self.assert_flawed("%x = var infer %x", "statement 0 (%x): a width is missing")
        self.assert_flawed("%x:i8 = var pc %x 1:i9 infer %x", "statement 1: i9 and i8 clash")
        self.assert_flawed("%x:i1 = var infer %x (demandedBits=11)", "infer line: not as many bits as the width")

    def test_not_well_formed(self) -> None:
        self.assertRaises(souper.NotWellFormed, souper.widths, "lhs", Item((), Infer(Value(0))))


class Damaged(unittest.TestCase):
    """Bytes that are codes or not: `decode` and ``souper_write`` agree on which."""

    def judge(self, kind: Kind, code: bytes) -> bool:
        """Whether the bytes are the code of items."""
        outcome, text = raw("souper_write", kind, code)
        try:
            items = souper.decode(kind, code)
        except souper.NoCode as error:
            found = (NO_CODE, error.index, error.offset)
            self.assertEqual((outcome.status, outcome.length, outcome.offset), found, code)
            return False
        self.assertEqual(souper.encode(kind, items), code)
        self.assertIn(outcome.status, (DONE, NOT_WELL_FORMED), code)
        if outcome.status == DONE:
            self.assertEqual(souper.write(kind, items), text.decode(), code)
            return True
        with self.assertRaises(souper.NotWellFormed) as raised:
            souper.write(kind, items)
        self.assertEqual(raised.exception.index, outcome.length, code)
        return True

    def codes(self) -> Iterator[tuple[Kind, bytes]]:
        for kind, text in FORMS.items():
            yield kind, souper.encode(kind, souper.read(kind, text))

    def test_prefixes(self) -> None:
        for kind, code in self.codes():
            ends = [n for n in range(len(code) + 1) if self.judge(kind, code[:n])]
            self.assertEqual(len(ends), len(souper.decode(kind, code)) + 1)

    def test_each_byte_is_changed(self) -> None:
        values = (0, 1, 2, 3, 4, 5, 6, 7, 8, 58, 59, 127, 128, 255)
        for kind, code in self.codes():
            for at, value in itertools.product(range(len(code)), values):
                self.judge(kind, code[:at] + bytes([value]) + code[at + 1 :])

    def test_bytes_are_added_and_removed(self) -> None:
        for kind, code in self.codes():
            for at in range(len(code)):
                self.judge(kind, code[:at] + code[at + 1 :])
                self.judge(kind, code[:at] + b"\0" + code[at:])

    def test_the_cause_of_no_code(self) -> None:
        code = souper.encode("lhs", souper.read("lhs", "%x = var infer %x"))
        for damaged, cause in ((code.replace(b"%x", b"%\xff"), UnicodeDecodeError), (code[1:], type(None))):
            with self.assertRaises(souper.NoCode) as raised:
                souper.decode("lhs", damaged)
            self.assertIs(type(raised.exception.__cause__), cause)

    def test_other_kinds(self) -> None:
        for kind, code in self.codes():
            for other in Kind:
                self.assertIs(self.judge(other, code), other is kind)

    def test_random_bytes(self) -> None:
        r = random.Random(1)
        for _ in range(2000):
            # Mostly small, as lengths and tags are.
            code = bytes(r.choice((0, 0, 0, 0, 1, 2, 3, 5, r.randrange(256))) for _ in range(40))
            self.judge(r.choice(list(Kind)), code)

    def test_great_lengths_cost_nothing(self) -> None:
        lengths = [n.to_bytes(8, "little") for n in (2**64 - 1, 2**63, 2**40, 2**31)]
        for kind, code in self.codes():
            for at, length in itertools.product(range(len(code) - 7), lengths):
                damaged = code[:at] + length + code[at + 8 :]
                tracemalloc.start()
                with contextlib.suppress(souper.NoCode):
                    souper.decode(kind, damaged)
                peak = tracemalloc.get_traced_memory()[1]
                tracemalloc.stop()
                self.assertLess(peak, 100 * len(code) + 10_000)


class Building(unittest.TestCase):
    """`Builder`."""

    def test_each_form(self) -> None:
        b = Builder()
        block = b.block(2, "b")
        x = b.var("%x", 8, attributes=[souper.NonZero(), souper.KnownBits("0x")])
        phi = b.phi(block, x, Constant(2, 8), name="p", width=8, attributes=[souper.SignBits(2)])
        inst = b.inst(Op.ADD, phi, b.reserved_inst("i", 8), name="a", attributes=())
        const = b.reserved_const("c", attributes=[souper.Range(-1, 1)])
        b.pc(b.inst("eq", inst, const), 1)
        b.block_pc(block, 1, -5, x)
        infer = b.infer(inst, souper.DemandedBits("01"), souper.HarvestedFromUse())
        statements = """
            %b = block 2  %x:i8 = var (nonZero) (knownBits=0x)
            %p:i8 = phi %b, %x, 2:i8 (signBits=2)
            %i:i8 = reservedinst  %a = add %p, %i
            %c = reservedconst (range=[-1,1))
            %6 = eq %a, %c  pc %6 1  blockpc %b 1 -5 %x """
        root = "(demandedBits=01) (harvestedFromUse)"
        self.assertEqual([infer], souper.read("lhs", f"{statements} infer %a {root}"))
        self.assertEqual([b.result(3)], souper.read("rhs", f"{statements} result 3"))
        replaced = b.replace(inst, x, souper.HarvestedFromUse())
        text = f"{statements} infer %a (harvestedFromUse) result %x"
        self.assertEqual([replaced], souper.read("rep", text))
        cand = b.cand(inst, 5, souper.DemandedBits("01"))
        text = f"{statements} cand %a 5 (demandedBits=01)"
        self.assertEqual([cand], souper.read("rep", text))

    def test_names(self) -> None:
        b = Builder()
        b.var("1")
        b.var()
        b.var("3")
        b.var()
        names = [s.name for s in b.result(0).statements if isinstance(s, Assignment)]
        self.assertEqual(names, ["%1", "%2", "%3", "%4"])
        for name in ("", "%", "1", "%1", "a b", "a\n", "é", "%%x"):
            self.assertRaises(ValueError, b.var, name)
        self.assertEqual(len(b.result(0).statements), 4)

    def test_a_builder_over_an_item(self) -> None:
        [item] = souper.read("lhs", "%2 = var %x = add %2, 1 infer %x")
        b = Builder(item.statements)
        b.inst("add", Value(1), b.var(), name="z", width=8)
        self.assertRaises(ValueError, b.var, "x")
        text = "%2 = var %x = add %2, 1 %3 = var %z:i8 = add %x, %3 infer %z"
        self.assertEqual([b.infer(Value(3))], souper.read("lhs", text))

    def test_a_value_of_another_builder(self) -> None:
        b, other = Builder(), Builder()
        x, y = b.var(), other.var()
        self.assertEqual(x, y)
        self.assertEqual(repr(x), "Value(position=0)")
        for call in (
            lambda: b.inst("add", x, y),
            lambda: b.pc(y, 1),
            lambda: b.infer(y),
            lambda: b.phi(y),
        ):
            self.assertRaisesRegex(ValueError, "another builder", call)
        item = b.infer(x)
        self.assertEqual(len(item.statements), 1)
        # What an item has, and each copy, is for every builder; a copy of a builder takes its values.
        for value in (item.ending.value, pickle.loads(pickle.dumps(x)), copy.deepcopy(x)):
            self.assertIs(type(value), Value)
            Builder(item.statements).inst("add", value, 1)
            b.inst("add", value, 1)
        fork = copy.deepcopy(b)
        fork.inst("add", x, 1)
        self.assertRaises(ValueError, fork.inst, "add", y, 1)
        self.assertEqual((hash(x), {x: 1}[Value(0)], Value(0) == x, x == Value(1)), (hash(Value(0)), 1, True, False))

    def test_constants_by_their_bits(self) -> None:
        for bits, width, value in (
            (255, 8, -1),
            (127, 8, 127),
            (128 + 256, 8, -128),
            (1, 1, -1),
            (2**128 - 1, 128, -1),
            (2**127, 128, -(2**127)),
            (5, 128, 5),
            (-1, 64, -1),
        ):
            self.assertEqual(Constant.from_bits(bits, width), Constant(value, width))
        for width in (0, 129):
            self.assertRaises(ValueError, Constant.from_bits, 0, width)

    def test_types_of_arguments(self) -> None:
        b = Builder()
        x = b.var()
        any_value: Any = None
        for said, call in (
            ("width is an int, not float", lambda: b.var(width=any_value or 8.0)),
            ("value is an int, not float", lambda: Constant(any_value or 5.0)),
            ("width is an int, not str", lambda: Constant(5, any_value or "8")),
            ("attributes has None", lambda: b.var(attributes=[any_value])),
            ("attributes has None", lambda: b.infer(x, any_value)),
            ("attributes is an iterable", lambda: b.var(attributes=any_value)),
            ("count is an int, not float", lambda: b.var(attributes=[souper.SignBits(any_value or 2.0)])),
            ("low is an int, not float", lambda: b.var(attributes=[souper.Range(any_value or 1.0, 2)])),
            ("bits is a str, not int", lambda: b.var(attributes=[souper.KnownBits(any_value or 5)])),
            ("bits is a str, not int", lambda: b.infer(x, souper.DemandedBits(any_value or 5))),
            ("position is an int, not str", lambda: b.infer(Value(any_value or "0"))),
            ("statements is an iterable", lambda: Builder(any_value or b.infer(x))),
            ("items is an iterable", lambda: souper.write("lhs", any_value or b.infer(x))),
            ("name is a str, not int", lambda: b.var(any_value or 7)),
            ("predecessors is an int, not float", lambda: b.block(any_value or 2.0)),
            ("an operand is a Value, a Constant or an int, not str", lambda: b.pc(any_value or "x", 1)),
            ("a value is a Value, not Constant", lambda: b.infer(any_value or Constant(1))),
            (r"items\[0\] is an Item, not str", lambda: souper.write("lhs", any_value or ["text"])),
            ("code is bytes, not str", lambda: souper.decode("lhs", any_value or "abc")),
            ("a text is str or bytes, not int", lambda: souper.read("lhs", any_value or 3)),
            (r"statements\[0\] is a statement, not str", lambda: Builder(any_value or ["x"])),
            ("bits is an int, not bytes", lambda: Constant.from_bits(any_value or b"x", 8)),
        ):
            with self.subTest(said):
                self.assertRaisesRegex(TypeError, rf"^((statement 1|infer line): )?{said}", call)
        self.assertEqual(len(b.infer(x).statements), 1)

    def test_what_is_refused_is_named(self) -> None:
        b = Builder()
        x, block = b.var("x"), b.block(2)
        wrong: list[tuple[str, Callable[[], object]]] = [
            ("statement 2 (%y): a width 65536 is not in 1 to 65535", lambda: b.var("y", 65536)),
            ("statement 2 (%y): add has 2 operands, not 1", lambda: b.inst("add", x, name="%y")),
            ("statement 2: 'plus' is no instruction", lambda: b.inst("plus", x)),
            ("statement 2 (%x): '%x' is defined already", lambda: b.reserved_inst("x")),
            ("statement 2 (%a b): '%a b' is not a name: ", lambda: b.reserved_const("a b")),
            (r"statement 2 (%\ud800): '%\ud800' is not a name: ", lambda: b.var("\ud800")),
            ("statement 2: '2' is not one or more of 0 1 x", lambda: b.var(attributes=[souper.KnownBits("2")])),
            ("statement 2 (%y): a number of predecessors -1 is not in 0 to ", lambda: b.block(-1, "y")),
            ("statement 2 (%y): the block has 2 predecessors, not 1", lambda: b.phi(block, 1, name="y")),
            ("statement 2: Value(position=7) is not a value of this builder", lambda: b.pc(x, Value(7))),
            ("statement 2: the block has no predecessor 2", lambda: b.block_pc(block, 2, x, 1)),
            ("infer line: Value(position=7) is not a value of this builder", lambda: b.infer(Value(7))),
            ("infer line: '' is not one or more of 0 1", lambda: b.replace(x, 1, souper.DemandedBits(""))),
            ("result line: a width 0 is not in 1 to 65535", lambda: b.replace(x, Constant(1, 0))),
            ("result line: a width 0 is not in 1 to 65535", lambda: b.result(Constant(1, 0))),
            ("cand line: Value(position=7) is not a value of this builder", lambda: b.cand(x, Value(7))),
        ]
        for said, call in wrong:
            with self.subTest(said), self.assertRaises(ValueError) as raised:
                call()
            self.assertEqual(str(raised.exception)[: len(said)], said)
        self.assertEqual(len(b.result(0).statements), 2)
        any_builder: Any = b
        self.assertRaisesRegex(TypeError, "^Builder.var.. got an unexpected", any_builder.var, size=5)

    def test_what_is_refused(self) -> None:
        b = Builder()
        x = b.var("x")
        b.pc(x, 1)
        block = b.block(2)
        wrong: list[Callable[[], object]] = [
            lambda: b.var("y", 0),
            lambda: b.var("y", 65536),
            lambda: b.block(-1),
            lambda: b.block(2**32),
            lambda: b.inst("add", x),
            lambda: b.inst("plus", x, x),
            lambda: b.inst("add", x, 2**127),
            lambda: b.inst("add", x, Constant(1, 0)),
            lambda: b.inst("freeze", Value(1)),
            lambda: b.inst("freeze", Value(3)),
            lambda: b.inst("freeze", Value(-1)),
            lambda: b.phi(block, x),
            lambda: b.phi(x),
            lambda: b.block_pc(block, 2, x, x),
            lambda: b.block_pc(block, -1, x, x),
            lambda: b.block_pc(x, 0, x, x),
            lambda: b.pc(Value(7), 1),
            lambda: b.infer(Value(1)),
            lambda: b.infer(x, souper.DemandedBits("")),
            lambda: b.cand(x, x, souper.DemandedBits("2")),
            lambda: b.result(-(2**127) - 1),
            lambda: b.var("y", attributes=[souper.KnownBits("")]),
            lambda: b.var("y", attributes=[souper.KnownBits("2")]),
            lambda: b.var("y", attributes=[souper.SignBits(256)]),
            lambda: b.var("y", attributes=[souper.Range(0, 2**127)]),
        ]
        before = b.result(0)
        for call in wrong:
            self.assertRaises(ValueError, call)
        self.assertEqual(b.result(0), before)

    def random_item(self, r: random.Random) -> Item:
        b = Builder()
        values = [b.var(width=r.choice((None, 1, 8, 65535)))]
        blocks = [b.block(r.randrange(3))]

        def operand() -> souper.Operand | int:
            constant = r.randrange(-(2**127), 2**127)
            return r.choice((r.choice(values), constant, Constant(constant, r.randrange(1, 99))))

        for _ in range(r.randrange(12)):
            match r.randrange(6):
                case 0:
                    blocks.append(b.block(r.randrange(3)))
                case 1:
                    block = r.choice(blocks)
                    count = b._predecessors(block)
                    values.append(b.phi(block, *(operand() for _ in range(count))))
                case 2:
                    b.pc(operand(), operand())
                case 3 if b._predecessors(blocks[-1]):
                    b.block_pc(blocks[-1], 0, operand(), operand())
                case _:
                    op = r.choice(list(Op))
                    values.append(b.inst(op, *(operand() for _ in range(op.arity))))
        match r.randrange(4):
            case 0:
                return b.infer(values[-1])
            case 1:
                return b.result(operand())
            case 2:
                return b.replace(values[-1], operand())
        return b.cand(operand(), operand())

    def test_what_is_built_is_well_formed(self) -> None:
        r = random.Random(2)
        for _ in range(1000):
            item = self.random_item(r)
            text = souper.write(item.kind, [item])
            self.assertTrue(souper.check(item.kind, text))
            found = souper.canonical(item.kind, item)
            self.assertEqual(souper.write(item.kind, [found]), text)
            self.assertEqual(souper.canonical(item.kind, found), found)


class Find(unittest.TestCase):
    """What a store of replacements answers."""

    STORE = """
        %x:i8 = var  %y = add %x, %x  infer %y  %z = shl %x, 1  result %z
        %a:i8 = var  %b = add %a, %a  cand %b 0
        %c:i8 = var  %d = add %c, %c  %e = shl %c, 1  cand %d %e
        cand 3 4"""

    def test_answers(self) -> None:
        asked = "%p:i8 = var %q = add %p, %p infer %q  %p = var infer %p"
        first = "%p:i8 = var\n%q = add %p, %p\ninfer %q\n"
        wanted = [[f"{first}%2 = shl %p, 1\nresult %2\n", f"{first}result 0\n"], []]
        self.assertEqual(souper.find(self.STORE, asked), wanted)
        self.assertEqual(souper.find(self.STORE.encode(), asked.encode()), wanted)
        self.assertEqual(souper.find("", asked), [[], []])
        self.assertEqual(souper.find(self.STORE, "; none"), [])

    def test_an_answer_is_canonical(self) -> None:
        [answers] = souper.find(self.STORE, "%2:i8 = var %0 = add %2, %2 infer %0")
        for answer in answers:
            self.assertTrue(souper.check("rep", answer + "\n"))
            self.assertEqual(len(souper.read("rep", answer)), 1)

    def test_a_stored_replacement_answers_its_left_hand_side(self) -> None:
        count = 0
        for record in VALID:
            for item in souper.read(record.kind, record.answer):
                if item.kind is Kind.REP and isinstance(item.ending, souper.Replace):
                    self.is_answered(item, Item(item.statements, item.ending.infer))
                    count += 1
        self.assertGreater(count, 10)

    def is_answered(self, item: Item, asked: Item) -> None:
        stored, query = souper.write("rep", [item]), souper.write("lhs", [asked])
        [[answer]] = souper.find(stored, query)
        self.assertTrue(answer.startswith(query[:-1]))
        renamed = partial(souper.record_text, "rep", rename=True)
        self.assertEqual(renamed(answer), renamed(stored))

    def test_more_answers_than_the_first_buffer_has_room_for(self) -> None:
        store = "".join(f"%x:i8 = var infer %x result {n} " for n in range(500))
        [answers] = souper.find(store, "%y:i8 = var infer %y")
        self.assertEqual(answers, [f"%y:i8 = var\ninfer %y\nresult {n}\n" for n in range(500)])

    def test_what_is_refused(self) -> None:
        for store, asked, input in (("infer", "%x", 0), ("", "%x = var infer", 1)):
            with self.assertRaises(souper.Refused) as raised:
                souper.find(store, asked)
            refusal = raised.exception
            self.assertEqual((refusal.input, refusal.at_end), (input, True))
            with self.assertRaises(souper.Refused) as again:
                souper.format(*(("rep", store) if input == 0 else ("lhs", asked)))
            self.assertEqual(replaced(refusal), replaced(again.exception))

    def test_texts(self) -> None:
        none: Any = None
        self.assertRaises(TypeError, souper.find, none, "")
        self.assertRaises(TypeError, souper.find, "", none)
        self.assertRaises(UnicodeDecodeError, souper.find, b"\xff", "")
        self.assertRaises(UnicodeDecodeError, souper.find, "", b"\xff")


def replaced(refusal: souper.Refused) -> dict[str, object]:
    """The fields of a refusal but for the number of its text."""
    return {name: value for name, value in vars(refusal).items() if name != "input"}


class Arguments(unittest.TestCase):
    """Arguments and failures of the calls."""

    def test_kinds(self) -> None:
        kinds: list[Any] = ["LHS", "", "lhs ", 0, None]
        self.assertRaisesRegex(ValueError, "^a kind is lhs, rhs or rep, not 'LHS'$", souper.read, "LHS", "")
        for kind in kinds:
            self.assertRaises(ValueError, souper.format, kind, "")
            self.assertRaises(ValueError, souper.read, kind, "")
            self.assertRaises(ValueError, souper.write, kind, [])
            self.assertRaises(ValueError, souper.decode, kind, b"")

    def test_no_items(self) -> None:
        for kind in Kind:
            self.assertEqual((souper.read(kind, ""), souper.write(kind, [])), ([], ""))
            self.assertEqual((souper.format(kind, b""), souper.record_text(kind, " ")), ("", ""))
            self.assertEqual((souper.keys(kind, ""), souper.check(kind, "")), ([], True))
            self.assertIs(souper.same(kind, "", "; none"), True)
            self.assertEqual((souper.encode(kind, []), souper.decode(kind, b"")), (b"", []))

    def test_texts(self) -> None:
        texts: list[Any] = [None, 5, ["%x"], bytearray(b"")]
        for text in texts:
            for call in each_call(Kind.LHS, text):
                self.assertRaises(TypeError, call)
        bad = b"%x = var infer %x \xff"
        for call in each_call(Kind.LHS, bad):
            self.assertRaises(UnicodeDecodeError, call)
        self.assertRaises(UnicodeDecodeError, souper.same, "lhs", "", bad)
        self.assertRaises(UnicodeEncodeError, souper.format, "lhs", "\ud800")

    def test_offsets_are_in_bytes(self) -> None:
        with self.assertRaises(souper.Refused) as raised:
            souper.format("lhs", "%x = var ; é\ninfer\u2003%x 5")
        refusal = raised.exception
        self.assertEqual((refusal.offset, refusal.line, refusal.column), (25, 2, 11))

    def test_a_key_is_for_one_item(self) -> None:
        self.assertRaises(ValueError, souper.key, "rhs", "")
        self.assertRaises(ValueError, souper.key, "rhs", "result 1 result 2")
        self.assertRaises(souper.Refused, souper.key, "rhs", "result")
        self.assertEqual(len(souper.key("rhs", "result 1")), 64)

    def test_answers_that_are_longer_than_the_first_buffer(self) -> None:
        text = "%x = var " + "pc 1 1 " * 2000 + "infer %x"
        self.assertGreater(len(souper.encode("lhs", souper.read("lhs", text))), 5 * len(text))
        name = "n" * 5000
        with self.assertRaises(souper.Refused) as raised:
            souper.check("lhs", f"%{name} = var infer %{name}x")
        self.assertEqual(raised.exception.line, 1)
        uses = "".join(f"%{name[n:]} = freeze %{name[n - 1:]} " for n in range(1, 300))
        item = souper.read("lhs", f"%{name} = var {uses} infer %{name[299:]}")
        self.assertEqual(len(souper.write("lhs", item).splitlines()), 302)

    def test_the_message_alone(self) -> None:
        for record in REFUSED:
            with self.assertRaises(souper.Refused) as raised:
                souper.format(record.kind, record.text)
            refusal = raised.exception
            place = f"unknown:{refusal.line}:{refusal.column}: {refusal.message}\n     |\n"
            self.assertTrue(record.answer.decode().startswith(place), record)

    def test_flaws_of_a_newer_library(self) -> None:
        item = Item((Assignment("", None, Var()),), Infer(Value(0)))
        for location, reason, position, shown in (
            (1, 3, 0, "statement 0: a width is 0"),
            (1, 10, 0, "statement 0: unknown(10)"),
            (1, 0, 7, "statement 7: unknown(0)"),
            (4, 2**32 - 1, 0, "cand line: unknown(4294967295)"),
            (5, 3, 0, "unknown(5): a width is 0"),
            (0, 11, 9, "unknown(0): unknown(11)"),
        ):
            found = _library.FlawNumbers(NOT_WELL_FORMED, location, reason, position)
            library = mock.Mock(wraps=LIBRARY, **{"souper_flaw.side_effect": [found]})
            with mock.patch.object(_library, "LIBRARY", library):
                with self.assertRaises(souper.NotWellFormed) as raised:
                    souper.write("lhs", [item])
            self.assertEqual(str(raised.exception), f"item 0 is not well formed: {shown}")
            self.assertEqual(pickle.loads(pickle.dumps(raised.exception)).flaw, raised.exception.flaw)
        self.assertEqual(len(souper.FlawReason), 9)
        self.assertRaises(ValueError, souper.FlawReason, "unknown")

    def test_exceptions_are_pickled(self) -> None:
        flaw = souper.Flaw(0, souper.FlawReason.ZERO_WIDTH, "%x")
        errors: list[Exception] = [souper.NotWellFormed(3), souper.NotWellFormed(3, flaw)]
        errors.append(souper.NoCode(2, 40))
        errors.append(souper.NotUtf8(2, 1))
        errors.append(souper.Refused("shown", 1, 2, 3, 1))
        errors.append(souper.Refused("shown", 1, 2, 3, 1, souper.Location(1, 2, 4), True))
        for error in errors:
            found = pickle.loads(pickle.dumps(error))
            self.assertIs(type(found), type(error))
            self.assertEqual((found.__dict__, str(found)), (error.__dict__, str(error)))
            self.assertIsInstance(error, ValueError)

    def test_out_of_memory(self) -> None:
        program = """
            import pathlib, resource, souper
            text = "%x = var " + "pc 1 1 " * 500000 + "infer %x"
            pages = int(pathlib.Path("/proc/self/statm").read_text().split()[0])
            used = pages * resource.getpagesize()
            limits = [used + (n << 20) for n in (2, 8, 16, 32)]
            for limit in limits:
                resource.setrlimit(resource.RLIMIT_AS, (limit, resource.RLIM_INFINITY))
                for call in (souper.format, souper.read, souper.check, souper.records):
                    try:
                        call("lhs", text)
                    except MemoryError:
                        print("none", end=" ")
                assert souper.format("rhs", "result 1") == "result 1\\n"
        """
        found = python("\n".join(line[12:] for line in program.splitlines()))
        self.assertEqual((found.returncode, found.stderr), (0, ""))
        self.assertGreater(len(found.stdout.split()), 8)

    def test_statuses(self) -> None:
        calls = [*each_call(Kind.LHS, b""), partial(souper.write, Kind.LHS, [])]
        calls.append(partial(souper.find, "", ""))
        unknown = r"^the library returned the status unknown\(%s\)$"
        for status, error, said in (
            (3, MemoryError, ""),
            (9, RuntimeError, unknown % 9),
            (10, RuntimeError, unknown % 10),
            (2**32 - 1, RuntimeError, unknown % 4294967295),
            (4, RuntimeError, unknown % 4),
        ):
            outcome = _library.Outcome(status=status)
            library = mock.Mock(**{f"{name}.return_value": outcome for name in _library.SIGNATURES})
            with mock.patch.object(_library, "LIBRARY", library):
                for call in calls:
                    self.assertRaisesRegex(error, said, call)

    def test_out_of_memory_when_a_refusal_is_shown(self) -> None:
        refused, none = _library.Outcome(status=1, length=4), _library.Outcome(status=3)
        library = mock.Mock(**{"souper_format.return_value": none})
        library.souper_check.return_value = library.souper_same.return_value = refused
        with mock.patch.object(_library, "LIBRARY", library):
            self.assertRaises(MemoryError, souper.check, "lhs", "")
            self.assertRaises(MemoryError, souper.same, "lhs", "", "")

    def test_other_threads_run_while_the_library_works(self) -> None:
        text = ("%x = var " + "%y = add %x, %x " + "pc %y 1 " * 400_000 + "infer %x").encode()
        times: list[float] = []
        has_ended = threading.Event()

        def note() -> None:
            while not has_ended.is_set():
                times.append(time.monotonic())

        thread = threading.Thread(target=note)
        thread.start()
        try:
            self.assertTrue(any(self.runs_beside(text, times) for _ in range(20)))
        finally:
            has_ended.set()
            thread.join()

    def runs_beside(self, text: bytes, times: list[float]) -> bool:
        """Whether another thread noted times in each half of a call."""
        times.clear()
        start = time.monotonic()
        LIBRARY.souper_check(0, text, len(text))
        end = time.monotonic()
        noted = [start, *(t for t in list(times) if start < t < end), end]
        return max(b - a for a, b in zip(noted, noted[1:])) < (end - start) / 2


def python(program: str, *arguments: str, **variables: str) -> subprocess.CompletedProcess[str]:
    """Runs a program of Python that imports the package."""
    library = {"SOUPER_LIB": LIBRARY._name, "PYTHONPATH": str(HERE), "PYTHONWARNINGS": "error"}
    return subprocess.run(
        [sys.executable, "-c", program, *arguments],
        env={**os.environ, **library, **variables},
        capture_output=True,
        text=True,
        check=False,
    )


class Pages(unittest.TestCase):
    """What the package says of itself."""

    def test_the_examples_in_comments(self) -> None:
        runner = doctest.DocTestRunner()
        for test in doctest.DocTestFinder().find(souper, module=False, globs=vars(souper)):
            runner.run(test)
        self.assertEqual((runner.failures, runner.tries > 30), (0, True))

    def test_public_names_are_the_package_s(self) -> None:
        for name in souper.__all__:
            public = getattr(souper, name)
            if isinstance(public, type) or callable(public):
                self.assertEqual((public.__module__, public.__qualname__), ("souper", name))

    def test_the_types_are_declared(self) -> None:
        self.assertEqual((HERE / "souper/py.typed").read_bytes(), b"")

    def test_the_version_is_the_crate_s(self) -> None:
        manifest = (ROOT / "embed/rust/Cargo.toml").read_text()
        self.assertEqual(re.findall(r'^version = "(.*)"$', manifest, re.MULTILINE), [souper.__version__])

    def test_the_version_of_the_library_is_the_package_s(self) -> None:
        major, minor, patch = map(int, souper.__version__.split("."))
        self.assertEqual(souper.library_version(), major * 1_000_000 + minor * 1_000 + patch)


class RecordedGraph:
    """What is asked of a ``MultiDiGraph`` of networkx."""

    def __init__(self) -> None:
        self.nodes: list[tuple[int, dict[str, object]]] = []
        self.edges: list[tuple[int, int, int]] = []

    def add_node(self, node: int, **attributes: object) -> None:
        self.nodes.append((node, attributes))

    def add_edge(self, start: int, end: int, operand: int) -> None:
        self.edges.append((start, end, operand))


class Graphs(unittest.TestCase):
    """Pictures and graphs of one item."""

    TEXT = (
        "%u = var %b = block 2 %x = var %p = phi %b, 1, %x pc %p 1 blockpc %b 1 %x 5 "
        "%y = add %p, %x infer %y"
    )

    def test_a_picture_of_an_item(self) -> None:
        for record in VALID:
            items = souper.read(record.kind, record.text)
            for item in items:
                text = souper.write(record.kind, [item])
                self.assertEqual(draw.dot(item), draw.dot(record.kind, text), record)
        any_dot: Any = draw.dot
        self.assertRaisesRegex(TypeError, "beside an item", any_dot, items[0], "")
        self.assertRaises(TypeError, any_dot, "lhs")
        self.assertRaises(souper.NotWellFormed, draw.dot, Item((), Infer(Value(0))))

    def test_what_jupyter_shows(self) -> None:
        [item] = souper.read("lhs", self.TEXT)
        with mock.patch.object(draw, "_drawn", lambda graph: f"<svg>{graph}</svg>"):
            self.assertEqual(item._repr_svg_(), f"<svg>{draw.dot(item)}</svg>")
            self.assertIsNone(Item((), Infer(Value(0)))._repr_svg_())
            self.assertIsNone(Item((), Infer(Value(-1)))._repr_svg_())
        with mock.patch.object(draw.shutil, "which", lambda name: None):
            self.assertIsNone(item._repr_svg_())

    def test_a_graph_of_networkx(self) -> None:
        [item] = souper.read("lhs", self.TEXT)
        module = mock.Mock(MultiDiGraph=RecordedGraph)
        with mock.patch.dict(sys.modules, {"networkx": module}):
            graph = item.to_networkx()
        lines = [line for line in str(item).split("\n") if line]
        marks = ["block", "input", "phi", "instruction", "pc", "blockpc", "last"]
        nodes = [(node, attributes["text"], attributes["mark"]) for node, attributes in graph.nodes]
        self.assertEqual(nodes, list(zip(range(7), lines, marks)))
        self.assertEqual([node for node, it in graph.nodes if it["root"]], [3])
        named = {line.split(" ")[0]: node for node, line in enumerate(lines)}
        b, x, p, y = (named[name] for name in ("%b", "%x", "%p", "%y"))
        wanted = {(b, p, 0), (x, p, 2), (p, y, 1), (x, y, 2), (p, 4, 1), (b, 5, 0), (x, 5, 1), (y, 6, 1)}
        self.assertEqual((set(graph.edges), len(graph.edges)), (wanted, 8))
        with mock.patch.dict(sys.modules, {"networkx": None}):
            self.assertRaises(ImportError, item.to_networkx)

    @unittest.skipUnless(importlib.util.find_spec("networkx"), "networkx is missing")
    def test_networkx_itself(self) -> None:
        for record in VALID:
            for item in souper.read(record.kind, record.text):
                graph = item.to_networkx()
                lines = [line for line in str(item).split("\n") if line]
                # The last lines come last. A text may have an infer line before other statements.
                texts = [graph.nodes[node]["text"] for node in range(len(graph))]
                self.assertEqual(sorted(texts), sorted(lines), record)
                uses = sum(len(s.uses) for s in souper.canonical(record.kind, item).statements)
                last = [n for n in graph if graph.nodes[n]["mark"] == "last"]
                self.assertEqual(graph.number_of_edges() - sum(graph.in_degree(n) for n in last), uses)
                self.assertTrue(all(start < end for start, end in graph.edges()), record)


@unittest.skipUnless(shutil.which("mypy"), "mypy is missing")
class Types(unittest.TestCase):
    """What ``mypy --strict`` finds in a program that uses the installed package."""

    PROGRAM = """
        import souper
        import souper.draw
        reader = souper.Reader("lhs", refused=lambda refusal: print(refusal.message))
        for part in (b"", bytearray(b""), memoryview(b"")):
            reader.push(part)
        reader.push("text")  # error: arg-type
        next(reader)  # error: arg-type, call-overload
        for item in reader:
            item.ending.value  # error: union-attr
            item.ending = item.ending  # error: misc
            item.endings  # error: attr-defined
            positions: tuple[int, ...] = item.users().of(souper.Value(0))
            changed: souper.Item = item.replace_many({souper.Value(1): 5}).sort().move_before(1, 0)
            changed.insert_before(0, "%x = var")  # error: arg-type
            changed.replace_many({0: 1})  # error: dict-item
            if isinstance(item.ending, souper.Infer):
                print(item.ending.value.position)
        b = souper.Builder()
        x = b.inst("add", b.var("x", 8), 1)
        b.inst(souper.Op.ADD, "x", 1)  # error: arg-type
        b.pc(x, None)  # error: arg-type
        b.var(width="8")  # error: arg-type
        texts: list[str] = [str(b.infer(x)), souper.write("lhs", [b.infer(x)]), souper.__version__]
        souper.read("lhs", 5)  # error: arg-type
        flaw: souper.Flaw = souper.NotWellFormed(0).flaw  # error: assignment
        print(souper.draw.dot(b.infer(x)), souper.draw.svg("lhs", ""), souper.decode("lhs", bytearray()))
        souper.draw.dot("lhs")  # error: call-overload, arg-type
        souper.formats("lhs", "")  # error: attr-defined
    """

    def mypy(self, *arguments: str | Path, cwd: Path) -> subprocess.CompletedProcess[str]:
        command = ["mypy", "--strict", "--no-incremental", "--cache-dir", os.devnull, *map(str, arguments)]
        return subprocess.run(
            command, cwd=cwd, env={**os.environ, "PYTHONPATH": ""}, capture_output=True, text=True, check=False
        )

    def test_a_program(self) -> None:
        lines = [line[8:] for line in self.PROGRAM.splitlines()]
        with tempfile.TemporaryDirectory() as folder:
            venv.create(f"{folder}/venv", symlinks=True)
            [packages] = Path(folder).glob("venv/lib/python3*/site-packages")
            (packages / "souper").symlink_to(HERE / "souper")
            (Path(folder) / "program.py").write_text("\n".join(lines))
            found = self.mypy("--python-executable", "venv/bin/python", "program.py", cwd=Path(folder))
        rows = re.findall(r"^program\.py:(\d+): error: .*\[(.*)\]$", found.stdout, re.MULTILINE)
        self.assertEqual(len(rows), found.stdout.count(": error: "), found.stdout)
        wanted = {str(n): line.partition("# error: ")[2] for n, line in enumerate(lines, 1) if "# error: " in line}
        self.assertEqual(sorted(wanted), sorted({number for number, _ in rows}), found.stdout)
        for number, code in rows:
            self.assertIn(code, wanted[number].split(", "), found.stdout)

    def test_the_package(self) -> None:
        found = self.mypy("souper", cwd=HERE)
        self.assertEqual((found.returncode, found.stderr), (0, ""), found.stdout)


class Programs(unittest.TestCase):
    """The package in other processes."""

    def test_a_library_that_cannot_be_loaded(self) -> None:
        other = str(sys.modules["_ctypes"].__file__)
        for path in (str(HERE / "none.so"), __file__, other):
            found = python("import souper", SOUPER_LIB=path)
            *_, message = found.stderr.splitlines()
            self.assertEqual(found.returncode, 1)
            self.assertIn("ImportError: ", message)
            self.assertIn("embed/python/build", message)
            self.assertIn("SOUPER_LIB", message)

    def histogram(self, *arguments: str) -> subprocess.CompletedProcess[str]:
        program = (HERE / "examples/histogram.py").read_text()
        files = [str(ROOT / "examples" / f"{name}.souper") for name in ("first", "second")]
        return python(program, *arguments, "lhs", *files)

    def test_the_histogram(self) -> None:
        found = self.histogram()
        self.assertEqual((found.stderr, found.stdout), ("", "       1 add\n"))
        key = "5c3aba6388404e1e1b78de05a4f8679dcfca76884a681a5c8b5902c32dcdbf52"
        found = self.histogram("--keys")
        self.assertEqual((found.stderr, found.stdout), ("", f"       2 {key}\n"))

    def test_the_histogram_of_an_invalid_file(self) -> None:
        path = str(ROOT / "examples/invalid.souper")
        found = python((HERE / "examples/histogram.py").read_text(), "lhs", path)
        self.assertEqual((found.returncode, found.stdout), (1, ""))
        self.assertEqual(found.stderr, f"{path}:6:10: unknown value '%z'\n")


if __name__ == "__main__":
    result = unittest.main(exit=False).result
    wrong = len({test.id() for test, _ in [*result.failures, *result.errors]})
    for why in sorted({why for _, why in result.skipped}):
        print(f"missing: {why}")
    print(f"Python: {result.testsRun - wrong - len(result.skipped)} passed, {wrong} failed")
    sys.exit(wrong != 0)
