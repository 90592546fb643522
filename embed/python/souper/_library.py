"""The shared library: its functions, and the numbers that they take and return."""

from __future__ import annotations

import ctypes
import os
from typing import Any

from ._values import Kind

DONE, REFUSED, OUT_OF_MEMORY, NOT_UTF8 = 0, 1, 3, 4
SHORT, DIFFERENT, NOT_WELL_FORMED, NO_WIDTHS = 5, 6, 8, 10
KEY, RENAME, NUL = 1, 2, 4


class Outcome(ctypes.Structure):
    """The outcome of a call, ``SouperOutcome`` of C."""

    status: int
    input: int
    length: int
    offset: int
    line: int
    column: int

    _fields_ = [
        ("status", ctypes.c_uint32),
        ("input", ctypes.c_uint32),
        ("length", ctypes.c_size_t),
        ("offset", ctypes.c_size_t),
        ("line", ctypes.c_size_t),
        ("column", ctypes.c_size_t),
    ]


class FlawNumbers(ctypes.Structure):
    """The first flaw of an item, ``SouperFlaw`` of C."""

    status: int
    location: int
    reason: int
    position: int

    _fields_ = [
        ("status", ctypes.c_uint32),
        ("location", ctypes.c_uint32),
        ("reason", ctypes.c_uint32),
        ("position", ctypes.c_size_t),
    ]


class WidthNumbers(ctypes.Structure):
    """The widths of an item, or its first flaw, ``SouperWidths`` of C."""

    status: int
    location: int
    reason: int
    left: int
    right: int
    root: int
    position: int
    length: int

    _fields_ = [
        ("status", ctypes.c_uint32),
        ("location", ctypes.c_uint32),
        ("reason", ctypes.c_uint32),
        ("left", ctypes.c_uint32),
        ("right", ctypes.c_uint32),
        ("root", ctypes.c_uint32),
        ("position", ctypes.c_size_t),
        ("length", ctypes.c_size_t),
    ]


class LocationNumbers(ctypes.Structure):
    """Where a text is at fault, ``SouperLocation`` of C."""

    status: int
    at_end: int
    offset: int
    line: int
    column: int

    _fields_ = [
        ("status", ctypes.c_uint32),
        ("at_end", ctypes.c_uint32),
        ("offset", ctypes.c_size_t),
        ("line", ctypes.c_size_t),
        ("column", ctypes.c_size_t),
    ]


_BYTES = [ctypes.c_char_p, ctypes.c_size_t]
_ROOM = [ctypes.POINTER(ctypes.c_char), ctypes.c_size_t]
SIGNATURES: dict[str, list[Any]] = {
    "souper_version": [],
    "souper_format": [ctypes.c_uint32, *_BYTES, *_ROOM],
    "souper_read": [ctypes.c_uint32, *_BYTES, *_ROOM],
    "souper_write": [ctypes.c_uint32, *_BYTES, *_ROOM],
    "souper_key": [ctypes.c_uint32, ctypes.c_uint32, *_BYTES, *_ROOM],
    "souper_check": [ctypes.c_uint32, *_BYTES],
    "souper_same": [ctypes.c_uint32, *_BYTES, *_BYTES],
    "souper_find": [*_BYTES, *_BYTES, *_ROOM],
    "souper_flaw": [ctypes.c_uint32, *_BYTES],
    "souper_widths": [ctypes.c_uint32, *_BYTES, ctypes.POINTER(ctypes.c_uint32), ctypes.c_size_t],
    "souper_locate": [ctypes.c_uint32, *_BYTES],
    "souper_hint": [ctypes.c_uint32, ctypes.c_size_t, *_BYTES, *_ROOM],
    "souper_last_cut": [ctypes.c_uint32, *_BYTES],
    "souper_first_segment": [ctypes.c_uint32, *_BYTES],
}
# What a function returns that is no `Outcome`.
_RESULTS: dict[str, Any] = {
    "souper_version": ctypes.c_uint32,
    "souper_flaw": FlawNumbers,
    "souper_widths": WidthNumbers,
    "souper_locate": LocationNumbers,
}


def _load() -> ctypes.CDLL:
    beside = os.path.join(os.path.dirname(os.path.abspath(__file__)), "libsouper_c.so")
    path = os.path.abspath(os.environ.get("SOUPER_LIB") or beside)
    try:
        library = ctypes.CDLL(path)
        for name, arguments in SIGNATURES.items():
            function = getattr(library, name)
            function.argtypes = arguments
            function.restype = _RESULTS.get(name, Outcome)
    except (OSError, AttributeError) as error:
        raise ImportError(
            f"{error}: build the library by embed/python/build, or set SOUPER_LIB to its path",
            name=__package__,
            path=path,
        ) from error
    return library


def first_segment(kind: Kind, text: bytes, start: int) -> Outcome:
    """What ``souper_first_segment`` finds from a byte of a text on, which is not copied."""
    first = ctypes.cast(ctypes.c_char_p(text), ctypes.c_void_p).value or 0
    rest = ctypes.c_char_p(first + start)
    found: Outcome = LIBRARY.souper_first_segment(NUMBERS[kind], rest, len(text) - start)
    return found


def unknown(number: int) -> str:
    """What a newer library calls by a number."""
    return f"unknown({number})"


LIBRARY = _load()
NUMBERS = {Kind.LHS: 0, Kind.RHS: 1, Kind.REP: 2}
