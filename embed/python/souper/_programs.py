"""What the programs of the package share: their input, their errors and their statuses.

The statuses are those of ``souper_items``: 0, done; 1, a text is invalid; 2, usage, I/O or memory;
141, standard output is a pipe that nobody reads. After ^C it is 130.
"""

from __future__ import annotations

import argparse
import os
import sys
from collections.abc import Callable
from pathlib import Path
from typing import Any, NoReturn

from . import _terminal
from ._errors import Refused
from ._values import Kind

INVALID, FAILED, INTERRUPTED, NOBODY_READS = 1, 2, 130, 141

class Failure(Exception):
    """Why a program ends: a message and its status; of a parse error also the hint."""

    def __init__(self, message: str, status: int = FAILED, hint: str | None = None) -> None:
        super().__init__(message)
        self.status = status
        self.hint = hint


def name(module: str) -> str:
    """The name of a program: of its command, if that was called, or of its module."""
    command = f"souper-{module}"
    return command if Path(sys.argv[0]).name == command else f"souper.{module}"


class Parser(argparse.ArgumentParser):
    """A parser of arguments, which it shows at a terminal as the programs show a text."""

    def exit(self, status: int = 0, message: str | None = None) -> NoReturn:
        sys.stderr.flush()
        if message:
            _say(message.removesuffix("\n"))
        sys.exit(status)


def add_kind(parser: argparse.ArgumentParser, default: str | None = None) -> None:
    """Adds the argument KIND, which may be left out if it has a default."""
    help = "lhs (left-hand sides), rhs (right-hand sides) or rep (replacements)"
    options: dict[str, Any] = {"choices": [kind.value for kind in Kind], "metavar": "KIND"}
    if default is not None:
        help += f"; {default} if it is left out"
        options |= {"nargs": "?", "default": default}
    parser.add_argument("kind", help=help, **options)


def source(path: str | None) -> tuple[str, bytes]:
    """The name and the bytes of a file; of standard input without a path, or for ``-``."""
    if path is None or path == "-":
        return "(standard input)", sys.stdin.buffer.read()
    try:
        return path, Path(path).read_bytes()
    except (OSError, ValueError) as error:
        raise Failure(f"{path}: {getattr(error, 'strerror', None) or error}") from error


def invalid(name: str, refusal: Refused) -> Failure:
    """The four lines of a parse error, with the name of the file, and its hint."""
    return Failure(name + refusal.shown.removeprefix("unknown"), INVALID, refusal.hint)


def not_utf8(name: str, error: UnicodeDecodeError) -> Failure:
    return Failure(f"{name}: not UTF-8 at byte {error.start}")


def run(module: str, main: Callable[[], None]) -> None:
    """Runs the program of a module, and ends it with its status."""
    program = name(module)
    try:
        main()
        sys.stdout.flush()
    except Failure as failure:
        if failure.status == INVALID:
            _say(str(failure), _terminal.parse_error)
            if failure.hint is not None:
                _say(f"hint: {failure.hint}")
        else:
            _say(f"{program}: {failure}")
        sys.exit(failure.status)
    except MemoryError:
        _say(f"{program}: out of memory")
        sys.exit(FAILED)
    except KeyboardInterrupt:
        sys.exit(INTERRUPTED)
    except BrokenPipeError:
        _drop_output()
        sys.exit(NOBODY_READS)
    except OSError as error:
        _drop_output()
        _say(f"{program}: {error.strerror or error}")
        sys.exit(FAILED)


def _drop_output() -> None:
    """Python writes the rest of standard output when it ends, and would complain once more."""
    os.dup2(os.open(os.devnull, os.O_WRONLY), sys.stdout.fileno())


def _say(text: str, at_terminal: Callable[[str], str] = _terminal.message) -> None:
    shown = at_terminal(text) if sys.stderr.isatty() else text
    sys.stderr.buffer.write(shown.encode("utf-8", "surrogateescape") + b"\n")
