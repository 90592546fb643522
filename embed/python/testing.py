"""What the tests of the pictures and of the page share."""

from __future__ import annotations

import os
import signal
import subprocess
import sys
import unittest
from collections.abc import Iterator
from dataclasses import dataclass
from pathlib import Path
from typing import Any

from souper import Kind, _library
from test_souper import RECORDS

HERE = Path(__file__).resolve().parent
ROOT = HERE.parent.parent
PICTURES = HERE / "pictures"


@dataclass(frozen=True)
class Drawn:
    """A text whose pictures are stored, beside it in the folder ``pictures``."""

    name: str
    kind: Kind
    path: Path

    @property
    def text(self) -> str:
        return self.path.read_text()


def drawn() -> Iterator[Drawn]:
    for name, kind in (("conditions", Kind.REP), ("product", Kind.LHS)):
        yield Drawn(name, kind, ROOT / "examples" / f"{name}.souper")
    for kind in Kind:
        for path in sorted(PICTURES.glob(f"*.{kind.value}")):
            yield Drawn(path.stem, kind, path)


DRAWN = list(drawn())
VALID = [record for record in RECORDS if not record.is_refused]
REFUSED = [record for record in RECORDS if record.is_refused]


def environment(**variables: str) -> dict[str, str]:
    """The variables of a process that runs a program of the package."""
    path = os.pathsep.join(filter(None, (str(HERE), os.environ.get("PYTHONPATH"))))
    library = {"SOUPER_LIB": _library.LIBRARY._name, "PYTHONPATH": path}
    return {**os.environ, **library, "PYTHONWARNINGS": "error", **variables}


def program(
    module: str, *arguments: str | Path, input: bytes = b"", **variables: str
) -> subprocess.CompletedProcess[bytes]:
    """Runs a program of the package."""
    return subprocess.run(
        [sys.executable, "-m", f"souper.{module}", *map(str, arguments)],
        env=environment(**variables), input=input, capture_output=True, timeout=120, check=False,
    )


def main(label: str) -> None:
    """Runs the tests of the program, and prints what was left out and how many passed."""
    # A shell's background commands ignore interrupts, and so would the programs that are interrupted here.
    signal.signal(signal.SIGINT, signal.default_int_handler)
    result: Any = unittest.main(exit=False).result
    wrong = len({test.id() for test, _ in [*result.failures, *result.errors]})
    for why in sorted({why for _, why in result.skipped}):
        print(f"missing: {why}")
    # A module that is left out counts no tests.
    skipped = sum(isinstance(test, unittest.TestCase) for test, _ in result.skipped)
    passed = result.testsRun - wrong - skipped
    print(f"{label}: {passed} passed, {wrong} failed")
    sys.exit(wrong != 0)
