"""Pictures of graphs: DOT, the language of Graphviz, and SVG by its program ``dot``.

    python3 -m souper.draw [--dot | --svg] KIND [FILE]

A picture has a box for each needed statement, in printed order, and for each last line. An edge
leads from a statement to each use of it, with the number of the operand if there are several; the
edges to a statement are in the order of its operands. Inputs have round corners, blocks a tab, phis
a line across each corner, path conditions a folded corner, and the roots two outlines. Several
items are clusters of one picture.
"""

from __future__ import annotations

import shutil
import subprocess
import sys
from collections.abc import Iterator
from typing import overload

from . import _programs
from ._calls import write
from ._checks import check_type
from ._errors import Refused
from ._pictures import Mark, Picture, pictures
from ._values import Item, Kind

__all__ = ["DotFailed", "dot", "svg"]

# Dark text in light boxes, and grey between them, are readable on a light page and on a dark one.
_HEAD = """\
digraph souper {
  graph [bgcolor="transparent", nodesep="0.3", ranksep="0.35"];
  graph [fontname="monospace", fontsize="11", fontcolor="#808080", color="#808080"];
  node [shape="box", style="filled", fillcolor="#f3f4f6", color="#6b7280", fontcolor="#111827"];
  node [fontname="monospace", fontsize="11", height="0.3", margin="0.12,0.05"];
  edge [color="#808080", fontcolor="#808080", fontname="monospace", fontsize="9", arrowsize="0.6"];
"""
_STYLES: dict[Mark, dict[str, str]] = {
    Mark.INPUT: {"style": "rounded,filled", "fillcolor": "#dbeafe"},
    Mark.INSTRUCTION: {},
    Mark.BLOCK: {"shape": "tab", "fillcolor": "#fde68a"},
    Mark.PHI: {"style": "diagonals,filled", "fillcolor": "#fef3c7"},
    Mark.PC: {"shape": "note", "fillcolor": "#fecdd3"},
    Mark.BLOCK_PC: {"shape": "note", "fillcolor": "#fecdd3"},
    Mark.LAST: {"fillcolor": "#374151", "fontcolor": "#ffffff"},
}


class DotFailed(OSError):
    """The program ``dot`` is not there, or failed."""


@overload
def dot(kind: Item) -> str: ...
@overload
def dot(kind: Kind | str, text: str | bytes) -> str: ...
def dot(kind: Item | Kind | str, text: str | bytes | None = None) -> str:
    """The graphs of the items that a text spells, or of one item, in DOT: ``dot(item)``.

    `Refused` if the text spells no list of items of the kind, `NotWellFormed` if the item has no
    canonical text.

    >>> print(dot("lhs", "%x = var infer %x"), end="")  # doctest: +ELLIPSIS
    digraph souper {
      ...
      s0 [label="%x = var", style="rounded,filled", fillcolor="#dbeafe", peripheries="2"];
      s1 [label="infer %x", fillcolor="#374151", fontcolor="#ffffff"];
      s0 -> s1;
    }
    """
    return _dot(kind, text)


def _dot(source: Item | Kind | str, text: str | bytes | None) -> str:
    if isinstance(source, Item):
        check_type("text, beside an item,", text, "None", type(None))
        drawn = pictures(source.kind, write(source.kind, [source]))
    elif text is None:
        raise TypeError("a picture is of an item, or of a kind and a text")
    else:
        drawn = pictures(source, text)
    if len(drawn) == 1:
        body = "".join(f"  {line}\n" for line in _lines(drawn[0], ""))
    else:
        body = "".join(_cluster(number, each) for number, each in enumerate(drawn, 1))
    return f"{_HEAD}{body}}}\n"


@overload
def svg(kind: Item) -> str: ...
@overload
def svg(kind: Kind | str, text: str | bytes) -> str: ...
def svg(kind: Item | Kind | str, text: str | bytes | None = None) -> str:
    """The graphs that `dot` takes, in SVG, as the program ``dot`` draws them.

    The errors of `dot`, and `DotFailed` if the program ``dot`` does not draw.
    """
    return _drawn(_dot(kind, text))


def _drawn(graph: str) -> str:
    program = shutil.which("dot")
    if program is None:
        raise DotFailed("the program dot is missing: it is in Debian's package graphviz")
    done = subprocess.run(
        [program, "-Tsvg"], input=graph.encode(), capture_output=True, check=False
    )
    if done.returncode != 0:
        said = done.stderr.decode(errors="replace").strip()
        raise DotFailed(f"dot failed with status {done.returncode}: {said}")
    return done.stdout.decode()


def _cluster(number: int, picture: Picture) -> str:
    lines = "".join(f"    {line}\n" for line in _lines(picture, f"i{number}"))
    head = f"  subgraph cluster_{number} {{\n    label={_quoted(f'item {number}')};\n"
    return f"{head}{lines}  }}\n"


def _lines(picture: Picture, prefix: str) -> Iterator[str]:
    """The nodes of a picture, each with the edges to it in the order of the operands."""
    for position, box in enumerate(picture):
        node = f"{prefix}s{position}"
        roots = {"peripheries": "2"} if box.is_root else {}
        yield f"{node}{_attributes({'label': box.text, **_STYLES[box.mark], **roots})};"
        for use in box.uses:
            # The space keeps the label off the line.
            marks = {"label": f" {use.label}"} if use.label else {}
            if use.label == "block":
                marks["style"] = "dashed"
            yield f"{prefix}s{use.position} -> {node}{_attributes(marks)};"


def _attributes(attributes: dict[str, str]) -> str:
    if not attributes:
        return ""
    return f" [{', '.join(f'{name}={_quoted(value)}' for name, value in attributes.items())}]"


# What DOT reads in a quoted string: a backslash begins an escape, an ampersand an entity of HTML.
_ESCAPES = {"\\": "\\\\", '"': '\\"', "&": "&amp;", "\n": "\\n"}


def _quoted(text: str) -> str:
    """A string of DOT that shows the text."""
    return '"' + "".join(_ESCAPES.get(character, character) for character in text) + '"'


def _main() -> None:
    parser = _programs.Parser(
        prog=_programs.name("draw"),
        description="Draws the graphs of Souper IR: the needed statements and their uses.",
        epilog="Status: 0, done; 1, the text is invalid; 2, usage, I/O, memory, or no dot.",
    )
    form = parser.add_mutually_exclusive_group()
    form.add_argument("--dot", action="store_true", help="write Graphviz' DOT (the default)")
    form.add_argument("--svg", action="store_true", help="write SVG, by the program dot")
    _programs.add_kind(parser)
    parser.add_argument(
        "file", nargs="?", metavar="FILE", help="the file; without one, or for `-`, standard input"
    )
    arguments = parser.parse_args()
    name, text = _programs.source(arguments.file)
    try:
        drawn = svg(arguments.kind, text) if arguments.svg else dot(arguments.kind, text)
    except Refused as refusal:
        raise _programs.invalid(name, refusal) from None
    except UnicodeDecodeError as error:
        raise _programs.not_utf8(name, error) from None
    except DotFailed as error:
        raise _programs.Failure(str(error)) from None
    sys.stdout.buffer.write(drawn.encode())


def command() -> None:
    """Runs the program."""
    _programs.run("draw", _main)


if __name__ == "__main__":
    command()
