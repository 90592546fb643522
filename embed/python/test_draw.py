"""Tests of souper.draw: python3 -W error embed/python/test_draw.py

With --write the stored pictures are written anew.
"""

from __future__ import annotations

import doctest
import json
import os
import pty
import random
import re
import shutil
import signal
import subprocess
import sys
import tempfile
import termios
import time
import tty
import unittest
import xml.etree.ElementTree as ElementTree
from collections import Counter
from pathlib import Path
from typing import Any

import souper
import test_souper
from souper import Kind, draw
from souper._pictures import Mark, pictures
from testing import DRAWN, PICTURES, ROOT, VALID, Drawn, environment, main, program

HAS_DOT = shutil.which("dot") is not None
needs_dot = unittest.skipUnless(HAS_DOT, "dot, so what Graphviz reads and draws is left out")
NAMESPACE = "{http://www.w3.org/2000/svg}"
README_PICTURE = ROOT / "docs/conditions.svg"


def graphviz(form: str, graphs: str) -> str:
    """What ``dot`` makes of graphs. It must have nothing to say."""
    done = subprocess.run(["dot", f"-T{form}"], input=graphs, capture_output=True, text=True, check=False)
    if (done.returncode, done.stderr) != (0, ""):
        raise AssertionError(done)
    return done.stdout


def without_numbers(svg: str) -> str:
    """What does not depend on Graphviz' version and fonts: elements, texts, colors and classes."""
    body = re.sub(r"<!--.*?-->", "", svg[svg.index("<svg") :], flags=re.DOTALL)
    body = re.sub(r' (width|height|viewBox|transform|points|d|x|y|cx|cy|rx|ry|textLength)="[^"]*"', "", body)
    return re.sub(r"\s*\n\s*", "\n", body)


class Lines(unittest.TestCase):
    """The boxes of a picture."""

    def test_boxes_are_the_lines_of_the_canonical_text(self) -> None:
        for record in VALID:
            texts = [found.text for found in souper.records(record.kind, record.text)]
            for text, boxes in zip(texts, pictures(record.kind, record.text), strict=True):
                lines = sorted(line for line in text.split("\n") if line)
                self.assertEqual(sorted(box.text for box in boxes), lines)
                self.assertEqual(self.printed([box.text for box in boxes]), self.printed(text.split("\n")))

    def printed(self, lines: list[str]) -> list[str]:
        """The lines of statements, in order."""
        return [line for line in lines if line.startswith(("%", "pc ", "blockpc "))]

    def test_uses_are_the_operands(self) -> None:
        for record in VALID:
            for item, boxes in zip(
                souper.read(record.kind, record.answer), pictures(record.kind, record.text), strict=True
            ):
                for statement, box in zip(item.statements, boxes):
                    values = [o for o in statement.operands if isinstance(o, souper.Value)]
                    self.assertEqual([use.position for use in box.uses], [v.position for v in values])

    def test_numbers_and_marks(self) -> None:
        [every] = pictures(Kind.REP, (PICTURES / "every.rep").read_text())
        found = {
            box.text.split(" (")[0]: (box.mark, [(every[u.position].text.split(" ")[0], u.label) for u in box.uses], box.is_root)
            for box in every
        }
        self.assertEqual(found["%x:i8 = var"], (Mark.INPUT, [], False))
        self.assertEqual(found["%i:i8 = reservedinst"], (Mark.INPUT, [], False))
        self.assertEqual(found["%c = reservedconst"], (Mark.INPUT, [], False))
        self.assertEqual(found["%h = hole"], (Mark.INSTRUCTION, [], False))
        self.assertEqual(found["%b = block 2"], (Mark.BLOCK, [], False))
        phi = [("%b", "block"), ("%x:i8", "1")]
        self.assertEqual(found["%p:i8 = phi %b, %x, -3:i8"], (Mark.PHI, phi, False))
        overflow = [("%s:i8", "1"), ("%s:i8", "2")]
        self.assertEqual(found["%o = sadd.with.overflow %s, %s"], (Mark.INSTRUCTION, overflow, False))
        self.assertEqual(found["pc %s 1"], (Mark.PC, [("%s:i8", "1")], False))
        self.assertEqual(found["pc 1 %c"], (Mark.PC, [("%c", "2")], False))
        condition = [("%b", "block"), ("%x:i8", "1"), ("%h", "2")]
        self.assertEqual(found["blockpc %b 1 %x %h"], (Mark.BLOCK_PC, condition, False))
        self.assertEqual(found["%a = add %e, %i"][2], True)
        self.assertEqual(found["%z = add %x, 1"][2], True)
        self.assertEqual(found["infer %a"], (Mark.LAST, [("%a", "")], False))
        self.assertEqual(found["result %z"], (Mark.LAST, [("%z", "")], False))
        self.assertEqual(sum(box.is_root for box in every), 2)

    def test_one_operand_has_no_number(self) -> None:
        [boxes] = pictures("lhs", "%x = var %y = freeze %x infer %y")
        self.assertEqual([[use.label for use in box.uses] for box in boxes], [[], [""], [""]])

    def test_edges_are_in_the_order_of_the_operands(self) -> None:
        for record in VALID:
            edges = re.findall(r"^ +(\w*?)s(\d+) -> (\w+)", draw.dot(record.kind, record.text), re.MULTILINE)
            every = pictures(record.kind, record.text)
            wanted = [
                (prefix, str(use.position), f"{prefix}s{position}")
                for number, boxes in enumerate(every, 1)
                for prefix in ["" if len(every) == 1 else f"i{number}"]
                for position, box in enumerate(boxes)
                for use in box.uses
            ]
            self.assertEqual(edges, wanted)

    def test_an_invalid_text(self) -> None:
        self.assertRaises(souper.Refused, draw.dot, "lhs", "infer %x")
        self.assertRaises(souper.Refused, draw.svg, "lhs", "infer %x")
        self.assertRaises(ValueError, draw.dot, "left", "")
        self.assertRaises(UnicodeDecodeError, draw.dot, "lhs", b"\xff")

    def test_the_examples_in_comments(self) -> None:
        runner = doctest.DocTestRunner()
        for test in doctest.DocTestFinder().find(draw):
            runner.run(test)
        self.assertEqual((runner.failures, runner.tries > 0), (0, True))


class Stored(unittest.TestCase):
    """The pictures of some texts."""

    def test_dot(self) -> None:
        for one in DRAWN:
            with self.subTest(one.name):
                self.assertEqual(draw.dot(one.kind, one.text), self.stored(one, "dot"))

    @needs_dot
    def test_svg(self) -> None:
        for one in DRAWN:
            with self.subTest(one.name):
                found = without_numbers(draw.svg(one.kind, one.text))
                self.assertEqual(found, without_numbers(self.stored(one, "svg")))

    def stored(self, one: Drawn, form: str) -> str:
        return (PICTURES / f"{one.name}.{form}").read_text()

    @needs_dot
    def test_the_picture_of_the_readme(self) -> None:
        found = draw.svg("rep", (ROOT / "examples/conditions.souper").read_text())
        self.assertEqual(without_numbers(found), without_numbers(README_PICTURE.read_text()))
        self.assertLess(README_PICTURE.stat().st_size, 6000)


@needs_dot
class Graphviz(unittest.TestCase):
    """What ``dot`` reads."""

    def read(self, graph: str) -> tuple[list[str], list[tuple[str, str, str]]]:
        """The labels of the nodes, in order, and the edges, with the labels of both nodes."""
        found: dict[str, Any] = json.loads(graphviz("dot_json", graph))
        objects = [one for one in found.get("objects", []) if "nodes" not in one]
        labels = {one["_gvid"]: one["label"] for one in objects}
        edges = found.get("edges", [])
        return list(labels.values()), [
            (labels[edge["tail"]], labels[edge["head"]], edge.get("label", "").strip()) for edge in edges
        ]

    def assert_reads(self, kind: Kind, text: str | bytes) -> None:
        labels, edges = self.read(draw.dot(kind, text))
        every = pictures(kind, text)
        self.assertEqual(Counter(labels), Counter(box.text for boxes in every for box in boxes))
        wanted = Counter(
            (boxes[use.position].text, box.text, use.label)
            for boxes in every for box in boxes for use in box.uses
        )
        self.assertEqual(Counter(edges), wanted)

    def test_the_texts(self) -> None:
        for one in DRAWN:
            self.assert_reads(one.kind, one.text)

    def test_the_stored_answers(self) -> None:
        for record in VALID:
            self.assert_reads(record.kind, record.text)

    def test_it_draws_the_stored_answers(self) -> None:
        graphs = "".join(draw.dot(record.kind, record.text) for record in VALID if len(record.text) < 2000)
        found = graphviz("plain", graphs)
        self.assertGreater(found.count("\nstop"), 200)

    def test_it_draws_random_items(self) -> None:
        r = random.Random(5)
        building = test_souper.Building()
        graphs = []
        for _ in range(300):
            item = building.random_item(r)
            graphs.append(draw.dot(item.kind, souper.write(item.kind, [item])))
        self.assertEqual(graphviz("plain", "".join(graphs)).count("stop"), 300)

    def test_escapes(self) -> None:
        texts = ['"', "\\", "\\n", "\\\\", '\\"', "&", "&amp;", "&#65;", "&lt;", "<b>", "%<>{}|", "a\\", "\\N\\G\\L"]
        texts += ["é", "漢字", "\U0001f600", "%x;", "]", "//", "/* */", "#", "$(x)", "`", "'", "  two  ", "\\l\\r"]
        r = random.Random(1)
        texts += ["".join(r.choice("\\\"&;nlrNGE<>ab é#") for _ in range(12)) for _ in range(200)]
        texts.append("a\nb")
        nodes = "".join(f"s{k} [label={draw._quoted(text)}];" for k, text in enumerate(texts))
        root = ElementTree.fromstring(graphviz("svg", f"digraph {{ {nodes} }}"))
        shown = {
            group.findtext(f"{NAMESPACE}title"): [one.text or "" for one in group.iter(f"{NAMESPACE}text")]
            for group in root.iter(f"{NAMESPACE}g")
            if group.get("class") == "node"
        }
        self.assertEqual(len(shown), len(texts))
        for k, text in enumerate(texts):
            lines = [line.replace("\xa0", " ").split() for line in shown[f"s{k}"]]
            self.assertEqual(lines, [line.split() for line in text.split("\n")], text)

    def test_svg_has_nothing_from_elsewhere(self) -> None:
        for one in DRAWN:
            root = ElementTree.fromstring(draw.svg(one.kind, one.text))
            names = {element.tag.removeprefix(NAMESPACE) for element in root.iter()}
            self.assertLessEqual(names, {"svg", "g", "title", "polygon", "polyline", "path", "text"}, one)
            self.assertNotIn("href", ElementTree.tostring(root, "unicode"))


class Program(unittest.TestCase):
    """``python3 -m souper.draw``."""

    FIRST = ROOT / "examples/first.souper"

    def test_dot(self) -> None:
        wanted = draw.dot("lhs", self.FIRST.read_text()).encode()
        text = self.FIRST.read_bytes()
        for found in (
            program("draw", "lhs", self.FIRST),
            program("draw", "--dot", "lhs", self.FIRST),
            program("draw", "lhs", input=text),
            program("draw", "--dot", "lhs", "-", input=text),
        ):
            self.assertEqual((found.returncode, found.stdout, found.stderr), (0, wanted, b""))

    @needs_dot
    def test_svg(self) -> None:
        found = program("draw", "--svg", "lhs", self.FIRST)
        wanted = draw.svg("lhs", self.FIRST.read_text()).encode()
        self.assertEqual((found.returncode, found.stdout, found.stderr), (0, wanted, b""))

    def test_an_invalid_text(self) -> None:
        path = ROOT / "examples/invalid.souper"
        shown = "6:10: unknown value '%z'\n     |\n   6 | %y = add %z, 1\n     |          ^\n"
        for form in ("--dot", "--svg"):
            found = program("draw", form, "lhs", path)
            self.assertEqual((found.returncode, found.stdout), (1, b""))
            self.assertEqual(found.stderr.decode(), f"{path}:{shown}")
        found = program("draw", "lhs", input=path.read_bytes())
        self.assertEqual((found.returncode, found.stderr.decode()), (1, f"(standard input):{shown}"))

    def test_a_hint(self) -> None:
        text = b"%sum = var\ninfer %sun"
        shown = "2:7: no value named '%sun' in scope\n     |\n   2 | infer %sun\n     |       ^\nhint: did you mean '%sum'?\n"
        found = program("draw", "lhs", input=text)
        self.assertEqual((found.returncode, found.stdout, found.stderr.decode()), (1, b"", f"(standard input):{shown}"))
        with tempfile.TemporaryDirectory() as folder:
            path = Path(folder, "a.lhs")
            path.write_bytes(text)
            self.assertEqual(self.at_terminal("lhs", path), f"{path}:{shown}")

    def at_terminal(self, *arguments: str | Path) -> str:
        """What the program writes to standard error, which is a terminal."""
        ours, theirs = pty.openpty()
        tty.setraw(theirs, termios.TCSANOW)
        with open(os.devnull, "r+b") as nothing:
            command = [sys.executable, "-m", "souper.draw", *map(str, arguments)]
            subprocess.run(command, env=environment(), stdin=nothing, stdout=nothing, stderr=theirs, timeout=120, check=False)
        os.write(theirs, b"\0")
        written = b""
        while not written.endswith(b"\0"):
            written += os.read(ours, 1 << 16)
        os.close(theirs)
        os.close(ours)
        return written[:-1].decode()

    def test_an_invalid_text_at_a_terminal(self) -> None:
        hidden = "\x1b[31m\x07\x7f\x9b\u202e\u2066"
        with tempfile.TemporaryDirectory() as folder:
            path = Path(folder, "a\x1b.lhs")
            for line, caret, shown, column in (
                (f"%x = var pc %y 1 ; {hidden}\ufeff", 12, "%x = var pc %y 1 ; ␛[31m␇␡\ufffd\ufffd\ufffd<U+FEFF>", 12),
                ("%x = var\ninfer\u3000%y", 8, "infer\u3000%y", 7),
                (f"%x = var {' ' * 300}pc %y 1 ; {'c' * 300}", 312, f"…{' ' * 77}pc %y 1 ; {'c' * 73}…", 81),
            ):
                path.write_text(line)
                number = line.count("\n") + 1
                found = self.at_terminal("lhs", path).split("\n")
                head = str(path).replace("\x1b", "␛")
                self.assertTrue(found[0].startswith(f"{head}:{number}:{caret + 1}: "), found)
                self.assertEqual(found[1:], ["     |", f"   {number} | {shown}", f"     | {' ' * column}^", ""])
            path.write_text("infer \x1b")
            for one in "".join(self.at_terminal("lhs", path).split("\n")):
                self.assertTrue(one.isprintable(), one)

    def test_what_fails_at_a_terminal(self) -> None:
        for arguments in (["lhs", "/\x1b[31m\udcff"], ["lhs", "a", "\x1b[31m"], ["\x9b"], ["\u202e"]):
            found = self.at_terminal(*arguments)
            self.assertTrue(found.endswith("\n"), found)
            self.assertTrue(all(one.isprintable() for one in "".join(found.split("\n"))), found)

    def test_the_command(self) -> None:
        program = "import sys; sys.argv[0] = sys.argv.pop(1); from souper.draw import command; command()"
        for name, said in (("/usr/bin/souper-draw", "souper-draw"), ("souper-drawn", "souper.draw")):
            command = [sys.executable, "-c", program, name, "lhs", "/nowhere"]
            found = subprocess.run(command, env=environment(), capture_output=True, text=True, check=False)
            self.assertEqual((found.returncode, found.stderr), (2, f"{said}: /nowhere: No such file or directory\n"))

    def test_what_fails(self) -> None:
        for arguments, said in (
            (["lhs", "/nowhere"], "souper.draw: /nowhere: No such file or directory\n"),
            (["lhs", "/"], "souper.draw: /: Is a directory\n"),
            (["lhs", "-"], "souper.draw: (standard input): not UTF-8 at byte 1\n"),
        ):
            found = program("draw", *arguments, input=b"%\xff")
            self.assertEqual((found.returncode, found.stdout, found.stderr.decode()), (2, b"", said))

    def test_usage(self) -> None:
        for arguments in ([], ["left"], ["--dot", "--svg", "lhs"], ["--png", "lhs"], ["lhs", "a", "b"]):
            found = program("draw", *arguments)
            self.assertEqual((found.returncode, found.stdout), (2, b""))
            self.assertTrue(found.stderr.startswith(b"usage: souper.draw [-h] [--dot | --svg] KIND [FILE]\n"))

    def test_a_missing_dot(self) -> None:
        found = program("draw", "--svg", "lhs", self.FIRST, PATH="/nowhere")
        said = "souper.draw: the program dot is missing: it is in Debian's package graphviz\n"
        self.assertEqual((found.returncode, found.stdout, found.stderr.decode()), (2, b"", said))

    def test_a_dot_that_fails(self) -> None:
        with tempfile.TemporaryDirectory() as folder:
            path = Path(folder, "dot")
            path.write_text("#!/bin/sh\necho 'no memory' >&2\nexit 7\n")
            path.chmod(0o755)
            found = program("draw", "--svg", "lhs", self.FIRST, PATH=folder)
        said = "souper.draw: dot failed with status 7: no memory\n"
        self.assertEqual((found.returncode, found.stdout, found.stderr.decode()), (2, b"", said))

    def test_an_interrupt(self) -> None:
        with tempfile.TemporaryDirectory() as folder:
            path, note = Path(folder, "dot"), Path(folder, "note")
            path.write_text(f"#!/bin/sh\n: >'{note}'\nexec sleep 60\n")
            path.chmod(0o755)
            process = subprocess.Popen(
                [sys.executable, "-m", "souper.draw", "--svg", "lhs", str(self.FIRST)],
                env=environment(PATH=f"{folder}:{os.environ['PATH']}"), stdout=subprocess.PIPE, stderr=subprocess.PIPE,
                start_new_session=True,
            )
            until = time.monotonic() + 30
            while not note.exists() and time.monotonic() < until:
                time.sleep(0.02)
            # As a terminal does: to the program, and to the one that it runs.
            os.killpg(process.pid, signal.SIGINT)
            out, err = process.communicate(timeout=30)
        self.assertEqual((process.returncode, out, err), (130, b"", b""))

    def test_a_pipe_that_nobody_reads(self) -> None:
        text = "%x = var pc %x 1 infer %x\n" * 5000
        with tempfile.TemporaryDirectory() as folder:
            path = Path(folder, "a.lhs")
            path.write_text(text)
            command = f'{sys.executable} -m souper.draw lhs {path} 2>"{folder}/err" | true; echo ${{PIPESTATUS[0]}}'
            found = subprocess.run(["bash", "-c", command], env=environment(), capture_output=True, text=True, check=False)
            self.assertEqual((found.stdout, Path(folder, "err").read_text()), ("141\n", ""))

    def test_a_full_disk(self) -> None:
        if not os.path.exists("/dev/full"):
            self.skipTest("/dev/full, so a full disk is left out")
        with open("/dev/full", "wb") as full:
            found = subprocess.run(
                [sys.executable, "-m", "souper.draw", "lhs", str(self.FIRST)],
                env=environment(), stdout=full, stderr=subprocess.PIPE, text=True, check=False,
            )
        self.assertEqual((found.returncode, found.stderr), (2, "souper.draw: No space left on device\n"))


def write() -> None:
    for one in DRAWN:
        (PICTURES / f"{one.name}.dot").write_text(draw.dot(one.kind, one.text))
        (PICTURES / f"{one.name}.svg").write_text(draw.svg(one.kind, one.text))
    example = ROOT / "examples/conditions.souper"
    README_PICTURE.write_text(draw.svg("rep", example.read_text()))


if __name__ == "__main__":
    if sys.argv[1:] == ["--write"]:
        write()
    else:
        main("Pictures")
