#!/usr/bin/env python3
"""Runs the ported crate and this repository's program on the same texts, and compares their results.

    run.py DRIVER PROGRAM [COUNT [SEED [FILE]]]

DRIVER is the program of driver.rs, PROGRAM is souper_fmt, COUNT the number of texts for each kind (25000). Prints how many
texts fall in each class. What no class explains is written to FILE (unexplained.txt), and then the status is 1.
"""
import collections
import concurrent.futures
import re
import subprocess
import sys

import conditions
import texts
from conditions import words

PROCESSES = 2
CHUNK = 200

Answer = collections.namedtuple("Answer", "status out err")
ACCEPTED, REFUSED, PANIC = 0, 1, 101

# A text with the crate's result and ours.
Case = collections.namedtuple("Case", "kind family text crate ours")


class Programs:
    """The two programs that are compared."""

    def __init__(self, driver, program):
        self.driver, self.program = driver, program

    @staticmethod
    def run(words, text):
        done = subprocess.run(words, input=text.encode(), capture_output=True)
        return Answer(done.returncode, done.stdout.decode(), done.stderr.decode())

    def crate(self, kind, text):
        return self.run([self.driver, "format", kind], text)

    def ours(self, kind, text):
        return self.run([self.program, kind], text)

    def case(self, t):
        return Case(*t, self.crate(t.kind, t.text), self.ours(t.kind, t.text))


def first_line(answer):
    return answer.err.split("\n")[0]


def first_line_alone(answer):
    """The result with no line of the source, which may have been changed, in its error."""
    return answer._replace(err=first_line(answer))


def place(answer):
    """The line, the column and the message of an error; None if there is no error."""
    found = re.match(r"unknown:([0-9]+):([0-9]+): (.*)", answer.err, re.S)
    return found and (int(found[1]), int(found[2]), found[3].split("\n     |\n")[0])


def offset(text, line, column):
    """The byte that a place shows, past the first byte of a text."""
    lines = text.encode().split(b"\n")
    return sum(len(part) + 1 for part in lines[:line - 1]) + column


# The classes of explained differences. Each returns whether a case belongs to it.

def path_conditions(case, programs):
    """The crate's printer drops the path conditions, and prints what is printed here when they are made values."""
    if case.crate.status != ACCEPTED or case.ours.status != ACCEPTED or not conditions.has_conditions(case.text):
        return False
    disguise = conditions.Disguise(case.kind, case.text)
    printed = programs.crate(case.kind, disguise.text)
    return printed.status == ACCEPTED and disguise.undo(printed.out) == case.ours.out


def wide_column(case, programs):
    """The crate panics if the mark's column is past 65535, the greatest width of a formatter. Of the text with some
    spaces fewer it says the same at a lower column."""
    found, fewer = place(case.ours), 60000
    if case.crate.status != PANIC or case.ours.status != REFUSED or found[1] <= 65535:
        return False
    shorter = case.text.replace(" " * fewer, "", 1)
    return place(programs.crate(case.kind, shorter)) == (found[0], found[1] - fewer, found[2])


def predecessors(source):
    """The number of predecessors of each block, by its name, at the end of a source, one item or a prefix of one."""
    return dict(re.findall(r"(%[0-9A-Za-z_.]+) (?:: i[0-9]+ )?= block (-?[0-9]+)", " ".join(words(source))))


def bad_predecessor(case, programs):
    """The crate takes any number of a predecessor; one that the block does not have is refused here."""
    found = place(case.ours)
    said = found and re.fullmatch(r"predecessor ([0-9]+) out of range for block '(%.*)'", found[2])
    if not said or place(case.crate) and place(case.crate)[:2] <= found[:2]:
        return False
    prefix = case.text.encode()[:offset(case.text, *found[:2])].decode()
    return words(prefix)[-2:] == ["blockpc", said[2]] and int(said[1]) >= int(predecessors(prefix)[said[2]])


def number_fault(case, programs):
    """The crate has one message for a number below or above an unsigned type; here it says which."""
    crate, ours = place(case.crate), place(case.ours)
    return (crate is not None and ours is not None and crate[:2] == ours[:2]
            and crate[2] == "out of range integral type conversion attempted"
            and ours[2] in ("number too small to fit in target type", "number too large to fit in target type"))


CLASSES = (path_conditions, wide_column, bad_predecessor, number_fault)


def without_comma(case):
    """The text with a space for the comma in a `cand` line at which the crate refuses it; None if it does not. A colon
    after the comma, which would now continue the first operand, becomes another mark that begins no operand."""
    found = place(case.crate)
    if found is None or found[2] != "expected an integer literal" or case.kind != "rep":
        return None
    source, at = case.text.encode(), offset(case.text, *found[:2])
    prefix = source[:at].decode()
    last = words(prefix)
    is_cand = last[-2:-1] == ["cand"] or last[-4:-3] == ["cand"] and last[-2:-1] == [":"]
    if source[at:at + 1] != b"," or not is_cand:
        return None
    after = texts.tokens(source[at + 1:].decode())
    first = next((i for i, token in enumerate(after) if not texts.is_gap(token)), None)
    if first is not None and after[first] == ":":
        after[first] = "="
    return prefix + " " + "".join(after)


def classify(case, programs):
    """The name of the case's class, or None if nothing explains the difference."""
    if case.crate == case.ours and case.crate.status == REFUSED:
        return "same error"
    if case.crate == case.ours and case.crate.status == ACCEPTED and not conditions.has_conditions(case.text):
        return "same text"
    spaced = without_comma(case)
    if spaced is not None:
        crate = first_line_alone(programs.crate(case.kind, spaced))
        inner = classify(case._replace(text=spaced, crate=crate, ours=first_line_alone(case.ours)), programs)
        return inner and ("comma in cand" if inner.startswith(("same", "comma")) else f"comma in cand, {inner}")
    for belongs in CLASSES:
        if belongs(case, programs):
            return belongs.__name__.replace("_", " ")
    return None


def read_back(kind, cases, programs):
    """The cases whose canonical text is not its own canonical text. Items are joined: each ends in a newline."""
    joined = "".join(case.ours.out for case in cases)
    if programs.ours(kind, joined) == Answer(ACCEPTED, joined, ""):
        return []
    if len(cases) == 1:
        return cases
    half = len(cases) // 2
    return read_back(kind, cases[:half], programs) + read_back(kind, cases[half:], programs)


def tell(case, file):
    print(f"--- {case.kind} {case.family}: {case.text!r}\ncrate {case.crate}\nours  {case.ours}", file=file)


def answers(count, seed, programs):
    """Each case with its class, and the cases that are not read back."""
    with concurrent.futures.ThreadPoolExecutor(PROCESSES) as pool:
        cases = list(pool.map(programs.case, texts.all_texts(count, seed), chunksize=100))
        named = list(zip(cases, pool.map(lambda case: classify(case, programs), cases)))
        lost = []
        for kind in texts.KINDS:
            printed = [case for case in cases if case.kind == kind and case.ours.status == ACCEPTED]
            chunks = [printed[i:i + CHUNK] for i in range(0, len(printed), CHUNK)]
            lost += [case for part in pool.map(lambda chunk: read_back(kind, chunk, programs), chunks) for case in part]
    return named, lost


def main():
    programs = Programs(sys.argv[1], sys.argv[2])
    count = int(sys.argv[3]) if len(sys.argv) > 3 else 25000
    seed = int(sys.argv[4]) if len(sys.argv) > 4 else 1
    path = sys.argv[5] if len(sys.argv) > 5 else "unexplained.txt"
    named, lost = answers(count, seed, programs)
    unexplained = sorted((case for case, name in named if name is None), key=lambda case: len(case.text))
    print(f"texts: {len(named)}")
    print(f"accepted by both: {sum(c.crate.status == c.ours.status == ACCEPTED for c, _ in named)}")
    refused = [c for c, _ in named if c.crate.status == c.ours.status == REFUSED]
    print(f"refused by both: {len(refused)}, with the same first line: "
          f"{sum(first_line(c.crate) == first_line(c.ours) for c in refused)}")
    for name, n in sorted(collections.Counter(name or "unexplained" for _, name in named).items()):
        print(f"class {name}: {n}")
    print(f"canonical texts that are not their own canonical text: {len(lost)}")
    with open(path, "w") as file:
        for case in unexplained + lost:
            tell(case, file)
    return 1 if unexplained or lost else 0


if __name__ == "__main__":
    sys.exit(main())
