#!/usr/bin/env python3
"""Makes a harvest: files of items of a kind, as they may come from many programs, from a seed.

    harvest.py KIND FOLDER [ITEMS [FILES [SEED]]]      KIND: lhs, rhs, rep; 100000 items in 100 files if nothing is said

Few graphs are in many items: in another order, with other names, with statements that nothing needs, with comments and empty
lines anywhere. The files are FOLDER/0000.KIND and so on. FOLDER/answers has a line for each item, in the order of the files:
the number of its graph and the number of its names. Two items are the same graph if both numbers are equal, and the same graph
up to names if the first is. The last line on standard output says how many there are.
"""
import pathlib
import random
import sys

TWO = """add addnsw addnuw sub subnsw mul mulnsw udiv sdivexact urem and or xor shl shlnuw lshr ashr eq ne ult slt ule sle
sadd.with.overflow usub.sat""".split()
ONE = "zext sext trunc ctpop bswap bitreverse cttz ctlz freeze".split()
THREE = "select fshl fshr".split()

# How the values of an item are named. The names of one item are all different.
NAMES = [lambda i: f"%{i}", lambda i: f"%v{i}", lambda i: f"%{i + 7}", lambda i: f"%{i ^ 1}", lambda i: f"%x.{i}_{i}"]


class Graph:
    """An item without names, of which every statement is needed. A number has its statements, and no other number."""

    def __init__(self, kind, seed, number):
        r = random.Random(f"{kind} {seed} {number}")
        # A statement has its words, of which an integer stands for the name of that value; a definition has its type too.
        self.statements, blocks, values = [], [], []

        def define(words, values):
            self.statements.append((r.choice(("", ":i1", ":i8", ":i32", ":i32", ":i64")), words))
            values.append(len(self.statements) - 1)

        def constant():
            return str(r.choice((0, 1, -1, 2, 7, 255, -128, r.getrandbits(31)))) + r.choice(("", ":i8", ":i32"))

        def operand():
            return r.choice(values) if r.random() < 0.7 else constant()

        def attribute():
            return r.choice(["", "", "", "", " (powerOfTwo)", " (nonZero) (hasExternalUses)", " (signBits=3)", " (range=[-4,9))",
                             " (knownBits=" + "".join(r.choice("01x") for _ in range(8)) + ")"])

        for _ in range(r.randrange(1, 3)):
            define([r.choice(("var", "var", "reservedconst")) + attribute()], values)
        for _ in range(r.randrange(1, 6)):
            word = r.choice(TWO * 2 + ONE + THREE)
            count = 1 if word in ONE else 3 if word in THREE else 2
            define([word, *(operand() for _ in range(count)), attribute()], values)
        conditions = []
        if r.random() < 0.2:
            count = r.randrange(1, 4)
            self.statements.append(("", [f"block {count}"]))
            blocks.append((len(self.statements) - 1, count))
            define(["phi", blocks[0][0], *(operand() for _ in range(count)), ""], values)
        for _ in range(r.choice((0, 0, 0, 1, 2))):
            block = r.choice(blocks) if blocks and r.random() < 0.4 else None
            words = ["blockpc", block[0], str(r.randrange(block[1]))] if block else ["pc"]
            conditions.append([*words, operand(), r.choice(("0", "1"))])
        # What the root needs has the number of the graph.
        define(["add", values[-1], f"{number}:i32", attribute()], values)
        root = values[-1]
        define(["xor", values[-1], operand(), ""], values)
        attributes = r.choice(("", "", "(harvestedFromUse)", "(demandedBits=" + "".join(r.choice("01") for _ in range(8)) + ")"))
        if kind == "lhs":
            self.ends = [["infer", root, attributes]]
        elif kind == "rhs":
            self.ends = [["result", root, ""]]
        elif r.random() < 0.5:
            self.ends = [["cand", root, operand(), attributes]]
        else:
            self.ends = [["infer", root, attributes], ["result", operand(), ""]]
        self.keep_needed(conditions)

    def keep_needed(self, conditions):
        """Drops the definitions that neither the ends nor the conditions reach, numbers the others anew, adds the conditions."""
        needed = {word for words in self.ends + conditions for word in words if isinstance(word, int)}
        for i in reversed(range(len(self.statements))):
            if i in needed:
                needed.update(word for word in self.statements[i][1] if isinstance(word, int))
        number = {old: new for new, old in enumerate(sorted(needed))}

        def moved(words):
            return [number[word] if isinstance(word, int) else word for word in words]

        self.statements = [(type, moved(words)) for i, (type, words) in enumerate(self.statements) if i in needed]
        self.ends = [moved(words) for words in self.ends]
        self.conditions = [moved(words) for words in conditions]


def spelled(words, name):
    """The line of a statement or of an end without its attributes, and its attributes."""
    shown = [name(word) if isinstance(word, int) else word for word in words]
    if len(shown) == 1:
        return shown[0], ""
    if shown[0] in ("pc", "blockpc"):
        return " ".join(shown), ""
    head, operands, attributes = shown[0], shown[1:-1], shown[-1]
    return f"{head} {(' ' if head in ('cand', 'infer', 'result') else ', ').join(operands)}", attributes.strip()


def written(graph, name, r):
    """The lines of the item in some order in which each name is defined before it is used, with statements that nothing needs."""
    lines, defined, conditions, ends = [], set(), list(graph.conditions), list(graph.ends)
    waiting = list(range(len(graph.statements)))
    in_order = r.random() < 0.5

    def is_ready(words):
        return all(word in defined for word in words if isinstance(word, int))

    while waiting or conditions or ends:
        ready = [i for i in waiting if is_ready(graph.statements[i][1])]
        if conditions and is_ready(conditions[0]) and (not ready or r.random() < 0.3):
            lines.append(spelled(conditions.pop(0), name))
        elif len(ends) == 2 and is_ready(ends[0]) and (not ready or r.random() < 0.3):
            lines.append(spelled(ends.pop(0), name))
        elif ready:
            i = ready[0] if in_order else r.choice(ready)
            type, words = graph.statements[i]
            line, attributes = spelled(words, name)
            lines.append((f"{name(i)}{type} = {line}", attributes))
            waiting.remove(i)
            defined.add(i)
        else:
            lines.append(spelled(ends.pop(0), name))
        if r.random() < 0.04 and (waiting or conditions or ends):
            lines.append((f"%unneeded{len(lines)} = add {name(r.choice(sorted(defined))) if defined else 1}, 1", ""))
    return lines


# What may be between two tokens. Some look like the end of an item.
GAPS = ["\n", "\n\n", "\r\n", " ; a comment\n", "\n; infer %0\n\n", "\n\n; result 1\n\n", "\n;\n", " \t\n", "\u2003\n"]


def laid_out(lines, r):
    """The text of the item: half of the items have one line for each statement, the others any layout."""
    if r.random() < 0.5:
        return "".join(f"{line} {attributes}".rstrip() + "\n" for line, attributes in lines) + "\n"
    text = ""
    for line, attributes in lines:
        text += line.replace(", ", r.choice((", ", ",", " , ", ",\n")))
        if attributes:
            text += r.choice(GAPS) if r.random() < 0.3 else " "
            text += attributes
        text += r.choice(GAPS)
    return text + r.choice(("", "\n", "; the end\n"))


def harvest(kind, folder, items, files, seed):
    folder.mkdir(parents=True, exist_ok=True)
    r = random.Random(f"harvest {kind} {seed}")
    graphs, seen = {}, set()
    with open(folder / "answers", "w") as answers:
        for number in range(files):
            with open(folder / f"{number:04}.{kind}", "w", encoding="utf-8", newline="") as file:
                for _ in range(items * number // files, items * (number + 1) // files):
                    # Few graphs are frequent, and many are rare.
                    chosen = int(max(1, items // 12) * r.random() ** 2)
                    named = r.choices(range(len(NAMES)), (60, 10, 10, 10, 10))[0] if r.random() < 0.3 else 0
                    if chosen not in graphs:
                        graphs[chosen] = Graph(kind, seed, chosen)
                    file.write(laid_out(written(graphs[chosen], NAMES[named], r), r))
                    answers.write(f"{chosen} {named}\n")
                    seen.add((chosen, named))
    print(f"{items} items, {len(seen)} graphs, {len({graph for graph, _ in seen})} up to names")


if __name__ == "__main__":
    words = sys.argv[1:]
    if not 2 <= len(words) <= 5 or words[0] not in ("lhs", "rhs", "rep"):
        print(__doc__, file=sys.stderr)
        sys.exit(2)
    numbers = [int(word) for word in words[2:]] + [100000, 100, 1][len(words) - 2:]
    harvest(words[0], pathlib.Path(words[1]), *numbers)
