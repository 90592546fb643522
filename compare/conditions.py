"""Has the crate, whose printer drops path conditions, print them too.

In an accepted text each condition is replaced by a value of its operands, and each item's root for a phi of the roots and
of those values. The crate prints that phi's uses in order. In what it prints the values are changed back to conditions and
the phi to the roots, and that is the text that is to be printed: the crate's own lines in the crate's own order.
"""
import re

import texts

HEADS = ("pc", "blockpc", "infer", "cand", "result")


def words(text):
    """The tokens of a text without its gaps."""
    return [t for t in texts.tokens(text) if not texts.is_gap(t)]


def has_conditions(text):
    return any(word in ("pc", "blockpc") for word in words(text))


def statements(text):
    """The words of each statement and each last line."""
    out, rest = [], words(text)
    for i, word in enumerate(rest):
        if word in HEADS or word[0] == "%" and rest[i + 1:i + 2] in (["="], [":"]):
            out.append([])
        out[-1].append(word)
    return out


def read_word(word):
    """A word as it is printed: the number of an integer or of a type's width is read."""
    if word.lstrip("-").isdecimal():
        return str(int(word))
    return f"i{int(word[1:])}" if re.fullmatch("i[0-9]+", word) else word


def operands(part):
    """The two operands that some words begin with, or the one that they are, as they are printed; and the other words."""
    found, i = [], 0
    while len(found) < 2 and i < len(part) and part[i] not in ("(", ")"):
        end = i + (3 if part[i + 1:i + 2] == [":"] else 1)
        found.append("".join(map(read_word, part[i:end])))
        i = end + (part[end:end + 1] == [","])
    return found, part[i:]


class Disguise:
    """A text whose path conditions are values, and how to take that back in what is printed of it."""

    def __init__(self, kind, text):
        self.kind, self.lines, self.shown = kind, [], []
        self.values, self.inferred = [], None
        for part in statements(text):
            self.take(part)
        self.text = "\n".join(self.lines)

    def keep(self, show):
        """Remembers how a new value is shown."""
        self.shown.append(show)
        return f"%zz.{len(self.shown) - 1}"

    def condition(self, predecessor, block, rest):
        (x, y), _ = operands(rest)
        word, prefix = ("blockpc", f"{block} {predecessor} ") if block else ("pc", "")
        name = self.keep(f"{word} {prefix}{x} {y}")
        self.lines.append(f"{name} = " + (f"select {block}, {x}, {y}" if block else f"eq {x}, {y}"))
        self.values.append(name)

    def root(self, roots, show):
        """The phi of the roots and the conditions."""
        uses = roots + self.values
        block, phi = self.keep(None), self.keep(show)
        self.lines += [f"{block} = block {len(uses)}", f"{phi} = phi " + ", ".join([block] + uses)]
        self.values = []
        return phi

    def take(self, part):
        head, rest = part[0], part[1:]
        if head == "pc":
            self.condition(None, None, rest)
        elif head == "blockpc":
            self.condition(int(rest[1]), rest[0], rest[2:])
        elif head == "infer" and self.kind == "rep":
            self.inferred = rest
        elif head == "infer":
            self.lines.append(f"infer {self.root(rest[:1], f'infer {rest[0]}')} " + " ".join(rest[1:]))
        elif head == "cand":
            roots, attributes = operands(rest)
            self.lines.append(f"infer {self.root(roots, f'cand {roots[0]} {roots[1]}')} " + " ".join(attributes))
            self.lines.append("result 0")
        elif head == "result" and self.kind == "rep":
            name, *attributes = self.inferred
            self.lines.append(f"infer {self.root([name], f'infer {name}')} " + " ".join(attributes))
            self.lines.append(" ".join(part))
        elif head == "result":
            roots, _ = operands(rest)
            self.lines.append(f"result {self.root(roots, f'result {roots[0]}')}")
        else:
            self.lines.append(" ".join(part))

    def undo(self, printed):
        """What is printed of the text, with the conditions again."""
        out, was_cand = [], False
        for line in printed.split("\n"):
            value = re.match(r"%zz\.([0-9]+) = ", line)
            last = re.match(r"(?:infer|result) %zz\.([0-9]+)", line)
            if value:
                show = self.shown[int(value[1])]
                line = show if show and show.startswith(("pc ", "blockpc ")) else None
            elif was_cand:
                line = None
            was_cand = False
            if last:
                line = self.shown[int(last[1])] + line[last.end():]
                was_cand = line.startswith("cand ")
            if line is not None:
                out.append(line)
        return "\n".join(out)
