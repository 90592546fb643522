#!/usr/bin/env python3
"""Texts of Souper IR, sound and damaged, from a seed.

    texts.py COUNT [SEED]      prints how many texts there are of each kind and family

`all_texts(count, seed)` returns COUNT different texts for each kind. The same arguments give the same texts.
"""
import collections
import random
import re
import sys

KINDS = ("lhs", "rhs", "rep")

# A text, its kind, and the family of the generator that it comes from.
Text = collections.namedtuple("Text", "kind family text")

ONE = "zext sext trunc ctpop bswap bitreverse cttz ctlz freeze".split()
TWO = """add addnsw addnuw addnw sub subnsw subnuw subnw mul mulnsw mulnuw mulnw udiv sdiv udivexact sdivexact urem srem
and or xor shl shlnsw shlnuw shlnw lshr lshrexact ashr ashrexact eq ne ult slt ule sle sadd.with.overflow
uadd.with.overflow ssub.with.overflow usub.with.overflow smul.with.overflow umul.with.overflow sadd.sat uadd.sat
ssub.sat usub.sat extractvalue""".split()
THREE = "select fshl fshr".split()
COUNTS = {"hole": 0, **dict.fromkeys(ONE, 1), **dict.fromkeys(TWO, 2), **dict.fromkeys(THREE, 3)}
WORDS = sorted(COUNTS)

# The characters that are white space, and some that look like it and are not.
SPACES = [chr(c) for c in (*range(9, 14), 0x20, 0x85, 0xA0, 0x1680, *range(0x2000, 0x200B), 0x2028, 0x2029, 0x202F,
                           0x205F, 0x3000)]
NO_SPACES = [chr(c) for c in (0, 8, 0xE, 0x1C, 0x1D, 0x1E, 0x1F, 0x7F, 0x80, 0x84, 0x86, 0xAD, 0x180E, 0x200B, 0x200C,
                              0x200D, 0x200E, 0x2060, 0x2427, 0x2800, 0x3164, 0xFEFF, 0xFFFD, 0x1F600, 0x10FFFF)]
LETTERS = ["é", "ß", "日", "本", "Ω", "ı", "𝟙", "٣", "\u0301", "\u00b2"]

LEAST, MOST = -(1 << 127), (1 << 127) - 1
NUMBERS = [str(n) for n in (0, 1, -1, 2, 3, 7, 8, 255, 256, -128, 65535, 65536, (1 << 31) - 1, -(1 << 31),
                            (1 << 32) - 1, 1 << 32, (1 << 63) - 1, 1 << 64, MOST, LEAST)]
ODD_NUMBERS = ["-0", "00", "-00", "007", "-007", "0" * 40, "0" * 50 + "9", "-" + "0" * 60 + "1", "0" + str(MOST),
               "-0" + str(-LEAST)]
BAD_NUMBERS = ["-", str(MOST + 1), str(LEAST - 1), "9" * 60, "-" + "9" * 60, "1_000", "0x10", "+1", "1.5", "--1", "1e5"]
TYPES = ["i1", "i2", "i8", "i16", "i32", "i32", "i64", "i128", "i65535", "i008", "i0000065535"]
BAD_TYPES = ["i0", "i00", "i", "i65536", "i99999999999999999999", "i-1", "i8x", "i1_0", "I8", "u8", "8", "%i8", "i1.0",
             "int", "(", ""]
ATTRIBUTES = ["(powerOfTwo)", "(negative)", "(nonNegative)", "(nonZero)", "(hasExternalUses)", "(signBits=0)",
              "(signBits=1)", "(signBits=255)", "(signBits=-0)", "(signBits=007)", "(knownBits=0)", "(knownBits=1)",
              "(knownBits=x)", "(knownBits=01x01x01x)", "(knownBits=" + "x" * 64 + "01)", "(range=[0,1))",
              "(range=[-1,0))", "(range=[5,-5))", f"(range=[{LEAST},{MOST}))", "(range=[-0,007))"]
BAD_ATTRIBUTES = ["(signBits=256)", "(signBits=-1)", "(signBits=-)", "(signBits)", "(signBits=)", "(signBits=%x)",
                  f"(signBits={MOST + 1})", "(knownBits)", "(knownBits=)", "(knownBits =01)", "(knownBits= 01)",
                  "(knownBits=2)", "(knownBits=01y)", "(knownBits=01 x)", "(knownBitsX=01)", "(knownbits=01)",
                  "(range=[0,1])", "(range=[0,1)", "(range=(0,1))", "(range=[0 1))", "(range=[0,1,2))", "(range=[,1))",
                  f"(range=[0,{MOST + 1}))", f"(range=[{LEAST - 1},0))", "(range)", "()", "(,)", "(1)", "(%x)", "(nonzero)",
                  "(powerOfTwo", "powerOfTwo", "(powerOfTwo))", "((powerOfTwo))", "(powerOfTwo,negative)",
                  "(demandedBits=01)", "(harvestedFromUse)", "(", ")", "(powerOfTwo=1)", "(knownBits", "(knownBits="]
ROOT_ATTRIBUTES = ["(harvestedFromUse)", "(demandedBits=0)", "(demandedBits=1)", "(demandedBits=0101)",
                   "(demandedBits=" + "10" * 100 + ")"]
BAD_ROOT_ATTRIBUTES = ["(demandedBits=)", "(demandedBits=2)", "(demandedBits=-1)", "(demandedBits=-)",
                       "(demandedBits=01x)", "(demandedBits=x)", "(demandedBits=01 01)", "(demandedBits)",
                       "(demandedBits 01)", "(demandedBits=012)", "(harvestedfromuse)", "(harvestedFromUse",
                       "(harvestedFromUse))", "(powerOfTwo)", "(knownBits=01)", "()", "(", "(1)", "((harvestedFromUse))",
                       "(harvestedFromUse=1)", "(demandedBits=01", "(demandedBits=%x)", "(knownBits", "(knownBits=)"]
NAMES = ["%0", "%1", "%2", "%9", "%10", "%x", "%X", "%y", "%foo", "%foo.bar_1", "%knownBits", "%infer", "%result", "%var",
         "%.", "%_", "%0x", "%i8", "%a.b.c", "%x_", "%" + "n" * 40]
COMMENTS = ["; a comment\n", ";\n", ";;; %0 = var\n", "; é 日本 \u200b\ufeff\u3000\n", ";\r\n", "; \" ] # $ @\n",
            ";\u0085%q\n", ";\x0b;\n"]

TOKEN = re.compile(r"knownBits=[01x]+|%[0-9A-Za-z_.]+|[A-Za-z][0-9A-Za-z_.]*|-?[0-9]+|;[^\n]*|[\s]+|.", re.S | re.A)


def tokens(text):
    """The tokens of a text, with its gaps and what is no token between them."""
    return TOKEN.findall(text)


def is_gap(token):
    return token.isspace() or token.startswith(";")


def sticks(left, right):
    """Whether two tokens need a gap between them."""
    if left.startswith("knownBits="):
        return right[0] in "01x"
    if left[0] in "-0123456789":
        return right[0].isdigit()
    return left[0] in "%_." or left[0].isalpha() and (right[0].isalnum() or right[0] in "_.")


class Maker:
    """Makes items that the grammar allows."""

    def __init__(self, random_numbers):
        self.r = random_numbers

    def chance(self, p):
        return self.r.random() < p

    def number(self):
        k = self.r.random()
        if k < 0.5:
            return str(self.r.randrange(-9, 10))
        if k < 0.8:
            return self.r.choice(NUMBERS)
        return self.r.choice(ODD_NUMBERS) if k < 0.9 else str(self.r.randrange(LEAST, MOST + 1))

    def typed(self, p):
        return [":", self.r.choice(TYPES)] if self.chance(p) else []

    def constant(self):
        return [self.number()] + self.typed(0.4)

    def operand(self):
        if self.values and self.chance(0.7):
            return [self.r.choice(self.values[-6:])]
        return self.constant()

    def name(self):
        for _ in range(5):
            name = self.r.choice(NAMES) if self.chance(0.7) else f"%{self.r.randrange(1000)}"
            if name not in self.values:
                return name
        return f"%v{len(self.values)}"

    def attributes(self):
        count = self.r.choice((0, 0, 0, 0, 0, 1, 1, 2, 3))
        return [t for _ in range(count) for t in tokens(self.r.choice(ATTRIBUTES))]

    def root_attributes(self):
        count = self.r.choice((0, 0, 0, 1, 1, 2))
        return [t for _ in range(count) for t in tokens(self.r.choice(ROOT_ATTRIBUTES))]

    def block(self, name):
        count = self.r.choice((0, 1, 1, 2, 2, 3))
        self.blocks.append((name, count))
        return ["block", self.r.choice((str(count), str(count), f"0{count}"))]

    def phi(self):
        block, count = self.r.choice(self.blocks)
        return ["phi", block] + [t for _ in range(count) for t in [","] + self.operand()]

    def instruction(self):
        word = self.r.choice(WORDS)
        out = [word]
        for i in range(COUNTS[word]):
            out += ([","] if i else []) + self.operand()
        return out

    def assignment(self):
        name = self.name()
        k = self.r.random()
        if k < 0.2 or not self.values and k < 0.6:
            rhs = [self.r.choice(("var", "var", "reservedconst", "reservedinst"))]
        elif k < 0.3:
            rhs = self.block(name)
        elif k < 0.45 and self.blocks:
            rhs = self.phi()
        else:
            rhs = self.instruction()
        out = [name] + self.typed(0.5) + ["="] + rhs + self.attributes()
        self.values.append(name)
        return out

    def condition(self):
        blocks = [(block, count) for block, count in self.blocks if count]
        if blocks and self.chance(0.5):
            block, count = self.r.choice(blocks)
            return ["blockpc", block, str(self.r.randrange(count))] + self.operand() + self.operand()
        return ["pc"] + self.operand() + self.operand()

    def statements(self, count):
        return [self.condition() if self.conditions and self.chance(0.3) else self.assignment() for _ in range(count)]

    def item(self, kind):
        """The statements and last lines of an item, each a list of tokens."""
        self.values, self.blocks, self.conditions = [], [], self.chance(0.25)
        out = self.statements(self.r.choice((0, 1, 1, 2, 2, 3, 4, 6)))
        if kind == "rhs":
            return out + [["result"] + self.operand()]
        if kind == "rep" and self.chance(0.5):
            comma = [","] if self.chance(0.1) else []
            return out + [["cand"] + self.operand() + comma + self.operand() + self.root_attributes()]
        if not self.values:
            out.append(self.assignment())
        out.append(["infer", self.r.choice(self.values[-3:])] + self.root_attributes())
        if kind == "rep":
            out += self.statements(self.r.choice((0, 0, 1, 2))) + [["result"] + self.operand()]
        return out

    def gap(self):
        k = self.r.random()
        if k < 0.6:
            return " "
        if k < 0.8:
            return "".join(self.r.choice(SPACES) for _ in range(self.r.choice((1, 1, 2, 4))))
        return self.r.choice(("\n", "\r\n", "\t", "  ")) if k < 0.93 else self.r.choice(COMMENTS)

    def plain(self, lines):
        """The lines, with spaces where people write them."""
        out = []
        for line in lines:
            text = " ".join(line)
            text = re.sub(r" (?=[,:)])|(?<=[:(\[]) ", "", text)
            out.append(re.sub(r"(Bits|range) = (?=[-0-9\[])", r"\1=", text).replace("[ ", "[") + "\n")
        return "".join(out)

    def wild(self, lines):
        """The tokens with any gaps between them, or none if none is needed."""
        out, before = [self.gap() if self.chance(0.3) else ""], None
        for token in (t for line in lines for t in line):
            if before is not None and (sticks(before, token) or self.chance(0.5)):
                out.append(self.gap())
            out.append(token)
            before = token
        return "".join(out) + (self.gap() if self.chance(0.5) else "")

    def text(self, kind, items):
        """A sound text."""
        style = self.r.choice((self.plain, self.plain, self.wild))
        text = self.r.choice(("\n", "\n\n", " ")).join(style(self.item(kind)) for _ in range(items))
        return text.replace("\n", "\r\n") if self.chance(0.05) else text


PUNCTUATION = [",", "=", ":", "(", ")", "[", "]", "%", ";", "-", "+", "\"", "'", "#", "@", "/", "\\", "{", "|", "_", ".",
               "0", "1", "x", "a", "i", "Z", "9", "\n", "\r", " "]


def damage_character(r, text):
    """One character dropped, doubled, replaced by another, or another put before it."""
    if not text:
        return r.choice(PUNCTUATION)
    i = r.randrange(len(text))
    other = r.choice(PUNCTUATION) if r.random() < 0.8 else r.choice(SPACES + NO_SPACES + LETTERS)
    return text[:i] + r.choice(("", text[i] * 2, other, other, other + text[i])) + text[i + 1:]


def swap_characters(r, text):
    if len(text) < 2:
        return text
    i = r.randrange(len(text) - 1)
    return text[:i] + text[i + 1] + text[i] + text[i + 2:]


def damage_token(r, text):
    """One token dropped, doubled, replaced by another of the text or of the language, or swapped with another."""
    parts = tokens(text)
    places = [i for i, t in enumerate(parts) if not is_gap(t)]
    if not places:
        return text + r.choice(WORDS)
    i, j = r.choice(places), r.choice(places)
    damage = r.randrange(5)
    if damage == 0:
        parts[i] = ""
    elif damage == 1:
        parts[i] += " " + parts[i]
    elif damage == 2:
        parts[i] = parts[j]
    elif damage == 3:
        parts[i], parts[j] = parts[j], parts[i]
    else:
        parts[i] = r.choice(WORDS + PUNCTUATION + NAMES + ["var", "block", "phi", "pc", "blockpc", "infer", "cand",
                                                           "result", "reservedinst", "knownBits", "knownBits=01x"])
    return "".join(parts)


def replace_some(r, text, is_one, others):
    """One token of a sort replaced by another spelling, if the text has one."""
    parts = tokens(text)
    places = [i for i, t in enumerate(parts) if is_one(t)]
    if not places:
        return None
    parts[r.choice(places)] = r.choice(others(parts))
    return "".join(parts)


def damage_number(r, text):
    numbers = NUMBERS + ODD_NUMBERS + BAD_NUMBERS
    return replace_some(r, text, lambda t: t.lstrip("-").isdecimal(), lambda _: numbers)


def damage_type(r, text):
    return replace_some(r, text, lambda t: re.fullmatch("i[0-9]+", t), lambda _: TYPES + BAD_TYPES)


def damage_name(r, text):
    """A name replaced by another of the text, which may define it twice, or by one that is not defined."""
    return replace_some(r, text, lambda t: len(t) > 1 and t[0] == "%",
                        lambda parts: [t for t in parts if t[0] == "%"] + ["%nope", "%", "%é", "%日", "% x", "%%x"])


def damage_attribute(r, text):
    """An attribute of some sort, sound or not, put after a line."""
    lines = text.split("\n")
    i = r.randrange(len(lines))
    lines[i] += " " + r.choice(r.choice((ATTRIBUTES, BAD_ATTRIBUTES, ROOT_ATTRIBUTES, BAD_ROOT_ATTRIBUTES)))
    return "\n".join(lines)


def damage_line(r, text):
    """A line dropped, doubled, or moved to another place."""
    lines = text.split("\n")
    i, j = r.randrange(len(lines)), r.randrange(len(lines))
    line = lines.pop(i)
    damage = r.randrange(3)
    if damage > 0:
        lines.insert(min(i if damage == 1 else j, len(lines)), line)
    if damage == 1:
        lines.insert(min(j, len(lines)), line)
    return "\n".join(lines)


def put_unicode(r, text):
    """White space or what looks like it put in, mostly between tokens."""
    parts = tokens(text)
    parts.insert(r.randrange(len(parts) + 1), r.choice(SPACES + NO_SPACES + LETTERS))
    return "".join(parts)


def cut(r, text):
    end = r.randrange(len(text) + 1)
    return text[:end] if r.random() < 0.8 else text[end:]


def damage_predecessor(r, text):
    """A `blockpc` whose number may be none of its block's predecessors, put after some line."""
    blocks = re.findall(r"(%[0-9A-Za-z_.]+) *= *block ([0-9]+)", text)
    if not blocks:
        return None
    name, count = r.choice(blocks)
    predecessor = r.choice((int(count), int(count) - 1, int(count) + 1, 0, 4294967295, 4294967296, -1))
    lines = text.split("\n")
    lines.insert(r.randrange(1, len(lines) + 1), f"blockpc {name} {predecessor} 0 1")
    return "\n".join(lines)


def soup(r):
    """Tokens, and what is none, in any order."""
    words = ["var", "block", "phi", "pc", "blockpc", "infer", "cand", "result", "add", "hole", "%0", "%0", "%0", "%1", "%1",
             "0", "1", "2", "-1", ":i8", ":i8", "=", "=", "=", ",", ",", "(", ")", "[", "(powerOfTwo)", "knownBits=01",
             "(harvestedFromUse)", "%0 = var", "%1 = block 2", "%2 = phi %1, 0, 1", "infer %0", "result %0", "cand 0 1"]
    parts = r.choices(words, k=r.randrange(1, 12))
    if r.random() < 0.2:
        parts.insert(r.randrange(len(parts)), r.choice(PUNCTUATION + NO_SPACES + LETTERS))
    return "".join(part + r.choice((" ", " ", " ", "\n", "", r.choice(SPACES))) for part in parts)


DAMAGES = {
    "character": (damage_character, 6), "swap": (swap_characters, 1), "token": (damage_token, 6), "cut": (cut, 3),
    "number": (damage_number, 3), "type": (damage_type, 2), "name": (damage_name, 3), "line": (damage_line, 2),
    "attribute": (damage_attribute, 2), "unicode": (put_unicode, 2), "predecessor": (damage_predecessor, 6),
}


def last_lines(kind, value):
    """The shortest end of an item of a kind whose root is the value."""
    if kind == "lhs":
        return [f"infer {value}"]
    return [f"result {value}"] if kind == "rhs" else [f"cand {value} 0", f"infer {value}\nresult 1"]


def each_form(kind):
    """Every form of the grammar by itself, with its near misses: bodies that define %r, and whole texts."""
    for body in bodies():
        for end in last_lines(kind, "%r"):
            yield f"{body}\n{end}\n"
    for text in wholes(kind):
        yield text


def bodies():
    for word in WORDS + ["var", "reservedinst", "reservedconst", "Add", "addd", "ad", "sadd", "sadd.with", "sadd.sat.",
                         "knownBits", "knownBits=0", "infer", "result", "cand", "pc", "blockpc", "block", "phi", "1", "%x"]:
        for count in range(5):
            operands = ["%x", "-5:i8", "7", "%x"][:count]
            yield f"%x = var\n%r:i8 = {word} " + ", ".join(operands)
            yield f"%x = var\n%r = {word} " + " ".join(operands)
    for attribute in ATTRIBUTES + BAD_ATTRIBUTES + ROOT_ATTRIBUTES:
        for rhs in ("var", "block 2", "hole", "add 1, 2", "reservedconst"):
            yield f"%r = {rhs} {attribute}"
    for number in NUMBERS + ODD_NUMBERS + BAD_NUMBERS:
        yield f"%r = add {number}, {number}:i8"
        yield f"%r = block {number}"
        yield f"%b = block 2\n%r = phi %b, {number}, {number}:i1"
        yield f"%b = block 3\nblockpc %b {number} 0 1\n%r = var"
        yield f"%r = var\npc {number} {number}"
    for spelling in TYPES + BAD_TYPES:
        yield f"%r:{spelling} = var"
        yield f"%r = freeze 1:{spelling}"
        yield f"%r : {spelling}=freeze 1 : {spelling}"
    for predecessors in range(4):
        for values in range(4):
            yield f"%b = block {predecessors}\n%r = phi %b" + "".join(f", {i}" for i in range(values))
            yield f"%b = block {predecessors}\nblockpc %b {values} %b 1\n%r = var"
    for name in NAMES + ["%", "%é", "x", "1", "%%", "%-1", "% x"]:
        yield f"{name} = var\n%r = freeze {name}"
        yield f"{name} = block 1\n%r = phi {name}, 1"
        yield f"{name} = var\n{name} = var\n%r = var"
    yield "%r = var\n%r = var"
    yield "%x = var\n%r = phi %x, 1"
    yield "%r = phi %r"
    yield "%r = add %r, 1"
    yield "%b = block 1\n%r = add %b, %b\npc %b %b\nblockpc %b 0 %b %b"


def wholes(kind):
    ends = last_lines(kind, "%r")
    for text in ("", " ", "\n", "\r\n", ";", "; c", "; c\n", ";\n;", "\t\r\n", "infer", "result", "cand", "%", "-", "pc",
                 "blockpc", "%x", "%x =", "%x = var", "=", "(", ")", "[", "]", ":", ",", "1", "infer %x", "result %x",
                 "cand %x 1", "cand 1 %x", "knownBits", "knownBits=", "knownBits=0", "knownBits\n", "knownBits\r", "knownBits=é",
                 "knownBits\u00e9", "result 1", "result 1\nresult 2", "result 1result 2", "cand 1 2cand 3 4", "cand 1 2",
                 "cand 1,2", "cand 1 , 2", "cand 1,,2", "cand ,1 2", "cand 1 2,", "cand 1,", "cand 1, ", "cand 1,;c", "cand 1",
                 "cand 1 ", "cand 1-2", "cand 1:i8,2:i8", "cand 1:i8 2:i8", "cand 1:,2", "result -", "result", "result ;",
                 "result 1:i8 (harvestedFromUse)", "cand 1, 2 (harvestedFromUse)", "cand 1, 2, 3"):
        yield text
    for end in ends:
        yield from odd_characters(end)
        yield from odd_lines(end)
        for attribute in ROOT_ATTRIBUTES + BAD_ROOT_ATTRIBUTES + ATTRIBUTES:
            yield f"%r = var\n{end} {attribute}"
            yield f"%r = var\n{end} {attribute}{attribute}\n{attribute}"
        yield f"%r = var\n{end}\n" * 3
        yield f"%r = var\n{end}\n{end}\n"
        yield f"%r = var\n{end} %r = var {end}"
        yield f"infer 1\n{end}"
        yield f"%r = var\ninfer %r\ninfer %r\n{end}"


def odd_characters(end):
    for c in SPACES + NO_SPACES + LETTERS:
        yield f"%r = var\n{end}".replace(" ", c)
        yield f"{c}%r = var\n{end}"
        yield f"%r = var\n{end}{c}"
        yield f"%r = var ;{c}\n{end}"
        yield f"%r{c} = var\n{end}"
        yield f"%r = knownBits{c}\n{end}"


def odd_lines(end):
    """Lines of each sort of end, with a fault at the start, in the middle and at the end."""
    for line_end in ("\n", "\r\n", "\r", "\n\n", "\r\r\n", "\n\r"):
        for fault in ("]", "%x = varr", "%r = var", "infer %zz", "result %zz", "%", "1", "é", ""):
            yield line_end.join(("%r = var", fault, end, ""))
            yield line_end.join((fault, "%r = var", end))
            yield line_end.join(("%r = var", end, fault))
            yield line_end.join(("%r = var", "é日 " + fault, end))


def long_forms(kind):
    """Long names, numbers, lists and lines."""
    for end in last_lines(kind, "%r"):
        name = "%" + "long." * 2000
        yield f"{name} = var\n%r = freeze {name}\n{end}"
        yield "%r = add 1, " + "0" * 5000 + f"7\n{end}"
        yield "%r = add 1, " + "7" * 5000 + f"\n{end}"
        yield "%r = var (knownBits=" + "01x" * 3000 + f")\n{end}"
        yield "%r = var" + " (powerOfTwo)" * 500 + f"\n{end}"
        yield "%r = block 2000\n%s = phi %r" + ", %r" * 2000 + f"\n{end}"
        yield "%0 = var\n" + "".join(f"%{i} = add %{i - 1}, %{i - 1}\n" for i in range(1, 400)) + f"%r = freeze %399\n{end}"
        yield f"%r = var\n{end}\n" * 300
        yield "\n" * 12000 + f"%r = var ]\n{end}"
        for shift in range(4):
            yield "%r = var ;" + "x" * shift + "é日😀" * 15000 + f"\n{end}"
            yield "%r = var " + "x" * shift + "\u3000\u0085" * 25000 + f"\n{end}"
            yield "%r = var " + "\u3000\u0085" * 20 * shift + f"\n{end} é" + "日" * 30000
        for spaces in (65520, 65525, 65526, 65527, 65528, 65529, 65535, 65536, 70000):
            yield f"%r = var{' ' * spaces}]\n{end}"
            yield f"%r = var{' ' * spaces}\n]\n{end}"


def damaged(r, maker, kind):
    """A sound text with one damage, or two."""
    text = maker.text(kind, r.choice((1, 1, 1, 2)))
    names = list(DAMAGES)
    family = r.choices(names, [DAMAGES[n][1] for n in names])[0]
    text = DAMAGES[family][0](r, text)
    if text is not None and r.random() < 0.15:
        family = "two damages"
        text = damage_character(r, text)
    return family, text


def texts_of(kind, count, seed):
    r = random.Random(f"{kind} {seed}")
    maker = Maker(r)
    seen = set()

    def fresh(family, text):
        if text is None or text in seen:
            return False
        seen.add(text)
        return True

    for family, forms in (("form", each_form(kind)), ("long", long_forms(kind))):
        yield from (Text(kind, family, t) for t in forms if fresh(family, t))
    while len(seen) < count:
        k = r.random()
        if k < 0.35:
            family, text = "sound", maker.text(kind, r.choice((1, 1, 1, 1, 2, 3, 5)))
        elif k < 0.42:
            family, text = "soup", soup(r)
        else:
            family, text = damaged(r, maker, kind)
        if fresh(family, text):
            yield Text(kind, family, text)


def all_texts(count, seed=1):
    """`count` different texts for each kind."""
    return [text for kind in KINDS for text in texts_of(kind, count, seed)]


def main():
    count = int(sys.argv[1])
    seed = int(sys.argv[2]) if len(sys.argv) > 2 else 1
    for (kind, family), n in sorted(collections.Counter((t.kind, t.family) for t in all_texts(count, seed)).items()):
        print(f"{kind} {family}: {n}")


if __name__ == "__main__":
    main()
