#!/usr/bin/env python3
"""Makes large Souper IR texts of a kind, valid and with every form of the grammar, from a seed.

    large.py KIND ITEMS STATEMENTS [SEED]      KIND: lhs, rhs, rep

Each item has about STATEMENTS statements, needed ones and others, path conditions among them.
"""
import random
import sys

TWO = """add addnsw addnuw addnw sub subnsw subnuw subnw mul mulnsw mulnuw mulnw udiv sdiv udivexact sdivexact urem srem
and or xor shl shlnsw shlnuw shlnw lshr lshrexact ashr ashrexact eq ne ult slt ule sle sadd.with.overflow
uadd.with.overflow ssub.with.overflow usub.with.overflow smul.with.overflow umul.with.overflow sadd.sat uadd.sat
ssub.sat usub.sat extractvalue""".split()
ONE = "zext sext trunc ctpop bswap bitreverse cttz ctlz freeze".split()
THREE = "select fshl fshr".split()


def generate(kind, items, statements, seed=1):
    r = random.Random(seed)
    out = []
    width = lambda: r.choice((1, 8, 16, 32, 32, 32, 64, 128))

    def constant():
        c = str(r.choice((0, 1, -1, 2, 3, 7, 255, -128, 65535, 2147483647, -2147483648, r.getrandbits(63))))
        return c + (f":i{width()}" if r.random() < 0.6 else "")

    for _ in range(items):
        values, blocks, lines = [], [], []

        def operand():
            if values and r.random() < 0.75:
                return r.choice(values[-12:])
            return constant()

        def attributes():
            k = r.random()
            if k < 0.8:
                return ""
            w = r.choice((1, 8, 16, 32))
            return " " + r.choice((
                "(knownBits=" + "".join(r.choice("01x") for _ in range(w)) + ")", "(powerOfTwo)", "(negative)",
                "(nonNegative)", "(nonZero)", "(hasExternalUses)", f"(signBits={r.randrange(1, 32)})",
                f"(range=[{r.randrange(-50, 0)},{r.randrange(0, 50)}))"))

        for i in range(statements):
            name = f"%{i}" if r.random() < 0.8 else f"%v{i}.x_{i}"
            typed = name + (f":i{width()}" if r.random() < 0.7 else "")
            k = r.random()
            if i == 0 or k < 0.12:
                lines.append(f"{typed} = {r.choice(('var', 'var', 'var', 'var', 'reservedconst', 'reservedinst'))}{attributes()}")
                values.append(name)
            elif k < 0.15:
                n = r.randrange(1, 4)
                lines.append(f"{name} = block {n}")
                blocks.append((name, n))
            elif k < 0.20 and blocks:
                b, n = r.choice(blocks)
                lines.append(f"{typed} = phi {b}" + "".join(", " + operand() for _ in range(n)) + attributes())
                values.append(name)
            elif k < 0.27:
                lines.append(f"pc {operand()} {operand()}")
            elif k < 0.29 and blocks:
                b, n = r.choice(blocks)
                lines.append(f"blockpc {b} {r.randrange(n)} {operand()} {operand()}")
            else:
                w = r.choice(TWO * 4 + ONE * 3 + THREE * 2)
                n = 1 if w in ONE else 3 if w in THREE else 2
                lines.append(f"{typed} = {w} " + ", ".join(operand() for _ in range(n)) + attributes())
                values.append(name)
        root = r.choice(("", "", " (harvestedFromUse)", " (demandedBits=" + "".join(r.choice("01") for _ in range(32)) + ")"))
        last = values[-1]
        if kind == "lhs":
            lines.append(f"infer {last}{root}")
        elif kind == "rhs":
            lines.append(f"result {operand()}")
        elif r.random() < 0.5:
            lines.append(f"cand {last} {operand()}{root}")
        else:
            lines += [f"infer {last}{root}", f"%r = add {operand()}, {constant()}", "result %r"]
        out.append("\n".join(lines) + "\n")
    return "\n".join(out)


if __name__ == "__main__":
    kind, items, statements = sys.argv[1], int(sys.argv[2]), int(sys.argv[3])
    sys.stdout.write(generate(kind, items, statements, int(sys.argv[4]) if len(sys.argv) > 4 else 1))
