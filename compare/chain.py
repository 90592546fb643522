#!/usr/bin/env python3
"""One left-hand side whose every statement the root needs, without path conditions.

    chain.py STATEMENTS [SEED [PREFIX [SUFFIX]]]

The ported crate's printer writes what is reachable from the roots, and no path condition: of this item it writes
everything, as the program does. Each name is `%`, PREFIX, the statement's number and SUFFIX.
"""
import random
import sys

WORDS = "add addnsw sub mul udiv sdiv and or xor shl lshr ashr eq ne ult slt ule sle".split()


def chain(count, seed=1, prefix="", suffix=""):
    """The lines of the item."""
    r = random.Random(seed)

    def name(k):
        return f"%{prefix}{k}{suffix}"

    def other(k):
        if r.random() < 0.6:
            return name(r.randrange(max(0, k - 8), k))
        return r.choice(("-1", "0", "1", "255", "65535")) + r.choice(("", ":i32"))

    yield f"{name(0)}:i32 = var\n"
    for k in range(1, count):
        operands = [name(k - 1), other(k)]
        if r.random() >= 0.7:
            operands.reverse()
        yield f"{name(k)}{':i32' if r.random() < 0.7 else ''} = {r.choice(WORDS)} {', '.join(operands)}\n"
    yield f"infer {name(count - 1)}\n"


if __name__ == "__main__":
    words = sys.argv[1:] + ["1", "", ""][len(sys.argv) - 2:]
    sys.stdout.writelines(chain(int(words[0]), int(words[1]), words[2], words[3]))
