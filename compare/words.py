#!/usr/bin/env python3
"""Makes the text of large.py with names that are two or three words, without digits: %1 becomes %sum_tmp.

    words.py KIND ITEMS STATEMENTS [SEED]      the arguments of large.py
"""
import re
import sys

from large import generate

WORDS = "arg tmp foo bar left right sum val ptr len idx size base off cmp cond res out acc key".split()


def name(found):
    """The name of a number, in which the digits of 7 times the number, in base 20, are words. No two numbers have the same."""
    number = int(re.search(r"\d+", found[0])[0])
    rest, words = 7 * number, []
    while rest or not words:
        rest, digit = divmod(rest, len(WORDS))
        words.append(WORDS[digit])
    words.append(WORDS[number % len(WORDS)])
    return "%" + "_".join(words)


if __name__ == "__main__":
    kind, *numbers = sys.argv[1:]
    sys.stdout.write(re.sub(r"%(v\d+\.x_\d+|\d+)", name, generate(kind, *map(int, numbers))))
