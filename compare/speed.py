#!/usr/bin/env python3
"""Measures the figures of docs/SPEED.md: whole processes, in turn, medians.

    speed.py DRIVER PROGRAM [ROUNDS]            the program beside the crate (5 rounds), and its instructions per byte
    speed.py --through-c EXAMPLE PROGRAM [ROUNDS]   the same library through C beside the program (5 rounds)
    speed.py --growth PROGRAM [ROUNDS]          how the program grows with its input (3 rounds)
    speed.py --instructions PROGRAM..           instructions per byte of each program, by valgrind's callgrind

DRIVER is the program of driver.rs, PROGRAM is souper_fmt, EXAMPLE is the program of embed/examples/format.c. Prints a table in Markdown.
"""
import os
import pathlib
import re
import statistics
import subprocess
import sys
import tempfile
import time

FOLDER = pathlib.Path(__file__).resolve().parent


def small(items):
    return ["large.py", "lhs", str(items), "12"]


def named(items):
    return ["words.py", "lhs", str(items), "12"]


def one_item(statements):
    return ["large.py", "lhs", "1", str(statements)]


def linked(statements, prefix="", suffix=""):
    return ["chain.py", str(statements), "1", prefix, suffix]


BESIDE = {
    "40,000 small items": small(40_000),
    "the same, names that are words": named(40_000),
    "one chain of 400,000": linked(400_000),
    "one item of 400,000 with path conditions": one_item(400_000),
}

LONG = "n" * 1_990

GROWTH = {
    "chain of 10^4": linked(10**4),
    "chain of 10^5": linked(10**5),
    "chain of 10^6": linked(10**6),
    "chain of 10^7": linked(10**7),
    "10^6 small items": small(10**6),
    "chain of 5,000, names of 2,000 bytes with one prefix": linked(5_000, prefix=LONG),
    "chain of 5,000, names of 2,000 bytes with one suffix": linked(5_000, suffix=LONG),
}

COUNTED = {
    "2,000 items of 12 statements": small(2_000),
    "800 items of 30 statements": ["large.py", "lhs", "800", "30"],
    "one chain of 20,000 statements": linked(20_000),
    "the first, names that are words": named(2_000),
    "one item of 20,000 with path conditions": one_item(20_000),
}


def run(words, path):
    """The seconds of one process that reads the file, and its largest resident size in megabytes."""
    with open(path, "rb") as text, open(os.devnull, "wb") as sink:
        begin = time.perf_counter()
        process = subprocess.Popen(words, stdin=text, stdout=sink)
        _, status, usage = os.wait4(process.pid, 0)
        seconds = time.perf_counter() - begin
    process.returncode = os.waitstatus_to_exitcode(status)
    if process.returncode != 0:
        sys.exit(f"{words[0]} ended with status {process.returncode}")
    return seconds, usage.ru_maxrss / 1024


def in_turn(commands, path, rounds):
    """Of each command the median of its seconds, and the largest of its sizes."""
    turns = [[run(words, path) for words in commands] for _ in range(rounds)]
    return [(statistics.median(s for s, _ in column), max(m for _, m in column)) for column in zip(*turns)]


def instructions(program, path):
    words = ["valgrind", "--tool=callgrind", "--callgrind-out-file=/dev/null", program, "lhs"]
    with open(path, "rb") as text:
        done = subprocess.run(words, stdin=text, stdout=subprocess.DEVNULL, stderr=subprocess.PIPE, check=True)
    return int(re.search(rb"Collected : (\d+)", done.stderr).group(1))


def texts(makers):
    """Each title with a file that has its text, and the text's number of bytes. Other processes make the texts: what this one
    holds would count as the size of those that it starts."""
    with tempfile.TemporaryDirectory() as folder:
        path = pathlib.Path(folder) / "text"
        for title, words in makers.items():
            with open(path, "wb") as text:
                subprocess.run([sys.executable, FOLDER / words[0], *words[1:]], stdout=text, check=True)
            yield title, path, path.stat().st_size


def beside(driver, program, rounds):
    print("| Text | MB | Program: s, MB | Crate: s, MB | Times the crate's speed | Times its memory |\n|---|---|---|---|---|---|")
    commands = [[program, "lhs"], [driver, "format", "lhs"]]
    for title, path, size in texts(BESIDE):
        (ours, our_size), (crate, crate_size) = in_turn(commands, path, rounds)
        print(f"| {title} | {size / 1e6:.1f} | {ours:.3f}, {our_size:.0f} | {crate:.3f}, {crate_size:.0f} "
              f"| {crate / ours:.2f} | {our_size / crate_size:.2f} |", flush=True)


def through_c(example, program, rounds):
    print("| Text | MB | Through C: s, MB | Program: s, MB | Through C, times the program's seconds |\n|---|---|---|---|---|")
    for title, path, size in texts(BESIDE):
        commands = [[example, "lhs", str(path)], [program, "lhs"]]
        (c, c_size), (ours, our_size) = in_turn(commands, path, rounds)
        print(f"| {title} | {size / 1e6:.1f} | {c:.3f}, {c_size:.0f} | {ours:.3f}, {our_size:.0f} | {c / ours:.2f} |", flush=True)


def growth(program, rounds):
    print("| Text | MB | Seconds | Nanoseconds a byte | Largest resident MB |\n|---|---|---|---|---|")
    for title, path, size in texts(GROWTH):
        [(seconds, resident)] = in_turn([[program, "lhs"]], path, rounds)
        print(f"| {title} | {size / 1e6:.1f} | {seconds:.3f} | {seconds / size * 1e9:.1f} | {resident:.0f} |", flush=True)


def counts(programs):
    print("| Text |" + "".join(f" {program} |" for program in programs) + "\n|---|" + "---|" * len(programs))
    for title, path, size in texts(COUNTED):
        print(f"| {title} |" + "".join(f" {instructions(p, path) / size:.1f} |" for p in programs), flush=True)


def main(words):
    match words:
        case ["--through-c", example, program, *rounds]:
            through_c(example, program, int(rounds[0]) if rounds else 5)
        case ["--growth", program, *rounds]:
            growth(program, int(rounds[0]) if rounds else 3)
        case ["--instructions", *programs] if programs:
            counts(programs)
        case [driver, program, *rounds]:
            beside(driver, program, int(rounds[0]) if rounds else 5)
            print()
            counts([program])
        case _:
            sys.exit(__doc__)


if __name__ == "__main__":
    main(sys.argv[1:])
