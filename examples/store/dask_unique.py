#!/usr/bin/env python3
"""Finds the distinct items of a harvest with Dask, and in how many items each is.

    dask_unique.py SCHEDULER [--rename] KIND FOLDER | load.py sqlite | sqlite3 -bail STORE

SCHEDULER is host:port. The workers, on any hosts, have FOLDER and `souper_items` (or what their $SOUPER_ITEMS names) in the same
places. Records are written in the order of their keys, each after its count, as `uniq -zc` writes them. A file that is refused is
reported, and the items before its bad one count; the status is then 1. It is 2 if a file was not read, which is named; then nothing is written.
"""
import os
import pathlib
import subprocess
import sys

from distributed import Client

DIGITS = "0123456789abcdef"


def counts_of(path, words):
    """How many items of a file have each record, by the first digit of the key; and why the file is refused, if it is."""
    command = [os.environ.get("SOUPER_ITEMS", "souper_items"), "format", "-z", "--key", *words, str(path)]
    found = subprocess.run(command, stdout=subprocess.PIPE, stderr=subprocess.PIPE, check=False)
    if found.returncode not in (0, 1):
        raise OSError(found.stderr.decode(errors="replace").strip())
    counts = {digit: {} for digit in DIGITS}
    for record in found.stdout.split(b"\0")[:-1]:
        own = counts[chr(record[2])]
        own[record] = own.get(record, 0) + 1
    return counts, found.stderr


def part_of(counted, digit):
    return counted[0][digit]


def error_of(counted):
    return counted[1]


def total(parts):
    """The records of these parts in order, each with the sum of its counts."""
    sums = {}
    for part in parts:
        for record, count in part.items():
            sums[record] = sums.get(record, 0) + count
    return b"".join(b"%7d %s\0" % (sums[record], record) for record in sorted(sums))


def main(scheduler, words, folder):
    paths = sorted(str(path) for path in pathlib.Path(folder).resolve().rglob(f"*.{words[-1]}") if path.is_file())
    if not paths:
        raise FileNotFoundError(f"{folder} has no file *.{words[-1]}")
    with Client(scheduler) as client:
        counted = client.map(counts_of, paths, words=words, pure=False)
        parts = [client.map(part_of, counted, digit=digit) for digit in DIGITS]
        errors = client.map(error_of, counted)
        faults = b"".join(client.gather(errors))
        for future in [client.submit(total, part) for part in parts]:
            sys.stdout.buffer.write(future.result())
    sys.stdout.buffer.flush()
    sys.stderr.write(faults.decode(errors="replace"))
    return 1 if faults else 0


if __name__ == "__main__":
    if sys.argv[2:-2] not in ([], ["--rename"]) or sys.argv[-2] not in ("lhs", "rhs", "rep"):
        print(__doc__, file=sys.stderr)
        sys.exit(2)
    try:
        sys.exit(main(sys.argv[1], sys.argv[2:-1], sys.argv[-1]))
    except OSError as fault:
        print(f"dask_unique.py: {fault}", file=sys.stderr)
        sys.exit(2)
