#!/usr/bin/env python3
"""Writes what replaces the left-hand sides of a harvest, by the workers of a Dask cluster.

    dask_find.py SCHEDULER STORE [OPTION...] FOLDER

SCHEDULER is host:port. The workers, on any hosts, have STORE, a file of replacements, FOLDER and `souper_items` (or what their
$SOUPER_ITEMS names) in the same places. Each thread of a worker gets one part of the files and reads STORE once, or once for each megabyte
of names of files. The answers are in the order of the files, as `souper_items find --in STORE OPTION... FILES` writes them. An OPTION is
one of `find`, such as --first. A file that is refused is reported, and the answers before its bad item are written; the status is then 1.
It is 2 if the store or a file was not read: that is reported with its name, and the answers of its part and of later ones are not written.
"""
import os
import pathlib
import subprocess
import sys

from distributed import Client


# The most bytes of names in one command.
MOST = 1 << 20


def answers_of(paths, store, options):
    """What `find` writes for some files, and why one is refused, if one is."""
    command = [os.environ.get("SOUPER_ITEMS", "souper_items"), "find", "--in", store, *options, *paths]
    found = subprocess.run(command, stdin=subprocess.DEVNULL, stdout=subprocess.PIPE, stderr=subprocess.PIPE, check=False)
    if found.returncode not in (0, 1) or found.stderr.startswith(os.fsencode(store) + b":"):
        raise OSError(found.stderr.decode(errors="replace").strip())
    return found.stdout, found.stderr


def parts_of(paths, count):
    """The paths in order, in `count` parts of about the same size, and in more where the names are long."""
    sizes = [os.path.getsize(path) + 1 for path in paths]
    most, parts, size, names = sum(sizes) / count, [[]], 0, 0
    for path, own in zip(paths, sizes):
        if parts[-1] and (size + own / 2 > most * len(parts) or names + len(os.fsencode(path)) > MOST):
            parts.append([])
            names = 0
        parts[-1].append(path)
        size += own
        names += len(os.fsencode(path)) + 1
    return parts


def main(scheduler, store, options, folder):
    store = str(pathlib.Path(store).resolve(strict=True))
    paths = sorted(str(path) for path in pathlib.Path(folder).resolve(strict=True).rglob("*.lhs") if path.is_file())
    if not paths:
        raise FileNotFoundError(f"{folder} has no file *.lhs")
    faults = b""
    with Client(scheduler) as client:
        threads = [worker for worker, count in client.ncores().items() for _ in range(count)]
        parts = parts_of(paths, max(1, len(threads)))
        found = [client.submit(answers_of, part, store, options, pure=False, workers=threads[i % len(threads)], allow_other_workers=True)
                 for i, part in enumerate(parts)]
        for future in found:
            text, fault = future.result()
            sys.stdout.buffer.write(text)
            faults += fault
    sys.stdout.buffer.flush()
    sys.stderr.write(faults.decode(errors="replace"))
    return 1 if faults else 0


if __name__ == "__main__":
    if len(sys.argv) < 4:
        print(__doc__, file=sys.stderr)
        sys.exit(2)
    try:
        sys.exit(main(sys.argv[1], sys.argv[2], sys.argv[3:-1], sys.argv[-1]))
    except OSError as fault:
        print(f"dask_find.py: {fault}", file=sys.stderr)
        sys.exit(2)
