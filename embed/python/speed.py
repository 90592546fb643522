#!/usr/bin/env python3
"""Measures the package beside souper_fmt, on 13.5 MB of small items.

    embed/python/speed.py PROGRAM [ROUNDS [PACKAGES]]

PROGRAM is souper_fmt, ROUNDS the turns (9). Prints, in Markdown, the least seconds of the processor
that reading and writing the text took, reading it and walking over all values, and the same walk
twice; and the memory. PACKAGES is the folder of another version of the package, for a second table.
"""

from __future__ import annotations

import os
import subprocess
import sys
import tempfile
from pathlib import Path

HERE = Path(__file__).resolve().parent
CHILD = """
import resource, sys, time, souper
text = open(sys.argv[1]).read()
souper.write("lhs", souper.read("lhs", "%x = var infer %x"))
start = time.process_time()
items = souper.read("lhs", text)
if sys.argv[2] == "0":
    souper.write("lhs", items)
for _ in range(int(sys.argv[2])):
    for item in items:
        for statement in item.statements:
            if isinstance(statement, souper.Assignment):
                statement.name, statement.value
            statement.operands
print(time.process_time() - start, resource.getrusage(resource.RUSAGE_SELF).ru_maxrss)
"""
JOBS = {"read and write": 0, "read and walk": 1, "read and walk twice": 2}


def formatted(program: str, path: str) -> tuple[float, int]:
    with open(path, "rb") as text:
        process = subprocess.Popen([program, "lhs"], stdin=text, stdout=subprocess.DEVNULL)
        _, status, usage = os.wait4(process.pid, 0)
    process.returncode = os.waitstatus_to_exitcode(status)
    if process.returncode:
        sys.exit(f"{program} ended with status {process.returncode}")
    return usage.ru_utime + usage.ru_stime, usage.ru_maxrss


def package(folder: Path, path: str, walks: int) -> tuple[float, int]:
    library = os.environ.get("SOUPER_LIB", str(HERE / "souper/libsouper_c.so"))
    variables = {**os.environ, "PYTHONPATH": str(folder.resolve()), "SOUPER_LIB": library}
    command = [sys.executable, "-c", CHILD, path, str(walks)]
    found = subprocess.run(
        command, env=variables, cwd="/", capture_output=True, text=True, check=True
    )
    seconds, memory = found.stdout.split()
    return float(seconds), int(memory)


def main() -> None:
    program = os.path.abspath(sys.argv[1])
    rounds = int(sys.argv[2]) if len(sys.argv) > 2 else 9
    folders = [HERE, *map(Path, sys.argv[3:])]
    best: dict[str, tuple[float, int]] = {}
    with tempfile.NamedTemporaryFile(suffix=".lhs") as text:
        large = HERE.parent.parent / "compare/large.py"
        subprocess.run([sys.executable, large, "lhs", "40000", "12"], stdout=text, check=True)
        for _ in range(rounds):
            found = {"souper_fmt": formatted(program, text.name)}
            for folder in folders:
                for job, walks in JOBS.items():
                    found[f"{job}, {folder}"] = package(folder, text.name, walks)
            best = {name: min(row, best.get(name, row)) for name, row in found.items()}
    print("| | Seconds | Times souper_fmt | MB |\n|---|---|---|---|")
    for name, (seconds, memory) in best.items():
        ratio = seconds / best["souper_fmt"][0]
        print(f"| {name} | {seconds:.3f} | {ratio:.1f} | {memory // 1024} |")


if __name__ == "__main__":
    main()
