#!/usr/bin/env python3
"""A stored sample of results, which is compared without the crate.

    sample.py write DRIVER PROGRAM FILE      runs both programs on many texts, and writes a sample of them
    sample.py check FILE                     reads a sample, and prints how many results of each class it holds
    sample.py replay PROGRAM FILE            runs the program on each text of a sample, and compares

SAMPLE.md has the format of FILE.
"""
import collections
import re
import sys

import run
import texts
from conditions import words

COUNT, SEED = 12000, 2
LONGEST = 400

# The class is `same` if the crate gives the same result; else it says why it gives another.
Record = collections.namedtuple("Record", "kind status reason text answer")

# The classes of texts whose results are in a sample, with their names in it.
REASONS = {"same text": "same", "same error": "same", "comma in cand": "comma", "bad predecessor": "predecessor", "number fault": "number"}


def pack(record):
    text, answer = record.text.encode(), record.answer.encode()
    head = f"{record.kind} {record.status} {record.reason} {len(text)} {len(answer)}\n"
    return head.encode() + text + b"\n" + answer + b"\n"


def unpack(data):
    """The records of a sample. What has another form is an error."""
    records, at = [], 0

    def take(n):
        nonlocal at
        part = data[at:at + n]
        at += n
        assert len(part) == n, f"the sample ends before byte {at}"
        return part

    while at < len(data):
        end = data.index(b"\n", at)
        head = re.fullmatch(r"(lhs|rhs|rep) ([01]) ([a-z]+) (0|[1-9][0-9]*) (0|[1-9][0-9]*)", take(end - at).decode())
        assert head, f"no head at byte {at}"
        assert take(1) == b"\n"
        parts = []
        for length in head[4], head[5]:
            parts.append(take(int(length)).decode())
            assert take(1) == b"\n", f"no newline before byte {at}"
        records.append(Record(head[1], int(head[2]), head[3], *parts))
    return records


def record_of(case, name):
    """The record of a case. Its answer is the printed text, or the error without its newline."""
    answer = case.ours.out if case.ours.status == run.ACCEPTED else case.ours.err.removesuffix("\n")
    return Record(case.kind, case.ours.status, REASONS[name], case.text, answer)


def features(case, name):
    """What a case shows, each with how many cases of a sample have to show it."""
    kind, accepted = case.kind, case.ours.status == run.ACCEPTED
    yield (kind, case.family, accepted), 2
    yield (kind, name), 5
    for c in case.text:
        if not c.isascii() or c < " " and c != "\n":
            yield (c, accepted), 1
    if accepted:
        yield (kind, "lines", min(case.ours.out.count("\n"), 9)), 1
        if case.family == "sound":
            yield (kind, "length", len(case.text) // 50), 2
        for word in words(case.ours.out):
            if word[0].isalpha():
                yield (word,), 1
    else:
        line, _, message = run.place(case.ours)
        shape = re.sub(r"(found|unexpected|named|value|block|redefine|attribute) '.*'|[0-9]+", r"\1", message, flags=re.S)
        yield (kind, shape), 1
        yield (kind, "line", min(line, 4)), 2


def choose(named):
    """Records that show every feature often enough, of short texts first."""
    seen, chosen = collections.Counter(), []
    for case, name in sorted(named, key=lambda pair: (len(pair[0].text), pair[0])):
        shown = dict(features(case, name))
        if any(seen[feature] < n for feature, n in shown.items()):
            seen.update(shown.keys())
            chosen.append(record_of(case, name))
    return chosen


def write(driver, program, path):
    named, _ = run.answers(COUNT, SEED, run.Programs(driver, program))
    records = choose([(case, name) for case, name in named if name in REASONS and len(case.text) <= LONGEST])
    records.sort(key=lambda record: (texts.KINDS.index(record.kind), record.status, record.reason, len(record.text), record))
    data = b"".join(map(pack, records))
    assert unpack(data) == records
    with open(path, "wb") as file:
        file.write(data)


def check(path):
    with open(path, "rb") as file:
        data = file.read()
    records = unpack(data)
    assert b"".join(map(pack, records)) == data
    for (kind, status, reason), n in sorted(collections.Counter(record[:3] for record in records).items()):
        print(f"{kind} {'refused' if status else 'accepted'} {reason}: {n}")
    print(f"{len(records)} answers in {len(data)} bytes")


def replay(program, path):
    with open(path, "rb") as file:
        records = unpack(file.read())
    same = 0
    for record in records:
        answer = run.Programs(None, program).ours(record.kind, record.text)
        wanted = ("", record.answer + "\n") if record.status else (record.answer, "")
        if answer == (record.status, *wanted):
            same += 1
        else:
            print(f"{record}\n{answer}")
    print(f"{same} answers as stored")
    return 0 if same == len(records) else 1


if __name__ == "__main__":
    sys.exit({"write": write, "check": check, "replay": replay}[sys.argv[1]](*sys.argv[2:]))
