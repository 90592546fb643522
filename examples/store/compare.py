#!/usr/bin/env python3
"""Compares what the pipes give with what one process gives. Prints how many cases passed, and how many failed.

RECORDS is what one process writes without keys: souper_items format -z [--rename] KIND FILE...

    compare.py texts RECORDS KIND             each text has the characters and the end of a canonical text, and no empty line
    compare.py answers RECORDS ANSWERS        two items have the same text if and only if ANSWERS, of harvest.py, says so
    compare.py renamed RECORDS ANSWERS        the same, up to names
    compare.py keyed RECORDS FILE             FILE has the records with their keys
    compare.py unkeyed RECORDS FILE           FILE has the texts, a newline after each
    compare.py unique RECORDS FILE            FILE has the records with their keys, each once, in the order of the keys
    compare.py firsts RECORDS FILE            FILE has the first record of each text, in order
    compare.py counted RECORDS FILE           the same, each after a comment line that says how often its text is there
    compare.py objects RECORDS FILE FOLDER    FILE has an object for each text, in order, with its key, and a line of its file that has a token
    compare.py redis RECORDS PREFIX PORT      the server has exactly these keys under PREFIX, with these texts and counts
    compare.py sqlite RECORDS STORE           the table has exactly these keys, texts and counts
    compare.py postgres RECORDS ROWS          the same; ROWS is what COPY (SELECT key, text, count FROM item) TO STDOUT gives
"""
import collections
import hashlib
import json
import pathlib
import re
import socket
import sqlite3
import sys


def texts_of(path):
    data = pathlib.Path(path).read_bytes()
    *texts, rest = data.split(b"\0")
    assert not rest, "the last record is not whole"
    return texts


def key_of(text):
    return hashlib.sha256(text).hexdigest().encode()


def keyed(text):
    return b"; " + key_of(text) + b"\n" + text + b"\0"


def same_as(wanted, path):
    yield path, b"".join(wanted) == pathlib.Path(path).read_bytes()


def are_canonical(texts, kind):
    line = rb"[a-z%][A-Za-z0-9_.%:=,()\[ -]*"
    form = re.compile(rb"(?:" + line + rb"\n)*" + line + (b"" if kind == "rhs" else rb"\n"))
    for text in set(texts):
        yield text, form.fullmatch(text)


def are_answered(texts, path, columns):
    """Whether texts and answers are the same partition of the items: each has one of the other."""
    answers = [line.split()[:columns] for line in pathlib.Path(path).read_text().splitlines()]
    text_of, answer_of = {}, {}
    yield "the number of items", len(texts) == len(answers)
    for text, answer in zip(texts, map(tuple, answers)):
        yield text, text_of.setdefault(answer, text) == text and answer_of.setdefault(text, answer) == answer


def are_objects(texts, path, folder):
    """Whether the objects have the texts, and the line of each is one of its file that has a token."""
    objects = [json.loads(line) for line in pathlib.Path(path).read_text().splitlines()]
    yield "the number of objects", len(texts) == len(objects)
    lines = {}
    for text, it in zip(texts, objects):
        file = it["file"]
        if file not in lines:
            lines[file] = (pathlib.Path(folder) / file).read_text().split("\n")
        begins = lines[file][it["line"] - 1].split(";")[0].strip()
        yield it, begins and it["text"].encode() == text and it["key"].encode() == key_of(text)


def are_stored(texts, stored):
    """Whether the store has exactly the keys of the texts, each with its text and how often it is there."""
    wanted = {key_of(text): (text, count) for text, count in collections.Counter(texts).items()}
    for key in wanted.keys() | stored.keys():
        yield key, wanted.get(key) == stored.get(key)


def of_sqlite(path):
    store = sqlite3.connect(f"file:{path}?mode=ro", uri=True)
    assert store.execute("PRAGMA integrity_check").fetchall() == [("ok",)]
    rows = store.execute("SELECT key, text, count FROM item").fetchall()
    stored = {key.encode(): (text.encode(), count) for key, text, count in rows}
    assert len(stored) == len(rows), "a key is there twice"
    return stored


def of_postgres(path):
    rows = [line.split(b"\t") for line in pathlib.Path(path).read_bytes().splitlines()]
    stored = {key: (text.replace(b"\\n", b"\n"), int(count)) for key, text, count in rows}
    assert len(stored) == len(rows), "a key is there twice"
    return stored


class Redis:
    """What is asked of a server, in its protocol."""

    def __init__(self, port):
        self.file = socket.create_connection(("127.0.0.1", port)).makefile("rwb")

    def ask(self, *words):
        self.file.write(b"*%d\r\n" % len(words) + b"".join(b"$%d\r\n%s\r\n" % (len(word), word) for word in words))

    def answer(self):
        self.file.flush()
        mark, rest = (line := self.file.readline())[:1], line[1:-2]
        if mark == b"*":
            return [self.answer() for _ in range(int(rest))]
        if mark == b"$":
            return self.file.read(int(rest) + 2)[:-2]
        assert mark in b"+:", line
        return rest


def of_redis(port, prefix):
    server, names, cursor = Redis(port), set(), b"0"
    while True:
        server.ask(b"SCAN", cursor, b"MATCH", prefix + b":*", b"COUNT", b"1000")
        cursor, found = server.answer()
        names.update(found)
        if cursor == b"0":
            break
    stored = {}
    for name in names:
        server.ask(b"HGETALL", name)
        words = server.answer()
        fields = dict(zip(words[::2], words[1::2]))
        assert fields.keys() == {b"text", b"count"}, name
        stored[name.removeprefix(prefix + b":")] = fields[b"text"], int(fields[b"count"])
    return stored


def cases(task, records, *words):
    texts = texts_of(records)
    if task == "texts":
        return are_canonical(texts, *words)
    if task in ("answers", "renamed"):
        return are_answered(texts, *words, 2 if task == "answers" else 1)
    if task == "keyed":
        return same_as(map(keyed, texts), *words)
    if task == "firsts":
        return same_as((text + b"\0" for text in dict.fromkeys(texts)), *words)
    if task == "counted":
        return same_as((b"; count %d\n%s\0" % (count, text) for text, count in collections.Counter(texts).items()), *words)
    if task == "unkeyed":
        return same_as((text + b"\n" for text in texts), *words)
    if task == "objects":
        return are_objects(texts, *words)
    if task == "unique":
        return same_as(sorted(set(map(keyed, texts))), *words)
    if task == "redis":
        return are_stored(texts, of_redis(int(words[1]), words[0].encode()))
    if task == "sqlite":
        return are_stored(texts, of_sqlite(*words))
    if task == "postgres":
        return are_stored(texts, of_postgres(*words))
    print(__doc__, file=sys.stderr)
    sys.exit(2)


if __name__ == "__main__":
    if len(sys.argv) < 4:
        print(__doc__, file=sys.stderr)
        sys.exit(2)
    passed = failed = 0
    for case, holds in cases(*sys.argv[1:]):
        if holds:
            passed += 1
        else:
            failed += 1
            if failed <= 5:
                print(f"does not hold: {case!r:.300}")
    print(f"{passed} passed, {failed} failed")
    sys.exit(failed > 0)
