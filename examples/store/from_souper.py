#!/usr/bin/env python3
"""Reads what Souper keeps in a Redis server, and writes the keyed records of the replacements.

    from_souper.py PORT [--lhs-key] [--rename] | load.py sqlite | sqlite3 -bail STORE

Souper's cache has a hash for each left-hand side. Its name is the text of the left-hand side, and its field `result` has the text
of the right side in that scope, or nothing if no right side was found. The two texts are a replacement, which is read by
`souper_items` (or the program that $SOUPER_ITEMS names). So entries that differ in order, in statements that nothing needs or,
with `--rename`, in names have one record. With `--lhs-key` a record begins with the key of its left-hand side, as `load.py` takes it.

An entry that is refused is reported with its name, and has no record. The last line on standard error counts the entries. Keys
that are no hashes, and hashes without the field, are passed over. The status is 0, or 1 if an entry was refused, or 2 if the
server or the program failed.
"""
import bisect
import itertools
import json
import os
import socket
import subprocess
import sys
import tempfile

PROGRAM = os.environ.get("SOUPER_ITEMS", "souper_items")

# An item after each entry. If it is read as it is, where it is, then neither the entry nor the next one has a part of the other.
LAST = b"\ncand 0 0\n"
LAST_TEXT = "cand 0 0\n"


class Server:
    """A connection to a Redis server. Names may have newlines, so the protocol is spoken here."""

    def __init__(self, port):
        self.socket = socket.create_connection(("127.0.0.1", port))
        self.file = self.socket.makefile("rb")

    def ask(self, *commands):
        """The answers of the commands, which are sent at once."""
        self.socket.sendall(b"".join(b"*%d\r\n" % len(words) + b"".join(b"$%d\r\n%s\r\n" % (len(word), word) for word in words)
                                     for words in commands))
        return [self.answer() for _ in commands]

    def answer(self):
        line = self.file.readline()
        if not line.endswith(b"\r\n"):
            raise OSError("the server ended the connection")
        kind, rest = line[:1], line[1:-2]
        if kind == b"-":
            raise OSError(rest.decode(errors="replace"))
        if kind == b"$":
            return None if rest == b"-1" else self.file.read(int(rest) + 2)[:-2]
        return [self.answer() for _ in range(int(rest))] if kind == b"*" else rest


def entries(server):
    """The left-hand side and the right side of each entry, each once."""
    cursor, seen = b"0", set()
    while True:
        [(cursor, names)] = server.ask((b"SCAN", cursor, b"COUNT", b"1000", b"TYPE", b"hash"))
        names = [name for name in dict.fromkeys(names) if name not in seen]
        seen.update(names)
        for name, result in zip(names, server.ask(*((b"HGET", name, b"result") for name in names))):
            if result is not None:
                yield name, result
        if cursor == b"0":
            return


def objects(path, options):
    """What the program says of the replacements of a file."""
    command = [PROGRAM, "format", "--json", *options, "rep", path]
    found = subprocess.run(command, stdout=subprocess.PIPE, stderr=subprocess.PIPE, check=False)
    if found.returncode not in (0, 1):
        raise OSError(found.stderr.decode(errors="replace").strip())
    return [json.loads(line) for line in found.stdout.splitlines()]


def is_text(data):
    try:
        data.decode()
        return True
    except UnicodeDecodeError:
        return False


def judged(text, options):
    """The record of a text that is one replacement, or why it is not one."""
    with tempfile.NamedTemporaryFile() as file:
        file.write(text)
        file.flush()
        found = objects(file.name, options)
    for one in found:
        if "message" in one:
            return None, f"{one['line']}:{one['column']}: {one['message']}"
    return (found[0], None) if len(found) == 1 else (None, f"{len(found)} replacements, and not one")


def answers(texts, options):
    """The same for each of the texts, which are read at once: alone is read only what is not one replacement there."""
    starts, ends, place = [], [], 0
    with tempfile.NamedTemporaryFile() as file:
        for text in texts:
            starts.append(place)
            ends.append(place + len(text) + 1)
            place += file.write(text + LAST)
        file.flush()
        found = [[] for _ in texts]
        for one in objects(file.name, options):
            found[max(bisect.bisect_right(starts, one["offset"]) - 1, 0)].append(one)
    for i, (text, own) in enumerate(zip(texts, found)):
        alone = len(own) == 2 and all("text" in one for one in own) and own[1]["offset"] == ends[i]
        alone = alone and own[1]["text"] == LAST_TEXT and (i == 0 or found[i - 1][-1:] and found[i - 1][-1].get("text") == LAST_TEXT)
        yield (own[0], None) if alone else judged(text, options)


def report(name, fault):
    print(f"from_souper.py: {json.dumps(name.decode(errors='replace'))}: {fault}", file=sys.stderr)


def main(port, options):
    kept = refused = unknown = 0
    found = entries(Server(port))
    while batch := list(itertools.islice(found, 10000)):
        known = [(name, name + b"\n" + result + b"\n") for name, result in batch if result.strip()]
        unknown += len(batch) - len(known)
        named = [(name, text) for name, text in known if is_text(text)]
        for name, text in known:
            if not is_text(text):
                report(name, "not UTF-8")
        for (name, _), (one, fault) in zip(named, answers([text for _, text in named], options)):
            if one:
                kept += 1
                left = f"; lhs {one['lhs_key']}\n" if one.get("lhs_key") else ""
                sys.stdout.buffer.write(f"{left}; {one['key']}\n{one['text']}\0".encode())
            else:
                report(name, fault)
        refused += len(known)
    refused -= kept
    sys.stdout.buffer.flush()
    print(f"from_souper.py: {kept} replacements, {unknown} left-hand sides without a right side, {refused} refused", file=sys.stderr)
    return 1 if refused else 0


if __name__ == "__main__":
    options = [word for word in sys.argv[1:] if word in ("--lhs-key", "--rename")]
    words = [word for word in sys.argv[1:] if word not in options]
    if len(words) != 1 or not words[0].isdecimal():
        print(__doc__, file=sys.stderr)
        sys.exit(2)
    try:
        sys.exit(main(int(words[0]), options))
    except OSError as fault:
        print(f"from_souper.py: {fault}", file=sys.stderr)
        sys.exit(2)
