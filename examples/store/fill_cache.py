#!/usr/bin/env python3
"""Fills a Redis server with entries as Souper's cache has them, to try from_souper.py with.

    fill_cache.py PORT RECORDS WANTED REFUSED

RECORDS is what `souper_items format -z rep` writes. Each replacement by an infer line and a result is an entry, and some are one once
more, with a statement that nothing needs, a comment and Windows line ends. WANTED gets the keyed records of these graphs, each once,
in the order of the keys; REFUSED the names of the entries that are to be refused, as JSON, a line each, in order.
"""
import hashlib
import json
import pathlib
import re
import socket
import sys

SPLIT = re.compile(rb"((?:.*\n)*?infer .*\n)((?:.*\n)*result .*\n)")

# Entries that are refused. After the first two the next entry would complete what they lack.
REFUSED = {
    b"%a = var\ninfer %a\n": b"%b = add %a, 1\n",
    b"%a = var\n": b"%b = add %a, 1\n",
    b"": b"result 1\n",
    b"%a = var\ninfer %b\n": b"result 1\n",
    b"%a:i8 = var\ninfer %a\n": b"result %c\n",
    b"%a:i16 = var\ninfer %a\n": b"result 1 ; one\nresult 2\n",
    b"%a:i32 = var\ninfer %a\n": b"result 1\ncand 2 3\n",
    b"(harvestedFromUse)\n%a = var\ninfer %a\n": b"result 1\n",
    b"%a:i64 = var\ninfer %a ; \xff\n": b"result 1\n",
    b"; \"a\"\ncand 1 2\n": b"cand 3 4\n",
}

# Left-hand sides for which nothing was found.
UNKNOWN = {b"%a:i1 = var\ninfer %a\n": b"", b"%a:i2 = var\ninfer %a\n": b"\n"}


def ask(file, *words):
    file.write(b"*%d\r\n" % len(words) + b"".join(b"$%d\r\n%s\r\n" % (len(word), word) for word in words))
    file.flush()
    answer = file.readline()
    if not answer or answer.startswith(b"-"):
        sys.exit(f"fill_cache.py: {answer.decode()}")


def other(left, count):
    """The left-hand side with what no canonical text has."""
    more = b"; %d\n%%unneeded.%d:i8 = var ; (powerOfTwo)\n" % (count, count)
    return (more + left).replace(b"\n", b"\r\n")


def main(port, records, wanted, refused):
    held, found = {}, set()
    for text in pathlib.Path(records).read_bytes().split(b"\0")[:-1]:
        parts = SPLIT.fullmatch(text)
        if parts and parts[1] not in held:
            held[parts[1]] = parts[2]
            found.add(b"; " + hashlib.sha256(text).hexdigest().encode() + b"\n" + text + b"\0")
            if len(held) % 3 == 0:
                held[other(parts[1], len(held))] = parts[2]
    with socket.create_connection(("127.0.0.1", int(port))) as server, server.makefile("rwb") as file:
        ask(file, b"FLUSHALL")
        ask(file, b"SET", b"%s = var\ninfer %s\n", b"result 1\n")
        ask(file, b"HSET", b"profile", b"hits", b"1")
        for name, result in {**held, **REFUSED, **UNKNOWN}.items():
            ask(file, b"HSET", name, b"result", result)
    pathlib.Path(wanted).write_bytes(b"".join(sorted(found)))
    names = sorted(json.dumps(name.decode(errors="replace")) for name in REFUSED)
    pathlib.Path(refused).write_text("".join(name + "\n" for name in names))


if __name__ == "__main__":
    if len(sys.argv) != 5:
        print(__doc__, file=sys.stderr)
        sys.exit(2)
    main(*sys.argv[1:])
