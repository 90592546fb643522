#!/usr/bin/env python3
"""Turns keyed records into the commands that add them to a store. Reads standard input, writes standard output.

    load.py redis PREFIX | redis-cli --pipe        a hash PREFIX:KEY for each key, with the fields `text` and `count`; a set
                                                   left:PREFIX:HEX for each left-hand side, with the names PREFIX:KEY of what
                                                   replaces it; a set files:PREFIX of the files that were added
    load.py sqlite | sqlite3 -bail STORE           the tables item(key TEXT PRIMARY KEY, text TEXT, count INTEGER),
                                                   lhs(hash TEXT, key TEXT, PRIMARY KEY(hash, key)) and
                                                   file(name TEXT, digest TEXT, PRIMARY KEY(name, digest))
    load.py postgres | psql -q                     the same tables of a database with table.sql

A record is `; KEY`, a newline, a canonical text, NUL, as `souper_items format -z --key` writes it, or that with its count before
it, as `uniq -zc` writes it. The count in the store grows by that number, or by 1. A record may begin with the line `; lhs HEX`, as
`souper_items format -z --key --lhs-key rep` writes it. Then the store also has HEX, the key of the left-hand side, with KEY; `ask.sh`
reads that.

Records between the marks of `file_records.sh` are those of a file. A file is added whole, with its name and digest, or not at all; if the
store has this name and digest, no count grows. Records without such marks count each time.

Each key has to be the SHA-256 of its text, and the last record has to be whole. Else nothing of the file is added, and the status is 1.
Without marks SQLite and PostgreSQL then add nothing, and Redis the records before. HEX is taken as it is.
"""
import hashlib
import os
import re
import sys

RECORD = re.compile(rb"(?: *([0-9]+) )?(?:; lhs ([0-9a-f]{64})\n)?; ([0-9a-f]{64})\n(.+)", re.DOTALL)
FILE = re.compile(rb"; file ([0-9a-f]{64}) (.+)", re.DOTALL)
END = b"; end"


def parts(file, size=1 << 20):
    """What is before each NUL, without what is empty. It is an error if something is behind the last one."""
    rest = b""
    while block := file.read1(size):
        *whole, rest = (rest + block).split(b"\0") if b"\0" in block else (rest + block,)
        yield from filter(None, whole)
    if rest:
        raise ValueError("the last record is not whole")


def record(part):
    """The count, the key, the text and, or None, the key of the left-hand side."""
    found = RECORD.fullmatch(part)
    if not found:
        raise ValueError(f"this is no record: {part[:200]!r}")
    count, left, key, text = found.groups()
    if hashlib.sha256(text).hexdigest().encode() != key:
        raise ValueError(f"this key is not that of its text: {key.decode()}")
    return int(count or 1), key, text, left


class Source:
    """The records of standard input, file after file."""

    def __init__(self):
        self.parts = parts(sys.stdin.buffer)
        self.part = next(self.parts, None)
        self.status = 0

    def step(self):
        self.part = next(self.parts, None)

    def files(self):
        """The name and the digest of each file and its records; for records of no file, None and the records."""
        while self.part is not None:
            found = FILE.fullmatch(self.part)
            if found:
                self.step()
            yield (found[2], found[1]) if found else None, self.records(found)

    def records(self, marked):
        while self.part is not None and not FILE.fullmatch(self.part):
            if marked and self.part == END:
                self.step()
                return
            yield record(self.part)
            self.step()
        if marked:
            raise ValueError("not read to its end")

    def skip(self, file, fault):
        """Reports why nothing of a file is added, and goes to the next one."""
        if not file:
            raise fault
        print(f"load.py: {os.fsdecode(file[0])}: not added: {fault}", file=sys.stderr)
        self.status = 1
        while self.part is not None and not FILE.fullmatch(self.part):
            self.step()


def command(*words):
    """A command of Redis, in its protocol."""
    return b"*%d\r\n" % len(words) + b"".join(b"$%d\r\n%s\r\n" % (len(word), word) for word in words)


# What Redis does with a file: one command, so that it is done whole or not at all. First the types are looked at, then all is written.
REDIS_FILE = b"""
for i = 2, #ARGV, 4 do
    redis.call('HLEN', ARGV[i])
    if ARGV[i + 3] ~= '' then redis.call('SCARD', ARGV[i + 3]) end
end
local is_new = redis.call('SADD', KEYS[1], ARGV[1]) == 1
for i = 2, #ARGV, 4 do
    if is_new then
        redis.call('HSETNX', ARGV[i], 'text', ARGV[i + 1])
        redis.call('HINCRBY', ARGV[i], 'count', ARGV[i + 2])
    end
    if ARGV[i + 3] ~= '' then redis.call('SADD', ARGV[i + 3], ARGV[i]) end
end
"""


def redis(source, kind):
    prefix = os.fsencode(kind)
    for file, records in source.files():
        words = []
        try:
            for count, key, text, left in records:
                name, lefts = prefix + b":" + key, b"left:" + prefix + b":" + left if left else b""
                if file:
                    words += name, text, b"%d" % count, lefts
                    continue
                yield command(b"HSETNX", name, b"text", text)
                yield command(b"HINCRBY", name, b"count", b"%d" % count)
                if left:
                    yield command(b"SADD", lefts, name)
        except ValueError as fault:
            source.skip(file, fault)
        else:
            if file:
                yield command(b"EVAL", REDIS_FILE, b"1", b"files:" + prefix, b"%s %s" % (file[1], file[0]), *words)


# From the table `more` to the others. Rows are added in the order of their keys, so that no two transactions of PostgreSQL wait for one
# another.
SQL_ITEMS = b"""INSERT INTO item SELECT key, min(text), sum(count) FROM more WHERE %s GROUP BY key ORDER BY key
    ON CONFLICT (key) DO UPDATE SET count = item.count + excluded.count;
INSERT INTO lhs SELECT DISTINCT hash, key FROM more WHERE hash IS NOT NULL ORDER BY hash, key ON CONFLICT DO NOTHING;
"""


def quoted(data):
    return b"'" + data.replace(b"'", b"''") + b"'"


def sqlite(source):
    yield b""".timeout 600000
CREATE TABLE IF NOT EXISTS item(key TEXT PRIMARY KEY, text TEXT, count INTEGER);
CREATE TABLE IF NOT EXISTS lhs(hash TEXT, key TEXT, PRIMARY KEY(hash, key));
CREATE TABLE IF NOT EXISTS file(name TEXT, digest TEXT, PRIMARY KEY(name, digest));
CREATE TEMPORARY TABLE more(key TEXT, text TEXT, count INTEGER, hash TEXT);
"""
    for file, records in source.files():
        yield b"BEGIN IMMEDIATE;\n"
        try:
            for count, key, text, left in records:
                yield b"INSERT INTO more VALUES ('%s', %s, %d, %s);\n" % (key, quoted(text), count, quoted(left) if left else b"NULL")
        except ValueError as fault:
            source.skip(file, fault)
            yield b"ROLLBACK;\n"
            continue
        if file:
            name, digest = map(quoted, file)
            yield SQL_ITEMS % (b"NOT EXISTS (SELECT 1 FROM file WHERE name = %s AND digest = %s)" % (name, digest))
            yield b"INSERT OR IGNORE INTO file VALUES (%s, %s);\n" % (name, digest)
        else:
            yield SQL_ITEMS % b"TRUE"
        yield b"DELETE FROM more;\nCOMMIT;\n"


def postgres(source):
    yield b"""\\set ON_ERROR_STOP 1
CREATE TEMPORARY TABLE more(key TEXT, text TEXT, count BIGINT, hash TEXT) ON COMMIT DELETE ROWS;
"""
    for file, records in source.files():
        yield b"BEGIN;\nCOPY more FROM STDIN;\n"
        try:
            for count, key, text, left in records:
                escaped = text.replace(b"\\", b"\\\\").replace(b"\t", b"\\t").replace(b"\n", b"\\n")
                yield b"%s\t%s\t%d\t%s\n" % (key, escaped, count, left or b"\\N")
        except ValueError as fault:
            source.skip(file, fault)
            yield b"\\.\nROLLBACK;\n"
            continue
        yield b"\\.\n"
        if file:
            # Of two transactions with one file the second waits here until the first has ended.
            yield b"WITH new AS (INSERT INTO file VALUES (%s, %s) ON CONFLICT DO NOTHING RETURNING name)\n" % tuple(map(quoted, file))
            yield SQL_ITEMS % b"EXISTS (SELECT name FROM new)"
        else:
            yield SQL_ITEMS % b"TRUE"
        yield b"COMMIT;\n"


if __name__ == "__main__":
    stores = {"redis": (redis, 1), "sqlite": (sqlite, 0), "postgres": (postgres, 0)}
    words = sys.argv[1:]
    if not words or words[0] not in stores or len(words) != stores[words[0]][1] + 1:
        print(__doc__, file=sys.stderr)
        sys.exit(2)
    try:
        source = Source()
        for written in stores[words[0]][0](source, *words[1:]):
            sys.stdout.buffer.write(written)
        sys.stdout.buffer.flush()
        sys.exit(source.status)
    except ValueError as fault:
        sys.exit(f"load.py: {fault}")
    except BrokenPipeError:
        # The reader wants no more; its status says why.
        os.dup2(os.open(os.devnull, os.O_WRONLY), sys.stdout.fileno())
        sys.exit(1)
