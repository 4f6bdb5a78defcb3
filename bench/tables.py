#!/usr/bin/env python3
"""Times stores in memory and in a file, beside sqlite3 on the same rows: those of the tuples, and the one of the newest revision.

usage: tables.py PROGRAM [TUPLES ..]      writes of 1, 16 and 256 operations; then opening, memory and size with that
                                          many tuples (10000 100000 1000000 where none are given)
       tables.py PROGRAM spans TUPLES     memory with one span a tuple, and with four: each tuple is deleted and
                                          inserted again three times
"""
import os
import sqlite3
import subprocess
import sys
import tempfile
import time

CONFIG = 'config {"namespaces":{"group":{"member":{"types":["user"]}},"user":{}}}\n'

SCHEMA = (
    "CREATE TABLE row (namespace TEXT NOT NULL, object TEXT NOT NULL, relation TEXT NOT NULL, subject TEXT NOT NULL, "
    "added INTEGER NOT NULL CHECK (added > 0), removed INTEGER NOT NULL, CHECK (removed = 0 OR removed > added), "
    "PRIMARY KEY (namespace, object, relation, subject, added)) STRICT"
)
STATE = "CREATE TABLE state (key TEXT NOT NULL PRIMARY KEY, value INTEGER NOT NULL) STRICT"
INSERT = (
    "INSERT INTO row (rowid, namespace, object, relation, subject, added, removed) "
    "VALUES (?, 'group', ?, 'member', ?, ?, 0)"
)


def write(first, operations, kind="insert"):
    ops = (f'{{"op":"{kind}","tuple":"group:g{i}#member@user:u{i}"}}' for i in range(first, first + operations))
    return 'write {"ops":[' + ",".join(ops) + "]}\n"


def run(program, options, lines):
    """The seconds and the greatest memory in bytes of a run over these lines, each of which must be answered with 200."""
    with tempfile.TemporaryFile("w+") as given, tempfile.TemporaryFile("w+") as answers:
        given.writelines(lines)
        given.seek(0)
        begun = time.monotonic()
        process = subprocess.Popen([program, "run", *options], stdin=given, stdout=answers)
        _, status, usage = os.wait4(process.pid, 0)
        seconds = time.monotonic() - begun
        answers.seek(0)
        if status != 0 or any(not line.startswith("200") for line in answers):
            sys.exit(f"a line was refused, or the program ended with status {status}")
        return seconds, usage.ru_maxrss * 1024


def fresh(path):
    for name in (path, path + "-wal"):
        if os.path.exists(name):
            os.remove(name)


def time_writes(program, path):
    print("writes a second:        memory      file   sqlite3")
    for operations, count in ((1, 4000), (16, 2000), (256, 400)):
        lines = [CONFIG] + [write(i * operations, operations) for i in range(count)]
        memory, _ = run(program, [], lines)
        fresh(path)
        in_file, _ = run(program, ["--db", path, "--store", "1"], lines)
        alone = time_sqlite(path, operations, count)
        print(f"  {operations:3} operations   {count / memory:11.0f} {count / in_file:9.0f} {count / alone:9.0f}")


def time_sqlite(path, operations, count):
    fresh(path)
    base = sqlite3.connect(path, isolation_level=None)
    base.execute("PRAGMA journal_mode = WAL")
    base.execute("PRAGMA synchronous = FULL")
    base.execute(SCHEMA)
    base.execute(STATE)
    base.execute("INSERT INTO state VALUES ('newest', 0)")
    begun = time.monotonic()
    for i in range(count):
        base.execute("BEGIN")
        for place in range(operations):
            at = i * operations + place
            base.execute(INSERT, (256 * i + place, f"g{at}", f"user:u{at}", i + 1))
        base.execute("UPDATE state SET value = ? WHERE key = 'newest'", (i + 1,))
        base.execute("COMMIT")
    seconds = time.monotonic() - begun
    base.close()
    return seconds


def time_opening(program, path, tuples):
    lines = [CONFIG] + [write(i, 250) for i in range(0, tuples, 250)]
    filled, most = run(program, [], lines)
    _, least = run(program, [], [CONFIG])
    fresh(path)
    filled_file, _ = run(program, ["--db", path, "--store", "1"], lines)
    size = sum(os.path.getsize(name) for name in (path, path + "-wal") if os.path.exists(name))
    opened, _ = run(program, ["--db", path], ["state\n"])
    time_sqlite(path, 250, tuples // 250)
    alone = os.path.getsize(path)
    print(
        f"{tuples:8} tuples: filled in {filled:.1f} s in memory ({(most - least) / tuples:.0f} bytes a tuple) and in "
        f"{filled_file:.1f} s in a file ({size / tuples:.0f} bytes a tuple with its log; sqlite3's {alone / tuples:.0f}), "
        f"which opens in {opened:.1f} s"
    )


def weigh_spans(program, path, tuples):
    """A run over a file keeps in memory what the history takes, and what sqlite has of the file's pages."""
    _, least = run(program, [], [CONFIG])
    lines = [CONFIG] + [write(i, 250) for i in range(0, tuples, 250)]
    for spans in (1, 4):
        if spans > 1:
            for _ in range(spans - 1):
                lines += [write(i, 250, kind) for kind in ("delete", "insert") for i in range(0, tuples, 250)]
        fresh(path)
        seconds, most = run(program, ["--db", path, "--store", "1"], lines)
        print(f"{tuples:8} tuples of {spans} spans: {(most - least) / tuples:.0f} bytes a tuple, {seconds:.0f} s")


def main(words):
    if len(words) == 3 and words[1] == "spans":
        with tempfile.TemporaryDirectory() as folder:
            weigh_spans(words[0], os.path.join(folder, "store.db"), int(words[2]))
        return
    if not words:
        sys.exit(__doc__)
    with tempfile.TemporaryDirectory() as folder:
        path = os.path.join(folder, "store.db")
        time_writes(words[0], path)
        for tuples in [int(word) for word in words[1:]] or [10_000, 100_000, 1_000_000]:
            time_opening(words[0], path, tuples)


if __name__ == "__main__":
    main(sys.argv[1:])
