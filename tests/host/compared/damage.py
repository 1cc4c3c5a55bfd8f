"""What a room's store in SQLite would lose by damage: damage.py FOLDER. Run by hand; docs/DECISIONS.md has what it printed.

A store as one would build it there: a row for each commit with a checksum of its own, chained to the row before, and
one row that says how many there are. The writer is killed after twenty commits that it has told; then bits are flipped
and the file is cut. A commit that was told and is missing, with every check passed, is lost silently.
"""

import os
import shutil
import signal
import sqlite3
import struct
import subprocess
import sys
import zlib

TOLD = 20


def chained(*parts):
    return zlib.crc32(repr(parts).encode())


def write(path, mode):
    store = sqlite3.connect(path, isolation_level=None)
    store.execute(f"PRAGMA journal_mode={mode}")
    store.execute("PRAGMA synchronous=FULL")
    store.execute("CREATE TABLE opening(segment INTEGER PRIMARY KEY, rows BLOB, sum INTEGER)")
    store.execute("CREATE TABLE commits(place INTEGER PRIMARY KEY, desk INTEGER, records BLOB, sum INTEGER)")
    store.execute("CREATE TABLE head(one INTEGER PRIMARY KEY, commits INTEGER, sum INTEGER)")
    store.execute("INSERT INTO opening VALUES(1, ?, ?)", (bytes(1024), chained(bytes(1024))))
    store.execute("INSERT INTO head VALUES(1, 0, 0)")
    total = 0
    for place in range(1, TOLD + 1):
        records = struct.pack("<BBHIBBHI", 1, place, place, place, 2, 0, place, 1)
        total = chained(total, place, 3, records)
        store.execute("BEGIN IMMEDIATE")
        store.execute("INSERT INTO commits VALUES(?, 3, ?, ?)", (place, records, total))
        store.execute("UPDATE head SET commits = ?, sum = ? WHERE one = 1", (place, total))
        store.execute("COMMIT")
    os.kill(os.getpid(), signal.SIGKILL)


def commits_in(path):
    """How many commits every check passes, or None if one does not."""
    store = sqlite3.connect(path)
    try:
        if store.execute("PRAGMA integrity_check").fetchone()[0] != "ok":
            return None
        (rows, opening), = store.execute("SELECT rows, sum FROM opening")
        total = count = 0
        for place, desk, records, checksum in store.execute("SELECT * FROM commits ORDER BY place"):
            count, total = count + 1, chained(total, place, desk, records)
            if place != count or checksum != total:
                return None
        if opening != chained(rows) or (count, total) != store.execute("SELECT commits, sum FROM head").fetchone():
            return None
        return count
    except (sqlite3.Error, ValueError, TypeError, OverflowError):
        return None
    finally:
        store.close()


def lay(folder, files, name, data):
    for old in os.listdir(folder):
        os.remove(os.path.join(folder, old))
    for other, bytes_of in files.items():
        with open(os.path.join(folder, other), "wb") as file:
            file.write(data if other == name else bytes_of)


def tried(folder, files, name, changes):
    outcome = {"seen": 0, "harmless": 0, "lost silently": 0}
    for data in changes:
        lay(folder, files, name, data)
        found = commits_in(os.path.join(folder, "store"))
        outcome["seen" if found is None else "harmless" if found == TOLD else "lost silently"] += 1
    return ", ".join(f"{key} {value:,}" for key, value in outcome.items())


def flips(data, count):
    for bit in range(0, 8 * len(data), max(1, 8 * len(data) // count)):
        yield data[: bit // 8] + bytes([data[bit // 8] ^ 1 << bit % 8]) + data[bit // 8 + 1 :]


def cuts(data, count):
    for length in range(0, len(data), max(1, len(data) // count)):
        yield data[:length]


def compare(folder, mode):
    shutil.rmtree(folder, ignore_errors=True)
    os.makedirs(folder)
    subprocess.run([sys.executable, __file__, "--write", os.path.join(folder, "store"), mode])
    files = {}
    for name in os.listdir(folder):
        if not name.endswith("-shm"):
            with open(os.path.join(folder, name), "rb") as file:
                files[name] = file.read()
    for name, data in sorted(files.items()):
        print(f"{mode}: {name}, {len(data):,} bytes: bits flipped: {tried(folder, files, name, flips(data, 6000))}")
        print(f"{mode}: {name}: cuts: {tried(folder, files, name, cuts(data, 3000))}", flush=True)
    lay(folder, files, "", b"")
    before = set(os.listdir(folder))
    store = sqlite3.connect(f"file:{os.path.join(folder, 'store')}?mode=ro", uri=True)
    store.execute("SELECT count(*) FROM commits").fetchone()
    print(f"{mode}: files that a read-only look makes: {sorted(set(os.listdir(folder)) - before)}")
    store.close()


if sys.argv[1] == "--write":
    write(*sys.argv[2:])
else:
    for journal_mode in ("wal", "delete"):
        compare(os.path.join(sys.argv[1], "compared"), journal_mode)
    shutil.rmtree(os.path.join(sys.argv[1], "compared"))
