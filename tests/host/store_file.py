"""Stores read apart from the host and the hub, from chaffdancer-store(5) alone; and a host to be run on them."""

import os
import re
import subprocess

SLOT = 64
HEADER = 36
TABLE = 1024
ITEMS = 64
SEGMENT, COMMIT, CLOSED, UNFINISHED = 1, 2, 3, 4
NEW, RESTART, TURNOVER, SALVAGE = 1, 2, 3, 4

# All items from 0 to 4,000,000,000 but item 1, which is guarded, and item 2.
LIMITS = [(0, 4_000_000_000)] * ITEMS
LIMITS[1] = (0, 1_000_000)
LIMITS[2] = (30, 250)
TABLE_LINES = "1 0 1000000 0 guarded\n2 30 250 140 open\ndefault 0 4000000000 0 open\n"
OPENING = [0, 0, 140] + [0] * 61


def _crc_table():
    table = []
    for byte in range(256):
        for _ in range(8):
            byte = byte >> 1 ^ (0x82F63B78 if byte & 1 else 0)
        table.append(byte)
    return table


CRC_TABLE = _crc_table()


def crc32c(data):
    crc = 0xFFFFFFFF
    for byte in data:
        crc = crc >> 8 ^ CRC_TABLE[(crc ^ byte) & 255]
    return crc ^ 0xFFFFFFFF


def number(data):
    return int.from_bytes(data, "little")


class Frame:
    def __init__(self, data, place):
        (self.kind, self.detail) = data[place], data[place + 1]
        fields = [number(data[place + start : place + end]) for start, end in
                  [(2, 4), (4, 8), (8, 12), (12, 20), (20, 24), (24, 28), (28, 32), (32, 36)]]
        length, self.slot, self.segment, self.time, self.mark, self.previous, body_sum, self.sum = fields
        self.bytes = (HEADER + length + 1 + SLOT - 1) // SLOT * SLOT
        rest = data[place + HEADER : place + self.bytes]
        assert self.sum == crc32c(data[place : place + HEADER - 4]), f"the header at {place} is damaged"
        assert len(rest) == self.bytes - HEADER and body_sum == crc32c(rest), f"the frame at {place} is damaged"
        assert rest[-1] == 0xA5 and not any(rest[length:-1]), f"the frame at {place} has no end"
        self.body = rest[:length]


def values_of(table):
    return [number(table[row + 8 : row + 12]) for row in range(0, TABLE, 16)]


def table_of(values):
    rows = []
    for item, value in enumerate(values):
        floor, ceiling = LIMITS[item]
        kind = 1 if item == 1 else 0
        rows.append(b"".join(part.to_bytes(4, "little") for part in (floor, ceiling, value, kind)))
    return b"".join(rows)


def writes_of(body, number_of):
    """The items and values of a commit's records."""
    records = [body[place : place + 8] for place in range(0, len(body), 8)]
    assert records[-1] == bytes([2, 0]) + number_of.to_bytes(2, "little") + (len(records) - 1).to_bytes(4, "little")
    writes = []
    for record in records[:-1]:
        assert record[0] == 1 and number(record[2:4]) == number_of, "a record does not fit"
        writes.append((record[1], number(record[4:8])))
    assert [item for item, _ in writes] == sorted({item for item, _ in writes}), "items do not ascend"
    return writes


def after(values, commits):
    values = list(values)
    for commit in commits:
        for item, value in commit:
            values[item] = value
    return values


class Segment:
    def __init__(self, frame):
        self.number, self.cause, self.time = frame.segment, frame.detail, frame.time
        self.opening = values_of(frame.body[:TABLE])
        self.table = frame.body[:TABLE]
        self.names = frame.body[TABLE:]
        self.commits, self.desks, self.times = [], [], []
        self.closed = None
        self.unfinished = 0

    def values(self):
        return after(self.opening, self.commits)


class Store:
    """A whole store: anything that is not as it should be fails. A tail that never came whole may follow."""

    def __init__(self, path):
        with open(path, "rb") as file:
            self.data = data = file.read()
        assert data[:16] == b"chaffdancer 1\r\n\x1a", "no store"
        assert number(data[60:64]) == crc32c(data[:60]) and not any(data[28:60]), "the signature is damaged"
        mark, previous, place = number(data[16:20]), number(data[60:64]), SLOT
        self.segments = []
        while any(data[place : place + HEADER]):
            try:
                frame = Frame(data, place)
            except AssertionError:
                break
            assert (frame.slot, frame.mark, frame.previous) == (place // SLOT, mark, previous), "a frame from elsewhere"
            self.take(frame)
            previous, place = frame.sum, place + frame.bytes
        self.end = place
        assert len(data) >= place + SLOT, "the empty slot is missing"
        self.tail = data[place:].rstrip(b"\0")
        assert len(self.tail) <= 4096, "damaged"

    def take(self, frame):
        if frame.kind == SEGMENT:
            segment = Segment(frame)
            if self.segments:
                last = self.segments[-1]
                gap = segment.cause == SALVAGE
                assert segment.number > last.number and (gap or segment.number == last.number + 1), "a segment is missing"
                assert gap or segment.opening == last.values(), "a segment does not go on from the last"
            self.segments.append(segment)
            return
        segment = self.segments[-1]
        assert frame.segment == segment.number
        if frame.kind == COMMIT:
            assert segment.closed is None and not segment.unfinished and frame.detail < 16
            segment.commits.append(writes_of(frame.body, len(segment.commits) + 1))
            segment.desks.append(frame.detail)
            segment.times.append(frame.time)
        elif frame.kind == CLOSED:
            assert segment.closed is None and len(frame.body) == 2
            segment.closed = number(frame.body)
        else:
            assert frame.kind == UNFINISHED
            segment.unfinished += 1

    def values(self):
        return self.segments[-1].values()

    def commits(self):
        return [commit for segment in self.segments for commit in segment.commits]


def run(host, arguments, script="", environment=None, timeout=60):
    """Serves the script to its end: status, what was told, and what was told on standard error."""
    done = subprocess.run([host, *arguments], input=script.encode(), capture_output=True,
                          env={**os.environ, **(environment or {})}, timeout=timeout)
    return done.returncode, done.stdout.decode(), done.stderr.decode()


def serve(host, path, script="", environment=None):
    return run(host, ["--store", path], script, environment)


def without_times(told):
    return re.sub(r"\d{4}-\d\d-\d\d \d\d:\d\d:\d\d UTC", "TIME", told)


def unwrapped(told):
    """Lines as they were before they were broken at 80 columns."""
    assert all(len(line) <= 80 for line in told.splitlines()), told
    return told.replace("\n    ", " ")


def transaction(desk, writes):
    lines = [f"begin {desk}"] + [f"write {desk} {item} {value}" for item, value in writes]
    return "\n".join(lines + [f"end {desk}"]) + "\n"


def remove(path):
    if os.path.lexists(path):
        os.remove(path)


def bytes_of(path):
    with open(path, "rb") as file:
        return file.read()


def check(name, body):
    """Prints one line for the check, as the caller counts them."""
    try:
        said = body()
    except (AssertionError, IndexError, OSError, subprocess.TimeoutExpired) as wrong:
        print(f"FAILED  {name}: " + str(wrong).replace("\n", " / ")[:2000], flush=True)
    else:
        print(f"passed  {name}{': ' + said if said else ''}", flush=True)
