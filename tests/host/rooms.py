"""Live rooms: turnovers, wrong lines, signals, and memory that stays flat: rooms.py HOST FOLDER REQUESTS."""

import os
import random
import re
import signal
import subprocess
import sys
import threading
import time

from store_file import *

HOST, FOLDER, REQUESTS = sys.argv[1], sys.argv[2], int(sys.argv[3])
PATH = os.path.join(FOLDER, "rooms.store")
WARNING = "Soon nobody can begin until all have ended"
TURNED = "The board was turned over, with nobody open"


def twenty_thousand_begins():
    """Ages end at 2,000; the room does not."""
    remove(PATH)
    script = TABLE_LINES + "".join(transaction(place % 16, [(3, place)]) for place in range(20_000))
    status, told, errors = serve(HOST, PATH, script)
    assert (status, errors) == (0, ""), errors
    assert told.count(": opened, age ") == told.count(" ends: committed as number ") == 20_000
    assert "refused" not in told and "not served" not in told
    store = Store(PATH)
    assert len(store.segments) - 1 == told.count(TURNED) == 13
    assert [segment.cause for segment in store.segments] == [NEW] + [TURNOVER] * 13
    assert store.commits() == [[(3, place)] for place in range(20_000)]
    return f"{told.count(TURNED)} turnovers"


def a_quiet_moment_that_does_not_come():
    """One desk stays open: people are warned, then begins are put off, and when it ends the room goes on."""
    remove(PATH)
    script = TABLE_LINES + "begin 15\nwrite 15 5 7\n"
    script += "".join(transaction(1, []) for _ in range(1_985))
    script += "begin 2\nend 15\nbegin 2\nwrite 2 6 8\nend 2\n"
    status, told, errors = serve(HOST, PATH, script)
    told = unwrapped(told)
    assert (status, errors) == (0, ""), errors
    lines = told.splitlines()
    warned = next(place for place, line in enumerate(lines) if line.startswith(WARNING))
    assert told.count(WARNING) == 1 and lines[warned - 1] == "desk 1 begins: opened, age 1901, start 1899"
    put_off = "not served: the board is turned over as soon as nobody is open; ask again then"
    assert lines.count(f"desk 2 begins: {put_off}") == 1
    assert lines.count(f"desk 1 begins: {put_off}") == 1_985 - 1_979
    end = lines.index("desk 15 ends: committed as number 1980")
    assert lines[end + 1] == "" and lines[end + 2].startswith(TURNED)
    assert lines[end + 3] == "desk 2 begins: opened, age 1, start 0"
    assert Store(PATH).values()[5:7] == [7, 8]


def room_for_all_who_are_open():
    """Sixteen desks with everything written, when begins are put off: each can still commit."""
    remove(PATH)
    everything = [(item, 200) for item in range(2, 64)]
    big = "".join(f"write 0 {item} {value}\n" for item, value in everything)
    script = TABLE_LINES + "".join(f"begin {desk}\n" for desk in range(1, 16))
    script += "".join(f"write {desk} {item} 100\n" for desk in range(1, 16) for item in range(2, 64))
    script += "".join(f"begin 0\n{big}end 0\n" for _ in range(120))
    script += "".join(f"end {desk}\n" for desk in range(1, 16)) + "begin 0\nend 0\n"
    status, told, errors = serve(HOST, PATH, script)
    assert (status, errors) == (0, ""), errors
    assert "refused 15" not in told and told.count(TURNED) == 1 and "not served" in told
    assert all(f"desk {desk} ends: committed" in told for desk in range(1, 16))
    assert Store(PATH).values()[3] == 100


def kept_ages_outlast_the_first_chances():
    """A desk that keeps an age is not robbed of it by a turnover, until there is no other way."""
    script = TABLE_LINES + "begin 1\nwrite 1 1 1\nbegin 2\nread 2 1\nend 1\n"
    script += "".join(transaction(3, []) for _ in range(1_600)) + "begin 2\nend 2\nbegin 3\n"
    status, told, errors = run(HOST, ["--live"], script)
    assert (status, errors) == (0, ""), errors
    told = unwrapped(told)
    assert "desk 2 reads item 1: aborted, must yield to desk 1" in told
    before, behind = told.split(TURNED)
    assert "desk 3 ends: committed as number 1601" in before
    assert re.search(r"desk 2 begins: opened, age 2, start 1601\ndesk 2 ends: committed as number 1602", before)
    assert "desk 3 begins: opened, age 1, start 0" in behind


def wrong_lines_are_answered():
    remove(PATH)
    script = TABLE_LINES + "begin 1\nwrite 1 2 115,0\nbegin 2\nstart 3\nread 2\nwrite 2 2 99999999999\nend\n"
    script += "begin 400\n7 0 9 0 open\nname desk 1 x\nwrite 2 3 5\nend 2\n" + "x" * 5_000 + "\nwrite 1 2 115\nend 1\n"
    for arguments in (["--store", PATH], ["--live"]):
        status, told, errors = run(HOST, arguments, script)
        told = unwrapped(told)
        assert (status, errors) == (0, ""), errors
        for line in ["desk 1: line 5 is not served: the value is not a whole number: 115,0",
                     "line 7 is not served: not an item's number, default, name, begin, read, write, end or abandon: start",
                     "desk 2: line 8 is not served: this request has the form: read DESK ITEM",
                     "desk 2: line 9 is not served: the value is above 4294967295: 99999999999",
                     "line 10 is not served: this request has the form: end DESK",
                     "line 11 is not served: the desk is above 255: 400",
                     "line 12 is not served: a table line comes before the first request",
                     "line 13 is not served: a name line comes before the first request",
                     "desk 2 ends: committed as number 1",
                     "line 16 is not served: it is longer than 4,096 bytes",
                     "desk 1 ends: committed as number 2"]:
            assert line in told.splitlines(), f"not told: {line}: {told}"
    assert Store(PATH).values()[2:4] == [115, 5]


def a_wrong_row_opens_nothing():
    """A row that is not understood must not be replaced by the default."""
    remove(PATH)
    for script in ["2 30 25O 140 open\ndefault 0 1000 0 open\nbegin 1\n", "default 0 9 0 open\nbegni 1\nbegin 1\n"]:
        for arguments in (["--store", PATH], ["--live"]):
            status, told, errors = run(HOST, arguments, script)
            assert (status, told) == (2, "") and errors.startswith("standard input:"), (told, errors)
    assert not os.path.exists(PATH)


def waiting_host(arguments, first_lines):
    host = subprocess.Popen([HOST, *arguments], stdin=subprocess.PIPE, stdout=subprocess.PIPE, stderr=subprocess.PIPE)
    host.stdin.write((TABLE_LINES + first_lines).encode())
    host.stdin.flush()
    return host


def answers_come_as_lines_come():
    for arguments in (["--store", PATH], ["--live"]):
        remove(PATH)
        host = waiting_host(arguments, "begin 1\n")
        assert host.stdout.readline() == b"desk 1 begins: opened, age 1, start 0\n"
        host.stdin.write(b"write 1 5 6\n")
        host.stdin.flush()
        assert host.stdout.readline() == b"desk 1 writes 6 to item 5: stored, unseen by others\n"
        told = host.communicate()[0].decode()
        assert host.returncode == 0 and told.endswith("desk 1, age 1: item 5 = 6, not committed\n"), told


def signals_end_in_order():
    for name in (signal.SIGTERM, signal.SIGINT, signal.SIGHUP):
        remove(PATH)
        host = waiting_host(["--store", PATH], "begin 3\nwrite 3 5 6\nbegin 1\nend 1\n")
        told = b"".join(host.stdout.readline() for _ in range(4))
        host.send_signal(name)
        told += host.communicate()[0]
        assert host.returncode == 0 and b"desk 3, age 1: item 5 = 6, not committed\n" in told, told
        assert Store(PATH).segments[-1].closed == 1 << 3
    status, told, errors = serve(HOST, PATH, "")
    assert "Open then, and gone: desk 3." in unwrapped(told), told


def a_room_that_never_opened():
    """Ended or left before the first request, with half a table: nothing is made."""
    for end in (lambda host: host.send_signal(signal.SIGTERM), lambda host: host.stdin.close()):
        remove(PATH)
        host = subprocess.Popen([HOST, "--store", PATH], stdin=subprocess.PIPE, stdout=subprocess.PIPE, stderr=subprocess.PIPE)
        host.stdin.write(b"0 0 9 0 open\n")
        host.stdin.flush()
        time.sleep(0.1)
        end(host)
        told, errors = host.stdout.read(), host.stderr.read().decode()
        assert host.wait() == (2 if "no line for item 1 so far" in errors else 0) and told == b"", errors
        assert not os.path.exists(PATH)


def a_reader_that_goes_away():
    """Nobody hears the answers: the host stops, and what it committed stands."""
    remove(PATH)
    host = waiting_host(["--store", PATH], "begin 1\n")
    host.stdout.readline()
    host.stdout.close()
    host.stdin.write(transaction(2, [(5, 5)]).encode() * 100)
    host.stdin.close()
    errors = host.stderr.read().decode()
    assert host.wait() == 2 and "standard output: Broken pipe" in errors, errors
    assert len(Store(PATH).commits()) <= 1


def random_lines():
    """Bytes of every kind, and words that nearly fit: each is answered, and the room goes on."""
    chance = random.Random(7)
    words = ["begin", "read", "write", "end", "abandon", "name", "item", "desk", "default", "##", "#", "\t", "3", "15", "64",
             "255", "256", "4294967295", "4294967296", "99999999999999999999", "-1", "1,5", "open", "haemoglobin", ""]
    lines = [b"begin 0"]
    for _ in range(20_000):
        if chance.random() < 0.8:
            lines.append(" ".join(chance.choice(words) for _ in range(chance.randrange(7))).encode())
        else:
            lines.append(chance.randbytes(chance.randrange(60)).replace(b"\n", b""))
    script = (TABLE_LINES.encode() + b"\n".join(lines) + b"\n")
    done = subprocess.run([HOST, "--live"], input=script, capture_output=True, timeout=60)
    assert done.returncode == 0 and done.stderr == b"", done.stderr
    assert not any(byte < 32 and byte != 10 or byte == 127 for byte in done.stdout), "a control character was told"
    assert done.stdout.count(b" is not served: ") > 10_000
    return f"{len(lines)} lines"


def looking_beside_a_busy_host():
    """Whoever looks sees a whole store with ever more commits, and the host does not notice."""
    remove(PATH)
    host = waiting_host(["--store", PATH], "")
    script = "".join(transaction(desk, [(item, desk) for item in range(3, 3 + 4 * desk)]) for desk in range(16)) * 250
    feeder = threading.Thread(target=lambda: (host.stdin.write(script.encode()), host.stdin.close()))
    reader = threading.Thread(target=lambda: host.stdout.read())
    while not os.path.exists(PATH):
        feeder.is_alive() or reader.start() or feeder.start()
    seen, looks = [], 0
    while feeder.is_alive():
        status, told, errors = run(HOST, ["--board", PATH])
        assert status == 0, told + errors
        seen.append(int(re.search(r": (\d+) commits? in ", told).group(1)))
        looks += 1
    feeder.join()
    reader.join()
    assert host.wait() == 0 and seen == sorted(seen) and len(set(seen)) > 5, seen
    assert len(Store(PATH).commits()) == 4_000
    return f"{looks} looks, {len(set(seen))} of them different"


def memory_of(process):
    with open(f"/proc/{process.pid}/status") as file:
        return int(re.search(r"VmRSS:\s+(\d+) kB", file.read()).group(1))


def memory_stays_flat(arguments, count):
    """The host's memory a quarter of the way, and from there on to the end."""
    def body():
        remove(PATH)
        host = subprocess.Popen([HOST, *arguments], stdin=subprocess.PIPE, stdout=subprocess.PIPE)
        counting = subprocess.Popen(["wc", "-l"], stdin=host.stdout, stdout=subprocess.PIPE)
        host.stdout.close()
        host.stdin.write(TABLE_LINES.encode())
        chunk = "".join(transaction(desk, [(item, desk) for item in range(3, 6)]) + f"begin {desk}\nabandon {desk}\n"
                        for desk in range(16)).encode()
        requests = chunk.count(b"\n")
        memory = []
        for place in range(count // requests):
            host.stdin.write(chunk)
            if place % (count // requests // 4) == 20:
                host.stdin.flush()
                memory.append(memory_of(host))
        memory.append(memory_of(host))
        host.stdin.close()
        assert host.wait() == 0
        lines = int(counting.communicate()[0])
        assert lines >= count // requests * requests, f"{lines} lines"
        assert max(memory) < 8_192 and max(memory[1:]) - memory[1] < 64, f"memory {memory} kB"
        return f"{count // requests * requests:,} requests, {lines:,} lines, memory {memory} kB"
    return body


check("rooms: 20,000 begins", twenty_thousand_begins)
check("rooms: a quiet moment that does not come", a_quiet_moment_that_does_not_come)
check("rooms: room for all who are open", room_for_all_who_are_open)
check("rooms: kept ages outlast the first chances to turn over", kept_ages_outlast_the_first_chances)
check("rooms: wrong lines are answered", wrong_lines_are_answered)
check("rooms: a wrong row opens nothing", a_wrong_row_opens_nothing)
check("rooms: answers come as lines come", answers_come_as_lines_come)
check("rooms: signals end the room in order", signals_end_in_order)
check("rooms: a room that never opened", a_room_that_never_opened)
check("rooms: a reader that goes away", a_reader_that_goes_away)
check("rooms: random lines", random_lines)
check("rooms: looking beside a busy host", looking_beside_a_busy_host)
if REQUESTS > 0:
    check("rooms: memory stays flat, --live", memory_stays_flat(["--live"], REQUESTS))
    check("rooms: memory stays flat, --store", memory_stays_flat(["--store", PATH], REQUESTS // 5))
remove(PATH)
