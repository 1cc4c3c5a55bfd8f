"""The host killed at each of its system calls, and failed by each call of its disk: faults.py HOST KILLER SHIM FOLDER."""

import os
import subprocess
import sys

from store_file import *

HOST, KILLER, SHIM, FOLDER = sys.argv[1:]
PATH = os.path.join(FOLDER, "faults.store")

# What the store holds before, and what the script commits.
BEFORE = [[(0, 7)], [(1, 1), (2, 31)]]
COMMITS = [[(0, 115)], [(5, 1), (6, 2), (7, 3)], [], [(item, 50 + item) for item in range(3, 64)], [(0, 116)]]
SCRIPT = TABLE_LINES + "".join(transaction(4, commit) for commit in COMMITS) + "begin 5\nwrite 5 9 9\n"
CLOSES = "".join(transaction(3, commit) for commit in BEFORE)


def old_store(kind):
    """Nothing; a store that was closed; one whose host was killed; one with a torn commit at its end."""
    remove(PATH)
    if kind == "none":
        return
    serve(HOST, PATH, TABLE_LINES + CLOSES)
    store = Store(PATH)
    if kind == "closed":
        return
    data = bytearray(store.data)
    data[store.end - SLOT : store.end] = bytes(SLOT)  # the note that it was closed
    if kind == "torn":
        data[(store.end // 512 + 1) * 512] = 1  # a sector came, and the one before it did not
    with open(PATH, "wb") as file:
        file.write(data)


def numbers_told(told):
    return [int(line.split()[6].rstrip(",;")) for line in told.splitlines() if " ends: committed as number " in line]


def kept(told, kind, unshown_most=1):
    """What was told is in the store, at most so many commits more, and nothing that was there is lost."""
    shown = len(numbers_told(told))
    if not os.path.exists(PATH):
        assert shown == 0 and kind == "none", "the store is gone"
        return
    store = Store(PATH)
    commits = store.commits()
    if kind != "none":
        assert commits[:2] == BEFORE, "what was there is lost"
        commits = commits[2:]
    assert commits == COMMITS[: len(commits)], f"commits were invented: {commits}"
    assert shown <= len(commits) <= shown + unshown_most, f"{shown} told, {len(commits)} in the store"


def goes_on():
    """The next start restores what the store holds and commits again."""
    before = Store(PATH).values() if os.path.exists(PATH) else OPENING
    segments = len(Store(PATH).segments) if os.path.exists(PATH) else 0
    status, told, errors = serve(HOST, PATH, ("" if segments else TABLE_LINES) + transaction(9, [(50, 50)]))
    assert (status, errors) == (0, ""), errors
    now = Store(PATH)
    assert now.values() == after(before, [[(50, 50)]]) and len(now.segments) == segments + 1
    assert now.segments[-1].closed == 0


def killed(turn):
    """Serves the script up to a system call: whether the host was killed there, and what it told."""
    done = subprocess.run([KILLER, str(turn), HOST, "--store", PATH], input=SCRIPT.encode(), capture_output=True,
                          timeout=60)
    assert done.returncode in (0, 1), f"turn {turn}: {done.returncode} {done.stderr}"
    return done.returncode == 0, done.stdout.decode(), done.stderr.decode()


def killed_at_every_call(kind):
    def body():
        turn, goes = 1, True
        while goes:
            old_store(kind)
            goes, told, errors = killed(turn)
            kept(told, kind)
            # The first calls only start the program.
            if turn > 60 or turn % 10 == 0:
                goes_on()
            turn += 1
        assert turn > 200 and int(errors) == turn - 2
        return f"{turn - 2} deaths"
    return body


def served(call, turn, how, kind="closed"):
    old_store(kind)
    environment = {"LD_PRELOAD": SHIM, "CHAFFDANCER_FAULT": f"{call}:{turn}:{how}"}
    return serve(HOST, PATH, SCRIPT, environment)


# A new store is synced whole, then its folder; a sync for each growth, commit and note of the end.
LEAST_TURNS = {("fsync", "none"): 2, ("fdatasync", "none"): 7, ("fdatasync", "closed"): 7, ("pwrite", "none"): 9,
               ("pwrite", "closed"): 7}


def every_call_failing(call, kind, how):
    """Each turn of a call fails once: what was told is kept, and nothing is told from then on."""
    def body():
        statuses = []
        for turn in range(1, 100):
            status, told, errors = served(call, turn, how, kind)
            if status == 0 and not errors:
                kept(told, kind, 0)
                break
            assert status in (2, 3) and errors, f"turn {turn}: status {status}, {errors}"
            assert "What changed" not in told or status == 3, f"turn {turn}: {told}"
            kept(told, kind)
            goes_on()
            statuses.append(status)
        assert len(statuses) >= LEAST_TURNS.get((call, kind), 1), f"{len(statuses)} turns of {call} were seen to fail"
        return f"{len(statuses)} turns, statuses {sorted(set(statuses))}"
    return body


def synced_before_told():
    """A commit whose sync fails is not told; nor is any behind it."""
    shown = []
    for turn in range(1, 20):
        status, told, errors = served("fdatasync", turn, "EIO")
        if status == 0:
            break
        shown.append(len(numbers_told(told)))
        assert "Input/output error" in unwrapped(errors), errors
    # One sync for the segment, one for each commit, one for the note that the host ended.
    assert shown == [0, 0, 1, 2, 3, 4, 5], shown


def a_disk_that_is_full():
    """Growing fails: the end is not served, nothing is lost, and the room goes on."""
    remove(PATH)
    big = [(item, 9) for item in range(3, 64)]
    script = TABLE_LINES + "".join(transaction(4, big) for _ in range(110)) + transaction(5, [(0, 5)])
    for turn in range(100, 130):
        environment = {"LD_PRELOAD": SHIM, "CHAFFDANCER_FAULT": f"pwrite:{turn}:ENOSPC"}
        remove(PATH)
        status, told, errors = serve(HOST, PATH, script, environment)
        if "not served: the disk has no room for the store" in unwrapped(told):
            break
    else:
        raise AssertionError("the disk was never full")
    assert (status, errors) == (0, ""), errors
    assert unwrapped(told).count(" not served: ") == 1
    assert "desk 4 begins: refused 4" in told, "the transaction did not stay open"
    assert len(Store(PATH).commits()) == len(numbers_told(told)) and Store(PATH).values()[0] == 5


def on_a_small_disk():
    """A real file system of its own, full and then read only; left to the faults above where none may be mounted."""
    folder = os.path.join(FOLDER, "small")
    path = os.path.join(folder, "small.store")
    os.makedirs(folder, exist_ok=True)
    if subprocess.run(["mount", "-t", "tmpfs", "-o", "size=200k", "tmpfs", folder], capture_output=True).returncode != 0:
        os.rmdir(folder)
        return "no file system may be mounted here"
    try:
        assert serve(HOST, path, TABLE_LINES + transaction(1, [(5, 5)]))[0] == 0
        with open(os.path.join(folder, "filler"), "wb") as filler:
            filler.write(bytes(100_000))
        big = [(item, 9) for item in range(3, 64)]
        status, told, errors = serve(HOST, path, "".join(transaction(4, big) for _ in range(200)))
        told = unwrapped(told)
        assert (status, errors) == (0, ""), errors
        assert "not served: the disk has no room for the store" in told, told[-300:]
        assert len(Store(path).commits()) == 1 + len(numbers_told(told)), "a told commit is lost"
        os.remove(filler.name)
        values = Store(path).values()
        status, told, errors = serve(HOST, path, transaction(2, [(6, 6)]))
        assert (status, errors) == (0, "") and Store(path).values() == after(values, [[(6, 6)]]), errors
        subprocess.run(["mount", "-o", "remount,ro", folder], check=True)
        before = bytes_of(path)
        status, told, errors = serve(HOST, path, transaction(2, [(6, 7)]))
        assert (status, told) == (2, "") and "Read-only file system" in unwrapped(errors), errors
        status, told, errors = run(HOST, ["--board", path])
        assert status == 0 and bytes_of(path) == before, errors
    finally:
        subprocess.run(["umount", folder], check=True)
        os.rmdir(folder)
    return "a file system of 200 KB"


def a_sector_that_cannot_be_read():
    """The host stops; the salvage has all that does not stand there, and what stands behind it is told."""
    saved = PATH + ".saved"
    remove(PATH)
    commits = [[(3, place)] for place in range(40)]
    serve(HOST, PATH, TABLE_LINES + "".join(transaction(6, commit) for commit in commits))
    end = Store(PATH).end
    for place in range(0, end, 512):
        environment = {"LD_PRELOAD": SHIM, "CHAFFDANCER_FAULT": f"sector:{place}:EIO"}
        status, told, errors = serve(HOST, PATH, "", environment)
        assert status == 2 and "cannot be read" in unwrapped(errors), f"{place}: {status} {errors}"
        remove(saved)
        status, told, errors = run(HOST, ["--salvage", PATH, saved], "", environment)
        if place < 1152:  # the signature, or the only table
            assert status == 4, f"{place}: {told}"
            continue
        kept = Store(saved).commits()
        told = unwrapped(told)
        lost = [place for place in range(len(kept), 40) if f"desk 6: item 3 = {place}\n" not in told]
        assert status == 4 and kept == commits[: len(kept)] and len(lost) <= 8, f"{place}: lost {lost}"
        assert kept or place < 1664, f"{place}: nothing was kept"
    remove(saved)


def writes_in_parts():
    for call in ["pwrite", "pread"]:
        for how in ["short", "interrupted"]:
            for turn in range(1, 12):
                status, told, errors = served(call, turn, how)
                assert (status, errors) == (0, ""), f"{call} {how} {turn}: {errors}"
                kept(told, "closed", 0)


def is_left_alone():
    """Whether the host takes the store for damaged; then it has not changed it."""
    before = bytes_of(PATH)
    status, told, errors = serve(HOST, PATH, "")
    assert status in (0, 4), errors
    assert status == 0 or bytes_of(PATH) == before, "a damaged store was changed"
    return status == 4


def torn_writes():
    """Killed with only some sectors of a write done, or half its bytes: never taken for whole."""
    damaged = deaths = 0
    for how in ["torn", "half"]:
        for kind in ["none", "closed", "torn"]:
            for turn in range(1, 20):
                status, told, errors = served("pwrite", turn, how, kind)
                if status == 0:
                    break
                assert status == -9, errors
                deaths += 1
                if how == "torn" or not os.path.exists(PATH):
                    kept(told, kind)
                    goes_on()
                else:
                    damaged += is_left_alone()
    assert damaged > 0
    return f"{deaths} deaths, {damaged} of those within a sector taken for damage"


for kind in ["none", "closed", "killed", "torn"]:
    check(f"faults: killed at every system call, {kind} before", killed_at_every_call(kind))
for call in ["pwrite", "fdatasync", "fsync", "linkat", "open"]:
    for how in ["EIO", "ENOSPC", "EROFS"]:
        check(f"faults: {call} fails with {how}, a new store", every_call_failing(call, "none", how))
for call in ["pwrite", "fdatasync", "pread", "open"]:
    for kind in ["closed", "torn"]:
        check(f"faults: {call} fails, {kind} before", every_call_failing(call, kind, "EIO"))
check("faults: synced before told", synced_before_told)
check("faults: a disk that is full", a_disk_that_is_full)
check("faults: on a small disk", on_a_small_disk)
check("faults: a sector that cannot be read", a_sector_that_cannot_be_read)
check("faults: a disk that writes in parts", writes_in_parts)
check("faults: torn writes", torn_writes)
