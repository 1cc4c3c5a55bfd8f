"""Ways in which a host once lost, spoilt or took for whole what it should not: attacks.py HOST PROGRAM FOLDER STRIDE."""

import os
import shutil
import stat
import subprocess
import sys

from store_file import *

HOST, PROGRAM, FOLDER, STRIDE = *sys.argv[1:4], int(sys.argv[4])
PATH = os.path.join(FOLDER, "attacked.store")
OTHER = os.path.join(FOLDER, "attacked.other")
STORE = ["--journal", PATH]
MORNING = TABLE_LINES + transaction(3, [(0, 7), (2, 115)]) + transaction(4, [(5, 5)])


def clear():
    for name in os.listdir(FOLDER):
        if name.startswith("attacked"):
            os.remove(os.path.join(FOLDER, name))


def fresh():
    """A new store with two commits, and its bytes."""
    clear()
    status, told, errors = run(HOST, STORE, MORNING)
    assert (status, errors) == (0, ""), errors
    return bytes_of(PATH)


def shell(command):
    done = subprocess.run(["bash", "-c", command], capture_output=True, timeout=30)
    return done.returncode, done.stdout.decode(), done.stderr.decode()


def names():
    return sorted(name for name in os.listdir(FOLDER) if name.startswith("attacked"))


def whole_and_right(path=None):
    store = Store(path or PATH)
    assert store.commits()[:2] == [[(0, 7), (2, 115)], [(5, 5)]], store.commits()


def closed_descriptors():
    before = fresh()
    for closed in [">&-", ">&- 2>&-", "<&- >&-"]:
        status, told, errors = shell(f"'{HOST}' --journal '{PATH}' </dev/null {closed}")
        assert status == 2 and bytes_of(PATH) == before, f"{closed}: status {status}"
    for closed in ["2>&-", "0<&- 2>&-", "0<&-"]:
        status, told, errors = shell(f"'{HOST}' --journal '{PATH}' </dev/null {closed}")
        assert status == 0 and "Restored: 2 commits" in told, f"{closed}: status {status}"
        whole_and_right()
    clear()
    status, told, errors = shell(f"printf '%s' '{MORNING}' | '{HOST}' --journal '{PATH}' 2>&-")
    assert status == 0
    whole_and_right()


def begin_room(path=PATH):
    host = subprocess.Popen([HOST, "--journal", path], stdin=subprocess.PIPE, stdout=subprocess.PIPE, stderr=subprocess.PIPE)
    host.stdin.write(b"begin 1\n")
    host.stdin.flush()
    while host.stdout.readline() not in (b"desk 1 begins: opened, age 1, start 0\n", b""):
        pass
    return host


def end_room(host, lines):
    told, errors = host.communicate(lines.encode())
    return host.returncode, told.decode(), errors.decode()


def two_hosts():
    fresh()
    first = begin_room()
    before = bytes_of(PATH)
    for path in (PATH, OTHER, OTHER + "2"):
        if path == OTHER:
            os.symlink(PATH, OTHER)
        if path == OTHER + "2":
            os.link(PATH, path)
        status, told, errors = run(HOST, ["--journal", path], transaction(9, [(9, 9)]))
        assert status == 5 and told == "" and f"process {first.pid}" in unwrapped(errors), f"{path}: {status} {errors}"
        assert bytes_of(PATH) == before, "the second host changed the store"
    status, told, errors = end_room(first, "write 1 6 6\nend 1\n")
    assert status == 0 and "desk 1 ends: committed as number 1" in told, told + errors
    whole_and_right()
    assert Store(PATH).values()[6] == 6


def a_store_whose_name_is_taken_away():
    """The lock goes with the file; and into a file that nobody finds nothing is committed any more."""
    for take_away in [lambda: os.rename(PATH, OTHER), lambda: os.remove(PATH),
                      lambda: (os.rename(PATH, OTHER), run(HOST, STORE, MORNING))]:
        fresh()
        first = begin_room()
        take_away()
        if os.path.exists(OTHER):
            assert run(HOST, ["--journal", OTHER])[0] == 5, "the lock did not go with the file"
        status, told, errors = end_room(first, "write 1 6 6\nend 1\n")
        assert status == 3 and "committed" not in told, f"{status}: {told}"
        assert "is no longer the store that was opened" in unwrapped(errors), errors


def flipped_bits():
    """Every STRIDEth bit of the frames: the host stops, leaves the file alone, and the salvage has all of it back."""
    before = fresh()
    end = Store(PATH).end
    wanted = Store(PATH).values()
    for tried, bit in enumerate(range(0, 8 * end, STRIDE)):
        spoilt = bytearray(before)
        spoilt[bit // 8] ^= 1 << bit % 8
        with open(PATH, "wb") as file:
            file.write(spoilt)
        status, told, errors = run(HOST, STORE, transaction(9, [(9, 9)]))
        assert status == 4 and told == "" and errors, f"bit {bit}: {status} {told}"
        assert bytes_of(PATH) == spoilt, f"bit {bit}: the damaged store was changed"
        assert names() == ["attacked.store"], names()
        if tried % 3 == 0:
            status, told, errors = run(HOST, ["--salvage", PATH, OTHER])
            assert status == 0 and "Nothing was left out." in told, f"bit {bit}: {told}{errors}"
            assert Store(OTHER).values() == wanted and bytes_of(PATH) == spoilt
            os.remove(OTHER)
    return f"{tried + 1} bits"


def a_ceiling_that_became_another():
    """A ceiling of 250 with one bit more would be 4346, and then 1150 could be committed."""
    before = fresh()
    place = before.index((250).to_bytes(4, "little"))
    with open(PATH, "r+b") as file:
        file.seek(place + 1)
        file.write(bytes([16]))
    status, told, errors = run(HOST, STORE, transaction(9, [(2, 1150)]))
    assert status == 4 and told == "" and "damaged: " in unwrapped(errors), told + errors


def damage_is_kept():
    """More than one bit: what stands before it is salvaged, what cannot be had is told, the store stays."""
    clear()
    script = MORNING + "".join(transaction(5, [(7, place)]) for place in range(10))
    assert run(HOST, STORE, script)[0] == 0
    before = bytearray(bytes_of(PATH))
    store = Store(PATH)
    place = store.end - 8 * SLOT
    before[place + 4 : place + 30] = b"?" * 26
    with open(PATH, "wb") as file:
        file.write(before)
    status, told, errors = run(HOST, STORE, transaction(9, [(9, 9)]))
    assert status == 4 and f"at byte {place} of {len(before)}" in unwrapped(errors), errors
    assert f"--salvage {PATH} NEW" in unwrapped(errors), errors
    status, told, errors = run(HOST, ["--salvage", PATH, OTHER])
    told = unwrapped(without_times(told))
    assert status == 4 and f"Left out: bytes {place} to {place + 63} cannot be read." in told, told
    kept = int(told.split("Written to ")[1].split(": ")[1].split()[0])
    assert Store(OTHER).commits() == store.commits()[:kept] and kept == len(store.commits()) - 7
    for value in range(10 - 6, 10):
        assert f"TIME, number {value + 3}, desk 5: item 7 = {value}" in told, told
    assert bytes_of(PATH) == before
    status, told, errors = run(HOST, ["--salvage", PATH, OTHER])
    assert status == 2 and "it is there already, and was left as it is" in unwrapped(errors), errors
    # What never came whole is no damage, and no loss.
    whole = bytearray(fresh())
    end = Store(PATH).end
    whole[(end // 512 + 1) * 512 + 3] = 7
    with open(PATH, "wb") as file:
        file.write(whole)
    status, told, errors = run(HOST, ["--salvage", PATH, OTHER])
    assert status == 0 and "it never came whole, so it was never told" in unwrapped(told), told + errors
    assert "Nothing was left out." in told and Store(OTHER).commits() == Store(PATH).commits()
    status, told, errors = run(HOST, ["--board", PATH])
    assert status == 0 and "it never came whole, so it was never told" in unwrapped(told), told + errors
    status, told, errors = run(HOST, ["--journal", OTHER], transaction(9, [(9, 9)]))
    assert status == 0 and Store(OTHER).values()[9] == 9


def a_loss_in_an_earlier_segment():
    """What a later segment begins with stands in its own table: it is taken over whole, and marked."""
    fresh()
    second = [[(6, place)] for place in range(5)]
    assert run(HOST, STORE, "".join(transaction(6, commit) for commit in second))[0] == 0
    store = Store(PATH)
    before = bytearray(store.data)
    place = before.index(bytes([1, 5, 2, 0, 5, 0, 0, 0])) // SLOT * SLOT  # the second commit of the first segment
    before[place + 8 : place + 24] = b"?" * 16
    with open(PATH, "wb") as file:
        file.write(before)
    assert run(HOST, STORE)[0] == 4
    status, told, errors = run(HOST, ["--salvage", PATH, OTHER])
    assert status == 4 and f"Left out: bytes {place} to {place + SLOT - 1} cannot be read." in unwrapped(told), told + errors
    saved = Store(OTHER)
    assert [segment.cause for segment in saved.segments] == [NEW, SALVAGE], "the gap is not marked"
    assert saved.segments[0].commits == [[(0, 7), (2, 115)]] and saved.segments[1].commits == second
    assert saved.values() == store.values(), "the present values are not those of the store"
    status, told, errors = run(HOST, ["--journal", OTHER], transaction(9, [(9, 9)]))
    assert (status, errors) == (0, "") and Store(OTHER).values() == after(store.values(), [[(9, 9)]]), errors
    # The table of a later segment is lost: its commits are told, and the values before it are kept.
    before = bytearray(store.data)
    place = before.index(store.segments[1].table[:16], 1200) // SLOT * SLOT
    before[place + 100 : place + 140] = b"?" * 40
    os.remove(OTHER)
    with open(PATH, "wb") as file:
        file.write(before)
    status, told, errors = run(HOST, ["--salvage", PATH, OTHER])
    assert status == 4 and Store(OTHER).commits() == store.segments[0].commits, told + errors
    assert all(f", number {number + 1}, desk 6: item 6 = {number}\n" in told for number in range(5)), told


def a_frame_of_another_store():
    """A frame that is right in itself and stands in its place, but in another room's store: nobody takes it, nor a salvage."""
    fresh()
    other = bytes_of(PATH)
    before = bytearray(fresh())
    place = Store(PATH).end - 2 * SLOT  # the second commit; behind it is the note that the host ended
    before[place : place + SLOT] = other[place : place + SLOT]
    with open(PATH, "wb") as file:
        file.write(before)
    status, told, errors = run(HOST, STORE)
    assert status == 4 and "of another place, time or store" in unwrapped(errors), errors
    status, told, errors = run(HOST, ["--salvage", PATH, OTHER])
    assert status == 4 and f"Left out: bytes {place} to {place + SLOT - 1} cannot be read." in unwrapped(told), told
    assert Store(OTHER).commits() == [[(0, 7), (2, 115)]]


def other_files():
    """A file that is no store is not taken for one, whatever it begins with."""
    clear()
    zeros = bytes(1024)
    for data in [b"", zeros, zeros * 64, bytes(100), b"chaffdancer 2\r\n\x1a" + bytes(100), MORNING.encode() * 50,
                 b"SQLite format 3\0" + zeros, table_of(OPENING), table_of(OPENING) + bytes([2, 0, 1, 0, 0, 0, 0, 0])]:
        with open(PATH, "wb") as file:
            file.write(data)
        for arguments in (STORE, ["--board", PATH], ["--log", PATH], ["--salvage", PATH, OTHER], ["--keep", "1", PATH, OTHER]):
            status, told, errors = run(HOST, arguments, MORNING)
            assert status == 4 and told == "" and errors, f"{arguments[0]} {data[:20]}: {status} {told}"
        assert bytes_of(PATH) == data and names() == ["attacked.store"], "another file was touched"
    with open(PATH, "wb") as file:
        file.truncate(1 << 30)
    status, told, errors = run(HOST, STORE, MORNING)
    assert status == 4 and os.stat(PATH).st_size == 1 << 30, "a large image was taken"
    clear()


def files_of_earlier_hosts():
    """A table and records without checksums are taken over only where that is asked for."""
    clear()
    records = b"".join([bytes([1, 5, 1, 0, 9, 0, 0, 0]), bytes([2, 0, 1, 0, 1, 0, 0, 0]), bytes([1, 6, 2, 0, 9, 0, 0, 0])])
    with open(OTHER, "wb") as file:
        file.write(table_of(OPENING) + records)
    status, told, errors = run(HOST, ["--import", OTHER, PATH])
    assert status == 0 and told.startswith(f"Written to {PATH}: the values after 1 commit.\nitem 5: 0 -> 9\n"), told + errors
    assert Store(PATH).values() == after(OPENING, [[(5, 9)]]) and bytes_of(OTHER) == table_of(OPENING) + records
    status, told, errors = run(HOST, ["--import", OTHER, PATH])
    assert status == 2 and "it is there already" in unwrapped(errors) and told == "", errors
    assert run(HOST, STORE, transaction(1, [(6, 6)]))[0] == 0 and Store(PATH).values()[5:7] == [9, 6]
    for data in [b"", table_of(OPENING)[:-1], bytes([255]) * 1024]:
        with open(OTHER, "wb") as file:
            file.write(data)
        assert run(HOST, ["--import", OTHER, PATH + ".new"])[0] == 4 and not os.path.exists(PATH + ".new")


def one_malformed_line():
    """The room and every open transaction go on."""
    clear()
    script = TABLE_LINES + "begin 1\nwrite 1 5 6\nbegin 2\nwrite 2 1 115,0\nend 1\nwrite 2 1 115\nend 2\n"
    status, told, errors = run(HOST, STORE, script)
    assert (status, errors) == (0, ""), errors
    assert "desk 2: line 7 is not served: the value is not a whole number: 115,0\n" in told, told
    assert Store(PATH).commits() == [[(5, 6)], [(1, 115)]]


def true_words():
    before = fresh()
    end = Store(PATH).end
    # The store is cut inside, and just behind, the last commit that was told.
    for length in (end - SLOT - 10, end - SLOT, end - 2 * SLOT):
        with open(PATH, "wb") as file:
            file.write(before[:length])
        status, told, errors = run(HOST, STORE)
        assert status == 4 and "the file is cut" in unwrapped(errors), f"{length}: {told}{errors}"
        assert bytes_of(PATH) == before[:length]
    # Open transactions are named, when the host ends and when the next begins.
    clear()
    status, told, errors = run(HOST, STORE, MORNING + "begin 8\nwrite 8 9 9\nbegin 7\n")
    assert told.endswith("Still open, and seen by nobody else:\ndesk 7, age 4: nothing written\n"
                         "desk 8, age 3: item 9 = 9, not committed\n"), told
    for restart in range(3):
        status, told, errors = run(HOST, STORE)
        assert f"Restored: 2 commits in {restart + 1} segment" in told and "item 2: 140 -> 115\n" in told, told
        assert ("Open then, and gone: desk 7, desk 8." in unwrapped(told)) == (restart == 0), told
    host = begin_room()
    host.kill()
    host.wait()
    told = run(HOST, STORE)[1]
    assert "Its last host did not end in order." in told and "what was open then is gone" in unwrapped(told), told


def looking_changes_nothing():
    before = fresh()
    os.utime(PATH, (1, 1))
    os.chmod(PATH, 0o400)
    for arguments in (["--board", PATH], ["--log", PATH], ["--log", PATH, "--as", "script"], ["--log", PATH, "--as", "sql"]):
        status, told, errors = run(HOST, arguments)
        assert status == 0 and told and errors == "", errors
        about = os.stat(PATH)
        assert bytes_of(PATH) == before and about.st_mtime == 1 and names() == ["attacked.store"], arguments


def links_and_modes():
    before = fresh()
    # A symbolic link is resolved; the file behind it keeps its mode, its owner and its place.
    os.rename(PATH, OTHER)
    os.chmod(OTHER, 0o640)
    owner = (12345, 54321) if os.geteuid() == 0 else (os.geteuid(), os.getegid())
    os.chown(OTHER, *owner)
    os.symlink("attacked.other", PATH)
    identity = os.stat(OTHER).st_ino
    assert run(HOST, STORE, transaction(9, [(9, 9)]))[0] == 0
    about = os.lstat(OTHER)
    assert stat.S_ISLNK(os.lstat(PATH).st_mode) and about.st_ino == identity
    assert (stat.S_IMODE(about.st_mode), about.st_uid, about.st_gid) == (0o640, *owner)
    assert Store(OTHER).values()[9] == 9
    run(HOST, ["--salvage", PATH, PATH + ".saved"])
    about = os.lstat(PATH + ".saved")
    assert (stat.S_IMODE(about.st_mode), about.st_uid, about.st_gid) == (0o640, *owner)
    # What an attacker has laid beside the store is not touched, nor is a link that leads nowhere followed.
    clear()
    victim = PATH + ".victim"
    for name in (".new", ".tmp", "-journal", "-wal", ".lock"):
        os.symlink(victim, PATH + name)
    assert run(HOST, STORE, MORNING)[0] == 0
    assert not os.path.exists(victim) and stat.S_IMODE(os.stat(PATH).st_mode) == 0o600
    clear()
    os.symlink(victim, PATH)
    status, told, errors = run(HOST, STORE, MORNING)
    assert status == 2 and not os.path.exists(victim), told
    # A pipe is no store, and nobody waits for its other end; nor are devices and folders.
    clear()
    os.mkfifo(PATH)
    for path in (PATH, "/dev/null", "/dev/zero", FOLDER, FOLDER + "/absent/x", PATH + "/x"):
        for arguments in (["--journal", path], ["--board", path], ["--log", path], ["--salvage", path, OTHER]):
            status, told, errors = run(HOST, arguments, MORNING, timeout=10)
            assert status == 2 and told == "" and errors, f"{arguments}: {status}"
    clear()


def the_last_line():
    """A file's last line needs no newline; one from a pipe may have been cut, and is not served."""
    clear()
    script = PATH + ".script"
    with open(script, "w") as file:
        file.write(MORNING + "begin 1\nwrite 1 6 6\nend 1")
    status, told, errors = run(HOST, [*STORE, script])
    assert status == 0 and "desk 1 ends: committed as number 3\n" in told, told + errors
    status, told, errors = run(HOST, STORE, "begin 1\nend 1")
    assert "line 2 is not served: it has no newline, so it may be cut\n" in told, told
    assert len(Store(PATH).commits()) == 3


def read_only():
    """A file that may not be written is served to nobody, and can be looked at."""
    before = fresh()
    os.chmod(PATH, 0o444)
    os.chmod(FOLDER, 0o755)
    host = shutil.copy(HOST, PATH + ".host")
    nobody = ["setpriv", "--reuid=65534", "--regid=65534", "--clear-groups"] if os.geteuid() == 0 else ["env"]
    done = subprocess.run([*nobody, host, *STORE], input=b"", capture_output=True)
    assert done.returncode == 2 and b"Permission" in done.stderr, done.stderr
    done = subprocess.run([*nobody, host, "--board", PATH], capture_output=True)
    assert done.returncode == 0 and b"2 commits in 1 segment" in done.stdout, done.stderr
    assert bytes_of(PATH) == before


def an_exit_status_for_numbers():
    """The program has no exit status; the host prints the same lines and has one."""
    table = table_of(OPENING)
    requests = bytes([1, 3, 0, 0, 0, 0, 0, 0, 3, 3, 5, 0, 9, 0, 0, 0, 4, 3, 0, 0, 0, 0, 0, 0, 9, 9, 9, 9, 9, 9, 9, 9])
    for data, status in [(table + requests, 0), (table, 0), (b"", 1), (table[:-1], 1), (table + requests[:-1], 1),
                         (table + requests[:8] * 4097, 1), (table + requests[:8] * 4096, 0)]:
        wanted = subprocess.run([PROGRAM], input=data, capture_output=True).stdout
        done = subprocess.run([HOST, "--bytes"], input=data, capture_output=True)
        assert (done.returncode, done.stdout) == (status, wanted), done.stdout[:200]
    with open(OTHER, "wb") as file:
        file.write(table + requests)
    for output in [">/dev/full", ">&-"]:
        status, told, errors = shell(f"'{HOST}' --bytes '{OTHER}' {output}")
        assert status == 2 and "standard output" in errors, f"{output}: {status} {errors}"
    clear()


check("attacks 1: closed descriptors", closed_descriptors)
check("attacks 2: two hosts on one store", two_hosts)
check("attacks 2: a store whose name is taken away", a_store_whose_name_is_taken_away)
check("attacks 3: flipped bits", flipped_bits)
check("attacks 3: a ceiling that became another", a_ceiling_that_became_another)
check("attacks 4: damage is kept and told", damage_is_kept)
check("attacks 4: a loss in an earlier segment", a_loss_in_an_earlier_segment)
check("attacks 4: a frame of another store", a_frame_of_another_store)
check("attacks 5: other files", other_files)
check("attacks 5: files of earlier hosts", files_of_earlier_hosts)
check("attacks 6: one malformed line", one_malformed_line)
check("attacks 7: what is told is true", true_words)
check("attacks 7: looking changes nothing", looking_changes_nothing)
check("attacks 8: links, modes, pipes", links_and_modes)
check("attacks 8: the last line", the_last_line)
check("attacks 8: files that may not be written", read_only)
check("attacks 9: an exit status for numbers", an_exit_status_for_numbers)
clear()
