"""Hosts killed at any moment, again and again, on one store: kills.py HOST ROUNDS SEED FOLDER.

Between a begin and a death there are restarts, turnovers, a second host that is turned away, and people who look.
"""

import os
import random
import re
import signal
import subprocess
import sys
import time

from store_file import *

HOST, ROUNDS, SEED, FOLDER = sys.argv[1], int(sys.argv[2]), int(sys.argv[3]), sys.argv[4]
PATH = os.path.join(FOLDER, f"kills-{SEED}.store")
chance = random.Random(SEED)


def writes(desk, large):
    """Each desk has items of its own, so that every end commits."""
    own = [item for item in range(3, 63) if item % 3 == desk]
    items = sorted(chance.sample(own, 20 if large else chance.choice([0, 1, 1, 2, 5, 20])))
    return [(item, chance.randrange(4_000_000_001)) for item in items]


def morning(count, large):
    """Lines of three desks that work side by side, and what each end commits, in their order."""
    lines, commits, all_end = [], [], False
    waiting = {desk: [] for desk in range(3)}
    written = {}
    while len(commits) < count:
        # Now and then the room is quiet: all end before the next begins.
        open_desks = [desk for desk in waiting if waiting[desk]]
        all_end = bool(open_desks) and (all_end or chance.random() < 0.005)
        desk = chance.choice(open_desks) if all_end else chance.randrange(3)
        if not waiting[desk]:
            written[desk] = writes(desk, large)
            shuffled = chance.sample(written[desk], len(written[desk]))
            waiting[desk] = ([f"begin {desk}"] + [f"write {desk} {item} {value}" for item, value in shuffled]
                             + [f"end {desk}"])
        line = waiting[desk].pop(0)
        lines.append(line)
        if line.startswith("end"):
            commits.append(written[desk])
    return "\n".join(lines) + "\n", commits


class Counts:
    told = untold = turnovers = turned_away = looks = torn = 0


def visit(host):
    """A second host is turned away by name of the first; a look changes nothing and sees what was told."""
    status, told, errors = serve(HOST, PATH, "")
    assert (status, told) == (5, "") and f"another host serves it, process {host.pid}" in unwrapped(errors), errors
    Counts.turned_away += 1
    status, told, errors = run(HOST, ["--board", PATH])
    assert status == 0 and f"A host serves it now, process {host.pid}." in told, told + errors
    Counts.looks += 1


def killed(script, lines):
    """Feeds the script through a pipe that stays open, and kills the host after so many lines told."""
    with open(PATH + ".script", "w") as file:
        file.write(script)
    host = subprocess.Popen([HOST, "--store", PATH], stdin=subprocess.PIPE, stdout=subprocess.PIPE)
    feeder = subprocess.Popen(["cat", file.name, "-"], stdin=subprocess.PIPE, stdout=host.stdin)
    host.stdin.close()
    try:
        told = [host.stdout.readline() for _ in range(lines)]
        if told and chance.random() < 0.1:
            visit(host)
        time.sleep(chance.choice([0, 0, 0.0002, 0.001, 0.003]) * chance.random())
    finally:
        host.send_signal(signal.SIGKILL)
        feeder.kill()
    told.extend(host.stdout.readlines())
    for process in (host, feeder):
        process.wait()
    host.stdout.close()
    feeder.stdin.close()
    assert host.returncode == -signal.SIGKILL, f"the host ended by itself: {host.returncode}"
    return b"".join(told).decode()


def one_round(before):
    """Goes on from a store of these commits, or from none; gives what the next finds."""
    large = chance.random() < 0.15
    script, wanted = morning(420 if large else 30, large)
    lines = script.count("\n")
    there = os.path.exists(PATH)
    told = killed(("" if there else TABLE_LINES) + script,
                  min(chance.choice([0, 0, 1, 5, 20, 50, 100, 150] + [7000] * 5 * large), lines * 9 // 10))
    shown = re.findall(r" ends: committed as number (\d+)", told)
    Counts.told += len(shown)
    Counts.turnovers += told.count("The board was turned over")
    if not os.path.exists(PATH):
        assert not shown and not there, "the store is gone"
        return before
    store = Store(PATH)
    Counts.torn += len(store.tail) > 0
    now = store.commits()
    assert now[: len(before)] == before, "what was told before is lost"
    new = now[len(before) :]
    assert new == wanted[: len(new)], "the store holds what was not asked for"
    assert len(shown) <= len(new) <= len(shown) + 1, f"{len(shown)} told, {len(new)} in the store"
    assert store.values() == after(OPENING, now), "the values are not those of the commits"
    Counts.untold += len(new) - len(shown)
    return now


def killed_again_and_again():
    commits = []
    remove(PATH)
    for place in range(ROUNDS):
        # A new store now and then, so that its making is met by deaths too.
        if place % 50 == 49:
            remove(PATH)
            commits = []
        commits = one_round(commits)
    remove(PATH)
    remove(PATH + ".script")
    assert Counts.told > ROUNDS, f"only {Counts.told} commits were told"
    return (f"{ROUNDS} deaths, {Counts.told} commits told, {Counts.untold} there untold, {Counts.turnovers} turnovers, "
            f"{Counts.turned_away} second hosts turned away, {Counts.looks} looks")


check(f"kills: {os.path.basename(HOST)} killed again and again", killed_again_and_again)
