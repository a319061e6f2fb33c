#!/usr/bin/env python3
"""Failover under load: hosts with a path through each controller write, with FUA and without, flush and read back while the
console takes controllers down and SET TARGET PORT GROUPS brings them up again. A host tries again after BUSY and a unit
attention, and goes by its other path where its own is not accessible. At the end each unit's history has as many entries as
were answered: none is lost and none is done twice; and every block, by both paths, is the last one written. Ends with status 1
otherwise.

usage: trials/failover.py [HOSTS [SECONDS]]

The disks lie in $DISKS, or in a folder of /dev/shm. Over those that bench/slow_disk.c makes slow, reads are looked ahead to.
"""

import os
import sys
import tempfile
import threading
import time

from initiator import BLOCK, BUSY, GOOD, Session
from running import TARGET, Array, made

UNITS, PLACES, BLOCKS = 2, 16, 8
# So many reads of a host are open at a time.
AT_ONCE = 8
# Of so many writes one has FUA, and behind one of so many comes a SYNCHRONIZE CACHE.
WITH_FUA, FLUSHED = 3, 10
OPTIMIZED, NON_OPTIMIZED = 0, 1


class Host:
    """A host with a path through each controller. It counts what was answered at each unit, the attaches among it."""

    def __init__(self, number, array):
        self.number = number
        name = f"iqn.2000-01.test:host{number}"
        self.paths = [Session(*array.portal(controller), TARGET, name) for controller in (1, 2)]
        self.by = [number % 2] * UNITS
        self.entries = [len(self.paths)] * UNITS
        self.busy = self.told = self.changed = 0
        self.held = {}
        self.fault = None

    # Whether a command ended GOOD that came by this path; else it is to be sent again, maybe by the other one.
    def is_good(self, unit, by, reply):
        if reply.status == BUSY:
            self.busy += 1
            return False
        self.entries[unit] += 1
        if reply.status == GOOD:
            return True
        key = reply.sense_key()
        if key and key[0] == 0x06:
            self.told += 1
        elif key == (0x02, 0x04, 0x0C):
            self.changed += 1
            self.by[unit] = by ^ 1
        else:
            raise AssertionError(f"status {reply.status:02x} sense {reply.sense_text()}")
        return False

    # The data of a command that ends GOOD, by the path that serves it.
    def good(self, unit, cdb, out=b"", expected=0):
        while True:
            by = self.by[unit]
            reply = self.paths[by].command(unit, cdb, out, expected)
            if self.is_good(unit, by, reply):
                return reply.data

    def place(self, place):
        return (self.number * PLACES + place) * BLOCKS

    def write(self, unit, place, count):
        data = b"%8d %d %3d" % (count, unit, self.number)
        data = data.ljust(BLOCK, b".") * BLOCKS
        lba = self.place(place)
        fua = 0x08 if count % WITH_FUA == 0 else 0
        self.good(unit, bytes([0x2A, fua, *lba.to_bytes(4, "big"), 0, 0, BLOCKS]), out=data)
        self.held[unit, place] = data
        if count % FLUSHED == 0:
            self.good(unit, bytes([0x35, *bytes(9)]))

    def read_of(self, place):
        return bytes([0x28, 0, *self.place(place).to_bytes(4, "big"), 0, 0, BLOCKS])

    def compare(self, unit, place, data):
        if data != self.held[unit, place]:
            raise AssertionError(f"unit {unit} LBA {self.place(place)}: {data[:20]}, and not {self.held[unit, place][:20]}")

    def check(self, unit, place):
        self.compare(unit, place, self.good(unit, self.read_of(place), expected=BLOCKS * BLOCK))

    # Several places at once, so that the array has commands to look ahead to; each that is not GOOD once more.
    def check_some(self, unit):
        by = self.by[unit]
        places = [place for of, place in self.held if of == unit][:AT_ONCE]
        tags = [self.paths[by].submit(unit, self.read_of(place), expected=BLOCKS * BLOCK) for place in places]
        replies = [self.paths[by].wait(tag) for tag in tags]
        for place, reply in zip(places, replies):
            if self.is_good(unit, by, reply):
                self.compare(unit, place, reply.data)
            else:
                self.check(unit, place)

    def run(self, until):
        count = 0
        try:
            while time.monotonic() < until:
                unit, place = count % UNITS, count // UNITS % PLACES
                self.write(unit, place, count)
                self.check(unit, place)
                self.check_some(unit)
                count += 1
        except Exception as fault:
            self.fault = f"host {self.number}: {fault!r}"

    # Each block by each path.
    def check_all(self):
        for by in range(2):
            self.by = [by] * UNITS
            for unit, place in self.held:
                self.check(unit, place)


def entries(array):
    """How long the history of each unit is."""
    return [int(line.split()[-1]) for line in array.ask("status", UNITS)]


def bring_up(host, optimized):
    """Both groups serve again, and this one (0 or 1) owns each unit."""
    states = [(1, OPTIMIZED), (2, NON_OPTIMIZED)] if optimized == 0 else [(1, NON_OPTIMIZED), (2, OPTIMIZED)]
    values = bytes(4) + b"".join(bytes([state, 0, 0, group]) for group, state in states)
    for unit in range(UNITS):
        host.good(unit, bytes([0xA4, 0x0A, 0, 0, 0, 0, 0, 0, 0, len(values), 0, 0]), out=values)


def move_about(array, host, until):
    """Takes the controllers down in turn, and brings them up again: how often."""
    downs = 0
    while time.monotonic() < until:
        for controller in range(2):
            if array.ask(f"down {controller + 1}") != ["down"]:
                sys.exit(f"down {controller + 1} was not done")
            downs += 1
            time.sleep(0.02)
            bring_up(host, optimized=controller if downs % 4 < 2 else 1 - controller)
            time.sleep(0.02)
    return downs


def tried(array, count, seconds):
    """So many hosts work for so long while controllers go down and come up; what came of it."""
    hosts = [Host(number, array) for number in range(count)]
    mover = Host(count, array)
    until = time.monotonic() + seconds
    threads = [threading.Thread(target=host.run, args=[until]) for host in hosts]
    for thread in threads:
        thread.start()
    downs = move_about(array, mover, until)
    for thread in threads:
        thread.join()
    faults = [host.fault for host in hosts if host.fault]
    if faults:
        sys.exit("\n".join(faults))
    for host in hosts:
        host.check_all()
    everyone = hosts + [mover]
    wanted = [downs + sum(host.entries[unit] for host in everyone) for unit in range(UNITS)]
    found = entries(array)
    if found != wanted:
        sys.exit(f"the histories have {found} entries, and {wanted} were answered")
    told, changed, busy = (sum(getattr(host, what) for host in everyone) for what in ("told", "changed", "busy"))
    if not told or not changed:
        sys.exit("nobody met a controller that went down")
    if array.quit() != 0:
        sys.exit("the array did not end well")
    return f"{sum(found)} entries, {downs} times down; {told} told, {changed} changed over, {busy} BUSY: all is there"


def main():
    count, seconds = (int(word) for word in (sys.argv[1:] + ["8", "20"][len(sys.argv) - 1:]))
    with tempfile.TemporaryDirectory(dir=os.environ.get("DISKS", "/dev/shm")) as folder:
        disks = [made(os.path.join(folder, f"{unit}.img"), (count + 1) * PLACES * BLOCKS) for unit in range(UNITS)]
        with Array(disks) as array:
            print(tried(array, count, seconds))


if __name__ == "__main__":
    main()
