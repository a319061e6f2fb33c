#!/usr/bin/env python3
"""Losses of power of the array as it runs, without a deadline and with one: a library below it (trials/power.c) keeps beside each file
what a disk would have of it, and the program is killed while hosts write by both controllers, flush, write with FUA, compare and
write, register, reserve and fence. Of what was not flushed each sector is there or is not, of a flush that was not answered some; a
name is there when its folder was flushed, or before. Every third time the next start is killed, too. Then all that was GOOD and flushed
has to be there, no block torn, and the registrations those of the last GOOD, or of a request that had no answer.

usage: trials/power.py [--rounds N] [--seed SEED]     N losses without a deadline and N with one of 20 s; 20 where nothing is said

Ends with status 1 where it is not so. The program is ./arrayd, or what the environment's ARRAYD names. Wants a C compiler.
"""

import argparse
import os
import random
import shutil
import sys
import tempfile
import time

from two_machines_hosts import UNITS, Hosts
from free_port import free_port
from running import Array, Wrong, library, made

BLOCKS = 8192
DEADLINE = "20"


class Disks:
    """Files in a folder, and what a disk has of them."""

    def __init__(self, place):
        self.folder, self.disk = os.path.join(place, "disks"), os.path.join(place, "disk")
        self.library = library("trials/power.c", place)
        os.mkdir(self.folder)
        self.paths = [made(os.path.join(self.folder, f"unit{unit}"), BLOCKS) for unit in UNITS]
        self.keep()

    def keep(self):
        """The disk has these files as they are."""
        shutil.rmtree(self.disk, ignore_errors=True)
        os.mkdir(self.disk)
        with open(os.path.join(self.disk, "names"), "w") as names:
            for entry in os.scandir(self.folder):
                shutil.copyfile(entry.path, os.path.join(self.disk, str(entry.inode())))
                names.write(f"{entry.inode()} {entry.name}\n")

    def lose_power(self):
        """The files are what the disk has."""
        shutil.rmtree(self.folder)
        os.mkdir(self.folder)
        with open(os.path.join(self.disk, "names")) as names:
            for node, name in (line.split() for line in names):
                there, path = os.path.join(self.disk, node), os.path.join(self.folder, name)
                if os.path.exists(there):
                    shutil.copyfile(there, path)
                else:
                    open(path, "w").close()
        self.keep()

    def serve(self, port, seed, deadline, is_awaited=True):
        more = {"LD_PRELOAD": self.library, "POWER": self.folder, "POWER_DISK": self.disk, "POWER_SEED": str(seed)}
        if deadline:
            more["ARRAYD_DEADLINE"] = deadline
        return Array(self.paths, port, more=more, is_awaited=is_awaited)


def look(hosts, port):
    """The hosts come back, and look at all that has to be there: how many blocks had one value that they could have."""
    hosts.log_in(port)
    alone, wrong = hosts.check()
    if wrong:
        raise Wrong(f"{len(wrong)} things are lost:\n" + "\n".join(wrong[:20]))
    hosts.begin()
    return alone


def losses(place, rounds, seed, deadline):
    chance, hosts, port, disks = random.Random(seed), Hosts(), free_port(), Disks(place)
    alone = killed = 0
    array = disks.serve(port, seed, deadline)
    try:
        hosts.log_in(port)
        hosts.begin()
        for number in range(1, rounds + 1):
            hosts.fence_anew()
            hosts.start()
            time.sleep(chance.uniform(0.05, 1.0))
            array.kill()
            hosts.stop(is_lost=True)
            disks.lose_power()
            if number % 3 == 0:
                early = disks.serve(port, seed + 1000 * number, deadline, is_awaited=False)
                time.sleep(chance.uniform(0.0, 0.02))
                early.kill()
                disks.lose_power()
                killed += 1
            array = disks.serve(port, seed + number, deadline)
            alone += look(hosts, port)
    finally:
        array.kill()
    answers, flushes = hosts.sums()
    return (f"{rounds} losses of power {f'with a deadline of {deadline} s' if deadline else 'without a deadline'}, {killed} starts killed: "
            f"{answers} answers, {flushes} flushes; {alone} blocks whose value was flushed: nothing is lost, nothing torn")


def main():
    words = argparse.ArgumentParser()
    words.add_argument("--rounds", type=int, default=20)
    words.add_argument("--seed", type=int, default=1)
    asked = words.parse_args()
    for deadline in (None, DEADLINE):
        with tempfile.TemporaryDirectory(dir="/dev/shm") as place:
            print(losses(place, asked.rounds, asked.seed, deadline), flush=True)


if __name__ == "__main__":
    try:
        main()
    except Wrong as wrong:
        sys.exit(f"WRONG {wrong}")
