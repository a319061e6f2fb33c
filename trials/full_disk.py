#!/usr/bin/env python3
"""Fills a disk under load, and looks afterwards at each block. Hosts write and flush, each in its part of a sparse disk that
has more blocks than there is room for. Then the array is killed, started anew, and every block is read: one that was GOOD
with a flush behind it (SYNCHRONIZE CACHE, or FUA) is there, and any other has a value that it had since; whatever did not
go well was answered CHECK CONDITION, 03 0C/00. The ways to be full:

    limit   a file that may not grow past 2 MiB (RLIMIT_FSIZE)
    tmpfs   a file in a file system of 2 MiB in memory        root
    ext4    a file in an ext4 of 8 MiB over a loop device     root
    xfs     the same with XFS, of 300 MiB, most of it taken   root, mkfs.xfs
    btrfs   the same with btrfs, of 120 MiB                   root, mkfs.btrfs
    thin    a loop device whose own file finds no room: writes are taken, and the flush fails, as on a thin volume   root

usage: trials/full_disk.py [WAY..]       all that this machine can do, where none is named; ends with status 1 where it is not so
"""

import os
import random
import shutil
import struct
import subprocess
import sys
import tempfile
import threading
import time

from initiator import BLOCK, CHECK_CONDITION, GOOD, Session
from running import PORT, TARGET, Array, Wrong, made

HOSTS, MIB = 4, 2048
FULL = (0x03, 0x0C, 0x00)


def content(host, lba, count):
    """What a host writes into a block for the so-many'th time; 0 is what was there before."""
    return struct.pack(">QQQ", host, lba, count).ljust(BLOCK, b"#") if count else bytes(BLOCK)


def run(*words):
    subprocess.run(words, check=True, stdout=subprocess.DEVNULL, stderr=subprocess.DEVNULL)


class Host:
    """A host, which writes into its own blocks, and knows which values each may have."""

    def __init__(self, number, first, blocks, seed):
        self.number, self.first, self.blocks = number, first, blocks
        self.random = random.Random(seed)
        self.session = Session("127.0.0.1", PORT + 4 * (number % 2), TARGET, f"iqn.2000-01.test:host{number}")
        self.session.ready(0)
        # by block: the values that it may have, and the last one whose write was GOOD
        self.may_be, self.last_good = {}, {}
        # of every fourth run of 16 blocks, those that were written and flushed: they are never written again
        self.kept = set()
        self.count = 0
        self.ended = {"write": [0, 0], "flush": [0, 0]}
        self.fault = None

    def end(self, what, reply):
        if reply.status == GOOD:
            self.ended[what][0] += 1
            return True
        if reply.status == CHECK_CONDITION and reply.sense_key() == FULL:
            self.ended[what][1] += 1
            return False
        raise Wrong(f"host {self.number}: {what} is answered status {reply.status:02x} sense {reply.sense_text()}")

    def write(self):
        while True:
            lba = self.first + self.random.randrange(self.blocks - 16)
            blocks = self.random.choice((1, 8, 8, 16))
            if self.kept.isdisjoint(range(lba, lba + blocks)):
                break
        fua = self.random.random() < 0.1
        self.count += 1
        data = b"".join(content(self.number, lba + at, self.count) for at in range(blocks))
        cdb = struct.pack(">BBQIxx", 0x8A, 8 if fua else 0, lba, blocks)
        good = self.end("write", self.session.command(0, cdb, out=data))
        for at in range(lba, lba + blocks):
            self.may_be[at] = {self.count} if good and fua else self.may_be.get(at, {0}) | {self.count}
            if good:
                self.last_good[at] = self.count
        return good

    # What was GOOD before it is there; a write that failed since leaves old blocks or new ones.
    def flush(self):
        cdb = struct.pack(">BxQIxx", 0x91, 0, 0)
        if not self.end("flush", self.session.command(0, cdb)):
            return False
        for lba, last in self.last_good.items():
            self.may_be[lba] = {count for count in self.may_be[lba] if count >= last}
            if lba // 16 % 4 == 0 and len(self.may_be[lba]) == 1:
                self.kept.add(lba)
        return True

    def run(self, until):
        try:
            while time.monotonic() < until:
                for _ in range(self.random.choice((1, 4, 16))):
                    self.write()
                self.flush()
        except Exception as fault:
            self.fault = f"host {self.number}: {fault!r}"

    def check(self, session):
        """Each of its blocks has one of the values that it may have: how many stood alone."""
        alone, at_once = 0, 512
        for first in range(self.first, self.first + self.blocks, at_once):
            found = session.read(0, first, at_once)
            for lba in range(first, first + at_once):
                counts = self.may_be.get(lba, {0})
                block = found[(lba - first) * BLOCK:(lba - first + 1) * BLOCK]
                if block not in [content(self.number, lba, count) for count in counts]:
                    there = struct.unpack(">QQQ", block[:24])
                    raise Wrong(f"block {lba} of host {self.number} has {there}, and may have {sorted(counts)}")
                alone += lba in self.may_be and len(counts) == 1
        return alone


class Way:
    """A place that gets full."""

    blocks = 8 * MIB
    largest = None
    # whether a write succeeds again, without a restart, once there is room
    recovers = True

    def __init__(self, folder):
        self.folder = folder
        self.undo = []
        self.disk = os.path.join(folder, "disk")
        self.make()

    def make(self):
        """Makes the disk."""
        raise NotImplementedError

    def mount(self, *words):
        place = os.path.join(self.folder, "place")
        os.makedirs(place, exist_ok=True)
        run("mount", *words, place)
        self.undo.append(lambda: run("umount", place))
        return place

    def loop(self, file):
        found = subprocess.run(["losetup", "--find", "--show", file], check=True, stdout=subprocess.PIPE, text=True)
        device = found.stdout.strip()
        self.undo.append(lambda: run("losetup", "-d", device))
        return device

    def again(self):
        """Between the end of the array and its next start."""

    def more_room(self):
        """Makes room: whether it could."""
        return False

    def end(self):
        for undo in reversed(self.undo):
            undo()


class Limit(Way):
    largest = 2 << 20

    def make(self):
        made(self.disk, self.blocks)


class Tmpfs(Way):
    def make(self):
        self.place = self.mount("-t", "tmpfs", "-o", "size=2m", "none")
        # the registration file has to have its room: it is no sparse file
        self.disk = made(os.path.join(self.place, "disk"), self.blocks)

    def more_room(self):
        run("mount", "-o", "remount,size=32m", self.place)
        return True


class OnFilesystem(Way):
    size, kind, free = 8, "ext4", 3
    options = ("-q", "-F")

    def make(self):
        image = made(os.path.join(self.folder, "image"), self.size * MIB)
        run(f"mkfs.{self.kind}", *self.options, image)
        self.place = self.mount("-t", self.kind, self.loop(image))
        self.filler = os.path.join(self.place, "filler")
        self.fill()
        self.disk = made(os.path.join(self.place, "disk"), self.blocks)

    # Takes what is more than the room that is to be left.
    def fill(self):
        with open(self.filler, "wb") as file:
            room = os.statvfs(self.place)
            taken = room.f_bavail * room.f_frsize - (self.free << 20)
            os.posix_fallocate(file.fileno(), 0, max(taken, 1))
        run("sync", "-f", self.place)

    def more_room(self):
        os.remove(self.filler)
        run("sync", "-f", self.place)
        return True


class Xfs(OnFilesystem):
    size, kind, options = 300, "xfs", ("-q", "-f")


class Btrfs(OnFilesystem):
    size, kind, options = 120, "btrfs", ("-q", "-f")


class Thin(Way):
    recovers = False

    def make(self):
        self.place = self.mount("-t", "tmpfs", "-o", "size=2m", "none")
        self.file = made(os.path.join(self.place, "thin"), self.blocks)
        self.device = self.loop(self.file)
        os.symlink(self.device, self.disk)

    # What the system only keeps in memory of the device is forgotten.
    def again(self):
        run("losetup", "-d", self.device)
        run("losetup", self.device, self.file)

    def more_room(self):
        run("mount", "-o", "remount,size=32m", self.place)
        return True


WAYS = {"limit": Limit, "tmpfs": Tmpfs, "ext4": OnFilesystem, "xfs": Xfs, "btrfs": Btrfs, "thin": Thin}


def can(way):
    if way == "limit":
        return True
    tool = {"xfs": "mkfs.xfs", "btrfs": "mkfs.btrfs", "ext4": "mkfs.ext4"}.get(way, "mount")
    return os.geteuid() == 0 and shutil.which(tool) is not None


def loads(hosts, seconds):
    until = time.monotonic() + seconds
    threads = [threading.Thread(target=host.run, args=[until]) for host in hosts]
    for thread in threads:
        thread.start()
    for thread in threads:
        thread.join()
    faults = [host.fault for host in hosts if host.fault]
    if faults:
        raise Wrong("; ".join(faults))


def ended(hosts, what, at):
    return sum(host.ended[what][at] for host in hosts)


def fill(name, folder):
    way = WAYS[name](folder)
    try:
        with Array([way.disk], largest=way.largest) as array:
            part = way.blocks // HOSTS
            hosts = [Host(number, number * part, part, f"{name} {number}") for number in range(HOSTS)]
            loads(hosts, 6)
            writes, failed = ended(hosts, "write", 0), ended(hosts, "write", 1)
            flushes, lost = ended(hosts, "flush", 0), ended(hosts, "flush", 1)
            if not failed + lost:
                raise Wrong("the disk never got full")
            told = f"{writes} writes GOOD, {failed} 03 0C/00, {flushes} flushes GOOD, {lost} 03 0C/00"
            if way.more_room():
                went_on = all(hosts[0].write() for _ in range(64)) and hosts[0].flush()
                if went_on != way.recovers:
                    raise Wrong(f"after room was made: {hosts[0].ended}")
                told += "; with room again " + ("it went on" if went_on else "each flush failed until a restart")
            array.kill()
        way.again()
        with Array([way.disk]) as array:
            session = Session("127.0.0.1", PORT, TARGET, "iqn.2000-01.test:reader")
            session.ready(0)
            alone = sum(host.check(session) for host in hosts)
            total = sum(len(host.may_be) for host in hosts)
            session.flush(0)
            session.close()
            if array.quit() != 0:
                raise Wrong("the array did not end well")
        print(f"{name}: {told}; after a restart {alone} blocks whose value was flushed are there, {total - alone} others have "
              "a value that they had since", flush=True)
    finally:
        way.end()


def main():
    ways = sys.argv[1:] or list(WAYS)
    if not set(ways) <= set(WAYS):
        sys.exit(__doc__)
    for name in ways:
        if not can(name):
            print(f"{name}: not tried: it wants root, or a tool that is not there")
            continue
        with tempfile.TemporaryDirectory(dir="/dev/shm" if os.path.isdir("/dev/shm") else None) as folder:
            fill(name, folder)


if __name__ == "__main__":
    try:
        main()
    except Wrong as wrong:
        sys.exit(f"WRONG {wrong}")
