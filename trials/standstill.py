#!/usr/bin/env python3
"""Disks that stand still for a while and go on, under an array whose calls have a deadline: each ends as an administrator wants,
with no restart. The disk is a library laid under the program (bench/slow_disk.c). Prints a line for each case; ends with
status 1 where one is another.

usage: trials/standstill.py [NAME..]        all, where none is named
"""

import contextlib
import os
import signal
import threading
import time

from cases import FAULTS, Cases, flush, is_so, lines, login, read, until, write
from initiator import GOOD, Failed
from running import Array, Wrong, library, made

CASES = Cases()
case = CASES.case
BLOCKS = 1 << 20


class Disk:
    """An array of one unit, whose disk has this pace, and may be held; its log."""

    def __init__(self, folder, deadline, **pace):
        self.stands, self.log = folder + "/stands", folder + "/log"
        place = folder + "/place"
        os.mkdir(place)
        more = {"LD_PRELOAD": library("bench/slow_disk.c", folder), "SLOW_DISK": place, "SLOW_STANDS": self.stands,
                "SLOW_PAGE": "100", "SLOW_FLUSH": "1000", "ARRAYD_DEADLINE": str(deadline)}
        more.update((name, str(number)) for name, number in pace.items())
        self.array = Array([made(place + "/disk", BLOCKS)], log=self.log, more=more)

    def stand(self, seconds=None):
        """From now on no call comes back, or for so long."""
        open(self.stands, "wb").close()
        if seconds is not None:
            threading.Timer(seconds, self.go_on).start()

    def go_on(self):
        with contextlib.suppress(FileNotFoundError):
            os.remove(self.stands)

    def told(self, event):
        return [line.split(" event=", 1)[1] for line in lines(self.log, event)]

    def __enter__(self):
        return self

    def __exit__(self, *_):
        self.go_on()
        self.array.kill()

    def quits(self):
        self.array.quit(60)


def text(number):
    return b"block %d" % number


def found(session, lba):
    return session.read(0, lba, 1).rstrip(b".")


def side_by_side(hosts, work, seconds):
    """What so many hosts do again and again, each by a session of its own; ends with the first fault of one."""
    faults, end = [], time.monotonic() + seconds

    def one(number):
        try:
            session = login(1 + number % 2, number, timeout=60)
            while time.monotonic() < end and not faults:
                work(session, number)
        except FAULTS as fault:
            faults.append(fault)

    threads = [threading.Thread(target=one, args=(number,)) for number in range(hosts)]
    for thread in threads:
        thread.start()
    return threads, faults


def end_well(threads, faults):
    for thread in threads:
        thread.join()
    if faults:
        raise Wrong(f"a host: {faults[0]!r}")


@case
def flush_of_much(folder):
    """A host writes as fast as it can to a disk of 2 MB/s behind the page cache, as one that turns has where the blocks lie here and
    there, and flushes then: longer than the deadline."""
    with Disk(folder, 2, SLOW_PACE=2) as disk:
        session = login(timeout=120)
        session.ready(0)
        for number in range(24):
            session.write(0, 2048 * number, b"x" * (512 * 2048))
        begun = time.monotonic()
        is_so("the flush", flush(session), GOOD)
        print(f"      24 MiB, then a flush of {time.monotonic() - begun:.1f} s")
        is_so("a read", read(session), GOOD)
        is_so("the log", disk.told("hung"), [])
        disk.quits()


@case
def flushes_that_wait_for_each_other(folder):
    """Each flush takes 2 s, and six hosts write with FUA: they wait for a handle longer than the deadline of 3 s."""
    with Disk(folder, 3, SLOW_FLUSH=2_000_000) as disk:
        login().ready(0)
        end_well(*side_by_side(6, lambda session, number: session.write(0, number, b"y" * 512, fua=True), 20))
        is_so("the log", disk.told("hung"), [])
        disk.quits()


@case
def many_readers_of_a_slow_disk(folder):
    """A page takes 10 ms, and sixteen hosts read here and there: side by side from the first reads on, and not one behind the other."""
    with Disk(folder, 20, SLOW_PAGE=10_000) as disk:
        login().ready(0)
        reads = [0] * 16

        def work(session, number):
            session.read(0, (number * 20011 + reads[number] * 37) * 8 % BLOCKS, 8)
            reads[number] += 1

        end_well(*side_by_side(len(reads), work, 2))
        print(f"      {sum(reads)} reads in 2 s")
        if sum(reads) < 800:
            raise Wrong("they are read one behind the other")
        disk.quits()


@case
def process_that_stands_still(folder):
    """The process stands still for 3 s again and again, under load; its deadline is 2 s."""
    with Disk(folder, 2, SLOW_FLUSH=50_000) as disk:
        login().ready(0)

        def work(session, number):
            session.write(0, 8 * number, text(number).ljust(512, b"."), fua=True)
            is_so("a read", found(session, 8 * number), text(number))

        threads, faults = side_by_side(8, work, 24)
        for _ in range(5):
            time.sleep(1)
            disk.array.process.send_signal(signal.SIGSTOP)
            time.sleep(3)
            disk.array.process.send_signal(signal.SIGCONT)
        end_well(threads, faults)
        is_so("the log", disk.told("hung"), [])
        disk.quits()


def is_served_again(disk, session):
    """The disk, which stood still, is served: nothing is lost, and what is written is read."""
    if not until(lambda: disk.told("back"), 10):
        raise Wrong("it does not come back")
    is_so("writes and reads", (write(session, 5, text(5)), found(session, 5), flush(session)), (GOOD, text(5), GOOD))
    is_so("what was GOOD before", found(session, 1), text(1))


@case
def disk_that_hangs_and_comes_back(folder):
    """The disk stands still for 8 s; the deadline is 3. Meanwhile each call fails at once."""
    with Disk(folder, 3) as disk:
        session = login(timeout=60)
        session.ready(0)
        is_so("writes", (write(session, 1, text(1)), flush(session)), (GOOD, GOOD))
        for call in ("write", "flush", "read"):
            is_so("a write before", write(session, 4), GOOD)
            disk.stand(8)
            begun = time.monotonic()
            ends = {"write": lambda: write(session, 2, text(2)), "flush": lambda: flush(session), "read": lambda: read(session, 9999)}
            is_so(call, ends[call](), "03 11/00" if call == "read" else "03 0C/00")
            if not 2.9 < time.monotonic() - begun < 5:
                raise Wrong("it does not fail behind the deadline")
            begun = time.monotonic()
            is_so("and then", (write(session, 3), read(session), flush(session)), ("03 0C/00", "03 11/00", "03 0C/00"))
            if time.monotonic() - begun > 1:
                raise Wrong("it does not fail at once")
            hung = len(disk.told("hung"))
            if not until(lambda: len(disk.told("back")) == hung, 10):
                raise Wrong("it does not come back")
            is_served_again(disk, session)
        print("      " + "; ".join(disk.told("back")))
        disk.quits()


@case
def hosts_while_the_disk_hangs(folder):
    """Eight hosts write and read while the disk stands still for 8 s, twice; the deadline is 3. What was GOOD is read back."""
    with Disk(folder, 3) as disk:
        login().ready(0)
        good, hosts = {}, 8

        def work(session, number):
            count = good.get(number, (0, 0))[1] + 1
            good[number] = (good.get(number, (0, 0))[0], count)
            if write(session, 8 * number, text(count)) == GOOD:
                good[number] = (count, count)
            try:
                block = int(found(session, 8 * number).split()[1])
            except Failed:
                time.sleep(0.05)
                return
            if not good[number][0] <= block <= count:
                raise Wrong(f"a read gives block {block}, and not {good[number]}")

        threads, faults = side_by_side(hosts, work, 30)
        for _ in range(2):
            time.sleep(3)
            disk.stand()
            time.sleep(8)
            disk.go_on()
        end_well(threads, faults)
        is_so("it came back", len(disk.told("back")), len(disk.told("hung")))
        with login(number=99) as session:
            for number in range(hosts):
                last, tried = good[number]
                if not last <= int(found(session, 8 * number).split()[1]) <= tried:
                    raise Wrong("a block is an old one")
            is_so("a flush", flush(session), GOOD)
        disk.quits()


if __name__ == "__main__":
    CASES.main(__doc__)
