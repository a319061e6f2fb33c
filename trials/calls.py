#!/usr/bin/env python3
"""Makes the first call on a unit's files fail, then in another run the second, and so on until none fails in the whole run,
and judges each answer of the array, and what a start over the same files finds.

In each run the proved program is started over two new units. Sessions log in through both controllers and write with and
without FUA, read, flush, compare and write, register with APTPL, reserve, preempt, release and clear, and move units by SET
TARGET PORT GROUPS and by the console's `down`. A command that a device failed is sent once more. Then the program is killed
or told `quit`, in turn; in other runs it is killed as soon as the failed call was told. It is started anew over the same
files, where nothing fails, and asked for all that is there.

The calls are open, openat, statx, flock, lseek, pread, pwrite, fdatasync, fsync, ftruncate and rename on a disk, on its
registration file, on the file as which that is made, and on their folder. A call fails with EIO and with nothing done; a
write also with half of its blocks written, and with all of them; and then so that all later calls on the same file fail too.
The same is done to a start over files that are there. A disk's preparer reads nothing here: it gets no handle for that. By those
that it flushes by only the flushes count, which come behind their commands. With --in-place it has none of them, so that each flush
is the device's, under its unit's lock. With --deadline each call has one, which none of them passes, and is made by a thread.

A model of what may be stands beside it. By that
- each reply is GOOD, with the one data that there can be, or has the sense of the call that failed: 03 11/00 of a read,
  03 0C/00 of a write or a flush, 04 44/00 of a save, 04 67/0A of an open; `down` says `not moved U` where an open failed;
- after a failed flush each later flush of that file fails until a start;
- each block of a failed write is old or new, and all others are as they were;
- GOOD of FUA, of SYNCHRONIZE CACHE or of a save comes behind a flush that was done, itself behind the writes;
- a start finds all that was GOOD, and the registrations of before, the new ones, or those of a save that failed since;
- a start at which a call fails says the line of that file, with status 1; nothing else ever ends the program.

A process that is killed leaves in the system's memory what it wrote, so this shows no loss of power: only that the flushes
are asked for, and told where they fail. A loss of power is tried by the proved tests of test_units, over devices in memory.

Prints a table; ends with status 1 at the first thing that is otherwise, with all that was asked and answered up to there.

usage: trials/calls.py [--in-place] [--deadline] [--jobs J] [PROGRAM]
       trials/calls.py [--in-place] [--deadline] --at N [--how HOW] [--end END] [PROGRAM]     one run, with all that was said

J runs are made at a time, 1 where that is not said. HOW is none, half, whole or dead, as trials/failing.c has them; END is "at
once", kill, quit, or kept: killed at once, but behind another GOOD. Where no PROGRAM is given it is what ARRAYD names, or ./arrayd,
which `./example.sh --proved` makes. Wants a C compiler and Linux.
"""

import argparse
import collections
import concurrent.futures
import contextlib
import copy
import os
import queue
import shutil
import sys
import tempfile

from failing import KINDS
from judged import Enough, Judged
from life import FILES, REGISTRATIONS, Calls
from may_be import (
    BLOCK, BLOCKS, CLEAR, PREEMPT, REGISTER, REGISTER_AND_IGNORE, RELEASE, RESERVE, UNITS, Unit,
)
from running import ARRAYD, Wrong, made

# How a run ends: killed as soon as the failed call was told; the same, but where a save failed behind one PERSISTENT RESERVE
# OUT more, which changes nothing and is GOOD, so that what was there before is saved; killed or told to quit, all asked.
ENDS_OF_RUNS = ("at once", "kept", "kill", "quit")
# In seconds: past what a call takes here.
DEADLINE = "20"


# ---- what is asked in a life


def medium(life, a, b, unit):
    """WRITE, READ, SYNCHRONIZE CACHE and COMPARE AND WRITE through both controllers."""
    life.write(a, unit, 0, 4)
    life.write(b, unit, 2, 6, fua=True)
    life.read(a, unit, 0, 10)
    life.read(b, unit, 0, 10, fua=True)
    life.flush(a, unit)
    life.write(b, unit, 20, 130)
    life.write(a, unit, BLOCKS - 1, 1, fua=True)
    life.compare_and_write(a, unit, 0, life.held(unit, 0, 1))
    life.compare_and_write(b, unit, 0, life.data(unit, 0, 1))
    life.compare_and_write(b, unit, 5, life.held(unit, 5, 3), fua=True)
    life.compare_and_write(a, unit, 18, life.held(unit, 18, 1) + life.data(unit, 19, 1))
    life.read(a, unit, 0, BLOCKS)
    life.flush(b, unit)


def reservations(life, a, b, unit):
    """Saves of every kind; between them who may write is asked."""
    life.out(a, unit, REGISTER, new_key=0xA1, aptpl=True)
    life.out(b, unit, REGISTER, new_key=0xB1, aptpl=True)
    life.out(a, unit, RESERVE, 5, 0xA1)
    life.registrations(b, unit)
    life.write(b, unit, 30, 2, fua=True)
    life.out(b, unit, PREEMPT, 6, 0xB1, 0xA1)
    life.listen_all()
    life.write(a, unit, 31, 2)
    life.read(a, unit, 30, 4)
    life.registrations(a, unit)
    life.out(b, unit, RELEASE, 6, 0xB1)
    life.out(a, unit, REGISTER, new_key=0xA2, aptpl=True)
    life.out(b, unit, RESERVE, 1, 0xB1)
    life.write(a, unit, 31, 2)
    life.read(a, unit, 30, 4)
    life.out(a, unit, RESERVE, 1, 0xA2)
    life.registrations(b, unit)


def registrations_that_end(life, a, b, unit):
    """Without APTPL, then with it, cleared, without it again, and with it."""
    life.out(b, unit, REGISTER, new_key=0xB2)
    life.out(b, unit, RESERVE, 3, 0xB2)
    life.write(a, unit, 40, 1)
    life.out(b, unit, REGISTER_AND_IGNORE, new_key=0xB3, aptpl=True)
    life.out(a, unit, REGISTER, new_key=0xA3, aptpl=True)
    life.out(b, unit, CLEAR, 0, 0xB3)
    life.listen_all()
    life.out(a, unit, REGISTER_AND_IGNORE, new_key=0xA4, aptpl=True)
    life.out(b, unit, REGISTER, new_key=0xB4)
    life.registrations(a, unit)
    life.out(a, unit, REGISTER, 0, 0xA4, 0xA5, aptpl=True)
    life.write(a, unit, 40, 1)


def moves(life, a, b):
    """Other owners by SET, then by the console, with writes and flushes between them."""
    first, second = life.units
    for owner in (2, 1, 2):
        for unit, host in ((first, b), (second, a)):
            life.set_groups(host, unit, owner)
            life.listen_all()
            life.groups(a, unit)
            life.write(b, unit, 50, 3, fua=True)
            life.read(a, unit, 48, 6)
    for controller, other in ((2, a), (1, b)):
        life.down(controller)
        life.listen_all()
        for unit in life.units:
            for host in (a, b):
                life.write(host, unit, 60, 2)
                life.read(host, unit, 60, 2, fua=True)
                life.groups(host, unit)
            life.flush(other, unit)
            life.set_groups(b if unit is first else other, unit, other.group)
            life.listen_all()
    life.status()


def work(life):
    """A whole life but its end."""
    a, b, _ = life.log_in("a", 1), life.log_in("b", 2), life.log_in("c", 2)
    for unit in life.units:
        medium(life, a, b, unit)
    reservations(life, a, b, life.units[0])
    registrations_that_end(life, a, b, life.units[1])
    moves(life, a, b)
    for unit in life.units:
        for host in (a, b):
            life.write(host, unit, 100 + 10 * host.group, 4)
            life.write(host, unit, 102 + 10 * host.group, 1, fua=True)
            life.write(host, unit, 103 + 10 * host.group, 1)
    life.status()


def look(life):
    """What is there behind a start; then that all goes on."""
    hosts = a, b = life.log_in("a", 1), life.log_in("b", 2)
    for unit in life.units:
        life.find_registrations(a, unit)
        life.registrations(b, unit)
        life.groups(b, unit)
        if not any([life.read(host, unit, 0, BLOCKS) for host in hosts]) and life.came_to is None:
            raise Wrong(f"nobody can read unit {unit.number}")
    for unit in life.units:
        for host in hosts:
            life.flush(host, unit)
            life.write(host, unit, 70, 3, fua=True)
        life.out(a, unit, REGISTER_AND_IGNORE, new_key=0xA6, aptpl=True)
        life.registrations(b, unit)
        life.read(b, unit, 68, 6)
    life.status()


# ---- runs


class Run:
    """A life in which a call fails, and one over the same files in which none does."""

    def __init__(self, program, calls, folder):
        self.program, self.calls, self.said = program, calls, []
        self.disks = [os.path.join(folder, str(unit), "disk") for unit in range(UNITS)]

    def make(self):
        """New files."""
        for disk in self.disks:
            shutil.rmtree(os.path.dirname(disk), ignore_errors=True)
            os.mkdir(os.path.dirname(disk))
            made(disk, BLOCKS)
        self.units = [Unit(number) for number in range(UNITS)]

    def live(self, ask, end, at=0, how="none"):
        """A life, and the calls that it made."""
        life = Judged(self.program, self.calls, self.disks, self.units, self.said, end, at, how)
        with life.array:
            if not life.is_ready():
                life.close()
                return life, self.calls.since()
            with contextlib.suppress(Enough):
                ask(life)
            if end == "quit":
                life.quit()
            else:
                life.kill()
        return life, self.calls.since()

    def judged(self, ask, end, at, how):
        """A life, and another one over its files, in which no call fails."""
        try:
            life, seen = self.live(ask, end, at, how)
            self.live(look, "quit")
            self.files()
            failed = next((call for call in seen if call.has_failed()), None)
            if failed and life.came_to is None:
                raise Wrong("nobody was told")
        except Wrong as wrong:
            raise Wrong("\n".join([*self.said, f"call {at} failing ({how}), then {end}: {wrong}"])) from None
        return failed, life, seen, self.said

    def files(self):
        """The files are as long as they were, hold what was read, and nothing else lies beside them."""
        for unit, disk in zip(self.units, self.disks):
            names = sorted(os.listdir(os.path.dirname(disk)))
            if names != ["disk", "disk.reg", "disk.unit"]:
                raise Wrong(f"beside the disk of unit {unit.number} lies {names}")
            with open(disk, "rb") as file:
                data = file.read()
            if len(data) != BLOCKS * BLOCK:
                raise Wrong(f"the disk of unit {unit.number} has {len(data)} bytes")
            unit.is_found(0, data)


class Table:
    """What the runs came to, by the call that failed."""

    ENDS = ("status 1", "03 11/00", "03 0C/00", "04 44/00", "04 67/0A", "not moved U", "passed over")

    def __init__(self):
        self.rows = collections.defaultdict(collections.Counter)
        self.runs = self.refused = 0

    def add(self, failed, how, life):
        name = f"{failed.kind}, {FILES[failed.file]}"
        self.rows[how, name][life.came_to] += 1
        self.runs += 1
        self.refused += life.flushes_refused

    def print(self, title, how):
        print(f"\n{title:38} {'runs':>5}" + "".join(f" {end:>11}" for end in self.ENDS))
        rows = {name: ends for (kind, name), ends in self.rows.items() if kind == how}
        total = collections.Counter()
        for name in sorted(rows, key=lambda name: (FILES.index(name.split(", ", 1)[1]), KINDS.index(name.split(", ")[0]))):
            total += rows[name]
            self.line(name, rows[name])
        self.line("all", total)
        sys.stdout.flush()

    def line(self, name, ends):
        print(f"{name:38} {sum(ends.values()):5}" + "".join(f" {ends[end] or '':>11}" for end in self.ENDS))


def one(program, calls, folder, at, how, end):
    """A run over new files: which call failed, if any, how that life went, all its calls, and what was said."""
    run = Run(program, calls, folder)
    run.make()
    return run.judged(work, end, at, how)


class Runs:
    """All runs of a program, so many at a time, each with a folder and a list of its own; and what they came to."""

    def __init__(self, program, folder, jobs, in_place):
        self.program, self.folder, self.table = program, folder, Table()
        self.pool = concurrent.futures.ThreadPoolExecutor(jobs)
        self.places = queue.SimpleQueue()
        for job in range(jobs):
            place = os.path.join(folder, str(job))
            os.mkdir(place)
            self.places.put((Calls(place, in_place), place))

    def in_a_place(self, ask, *words):
        calls, place = self.places.get()
        try:
            return ask(self.program, calls, place, *words)
        finally:
            self.places.put((calls, place))

    def one(self, at, how, end):
        return self.in_a_place(one, at, how, end)

    def each(self, ask, how, numbers, past):
        """Asks for a run for each of these numbers, in each of which a call fails, and for one past them, in which none does."""
        asked = [self.pool.submit(ask, at) for at in [*numbers, past]]
        try:
            for at, answer in zip([*numbers, past], asked):
                failed, life = answer.result()[:2]
                if (failed is None) != (at == past):
                    raise Wrong(f"call {at} failing ({how}): {'none failed' if failed is None else failed}")
                if failed:
                    self.table.add(failed, how, life)
        except Wrong:
            self.pool.shutdown(wait=True, cancel_futures=True)
            raise

    def of_a_life(self, plain, how, end=None, are_asked=lambda call: True):
        """Makes each call fail in turn, but those that are not asked for. Where no end is told, the runs are killed and told to
        quit in turn; the calls of quit itself are the last ones."""
        def ask(at):
            in_turn = "kill" if at % 2 and at <= len(plain) - UNITS else "quit"
            return self.one(at, how, end or in_turn)

        self.each(ask, how, [call.number for call in plain if are_asked(call)], len(plain) + 1)

    def of_a_start(self, how):
        """Makes each call fail in turn of a life over files that are there."""
        kept = self.in_a_place(before_a_start, os.path.join(self.folder, "kept"))
        plain = self.in_a_place(start, kept, 0, how)[2]
        self.each(lambda at: self.in_a_place(start, kept, at, how), how + " of a start",
                  [call.number for call in plain], len(plain) + 1)
        shutil.rmtree(kept[0])

    def all(self):
        plain = self.one(0, "none", "quit")[2]
        kinds = collections.Counter(call.kind for call in plain)
        print(f"{len(plain)} calls in a life in which none fails: {', '.join(f'{n} {kind}' for kind, n in kinds.most_common())}")
        self.of_a_life(plain, "none")
        # one that is killed at once never comes to what quit asks for
        self.of_a_life(plain, "none", "at once", lambda call: call.number <= len(plain) - UNITS)
        self.of_a_life(plain, "none", "kept", lambda call: call.file == REGISTRATIONS)
        self.table.print("fails, and nothing was done", "none")
        for how, least, title in (("half", 2, "half of the blocks are written"), ("whole", 1, "all is written, and it fails")):
            def is_write(call):
                return call.kind == "pwrite" and call.length >= least * BLOCK

            self.of_a_life(plain, how, None, is_write)
            self.of_a_life(plain, how, "at once", is_write)
            self.of_a_life(plain, how, "kept", lambda call: is_write(call) and call.file == REGISTRATIONS)
            self.table.print(title, how)
        self.of_a_life(plain, "dead")
        self.table.print("from then on all fail on that file", "dead")
        for how, title in (("none", "fails in a start and behind it"), ("dead", "the same, all on that file")):
            self.of_a_start(how)
            self.table.print(title, how + " of a start")
        print(f"\n{self.table.runs} runs in which a call failed, and {self.table.refused} flushes refused after one that had "
              "failed; each answer, and all that a start found, is by the rules")


def before_a_start(program, calls, folder, kept):
    """A whole life, killed: its files, kept in a folder, with what may be of the units, and what was said."""
    run = Run(program, calls, folder)
    run.make()
    run.live(work, "kill")
    for unit, disk in enumerate(run.disks):
        shutil.copytree(os.path.dirname(disk), os.path.join(kept, str(unit)))
    return kept, run.units, run.said


def start(program, calls, folder, before, at, how):
    """A life over copies of these files, in which a call fails and which is killed, and one more; as `one` tells it."""
    kept, units, said = before
    run = Run(program, calls, folder)
    run.units, run.said = copy.deepcopy(units), list(said)
    for unit, disk in enumerate(run.disks):
        shutil.rmtree(os.path.dirname(disk), ignore_errors=True)
        shutil.copytree(os.path.join(kept, str(unit)), os.path.dirname(disk))
    return run.judged(look, "kill", at, how)


def main():
    words = argparse.ArgumentParser(usage=__doc__.split("usage: ")[1].rsplit("\n\n", 1)[0])
    words.add_argument("--at", type=int)
    words.add_argument("--how", default="none", choices=("none", "half", "whole", "dead"))
    words.add_argument("--end", default="quit", choices=ENDS_OF_RUNS)
    words.add_argument("--in-place", action="store_true")
    words.add_argument("--deadline", action="store_true")
    words.add_argument("--jobs", type=int, default=1)
    words.add_argument("program", nargs="?", default=ARRAYD)
    words = words.parse_args()
    if words.deadline:
        os.environ["ARRAYD_DEADLINE"] = DEADLINE
    with tempfile.TemporaryDirectory() as folder:
        runs = Runs(os.path.abspath(words.program), folder, words.jobs, words.in_place)
        try:
            if words.at is None:
                runs.all()
                return
            _, life, _, said = runs.one(words.at, words.how, words.end)
            print("\n".join([*said, f"the failed call came to: {life.came_to}"]))
        except Wrong as wrong:
            sys.exit(f"{wrong}\ncalls.py: this is not by the rules")


if __name__ == "__main__":
    main()
