#!/usr/bin/env python3
"""How fast arrayd is beside tgt, or beside another build of itself, and beside the limit (limit.c), which does the least that a
target does over a socket: all serve the same file on tmpfs in turn, to the same client on the loopback. Prints a line for each
kind of command, with the medians of the runs, how arrayd and the other compare, by how many microseconds a command takes longer,
the time of the processor that each took for it, and how arrayd compares with the limit: its commands a second, and its time of
the processor a command. A run is done again where the host of a virtual machine gave more than 3 % of its processors to others
meanwhile. It wants rustc, by which it builds the client, a C compiler, and the Debian package tgt where no other program is
named.

usage: bench/beside.py [--seconds N] [--runs N] [--only WORDS] [--size MIB] [--depths N,..] [--before PROGRAM] [--controller C]
       bench/beside.py --shipped ..     arrayd with a deadline, a window and a log, as its service starts it, beside itself without them too
       bench/beside.py --limit ..       beside the limit alone
       bench/beside.py --limit --letters LETTERS ..     beside a limit that reads into a buffer, as limit.c says

The program is $ARRAYD, or ./arrayd. Sessions go through controller C of an arrayd; 1 owns the unit.
"""

import argparse
import os
import statistics
import subprocess
import sys
import tempfile
import time

sys.path.append(f"{sys.path[0]}/../trials")
from running import ARRAYD, PORT, TARGET, TOP, Array, client, made

TICKS = os.sysconf("SC_CLK_TCK")
STOLEN = 0.03


def processor_seconds(pid):
    """User and system time that a process has taken."""
    with open(f"/proc/{pid}/stat") as file:
        fields = file.read().rsplit(")", 1)[1].split()
    return int(fields[11]) / TICKS, int(fields[12]) / TICKS


def stolen_and_all():
    """The time of all processors that the host gave to others, and all of it, in ticks since the machine began."""
    with open("/proc/stat") as file:
        ticks = [int(word) for word in file.readline().split()[1:9]]
    return ticks[7], sum(ticks)


def undisturbed(run, tries=5):
    """What a run gives during which the host kept its processors here, or the last of these tries."""
    for _ in range(tries):
        stolen, every = stolen_and_all()
        got = run()
        stolen_then, every_then = stolen_and_all()
        if stolen_then - stolen <= STOLEN * (every_then - every):
            break
    return got


class Arrayd(Array):
    unit = 0

    def __init__(self, disk, program=ARRAYD):
        super().__init__([disk], program=program)

    def end(self):
        self.last_words("quit\n")


class Shipped(Array):
    """An arrayd as its service starts it."""
    unit = 0

    def __init__(self, disk, program=ARRAYD):
        with_all = {"ARRAYD_DEADLINE": "20", "ARRAYD_HTTP": f"127.0.0.1:{PORT + 9}"}
        super().__init__([disk], program=program, log=os.path.join(os.path.dirname(disk), "log"), more=with_all)

    def end(self):
        self.last_words("quit\n")


class Tgt:
    unit = 1

    def __init__(self, disk):
        self.process = subprocess.Popen(["tgtd", "-f", "--iscsi", f"portal=127.0.0.1:{PORT}"],
                                        stdout=subprocess.DEVNULL, stderr=subprocess.DEVNULL)
        self.ask("target", "new", "-T", TARGET, patience=50)
        self.ask("logicalunit", "new", "--lun", "1", "-b", disk)
        self.ask("target", "bind", "-I", "ALL")

    def ask(self, mode, what, *words, patience=1):
        asked = ["tgtadm", "--lld", "iscsi", "--op", what, "--mode", mode, "--tid", "1", *words]
        for _ in range(patience):
            if subprocess.run(asked, stderr=subprocess.DEVNULL).returncode == 0:
                return
            time.sleep(0.1)
        sys.exit(f"tgt refuses {asked}")

    def end(self):
        self.process.kill()
        self.process.wait()


class Limit:
    unit = 0
    program = ""
    letters = []

    def __init__(self, disk):
        self.process = subprocess.Popen([Limit.program, str(PORT), disk, *Limit.letters], stdout=subprocess.PIPE, text=True)
        if self.process.stdout.readline() != "limit: ready\n":
            sys.exit("the limit does not get ready")

    def end(self):
        self.process.kill()
        self.process.wait()


def measure(start, disk, program, port, words):
    """Commands a second, and the microseconds of the processor that each took, user's and system's."""
    server = start(disk)
    try:
        before = processor_seconds(server.process.pid)
        began = time.perf_counter()
        out = subprocess.run([program, f"127.0.0.1:{port}", TARGET, str(server.unit), *words], capture_output=True,
                             text=True, timeout=120)
        took = time.perf_counter() - began
        if out.returncode != 0:
            sys.exit(out.stderr)
        rate = float(out.stdout)
        user, system = (b - a for a, b in zip(before, processor_seconds(server.process.pid)))
        return rate, user / (rate * took) * 1e6, system / (rate * took) * 1e6
    finally:
        server.end()


def told(line, medians, names):
    """What is printed of the medians of each program, of which arrayd's come first, then those of these names, and those of the limit
    last."""
    (rate, user, system), *others, limit = medians
    text = f"{line}: arrayd {rate:,.0f} a second"
    for name, other in zip(names, others):
        text += f", {name} {other[0]:,.0f}: {rate / other[0]:.2f}, {1e6 / rate - 1e6 / other[0]:+.2f} us a command"
    text += f"; processor, user and system: arrayd {user:.1f} and {system:.1f} us"
    for name, other in zip(names, others):
        text += f", {name} {other[1]:.1f} and {other[2]:.1f}"
    return text + (f"; the limit {limit[0]:,.0f} a second, {limit[1]:.1f} and {limit[2]:.1f} us: rate {rate / limit[0]:.2f}, "
                   f"processor {(user + system) / (limit[1] + limit[2]):.2f}")


def compare(asked, line, run, disk, program):
    """Runs each program in turn, in which each goes first in every so many turns, and prints the line."""
    port = PORT + 4 * (asked.controller - 1)
    one, others = (Shipped if asked.shipped else Arrayd), {}
    if asked.before:
        others["before"] = lambda disk: one(disk, asked.before), port
    elif not asked.limit:
        others["tgt"] = Tgt, PORT
    if asked.shipped:
        others["bare"] = Arrayd, port
    programs = [(one, port), *others.values(), (Limit, PORT)]
    got = [[] for _ in programs]
    for turn in range(asked.runs):
        order = list(range(len(programs)))
        for which in order[turn % len(order):] + order[:turn % len(order)]:
            start, at = programs[which]
            got[which].append(undisturbed(lambda: measure(start, disk, program, at, run)))
    medians = [[statistics.median(r[k] for r in runs) for k in range(3)] for runs in got]
    print(told(line, medians, others), flush=True)


def main():
    words = argparse.ArgumentParser(description="How fast arrayd is beside tgt, or beside another arrayd, and beside the limit.")
    words.add_argument("--seconds", type=float, default=1.0, help="how long a run is")
    words.add_argument("--runs", type=int, default=5, help="runs of each, of which the median counts")
    words.add_argument("--size", type=int, default=256, help="MiB of the disk")
    words.add_argument("--only", default="", help="only lines with these words")
    words.add_argument("--depths", default="1,32", help="how many commands a session has open")
    words.add_argument("--before", help="another arrayd, in place of tgt")
    words.add_argument("--limit", action="store_true", help="beside the limit alone")
    words.add_argument("--shipped", action="store_true", help="with a deadline, a window and a log")
    words.add_argument("--letters", help="how the limit sends what is read")
    words.add_argument("--controller", type=int, choices=(1, 2), default=1, help="of an arrayd, which sessions go through")
    asked = words.parse_args()
    Limit.letters = [asked.letters] if asked.letters else []
    with tempfile.TemporaryDirectory(dir="/dev/shm") as place:
        program, Limit.program = client(place), os.path.join(place, "limit")
        subprocess.run(["cc", "-O2", "-pthread", "-o", Limit.program, f"{TOP}/bench/limit.c"], check=True)
        disk = made(os.path.join(place, "disk.img"), asked.size << 11)
        for size in (512, 4096, 262144):
            for work in ("read", "write"):
                for depth in map(int, asked.depths.split(",")):
                    for sessions in (1, 4):
                        line = f"{work} {size} bytes, {depth} deep, {sessions} session{'s'[sessions == 1:]}"
                        if asked.only in line:
                            run = [work, str(size), str(depth), str(sessions), str(asked.seconds)]
                            compare(asked, line, run, disk, program)


if __name__ == "__main__":
    main()
