#!/usr/bin/env python3
"""A chaos that can be repeated. Each seed starts the array, whose threads go on in an order that the seed says (trials/chaos), and hosts
of a load that the seed says (trials/chaos_hosts.py): eight nexuses through both controllers read, write, compare and write, flush,
reserve, reset, log in again and leave, while controllers go down and come up, sessions are ended, a disk hangs and comes back, and the
array is killed and started again, and somebody looks through its window. Then it looks:

  - for each unit there is an order of all that was asked, in which each answer is the model's (trials/orders.py);
  - nobody waited for ever, and `quit` ended; else who holds and who awaits which lock is told;
  - no lock was taken in another order than trials/locks.py says, and none was kept by a thread that ended;
  - each history has as many entries as were answered, and what lies in the files is what was read last.

A seed says what is asked and where threads stand, not what the machine makes of it: the same seed finds the same thing often, not always.
Ends with status 1 where something was found; each line of that has its seed. Ends with status 3 where nothing was, and of some history
it was not decided within bounds whether it has an order (trials/orders.py): of those nothing is known.

usage: trials/chaos.py [--seeds N] [--from SEED] [--jobs J]       N seeds, 50 where nothing is said
       trials/chaos.py --seed SEED [--times N]                    one of them, N times, with what was seen
       trials/chaos.py --found [--seeds N]                        those of trials/chaos_found.txt, which once found something; and N more
       trials/chaos.py --planted [NAME..]                         has to find what is planted, within 50 seeds each: by the library, or
                                                                  in copies of the tree (trials/chaos_plants.py)

`--first` ends with the first that is found; `--first NAME` with the first that says what it has to of what is planted under this name.
`--locks` tells of each lock how often it was taken, and how long it was held.
`--stays-lost` expects a disk that hung past its deadline to serve no more until a restart. The program is ./arrayd, or what ARRAYD
names. Locks are seen in one that tools/unproved.py compiled. In another one, as a proved one, threads are stood at calls of the system and
stopped between them, and all is looked at but locks: the summary says so. `--unproved` takes one that it compiles in its place. Histories are
left in the folder CHAOS_HISTORIES, where that is set. Wants a C compiler and the GNU C library.
"""

import argparse
import collections
import concurrent.futures
import contextlib
import functools
import os
import pickle
import random
import subprocess
import sys
import tempfile
import threading
import time

from chaos_hosts import BLOCKS, UNITS, Host, Load, Looker, Operator, last_look, numbers_in
from chaos_model import ATTACH, READ, RESTART, Op, Unit
from chaos_plants import PLANTS, SAID, compile_with, compiled
from chaos_run import FAULTS, Chaos, Names, library, sees_locks
from free_port import free_port
from initiator import BUSY
from locks import classes_of, found_wrong
from orders import order_of, why_not
from reservations import NEXUSES
from running import ARRAYD, TOP, Array, Wrong, made

# So many seeds, where nothing is said.
MANY = 50
# So long nothing is answered, in seconds, before a run counts as one that stands still; longer where much else runs.
STILL = 15


def patience():
    return STILL * max(1, os.getloadavg()[0] / (os.cpu_count() or 1))


FOUND = os.path.join(TOP, "trials", "chaos_found.txt")

Result = collections.namedtuple("Result", "seed findings commands points stops takes faults seconds locks undecided")


def flavour_of(seed):
    """What a seed has more and less of."""
    dice = random.Random(seed)
    hangs, deadline = dice.random() < 0.25, dice.random() < 0.3
    return {"out": dice.choice((0, 6, 14)), "leaves": dice.choice((0, 0.03, 0.1)), "reset": dice.choice((0, 1, 3)), "set": dice.choice((0, 1, 3)),
            "operator": dice.choice((0, 5, 10)), "count": dice.choice((10, 16, 28)), "hosts": dice.choice((3, 5, 8)),
            "hangs": hangs, "deadline": deadline, "restart": dice.random() < 0.3,
            "permille": dice.choice((10, 40, 120)), "stops": dice.random() < 0.8, "log": dice.random() < 0.5,
            # by a die of its own, so that all else of a seed stays
            "window": random.Random(f"{seed} looker").random() < 0.3}


class Run:
    """One seed: its lives of the array, and what was found."""

    def __init__(self, seed, folder, built, names, fault=None, stays_lost=False):
        self.seed, self.folder, self.built, self.names, self.fault = seed, folder, built, names, fault
        self.flavour, self.stays_lost = flavour_of(seed), stays_lost
        self.may_fail = self.flavour["hangs"] and self.flavour["deadline"]
        self.findings, self.load, self.window, self.began = [], None, None, time.monotonic()
        self.counted, self.locks = collections.Counter(), {}
        self.disks = [made(os.path.join(folder, f"disk{unit}"), BLOCKS) for unit in range(UNITS)]

    def start(self):
        self.chaos = Chaos(self.folder, self.built, self.seed, self.flavour["permille"], self.flavour["stops"], self.fault)
        more = {**self.chaos.environment, "ARRAYD_CONTROL": os.path.join(self.folder, "control")}
        if self.flavour["log"]:
            more["ARRAYD_LOG"] = os.path.join(self.folder, "log")
        if self.flavour["deadline"]:
            more["ARRAYD_DEADLINE"] = "1" if self.flavour["hangs"] else "20"
        for attempt in range(3):
            if self.flavour["window"]:
                self.window = free_port()
                more["ARRAYD_HTTP"] = f"127.0.0.1:{self.window}"
            with contextlib.suppress(FileNotFoundError):
                # that of a life that was killed
                os.unlink(more["ARRAYD_CONTROL"])
            try:
                return Array(self.disks, port=free_port(), log=more.get("ARRAYD_LOG"), more=more)
            except Wrong:
                # another one took the port meanwhile
                if attempt == 2:
                    raise
        return None

    # ---- a life of the array

    def threads(self, count):
        hosts = [Host(self.load, place, count) for place in range(self.flavour["hosts"])]
        operator = Operator(self.load, os.path.join(self.folder, "control"), self.flavour["operator"])
        lookers = [Looker(self.load, self.window, 12)] if self.flavour["window"] else []
        return [*hosts, operator, *lookers]

    def hang(self, dice):
        """The first disk hangs for a while."""
        time.sleep(dice.random() * 0.15)
        self.chaos.seen.hangs = 1
        time.sleep(1.4 if self.flavour["deadline"] else 0.05 + dice.random() * 0.3)
        self.chaos.seen.hangs = 0

    def live(self, array, count, kills):
        """The hosts work; whether they came to an end."""
        threads = self.threads(count)
        if self.flavour["hangs"]:
            threads.append(threading.Thread(target=self.hang, args=[random.Random(f"{self.seed} hang")], daemon=True))
        for thread in threads:
            thread.start()
        seen, since = -1, time.monotonic()
        until = time.monotonic() + random.Random(f"{self.seed} kill").uniform(0.05, 0.6) if kills else None
        while any(thread.is_alive() for thread in threads):
            time.sleep(0.005)
            if self.load.progress != seen or self.chaos.seen.hangs:
                seen, since = self.load.progress, time.monotonic()
            if until and time.monotonic() > until:
                break
            if time.monotonic() - since > patience() or array.process.poll() is not None:
                self.stands_still(array, threads)
                return False
        self.load.is_over = bool(kills)
        if kills:
            self.chaos.seen.hangs = 0
            self.kill(array, threads)
        return True

    def kill(self, array, threads):
        array.process.kill()
        array.process.wait()
        for thread in threads:
            thread.join(20)
        array.kill()

    def stands_still(self, array, threads):
        status = array.process.poll()
        if status is not None:
            self.findings.append(f"the array ended with status {status}: {array.process.stderr.read().strip()[-300:]}")
        else:
            self.findings.append(f"nothing was answered for {patience():.0f} s")
            ring = self.chaos.cycle()
            if ring:
                self.findings.append("these threads wait for each other: " + ", ".join(map(str, ring)))
            self.findings += [f"  {line}" for line in self.chaos.told_of_threads(self.names, classes_of(self.chaos, self.names))]
        self.load.is_over = True
        self.kill(array, threads)

    def look_at_entries(self, array, first):
        """The histories have as many entries as were answered in this life, and maybe those that were not."""
        for unit, ops in enumerate(self.load.ops):
            ops = [op for op in ops[first[unit]:] if not (op.reply and op.reply[0] == BUSY)]
            sessions = [op.nexus for op in ops if op.kind == ATTACH and op.end is not None]
            # the last session of each nexus leaves; one whose place another took has none
            least = sum(op.end is not None and not op.is_optional for op in ops) + len(set(sessions))
            most = len(ops) + sum(op.kind == ATTACH for op in ops)
            until, found = time.monotonic() + 10, -1
            while time.monotonic() < until:
                found = int(array.status(unit, UNITS)["entries"])
                if least <= found <= most:
                    break
                time.sleep(0.01)
            else:
                self.findings.append(f"unit {unit}: {found} entries, and not {least} to {most}")

    def end(self, array, first):
        """A last look, `quit`, and what lies in the files then."""
        last_look(self.load)
        if not self.may_fail:
            self.look_at_entries(array, first)
        status = array.quit(60)
        if status != 0:
            self.findings.append(f"quit: status {status}")
        array.kill()
        for unit, disk in enumerate(self.disks):
            reads = [op for op in self.load.ops[unit] if op.kind == READ and op.given == (0, BLOCKS) and op.reply and op.reply[0] == 0]
            with open(disk, "rb") as file:
                if reads and not self.may_fail and numbers_in(file.read()) != reads[-1].reply[2]:
                    self.findings.append(f"unit {unit}: the file is another than what was read last, {reads[-1]}")

    # ---- a whole run

    def lives(self):
        array = self.start()
        self.load = Load(self.seed, array, self.flavour)
        if self.flavour["restart"]:
            if not self.live(array, self.flavour["count"], True):
                return
            self.look_at_locks()
            start = time.monotonic_ns()
            array = self.start()
            for ops in self.load.ops:
                ops.append(Op(RESTART, None, None, RESTART, start=start, end=time.monotonic_ns()))
            self.load.array, self.load.is_over, self.load.faults = array, False, []
        first = [len(ops) for ops in self.load.ops]
        if self.live(array, self.flavour["count"], False):
            self.end(array, first)
        self.look_at_locks()

    def look_at_locks(self):
        seen = self.chaos.seen
        self.counted.update(points=sum(thread.points for thread in seen.threads), stops=sum(thread.stops for thread in seen.threads),
                            takes=sum(site.takes for site in self.chaos.sites()), faults=seen.faults_made)
        if seen.hooked:
            self.findings += found_wrong(self.chaos, self.names)
            classes = classes_of(self.chaos, self.names)
            for site in self.chaos.sites():
                name = classes[site.key]
                takes, longest = self.locks.get(name, (0, 0))
                self.locks[name] = takes + site.takes, max(longest, site.longest)
        self.chaos.close()

    def look_at_orders(self):
        kept = os.environ.get("CHAOS_HISTORIES")
        if kept:
            with open(os.path.join(kept, f"{self.seed}.pickle"), "wb") as file:
                pickle.dump(self.load.ops, file)
        for unit, ops in enumerate(self.load.ops):
            order = order_of(ops, Unit(unit, BLOCKS, self.may_fail, self.stays_lost))
            if not order.is_decided:
                self.counted["undecided"] += 1
            elif not order.is_found:
                self.findings.append(f"unit {unit}: {why_not(order)}")

    def result(self):
        try:
            self.lives()
            self.findings += self.load.faults
            self.look_at_orders()
        except Exception as fault:  # whatever it is, it is told with its seed
            self.findings.append(repr(fault))
        counted = self.counted
        commands = sum(len(ops) for ops in self.load.ops) if self.load else 0
        return Result(self.seed, self.findings, commands, counted["points"], counted["stops"], counted["takes"], counted["faults"],
                      time.monotonic() - self.began, self.locks, counted["undecided"])


# ---- many seeds

@functools.lru_cache(maxsize=1)
def names_of(program):
    return Names(program)


def tried(seed, built, fault, stays_lost):
    with tempfile.TemporaryDirectory(dir="/dev/shm" if os.path.isdir("/dev/shm") else None) as folder:
        return Run(seed, folder, built, names_of(ARRAYD), fault, stays_lost).result()


def tell(result, is_long=False):
    if result.findings:
        print(f"seed {result.seed} found:", *result.findings, sep="\n  ", flush=True)
    elif is_long:
        print(f"seed {result.seed}: {result.commands} commands, {result.points} points, {result.stops} stops, {result.takes} locks taken, "
              f"{result.seconds:.1f} s", flush=True)


def each(seeds, built, jobs, fault=None, stays_lost=False):
    """The results of these seeds, as they come."""
    with concurrent.futures.ProcessPoolExecutor(jobs) as pool:
        pending, left = set(), iter(seeds)
        try:
            while True:
                while len(pending) < jobs and (seed := next(left, None)) is not None:
                    pending.add(pool.submit(tried, seed, built, fault, stays_lost))
                if not pending:
                    return
                done, pending = concurrent.futures.wait(pending, return_when=concurrent.futures.FIRST_COMPLETED)
                yield from (one.result() for one in done)
        finally:
            for one in pending:
                one.cancel()


def tell_locks(results):
    locks = collections.defaultdict(lambda: [0, 0])
    for result in results:
        for name, (takes, longest) in result.locks.items():
            locks[name] = [locks[name][0] + takes, max(locks[name][1], longest)]
    for name, (takes, longest) in sorted(locks.items(), key=lambda row: -row[1][0]):
        print(f"{name:60} taken {takes:9} times, held {longest / 1e6:8.1f} ms at most")


def many(seeds, words, built):
    """The status with which the script ends."""
    began, results = time.monotonic(), []
    for result in each(seeds, built, words.jobs, stays_lost=words.stays_lost):
        results.append(result)
        tell(result, words.seed is not None)
    if words.locks:
        tell_locks(results)
    count = lambda what: sum(getattr(one, what) for one in results)
    found, undecided = (sorted(one.seed for one in results if getattr(one, what)) for what in ("findings", "undecided"))
    if not count("takes"):
        print("no lock was seen: this is no program that tools/unproved.py compiled, and the order of its locks was not looked at")
    print(f"{len(results)} seeds, {count('commands')} commands, {count('points')} points, {count('stops')} stops, {count('takes')} locks taken, "
          f"{time.monotonic() - began:.0f} s: " + (f"found by {found}" if found else "nothing found")
          + (f"; {count('undecided')} of {UNITS * len(results)} histories NOT decided, of seeds {undecided}" if undecided else ""))
    return 1 if found else 3 if undecided else 0


def first_found(words, built, said, fault=None):
    """The first line of what is found and says one of these, with the seed, and how many were tried; within as many seeds as there may
    be. What else is found is told as it comes."""
    for count, result in enumerate(each(range(words.first, words.first + (words.seeds or MANY)), built, words.jobs, fault, words.stays_lost), 1):
        found = [finding for finding in result.findings if any(one in finding for one in said)]
        if found:
            return f"found by seed {result.seed}, the {count}. of them: " + "; ".join(one.splitlines()[0] for one in found[:2])
        if result.findings:
            print(f"seed {result.seed} found something else:", *result.findings, sep="\n  ", file=sys.stderr, flush=True)
    return ""


def again(program, *words, **how):
    """This script over another program."""
    return subprocess.run([sys.executable, os.path.abspath(__file__), *words], env={**os.environ, "ARRAYD": program}, text=True, check=False, **how)


def planted(name, words, built, folder):
    """Whether what is planted is found: by the library, or in a program of its own."""
    if name in FAULTS:
        told = first_found(words, built, SAID[name], name)
    else:
        program = compile_with([PLANTS[name]], os.path.join(folder, name))
        told = again(program, "--first", name, "--seeds", str(words.seeds or MANY), "--jobs", str(words.jobs), stdout=subprocess.PIPE).stdout.strip()
    print(f"{name}: {told or 'NOT found'}", flush=True)
    return bool(told)


def seeds_found():
    with open(FOUND, encoding="utf-8") as file:
        return [int(line.split()[0]) for line in file if line.strip() and not line.startswith("#")]


def seeds_of(words):
    if words.seed is not None:
        return [words.seed] * words.times
    count = words.seeds or (0 if words.found else MANY)
    return [*(seeds_found() if words.found else ()), *range(words.first, words.first + count)]


def main():
    words = argparse.ArgumentParser(usage=__doc__.split("usage: ")[1].split("\n\n")[0])
    for name, default in (("--seeds", None), ("--from", 1), ("--seed", None), ("--times", 1), ("--jobs", max(1, (os.cpu_count() or 2) // 2))):
        words.add_argument(name, type=int, default=default, dest=name.strip("-") if name != "--from" else "first")
    for name in ("--found", "--locks", "--stays-lost", "--unproved"):
        words.add_argument(name, action="store_true")
    words.add_argument("--first", nargs="?", choices=[*PLANTS], const="", default=None, dest="first_of")
    words.add_argument("--planted", nargs="*", choices=[*FAULTS, *PLANTS], default=None)
    words = words.parse_args()
    if not os.path.isfile(ARRAYD):
        sys.exit(f"chaos.py: there is no program {ARRAYD}")
    with tempfile.TemporaryDirectory() as folder:
        built = library(folder)
        if words.unproved and not sees_locks(ARRAYD, built):
            rest = [word for word in sys.argv[1:] if word != "--unproved"]
            status = again(compiled(TOP, os.path.join(folder, "arrayd")), *rest).returncode
        elif words.planted is not None:
            status = 0 if all([planted(name, words, built, folder) for name in words.planted or (*FAULTS, *PLANTS)]) else 1
        elif words.first_of is not None:
            told = first_found(words, built, SAID.get(words.first_of, ("",)))
            print(told, end="")
            status = 1 if told else 0
        else:
            status = many(seeds_of(words), words, built)
    sys.exit(status)


if __name__ == "__main__":
    main()
