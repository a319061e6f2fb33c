"""The array under the library of trials/chaos: how it is started, what the library has seen, and who holds and waits for which lock.

    chaos = Chaos(folder, library, seed)
    Array(disks, more=chaos.environment)
    chaos.seen.hooked; chaos.told_of_threads(names); chaos.edges(names)
"""

import bisect
import collections
import ctypes
import functools
import glob
import mmap
import os
import re
import subprocess
import tempfile
import time

from running import TOP

# As in trials/chaos/chaos.h.
MOST_THREADS, MOST_HELD, MOST_SITES, MOST_EDGES, FRAMES = 256, 12, 512, 1024, 4
FAULTS = {"lost_wake": 1, "stale_read": 2, "early_reply": 4, "lost_save": 8}
# One of so many calls has the fault; a save is seen only where it was the last before a restart.
FAULT_IN = {"lost_save": 2}
CALLS = {0: "read", 1: "write", 17: "pread", 18: "pwrite", 35: "nanosleep", 44: "send", 45: "recv", 202: "futex", 288: "accept",
         -1: "", (1 << 64) - 2: "a call on a disk that hangs", -2: "a call on a disk that hangs"}


def structure(name, *fields):
    known = {"u": ctypes.c_uint64, "s": ctypes.c_int64, "i": ctypes.c_int32}
    made = [(field, known[kind] if isinstance(kind, str) else kind) for kind, fields_ in fields for field in fields_.split()]
    return type(name, (ctypes.Structure,), {"_fields_": made})


Held = structure("Held", ("u", "lock site since"))
Thread = structure("Thread", ("i", "is_there id"), ("u", "place"), ("s", "called"), ("u", "futex since wanted wanted_site holds_count"),
                   (Held * MOST_HELD, "holds"), ("u", "points stops dice alarm_dice mood mood_left"), ("i", "stands is_calling is_to_arm timer"))
Site = structure("Site", ("u", "key"), (ctypes.c_uint64 * FRAMES, "frames"), ("u", "takes longest"))
Edge = structure("Edge", ("u", "key held taken is_awaited count"))
Shared = structure("Shared", ("u", "seed permille has_stops faults fault_in is_quiet hangs"), (ctypes.c_char * 128, "disk"),
                   ("u", "hooked threads_started ended_with_locks faults_made hung unknown_releases"),
                   (Thread * MOST_THREADS, "threads"), (Site * MOST_SITES, "sites"), (Edge * MOST_EDGES, "edges"))


def library(folder):
    """Compiles the library: its path."""
    path = os.path.join(folder, "chaos.so")
    sources = sorted(glob.glob(os.path.join(TOP, "trials", "chaos", "*.c")))
    subprocess.run(["cc", "-O2", "-fno-omit-frame-pointer", "-shared", "-fPIC", "-o", path, *sources, "-ldl", "-lpthread"], check=True)
    return path


def sees_locks(program, built):
    """Whether the library finds in a program what takes locks and lets them go."""
    with tempfile.TemporaryDirectory() as folder:
        chaos = Chaos(folder, built, 0)
        subprocess.run([program, "--version"], env={**os.environ, **chaos.environment}, stdout=subprocess.DEVNULL, check=True)
        return chaos.seen.hooked > 0


class Names:
    """The names of a program's functions, by address; without those of its types."""

    def __init__(self, program):
        told = subprocess.run(["nm", "--defined-only", program], capture_output=True, text=True, check=False).stdout
        rows = sorted((int(line.split(" ", 2)[0], 16), line.split(" ", 2)[2]) for line in told.splitlines() if line.count(" ") >= 2)
        self.starts, self.names = [row[0] for row in rows], [row[1] for row in rows]

    @functools.lru_cache(maxsize=None)
    def at(self, address):
        """The function of a return address."""
        place = bisect.bisect_right(self.starts, address - 1) - 1
        return re.sub(r"::<.*>.*$", "", self.names[place]) if place >= 0 else hex(address)

    def of_site(self, site):
        return [self.at(frame) for frame in site.frames if frame]


class Chaos:
    """A life of a program under a seed. `permille`: at so many of a thousand points a thread sleeps."""

    def __init__(self, folder, built, seed, permille=40, has_stops=True, fault=None):
        self.path = os.path.join(folder, f"chaos-{time.monotonic_ns()}")
        with open(self.path, "wb") as file:
            file.truncate(ctypes.sizeof(Shared))
        with open(self.path, "r+b") as file:
            self.map = mmap.mmap(file.fileno(), ctypes.sizeof(Shared))
        self.seen = Shared.from_buffer(self.map)
        self.seen.seed, self.seen.permille, self.seen.has_stops = seed, permille, has_stops
        self.seen.faults, self.seen.fault_in = FAULTS.get(fault, 0), FAULT_IN.get(fault, 20)
        self.seen.disk = os.path.join(folder, "disk0").encode()
        self.environment = {"LD_PRELOAD": built, "CHAOS": self.path}

    def close(self):
        os.unlink(self.path)

    # ---- locks

    def sites(self):
        return [site for site in self.seen.sites if site.key]

    def edges(self):
        """(held site, taken site, is_awaited, how often)"""
        return [(self.seen.sites[edge.held], self.seen.sites[edge.taken], bool(edge.is_awaited), edge.count)
                for edge in self.seen.edges if edge.key]

    def told_of_threads(self, names, classes):
        """A line for each thread that holds a lock or waits for one, and one for the others: in which calls they are."""
        now, lines, others, holders = time.monotonic_ns(), [], collections.Counter(), {}
        threads = sorted((one for one in self.seen.threads if one.is_there), key=lambda one: one.place)
        for thread in threads:
            for held in thread.holds[: thread.holds_count]:
                holders.setdefault(held.lock, []).append(f"thread {thread.place}")
        for thread in threads:
            told = [self.told_of_held(held, now, names, classes) for held in thread.holds[: thread.holds_count]]
            lock = thread.wanted or (thread.futex if thread.futex in holders else 0)
            if lock:
                site = self.seen.sites[thread.wanted_site]
                by = ", ".join(holders.get(lock, [])) or "nobody that is known"
                told.append(f"waits for {classes.get(site.key, '?')} {lock:x}, which {by} holds, at " + " < ".join(names.of_site(site)[:2]))
            call = CALLS.get(thread.called, f"call {thread.called}") or "no call"
            if told:
                lines.append(f"thread {thread.place}: " + "; ".join([*told, f"in {call} for {max(0, now - thread.since) / 1e9:.1f} s"]))
            else:
                others[call] += 1
        return lines + ["the others: " + ", ".join(f"{count} in {call}" for call, count in others.most_common())]

    def told_of_held(self, held, now, names, classes):
        site = self.seen.sites[held.site]
        return (f"holds {classes.get(site.key, '?')} {held.lock:x} for {(now - held.since) / 1e9:.1f} s, taken by "
                + " < ".join(names.of_site(site)[:2]))

    def cycle(self):
        """Threads that wait for each other in a ring, where there are such."""
        holder = {held.lock: thread.place for thread in self.seen.threads if thread.is_there for held in thread.holds[: thread.holds_count]}
        waits = {thread.place: holder.get(thread.wanted) for thread in self.seen.threads if thread.is_there and thread.wanted}
        for first in waits:
            ring, at = [], first
            while at in waits and at not in ring:
                ring.append(at)
                at = waits[at]
            if at is not None and at in ring:
                return ring[ring.index(at):]
        return []
