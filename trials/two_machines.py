#!/usr/bin/env python3
"""Two machines, of which one serves as long as it lives: DRBD (protocol C) below a file system that holds the disks and
their registration files. Boots two emulated Debian machines with a wire between them. Hosts write, flush, write with
FUA, compare and write, register with APTPL, reserve and fence. The active machine's qemu is killed while they work; the
other one becomes active. Then it looks: every block whose flush was GOOD is there, every registration with APTPL, and
the fenced host stays out. The dead one comes back and is in sync, while the hosts work on; and then the other way.
docs/TWO_MACHINES.md says what this is for.

usage: trials/two_machines.py build FOLDER          makes what they boot, in FOLDER: some minutes, root, the network
       trials/two_machines.py rounds FOLDER [N]     N rounds, ten where none are named; what a machine gave its disk is
                                                   there
       trials/two_machines.py power FOLDER [N]      the same; a disk forgets all that was not flushed, or some of it. By
                                                   turns the dead machine comes back as the active one, the other one
                                                   takes over, or both are lost and both come back
       trials/two_machines.py outage FOLDER [N]     a takeover and the way back, then both lose their power at once, N times
       trials/two_machines.py move FOLDER [N]       the active machine gives up in order, as for an upgrade, N times
       trials/two_machines.py wire_cut FOLDER       the wire is cut before the kill: has to find what is lost
       trials/two_machines.py local_registrations FOLDER
                                                   registration files lie on the local disk: has to find what is lost

Ends with status 1 where it is not so. The program is ./arrayd, or what the environment's ARRAYD names, as it was when
FOLDER was made; one that was compiled without being optimized makes hosts wait long, since the machines' processors are
emulated. The machines take the time that others leave; $MACHINES_NICE gives them more (19 is least). Not part of the
gate.
"""

import concurrent.futures
import glob
import os
import random
import sys
import tempfile
import time

import two_machines_build
from two_machines_disk import Disk
from two_machines_emulated import WIRE, Machine, Wire, Wrong
from two_machines_hosts import UNITS, Hosts

LENGTH = 24 << 20
PLACE = "/usr/libexec/two_machines"
# Of /proc/drbd, which is read without a program of its own: that would take much of an emulated processor.
STATE = 'state=$(< /proc/drbd); state=${state#*cs:}; echo ${state%% C *}'
# Whether a machine's disk says that it died while it was active, and has not been in sync since.
CRASHED = "drbdadm get-gi array | sed 's/.*://'"
WORKS, WORKS_ALONE = 12, 5
began = time.monotonic()


def say(line):
    print(f"{time.monotonic() - began:6.0f} s  {line}", flush=True)


def drbdadm(words):
    """A command again and again until it is done: it is waited for five seconds only, and a machine may take longer."""
    return f"until drbdadm {words} array; do sleep 1; done"


class Pair:
    """Both machines, the wire, and the hosts."""

    def __init__(self, folder, run, units="/srv/array/unit", kind="plain"):
        when_on = f"{PLACE}/begin; {drbdadm('adjust')}"
        self.disks = {name: Disk(os.path.join(run, f"disk.{name}"), LENGTH) for name in "ab"}
        self.machines = {name: Machine(name, kind, folder, run, self.disks[name], when_on) for name in "ab"}
        self.wire = Wire([machine.port(WIRE) for machine in self.machines.values()])
        self.active, self.passive = self.machines.values()
        self.units = [f"{units}{unit}" for unit in UNITS]
        self.hosts = Hosts()

    def end(self):
        for machine in self.machines.values():
            machine.kill()

    def begin(self):
        """Both are switched on for the first time, and one becomes active."""
        for machine in self.machines.values():
            machine.start()
        for machine in self.machines.values():
            machine.wait_up()
        self.make_filesystem("/srv/array")
        told = self.activate()
        self.hosts.log_in(self.active.base)
        self.hosts.begin()
        say(f"machine {self.active.name} is active: {told}")

    def make_filesystem(self, folder):
        """Makes the file system that both machines have, with the array's disks; its place is this folder."""
        self.active.wait(STATE, lambda state: state.startswith("Connected "))
        # both disks are empty, so they need not be copied
        self.active.ask(drbdadm("-- --clear-bitmap new-current-uuid"))
        self.wait_in_sync()
        self.active.ask(f"{drbdadm('primary')}; mkfs.ext4 -q /dev/drbd0; mkdir -p {folder}; mount /dev/drbd0 {folder}")
        self.active.ask(f"cd {folder}; fallocate -l 1M unit0; truncate -s 1M unit1 unit2; chown arrayd: . unit?")
        self.active.ask(f"umount {folder}; {drbdadm('secondary')}")

    def wait_in_sync(self):
        """Both disks are good: how long that took."""
        return self.active.wait(STATE, lambda state: "Connected ro:" in state and state.endswith("UpToDate/UpToDate"))

    def activate(self):
        """The active machine takes up its work: its steps, with the milliseconds that each took from the begin."""
        links = [f"mkdir -p {os.path.dirname(unit)}; ln -sf /srv/array/{os.path.basename(unit)} {unit}"
                 for unit in self.units if not unit.startswith("/srv/array/")]
        return ", ".join(self.active.ask("\n".join([*links, f"{PLACE}/activate {' '.join(self.units)}"])))

    def change_over(self):
        self.active, self.passive = self.passive, self.active

    def same_disks(self):
        """Both disks have the same bytes, DRBD's own ones left out."""
        length = int(self.active.ask("blockdev --getsize64 /dev/drbd0")[0])
        for _ in range(10):
            self.active.ask("sync")
            one, other = (disk.read(0, length) for disk in self.disks.values())
            if one == other:
                return length
            time.sleep(2)
        raise Wrong("DRBD says that the disks are in sync, and they differ")

    def serves_again(self, killed):
        """The active machine takes up its work, the hosts come back and look: what was seen."""
        told = self.activate()
        self.hosts.log_in(self.active.base)
        answered = time.monotonic() - killed
        alone, wrong = self.hosts.check()
        return f"{told}, all hosts back {answered:.1f} s behind it; {alone} blocks whose value was flushed", wrong

    def comes_back(self):
        """The passive machine is switched on, and gets in sync while the hosts work on."""
        self.passive.start()
        self.hosts.start()
        up = self.passive.wait_up()
        synced = self.wait_in_sync()
        self.hosts.stop()
        return (f"machine {self.passive.name} was up after {up:.0f} s, and in sync {synced:.0f} s later; "
                f"{self.same_disks()} bytes are the same on both")


def must_be_whole(wrong):
    if wrong:
        raise Wrong(f"{len(wrong)} things are lost:\n" + "\n".join(wrong[:20]))


def works(pair, seconds):
    """The hosts work until the active machine is killed."""
    pair.hosts.fence_anew()
    before = pair.hosts.sums()
    pair.hosts.start()
    time.sleep(seconds * random.uniform(0.7, 1.3))
    answers, flushes = (now - then for now, then in zip(pair.hosts.sums(), before))
    return f"{answers} answers, {flushes} flushes among them"


def lose(pair, keeps):
    """The active machine loses its power: when that was."""
    killed = time.monotonic()
    pair.active.kill(keeps)
    pair.hosts.stop(is_lost=True)
    return killed


def takeover(pair, keeps):
    told = works(pair, WORKS)
    killed = lose(pair, keeps)
    say(f"machine {pair.active.name} was killed behind {told}; {pair.active.disk.forgotten} sectors forgotten")
    pair.change_over()
    told, wrong = pair.serves_again(killed)
    must_be_whole(wrong)
    say(f"machine {pair.active.name}: {told}: nothing is lost")
    say(pair.comes_back())


def return_alone(pair, keeps):
    """The machine that was lost comes back as the active one, with what its disk has kept."""
    told = works(pair, WORKS)
    killed = lose(pair, keeps)
    say(f"machine {pair.active.name} was killed behind {told}; {pair.active.disk.forgotten} sectors forgotten")
    pair.active.start()
    up = pair.active.wait_up()
    told, wrong = pair.serves_again(killed)
    must_be_whole(wrong)
    say(f"it was up again after {up:.0f} s: {told}: nothing is lost")
    synced = pair.wait_in_sync()
    say(f"in sync {synced:.0f} s later; {pair.same_disks()} bytes are the same on both")


def both_lost(pair, keeps):
    """Both machines lose their power at once, and come back: the one that was active serves again."""
    # else DRBD takes any of them as the source
    pair.passive.wait(CRASHED, lambda told: told == "0", 120)
    told = works(pair, WORKS)
    killed = time.monotonic()
    pair.active.kill(keeps)
    pair.passive.kill(keeps)
    pair.hosts.stop(is_lost=True)
    forgotten = [disk.forgotten for disk in pair.disks.values()]
    say(f"both machines were killed behind {told}; {forgotten} sectors forgotten")
    for machine in pair.machines.values():
        machine.start()
    for machine in pair.machines.values():
        machine.wait_up()
    synced = pair.wait_in_sync()
    told, wrong = pair.serves_again(killed)
    must_be_whole(wrong)
    say(f"in sync {synced:.0f} s after both were up, machine {pair.active.name} serves again: {told}: nothing is lost; "
        f"{pair.same_disks()} bytes are the same on both")


# ---- what can be asked for

def rounds(pair, count):
    for number in range(count):
        say(f"round {number + 1}")
        takeover(pair, "all")


def power(pair, count):
    ways = (return_alone, takeover, both_lost, takeover)
    for number in range(count):
        say(f"round {number + 1}")
        ways[number % len(ways)](pair, "none" if number // len(ways) % 2 == 0 else "some")


def outage(pair, count):
    for number in range(count):
        say(f"round {number + 1}")
        keeps = "none" if number % 2 == 0 else "some"
        takeover(pair, keeps)
        both_lost(pair, keeps)


def move(pair, count):
    for _ in range(count):
        pair.hosts.fence_anew()
        pair.hosts.start()
        time.sleep(WORKS_ALONE)
        asked = time.monotonic()
        pair.active.ask(f"{PLACE}/deactivate")
        pair.hosts.stop(is_lost=True)
        ended = time.monotonic() - asked
        pair.change_over()
        told, wrong = pair.serves_again(asked)
        must_be_whole(wrong)
        say(f"machine {pair.passive.name} gave up in {ended:.1f} s")
        say(f"machine {pair.active.name}: {told}: nothing is lost")


def finds(wrong, what):
    if not wrong:
        raise Wrong(f"{what}, and nothing was found to be lost")
    say(f"{what}: {len(wrong)} things are lost, and were found. The first of them:\n" + "\n".join(wrong[:6]))


def wire_cut(pair, _):
    pair.wire.is_cut = True
    pair.active.wait(STATE, lambda state: state.startswith("WFConnection "))
    say("the wire is cut, and both machines have noticed it")
    works(pair, WORKS_ALONE)
    killed = lose(pair, "all")
    dead = pair.active
    pair.change_over()
    _, wrong = pair.serves_again(killed)
    finds(wrong, "with the wire cut before the kill")
    pair.wire.is_cut = False
    dead.start()
    dead.wait_up()
    pair.active.wait(STATE, lambda state: state.startswith("StandAlone "))
    say(f"the wire is whole again. Both machines say that they have two histories, and stay apart: {split_brain(pair)}")
    # what docs/TWO_MACHINES.md says is to be done then
    dead.ask(f"drbdadm disconnect array || true; {drbdadm('secondary')}")
    dead.ask("drbdadm connect --discard-my-data array || true")
    pair.active.ask("drbdadm connect array || true")
    pair.wait_in_sync()
    say(f"machine {dead.name} has given up its history; {pair.same_disks()} bytes are the same on both")


def split_brain(pair):
    found = [machine.ask("dmesg | grep -c 'Split-Brain detected' || true")[0] for machine in pair.machines.values()]
    if "0" in found:
        raise Wrong(f"the kernels tell of a split brain {found} times")
    return "Split-Brain detected"


def local_registrations(pair, _):
    works(pair, WORKS_ALONE)
    killed = lose(pair, "all")
    pair.change_over()
    _, wrong = pair.serves_again(killed)
    finds(wrong, "with the registration files on the local disk")
    if any("LBA" in line for line in wrong):
        raise Wrong("blocks are lost too")


WAYS = {"rounds": (rounds, 10), "power": (power, 10), "outage": (outage, 4), "move": (move, 2), "wire_cut": (wire_cut, 1),
        "local_registrations": (local_registrations, 1)}


def boot(folder):
    """Boots each machine of each kind once, two at the same time, and keeps what it then is."""
    def boot_one(run, name, kind):
        os.mkdir(run)
        Machine(name, kind, folder, run, Disk(os.path.join(run, "disk"), LENGTH)).boot()
        say(f"machine {name}, {kind}, has booted")

    with tempfile.TemporaryDirectory(dir=folder) as run, concurrent.futures.ThreadPoolExecutor(2) as lanes:
        booted = [lanes.submit(boot_one, os.path.join(run, kind + name), name, kind)
                  for kind in ("systemd", "plain") for name in "ab"]
        for each in booted:
            each.result()


def tell_consoles(run):
    """The last lines that each machine wrote at each of its starts."""
    for console in sorted(glob.glob(os.path.join(run, "console.*"))):
        with open(console, errors="replace") as file:
            print(os.path.basename(console), *file.read().splitlines()[-5:], sep="\n    ", flush=True)


def main():
    if len(sys.argv) not in (3, 4) or sys.argv[1] not in (*WAYS, "build"):
        sys.exit(__doc__)
    way, folder = sys.argv[1], os.path.abspath(sys.argv[2])
    if way == "build":
        two_machines_build.build(folder)
        boot(folder)
        return
    act, count = WAYS[way]
    with tempfile.TemporaryDirectory(dir=folder) as run:
        pair = Pair(folder, run, "/var/lib/array/unit" if way == "local_registrations" else "/srv/array/unit")
        try:
            pair.begin()
            act(pair, int(sys.argv[3]) if len(sys.argv) == 4 else count)
        except BaseException:
            tell_consoles(run)
            raise
        finally:
            pair.end()
    say(f"{way}: as it has to be")


if __name__ == "__main__":
    try:
        main()
    except Wrong as wrong:
        sys.exit(f"WRONG {wrong}")
