#!/usr/bin/env python3
"""Units on Ceph: a real cluster on this machine (trials/ceph_cluster.py), whose images `rbd-fuse` shows as files, and an array
over them. Hosts write by both controllers, flush, write with FUA, compare and write, register, reserve and fence. Meanwhile, in
each round:

    an OSD is killed; an empty one takes its place and recovers
    two of three OSDs stand still for less than the array's deadline, then for more
    the array is killed, and started anew
    the gateway is lost: array and mount are killed, its clients are put on the blocklist, and another gateway serves
    the gateway is only cut off: it runs on with its hosts, is put on the blocklist, and another one serves

Then all that was GOOD and flushed has to be there, no block torn, the registrations those of the last GOOD, and the gateway that
was cut off must not write any more. docs/MANY_MACHINES.md says what this is for.

usage: trials/ceph.py [--fast | --rounds N]       ten rounds; --fast is one
       trials/ceph.py lying_cache                 with rbd-fuse's cache on, whose flush is GOOD for what was lost: has to find it
       trials/ceph.py not_blocklisted             the gateway that was cut off is not put on the blocklist: has to find it
       trials/ceph.py speed                       commands a second: fio by its rbd engine, and a host through the array over
                                                  rbd-fuse, over the same image by turns

Ends with status 1 where it is not so. The program is ./arrayd, or what the environment's ARRAYD names. Wants Debian's packages
ceph-mon ceph-osd ceph-mgr ceph-common rbd-fuse, and fuse where it is not run as root; a tenth of a round is processor time. Not
part of the gate.
"""

import argparse
import json
import os
import subprocess
import sys
import tempfile
import time

import ceph_cluster
from ceph_cluster import Cluster, Mount, unmount
from ceph_hosts import MayFail, Witness
from free_port import HOST, free_port
from initiator import Failed
from running import TARGET, Array, Wrong, client, made
from two_machines_hosts import LASTING, LOST, UNITS

DEADLINE = 30
IMAGES = [f"u{unit}" for unit in (*UNITS, 3)]
# Objects of 4 KiB, so that a write may lie in two of them; the others have Ceph's own size.
SMALL = {"u1": ("--object-size", "4K")}
# rbd-fuse says GOOD to a flush whatever the library said, so what a cache had kept and lost goes unnoticed.
LYING = "rbd cache = true\nrbd cache policy = writeback\nrbd cache writethrough until flush = false\nrbd cache max dirty age = 600"
# How long a unit is looked at, behind a hang, for whether it is served again by itself.
LOOKS = 20
began = time.monotonic()


def say(line):
    print(f"{time.monotonic() - began:6.0f} s  {line}", flush=True)


class Gateway:
    """A mount of its own, and an array over it. What the array keeps beside a disk are images beside it, so they move along."""

    def __init__(self, cluster, folder, options):
        self.cluster, self.folder = cluster, folder
        self.mount = Mount(cluster, folder, options)
        self.port, self.array = free_port(), None
        for image in IMAGES:
            self.mount.wait(image)

    def serve(self):
        disks = [self.mount.path(image) for image in IMAGES]
        self.array = Array(disks, self.port, more={"ARRAYD_DEADLINE": str(DEADLINE)}, log=self.folder + ".log")

    def clients(self):
        return set().union(*(self.cluster.clients(image) for image in IMAGES))

    def lose(self):
        """Its machine is lost."""
        if self.array:
            self.array.process.kill()
        self.mount.kill()
        if self.array:
            self.array.kill()

    def writes_by_hand(self):
        """Whether its mount still writes, and why not: a block of unit 3 that nobody else writes."""
        words = ["dd", "if=/dev/zero", f"of={self.mount.path(IMAGES[3])}", "bs=512", "count=1", "seek=1000", "conv=notrunc,fsync"]
        by_hand = subprocess.Popen(words, stdin=subprocess.DEVNULL, stderr=subprocess.PIPE, text=True)
        try:
            said = by_hand.communicate(timeout=DEADLINE)[1]
        except subprocess.TimeoutExpired:
            # it ends with the mount
            return False, f"no answer within {DEADLINE} s"
        return by_hand.returncode == 0, said.strip().splitlines()[0]


class Trial:
    def __init__(self, folder, options="", blocklists=True):
        self.folder, self.options, self.blocklists = folder, options, blocklists
        os.mkdir(os.path.join(folder, "cluster"))
        self.cluster = Cluster(os.path.join(folder, "cluster"))
        self.hosts, self.gateways, self.wrong = MayFail(), [], []

    def begin(self):
        self.cluster.start()
        say("the cluster is up: a monitor, a manager, three OSDs over memory")
        for image in IMAGES:
            self.cluster.create(image, "8M", *SMALL.get(image, ()))
        self.give_files(IMAGES)
        self.gateway = self.another()
        self.gateway.serve()
        self.hosts.log_in(self.gateway.port)
        self.hosts.begin()

    def give_files(self, images):
        """The files that an array makes beside disks in a folder of this machine, as images beside these: rbd-fuse makes none."""
        disks = [made(os.path.join(self.folder, image), 16384) for image in images]
        with Array(disks, free_port()) as array:
            array.quit()
        for image, disk in zip(images, disks):
            for file in (".reg", ".unit"):
                self.cluster.rbd("import", disk + file, f"{ceph_cluster.POOL}/{image}{file}")

    def another(self):
        folder = os.path.join(self.folder, f"gateway.{len(self.gateways) + 1}")
        self.gateways.append(Gateway(self.cluster, folder, self.options))
        return self.gateways[-1]

    def tell(self):
        """The last that each array said of itself."""
        for gateway in self.gateways:
            if os.path.exists(gateway.folder + ".log"):
                with open(gateway.folder + ".log") as file:
                    print(gateway.folder, *file.read().splitlines()[-5:], sep="\n    ", flush=True)

    def end(self):
        # an OSD that stands still would hold up what has to end
        for gateway in self.gateways:
            gateway.mount.process.kill()
        for gateway in self.gateways:
            gateway.lose()
        self.cluster.end()
        for gateway in self.gateways:
            unmount(gateway.folder)

    # ---- what is done to them

    def works(self, what, act):
        """The hosts work while this is done; no command may fail, but where this machine itself let it wait for too long."""
        before = self.hosts.sums()
        self.hosts.start()
        time.sleep(1)
        told = act()
        time.sleep(1)
        if self.hosts.longest > DEADLINE:
            told += f"{self.hosts.stop_failed(0)} failed behind the deadline; {self.recovered(time.monotonic())}; "
        else:
            self.hosts.stop()
            told += "none failed; "
        answers, flushes = (now - then for now, then in zip(self.hosts.sums(), before))
        say(f"{what}: {told}{answers} answers, {flushes} flushes; the longest took {self.hosts.longest:.1f} s")

    def osd_lost(self, number):
        def act():
            self.cluster.kill_osd(number)
            time.sleep(3)
            self.cluster.start_osd(number)
            return f"recovered {self.cluster.wait_clean():.1f} s behind the begin of another one; "
        self.works(f"OSD {number} was killed", act)

    def stand_still_short(self, osds):
        def act():
            self.cluster.stand_still(osds)
            time.sleep(DEADLINE / 5)
            self.cluster.go_on(osds)
            return ""
        self.works(f"OSDs {osds} stood still for {DEADLINE // 5} s", act)

    def stand_still_long(self, osds):
        self.hosts.start()
        time.sleep(1)
        self.cluster.stand_still(osds)
        time.sleep(DEADLINE + 5)
        self.cluster.go_on(osds)
        went_on = time.monotonic()
        failed = self.hosts.stop_failed()
        self.cluster.wait(self.cluster.is_active, "not every placement group is active")
        active = time.monotonic() - went_on
        told = self.recovered(went_on)
        say(f"OSDs {osds} stood still for {DEADLINE + 5} s, deadline {DEADLINE} s: {failed} commands failed; all placement groups "
            f"active {active:.1f} s behind; {told}: nothing is lost")

    def recovered(self, since):
        """Whether the units are served again by themselves; else the array is started anew. Looks at all that has to be there."""
        again = self.served_again(since)
        if again is None:
            self.gateway.array.quit(4 * DEADLINE)
            self.gateway.serve()
            self.look()
            return "units were lost until the array was started anew"
        return f"the units were served again {again:.1f} s behind that, without a start"

    def served_again(self, since):
        """How long it took until each unit was flushed and took a registration again, or nothing."""
        until = time.monotonic() + LOOKS
        while time.monotonic() < until:
            try:
                self.look(False)
                for unit in LASTING:
                    self.hosts.register(self.hosts.nodes[0], 0, unit, next(self.hosts.keys))
                return time.monotonic() - since
            except (Failed, *LOST):
                time.sleep(1)
        return None

    def look(self, has_ended=True):
        """The hosts come back, and look at all that has to be there."""
        self.hosts.log_in(self.gateway.port)
        alone, wrong = self.hosts.check(has_ended)
        must_be_whole(wrong)
        if has_ended:
            self.hosts.begin()
        return alone

    def array_killed(self):
        self.hosts.fence_anew()
        self.hosts.start()
        time.sleep(3)
        self.gateway.array.kill()
        self.hosts.stop(is_lost=True)
        self.gateway.serve()
        say(f"the array was killed and started anew: {self.look()} blocks whose value was flushed: nothing is lost")

    def blocklist(self, gateway):
        clients = gateway.clients()
        for client in clients:
            self.cluster.blocklist(client)
        return clients

    def gateway_lost(self):
        self.hosts.fence_anew()
        self.hosts.start()
        time.sleep(3)
        lost = time.monotonic()
        self.gateway.lose()
        self.hosts.stop(is_lost=True)
        clients = self.blocklist(self.gateway)
        self.gateway = self.another()
        self.gateway.serve()
        alone = self.look()
        say(f"the gateway was lost, {len(clients)} clients blocklisted: another one served {time.monotonic() - lost:.1f} s "
            f"behind it; {alone} blocks whose value was flushed: nothing is lost")

    def gateway_cut_off(self):
        """It runs on with its hosts, and does not know that another one is to serve."""
        old, witness = self.gateway, Witness(self.gateway.port)
        self.hosts.fence_anew()
        self.hosts.start()
        witness.start()
        time.sleep(3)
        cut = time.monotonic()
        if self.blocklists:
            self.blocklist(old)
            failed = self.hosts.stop_failed()
        else:
            self.hosts.stop()
            failed = 0
        witness.stop(20 if self.blocklists else 2)
        self.gateway = self.another()
        self.gateway.serve()
        self.hosts.log_in(self.gateway.port)
        served = time.monotonic() - cut
        by_array, said = witness.writes_on()
        by_mount, why = old.writes_by_hand()
        wrong = witness.check(self.hosts.nodes[0].paths[0])
        if by_array:
            wrong.append("the gateway that was cut off still says GOOD to a write with FUA")
        if by_mount:
            wrong.append("the mount of the gateway that was cut off still writes")
        alone, lost = self.hosts.check()
        must_be_whole([*wrong, *lost])
        self.hosts.begin()
        say(f"the gateway was cut off, its clients blocklisted: {failed} hosts' commands failed there, its witness ended with "
            f"{witness.ended}; another one served {served:.1f} s behind it. By the old array a write is answered {said}, by its "
            f"mount: {why}. {alone} blocks whose value was flushed: nothing is lost")
        old.lose()


class Lost(Wrong):
    """What was promised is not so."""


def must_be_whole(wrong):
    if wrong:
        raise Lost(f"{len(wrong)} things are lost:\n" + "\n".join(wrong[:20]))


# ---- what can be asked for

def rounds(folder, count):
    trial = Trial(folder)
    try:
        trial.begin()
        for number in range(count):
            say(f"round {number + 1}")
            trial.osd_lost(number % 3)
            still = [number % 3, (number + 1) % 3]
            trial.stand_still_short(still)
            trial.stand_still_long(still)
            trial.array_killed()
            trial.gateway_lost()
            trial.gateway_cut_off()
    except BaseException:
        trial.tell()
        raise
    finally:
        trial.end()
    say(f"{count} rounds: 0 lost, nothing torn, the registrations those of the last GOOD")


def finds(trial, what):
    """Whether it finds what is wrong on purpose."""
    try:
        trial.begin()
        trial.gateway_cut_off()
    except Lost as wrong:
        say(f"{what}: found. {wrong}"[:700])
    else:
        raise Wrong(f"{what}, and nothing was found to be lost")
    finally:
        trial.end()


def lying_cache(folder, _):
    finds(Trial(folder, LYING), "with rbd-fuse's cache, whose flush is always GOOD")


def not_blocklisted(folder, _):
    finds(Trial(folder, blocklists=False), "with the gateway that was cut off not on the blocklist")


# ---- how fast it is

SIZE, SECONDS, RUNS = 128 << 20, 1, 3
MOST = ("--time_based", f"--runtime={SECONDS}", "--randrepeat=0", "--output-format=json")


def fio(way, length, *words, **more):
    """How many commands end a second."""
    said = ceph_cluster.told(["fio", "--name=fast", f"--rw=rand{way}", f"--bs={length}", *MOST, *words], **more)
    return sum(job[way]["iops"] for job in json.loads(said[said.index("{"):])["jobs"])


def by_engine(trial, way, length, depth):
    words = ("--ioengine=rbd", "--clientname=admin", "--pool=rbd", "--rbdname=fast", f"--iodepth={depth}")
    return fio(way, length, *words, env={**os.environ, "CEPH_CONF": trial.conf}, cwd=trial.folder)


def by_host(program, file, port, way, length, depth):
    # of what was read or written before, nothing is in this machine's memory
    with open(file, "rb") as image:
        os.fsync(image.fileno())
        os.posix_fadvise(image.fileno(), 0, 0, os.POSIX_FADV_DONTNEED)
    words = [program, f"{HOST}:{port}", TARGET, "0", way, str(length), str(depth), "1", str(SECONDS), str(SIZE)]
    return float(ceph_cluster.told(words).split()[0].replace(",", ""))


def speed(folder, _):
    """The image by its library, and by a host through the array over a mount."""
    trial = Trial(folder)
    try:
        trial.cluster.start()
        trial.cluster.create("fast", str(SIZE >> 20))
        trial.give_files(["fast"])
        mount = Mount(trial.cluster, os.path.join(folder, "fast-mount"))
        mount.wait("fast")
        trial.conf, program, file = mount.conf, client(folder), mount.path("fast")
        array = Array([file], free_port())
        ceph_cluster.told(["dd", "if=/dev/urandom", f"of={file}", "bs=1M", f"count={SIZE >> 20}", "conv=notrunc"])
        for way in ("read", "write", "fua"):
            for length in (4096, 262144):
                for depth in (1, 32):
                    by_fio = "read" if way == "read" else "write"
                    runs = [(by_engine(trial, by_fio, length, depth), by_host(program, file, array.port, way, length, depth))
                            for _ in range(RUNS)]
                    engine, host = (sorted(column)[RUNS // 2] for column in zip(*runs))
                    say(f"{way} {length >> 10} KiB, {depth} deep: engine {engine:.0f} a second, host {host:.0f}: "
                        f"{host / engine:.2f}   {[tuple(map(round, run)) for run in runs]}")
        array.kill()
        mount.kill()
    finally:
        trial.end()


def main():
    words = argparse.ArgumentParser(usage=__doc__.split("usage: ")[1].split("\n\n")[0])
    words.add_argument("way", nargs="?", default="rounds", choices=("rounds", "lying_cache", "not_blocklisted", "speed"))
    words.add_argument("--fast", action="store_true")
    words.add_argument("--rounds", type=int, default=10)
    words = words.parse_args()
    more = ("fio", "rustc") if words.way == "speed" else ()
    lacks = ceph_cluster.lacking("rbd-fuse", *more, *(() if os.geteuid() == 0 else ("fusermount",)))
    if lacks or not os.path.exists("/dev/fuse"):
        sys.exit(f"it wants {lacks or '/dev/fuse'}")
    with tempfile.TemporaryDirectory(dir="/tmp", ignore_cleanup_errors=True) as folder:
        globals()[words.way](folder, 1 if words.fast else words.rounds)


if __name__ == "__main__":
    try:
        main()
    except Wrong as wrong:
        sys.exit(f"WRONG {wrong}")
