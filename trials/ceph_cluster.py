"""A real Ceph cluster on this machine, for trials/ceph.py and trials/ceph_gateways.py: a monitor, a manager, and OSDs over
memory, which can be killed, made to stand still, and be replaced by empty ones. Any user may start it. Every process of it ends
with the script. Debian's packages: ceph-mon ceph-osd ceph-mgr ceph-common, and rbd-fuse for mounts."""

import contextlib
import ctypes
import json
import os
import shutil
import signal
import subprocess
import time
import uuid

from free_port import free_port
from running import Wrong

OSDS = 3
POOL = "rbd"
MEMORY_OF_OSD = 512 << 20
# How long a step of the cluster may take; this machine may have much else to do.
PATIENCE = 180
COMMANDS = ("ceph-mon", "ceph-osd", "ceph-mgr", "ceph", "ceph-authtool", "monmaptool", "rbd")
# Whoever may map the pool's images, and put a lost gateway's clients on the blocklist: as docs/MANY_MACHINES.md has it.
USER = "client.array"
CAPS = ("mon", 'profile rbd, allow command "osd blocklist"', "osd", "profile rbd pool=rbd")
# A cluster of one machine needs other words than a real one only where it is told when an OSD is down: all OSDs are of one
# host, and a report of one of them has to do. And it shall be noticed soon.
CONFIGURATION = """
[global]
fsid = {fsid}
mon host = {monitor}
ms bind msgr2 = true
auth cluster required = cephx
auth service required = cephx
auth client required = cephx
auth allow insecure global id reclaim = false
public addr = {address}
cluster addr = {address}
keyring = {folder}/keyring
run dir = {folder}
admin socket = {folder}/$name.$pid.asok
log file = {folder}/$name.log
pid file =
mon data = {folder}/mon
mon data avail warn = 1
mon osd min down reporters = 1
mon osd reporter subtree level = osd
mon allow pool delete = true
mgr data = {folder}/mgr
mgr initial modules =
osd data = {folder}/osd.$id
osd objectstore = memstore
memstore device bytes = {memory}
osd pool default size = 3
osd pool default min size = 2
osd pool default pg num = 16
osd pool default pg autoscale mode = off
osd crush chooseleaf type = 0
osd heartbeat interval = 2
osd heartbeat grace = 8
osd recovery sleep = 0
[mon]
monmap = {folder}/monmap
[osd]
monmap = {folder}/monmap
[mgr]
monmap = {folder}/monmap
"""


def dies_with_us():
    """What a process does first: it ends when the script does."""
    ctypes.CDLL(None).prctl(1, signal.SIGKILL)


def lacking(*more):
    """What this machine lacks, in words; nothing where it has all."""
    path = f"{os.environ['PATH']}:/usr/sbin:/sbin"
    absent = [name for name in (*COMMANDS, *more) if shutil.which(name, path=path) is None]
    return f"the commands {', '.join(absent)}" if absent else ""


def told(words, seconds=PATIENCE, **more):
    """What a command says that has to end well."""
    pipes = {"stdout": subprocess.PIPE, "stderr": subprocess.PIPE}
    done = subprocess.run(words, timeout=seconds, check=False, text=True, stdin=subprocess.DEVNULL, **pipes, **more)
    if done.returncode != 0:
        raise Wrong(f"{' '.join(words)}: status {done.returncode}: {done.stderr.strip()[-500:]}")
    return done.stdout


class Cluster:
    """A cluster whose files are in this folder, at this address."""

    def __init__(self, folder, address="127.0.0.1", ports=None):
        self.folder, self.address = folder, address
        self.fsid, self.uuids = str(uuid.uuid4()), [str(uuid.uuid4()) for _ in range(OSDS)]
        self.processes = {}
        ports = ports or two_ports()
        self.monitor = f"[v2:{address}:{ports[0]}/0,v1:{address}:{ports[1]}/0]"
        self.conf = os.path.join(folder, "ceph.conf")
        self.errors = open(os.path.join(folder, "errors"), "ab")
        with open(self.conf, "w") as file:
            file.write(CONFIGURATION.format(fsid=self.fsid, monitor=self.monitor, address=address, folder=folder,
                                            memory=MEMORY_OF_OSD))

    def path(self, name):
        return os.path.join(self.folder, name)

    # ---- its parts

    def run(self, *words, **more):
        return told([*words, "-c", self.conf], **more)

    def ceph(self, *words):
        """A command of the administrator: what it says, from its JSON where it is asked for."""
        said = self.run("ceph", "--connect-timeout", "60", *words)
        return json.loads(said) if "json" in words else said

    def rbd(self, *words):
        said = self.run("rbd", *words)
        return json.loads(said) if "json" in words else said

    def begin(self, name, *words):
        self.processes[name] = subprocess.Popen([*words, "-f", "-c", self.conf], stdin=subprocess.DEVNULL, stdout=self.errors,
                                                stderr=self.errors, preexec_fn=dies_with_us)

    def start(self):
        keyring, monmap = self.path("keyring"), self.path("monmap")
        keys = [("mon.", ["mon", "allow *"]), ("client.admin", ["mon", "allow *", "osd", "allow *", "mgr", "allow *"]),
                ("mgr.x", ["mon", "allow profile mgr", "osd", "allow *"]), (USER, list(CAPS))]
        keys += [(f"osd.{n}", ["mon", "allow profile osd", "mgr", "allow profile osd", "osd", "allow *"]) for n in range(OSDS)]
        told(["ceph-authtool", "--create-keyring", keyring])
        for name, caps in keys:
            pairs = [word for kind, what in zip(caps[::2], caps[1::2]) for word in ("--cap", kind, what)]
            told(["ceph-authtool", keyring, "--gen-key", "-n", name, *pairs])
        told(["monmaptool", "--create", "--addv", "a", self.monitor, "--fsid", self.fsid, monmap])
        for part in ("mon", "mgr"):
            os.mkdir(self.path(part))
        self.run("ceph-mon", "--mkfs", "-i", "a", "--monmap", monmap, "--keyring", keyring)
        self.begin("mon", "ceph-mon", "-i", "a")
        self.begin("mgr", "ceph-mgr", "-i", "x")
        for number in range(OSDS):
            self.ceph("osd", "new", self.uuids[number], str(number))
            self.start_osd(number)
        self.wait(lambda: self.ceph("osd", "stat", "--format", "json")["num_up_osds"] == OSDS, "the OSDs are not up")
        self.ceph("osd", "pool", "create", POOL, "16")
        self.ceph("osd", "pool", "application", "enable", POOL, "rbd")
        self.wait_clean()

    def end(self):
        for process in self.processes.values():
            process.kill()
        for process in self.processes.values():
            process.wait()

    @staticmethod
    def wait(is_so, fault, seconds=PATIENCE):
        """Waits until something is so: how long that took."""
        began = time.monotonic()
        while not is_so():
            if time.monotonic() > began + seconds:
                raise Wrong(f"{fault} within {seconds} s")
            time.sleep(0.3)
        return time.monotonic() - began

    def is_clean(self):
        """Each placement group has all its copies."""
        state = self.ceph("pg", "stat", "--format", "json")["pg_summary"]
        return {group["name"] for group in state["num_pg_by_state"]} == {"active+clean"} and state["num_pgs"] >= 16

    def wait_clean(self):
        return self.wait(self.is_clean, "not every placement group is active and clean")

    def is_active(self):
        """Each placement group takes writes."""
        groups = self.ceph("pg", "stat", "--format", "json")["pg_summary"]["num_pg_by_state"]
        return all("active" in group["name"].split("+") for group in groups)

    # ---- OSDs

    def start_osd(self, number):
        """An OSD with an empty disk, as one that was replaced."""
        folder = self.path(f"osd.{number}")
        shutil.rmtree(folder, ignore_errors=True)
        os.mkdir(folder)
        self.run("ceph-osd", "-i", str(number), "--mkfs", "--osd-uuid", self.uuids[number])
        self.begin(f"osd.{number}", "ceph-osd", "-i", str(number))

    def kill_osd(self, number):
        """It is lost, with all that it kept."""
        process = self.processes.pop(f"osd.{number}")
        process.kill()
        process.wait()

    def stand_still(self, numbers):
        for number in numbers:
            self.processes[f"osd.{number}"].send_signal(signal.SIGSTOP)

    def go_on(self, numbers):
        for number in numbers:
            self.processes[f"osd.{number}"].send_signal(signal.SIGCONT)

    # ---- images

    def create(self, image, size="8M", *options):
        self.rbd("create", "--size", size, *options, f"{POOL}/{image}")

    def clients(self, image):
        """The addresses of those who have the image open, or its exclusive lock."""
        watchers = self.rbd("status", image, "--format", "json")["watchers"]
        lockers = self.rbd("lock", "ls", image, "--format", "json")
        return {each["address"] for each in [*watchers, *lockers]}

    def blocklist(self, address):
        """None of what this client sends is done from now on."""
        self.ceph("osd", "blocklist", "add", address, "86400")


def two_ports():
    first = free_port()
    return first, first + 1


class Mount:
    """The images of the pool as files, by rbd-fuse: no root, and no module of the kernel."""

    def __init__(self, cluster, folder, options="", more=()):
        self.cluster, self.folder, self.held = cluster, folder, None
        os.makedirs(folder, exist_ok=True)
        self.conf = folder.rstrip("/") + ".conf"
        with open(cluster.conf) as file, open(self.conf, "w") as own:
            own.write(f"{file.read()}[client]\nrbd cache = false\n{options}\n")
        self.process = subprocess.Popen(["rbd-fuse", "-f", "-c", self.conf, "-p", POOL, *more, folder], stdin=subprocess.DEVNULL,
                                        stdout=cluster.errors, stderr=cluster.errors, preexec_fn=dies_with_us)

    def path(self, image):
        return os.path.join(self.folder, image)

    def wait(self, image):
        """Waits until it shows an image. While nobody has its folder open, rbd-fuse lists the images anew at each look at one of
        them, and meanwhile another thread finds none (ENOENT): so it is held open."""
        Cluster.wait(lambda: os.path.exists(self.path(image)), f"rbd-fuse does not show {image}")
        if self.held is None:
            self.held = os.open(self.folder, os.O_RDONLY | os.O_DIRECTORY)

    def kill(self):
        """As the loss of its machine: what it has not sent is gone."""
        self.process.kill()
        self.process.wait()
        if self.held is not None:
            os.close(self.held)
            self.held = None
        unmount(self.folder)


def unmount(folder):
    words = ["umount", "-l", folder] if os.geteuid() == 0 else ["fusermount", "-uz", folder]
    with contextlib.suppress(OSError):
        subprocess.run(words, check=False, stderr=subprocess.DEVNULL)
