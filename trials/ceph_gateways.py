#!/usr/bin/env python3
"""Two gateways of units on Ceph, of which one serves: two machines of user-mode Linux that map the images by the kernel's `rbd`,
and a real cluster on this machine (trials/ceph_cluster.py). A network of their own joins them, which is gone with the script.
Hosts write, flush, write with FUA, compare and write, register with APTPL, reserve and fence. Five times the gateway that serves
is killed. Once its cable is pulled, and put back when the other one serves; once it is only taken for lost, and works on. Each
time the other one puts it on Ceph's blocklist, takes over by the steps of docs/MANY_MACHINES.md, and then: every block whose flush
was GOOD is there, every registration with APTPL, the fenced host stays out, and the old gateway, where it lives, cannot write.

usage: trials/ceph_gateways.py build FOLDER             makes what they boot: some minutes, root, the network
       trials/ceph_gateways.py FOLDER [--fast]          the seven takeovers; --fast is one of each kind
       trials/ceph_gateways.py not_blocklisted FOLDER   nobody is blocklisted, the lock is not exclusive: has to find what is lost
       trials/ceph_gateways.py plan FOLDER              what Pacemaker would do by the page's configuration; starts nothing

Ends with status 1 where it is not so. The program is ./arrayd, or what ARRAYD names, as it was when FOLDER was made. Wants root,
Debian's packages ceph-mon ceph-osd ceph-mgr ceph-common user-mode-linux, 4 GiB of memory. Not part of the gate.
"""

import argparse
import os
import re
import subprocess
import sys
import tempfile
import time

import ceph_cluster
import ceph_gateways_build
from ceph import Lost, must_be_whole, say
from ceph_cluster import USER, Cluster
from ceph_gateways_build import GUEST, IMAGES, KEYRING, PLACE
from ceph_hosts import MayFail, Witness
from running import TOP, Wrong, library
from two_machines import tell_consoles
from two_machines_emulated import Machine
from two_machines_plan import Root, as_cib, block_of, in_order, place, with_both

PAGE = os.path.join(TOP, "docs", "MANY_MACHINES.md")
HERE, MOVES = "10.91.0.1", "10.91.0.10"
ADDRESS = {"a": "10.91.0.2", "b": "10.91.0.3"}
PORT, SHELL = 3260, 2222
MEMORY = "1024"
SIZES = {"array-files": "64M"}
WORKS = 20
INSIDE = "CEPH_GATEWAYS_NETWORK"


def network(*words):
    subprocess.run(["ip", *words], check=True)


def begin_network():
    network("link", "set", "lo", "up")
    network("link", "add", "gateways", "type", "bridge")
    network("addr", "add", f"{HERE}/24", "dev", "gateways")
    network("link", "set", "gateways", "up")


def pull(name):
    """Pulls a machine's cable, at the end that is not its own: its network has no way back from a device that fails."""
    network("link", "set", f"tap-{name}", "nomaster")


def plug(name):
    """Puts a machine's cable in."""
    network("link", "set", f"tap-{name}", "master", "gateways", "up")


class Gateway(Machine):
    """One of the two machines: a kernel that runs as a process (user-mode Linux), which takes a moment to boot. Its disk forgets what
    it wrote when it is switched off."""

    # It is not emulated and needs little; where others have all processors, one that gives way to them all does not come up.
    nice = os.environ.get("MACHINES_NICE", "5")

    def __init__(self, name, folder, run, cluster=None):
        super().__init__(name, "plain", folder, run, None)
        self.cluster, self.alive, self.registers = cluster, None, library("trials/wide_registers.c", run)
        network("tuntap", "add", "dev", f"tap-{name}", "mode", "tap")
        plug(name)

    def shell(self):
        return ADDRESS[self.name], SHELL

    def words(self, root):
        return [
            "setpriv", "--pdeathsig", "KILL", "nice", "-n", self.nice, "unshare", "--pid", "--fork", "--kill-child=KILL", "--mount-proc",
            "sh", "-c", '"$@" & wait', "sh", "env", f"LD_PRELOAD={self.registers}", "linux.uml", f"mem={MEMORY}M",
            f"ubd0={root},{os.path.join(self.folder, 'root.img')}",
            "root=/dev/ubda", "rw", "con=null", "con0=null,fd:1", f"vec0:transport=tap,ifname=tap-{self.name},depth=128,gro=1",
            f"init={PLACE}/plain", f"machine={self.name}", "panic=1", "loglevel=4",
        ]

    def start(self):
        """Switches it on."""
        number = next(self.starts)
        # whoever has the other end of this pipe is a process of this machine
        self.alive, held = os.pipe()
        with open(os.path.join(self.run, f"console.{self.name}.{number}"), "wb") as console:
            words = self.words(os.path.join(self.run, f"root.{self.name}.{number}"))
            self.process = subprocess.Popen(words, stdin=subprocess.DEVNULL, stdout=console, stderr=console, start_new_session=True,
                                            pass_fds=[held])
        os.close(held)
        self.give_way()

    def kill(self):
        """A loss of power: with the first of its processes all end."""
        if self.process is None:
            return
        if self.is_on():
            self.process.kill()
        self.process.wait()
        os.read(self.alive, 1)

    def wait_up(self):
        """Waits until it is up, and a client of the cluster."""
        conf = f"[global]\nfsid = {self.cluster.fsid}\nmon host = {self.cluster.monitor}\n"
        files = {"/etc/ceph/ceph.conf": conf, KEYRING: self.cluster.ceph("auth", "get", USER)}
        for name in ("activate", "deactivate"):
            with open(os.path.join(GUEST, name)) as file:
                files[f"{PLACE}/{name}"] = file.read()
        self.when_on = "".join(f"cat > {path} <<'BEHIND'\n{text}BEHIND\n" for path, text in files.items())
        return super().wait_up()

    def writes_by_hand(self):
        """What it says where root writes to a unit's device, and to the registrations' file system."""
        dd = "timeout 30 dd if=/dev/zero of=/dev/rbd/rbd/unit3 bs=512 count=1 seek=1000 oflag=direct conv=notrunc 2>&1"
        file = "timeout 30 dd if=/dev/zero of=/var/lib/arrayd/one/behind bs=512 count=1 conv=fsync 2>&1"
        return [self.ask(f"{how} | head -1; exit_of=${{PIPESTATUS[0]}}; echo $exit_of", 90)[-2:] for how in (dd, file)]


class Pair:
    """The cluster, both gateways, and the hosts."""

    def __init__(self, folder, run, is_exclusive=True):
        os.mkdir(os.path.join(run, "cluster"))
        self.cluster = Cluster(os.path.join(run, "cluster"), HERE, (3300, 6789))
        self.machines = {name: Gateway(name, folder, run, self.cluster) for name in "ab"}
        self.active, self.passive = self.machines.values()
        self.is_exclusive = is_exclusive
        self.hosts = MayFail()

    def end(self):
        for machine in self.machines.values():
            machine.kill()
        self.cluster.end()

    def begin(self):
        self.cluster.start()
        for image in IMAGES:
            self.cluster.create(image, SIZES.get(image, "8M"))
        for machine in self.machines.values():
            machine.start()
            machine.wait_up()
        say("the cluster and both machines are up")
        links = "".join(f"ln -s /dev/rbd/rbd/{image} {image}\n" for image in IMAGES[1:])
        self.active.ask(f"{PLACE}/activate exclusive || true; mkfs.ext4 -q /dev/rbd/rbd/array-files; cd /var/lib/arrayd/one\n"
                        f"mount /dev/rbd/rbd/array-files .; cd .; {links}chown arrayd: .; cd /; {PLACE}/deactivate")
        say(f"machine {self.active.name} serves: {self.activate()}")
        self.log_in()
        self.hosts.begin()

    def fence(self, action, machine):
        """The agent, as the cluster manager of the other machine runs it."""
        words = [os.path.join(TOP, "service", "fence_ceph_blocklist"), f"action={action}", f"plug={ADDRESS[machine.name]}"]
        ceph_cluster.told(words, env={**os.environ, "CEPH_ARGS": f"-c {self.cluster.conf}"})

    def activate(self):
        """The active machine takes up its work: its steps, with the milliseconds that each took from the begin."""
        options = "exclusive" if self.is_exclusive else "rw"
        return ", ".join(self.active.ask(f"{PLACE}/activate {options} {' '.join(IMAGES[1:])}"))

    def log_in(self):
        self.hosts.log_in(PORT, 240, MOVES)

    def works(self):
        """The hosts work: how many answers and flushes there were."""
        self.hosts.fence_anew()
        before = self.hosts.sums()
        self.hosts.start()
        time.sleep(WORKS)
        return "{} answers, {} flushes among them".format(*(now - then for now, then in zip(self.hosts.sums(), before)))

    def take_over(self, lost, is_blocklisted=True):
        """The other machine takes over from the one that was lost at this time."""
        self.active, self.passive = self.passive, self.active
        if is_blocklisted:
            self.fence("off", self.passive)
        listed = time.monotonic() - lost
        told = self.activate()
        self.log_in()
        return f"machine {self.active.name}: blocklisted {listed * 1000:.0f}, then {told}; all hosts back {time.monotonic() - lost:.1f} s behind it"

    def take_over_while_it_works(self, lost):
        """The same, while the hosts still have the old one: they end as it fails them, or as the new one resets them."""
        self.active, self.passive = self.passive, self.active
        self.fence("off", self.passive)
        told = self.activate()
        failed = self.hosts.stop_failed(60)
        self.log_in()
        return (f"machine {self.active.name}: {told}; {failed} hosts' commands failed at the old one; all hosts back "
                f"{time.monotonic() - lost:.1f} s behind it")

    def look(self, more=()):
        alone, wrong = self.hosts.check()
        must_be_whole([*more, *wrong])
        self.hosts.begin()
        return f"{alone} blocks whose value was flushed: nothing is lost"

    def comes_back(self):
        self.passive.kill()
        self.passive.start()
        up = self.passive.wait_up()
        # nothing is mapped yet
        self.fence("on", self.passive)
        return f"machine {self.passive.name} was up again after {up:.0f} s"


# ---- what can be done to the gateway that serves

def kill(pair):
    told = pair.works()
    lost = time.monotonic()
    pair.active.kill()
    pair.hosts.break_off()
    pair.hosts.stop(is_lost=True)
    say(f"machine {pair.active.name} was killed behind {told}. {pair.take_over(lost)}. {pair.look()}. {pair.comes_back()}")


def pull_cable(pair):
    """It lives, reaches nobody, and is reached by its hosts and by Ceph again when the other one serves."""
    old = pair.active
    witness = Witness(PORT, ADDRESS[old.name], 300)
    witness.start()
    told = pair.works()
    pull(old.name)
    lost = time.monotonic()
    pair.hosts.break_off()
    pair.hosts.stop(is_lost=True)
    taken = pair.take_over(lost)
    plug(old.name)
    say(f"the cable of machine {old.name} was pulled behind {told}. {taken}. The cable is in again")
    old_cannot_write(pair, old, witness)


def take_for_lost(pair):
    """It is fenced while it serves its hosts."""
    old = pair.active
    witness = Witness(PORT, ADDRESS[old.name], 300)
    witness.start()
    told = pair.works()
    lost = time.monotonic()
    taken = pair.take_over_while_it_works(lost)
    say(f"machine {old.name} was taken for lost behind {told}. {taken}")
    old_cannot_write(pair, old, witness)


def old_cannot_write(pair, old, witness):
    witness.stop(60)
    by_array, said = witness.writes_on()
    by_hand = old.writes_by_hand()
    wrong = witness.check(pair.hosts.nodes[0].paths[0])
    if by_array:
        wrong.append("the gateway that was cut off still says GOOD to a write with FUA")
    wrong += [f"the gateway that was cut off still writes: {line}" for line, status in by_hand if status == "0"]
    seen = pair.look(wrong)
    say(f"the old array ended its witness with {witness.ended}; it answers a write with FUA {said}; by hand: {by_hand}. {seen}. "
        f"{pair.comes_back()}")


def mapped_exclusively(pair):
    """What others may do with an image while a gateway has it: the other one maps it too, a snapshot, another size."""
    asked = {"a second map": pair.passive.ask(f"timeout 100 bash {PLACE}/activate exclusive unit3 2>&1 || true")}
    for what, words in (("a snapshot", ("snap", "create", "rbd/unit3@seen")), ("another size", ("resize", "--size", "300M", "rbd/unit3"))):
        try:
            asked[what] = [pair.cluster.run("timeout", "60", "rbd", *words) or "done"]
        except Wrong as wrong:
            asked[what] = [str(wrong)[-160:]]
    told = "; ".join(f"{what}: {' '.join(' '.join(lines).split())[-160:]}" for what, lines in asked.items())
    say(f"while it is mapped exclusively: {told}")
    pair.passive.ask(f"{PLACE}/deactivate 2> /dev/null || true")


def whole(pair, is_fast):
    pair.begin()
    mapped_exclusively(pair)
    ways = [kill, pull_cable, take_for_lost] + ([] if is_fast else [kill] * 4)
    for number, way in enumerate(ways):
        say(f"takeover {number + 1}")
        way(pair)
    say(f"{len(ways)} takeovers: 0 lost, nothing torn, the registrations those of the last GOOD")


def not_blocklisted(pair, _):
    pair.begin()
    old = pair.active
    witness = Witness(PORT, ADDRESS[old.name], 300)
    witness.start()
    pair.works()
    pair.hosts.stop()
    pair.take_over(time.monotonic(), False)
    try:
        old_cannot_write(pair, old, witness)
    except Lost as wrong:
        say(f"with nobody blocklisted: found. {wrong}"[:700])
    else:
        raise Wrong("nobody was blocklisted, and nothing was found to be lost")


# ---- Pacemaker's plan

def plan(folder):
    """The group starts in its order at one machine; where that one is lost, it is fenced before the other one serves."""
    root, text = Root(folder), block_of("`crm configure load replace FILE`", PAGE)
    active = planned(root, text)
    try:
        planned(root, text.replace("stonith-enabled=true", "stonith-enabled=false"))
    except Wrong as wrong:
        if "Fencing" not in str(wrong):
            raise
        say(f"as Pacemaker plans by the page, machine {active} serves; where it is lost, the other one fences it first")
        return
    raise Wrong("fencing is switched off, and the plan was found to be right")


def planned(root, text):
    group = ("images", "folder", "address", "array")
    root.write("both.xml", with_both(as_cib(root, text)))
    actions = root.simulate("both.xml", "serving.xml")
    active = re.search(r"images\s+start on (\w)", actions[place(actions, r"images\s+start on")])[1]
    in_order(actions, [rf"{what}\s+start on {active}" for what in group])
    passive = "b" if active == "a" else "a"
    if any(re.search(rf"({'|'.join(group)})\s+start on {passive}", line) for line in actions):
        raise Wrong("both machines serve:\n" + "\n".join(actions))
    lost = root.simulate("serving.xml", "taken.xml", "--node-fail", active)
    in_order(lost, [rf"Fencing {active}", *(rf"{what}\s+start on {passive}" for what in group)])
    return active


def main():
    words = argparse.ArgumentParser(usage=__doc__.split("usage: ")[1].split("\n\n")[0])
    words.add_argument("words", nargs="+")
    words.add_argument("--fast", action="store_true")
    words = words.parse_args()
    *way, folder = words.words
    folder, way = os.path.abspath(folder), way[0] if way else "whole"
    if os.geteuid() != 0:
        sys.exit("it wants root")
    if way == "plan":
        return plan(folder)
    if way == "build":
        return ceph_gateways_build.build(folder)
    lacks = ceph_cluster.lacking("linux.uml", "ip", "unshare")
    if lacks or not os.path.exists(os.path.join(folder, "root.img")):
        sys.exit(f"it wants {lacks or 'a FOLDER that `trials/ceph_gateways.py build FOLDER` made'}")
    if INSIDE not in os.environ:
        os.environ[INSIDE] = "1"
        os.execvp("unshare", ["unshare", "--net", sys.executable, *sys.argv])
    begin_network()
    with tempfile.TemporaryDirectory(dir=folder, ignore_cleanup_errors=True) as run:
        pair = Pair(folder, run, way != "not_blocklisted")
        try:
            {"whole": whole, "not_blocklisted": not_blocklisted}[way](pair, words.fast)
        except BaseException:
            tell_consoles(run)
            raise
        finally:
            pair.end()


if __name__ == "__main__":
    try:
        main()
    except Wrong as wrong:
        sys.exit(f"WRONG {wrong}")
