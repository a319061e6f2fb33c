#!/usr/bin/env python3
"""Two machines as a cluster: what trials/two_machines.py does by hand is done here by Pacemaker, with systemd, Corosync,
ocf:linbit:drbd, Filesystem, IPaddr2 and the array's own service, and with fencing. Hosts work; the active machine's
qemu is killed, and the cluster makes the other one active by itself. The dead one comes back. Then the wire is cut
while they work: exactly one machine lives on, and serves. At last the service is moved in order, as for an upgrade.
Each time every block whose flush was GOOD has to be there, every registration with APTPL, and the fenced host stays
out.

usage: trials/two_machines_pacemaker.py FOLDER         FOLDER is that of `trials/two_machines.py build`

Ends with status 1 where it is not so. Half an hour, since the machines are emulated; to be run before a release, and
beside little else: a machine that gets too little of the processors is fenced as a dead one. Not part of the gate."""

import os
import socketserver
import sys
import tempfile
import threading
import time

from two_machines import PLACE, WORKS, Pair, drbdadm, lose, must_be_whole, say, tell_consoles, works
from two_machines_emulated import HOST, Wrong

CONFIGURATION = f"{PLACE}/cluster.xml"
# How long the cluster may take to come to something, in seconds.
PATIENCE = 1800


class Fences(socketserver.ThreadingTCPServer):
    """Switches a machine off where the other one asks for it: trials/two_machines/fence_by_script asks."""

    allow_reuse_address = daemon_threads = True

    def __init__(self, machines):
        self.machines, self.lock, self.fenced = machines, threading.Lock(), []
        super().__init__((HOST, 0), Asked)
        threading.Thread(target=self.serve_forever, daemon=True).start()

    def port(self):
        return self.server_address[1]

    def answer(self, action, name, asker):
        with self.lock:
            # a machine that was itself switched off meanwhile asks for nothing any more
            if not self.machines[asker].is_on():
                return "too late"
            if action == "monitor":
                return "done"
            if action == "status":
                return "on" if self.machines[name].is_on() else "off"
            if action not in ("off", "reboot") or name == asker:
                return "no"
            self.fenced.append((asker, name))
            state = "on" if self.machines[name].is_on() else "off already"
            say(f"machine {asker} asks for machine {name} to be switched off; it is {state}")
            self.machines[name].kill()
            return "done"


class Asked(socketserver.StreamRequestHandler):
    def handle(self):
        words = self.rfile.readline().decode().split()
        if len(words) == 3:
            self.wfile.write(f"{self.server.answer(*words)}\n".encode())


class Cluster(Pair):
    """Both machines with Pacemaker."""

    def __init__(self, folder, run):
        super().__init__(folder, run, kind="systemd")
        self.fences = Fences(self.machines)
        # where parts of Pacemaker get no time to answer, the machine is fenced
        self.hosts.rest = 0.5
        for machine in self.machines.values():
            machine.when_on = (f"echo {self.fences.port()} > /run/fence_port; cp {PLACE}/fencing.res /etc/drbd.d/common.res; "
                               f"{PLACE}/begin")

    def begin(self):
        for machine in self.machines.values():
            machine.start()
        for machine in self.machines.values():
            machine.wait_up()
        say("both machines are up")
        for machine in self.machines.values():
            machine.ask(drbdadm("adjust"))
        self.make_filesystem("/var/lib/arrayd/one")
        for machine in self.machines.values():
            machine.ask(f"{drbdadm('down')}; systemctl start pacemaker")
        self.wait_online()
        say("the cluster is online")
        self.active.ask(f"cibadmin --replace --scope configuration --xml-file {CONFIGURATION}", PATIENCE)
        self.see_active(None)
        self.wait_in_sync()
        self.hosts.log_in(self.active.base)
        self.hosts.begin()

    def wait_online(self):
        self.active.wait("crm_mon -1", lambda told: "Online: [ a b ]" in told, PATIENCE)

    def active_of(self, names):
        """The machine of these whose cluster says that the array runs on it."""
        for name in names:
            machine = self.machines[name]
            try:
                if machine.is_on() and machine.ask("systemctl is-active arrayd@one || true", 60) == ["active"]:
                    return machine
            except (OSError, Wrong):
                # it is on its way
                pass
        return None

    def see_active(self, dead):
        """Waits until a machine, another one than the dead one, serves."""
        names = [name for name, machine in self.machines.items() if machine is not dead]
        until = time.monotonic() + PATIENCE
        while (found := self.active_of(names)) is None:
            if time.monotonic() > until:
                said = self.machines[names[0]].ask("crm_mon -1rf; journalctl -n 60 --no-pager")
                raise Wrong("no machine became active:\n" + "\n".join(said))
            time.sleep(1)
        self.active = found
        self.passive = next(machine for machine in self.machines.values() if machine is not found)
        say(f"machine {found.name} is active")

    def hosts_come_back(self, lost, has_ended=True):
        self.hosts.log_in(self.active.base, PATIENCE)
        answered = time.monotonic() - lost
        alone, wrong = self.hosts.check(has_ended)
        must_be_whole(wrong)
        say(f"all hosts are back {answered:.0f} s behind it; {alone} blocks whose value was flushed: nothing is lost")

    def comes_back(self):
        """The dead machine is switched on, joins the cluster, and gets in sync while the hosts work on."""
        started = time.monotonic()
        self.passive.start()
        self.hosts.start()
        self.passive.wait_up()
        self.passive.ask("systemctl start pacemaker")
        self.wait_in_sync()
        self.wait_online()
        self.hosts.stop()
        _, wrong = self.hosts.check(has_ended=False)
        must_be_whole(wrong)
        took = time.monotonic() - started
        say(f"machine {self.passive.name} was back and in sync {took:.0f} s after it was switched on; "
            f"{self.same_disks()} bytes are the same on both")


def killed(cluster):
    """The active machine is lost."""
    told = works(cluster, WORKS)
    lost = lose(cluster, "all")
    dead = cluster.active
    say(f"machine {dead.name} was killed behind {told}")
    cluster.see_active(dead)
    cluster.hosts_come_back(lost)
    if (cluster.active.name, dead.name) not in cluster.fences.fenced:
        raise Wrong("the other machine became active, and had not fenced the dead one")
    cluster.comes_back()


def cut(cluster):
    """The wire is cut: exactly one machine lives, and serves."""
    cluster.fences.fenced.clear()
    told = works(cluster, WORKS)
    lost = time.monotonic()
    cluster.wire.is_cut = True
    say(f"the wire is cut behind {told}")
    while all(machine.is_on() for machine in cluster.machines.values()):
        if time.monotonic() > lost + PATIENCE:
            raise Wrong("the wire is cut, and both machines live")
        time.sleep(0.2)
    # whoever would fence late has time to do so
    time.sleep(30)
    living = [name for name, machine in cluster.machines.items() if machine.is_on()]
    if len(living) != 1 or len(set(cluster.fences.fenced)) != 1:
        raise Wrong(f"{living} live, fenced was {cluster.fences.fenced}")
    dead = next(machine for machine in cluster.machines.values() if not machine.is_on())
    was_active = dead is not cluster.active
    cluster.hosts.stop(is_lost=not was_active)
    cluster.see_active(dead)
    say(f"exactly one machine lives, {living[0]}, which was {'active' if was_active else 'passive'} before")
    cluster.hosts_come_back(lost, has_ended=not was_active)
    cluster.wire.is_cut = False
    cluster.comes_back()


def moved(cluster):
    """The service moves to the other machine in order, as for an upgrade: nobody is fenced."""
    cluster.fences.fenced.clear()
    told = works(cluster, WORKS)
    asked, source = time.monotonic(), cluster.active
    source.ask(f"crm_resource --move --resource service --node {cluster.passive.name}")
    say(f"the service is told to move away from machine {source.name} behind {told}")
    cluster.hosts.stop(is_lost=True)
    cluster.see_active(source)
    cluster.hosts_come_back(asked)
    cluster.active.ask("crm_resource --clear --resource service")
    if cluster.fences.fenced:
        raise Wrong(f"{cluster.fences.fenced} fenced each other over an orderly move")


def main():
    if len(sys.argv) != 2:
        sys.exit(__doc__)
    folder = os.path.abspath(sys.argv[1])
    with tempfile.TemporaryDirectory(dir=folder) as run:
        cluster = Cluster(folder, run)
        try:
            cluster.begin()
            killed(cluster)
            cut(cluster)
            moved(cluster)
        except BaseException:
            tell_consoles(run)
            raise
        finally:
            cluster.end()
    say("the cluster did all that it has to")


if __name__ == "__main__":
    try:
        main()
    except Wrong as wrong:
        sys.exit(f"WRONG {wrong}")
