#!/usr/bin/env python3
"""Fences two nodes, each with a path through each controller, by the commands that cluster managers send, in their order:
those of fence_scsi, of fence_mpath, and of the persistent reservation test of a Windows cluster. Each answer is compared
with what SPC-4 says, and behind each step the keys and the reservation are read through both controllers. Where Debian's
package fence-agents is installed and this is run as root, its agents themselves are run too: what they take for sg_persist,
sg_turs and mpathpersist sends the commands to the array.

The commands are sent by libiscsi, where a C compiler finds it, or else by trials/initiator.py; the first line says which.
Ends with status 1 where an answer is another.

usage: trials/fencing.py [--show]        --show prints what the agents called, call by call
"""

import os
import re
import subprocess
import sys
import tempfile

import by_libiscsi
from initiator import CHECK_CONDITION, GOOD, RESERVATION_CONFLICT, Failed
from running import PORT, TARGET, Array, Wrong, made

NODES = {"A": "iqn.2000-01.test:node-a", "B": "iqn.2000-01.test:node-b"}
REGISTER, RESERVE, RELEASE, CLEAR, PREEMPT, PREEMPT_AND_ABORT, REGISTER_AND_IGNORE = range(7)
REGISTRANTS_ONLY, ALL_REGISTRANTS = 5, 7
POWER_ON, PREEMPTED = (6, 0x29, 0x00), (6, 0x2A, 0x05)
RELEASED, CLEARED = (6, 0x2A, 0x04), (6, 0x2A, 0x03)


def path(node, controller, port=PORT):
    """A node's session through a controller. Its ISID is the same each time, so it is the same nexus."""
    number = 16 * (ord(node) - 64) + controller
    return by_libiscsi.session("127.0.0.1", port + 4 * (controller - 1), TARGET, NODES[node], number)


def reservation_of(session):
    """Key and type of the reservation, or None."""
    data = session.reserve_in(0, 1)
    if len(data) < 24:
        return None
    return int.from_bytes(data[8:16], "big"), data[21] & 15


class Cluster:
    """Two nodes with two paths each. A path is named by its node and its controller: A1, A2, B1, B2."""

    def __init__(self):
        self.paths = {f"{node}{number}": path(node, number) for node in NODES for number in (1, 2)}
        for session in self.paths.values():
            session.ready(0)
        self.steps = 0

    def close(self):
        for session in self.paths.values():
            session.close()

    def expect(self, what, found, wanted):
        self.steps += 1
        if found != wanted:
            raise Wrong(f"{what}: {found}, and not {wanted}")

    def ends(self, what, reply, wanted):
        """A command ends with a status, or with CHECK CONDITION and this sense."""
        found = reply.status if reply.status != CHECK_CONDITION else reply.sense_key()
        self.expect(what, found, wanted)

    def out(self, name, action, key=0, new_key=0, kind=0, wanted=GOOD, aptpl=False):
        """PERSISTENT RESERVE OUT by a path."""
        what = f"{name} action {action} key {key:x} new key {new_key:x} type {kind}"
        self.ends(what, self.paths[name].reserve_out(0, action, kind, key, new_key, aptpl), wanted)

    def turs(self, name, told=()):
        """sg_turs by a path: what it is told first, in order, and then GOOD."""
        for sense in told:
            self.ends(f"{name} TEST UNIT READY", self.paths[name].test_unit_ready(0), sense)
        self.ends(f"{name} TEST UNIT READY", self.paths[name].test_unit_ready(0), GOOD)

    def writes(self, name, wanted=GOOD):
        reply = self.paths[name].command(0, [0x2A, 0, 0, 0, 0, 11, 0, 0, 1, 0], out=name.encode() * 256)
        self.ends(f"{name} WRITE", reply, wanted)

    def reads(self, name, wanted=GOOD):
        reply = self.paths[name].command(0, [0x28, 0, 0, 0, 0, 11, 0, 0, 1, 0], expected=512)
        self.ends(f"{name} READ", reply, wanted)

    def stands(self, keys, reservation, by=("A1", "B2")):
        """The keys and the reservation, as a path through each controller reads them."""
        for name in by:
            self.expect(f"{name} READ KEYS", sorted(self.paths[name].keys_of(0)), sorted(keys))
            self.expect(f"{name} READ RESERVATION", reservation_of(self.paths[name]), reservation)

    def fences(self, by, key, other):
        """A path fences the other node with its own key: that one alone is registered then, and holds; each path of the other one
        is told, and may not write (SPC-4, 5.13.11)."""
        own, fenced = ("A1", "A2"), ("B1", "B2")
        if by not in own:
            own, fenced = fenced, own
        self.out(by, PREEMPT_AND_ABORT, key=key, new_key=other, kind=REGISTRANTS_ONLY)
        self.stands([key, key], (key, 5), by=own)
        for name in fenced:
            self.turs(name, told=[PREEMPTED])
            self.writes(name, RESERVATION_CONFLICT)

    def nothing(self):
        """Nobody is registered: whoever is left clears (SPC-4, 5.13.11)."""
        for session in self.paths.values():
            session.ready(0)
            key = next(iter(session.keys_of(0)), 0)
            if key:
                session.reserve_out(0, REGISTER_AND_IGNORE, new_key=key)
                session.reserve_out(0, CLEAR, key=key)
        for session in self.paths.values():
            session.ready(0)
        self.stands([], None)


def fence_scsi(cluster):
    """The agent registers each path with REGISTER AND IGNORE EXISTING KEY, reserves with type 5 by one, and fences by
    PREEMPT AND ABORT with its own key, each behind a TEST UNIT READY."""
    a, b = 0x6AA10001, 0x6AA10002
    # unfence A: each path (SPC-4, 5.13.7), then the reservation (5.13.9)
    cluster.stands([], None)
    for name in ("A1", "A2"):
        cluster.turs(name)
        cluster.out(name, REGISTER_AND_IGNORE, new_key=a, aptpl=True)
    cluster.stands([a, a], None)
    cluster.turs("A1")
    cluster.out("A1", RESERVE, key=a, kind=REGISTRANTS_ONLY)
    cluster.stands([a, a], (a, 5))
    # B isn't registered: it reads, and may not write (5.13.1)
    for name in ("B1", "B2"):
        cluster.reads(name)
        cluster.writes(name, RESERVATION_CONFLICT)
    # unfence B: the reservation is there, so it only registers; once more is no harm
    for name in ("B1", "B2", "B1"):
        cluster.turs(name)
        cluster.out(name, REGISTER_AND_IGNORE, new_key=b, aptpl=True)
    cluster.stands([a, a, b, b], (a, 5))
    for name in ("A1", "A2", "B1", "B2"):
        cluster.writes(name)
    # A fences B by one path: both paths of B lose their registration, both are told (5.13.11)
    cluster.turs("A2")
    cluster.fences("A2", a, b)
    for name in ("B1", "B2"):
        cluster.reads(name)
    cluster.writes("A1")
    # a fenced node can't fence in turn, nor reserve, nor unregister what it no longer has
    cluster.out("B1", PREEMPT_AND_ABORT, key=b, new_key=a, kind=REGISTRANTS_ONLY, wanted=RESERVATION_CONFLICT)
    cluster.out("B2", RESERVE, key=b, kind=REGISTRANTS_ONLY, wanted=RESERVATION_CONFLICT)
    cluster.out("B2", REGISTER, key=b, new_key=0, wanted=RESERVATION_CONFLICT)
    # B comes back, and fences the holder: it holds now, by the path that it fenced through (5.13.11)
    for name in ("B1", "B2"):
        cluster.out(name, REGISTER_AND_IGNORE, new_key=b, aptpl=True)
    cluster.turs("B1")
    cluster.fences("B1", b, a)
    for name in ("B1", "B2"):
        cluster.writes(name)


def fence_mpath(cluster):
    """mpathpersist registers each path with REGISTER, reserves by one path, preempts by one path, releases, clears."""
    a, b = 0x123ABC, 0x456DEF
    for name in ("A1", "A2"):
        cluster.out(name, REGISTER, key=0, new_key=a)
    cluster.stands([a, a], None)
    cluster.out("A2", RESERVE, key=a, kind=REGISTRANTS_ONLY)
    for name in ("B2", "B1"):
        cluster.out(name, REGISTER, key=0, new_key=b)
    cluster.stands([a, a, b, b], (a, 5))
    # a second RESERVE, by another nexus, is a conflict, and one by the holder's own is none (SPC-4, 5.13.9)
    cluster.out("B1", RESERVE, key=b, kind=REGISTRANTS_ONLY, wanted=RESERVATION_CONFLICT)
    cluster.out("A2", RESERVE, key=a, kind=REGISTRANTS_ONLY)
    # a REGISTER of a path that is registered has to bring its key
    cluster.out("A1", REGISTER, key=0, new_key=a, wanted=RESERVATION_CONFLICT)
    cluster.out("A1", REGISTER, key=a, new_key=a)
    # B fences A, whose path through controller 2 holds
    cluster.fences("B2", b, a)
    # the other path of the holder is registered, and doesn't hold: its RELEASE is GOOD and changes nothing (5.13.11)
    cluster.out("B1", RELEASE, key=b, kind=REGISTRANTS_ONLY)
    cluster.stands([b, b], (b, 5))
    # the holder's releases, and the other registrant is told
    cluster.out("B2", RELEASE, key=b, kind=REGISTRANTS_ONLY)
    cluster.turs("B1", told=[RELEASED])
    cluster.stands([b, b], None)
    cluster.writes("A1")
    # what nobody has can't be preempted; CLEAR needs a registration
    cluster.out("B1", PREEMPT, key=b, new_key=a, kind=REGISTRANTS_ONLY, wanted=RESERVATION_CONFLICT)
    cluster.out("A1", CLEAR, key=a, wanted=RESERVATION_CONFLICT)
    cluster.out("B1", CLEAR, key=b)
    cluster.turs("B2", told=[CLEARED])
    cluster.stands([], None)


def windows(cluster):
    """As the report of a Windows cluster's validation names its steps: both nodes register, one reserves, the other can't,
    preempts, and the first is out; then what was left is released and cleared. With type 5, which disks of a cluster
    have, and with type 7, which storage spaces ask for."""
    a, b = 0x30000000A, 0x30000000B
    for kind in (REGISTRANTS_ONLY, ALL_REGISTRANTS):
        holder_of = (lambda key: (key, 5)) if kind == REGISTRANTS_ONLY else (lambda key: (0, 7))
        # a RESERVE of a node that isn't registered
        cluster.out("A1", RESERVE, key=a, kind=kind, wanted=RESERVATION_CONFLICT)
        cluster.out("A1", REGISTER, key=0, new_key=a)
        cluster.out("A2", REGISTER, key=0, new_key=a)
        cluster.out("B1", REGISTER_AND_IGNORE, new_key=b)
        cluster.out("B2", REGISTER_AND_IGNORE, new_key=b)
        cluster.stands([a, a, b, b], None)
        # a wrong key
        cluster.out("A1", RESERVE, key=b, kind=kind, wanted=RESERVATION_CONFLICT)
        cluster.out("A1", RESERVE, key=a, kind=kind)
        cluster.stands([a, a, b, b], holder_of(a))
        for name in ("A1", "A2", "B1", "B2"):
            cluster.writes(name)
            cluster.reads(name)
        # by type 7 every registrant holds, so its RESERVE is GOOD (SPC-4, 5.13.9); by type 5 it's a conflict
        cluster.out("B1", RESERVE, key=b, kind=kind, wanted=GOOD if kind == ALL_REGISTRANTS else RESERVATION_CONFLICT)
        # another type is a conflict in either case
        cluster.out("B1", RESERVE, key=b, kind=3, wanted=RESERVATION_CONFLICT)
        cluster.out("B1", PREEMPT, key=b, new_key=a, kind=kind)
        cluster.stands([b, b], holder_of(b), by=("B1", "B2"))
        for name in ("A1", "A2"):
            cluster.turs(name, told=[PREEMPTED])
            cluster.reads(name)
            cluster.writes(name, RESERVATION_CONFLICT)
        # the owner changes back by a register and a preempt
        cluster.out("A1", REGISTER_AND_IGNORE, new_key=a)
        cluster.out("A2", REGISTER_AND_IGNORE, new_key=a)
        cluster.out("A2", PREEMPT_AND_ABORT, key=a, new_key=b, kind=kind)
        cluster.stands([a, a], holder_of(a), by=("A1", "A2"))
        for name in ("B1", "B2"):
            cluster.turs(name, told=[PREEMPTED])
            cluster.writes(name, RESERVATION_CONFLICT)
        cluster.out("A2", RELEASE, key=a, kind=kind)
        cluster.turs("A1", told=[RELEASED])
        cluster.stands([a, a], None)
        cluster.out("A2", CLEAR, key=a)
        cluster.turs("A1", told=[CLEARED])
        cluster.stands([], None)


def lasting(cluster, array, disks):
    """With APTPL a fence outlasts the array's end, whichever it is: the registrations and who may write."""
    a, b = 0xA, 0xB
    for name, key in (("A1", a), ("A2", a), ("B1", b), ("B2", b)):
        cluster.out(name, REGISTER_AND_IGNORE, new_key=key, aptpl=True)
    cluster.out("A1", RESERVE, key=a, kind=REGISTRANTS_ONLY)
    cluster.out("A1", PREEMPT_AND_ABORT, key=a, new_key=b, kind=REGISTRANTS_ONLY)
    array.kill()
    for session in cluster.paths.values():
        session.process.kill() if by_libiscsi.HAS_LIBISCSI else session.close()
    again = Array(disks)
    anew = Cluster()
    anew.stands([a, a], (a, 5))
    anew.writes("A2")
    for name in ("B1", "B2"):
        anew.writes(name, RESERVATION_CONFLICT)
    anew.nothing()
    anew.steps += cluster.steps
    return again, anew


# ---- the agents themselves

def tell_keys(session):
    data = session.reserve_in(0, 0)
    keys = session.keys_of(0)
    print(f"  PR generation=0x{int.from_bytes(data[:4], 'big'):x}, {len(keys)} registered reservation keys follow:")
    for key in keys:
        print(f"    0x{key:x}")


def tell_reservation(session):
    held = reservation_of(session)
    if held is None:
        print("  PR generation=0x0, there is NO reservation held")
    else:
        print(f"  PR generation=0x0, Reservation follows:\n    Key=0x{held[0]:x}\n    scope: LU_SCOPE, type: {held[1]}\n")


def number_of(words, *names):
    """The hexadecimal number behind one of these options."""
    for at, word in enumerate(words):
        for name in names:
            if word == name:
                return int(words[at + 1], 16)
            if name.startswith("--") and word.startswith(name + "="):
                return int(word.split("=")[1], 16)
    return 0


def stand_in(tool, port, words):
    """What an agent takes for sg_turs, sg_persist or mpathpersist, with the options that the agents give: its exit status.
    A device stands for both paths of its node, as a multipath device does: what registers goes by each of them, one behind the
    other, as the agents have it, and all else by the first."""
    if "-V" in words:
        return 0
    device = words[words.index("-d") + 1] if "-d" in words else words[-1]
    with open(os.path.join(os.path.dirname(device), "sent"), "a") as log:
        log.write(" ".join([tool, *words]) + "\n")
    actions = {"-I": REGISTER_AND_IGNORE, "-R": RESERVE, "-A": PREEMPT_AND_ABORT, "--register": REGISTER,
               "--reserve": RESERVE, "--preempt-abort": PREEMPT_AND_ABORT}
    asked = [actions[word] for word in words if word in actions]
    worst = GOOD
    for controller in (1, 2) if asked in ([REGISTER], [REGISTER_AND_IGNORE]) else (1,):
        session = path(os.path.basename(device), controller, port)
        session.ready(0)
        if asked:
            reply = session.reserve_out(0, asked[0], number_of(words, "-T", "--prout-type"),
                                        number_of(words, "-K", "--param-rk"), number_of(words, "-S", "--param-sark"),
                                        "-Z" in words)
            worst = max(worst, reply.status)
        elif "-k" in words:
            tell_keys(session)
        elif "-r" in words:
            tell_reservation(session)
        session.close()
    return worst


class Agents:
    """fence_scsi and fence_mpath of two nodes: copies of the agents, each with a folder of its own for what it keeps."""

    def __init__(self, folder):
        self.folder = folder
        for tool in ("sg_turs", "sg_persist", "mpathpersist"):
            self.script(tool, f'exec {sys.executable} {os.path.abspath(__file__)} --stand-in {tool} {PORT} "$@"')
        for node in NODES:
            os.mkdir(os.path.join(folder, f"run{node}"))
            # it only has to be a block device by its looks
            os.mknod(os.path.join(folder, node), 0o60600, os.makedev(0, 0))

    def script(self, name, line):
        path_of = os.path.join(self.folder, name)
        with open(path_of, "w") as file:
            file.write(f"#!/bin/sh\n{line}\n")
        os.chmod(path_of, 0o755)

    def run(self, agent, node, action, key):
        """Runs an agent on a node: its exit status."""
        keeps = os.path.join(self.folder, f"run{node}", "cluster")
        with open(f"/usr/sbin/{agent}") as file:
            text = re.sub(r'STORE_PATH = "[^"]*"', f'STORE_PATH = "{keeps}"', file.read())
        copy = os.path.join(self.folder, f"{agent}{node}")
        with open(copy, "w") as file:
            file.write(text)
        os.chmod(copy, 0o755)
        device = os.path.join(self.folder, node)
        if agent == "fence_scsi":
            words = ["-k", key, "-d", device, "--aptpl", f"--sg_persist-path={self.folder}/sg_persist",
                     f"--sg_turs-path={self.folder}/sg_turs"]
        else:
            words = ["-n", key, "-d", device, f"--mpathpersist-path={self.folder}/mpathpersist", f"--store-path={keeps}"]
        done = subprocess.run([copy, "-o", action, *words], stdout=subprocess.PIPE, stderr=subprocess.STDOUT,
                              text=True, timeout=300, check=False)
        if done.returncode:
            print(done.stdout, file=sys.stderr)
        return done.returncode


def may_write(node):
    """Whether each path of a node writes, after what it is told."""
    found = []
    for controller in (1, 2):
        session = path(node, controller)
        session.ready(0)
        try:
            session.write(0, 40 + controller, bytes(512))
            found.append(True)
        except Failed as failed:
            if failed.reply.status != RESERVATION_CONFLICT:
                raise
            found.append(False)
        session.close()
    return found


def agents_fence(agent, keys):
    """Both nodes are let in, A fences B, B is let in again and fences A."""
    os.environ["BY_LIBISCSI"] = by_libiscsi.PROGRAM or ""
    with tempfile.TemporaryDirectory() as folder:
        agents = Agents(folder)

        def step(node, action, key, may):
            if agents.run(agent, node, action, key) != 0:
                raise Wrong(f"{agent} of {node}: {action} {key} failed")
            found = {name: may_write(name) for name in NODES}
            wanted = {name: [name in may] * 2 for name in NODES}
            if found != wanted:
                raise Wrong(f"{agent} of {node}: after {action} {key} {found} may write, and not {wanted}")

        a, b = keys
        step("A", "on", a, "A")
        step("B", "on", b, "AB")
        step("A", "off", b, "A")
        step("B", "on", b, "AB")
        step("B", "off", a, "B")
        with open(os.path.join(folder, "sent")) as file:
            sent = file.read().splitlines()
        outs = [line for line in sent if " -o " in line]
        if "--show" in sys.argv:
            print("\n".join(line.replace(folder + "/", "") for line in sent))
        print(f"{agent}: unfenced and fenced in turn by the agent itself, {len(sent)} calls of its tools, {len(outs)} of them "
              "PERSISTENT RESERVE OUT: who may write is as SPC-4 says")


def main():
    print("by libiscsi" if by_libiscsi.HAS_LIBISCSI else "by trials/initiator.py, as there is no libiscsi to build with")
    with tempfile.TemporaryDirectory() as folder:
        disks = [made(os.path.join(folder, "disk"), 2048)]
        array = Array(disks)
        try:
            cluster = Cluster()
            for sequence in (fence_scsi, fence_mpath, windows):
                before = cluster.steps
                sequence(cluster)
                print(f"{sequence.__name__}: {cluster.steps - before} answers as SPC-4 says")
                cluster.nothing()
            array, cluster = lasting(cluster, array, disks)
            print("a fence with APTPL stands after the program was killed and started anew")
            cluster.close()
            for agent, keys in (("fence_scsi", ("6aa10001", "6aa10002")), ("fence_mpath", ("123abc", "456def"))):
                if not os.path.exists(f"/usr/sbin/{agent}") or os.geteuid() != 0:
                    print(f"{agent}: the agent itself was not run: it is not installed, or this is not root")
                    continue
                agents_fence(agent, keys)
                cluster = Cluster()
                cluster.nothing()
                cluster.close()
            if array.quit() != 0:
                raise Wrong("the array did not end well")
        finally:
            array.kill()


if __name__ == "__main__":
    if sys.argv[1:2] == ["--stand-in"]:
        sys.exit(stand_in(sys.argv[2], int(sys.argv[3]), sys.argv[4:]))
    try:
        main()
    except Wrong as wrong:
        sys.exit(f"WRONG {wrong}")
