#!/usr/bin/env python3
"""Has the configuration that docs/TWO_MACHINES.md tells, and the one of trials/two_machines, read by the programs that
will read it: DRBD's and Corosync's, and Pacemaker's own planning (crm_simulate), which says what the cluster would do.
The machine that is promoted is one whose disk is good, and there the file system, the address and the array are
started, in this order. Where the active machine is lost, it is fenced before the other one is promoted. Where the
passive one is lost, it is fenced, and the array is left alone. Nothing is started, so this takes seconds, and it shows
no more than the plan.

usage: trials/two_machines_plan.py FOLDER         FOLDER is that of `trials/two_machines.py build`; root

Ends with status 1 where it is not so, as it is where fencing is switched off: that is tried too.
"""

import os
import re
import subprocess
import sys

from running import TOP, Wrong

PAGE, GUEST = os.path.join(TOP, "docs", "TWO_MACHINES.md"), os.path.join(TOP, "trials", "two_machines")
PATH = "/usr/sbin:/usr/bin:/sbin:/bin"
# Where the files of a trial lie in the system of the machines.
TRIAL = "/run/arrayd-trial"
EMPTY = """<cib crm_feature_set="3.15.1" validate-with="pacemaker-3.8" epoch="1" num_updates="0" admin_epoch="0"
have-quorum="1" dc-uuid="1"><configuration><crm_config/><nodes><node id="1" uname="a"/><node id="2" uname="b"/></nodes>
<resources/><constraints/></configuration><status/></cib>"""
ONLINE = '<node_state id="{}" uname="{}" in_ccm="true" crmd="online" join="member" expected="member"></node_state>'
# What DRBD's agent says of a machine whose disk is good.
GOOD = """<transient_attributes id="{0}"><instance_attributes id="status-{0}"><nvpair id="status-{0}-master-device"
name="master-device" value="10000"/></instance_attributes></transient_attributes>"""
NUMBERS = ((1, "a"), (2, "b"))
ORDER = ("folder", "address", "array")


def block_of(marker, page=PAGE):
    """The indented lines of the page that follow the first line with this in it."""
    with open(page, encoding="utf-8") as file:
        lines = file.read().split(marker, 1)[1].splitlines()[1:]
    found = []
    for line in lines:
        if line.startswith("    "):
            found.append(line[4:])
        elif line.strip() and found:
            return "\n".join(found) + "\n"
    return "\n".join(found) + "\n"


def own_file(name):
    with open(os.path.join(GUEST, name), encoding="utf-8") as file:
        return file.read()


class Root:
    """The system of the machines, in which the programs run."""

    def __init__(self, folder):
        self.root = os.path.join(folder, "root")
        os.makedirs(self.root + TRIAL, exist_ok=True)

    def write(self, name, text):
        with open(f"{self.root}{TRIAL}/{name}", "w", encoding="utf-8") as file:
            file.write(text)
        return f"{TRIAL}/{name}"

    def read(self, name):
        with open(f"{self.root}{TRIAL}/{name}", encoding="utf-8") as file:
            return file.read()

    def run(self, *words, **more):
        # as machine a, whose name and addresses they look for
        begin = "hostname a && ip link set lo up && ip addr add 10.9.0.1 dev lo && ip addr add 10.0.5.1 dev lo"
        begin += ' && exec "$@"'
        words = ["chroot", self.root, "unshare", "--uts", "--net", "sh", "-c", begin, "sh", *words]
        done = subprocess.run(words, stdout=subprocess.PIPE, stderr=subprocess.STDOUT, text=True, check=False,
                              env={"PATH": PATH, "HOME": "/root", **more})
        if done.returncode:
            raise Wrong(f"{' '.join(words)}: {done.stdout}")
        return done.stdout

    def simulate(self, before, after, *words):
        """What the cluster would do, line by line."""
        told = self.run("crm_simulate", "-x", f"{TRIAL}/{before}", "-S", "-O", f"{TRIAL}/{after}", *words)
        return told.split("Executing Cluster Transition:")[1].split("Revised Cluster Status:")[0].splitlines()


def place(actions, what):
    """Where in the plan this is done."""
    for at, line in enumerate(actions):
        if re.search(what, line):
            return at
    raise Wrong(f"the plan has no {what!r}:\n" + "\n".join(actions))


def in_order(actions, whats):
    places = [place(actions, what) for what in whats]
    if places != sorted(places):
        raise Wrong(f"the plan has another order than {whats}:\n" + "\n".join(actions))


def steps(name):
    """What makes a machine the active one."""
    return [rf"device\s+promote on {name}", *(rf"{what}\s+start on {name}" for what in ORDER)]


def with_both(cib):
    """The same, and both machines are there."""
    states = "".join(ONLINE.format(number, name) for number, name in NUMBERS)
    return re.sub(r"<status\s*/>|<status>.*</status>", f"<status>{states}</status>", cib, flags=re.S)


def with_good(cib, names):
    """The same, and DRBD's agents have said that the disks of these machines are good."""
    for number, name in NUMBERS:
        if name in names:
            state = re.search(rf'<node_state id="{number}"[^>]*>', cib)
            cib = cib[:state.end()] + GOOD.format(number) + cib[state.end():]
    return cib


def as_cib(root, text):
    """This configuration as Pacemaker keeps it."""
    root.write("cib.xml", EMPTY)
    words = root.write("cluster.crm", text)
    told = root.run("crm", "-F", "configure", "load", "replace", words, CIB_file=f"{TRIAL}/cib.xml")
    if "syntax" in told.lower() or "commit forced" not in told and "ERROR" in told:
        raise Wrong(told)
    return root.read("cib.xml")


def plans(root, text):
    """Goes over what the cluster would do with this configuration: which machine is the active one."""
    root.write("both.xml", with_both(as_cib(root, text)))
    root.simulate("both.xml", "started.xml")
    for name in "ab":
        # only this one's disk is good, so all of it has to be there
        root.write("good.xml", with_good(root.read("started.xml"), name))
        in_order(root.simulate("good.xml", "serving.xml"), steps(name))
    root.write("good.xml", with_good(root.read("started.xml"), "ab"))
    actions = root.simulate("good.xml", "serving.xml")
    active = re.search(r"device\s+promote on (\w)", actions[place(actions, r"device\s+promote on")])[1]
    passive = "b" if active == "a" else "a"
    in_order(actions, steps(active))
    if any(re.search(rf"(promote|start) on {passive}", line) for line in actions):
        raise Wrong("both machines serve:\n" + "\n".join(actions))
    lost = root.simulate("serving.xml", "taken.xml", "--node-fail", active)
    in_order(lost, [rf"Fencing {active}", *steps(passive)])
    lost = root.simulate("serving.xml", "alone.xml", "--node-fail", passive)
    place(lost, rf"Fencing {passive}")
    if any(re.search(rf"({'|'.join(ORDER)})\s+(start|stop)", line) for line in lost):
        raise Wrong("the passive machine is lost, and the array is not left alone:\n" + "\n".join(lost))
    return active


def without_fencing(root, text):
    """The same with fencing switched off has to be found."""
    try:
        plans(root, text.replace("stonith-enabled=true", "stonith-enabled=false"))
    except Wrong as wrong:
        if "Fencing" not in str(wrong):
            raise
        return
    raise Wrong("fencing is switched off, and the plan was found to be right")


def main():
    if len(sys.argv) != 2:
        sys.exit(__doc__)
    root = Root(os.path.abspath(sys.argv[1]))
    page = (block_of("`/etc/drbd.d/global_common.conf`:") + block_of("`/etc/drbd.d/array.res`:"),
            block_of("`/etc/corosync/corosync.conf`:"), block_of("`crm configure load replace FILE`"))
    own = (own_file("fencing.res") + own_file("array.res"), own_file("corosync.conf"), own_file("cluster.crm"))
    for name, (drbd, corosync, cluster) in (("docs/TWO_MACHINES.md", page), ("trials/two_machines", own)):
        told = root.run("/lib/drbd/drbdadm-84", "-c", root.write("drbd.conf", drbd), "dump")
        if "resource array {" not in told or "resource-and-stonith" not in told:
            raise Wrong(f"{name}: drbdadm reads {told}")
        root.run("corosync", "-t", "-c", root.write("corosync.conf", corosync))
        active = plans(root, cluster)
        without_fencing(root, cluster)
        print(f"{name}: drbdadm and corosync read it. As Pacemaker plans, machine {active} serves; where it is lost, "
              "the other one fences it first")


if __name__ == "__main__":
    try:
        main()
    except Wrong as wrong:
        sys.exit(f"WRONG {wrong}")
