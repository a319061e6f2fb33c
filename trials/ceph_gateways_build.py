"""Makes what the gateways of trials/ceph_gateways.py boot: FOLDER/root.img, one Debian 12 for both of them, with Ceph's commands,
Pacemaker (which only plans there), and the array. It wants Debian's packages debootstrap, e2fsprogs; root; the network. The
kernel with its modules is that of Debian's package user-mode-linux, where this machine has it."""

import os
import shutil
import subprocess
import sys

from linux_host import as_image, mirror, run
from running import ARRAYD, TOP
from two_machines_build import ROOT_SIZE, place, write

PACKAGES = ("systemd", "udev", "kmod", "iproute2", "iputils-arping", "util-linux", "procps", "psmisc", "e2fsprogs", "socat",
            "python3", "ceph-common", "pacemaker", "pacemaker-cli-utils", "corosync", "resource-agents", "crmsh")
GUEST = os.path.join(TOP, "trials", "ceph_gateways")
PLACE = "/usr/libexec/two_machines"
KEYRING = "/etc/ceph/ceph.client.array.keyring"
IMAGES = ("array-files", "unit0", "unit1", "unit2", "unit3")
RBDMAP = "".join(f"rbd/{image} id=array,keyring={KEYRING},options='exclusive'\n" for image in IMAGES)


def build(folder):
    os.makedirs(folder, exist_ok=True)
    root = os.path.join(folder, "root")
    if not os.path.exists(os.path.join(root, "usr", "bin", "rbdmap")):
        shutil.rmtree(root, ignore_errors=True)
        # some packages' last steps want a running system, and are not needed
        words = ["debootstrap", "--variant=minbase", f"--include={','.join(PACKAGES)}", "bookworm", root, mirror()]
        subprocess.run(words, check=False, stdout=subprocess.DEVNULL)
    if not os.path.exists(os.path.join(root, "usr", "bin", "rbdmap")):
        sys.exit("debootstrap did not make the machine: see debootstrap/debootstrap.log in FOLDER/root")
    for what in ("var/cache/apt", "var/lib/apt", *(f"usr/share/{name}" for name in ("doc", "man", "locale", "info"))):
        shutil.rmtree(os.path.join(root, what), ignore_errors=True)
    settle(root)
    as_image(root, os.path.join(folder, "root.img"), "-L", "root", ROOT_SIZE)


def settle(root):
    """What makes of the system these machines: the array and its service, and what docs/MANY_MACHINES.md has in files."""
    run("sh", os.path.join(TOP, "service", "install.sh"), os.path.abspath(ARRAYD), env={**os.environ, "DESTDIR": root})
    run("chroot", root, "systemd-sysusers")
    place("shell", root, PLACE[1:])
    for name in os.listdir(GUEST):
        shutil.copy(os.path.join(GUEST, name), os.path.join(root, PLACE[1:], name))
    shutil.copy(os.path.join(TOP, "service", "fence_ceph_blocklist"), os.path.join(root, "usr", "sbin"))
    write(os.path.join(root, "etc", "ceph", "rbdmap"), RBDMAP)
    os.makedirs(os.path.join(root, "var", "lib", "arrayd", "one"), exist_ok=True)
