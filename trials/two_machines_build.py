"""Makes what the two machines of trials/two_machines.py boot: FOLDER/vmlinuz, FOLDER/initrd, and FOLDER/root.img, one
Debian 12 for both of them, with DRBD, Corosync, Pacemaker and the array. It wants Debian's packages debootstrap, cpio,
e2fsprogs, qemu-system-x86, qemu-utils; root; the network."""

import os
import re
import shutil
import subprocess
import sys
import uuid

from linux_host import as_image, as_initrd, mirror, run, take_kernel
from running import ARRAYD, TOP
from two_machines_plan import Root, as_cib, own_file

# psmisc has the command fuser, without which Pacemaker's agent Filesystem says that it cannot run anywhere.
PACKAGES = ("systemd-sysv", "dbus", "udev", "kmod", "iproute2", "util-linux", "procps", "psmisc", "e2fsprogs", "socat",
            "python3-minimal", "busybox-static", "drbd-utils", "pacemaker", "pacemaker-cli-utils", "corosync",
            "resource-agents", "crmsh")
# The modules that a machine uses.
MODULES = ("virtio_pci", "virtio_blk", "crc32c_generic", "ext4", "virtio_net", "drbd")
# What only costs time here, or is the cluster's own business.
MASKED = """
    drbd.service logd.service systemd-networkd.service systemd-networkd-wait-online.service systemd-networkd.socket
    systemd-timesyncd.service systemd-logind.service systemd-user-sessions.service getty@tty1.service
    serial-getty@ttyS0.service systemd-udevd.service systemd-udev-trigger.service systemd-udevd-control.socket
    systemd-udevd-kernel.socket kmod-static-nodes.service systemd-modules-load.service systemd-binfmt.service
    systemd-update-utmp.service systemd-update-utmp-runlevel.service systemd-journal-flush.service
    systemd-pstore.service systemd-random-seed.service systemd-repart.service systemd-firstboot.service
    systemd-machine-id-commit.service systemd-pcrphase.service systemd-pcrphase-sysinit.service systemd-sysctl.service
    systemd-sysusers.service proc-sys-fs-binfmt_misc.automount sys-fs-fuse-connections.mount sys-kernel-config.mount
    sys-kernel-debug.mount sys-kernel-tracing.mount dev-hugepages.mount dev-mqueue.mount e2scrub_reap.service
    apt-daily.timer apt-daily-upgrade.timer dpkg-db-backup.timer e2scrub_all.timer fstrim.timer
    systemd-tmpfiles-clean.timer
""".split()
GUEST = os.path.join(TOP, "trials", "two_machines")
ROOT_SIZE = "1200M"


def build(folder):
    os.makedirs(folder, exist_ok=True)
    root = os.path.join(folder, "root")
    if not os.path.exists(os.path.join(root, "usr", "sbin", "drbdadm")):
        shutil.rmtree(root, ignore_errors=True)
        # some packages' last steps want a running system, and are not needed
        words = ["debootstrap", "--variant=minbase", f"--include={','.join(PACKAGES)}", "bookworm", root, mirror()]
        subprocess.run(words, check=False, stdout=subprocess.DEVNULL)
    if not os.path.exists(os.path.join(root, "usr", "sbin", "pacemakerd")):
        sys.exit("debootstrap did not make the machine: see debootstrap/debootstrap.log in FOLDER/root")
    for what in ("var/cache/apt", "var/lib/apt", *(f"usr/share/{name}" for name in ("doc", "man", "locale", "info"))):
        shutil.rmtree(os.path.join(root, what), ignore_errors=True)
    order = take_modules(folder, root)
    settle(root)
    settle_cluster(root)
    # crmsh itself takes minutes on an emulated processor
    cib = as_cib(Root(folder), own_file("cluster.crm"))
    configuration = re.search("<configuration>.*</configuration>", cib, re.S)[0]
    write(os.path.join(root, "usr", "libexec", "two_machines", "cluster.xml"), configuration)
    pack(folder, root, order)


def take_modules(folder, root, modules=MODULES):
    """Copies the modules that are used, and what they need: their files, in the order in which they are loaded."""
    unpacked, version = take_kernel(folder)
    every = os.path.join(root, "every")
    shutil.rmtree(every, ignore_errors=True)
    shutil.copytree(unpacked, every, symlinks=True, copy_function=os.link)
    run("chroot", root, "depmod", "-b", "/every", version)

    def files():
        found = []
        for name in modules:
            words = ["chroot", root, "modprobe", "-d", "/every", "-S", version, "--show-depends", name]
            told = subprocess.run(words, check=True, stdout=subprocess.PIPE, text=True).stdout
            lines = [line for line in told.splitlines() if line.startswith("insmod")]
            found += [line.split()[1].split(f"/lib/modules/{version}/")[1] for line in lines]
        return list(dict.fromkeys(found))

    order = files()
    target = os.path.join(root, "lib", "modules", version)
    shutil.rmtree(os.path.join(root, "lib", "modules"), ignore_errors=True)
    for name in [*order, "modules.builtin", "modules.order", "modules.builtin.modinfo"]:
        os.makedirs(os.path.dirname(os.path.join(target, name)), exist_ok=True)
        shutil.copy(os.path.join(every, "lib", "modules", version, name), os.path.join(target, name))
    shutil.rmtree(every)
    run("chroot", root, "depmod", version)
    return [os.path.join(target, name) for name in order]


def write(path, text, mode=0o644):
    os.makedirs(os.path.dirname(path), exist_ok=True)
    with open(path, "w") as file:
        file.write(text)
    os.chmod(path, mode)


def place(name, root, folder):
    """Puts a file of trials/two_machines into a folder of the system."""
    os.makedirs(os.path.join(root, folder), exist_ok=True)
    shutil.copy(os.path.join(GUEST, name), os.path.join(root, folder, name))


def settle(root):
    """What makes of the system these two machines: the array and its service, and the files of trials/two_machines."""
    run("sh", os.path.join(TOP, "service", "install.sh"), os.path.abspath(ARRAYD), env={**os.environ, "DESTDIR": root})
    run("chroot", root, "systemd-sysusers")
    for name in ("plain", "network", "shell", "begin", "activate", "deactivate", "fencing.res"):
        place(name, root, "usr/libexec/two_machines")
    place("array.res", root, "etc/drbd.d")
    shutil.copy(os.path.join(GUEST, "quick.res"), os.path.join(root, "etc", "drbd.d", "common.res"))
    # else drbdadm waits for a network that is not there, to be counted
    write(os.path.join(root, "etc", "drbd.d", "global_common.conf"), "global { usage-count no; }\n")
    write(os.path.join(root, "etc", "hosts"), "127.0.0.1 localhost\n10.9.0.1 a\n10.9.0.2 b\n")
    write(os.path.join(root, "etc", "fstab"), "/dev/vda / ext4 rw,noatime 0 0\n")
    # without one it would be a first boot, at which systemd starts whatever is installed
    write(os.path.join(root, "etc", "machine-id"), f"{uuid.uuid4().hex}\n")


def settle_cluster(root):
    """What a machine with systemd and Pacemaker has more."""
    place("corosync.conf", root, "etc/corosync")
    place("fence_by_script", root, "usr/sbin")
    words = 'OPTIONS="--host 0.0.0.0 --port 3260"\nDISKS="unit0 unit1 unit2"\n'
    write(os.path.join(root, "etc", "arrayd", "one.conf"), words)
    os.makedirs(os.path.join(root, "var", "lib", "arrayd", "one"), exist_ok=True)
    units = os.path.join(root, "etc", "systemd", "system")
    for name in ("two-machines-network.service", "two-machines-shell.service"):
        place(name, root, "etc/systemd/system")
    # these machines are slow
    write(os.path.join(root, "etc", "systemd", "system.conf.d", "slow.conf"), "[Manager]\nDefaultTimeoutStartSec=600\n")
    # what the cluster starts is not started by systemd itself
    run("chroot", root, "systemctl", "--quiet", "disable", "corosync", "pacemaker", "drbd", stderr=subprocess.DEVNULL)
    run("chroot", root, "systemctl", "--quiet", "enable", "two-machines-network", "two-machines-shell")
    run("chroot", root, "systemctl", "--quiet", "set-default", "multi-user.target")
    for name in MASKED:
        link = os.path.join(units, name)
        if not os.path.lexists(link):
            os.symlink("/dev/null", link)


def pack(folder, root, order):
    """Makes the image of the root, and what is loaded with the kernel."""
    first = os.path.join(folder, "first")
    shutil.rmtree(first, ignore_errors=True)
    for name in ("bin", "proc", "sys", "dev", "new", "modules"):
        os.makedirs(os.path.join(first, name))
    shutil.copy(os.path.join(root, "bin", "busybox"), os.path.join(first, "bin"))
    shutil.copy(os.path.join(GUEST, "first"), os.path.join(first, "init"))
    for module in order:
        shutil.copy(module, os.path.join(first, "modules"))
    write(os.path.join(first, "order"), "".join(os.path.basename(module) + "\n" for module in order))
    as_initrd(first, os.path.join(folder, "initrd"))
    as_image(root, os.path.join(folder, "root.img"), "-L", "root", ROOT_SIZE)
