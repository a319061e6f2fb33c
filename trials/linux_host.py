#!/usr/bin/env python3
"""Boots a Linux host with the kernel's own iSCSI initiator and dm-multipath in qemu, and runs trials/linux_guest.sh there
against the array: discovery, both paths, multipath's table, IO with verification over `down`, over a restart and over a dropped
connection, persistent reservations by sg_persist and mpathpersist, COMPARE AND WRITE, a bigger disk. Not part of the gate: it
takes some minutes, since the host's processor is emulated. On a machine that has much else to do the host stalls, and its own time-outs
run off: give it priority there.

usage: trials/linux_host.py build FOLDER       makes FOLDER/vmlinuz and FOLDER/initrd of Debian's packages (root, the network)
       trials/linux_host.py run FOLDER         starts the array, boots the host, prints what it says; status 1 where a line of it
                                              begins with FAILED, or its last one does not come

It wants Debian's packages qemu-system-x86, debootstrap, cpio.
"""

import glob
import os
import shutil
import socketserver
import subprocess
import sys
import tempfile
import threading

from running import ARRAYD, TOP

PACKAGES = "open-iscsi,multipath-tools,sg3-utils,e2fsprogs,kmod,iproute2,udev,fio,util-linux,procps"
# What the host needs none of, so that what is unpacked at each boot is small.
NEEDLESS = ("sound", "net/wireless", "net/bluetooth", "net/mac80211", "net/netfilter", "fs/btrfs", "fs/xfs", "fs/nfs",
            "fs/nfsd", "fs/ocfs2", "fs/gfs2", "fs/f2fs", "fs/ceph", "fs/smb", "fs/jfs", "fs/ubifs", "drivers/gpu", "drivers/media",
            "drivers/net/wireless", "drivers/infiniband", "drivers/iio", "drivers/staging", "drivers/usb", "drivers/hid",
            "drivers/input", "drivers/mtd", "drivers/hwmon", "drivers/i2c", "drivers/ata", "drivers/isdn", "drivers/video",
            "drivers/platform", "drivers/mmc", "drivers/nvme", "drivers/char", "drivers/crypto", "drivers/firewire",
            "drivers/misc", "drivers/target", "drivers/xen", "drivers/leds", "drivers/net/ethernet")
# The host sees this machine so.
GATEWAY, PORT, CONTROL = "10.0.2.2", 24260, 24270
MINUTES = 90


def run(*words, **more):
    subprocess.run(words, check=True, **more)


def build(folder):
    os.makedirs(folder, exist_ok=True)
    root = os.path.join(folder, "root")
    if not os.path.exists(os.path.join(root, "sbin", "iscsid")):
        shutil.rmtree(root, ignore_errors=True)
        # some packages' last steps want a running system, and are not needed
        subprocess.run(["debootstrap", "--variant=minbase", f"--include={PACKAGES}", "bookworm", root, mirror()], check=False,
                       stdout=subprocess.DEVNULL)
    unpacked, version = take_kernel(folder)
    modules = os.path.join(root, "lib", "modules", version)
    shutil.rmtree(modules, ignore_errors=True)
    shutil.copytree(os.path.join(unpacked, "lib", "modules", version), modules, symlinks=True)
    for what in NEEDLESS:
        shutil.rmtree(os.path.join(modules, "kernel", what), ignore_errors=True)
    for what in ("var/cache/apt", "var/lib/apt", "usr/share/doc", "usr/share/man", "usr/share/locale", "usr/share/info"):
        shutil.rmtree(os.path.join(root, what), ignore_errors=True)
    if not os.path.lexists(os.path.join(root, "sbin", "depmod")):
        sys.exit("debootstrap did not make the host: see debootstrap/debootstrap.log in FOLDER/root")
    run("chroot", root, "depmod", version)
    pack(folder)


def take_kernel(folder):
    """Debian's kernel as FOLDER/vmlinuz, with its modules: the folder into which it was unpacked, and its version."""
    kernel = subprocess.run(["apt-cache", "depends", "linux-image-amd64"], check=True, stdout=subprocess.PIPE, text=True)
    name = next(line.split()[-1] for line in kernel.stdout.splitlines() if "Depends:" in line)
    if not glob.glob(os.path.join(folder, f"{name}_*.deb")):
        run("apt-get", "download", "-qq", name, cwd=folder, stderr=subprocess.DEVNULL)
    unpacked = os.path.join(folder, "kernel")
    run("dpkg-deb", "-x", glob.glob(os.path.join(folder, f"{name}_*.deb"))[0], unpacked)
    shutil.copy(glob.glob(os.path.join(unpacked, "boot", "vmlinuz-*"))[0], os.path.join(folder, "vmlinuz"))
    return unpacked, os.listdir(os.path.join(unpacked, "lib", "modules"))[0]


def mirror():
    """Where this machine has its packages from."""
    for file in glob.glob("/etc/apt/sources.list.d/*.sources") + ["/etc/apt/sources.list"]:
        if os.path.exists(file):
            with open(file) as lines:
                for line in lines:
                    words = line.split()
                    if words[:1] in (["URIs:"], ["deb"]):
                        return next(word for word in words if word.startswith("http"))
    return "http://deb.debian.org/debian"


def as_initrd(root, path):
    """Packs a folder as what is loaded with the kernel: not compressed, since to unpack it would take the emulated processor longer
    than anything else of the boot."""
    with open(path, "wb") as packed:
        found = subprocess.Popen(["find", ".", "-xdev"], cwd=root, stdout=subprocess.PIPE)
        run("cpio", "-o", "-H", "newc", "--quiet", cwd=root, stdin=found.stdout, stdout=packed)


def as_image(root, path, *words):
    """A file system of a folder, made without a loop device and without a mount."""
    if os.path.exists(path):
        os.remove(path)
    run("mke2fs", "-q", "-t", "ext4", "-d", root, *words[:-1], path, words[-1])


def pack(folder):
    root = os.path.join(folder, "root")
    shutil.copy(os.path.join(TOP, "trials", "linux_guest.sh"), os.path.join(root, "guest"))
    os.chmod(os.path.join(root, "guest"), 0o755)
    as_initrd(root, os.path.join(folder, "initrd"))


class Served:
    """The array, by the service's own scripts, and what the host may ask of it."""

    def __init__(self, place):
        self.place = place
        os.mkdir(os.path.join(place, "console"))
        self.disks = [os.path.join(place, f"unit{unit}") for unit in range(2)]
        for disk in self.disks:
            with open(disk, "wb") as file:
                file.truncate(256 << 20)
        self.start()

    def start(self):
        words = [os.path.join(TOP, "service", "arrayd-run"), os.path.join(self.place, "console"), "--port", str(PORT)]
        self.process = subprocess.Popen([*words, *self.disks], env={**os.environ, "ARRAYD": os.path.abspath(ARRAYD)})
        if not self.console("ready").startswith("unit"):
            sys.exit("the array is not ready")

    def console(self, *line):
        done = subprocess.run([os.path.join(TOP, "service", "arrayd-console"), os.path.join(self.place, "console"), *line],
                              stdout=subprocess.PIPE, stderr=subprocess.DEVNULL, text=True, check=False)
        return done.stdout

    def stop(self):
        self.console("quit")
        return self.process.wait()

    def ask(self, line):
        """What the host asks for by a line: a line of the console, or one of these."""
        if line == "restart":
            ended = self.stop()
            self.start()
            return f"ended {ended}\n"
        if line == "kill":
            self.process.kill()
            self.process.wait()
            self.start()
            return "killed\n"
        if line == "grow":
            self.stop()
            os.truncate(self.disks[1], 384 << 20)
            self.start()
            return "grown\n"
        return self.console(*line.split())


class Control(socketserver.ThreadingTCPServer):
    """Where the host asks. A run may follow on another at once, while connections of that one still linger."""
    allow_reuse_address = True


def serve(folder):
    with tempfile.TemporaryDirectory() as place:
        array = Served(place)

        class Asked(socketserver.StreamRequestHandler):
            def handle(self):
                self.wfile.write(array.ask(self.rfile.readline().decode().strip()).encode())

        try:
            with Control(("127.0.0.1", CONTROL), Asked) as control:
                threading.Thread(target=control.serve_forever, daemon=True).start()
                told = boot(folder)
                control.shutdown()
        finally:
            ended = array.stop()
        if ended != 0:
            told.append("FAILED  the array did not end well")
    bad = [line for line in told if line.startswith("FAILED")]
    if bad or "the host has ended" not in told:
        sys.exit("\n".join(["", *bad, "the host did not come to its end" if "the host has ended" not in told else ""]))


def boot(folder):
    """Boots the host, and prints what it says from its first line on; where that does not come, the last that it said."""
    words = ["qemu-system-x86_64", "-accel", "tcg,thread=multi", "-cpu", "max", "-m", "3072", "-smp", "2", "-nographic",
             "-no-reboot", "-kernel", os.path.join(folder, "vmlinuz"), "-initrd", os.path.join(folder, "initrd"),
             "-append", "console=ttyS0 rdinit=/guest panic=5 loglevel=5 mitigations=off tsc=reliable",
             "-netdev", "user,id=n", "-device", "virtio-net-pci,netdev=n"]
    host = subprocess.Popen(words, stdin=subprocess.DEVNULL, stdout=subprocess.PIPE, text=True, errors="replace")
    timer = threading.Timer(MINUTES * 60, host.kill)
    timer.start()
    told, before = [], []
    for line in host.stdout:
        line = line.replace("\r", "").rstrip()
        if told or line.startswith("the host is up"):
            told.append(line)
            print(line, flush=True)
        else:
            before.append(line)
    timer.cancel()
    host.wait()
    if not told:
        print("\n".join(before[-20:]), flush=True)
    return told


if __name__ == "__main__":
    if len(sys.argv) != 3 or sys.argv[1] not in ("build", "run"):
        sys.exit(__doc__)
    if sys.argv[1] == "build":
        build(os.path.abspath(sys.argv[2]))
    else:
        pack(os.path.abspath(sys.argv[2]))
        serve(os.path.abspath(sys.argv[2]))
