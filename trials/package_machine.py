"""A Debian with systemd in qemu, for trials/package.py: a system that never had the array, two empty disks, a shell by a port.

    build(FOLDER)                                  makes what is booted: FOLDER/vmlinuz, FOLDER/initrd, FOLDER/root.img
    with Machine(FOLDER, place, packages) as m:    boots it over a copy that is thrown away; what is in the folder `packages` is in /packages
        m.run("ls")                                exit status and what it said

It wants Debian's packages qemu-system-x86, debootstrap, cpio, e2fsprogs; to build it root, and the network.
"""

import os
import shutil
import socket
import subprocess
import sys
import time

from linux_host import as_image, as_initrd, mirror, run, take_kernel

PACKAGES = "systemd-sysv,dbus,udev,kmod,iproute2,procps,util-linux,e2fsprogs,python3,logrotate,socat,busybox-static"
# The modules of the first steps, and those of the network, in whose order modprobe tells what they need.
FIRST, LATER = ("virtio_pci", "virtio_blk", "crc32c_generic", "ext4"), ("virtio_net",)
DISKS = 2
FIRST_STEPS = """#!/bin/busybox sh
/bin/busybox --install -s /bin
export PATH=/bin
mount -t proc proc /proc; mount -t sysfs sys /sys; mount -t devtmpfs dev /dev
while read -r module; do insmod /modules/$module; done < /order
until [ -b /dev/vda ]; do sleep 0.1; done
mount -t ext4 /dev/vda /new
umount /proc /sys
mount --move /dev /new/dev
exec switch_root /new /sbin/init
"""
NETWORK = "[Match]\nName=en* eth*\n[Network]\nAddress=10.0.2.15/24\nGateway=10.0.2.2\n"
SHELL = """[Unit]
Description=A shell for the script outside
After=network-online.target
Wants=network-online.target
[Service]
ExecStart=/usr/bin/socat -t 3600 TCP-LISTEN:2222,fork,reuseaddr EXEC:"/bin/bash -s",stderr
KillMode=process
"""


def write(path, text, mode=0o644):
    os.makedirs(os.path.dirname(path), exist_ok=True)
    with open(path, "w", encoding="utf-8") as file:
        file.write(text)
    os.chmod(path, mode)


def build(folder):
    os.makedirs(folder, exist_ok=True)
    root = os.path.join(folder, "root")
    if not os.path.exists(os.path.join(root, "usr", "bin", "busybox")):
        shutil.rmtree(root, ignore_errors=True)
        # some packages' last steps want a running system, and are not needed
        subprocess.run(["debootstrap", "--variant=minbase", f"--include={PACKAGES}", "bookworm", root, mirror()], check=False,
                       stdout=subprocess.DEVNULL)
    settle(root)
    pack(folder, root, take_modules(folder, root))


def settle(root):
    etc = os.path.join(root, "etc")
    write(f"{etc}/fstab", "/dev/vda / ext4 rw,noatime 0 1\n")
    write(f"{etc}/hostname", "array\n")
    write(f"{etc}/machine-id", "uninitialized\n")
    write(f"{etc}/systemd/network/first.network", NETWORK)
    write(f"{etc}/systemd/system/shell.service", SHELL)
    units = f"{etc}/systemd/system/multi-user.target.wants"
    os.makedirs(units, exist_ok=True)
    if not os.path.lexists(f"{units}/shell.service"):
        os.symlink("/etc/systemd/system/shell.service", f"{units}/shell.service")
    run("chroot", root, "systemctl", "--quiet", "enable", "systemd-networkd")


def take_modules(folder, root):
    """Puts the modules that are needed into the root: those of the first steps, in their order."""
    unpacked, version = take_kernel(folder)
    every = os.path.join(root, "every")
    shutil.rmtree(every, ignore_errors=True)
    shutil.copytree(os.path.join(unpacked, "lib"), os.path.join(every, "lib"), symlinks=True)
    run("chroot", root, "depmod", "-b", "/every", version)
    inside, order = f"lib/modules/{version}", []
    for name in FIRST + LATER:
        told = subprocess.run(["chroot", root, "modprobe", "-d", "/every", "-S", version, "--show-depends", name],
                              check=True, stdout=subprocess.PIPE, text=True).stdout
        files = [line.split()[1].split(f"{inside}/")[1] for line in told.splitlines() if line.startswith("insmod")]
        order += [file for file in files if file not in order]
    shutil.rmtree(os.path.join(root, "lib", "modules"), ignore_errors=True)
    for file in [*order, "modules.builtin", "modules.order", "modules.builtin.modinfo"]:
        os.makedirs(os.path.dirname(os.path.join(root, inside, file)), exist_ok=True)
        shutil.copy(os.path.join(every, inside, file), os.path.join(root, inside, file))
    shutil.rmtree(every)
    run("chroot", root, "depmod", version)
    return [os.path.join(root, inside, file) for file in order]


def pack(folder, root, modules):
    first = os.path.join(folder, "first")
    shutil.rmtree(first, ignore_errors=True)
    for name in ("bin", "proc", "sys", "dev", "new", "modules"):
        os.makedirs(os.path.join(first, name))
    shutil.copy(os.path.join(root, "usr", "bin", "busybox"), os.path.join(first, "bin"))
    write(os.path.join(first, "init"), FIRST_STEPS, 0o755)
    write(os.path.join(first, "order"), "".join(os.path.basename(module) + "\n" for module in modules))
    for module in modules:
        shutil.copy(module, os.path.join(first, "modules"))
    as_initrd(first, os.path.join(folder, "initrd"))
    as_image(root, os.path.join(folder, "root.img"), "1200M")


class Machine:
    """The machine, booted. Its ports 3260 and 3264 are at `port` and four above, its shell is at eight above."""

    def __init__(self, folder, place, packages, port):
        self.port, self.said = port, os.path.join(place, "said")
        images = [(os.path.join(folder, "root.img"), "on")]
        for disk in range(DISKS):
            images.append((os.path.join(place, f"disk{disk}"), "off"))
            with open(images[-1][0], "wb") as file:
                file.truncate(64 << 20)
        images.append((os.path.join(place, "packages.img"), "on"))
        as_image(packages, images[-1][0], "64M")
        forwards = "".join(f",hostfwd=tcp:127.0.0.1:{port + at}-:{to}" for at, to in ((0, 3260), (4, 3264), (8, 2222)))
        words = ["qemu-system-x86_64", "-accel", "tcg,thread=multi", "-cpu", "max", "-m", "1024", "-smp", "1", "-display", "none",
                 "-monitor", "none", "-serial", f"file:{self.said}", "-kernel", os.path.join(folder, "vmlinuz"),
                 "-initrd", os.path.join(folder, "initrd"), "-netdev", f"user,id=n{forwards}", "-device", "virtio-net-pci,netdev=n",
                 "-append", "console=ttyS0 rdinit=/init panic=5 loglevel=4 mitigations=off no_timer_check tsc=unstable"]
        for image, is_thrown_away in images:
            words += ["-drive", f"file={image},format=raw,if=virtio,snapshot={is_thrown_away}"]
        self.process = subprocess.Popen(words, stdin=subprocess.DEVNULL)

    def run(self, script, seconds=600):
        """Exit status of a script of bash in the machine, and what it wrote."""
        with socket.create_connection(("127.0.0.1", self.port + 8), seconds) as way:
            way.sendall(f"exec 2>&1\n(\n{script}\n) < /dev/null\nended=$?\necho\necho status $ended\n".encode())
            way.shutdown(socket.SHUT_WR)
            told = b""
            while more := way.recv(65536):
                told += more
        lines = told.decode(errors="replace").rstrip("\n").split("\n")
        if not lines[-1].startswith("status "):
            raise OSError(f"the machine's shell ended early: {lines[-3:]}")
        return int(lines[-1].split()[1]), "\n".join(lines[:-1]).strip()

    def wait(self, seconds=600):
        """Waits until it is up: how long it took."""
        began = time.monotonic()
        while time.monotonic() - began < seconds and self.process.poll() is None:
            try:
                if self.run("systemctl is-system-running --wait > /dev/null; echo up", 120)[1] == "up":
                    return time.monotonic() - began
            except OSError:
                time.sleep(1)
        with open(self.said, errors="replace") as file:
            sys.exit("the machine did not come up:\n" + "".join(file.readlines()[-20:]))

    def __enter__(self):
        return self

    def __exit__(self, *_):
        self.process.kill()
        self.process.wait()
