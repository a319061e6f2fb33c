"""Two emulated machines for trials/two_machines.py: each a qemu with a disk that forgets what was not flushed, and a
wire between them that can be cut. The ports are this machine's own, on the loopback."""

import itertools
import json
import os
import shutil
import socket
import struct
import subprocess
import threading
import time

from free_port import HOST, free_port
from running import Wrong
from two_machines_disk import take

# Of a machine's four ports: controller 1 and 2 of the array, the shell, the end of the wire.
CONTROLLER_1, CONTROLLER_2, SHELL, WIRE = 0, 4, 5, 6
# What a step of a machine may take; its processor is emulated, and this machine may have much else to do.
PATIENCE = 1200
# How far its processor gives way to others.
NICE = os.environ.get("MACHINES_NICE", "19")


class Wire:
    """The cable between the two machines, by which their disks are replicated. It hands on whole frames, so that a
    machine that comes back finds it in order."""

    def __init__(self, ports):
        self.ports, self.ends = ports, [None, None]
        self.is_cut = self.is_over = False
        self.frames = 0
        for side in range(2):
            threading.Thread(target=self.hand_on, args=[side], daemon=True).start()

    def connected(self, side):
        while not self.is_over:
            try:
                return socket.create_connection((HOST, self.ports[side]))
            except OSError:
                time.sleep(0.2)
        return None

    def hand_on(self, side):
        while not self.is_over:
            end = self.ends[side] = self.connected(side)
            try:
                while end and (header := take(end, 4)) is not None:
                    frame = take(end, *struct.unpack(">I", header))
                    if frame is not None and not self.is_cut:
                        self.give(1 - side, header + frame)
            except OSError:
                pass
            self.ends[side] = None

    def give(self, side, frame):
        end = self.ends[side]
        try:
            if end:
                end.sendall(frame)
                self.frames += 1
        except OSError:
            # that machine is dead
            pass


def command(lines, request):
    """What qemu answers to a request by its control."""
    lines.write(json.dumps(request) + "\n")
    lines.flush()
    while True:
        answer = json.loads(lines.readline())
        if "error" in answer:
            raise Wrong(f"qemu: {request}: {answer}")
        if "return" in answer:
            return answer["return"]


class Machine:
    """One of the two machines, "a" or "b". To boot an emulated machine takes minutes where others use the processors.
    So each was booted once, as kind "plain" and as kind "systemd", up to where nothing has looked at its disk yet; what
    it then was lies in FOLDER, and that is what is switched on."""

    nice = NICE

    def __init__(self, name, kind, folder, run, disk, when_on="true"):
        self.name, self.kind, self.folder, self.run = name, kind, folder, run
        # the disk, and the script by which the machine begins with it
        self.disk, self.when_on = disk, when_on
        self.base = free_port()
        self.process = None
        self.starts = itertools.count(1)

    def port(self, which):
        return self.base + which

    def kept(self, what):
        """A file with what the machine was when it had booted."""
        return os.path.join(self.folder, f"{what}.{self.kind}.{self.name}")

    def words(self, root):
        number = "ab".index(self.name) + 1
        forwards = ((CONTROLLER_1, 3260), (CONTROLLER_2, 3264), (SHELL, 2222))
        world = "user,id=world" + "".join(f",hostfwd=tcp:{HOST}:{self.port(at)}-:{port}" for at, port in forwards)
        console = os.path.join(self.run, f"console.{self.name}.{next(self.starts)}")
        append = f"{self.kind} machine={self.name} console=ttyS0 panic=1 loglevel=4 mitigations=off no_timer_check"
        return [
            "setpriv", "--pdeathsig", "KILL", "nice", "-n", self.nice, "qemu-system-x86_64",
            "-accel", "tcg,thread=multi,tb-size=64", "-cpu", "max", "-smp", "1", "-m", "512",
            "-display", "none", "-monitor", "none", "-no-reboot", "-serial", f"file:{console}",
            "-kernel", os.path.join(self.folder, "vmlinuz"), "-initrd", os.path.join(self.folder, "initrd"),
            "-append", f"{append} tsc=unstable systemd.show_status=false",
            "-drive", f"file={root},format=qcow2,if=virtio,cache=unsafe",
            "-drive", f"file=nbd:unix:{self.disk.address},format=raw,if=virtio,cache=writeback",
            "-netdev", world, "-device", f"virtio-net-pci,netdev=world,mac=52:54:00:aa:00:0{number}",
            "-netdev", f"socket,id=wire,listen={HOST}:{self.port(WIRE)}",
            "-device", f"virtio-net-pci,netdev=wire,mac=52:54:00:bb:00:0{number}",
        ]

    def run_qemu(self, words):
        self.process = subprocess.Popen(words, stdin=subprocess.DEVNULL, start_new_session=True)
        self.give_way()

    def boot(self):
        """Boots it, keeps what it then is, and switches it off."""
        root, control = self.kept("root"), os.path.join(self.run, f"control.{self.name}")
        below = os.path.join(self.folder, "root.img")
        subprocess.run(["qemu-img", "create", "-q", "-f", "qcow2", "-b", below, "-F", "raw", root], check=True)
        self.run_qemu([*self.words(root), "-qmp", f"unix:{control},server=on,wait=off"])
        self.wait_shell()
        with socket.socket(socket.AF_UNIX) as end:
            end.connect(control)
            lines = end.makefile("rw")
            command(lines, {"execute": "qmp_capabilities"})
            command(lines, {"execute": "migrate", "arguments": {"uri": f"exec:cat > {self.kept('memory')}"}})
            while (state := command(lines, {"execute": "query-migrate"}).get("status")) != "completed":
                if state == "failed":
                    raise Wrong(f"what machine {self.name} is could not be kept")
                time.sleep(1)
            command(lines, {"execute": "quit"})
        self.process.wait()

    def start(self):
        """Switches it on."""
        root = os.path.join(self.run, f"root.{self.name}")
        shutil.copy(self.kept("root"), root)
        self.run_qemu([*self.words(root), "-incoming", f"exec:cat {self.kept('memory')}"])

    def give_way(self):
        """Its processor time is what others leave, also where the system shares it by sessions."""
        try:
            with open(f"/proc/{self.process.pid}/autogroup", "w") as file:
                file.write(self.nice)
        except OSError:
            pass

    def is_on(self):
        return self.process is not None and self.process.poll() is None

    def kill(self, keeps="all"):
        """A loss of power."""
        if self.is_on():
            self.process.kill()
        if self.process is not None:
            self.process.wait()
        self.disk.lose_power(keeps)

    def shell(self):
        """Where its shell listens."""
        return HOST, self.port(SHELL)

    def ask(self, script, seconds=PATIENCE):
        """What a script says there, by its shell. It has to end well."""
        with socket.create_connection(self.shell(), seconds) as end:
            end.sendall(f"set -e\n{script}\necho done\n".encode())
            end.shutdown(socket.SHUT_WR)
            told = b""
            while more := end.recv(65536):
                told += more
        lines = told.decode(errors="replace").splitlines()
        if lines[-1:] != ["done"]:
            raise Wrong(f"machine {self.name}: {script!r} says {lines[-12:]}")
        return lines[:-1]

    def wait_shell(self, seconds=PATIENCE):
        began = time.monotonic()
        while time.monotonic() < began + seconds and self.is_on():
            try:
                self.ask("true", 20)
                return
            except (OSError, Wrong):
                time.sleep(0.5)
        raise Wrong(f"machine {self.name} does not come up")

    def wait_up(self):
        """Waits until it has begun with its disk: how long that took. Its random numbers are others than at its last
        start, where it was what it is now, and its clock is right."""
        began = time.monotonic()
        self.wait_shell()
        seed = f"echo {os.urandom(64).hex()} > /dev/urandom; perl -e 'ioctl(STDIN, 0x5207, 0) || die' < /dev/urandom"
        self.ask(f"{seed}\ndate -s @{time.time():.0f} > /dev/null\n{self.when_on}")
        return time.monotonic() - began

    def wait(self, script, is_wanted, seconds=PATIENCE):
        """Waits until a script says what is wanted, in one line: how long that took."""
        began = time.monotonic()
        told = None
        while time.monotonic() < began + seconds:
            try:
                told = "\n".join(self.ask(script, 60))
                if is_wanted(told):
                    return time.monotonic() - began
            except (OSError, Wrong) as fault:
                told = repr(fault)
            time.sleep(2)
        raise Wrong(f"machine {self.name}: {script!r} says {told!r}")
