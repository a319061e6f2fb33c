#!/usr/bin/env python3
"""How fast arrayd is beside Linux' own iSCSI target (LIO): in a machine of qemu, with Debian's kernel, arrayd serves a file on tmpfs, and
LIO such a file (fileio, through the page cache) and memory (rd_mcp), in turn, to the same client on the loopback. Prints a row of a
table for each kind of command: what arrayd has of the commands a second of fileio and of rd_mcp, and of the time of all processors
that a command takes with fileio, the client's and the kernel's with it. A cell has that of reads and that of writes, by the medians
of the runs. What each run had goes to standard error; runs during which others here took the machine's processors do not count,
where there are others.

Where KVM does not boot the machine its processors are emulated, which the first line says: then only ratios within a row mean
something, and the machine wants a processor of this one for each of its own.

usage: bench/beside_lio.py FOLDER [--seconds N] [--runs N] [--only WORDS] [--size MIB] [--processors N] [--before PROGRAM]

FOLDER keeps the kernel, which the first run downloads. The program is $ARRAYD, or ./arrayd; with --before another one serves too, and
each row goes on with what that one has, and with what arrayd has of it. $ARRAYD_DEADLINE is theirs.

It wants Debian with its packages qemu-system-x86, busybox, cpio, kmod; rustc; for the kernel the lists of apt-get update.
"""

import argparse
import collections
import os
import re
import shutil
import statistics
import subprocess
import sys
import tempfile
import threading

sys.path.append(f"{sys.path[0]}/../trials")
from beside import processor_seconds
from linux_host import as_initrd, run, take_kernel
from running import ARRAYD, TOP, client

COMMANDS = {"qemu-system-x86_64": "qemu-system-x86", "busybox": "busybox", "cpio": "cpio", "modprobe": "kmod", "depmod": "kmod",
            "apt-get": "apt, as Debian has it", "rustc": "rustc"}
MODULES = ("configfs", "crc32c_generic", "target_core_mod", "target_core_file", "iscsi_target_mod")
SIZES = {512: "512 bytes", 4096: "4 KiB", 262144: "256 KiB"}
WORKS = ("read", "write")
# In seconds: what a boot by KVM may take, what one on an emulated processor may, and what a run may take more than its time.
SOON, BOOT, MORE = 20, 900, 60
# What the machine has of the time that its processors count as theirs, where nobody takes it.
UNDISTURBED = 0.8
Row = collections.namedtuple("Row", "name size depth sessions")


# ---- what is booted

def wanted(programs):
    """What this machine has not of what is wanted."""
    os.environ["PATH"] += ":/usr/sbin:/sbin"
    lacks = {package for command, package in COMMANDS.items() if not shutil.which(command)}
    return sorted(lacks) + [f"the program {program}" for program in programs if not os.access(program, os.X_OK)]


def take_modules(folder):
    """Puts the kernel into the folder, and the modules of LIO, with their names in the order in which they are loaded."""
    modules = os.path.join(folder, "modules")
    if os.path.exists(os.path.join(modules, "order")):
        return
    try:
        unpacked, version = take_kernel(folder)
    except StopIteration:
        sys.exit("apt knows no kernel: apt-get update")
    run("depmod", "-b", unpacked, version)
    files = []
    for name in MODULES:
        words = ["modprobe", "-d", unpacked, "-S", version, "--show-depends", name]
        told = subprocess.run(words, check=True, stdout=subprocess.PIPE, text=True).stdout
        files += [line.split()[1] for line in told.splitlines() if line.startswith("insmod")]
    os.makedirs(modules, exist_ok=True)
    for file in files:
        shutil.copy(file, modules)
    with open(os.path.join(modules, "order"), "w") as order:
        order.writelines(f"{os.path.basename(file)}\n" for file in dict.fromkeys(files))
    shutil.rmtree(unpacked)


def settle(root, folder, programs, runs):
    """What the machine has: its first program, the modules, the client, each arrayd by its name, their libraries, the runs."""
    os.makedirs(os.path.join(root, "bin"))
    for name in ("proc", "sys", "dev"):
        os.mkdir(os.path.join(root, name))
    shutil.copytree(os.path.join(folder, "modules"), os.path.join(root, "modules"))
    inside = {"init": os.path.join(TOP, "bench", "lio_guest.sh"), "bin/busybox": shutil.which("busybox"), **programs}
    for name, file in inside.items():
        shutil.copy(file, os.path.join(root, name))
        os.chmod(os.path.join(root, name), 0o755)
    client(root)
    for name in ("bin/busybox", "client", *programs):
        told = subprocess.run(["ldd", os.path.join(root, name)], stdout=subprocess.PIPE, stderr=subprocess.DEVNULL, text=True)
        for library in (word for word in told.stdout.split() if word.startswith("/")):
            os.makedirs(root + os.path.dirname(library), exist_ok=True)
            shutil.copy(library, root + library)
    with open(os.path.join(root, "runs"), "w") as file:
        file.writelines(f"{who} {words}\n" for _, _, who, words in runs)


# ---- the machine

def qemu(accelerator, kernel, append, *more):
    # it ends with this script, whatever ends that
    return ["setpriv", "--pdeathsig", "KILL", "qemu-system-x86_64", "-nodefaults", "-display", "none", "-no-reboot", "-cpu", "max",
            "-accel", accelerator, "-kernel", kernel, "-append", f"console=ttyS0 panic=-1 loglevel=4 {append}", *more]


def has_kvm(kernel):
    """Whether KVM boots the kernel here: where it is, it may still hang. The kernel finds no system, and so ends at once."""
    if not os.access("/dev/kvm", os.R_OK | os.W_OK):
        return False
    nothing = dict.fromkeys(("stdin", "stdout", "stderr"), subprocess.DEVNULL)
    tried = subprocess.Popen(qemu("kvm", kernel, "", "-m", "512"), **nothing)
    try:
        return tried.wait(SOON) == 0
    except subprocess.TimeoutExpired:
        # it is not waited for: what hangs in the system may not end
        tried.kill()
        return False


def lines_of(place, folder, asked, seconds):
    """Boots the machine, and gives each line that it says up to its end, with the seconds of processors that it had since the last."""
    kernel, console = os.path.join(folder, "vmlinuz"), os.path.join(place, "console")
    is_emulated = not has_kvm(kernel)
    how = "emulated: only ratios within a row mean something" if is_emulated else "run by KVM"
    print(f"The machine has {asked.processors} processors, {how}.", flush=True)
    append = f"rdinit=/init tsc=reliable mib={asked.size}"
    if "ARRAYD_DEADLINE" in os.environ:
        append += f" ARRAYD_DEADLINE={os.environ['ARRAYD_DEADLINE']}"
    words = qemu("tcg,thread=multi" if is_emulated else "kvm", kernel, append, "-initrd", os.path.join(place, "initrd"), "-smp",
                 str(asked.processors), "-m", str(768 + 4 * asked.size), "-serial", f"file:{console}", "-serial", "stdio")
    machine = subprocess.Popen(words, stdin=subprocess.DEVNULL, stdout=subprocess.PIPE, text=True, errors="replace")
    timer = threading.Timer(seconds, machine.kill)
    timer.start()
    had = 0.0
    try:
        for line in machine.stdout:
            line = line.replace("\r", "").rstrip()
            if line == "ended":
                return
            before, had = had, sum(processor_seconds(machine.pid))
            yield line, had - before
        with open(console, errors="replace") as file:
            sys.exit("\n".join([*file.read().splitlines()[-20:], "the machine did not come to its end"]))
    finally:
        timer.cancel()
        machine.kill()
        machine.wait()


# ---- the runs

def rows():
    for size, said in SIZES.items():
        for depth in (1, 32 if size < 65536 else 8):
            for sessions in (1, 4):
                yield Row(f"{said}, {depth} deep, {sessions} session{'s'[sessions == 1:]}", size, depth, sessions)


def planned(asked, names):
    """Each run: its row, its work, who serves, what the client is told. Each who goes first in every so many turns."""
    runs = []
    for row in rows():
        for work in (work for work in WORKS if asked.only in f"{work} {row.name}"):
            words = f"{work} {row.size} {row.depth} {row.sessions} {asked.seconds}"
            for turn in range(asked.runs):
                at = turn % len(names)
                runs += [(row, work, who, words) for who in names[at:] + names[:at]]
    return runs


def taken(line, processors):
    """Commands a second of a run, the microseconds of all processors that each took, and the seconds that all took."""
    rate, before, idle_before, behind, idle_behind = map(float, line.split()[1:])
    # the client rounds it
    rate, passed = max(rate, 1.0), behind - before
    busy = passed * processors - (idle_behind - idle_before)
    return rate, busy / (rate * passed) * 1e6, busy


HEAD = ["over `fileio`", "over `rd_mcp`", "processor time of `fileio`"]
HEAD_OF_BEFORE = ["before over `fileio`", "before over `rd_mcp`", "its processor time of `fileio`", "over before",
                  "processor time of before"]


def told(row, got, names):
    """The row of the table."""
    counted = {key: [run for run in runs if run[2]] or runs for key, runs in got.items()}
    medians = {key: [statistics.median(of) for of in zip(*runs)] for key, runs in counted.items()}

    def cell(which, who, of):
        return ", ".join(f"{medians[work, who][which] / medians[work, of][which]:.2f}" for work in WORKS if (work, who) in medians)

    cells = [(0, "arrayd", "fileio"), (0, "arrayd", "rd_mcp"), (1, "arrayd", "fileio")]
    if "before" in names:
        cells += [(which, "before", of) for which, _, of in cells] + [(0, "arrayd", "before"), (1, "arrayd", "before")]
    return "| " + " | ".join([row.name, *(cell(*words) for words in cells)]) + " |"


def compare(place, folder, asked, names, runs):
    """Has the machine do the runs, and prints each row when it is done."""
    head = HEAD + (HEAD_OF_BEFORE if asked.before else [])
    got, left = collections.defaultdict(list), list(runs)
    for line, had in lines_of(place, folder, asked, BOOT + len(runs) * (asked.seconds + MORE)):
        row, work, who, _ = left[0] if left else (None, None, None, None)
        if not re.fullmatch(rf"{who}( [0-9.]+){{5}}", line):
            print(line, file=sys.stderr, flush=True)
            continue
        if len(left) == len(runs):
            print("| | " + " | ".join(head) + " |\n|---" + "|---" * len(head) + "|", flush=True)
        left.pop(0)
        rate, each, busy = taken(line, asked.processors)
        is_undisturbed = had >= UNDISTURBED * busy
        got[work, who].append((rate, each, is_undisturbed))
        said = f"{rate:,.0f} a second, {each:.1f} us of processors{'' if is_undisturbed else ', disturbed'}"
        print(f"{work} {row.name}: {who} {said}", file=sys.stderr, flush=True)
        if not left or left[0][0] != row:
            print(told(row, got, names), flush=True)
            got.clear()
    if left:
        sys.exit(f"{len(left)} runs were not done")


def main():
    words = argparse.ArgumentParser(description="How fast arrayd is beside Linux' own iSCSI target, in a machine of qemu.")
    words.add_argument("folder", help="where the kernel is kept")
    words.add_argument("--seconds", type=float, default=2.0, help="how long a run is")
    words.add_argument("--runs", type=int, default=3, help="runs of each, of which the median counts")
    words.add_argument("--size", type=int, default=256, help="MiB of each unit")
    words.add_argument("--only", default="", help="only works and rows with these words")
    words.add_argument("--processors", type=int, default=3, help="of the machine")
    words.add_argument("--before", help="another arrayd, which serves too")
    asked = words.parse_args()
    programs = {"arrayd": ARRAYD, **({"before": asked.before} if asked.before else {})}
    if lacks := wanted(programs.values()):
        sys.exit(f"it wants {', '.join(lacks)}")
    names = [*programs, "fileio", "rd_mcp"]
    runs = planned(asked, names)
    os.makedirs(asked.folder, exist_ok=True)
    take_modules(asked.folder)
    with tempfile.TemporaryDirectory() as place:
        root = os.path.join(place, "root")
        settle(root, asked.folder, programs, runs)
        as_initrd(root, os.path.join(place, "initrd"))
        compare(place, asked.folder, asked, names, runs)


if __name__ == "__main__":
    main()
