"""The scripts of trials/ that try something: what each would catch, how it is run, what it wants of the machine, how long it took.
This is the only list of them: ./trials.sh runs it, and `./trials.sh --list` prints it.

A script that begins nothing by itself, as what others import, stands in HELPERS. A script in neither is told by ./trials.sh.
"""

import collections
import os
import shutil
import subprocess

# `words` are those of a whole run, `fast` those of a short one, or none where there is no short one; `seconds` and `fast_seconds`
# are what they took on four processors that had other work too, and a run that takes eight times as long has failed. `alone`:
# it wants the processors for itself.
Trial = collections.namedtuple("Trial", "name words fast wants seconds fast_seconds catches installs alone", defaults=(None, False))


# ---- what a trial may want of the machine: each says what is not there, or nothing

def commands(*names):
    def lacks():
        absent = [name for name in names if shutil.which(name) is None and not os.path.exists(f"/usr/sbin/{name}")]
        return f"the commands {', '.join(absent)}" if absent else ""
    return lacks


def root():
    return "" if os.geteuid() == 0 else "root"


def folder(variable, maker):
    """A folder that a variable of the environment names, which another command has made."""
    def lacks():
        return "" if os.path.isdir(os.environ.get(variable, "")) else f"a folder that `{maker}` made, named by {variable}"
    return lacks


def package():
    return "" if os.path.isfile(os.environ.get("ARRAYD_DEB", "")) else "a package of ./package.sh, named by ARRAYD_DEB"


def glibc():
    known = subprocess.run(["ldd", "--version"], capture_output=True, text=True, check=False) if shutil.which("ldd") else None
    return "" if known and ("GLIBC" in known.stdout or "GNU" in known.stdout) else "the GNU C library"


def qemu_iscsi():
    known = subprocess.run(["qemu-img", "--help"], capture_output=True, text=True, check=False).stdout if shutil.which("qemu-img") else ""
    return "" if "iscsi" in known.split() else "a qemu-img that speaks iSCSI (Debian: qemu-block-extra)"


HERE = os.path.dirname(os.path.abspath(__file__))
CC, RT, RUSTC, QEMU = commands("cc"), commands("rt"), commands("rustc"), commands("qemu-system-x86_64")
MACHINES = folder("TWO_MACHINES", "trials/two_machines.py build FOLDER")
LINUX = folder("LINUX_HOST", "trials/linux_host.py build FOLDER")
PACKAGED = folder("PACKAGE_MACHINE", "trials/package.py build FOLDER")
GATEWAYS = folder("CEPH_GATEWAYS", "trials/ceph_gateways.py build FOLDER")
CEPH = commands("ceph-mon", "ceph-osd", "ceph-mgr", "ceph")
UML = commands("linux.uml", "cc")
DOWNLOADS = "building its folder downloads Debian's packages; a run installs nothing here"

TRIALS = [
    Trial("first_steps", "first_steps.py", "first_steps.py", [], 1, 1, "a program that cannot be used as the README says"),
    Trial("faults", "faults.py", "faults.py", [], 1, 1, "a fault of the words with another text or status"),
    Trial("orders", "orders_cases.py", "orders_cases.py", [], 1, 1, "a checker of histories that takes a wrong one, or refuses a right one"),
    Trial("chaos", "chaos.py --unproved --found --seeds 1000", "chaos.py --unproved --found --seeds 50", [CC, RT, glibc], 1200, 60,
          "threads that wait for ever, or answers that no order of the commands gives; locks that are taken in another order"),
    Trial("chaos_as_it_is", "chaos.py --seeds 200", "chaos.py --seeds 10", [CC, glibc], 240, 15,
          "the same, but for the order of locks, of the program itself, where that is proved"),
    Trial("chaos_planted", "chaos.py --planted", None, [CC, RT, glibc], 600, 0, "a chaos that does not find what was planted"),
    Trial("broken", "broken.py", None, [CC, RT, glibc], 900, 0, "a script of these that does not find what it looks for"),
    Trial("reservations", "reservations.py", "reservations.py --requests 300", [], 10, 3,
          "a rule of SPC-4 that registrations break in an order that no table has"),
    Trial("control", "control.py", "control.py", [], 14, 14,
          "a line of the control socket that says what is not so; somebody else who may connect; a console that changed"),
    Trial("fencing", "fencing.py", "fencing.py", [], 1, 1, "a fence that lets somebody in; by libiscsi and the agents where they are installed"),
    Trial("registrations", "registrations.py", "registrations.py", [], 5, 5, "a registration file that `arrayd-reg` reads otherwise than the array"),
    Trial("service", "service.sh", "service.sh", [], 20, 20, "a console or an end that goes wrong under an init system"),
    Trial("log", "log.py", "log.py", [], 60, 60, "an event that is not told, or a line that can be forged"),
    Trial("trouble", "trouble.py", None, [], 90, 0, "a page for operators that says what is not so"),
    Trial("window", "window.py", None, [], 60, 0,
          "a counter that counts something else; a name that becomes a part of the page; a reader that holds sessions up"),
    Trial("window_page", "window_page.py", None, [commands("chromium")], 60, 0, "a page that shows other numbers, or cannot be walked by keys"),
    Trial("want", "want.py", "want.py", [], 20, 20, "want of threads (as root), memory or descriptors that takes other sessions along"),
    Trial("hostile", "hostile.py", "hostile.py --connections 200", [], 20, 5, "garbage that harms a session beside it"),
    Trial("full_disk", "full_disk.py", "full_disk.py limit", [], 60, 10, "a promised block that is lost where there is no room; most ways want root"),
    Trial("failover", "failover.py 31 60", "failover.py 8 10", [], 65, 12, "a command that is lost or done twice while its unit moves", None, True),
    Trial("load", "load.py 64 32 300", "load.py 8 8 10", [RUSTC], 320, 20, "a write that was answered and is gone behind `kill -9`", None, True),
    Trial("power", "power.py", "power.py --rounds 3", [CC], 50, 10, "a flush or a save that comes too late for a loss of power, with a deadline or without"),
    Trial("refused", "refused.py", None, [CC, glibc], 60, 0, "an allocation whose failure is not looked at"),
    Trial("standstill", "standstill.py", None, [CC], 120, 0, "a disk that stands still past the deadline and is not served again when it goes on"),
    Trial("calls", "calls.py --jobs 2", None, [CC], 300, 0, "a failure of a disk that is not told; a GOOD before its flush"),
    Trial("calls_in_place", "calls.py --in-place --jobs 2", None, [CC], 300, 0, "the same, where each flush is the device's, under its unit's lock"),
    Trial("calls_with_deadline", "calls.py --deadline --jobs 2", None, [CC], 300, 0, "the same, where each call has a deadline"),
    Trial("clients", "clients.py", None, [commands("qemu-nbd", "iscsi-ls", "iscsi-test-cu", "fio"), qemu_iscsi], 300, 0,
          "a host that reads a standard otherwise than we: libiscsi, qemu, fio"),
    Trial("linux_host", "linux_host.py run $LINUX_HOST", None, [QEMU, LINUX], 900, 0,
          "a kernel, a multipath or a cluster's command that does not get on with the array", DOWNLOADS, True),
    *(Trial(f"two_machines_{way}", f"two_machines.py {way} $TWO_MACHINES", None, [QEMU, MACHINES], 1800, 0,
            "a takeover that forgets a fence, or a block whose flush was GOOD", DOWNLOADS, True)
      for way in ("rounds", "power", "outage", "move", "wire_cut", "local_registrations")),
    Trial("two_machines_plan", "two_machines_plan.py $TWO_MACHINES", None, [root, MACHINES], 60, 0, "a cluster that plans two active machines", DOWNLOADS),
    Trial("two_machines_pacemaker", "two_machines_pacemaker.py $TWO_MACHINES", None, [QEMU, MACHINES], 1800, 0,
          "the same, as Pacemaker runs it", DOWNLOADS, True),
    Trial("ceph", "ceph.py", None, [CEPH, commands("rbd-fuse")], 1800, 0,
          "a promised block or a fence that a loss of an OSD, of the array or of a gateway takes away", None, True),
    *(Trial(f"ceph_{way}", f"ceph.py {way}", None, [CEPH, commands("rbd-fuse")], 300, 0, "a trial that does not find what is lost", None, True)
      for way in ("lying_cache", "not_blocklisted")),
    Trial("ceph_gateways", "ceph_gateways.py $CEPH_GATEWAYS", None, [root, CEPH, UML, GATEWAYS], 1800, 0,
          "a takeover between gateways that forgets a fence, or a block whose flush was GOOD", DOWNLOADS, True),
    Trial("ceph_gateways_not_blocklisted", "ceph_gateways.py not_blocklisted $CEPH_GATEWAYS", None, [root, CEPH, UML, GATEWAYS], 600, 0,
          "a trial that does not find what is lost", DOWNLOADS, True),
    Trial("package", "package.py run $PACKAGE_MACHINE $ARRAYD_DEB", None, [QEMU, PACKAGED, package], 900, 0,
          "an install, an upgrade or a removal that does not do what the README says",
          "it installs packages, in a machine of qemu; " + DOWNLOADS, True),
]

# What these import, and what stands by itself: an initiator, a port, what a guest runs.
HELPERS = """by_libiscsi cases ceph_cluster ceph_gateways_build ceph_hosts chaos_hosts chaos_model chaos_plants chaos_run every failing free_port initiator judged life linux_guest listed log_failing
    log_lines may_be package_host package_machine running sessions locks two_machines two_machines_build two_machines_disk two_machines_emulated
    two_machines_hosts orders""".split()


def lacking(trial):
    """What this machine has not of what a trial wants."""
    script = trial.words.split()[0]
    wanted = [] if os.path.exists(os.path.join(HERE, script)) else [f"trials/{script}, which is not there"]
    return ", ".join(filter(None, (*wanted, *(each() for each in trial.wants))))


def not_listed():
    """The scripts that neither list names."""
    known = {trial.words.split()[0].rsplit(".", 1)[0] for trial in TRIALS} | set(HELPERS)
    found = {name.rsplit(".", 1)[0] for name in os.listdir(HERE) if name.endswith((".py", ".sh"))}
    return sorted(found - known)
