"""Cases that a script tries one after the other, each in a folder of its own: what they compare, what they ask as a host of the
array at `running.PORT`, and what some want of the machine.

    CASES = Cases()

    @CASES.case
    def disk_busy(folder):
        is_so("a second one", ended([disk]), (1, "arrayd: cannot use unit 0"))

    CASES.main(__doc__)     tries all, or those that the command line names, and prints a line for each
"""

import contextlib
import os
import subprocess
import sys
import tempfile
import time

from initiator import CHECK_CONDITION, Closed, Failed, Refused, Session
from running import APART, HOST, PORT, TARGET, Wrong, made

ISID = 0x400001370000
FAULTS = (Wrong, Closed, Failed, Refused, OSError, KeyError, IndexError, AssertionError, subprocess.SubprocessError)


class NotHere(Exception):
    """It cannot be tried on this machine."""


class Cases(list):
    """The cases of a script, in their order."""

    def case(self, function):
        self.append(function)
        return function

    def named(self, names, usage):
        """Those that are named, or all."""
        if not set(names) <= {function.__name__ for function in self}:
            sys.exit(usage)
        return [function for function in self if not names or function.__name__ in names]

    def main(self, usage):
        all_well = all([is_well(function) for function in self.named(sys.argv[1:], usage)])
        sys.exit(0 if all_well else 1)


def is_well(function):
    """Tries a case, and prints what came of it."""
    said, well = "ok   ", True
    with tempfile.TemporaryDirectory() as folder:
        try:
            function(folder)
            why = ""
        except NotHere as fault:
            said, why = "left ", f": {fault}"
        except FAULTS as fault:
            said, why, well = "WRONG", f": {fault!r}", False
    print(f"{said} {function.__name__}{why}", flush=True)
    return well


# ---- what is compared

def is_so(what, found, wanted):
    if found != wanted:
        raise Wrong(f"{what}: {found!r}, and not {wanted!r}")


def until(is_there, seconds=5):
    """Whether it is so, within this time."""
    end = time.monotonic() + seconds
    while not is_there():
        if time.monotonic() > end:
            return False
        time.sleep(0.01)
    return True


def lines(log, event):
    """The lines of the log that tell of this event."""
    with open(log, encoding="utf-8") as file:
        return [line.strip() for line in file if f" event={event} " in line]


# ---- a host

def login(controller=1, number=0, name="iqn.2000-01.test:host", target=TARGET, timeout=20):
    session = Session(HOST, PORT + APART * (controller - 1), target, name, ISID + number, timeout=timeout)
    session.ready(0)
    return session


def refusal(**how):
    """The status by which a login is refused."""
    try:
        login(**how)
    except Refused as refused:
        return refused.status
    raise Wrong(f"a login with {how} is accepted")


def fill():
    """As many sessions as there may be, behind which there is no room for another."""
    sessions = [login(1 + number % 2, number) for number in range(64)]
    is_so("a 65th session", refusal(number=64), 0x302)
    return sessions


def end_of(reply):
    """How a command ended: its status, or its sense where that is CHECK CONDITION."""
    return reply.status if reply.status != CHECK_CONDITION else "%02X %02X/%02X" % reply.sense_key()


def write(session, lba=0, text=b"new", unit=0):
    return end_of(session.command(unit, [0x2A, 0, *lba.to_bytes(4, "big"), 0, 0, 1, 0], out=text.ljust(512, b".")))


def read(session, lba=0, blocks=1, unit=0):
    return end_of(session.command(unit, [0x28, 0, *lba.to_bytes(4, "big"), 0, *blocks.to_bytes(2, "big"), 0],
                                  expected=512 * blocks))


def flush(session):
    return end_of(session.command(0, [0x35] + [0] * 9))


# ---- the machine

def root():
    if os.geteuid() != 0:
        raise NotHere("it wants root")


def run(*words):
    return subprocess.run(words, check=True, stdout=subprocess.PIPE, stderr=subprocess.PIPE, text=True).stdout.strip()


class Mounted:
    """A file system of its own, with a disk in it."""

    def __init__(self, folder):
        root()
        self.undo = []
        self.folder, self.place = folder, folder + "/place"
        os.mkdir(self.place)

    def mount(self, *words):
        run("mount", *words, self.place)
        self.undo.append(("umount", self.place))

    def loop(self, file):
        try:
            device = run("losetup", "--find", "--show", file)
        except subprocess.CalledProcessError as error:
            raise NotHere("it wants a loop device") from error
        self.undo.append(("losetup", "-d", device))
        return device

    def that_hangs(self):
        """Two disks: one in a file system that can be frozen, one beside it."""
        image = made(self.folder + "/image", 32768)
        run("mkfs.ext4", "-q", "-F", image)
        self.mount(self.loop(image))
        return [made(self.place + "/disk", 2048), made(self.folder + "/other", 16)]

    @contextlib.contextmanager
    def frozen(self):
        """Meanwhile calls on the file system do not come back."""
        run("fsfreeze", "-f", self.place)
        try:
            yield
        finally:
            run("fsfreeze", "-u", self.place)

    def that_gets_full(self):
        """A disk that has fewer blocks than it says: writes are taken, and a flush fails."""
        self.mount("-t", "tmpfs", "-o", "size=256k", "none")
        os.symlink(self.loop(made(self.place + "/file", 4096)), self.folder + "/unit0")
        return self.folder + "/unit0"

    def __enter__(self):
        return self

    def __exit__(self, *_):
        for words in reversed(self.undo):
            run(*words)
