"""Worked examples of logins and of several sessions, through both controllers of a running array, for trials/refused.py: each
command is answered as in the example, or once BUSY, and then, sent again, as in the example; a login is accepted, or once
refused by 0302 or its connection closed, and then, tried again, accepted."""

import errno
import os
import struct

from free_port import free_port
from initiator import BUSY, CHECK_CONDITION, GOOD, RESERVATION_CONFLICT, Closed, Refused, Session
from running import TARGET, Array, Wrong, made

BLOCK = 512


class Watched:
    """What an example asks of the array, and what became of the one allocation that was refused."""

    def __init__(self, array, disk, failing):
        self.array, self.disk, self.failing = array, disk, failing
        self.what = "example"

    def becomes(self, what):
        if self.what != "example":
            raise Wrong(f"{what}, though one allocation alone is refused, which came to {self.what}")
        self.what = what

    def log_in(self, name="a", group=1, isid=0, target=TARGET):
        """A session of the initiator whose name ends so, by a portal of this group."""
        name = name and f"iqn.2000-01.test:{name}"
        while True:
            try:
                return Session(*self.array.portal(group), target, name=name, isid=isid, timeout=20)
            except Refused as refused:
                if refused.status != 0x0302:
                    raise
                self.becomes("0302")
            except (Closed, ConnectionError):
                self.becomes("closed")

    def turned_away(self, status, **login):
        """A login that is refused by this status."""
        try:
            self.log_in(**login)
        except Refused as refused:
            if refused.status == status:
                return
            raise Wrong(f"{login}: refused by {refused.status:04x}, in place of {status:04x}") from None
        raise Wrong(f"{login}: accepted, in place of {status:04x}")

    def ask(self, session, cdb, out=b"", expected=0, status=GOOD, sense=None, data=b""):
        """Sends a command, and where it is BUSY once more; it is answered so."""
        cdb = bytes.fromhex(cdb)
        reply = session.command(0, cdb, out=out, expected=expected)
        if reply.status == BUSY:
            self.becomes("BUSY")
            reply = session.command(0, cdb, out=out, expected=expected)
        got = (reply.status, reply.sense_key(), reply.data)
        if got != (status, sense, data):
            raise Wrong(f"{cdb.hex()}: {got}, in place of {(status, sense, data)}")

    def powered_on(self, session):
        """The first command of a session is told of the power on; the second is GOOD."""
        self.ask(session, "00" * 6, status=CHECK_CONDITION, sense=(6, 0x29, 0))
        self.ask(session, "00" * 6)

    def told(self, session, code, qualifier):
        """The next command of a session is told of this."""
        self.ask(session, "00" * 6, status=CHECK_CONDITION, sense=(6, code, qualifier))

    def reserve(self, session, action, kind=0, key=0, new_key=0, aptpl=False, **wanted):
        values = struct.pack(">QQ4xB3x", key, new_key, aptpl)
        self.ask(session, f"5F{action:02X}{kind:02X}0000{len(values):08X}00", out=values, **wanted)


def write_10(lba, blocks=1):
    return f"2A00{lba:08X}00{blocks:04X}00"


def read_10(lba, blocks=1):
    return f"2800{lba:08X}00{blocks:04X}00"


def a_life(run):
    """A login, the power on, a write and a read, a logout."""
    session = run.log_in(isid=0x400001370000)
    run.powered_on(session)
    run.ask(session, "25" + "00" * 9, expected=8, data=bytes.fromhex("000007FF00000200"))
    run.ask(session, write_10(5), out=b"\x5a" * BLOCK)
    run.ask(session, read_10(5), expected=BLOCK, data=b"\x5a" * BLOCK)
    session.logout()


def discovery(run):
    session = run.log_in(target=None)
    told = session.text([("SendTargets", "All")])
    if told != [("TargetName", TARGET)] + [("TargetAddress", "%s:%d,%d" % (*run.array.portal(c), c)) for c in (1, 2)]:
        raise Wrong(f"{told}")
    session.logout()


def both_controllers(run):
    """A block that is written through controller 1 is read through controller 2."""
    one, two = run.log_in("a", 1), run.log_in("a", 2)
    run.powered_on(one)
    run.powered_on(two)
    run.ask(one, write_10(2047), out=b"\x11" * BLOCK)
    run.ask(two, read_10(2047), expected=BLOCK, data=b"\x11" * BLOCK)


def another_owner(run):
    """SET through controller 2; a session of controller 1 hears of it, and is then served."""
    one, two = run.log_in("a", 1), run.log_in("b", 2)
    run.powered_on(one)
    run.powered_on(two)
    run.ask(two, "A40A 00000000 00000008 0000", out=bytes.fromhex("0000000000000002"))
    report = "00000018 810F000100010001 00000001 000F000200010001 00000002"
    run.ask(two, "A30A 00000000 0000001C 0000", expected=28, data=bytes.fromhex(report))
    run.told(one, 0x2A, 0x06)
    run.ask(one, read_10(0), expected=BLOCK, data=bytes(BLOCK))


def no_other_owner(run):
    """The same while the disk has another name, so that it cannot be opened: nothing changes, and nobody hears of it."""
    one, two = run.log_in("a", 1), run.log_in("b", 2)
    run.powered_on(one)
    run.powered_on(two)
    os.rename(run.disk, run.disk + ".away")
    change = bytes.fromhex("0000000000000002")
    run.ask(two, "A40A 00000000 00000008 0000", out=change, status=CHECK_CONDITION, sense=(4, 0x67, 0x0A))
    os.rename(run.disk + ".away", run.disk)
    report = "00000018 800F000100000001 00000001 010F000200000001 00000002"
    run.ask(two, "A30A 00000000 0000001C 0000", expected=28, data=bytes.fromhex(report))
    run.ask(one, read_10(0), expected=BLOCK, data=bytes(BLOCK))


def refused_logins(run):
    """A login to another target, one without an InitiatorName, and one that is right."""
    run.turned_away(0x0203, target="iqn.2000-01.test:other")
    run.turned_away(0x0207, name=None)
    run.powered_on(run.log_in())


def fenced(run):
    """A's write collects its data while B preempts it: its end is a unit attention, its retry a conflict."""
    a, b = run.log_in("a", 1), run.log_in("b", 2)
    run.powered_on(a)
    run.powered_on(b)
    run.reserve(a, 0, new_key=0x11)
    run.reserve(a, 1, 5, 0x11)
    run.reserve(b, 0, new_key=0x22)
    data = b"\x33" * (256 * BLOCK)
    cdb = bytes.fromhex(write_10(0, 256))
    tag = a.submit(0, cdb, data)
    run.reserve(b, 4, 5, 0x22, 0x11)
    reply = a.wait(tag)
    if reply.status == BUSY:
        run.becomes("BUSY")
        reply = a.command(0, cdb, data)
    if (reply.status, reply.sense_key()) != (CHECK_CONDITION, (6, 0x2A, 5)):
        raise Wrong(f"{reply.status} {reply.sense_text()}")
    run.ask(a, write_10(0, 256), out=data, status=RESERVATION_CONFLICT)
    run.ask(b, read_10(0), expected=BLOCK, data=bytes(BLOCK))


def compare_and_write(run):
    """Two sessions compare a block with the same bytes: the second finds the first one's."""
    one, two = run.log_in("a", 1), run.log_in("b", 2)
    run.powered_on(one)
    run.powered_on(two)
    cdb = "89" + "00" * 12 + "010000"
    run.ask(one, cdb, out=bytes(BLOCK) + b"\x11" * BLOCK)
    run.ask(two, cdb, out=bytes(BLOCK) + b"\x22" * BLOCK, status=CHECK_CONDITION, sense=(0x0E, 0x1D, 0))
    run.ask(two, read_10(0), expected=BLOCK, data=b"\x11" * BLOCK)


def same_port_again(run):
    """The same name, ISID and controller again: the first session is gone, and its connection closes."""
    first = run.log_in()
    run.powered_on(first)
    second = run.log_in()
    try:
        first.test_unit_ready(0)
    except (Closed, ConnectionError):
        run.powered_on(second)
        return
    raise Wrong("the first session goes on")


def full_status(run):
    """A registers 11h and reserves type 5, which READ RESERVATION and READ FULL STATUS tell."""
    session = run.log_in(isid=0x400001370000)
    run.powered_on(session)
    run.reserve(session, 0, new_key=0x11)
    name = b"iqn.2000-01.test:a,i,0x400001370000\0"
    head = "00000001 00000040 0000000000000011 00000000 0000 00000000 0001 00000028 45000024"
    run.ask(session, "5E03" + "00" * 5 + "020000", expected=512, data=bytes.fromhex(head) + name)
    run.reserve(session, 1, 5, 0x11)
    told = "000000010000001000000000000000110000000000050000"
    run.ask(session, "5E01" + "00" * 5 + "020000", expected=512, data=bytes.fromhex(told))


def four_registrants(run):
    """A, B, C and D register 11h, 22h, 11h, 33h; A reserves type 5; B preempts 11h with type 6."""
    a, b, c, d = sessions = [run.log_in(name) for name in "abcd"]
    for session, key in zip(sessions, (0x11, 0x22, 0x11, 0x33)):
        run.powered_on(session)
        run.reserve(session, 0, new_key=key)
    run.reserve(a, 1, 5, 0x11)
    run.reserve(b, 4, 6, 0x22, 0x11)
    run.told(a, 0x2A, 0x05)
    run.told(c, 0x2A, 0x05)
    run.told(d, 0x2A, 0x04)
    run.ask(b, "00" * 6)
    keys = "000000050000001000000000000000220000000000000033"
    run.ask(b, "5E00" + "00" * 5 + "020000", expected=512, data=bytes.fromhex(keys))
    told = "000000050000001000000000000000220000000000060000"
    run.ask(b, "5E01" + "00" * 5 + "020000", expected=512, data=bytes.fromhex(told))


def a_device_that_fails(run):
    """A write that fails is told; sent again it is done."""
    session = run.log_in()
    run.powered_on(session)
    run.failing.let("pwrite", errno.ENOSPC)
    run.ask(session, write_10(10, 4), out=b"\x5a" * (4 * BLOCK), status=CHECK_CONDITION, sense=(3, 0x0C, 0))
    run.ask(session, write_10(10, 4), out=b"\x5a" * (4 * BLOCK))
    run.ask(session, read_10(9, 6), expected=6 * BLOCK, data=bytes(BLOCK) + b"\x5a" * (4 * BLOCK) + bytes(BLOCK))
    if not run.failing.is_over("pwrite"):
        raise Wrong("no write failed")


def an_unsaved_registration(run):
    """The last flush of the save fails: nobody is registered. No later flush of the file makes that good, and while it is in doubt what
    the file holds, a registration that is not to last wants a save too."""
    session = run.log_in()
    run.powered_on(session)
    run.failing.let("fdatasync", errno.EIO, behind=1)
    for key, aptpl in ((0x11, True), (0x22, True), (0x33, False)):
        run.reserve(session, 0, new_key=key, aptpl=aptpl, status=CHECK_CONDITION, sense=(4, 0x44, 0))
        run.ask(session, "5E00" + "00" * 5 + "020000", expected=512, data=bytes(8))
    if not run.failing.is_over("fdatasync"):
        raise Wrong("no flush failed")
    run.ask(session, write_10(5), out=b"\x5a" * BLOCK)


EXAMPLES = {
    "a life of a session": a_life,
    "discovery": discovery,
    "written here, read there": both_controllers,
    "SET TARGET PORT GROUPS": another_owner,
    "a SET whose open fails": no_other_owner,
    "logins that are refused": refused_logins,
    "a fenced write": fenced,
    "two COMPARE AND WRITE": compare_and_write,
    "the same port again": same_port_again,
    "READ FULL STATUS": full_status,
    "four registrants": four_registrants,
    "a device that fails": a_device_that_fails,
    "a save whose last flush fails": an_unsaved_registration,
}


def step_by_step(run):
    """A session of which each PDU comes when the one before is answered: what they are."""
    session = run.log_in()
    session.test_unit_ready(0)
    run.ask(session, "00" * 6)
    session.ping(b"ping")
    session.text([("SendTargets", TARGET)])
    run.ask(session, write_10(5), out=b"\x5a" * BLOCK)
    run.ask(session, read_10(5), expected=BLOCK, data=b"\x5a" * BLOCK)
    session.manage(5)
    session.logout()


# How many allocations come behind each of its PDUs at most: a command has the mailbox of its job, and two for a copy of its data.
STEPS = (
    ("first Login Request", 0),
    ("last Login Request", 99),
    ("TEST UNIT READY, 06 29/00", 1),
    ("TEST UNIT READY", 1),
    ("NOP-Out", 0),
    ("Text Request", 0),
    ("WRITE (10)", 3),
    ("READ (10)", 2),
    ("LOGICAL UNIT RESET", 0),
)


def serve(program, folder, environment, failing, example):
    """Starts the array on a new disk of 2048 blocks, of which calls may fail, and does what an example says; what became of a refused
    allocation."""
    disk = made(os.path.join(folder, "disk.img"), 2048)
    if os.path.exists(disk + ".reg"):
        os.remove(disk + ".reg")
    with Array([disk], free_port(), program=program, more=environment) as array:
        run = Watched(array, disk, failing)
        example(run)
        status = array.quit()
        if status != 0:
            raise Wrong(f"the array ended with status {status}")
        return run.what
