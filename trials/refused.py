#!/usr/bin/env python3
"""Refuses the first allocation of the proved program, then in another run the second, and so on until nothing is refused,
over worked examples of a session. Each run has to answer the example, or BUSY to one command that takes memory, where the
same command sent again is answered as in the example, with all behind it; or to end with status 1 and `arrayd: no memory`,
with nothing read and nothing written. Prints a table, and ends with status 1 where a run does anything else.

Then, with nothing refused, counts the allocations between two reads of a session: none but for a reply's data, the data of a
write that waits, and, at a desk of the array, a command's job. Then it does the first again with examples of logins and of several sessions, through both controllers
of the array: each allocation behind the first connection (trials/sessions.py).

In two of these examples a call of the device fails besides (trials/failing.py).

usage: trials/refused.py [PROGRAM]

Where no PROGRAM is given it is what ARRAYD names, or ./arrayd, which `./example.sh --proved` makes. Wants a C compiler and the GNU
C library.
"""

import argparse
import errno
import os
import struct
import subprocess
import sys
import tempfile
import time

from failing import Failing
from running import ARRAYD, TOP, Wrong, begun, ran
from sessions import EXAMPLES as OF_SESSIONS, STEPS, serve, step_by_step

READ, WRITE, IMMEDIATE = 0x40, 0x20, 0x40
GOOD, CHECK_CONDITION, BUSY, TASK_SET_FULL = 0x00, 0x02, 0x08, 0x28
NO_TAG = 0xFFFFFFFF
SEGMENT, LONGEST_DATA_IN, BURST = 65536, 8192, 262144


def sense(key, code, information=None):
    """Fixed format sense data (SPC-4, 4.5.3) of 18 bytes."""
    valid = 0x80 if information is not None else 0
    return struct.pack(">BBBI B 4x HI", 0x70 | valid, 0, key, information or 0, 10, code, 0)


class Script:
    """What comes in a session of `arrayd --once`, and what goes out (RFC 7143, 11). Where a place is given, the command at
    that place, counted from 0, is answered BUSY and then sent again."""

    def __init__(self, busy=None):
        self.busy = busy
        self.came, self.told = bytearray(), bytearray()
        self.steps = []  # what each PDU is that comes, its bytes, and how many allocations it may take: at least, at most
        self.takes_memory = {}  # by task tag: whether the command takes memory, and its place
        self.cmd_sn, self.stat_sn, self.tag, self.waiting, self.transfers = 1, 1, 0, 0, 0
        self.asked = 0

    # ---- what comes

    def comes(self, what, pdu, data=b"", least=0, most=0):
        pdu = pdu + data + bytes(-len(data) % 4)
        self.came += pdu
        self.steps.append((what, pdu, least, most))

    def command(self, cdb, flags, expected, data, opcode, least, most):
        """A SCSI Command, and the number that it takes."""
        self.tag += 1
        header = struct.pack(
            ">BBBBI8xIIII16s", opcode, flags | 0x81, 0, 0, len(data), self.tag, expected, self.cmd_sn, self.stat_sn, cdb
        )
        self.takes_memory[self.tag] = (most > 0, self.asked - 1)
        self.comes(f"SCSI Command {cdb[0]:02X}h", header, data, least, most)
        if not opcode & IMMEDIATE:
            self.cmd_sn += 1

    def is_to_be_busy(self):
        self.asked += 1
        return self.busy == self.asked - 1

    # ---- what goes out

    def window(self):
        return self.cmd_sn, self.cmd_sn + 31 - self.waiting

    def respond(self, tag, status=GOOD, told=b"", data_ins=0, left=0):
        """A SCSI Response behind so many Data-In; so many bytes of what was expected are left, or below 0 wanting."""
        flags = 0x80 | (0x02 if left > 0 else 0x04 if left < 0 else 0)
        data = struct.pack(">H", len(told)) + told if told else b""
        self.told += struct.pack(
            ">BBBBI8xI4xIIII4xI", 0x21, flags, 0, status, len(data), tag, self.stat_sn, *self.window(), data_ins, abs(left)
        )
        self.told += data + bytes(-len(data) % 4)
        self.stat_sn += 1

    def send(self, tag, data):
        """Data-In of this data in the shortest way; how many."""
        for number, at in enumerate(range(0, len(data), LONGEST_DATA_IN)):
            part = data[at : at + LONGEST_DATA_IN]
            is_last = at + len(part) == len(data)
            header = struct.pack(
                ">BBBBI8xIIIIIII4x", 0x25, is_last << 7, 0, 0, len(part), tag, NO_TAG, 0, *self.window(), number, at
            )
            self.told += header + part + bytes(-len(part) % 4)
        return -(-len(data) // LONGEST_DATA_IN)

    # ---- commands with their answers

    def ask(self, cdb, expected=0, data=b"", told=b""):
        """A command without data of its own, and what it is answered: this data, or this sense."""
        cdb = bytes.fromhex(cdb).ljust(16, b"\0")
        takes = expected > 0 and not told
        again = self.is_to_be_busy()
        for is_refused in [True, False] if again else [False]:
            self.command(cdb, READ if expected else 0, expected, b"", 0x01, takes, 16 * takes)
            if is_refused:
                self.respond(self.tag, BUSY, left=expected)
            else:
                self.respond_with(expected, data, told)

    def respond_with(self, expected, data, told):
        if told:
            self.respond(self.tag, CHECK_CONDITION, told, left=expected)
        else:
            data_ins = self.send(self.tag, data[:expected])
            self.respond(self.tag, GOOD, data_ins=data_ins, left=expected - len(data))

    def bring(self, cdb, data, expected=None, need=None, told=b""):
        """A command that brings all its data with it. It takes no memory."""
        cdb = bytes.fromhex(cdb).ljust(16, b"\0")
        expected = len(data) if expected is None else expected
        left = expected - (len(data) if need is None else need)
        again = self.is_to_be_busy()
        for is_refused in [True, False] if again else [False]:
            self.command(cdb, WRITE, expected, data, 0x01, 0, 0)
            if is_refused:
                self.respond(self.tag, BUSY, left=left)
            else:
                self.respond(self.tag, CHECK_CONDITION if told else GOOD, told, left=left)

    def begin_to_collect(self, cdb, expected, brought=b"", opcode=0x01):
        """A write that waits for data: the answer is its first R2T; the transfer tag and the place of its data."""
        cdb = bytes.fromhex(cdb).ljust(16, b"\0")
        if self.is_to_be_busy():
            self.command(cdb, WRITE, expected, brought, opcode, 1, 1)
            self.respond(self.tag, BUSY)
        self.command(cdb, WRITE, expected, brought, opcode, 1, 1)
        self.waiting += not opcode & IMMEDIATE
        return self.ready(self.tag, 0, len(brought), expected)

    def ready(self, tag, number, at, expected):
        """An R2T of a burst at this offset, or of what is left; its transfer tag and how long it is."""
        length = min(BURST, expected - at)
        transfer = self.transfers
        self.transfers += 1
        self.told += struct.pack(
            ">BBBBI8xIIIIIIII", 0x31, 0x80, 0, 0, 0, tag, transfer, self.stat_sn, *self.window(), number, at, length
        )
        return transfer, length

    def data_out(self, tag, transfer, data, at, length):
        """The Data-Out of one R2T, in segments as long as they may be."""
        for number, part in enumerate(range(at, at + length, SEGMENT)):
            end = min(part + SEGMENT, at + length)
            header = struct.pack(
                ">BBBBI8xII4xI4xII4x",
                0x05, (end == at + length) << 7, 0, 0, end - part, tag, transfer, self.stat_sn, number, part,
            )
            self.comes("Data-Out", header, data[part:end])

    def collect(self, cdb, data, brought=0):
        """A write that brings so many bytes with it and the others behind R2Ts."""
        transfer, length = self.begin_to_collect(cdb, len(data), data[:brought])
        tag, at, number = self.tag, brought, 0
        while True:
            self.data_out(tag, transfer, data, at, length)
            at, number = at + length, number + 1
            if at == len(data):
                break
            transfer, length = self.ready(tag, number, at, len(data))
        self.waiting -= 1
        self.respond(tag)

    def request(self, opcode, flags, rest, response, told, data=b"", answered=b""):
        """A request that is no command: its opcode and flags, what stands in its bytes 20 to 23, and what answers it."""
        self.tag += 1
        header = struct.pack(
            ">BBBBI8xIIII16x", opcode, flags, 0, 0, len(data), self.tag, rest, self.cmd_sn, self.stat_sn
        )
        self.comes({0x00: "NOP-Out", 0x02: "Task Management", 0x04: "Text Request", 0x06: "Logout"}[opcode], header, data)
        self.cmd_sn += 1
        header = struct.pack(
            ">BBBBI8xIIIII4xHH4x", response, 0x80, told, 0, len(answered), self.tag,
            NO_TAG if response in (0x20, 0x24) else 0, self.stat_sn, *self.window(),
            2 if response == 0x26 else 0, 0,
        )
        self.told += header + answered + bytes(-len(answered) % 4)
        self.stat_sn += 1


# ---- the worked examples

PATTERN = bytes(range(251))


def pattern(length):
    return (PATTERN * (length // len(PATTERN) + 1))[:length]


def capacity(s):
    s.ask("25", 8, bytes.fromhex("000007FF00000200"))
    s.ask("9E10" + "00" * 11 + "0A", 10, bytes.fromhex("00000000000007FF0000"))


def past_the_end(s):
    s.ask("28000000080000000000", told=sense(5, 0x2100))
    s.ask("2800000007FF00000200", 1024, told=sense(5, 0x2100))


def read_of_256_blocks(s):
    s.ask("080000000000", 131072, bytes(131072))


def compare_and_write(s):
    s.bring("2A000000000300000100", b"\x11" * 512)
    wrong = b"\x11" * 5 + b"\x12" + b"\x11" * 506
    s.bring("89000000000000000003" + "00000001", wrong + b"\x22" * 512, told=sense(0xE, 0x1D00, 5))
    s.ask("28000000000300000100", 512, b"\x11" * 512)
    s.bring("89000000000000000003" + "00000001", b"\x11" * 512 + b"\x22" * 512)
    s.ask("28000000000300000100", 512, b"\x22" * 512)
    s.ask("89000000000000000003" + "00000000")
    s.ask("89000000000000000003" + "00000021", told=sense(5, 0x2400))


def groups(s):
    s.ask("A30A000000000000001C", 28, bytes.fromhex("00000018 800F000100000001 00000001 010F000200000001 00000002"))
    s.bring("A40A0000000000000008", bytes.fromhex("0000000001000001"), told=sense(5, 0x2600))
    s.bring("A40A0000000000000008", bytes.fromhex("0000000002000002"))
    s.ask("A30A000000000000001C", 28, bytes.fromhex("00000018 800F000100000001 00000001 020F000200010001 00000002"))


def reserve(action, kind, key, changed, flags="00"):
    return f"5F{action:02X}{kind:02X}0000" + "00000018", bytes.fromhex(f"{key:016X}{changed:016X}00000000{flags}000000")


def registrations(s):
    s.ask("5E020000000000000800", 8, bytes.fromhex("00080580EA010000"))
    s.bring(*reserve(0, 0, 0, 0x11, "01"))
    s.ask("5E020000000000000800", 8, bytes.fromhex("00080581EA010000"))
    s.bring(*reserve(1, 5, 0x11, 0))
    s.ask("5E010000000000001800", 24, bytes.fromhex("00000001 00000010 0000000000000011 00000000 00050000"))
    name = b"iqn.2000-01.test:host,i,0x000000000000\0"
    name += bytes(-len(name) % 4)
    full = bytes.fromhex("0000000000000011 00000000 01 05 00000000 0001")
    full += struct.pack(">IBBH", 4 + len(name), 0x45, 0, len(name)) + name
    s.ask("5E030000000000008000", 128, struct.pack(">II", 1, len(full)) + full)
    s.ask("5E000000000000001000", 16, bytes.fromhex("00000001000000080000000000000011"))


def identity(s):
    s.ask("1200000024", 36, bytes.fromhex("000006121F301002") + b"TWINCTL ALUA DISK       0001")
    s.ask("1A003F00FF", 255, bytes.fromhex("23001000081204" + "00" * 17 + "0A0A0010" + "00" * 8))
    s.ask("1A00FF00FF", 255, told=sense(5, 0x3900))
    s.ask("A0000000000000000010", 16, bytes.fromhex("00000008") + bytes(12))


def test_unit_ready(s):
    s.ask("00")


def three_commands(s):
    s.ask("00")
    s.bring("2A000000000500000100", b"\x5a" * 512)
    s.ask("28000000000500000100", 512, b"\x5a" * 512)


def long_write(s):
    data = pattern(2048 * 512)
    s.collect("2A000000000000080000", data, 8192)
    s.ask("2800000007FF00000100", 512, data[2047 * 512 :])


def ignored_and_cut(s):
    s.ask("00")
    s.cmd_sn, told = 1, s.told[:]
    s.command(bytes(16), 0, 0, b"", 0x01, 0, 0)
    assert s.told == told
    s.ask("00")
    s.comes("47 bytes", bytes([0x01]) + bytes(46))


def residuals(s):
    s.bring("2A000000000700000100", b"\x5a" * 512, expected=1024, need=512)
    s.bring("2A000000000800000100", b"\x5a" * 256, expected=256, need=512, told=sense(5, 0x2400))
    s.ask("28000000000800000100", 512, bytes(512))


def thirty_two_writes(s):
    for place in range(32):
        s.begin_to_collect(f"2A0000000{place:03X}00000100", 512)
    last = s.cmd_sn
    s.command(bytes(16), 0, 0, b"", 0x01, 0, 0)
    s.cmd_sn = last
    s.begin_to_collect("2A000000004000000100", 512, opcode=0x41)
    s.command(bytes.fromhex("2A000000004100000100").ljust(16, b"\0"), WRITE, 512, b"", 0x41, 0, 0)
    s.respond(s.tag, TASK_SET_FULL)


def aborts(s):
    transfer, length = s.begin_to_collect("2A000000000500000100", 512)
    waits = s.tag
    s.waiting -= 1
    s.request(0x02, 0x81, waits, 0x22, 0)
    s.data_out(waits, transfer, bytes(512), 0, length)
    s.request(0x02, 0x81, waits, 0x22, 1)
    s.ask("28000000000500000100", 512, bytes(512))
    s.request(0x02, 0x81, s.tag, 0x22, 1)


def other_requests(s):
    s.request(0x00, 0x80, NO_TAG, 0x20, 0, b"ping", b"ping")
    s.request(0x04, 0x80, NO_TAG, 0x24, 0, b"X-a=1\0", b"X-a=NotUnderstood\0")
    s.ask("3500000007FF00000000")
    s.request(0x06, 0x80, 0, 0x26, 0)


EXAMPLES = {
    "TEST UNIT READY": test_unit_ready,
    "three commands": three_commands,
    "READ CAPACITY": capacity,
    "a range past the end": past_the_end,
    "READ (6) of 256 blocks": read_of_256_blocks,
    "COMPARE AND WRITE": compare_and_write,
    "target port groups": groups,
    "registrations with APTPL": registrations,
    "identity": identity,
    "WRITE (10) of 2048 blocks": long_write,
    "ignored, and a PDU cut": ignored_and_cut,
    "residuals of a write": residuals,
    "33 writes and more": thirty_two_writes,
    "ABORT TASK": aborts,
    "other requests": other_requests,
}


# ---- runs


class Refuser:
    """Runs programs with one allocation refused."""

    def __init__(self, folder):
        self.failing = Failing(folder)

    def environment(self, at, from_accept=False):
        """For a program that is to be started: the allocation with this number is refused, counted from 1; 0: none is."""
        self.failing.stop()
        self.failing.count(from_accept)
        if at > 0:
            self.failing.let("memory", errno.ENOMEM, behind=at - 1)
        return self.failing.environment

    def run(self, program, came, at):
        """Status, output and errors of a run, how many allocations it asked for, and how often it read."""
        done = ran(["--once"], bytes(came), program=program, more=self.environment(at))
        return *done, self.failing.allocations(), self.failing.reads()


def pdus(data):
    """The PDUs that these bytes spell."""
    found = []
    while len(data) >= 48:
        length = int.from_bytes(data[5:8], "big")
        end = 48 + length + -length % 4
        found.append(bytes(data[:end]))
        data = data[end:]
    return found


def busy_place(script, output):
    """The place of the command that was answered BUSY in place of the example's answer."""
    for got, wanted in zip(pdus(output), pdus(script.told)):
        if got != wanted:
            tag = int.from_bytes(got[16:20], "big")
            if got[0] == 0x21 and got[3] == BUSY and script.takes_memory.get(tag, (False,))[0]:
                return script.takes_memory[tag][1]
            raise Wrong(f"{got.hex(' ')}\nin place of\n{wanted.hex(' ')}")
    raise Wrong(f"{len(output)} bytes went out, in place of {len(script.told)}")


def judge(refuser, program, example, at):
    """What a run with this allocation refused came to, and whether it was refused at all."""
    script = Script()
    example(script)
    status, output, errors, asked, reads = refuser.run(program, script.came, at)
    if (status, output, errors) == (0, bytes(script.told), b""):
        return "example", asked >= at > 0
    if (status, output, errors, reads) == (1, b"", b"arrayd: no memory\n", 0):
        return "status 1", True
    if status != 0 or errors:
        raise Wrong(f"status {status}, {errors!r}, {len(output)} bytes went out, {reads} reads")
    again = Script(busy=busy_place(script, output))
    example(again)
    status, output, errors, _, _ = refuser.run(program, again.came, at)
    if (status, output, errors) != (0, bytes(again.told), b""):
        raise Wrong(f"allocation {at} refused: after BUSY the same command is not answered as in the example")
    return "BUSY", True


def refuse_each(refuser, program, name, example):
    """Refuses each allocation in turn; how many there are, and how many runs came to what."""
    counted = {"example": 0, "BUSY": 0, "status 1": 0}
    what, was_refused = judge(refuser, program, example, 0)
    if what != "example":
        raise Wrong(f"{name}: with ample memory it ends by {what}")
    at = 1
    while True:
        try:
            what, was_refused = judge(refuser, program, example, at)
        except Wrong as wrong:
            raise Wrong(f"{name}, allocation {at} refused: {wrong}") from None
        if not was_refused:
            return at - 1, counted
        counted[what] += 1
        at += 1


def between_reads(refuser, program, example):
    """How many allocations each PDU takes that comes, by what it is."""
    script = Script()
    example(script)
    took = {}
    with tempfile.TemporaryFile() as written:
        array = begun(["--once"], program, more=refuser.environment(0), stdin=subprocess.PIPE, stdout=written, bufsize=0)
        wait_for_reads(refuser, array, 1)
        for number, (what, pdu, least, most) in enumerate(script.steps, 1):
            array.stdin.write(pdu)
            if not wait_for_reads(refuser, array, number + 1):
                break
            taken = refuser.failing.before(number + 1) - refuser.failing.before(number)
            if not least <= taken <= most:
                raise Wrong(f"{what}: {taken} allocations between two reads")
            took.setdefault(what, set()).add(taken)
        array.stdin.close()
        status = array.wait(20)
        written.seek(0)
        if status != 0 or written.read() != bytes(script.told):
            raise Wrong("a session that was counted is not answered as in the example")
    return took


def count_in_a_session(refuser, program, folder):
    """Prints how many allocations a session takes before its first read, and behind each PDU of its life."""
    serve(program, folder, refuser.environment(0, from_accept=True), refuser.failing, step_by_step)
    reads = refuser.failing.reads()
    if reads != len(STEPS) + 1:
        raise Wrong(f"{reads} reads of a session of {len(STEPS) + 1} PDUs")
    before = [refuser.failing.before(read) for read in range(1, 1 + reads)]
    print(f"\nin a session of the array\n{'before its first read':26} {before[0]}")
    for (what, most), begun, ended in zip(STEPS, before, before[1:]):
        print(f"{what:26} {ended - begun}")
        if ended - begun > most:
            raise Wrong(f"{what}: {ended - begun} allocations between two reads of a session")


def wait_for_reads(refuser, array, reads):
    """Waits until the program has begun so many reads; not, where it has come to its end."""
    until = time.monotonic() + 10
    while refuser.failing.reads() < reads:
        if array.poll() is not None:
            return False
        if time.monotonic() > until:
            raise Wrong(f"no read {reads}")
        time.sleep(0.0002)
    return True


def refuse_each_of_sessions(refuser, program, folder, example):
    """Refuses each allocation behind the first connection; how many there are, and how many runs came to what."""
    counted = {"example": 0, "BUSY": 0, "0302": 0, "closed": 0}
    at = 0
    while True:
        try:
            what = serve(program, folder, refuser.environment(at, from_accept=True), refuser.failing, example)
        except Wrong as wrong:
            raise Wrong(f"allocation {at} refused: {wrong}") from None
        if at == 0 and what != "example":
            raise Wrong(f"with ample memory it comes to {what}")
        if at > refuser.failing.allocations():
            return at - 1, counted
        if at > 0:
            counted[what] += 1
        at += 1


def sessions_table(refuser, program, folder):
    print(f"\n{'example of sessions':34} {'allocations':>11} {'example':>8} {'BUSY':>6} {'0302':>5} {'closed':>7}")
    tried = 0
    for name, example in OF_SESSIONS.items():
        try:
            allocations, counted = refuse_each_of_sessions(refuser, program, folder, example)
        except Wrong as wrong:
            raise Wrong(f"{name}: {wrong}") from None
        tried += allocations
        print(
            f"{name:34} {allocations:11} {counted['example']:8} {counted['BUSY']:6} {counted['0302']:5} "
            f"{counted['closed']:7}",
            flush=True,
        )
    print(f"{tried} runs with an allocation refused; asked again, each went on as in the example")


# ---- all of it

def table(refuser, program):
    """Refuses each allocation of each example in turn, and prints what the runs came to."""
    print(f"{'example':26} {'allocations':>11} {'example':>8} {'BUSY':>6} {'status 1':>9}")
    tried = 0
    for name, example in EXAMPLES.items():
        allocations, counted = refuse_each(refuser, program, name, example)
        tried += allocations
        print(f"{name:26} {allocations:11} {counted['example']:8} {counted['BUSY']:6} {counted['status 1']:9}", flush=True)
    print(f"{tried} runs with an allocation refused; after each BUSY the same command was answered as in the example")


def stored(refuser, program):
    """The stored run of the program is the example that is spelled here."""
    script = Script()
    three_commands(script)
    for name, spelled in (("stdin", script.came), ("stdout", script.told)):
        with open(os.path.join(TOP, "crates", "arrayd", name), "rb") as file:
            if file.read() != bytes(spelled):
                raise Wrong(f"crates/arrayd/{name} is not the example of three commands")


def count_between_reads(refuser, program):
    """Prints how many allocations come between two reads."""
    took = {}
    for name, example in EXAMPLES.items():
        if name not in ("WRITE (10) of 2048 blocks", "ignored, and a PDU cut"):
            for what, counts in between_reads(refuser, program, example).items():
                took.setdefault(what, set()).update(counts)
    print("\nallocations between the read that brings a PDU and the next one")
    for what in sorted(took):
        print(f"{what:26} {' or '.join(str(count) for count in sorted(took[what]))}")


def main():
    words = argparse.ArgumentParser(usage=__doc__.split("usage: ")[1].splitlines()[0])
    words.add_argument("program", nargs="?", default=ARRAYD)
    words = words.parse_args()
    with tempfile.TemporaryDirectory() as folder:
        refuser = Refuser(folder)
        try:
            stored(refuser, words.program)
            table(refuser, words.program)
            count_between_reads(refuser, words.program)
            count_in_a_session(refuser, words.program, folder)
            sessions_table(refuser, words.program, folder)
        except Wrong as wrong:
            sys.exit(f"refused.py: {wrong}")


if __name__ == "__main__":
    main()
