"""Hosts of trials/two_machines.py: they write, flush, write with FUA, compare and write, register, reserve and fence, by
a path through each controller of whichever machine is active, and know what has to be there when it has been lost."""

import copy
import itertools
import random
import struct
import threading
import time

from initiator import BLOCK, BUSY, CHECK_CONDITION, GOOD, RESERVATION_CONFLICT, Closed, Failed, Refused, Session
from may_be import PREEMPT, REGISTER_AND_IGNORE, RESERVE, Registry
from two_machines_emulated import CONTROLLER_1, CONTROLLER_2, HOST, Wrong

TARGET = "iqn.2000-01.test:array"
# Registrations of the first two units are made with APTPL, those of the third without.
UNITS, LASTING = (0, 1, 2), (0, 1)
BLOCKS_OF_HOST = 64
REGISTRANTS_ONLY, PREEMPT_AND_ABORT = 5, 5
ISID = 0x400001370000
MISCOMPARE = (0x0E, 0x1D, 0x00)
READ_FAILED, WRITE_FAILED, SAVE_FAILED = (0x03, 0x11, 0x00), (0x03, 0x0C, 0x00), (0x04, 0x44, 0x00)
LOST = (Closed, Refused, OSError)
# A command that is not answered for so long ends with the connection: the machine is dead, and nobody may say so.
SECONDS = 900


def told(reply):
    return f"status {reply.status:02x} sense {reply.sense_text()}"


def content(host, unit, lba, count):
    """What a host writes into a block for the so-many'th time; 0 is what was there before."""
    return struct.pack(">QQQQ", host, unit, lba, count).ljust(BLOCK, b"+") if count else bytes(BLOCK)


class Registrations:
    """Who is registered at a unit, by the rules of SPC-4. Requests are sent one behind another; of the one that had no
    answer it is open whether it was done."""

    def __init__(self, is_lasting):
        self.is_lasting, self.lock = is_lasting, threading.Lock()
        self.now, self.or_else = Registry(), None
        # what the file may have though the save was answered as failed, by a later start
        self.in_file = []

    def ask(self, host, by, unit, action, kind=0, key=0, new_key=0):
        """Sends a PERSISTENT RESERVE OUT, whose answer has to be that of the rules."""
        with self.lock:
            if self.or_else:
                raise Closed("a request before this one had no answer")
            model = copy.deepcopy(self.now)
            action_of_rules = PREEMPT if action == PREEMPT_AND_ABORT else action
            wanted, _ = model.out(host.nexus(by), action_of_rules, kind, key, new_key, self.is_lasting)
            self.or_else = model
            reply = host.paths[by].reserve_out(unit, action, kind, key, new_key, self.is_lasting)
            if reply.status == BUSY:
                self.or_else = None
            if reply.sense_key() == SAVE_FAILED:
                self.in_file.append(model)
            if reply.status == BUSY or reply.sense_key() == SAVE_FAILED:
                raise Failed(reply)
            if (reply.status, reply.sense_key()) != wanted:
                raise Wrong(f"{host.name} unit {unit}: action {action}: {told(reply)}, and not {wanted}")
            self.now, self.or_else = model if wanted[0] == GOOD else self.now, None
            if wanted[0] == GOOD and self.is_lasting:
                self.in_file = []

    def key_of(self, host, by):
        """The key by which a path is registered, 0 where it is not."""
        return self.now.keys.get(host.nexus(by), 0)

    def may_be(self, has_ended):
        """What may be there after a start, or where the array has not ended."""
        known = [each for each in (self.now, self.or_else) if each]
        if has_ended:
            return [each.lasting() for each in (*known, *self.in_file)]
        return [(each.aptpl, frozenset(each.keys.items()), each.kind, each.holder) for each in known]

    def found(self, record, has_ended):
        """This is there after a start, or where the array has not ended."""
        self.in_file = [] if has_ended else self.in_file
        self.now, self.or_else = Registry((record[0], tuple(record[1]), record[2], record[3])), None


class Host:
    """A host with a session through each controller. At each unit some blocks are its own."""

    def __init__(self, number, name):
        self.number, self.name = number, f"iqn.2000-01.test:{name}"
        self.first = number * BLOCKS_OF_HOST
        self.paths = []
        self.count = itertools.count(1)
        self.random = random.Random(number)
        # by unit and block: the counts that it may have, in their order, and the last one whose write was GOOD
        self.may_be, self.last_good = {}, {}
        self.flushed = self.answered = 0
        self.fault = None

    def nexus(self, by):
        """Its initiator port, as a TransportID names it, and the relative target port."""
        return f"{self.name},i,0x{ISID + by:012x}", by + 1

    def log_in(self, base, until, address=HOST):
        """Logs in by both controllers of an array there, tried again until this time."""
        self.close()
        for by, at in enumerate((CONTROLLER_1, CONTROLLER_2)):
            while True:
                try:
                    session = Session(address, base + at, TARGET, self.name, isid=ISID + by, timeout=SECONDS)
                    for unit in UNITS:
                        session.ready(unit)
                    self.paths.append(session)
                    break
                except LOST:
                    if time.monotonic() > until:
                        raise
                    time.sleep(0.1)

    def close(self):
        for path in self.paths:
            path.close()
        self.paths = []

    # ---- blocks

    def may(self, unit, lba):
        return self.may_be.setdefault((unit, lba), [0])

    def good(self, unit, lba, blocks, count):
        for at in range(lba, lba + blocks):
            self.last_good[unit, at] = count
        self.answered += 1

    def never(self, unit, lba, blocks, count):
        """The command was refused: nothing of it is ever there."""
        for at in range(lba, lba + blocks):
            self.may(unit, at).remove(count)

    def kept(self, unit):
        """A flush was GOOD: whatever was GOOD before is there, or what was written later."""
        for (of, lba), last in self.last_good.items():
            if of == unit:
                self.may_be[of, lba] = [count for count in self.may(of, lba) if count >= last]
        self.flushed += 1
        self.answered += 1

    def write(self, path, unit, fua):
        blocks = self.random.choice((1, 2, 8))
        lba = self.first + self.random.randrange(BLOCKS_OF_HOST - blocks + 1)
        count = next(self.count)
        data = b"".join(content(self.number, unit, at, count) for at in range(lba, lba + blocks))
        for at in range(lba, lba + blocks):
            self.may(unit, at).append(count)
        try:
            path.write(unit, lba, data, fua)
        except Failed as failed:
            # a device that failed may have done it, or may still do it
            if failed.reply.status == BUSY:
                self.never(unit, lba, blocks, count)
            raise
        self.good(unit, lba, blocks, count)
        if fua:
            self.kept(unit)

    def compare_and_write(self, path, unit):
        """One that finds what it compares with, or, one time of four, one that does not."""
        lba = self.first + self.random.randrange(BLOCKS_OF_HOST)
        old, count = self.last_good.get((unit, lba), 0), next(self.count)
        is_miss = self.random.random() < 0.25
        if not is_miss:
            self.may(unit, lba).append(count)
        compared = content(self.number, unit, lba, count if is_miss else old)
        reply = path.compare_and_write(unit, lba, compared, content(self.number, unit, lba, count))
        if reply.status == BUSY:
            if not is_miss:
                self.never(unit, lba, 1, count)
            raise Failed(reply)
        found = reply.sense_key() if reply.status == CHECK_CONDITION else reply.status
        if found in (READ_FAILED, WRITE_FAILED):
            raise Failed(reply)
        if found != (MISCOMPARE if is_miss else GOOD):
            raise Wrong(f"{self.name} unit {unit} LBA {lba}: COMPARE AND WRITE: {told(reply)}")
        if is_miss:
            self.answered += 1
        else:
            self.good(unit, lba, 1, count)

    def flush(self, path, unit):
        path.flush(unit)
        self.kept(unit)

    def work(self):
        """A command by one of the paths."""
        path, unit = self.random.choice(self.paths), self.random.choice(UNITS)
        what = self.random.random()
        if what < 0.45:
            self.write(path, unit, False)
        elif what < 0.6:
            self.write(path, unit, True)
        elif what < 0.75:
            self.compare_and_write(path, unit)
        else:
            self.flush(path, unit)

    def may_write(self, path, unit):
        """Whether a write is done: it is refused where a reservation shuts this host out."""
        lba, count = self.first + self.random.randrange(BLOCKS_OF_HOST), next(self.count)
        self.may(unit, lba).append(count)
        data = content(self.number, unit, lba, count)
        reply = path.command(unit, struct.pack(">BBQIxx", 0x8A, 0, lba, 1), out=data)
        if reply.status == GOOD:
            self.good(unit, lba, 1, count)
        elif reply.status == RESERVATION_CONFLICT:
            self.never(unit, lba, 1, count)
        elif reply.sense_key() == WRITE_FAILED:
            raise Failed(reply)
        else:
            raise Wrong(f"{self.name} unit {unit}: WRITE: {told(reply)}")
        return reply.status == GOOD

    def check(self):
        """Reads its blocks: how many had one value that they could have, and those that have another one."""
        alone, wrong = 0, []
        for unit in UNITS:
            found = {by: path.read(unit, self.first, BLOCKS_OF_HOST) for by, path in enumerate(self.paths)}
            if found[0] != found[1]:
                raise Wrong(f"{self.name} unit {unit}: another content by the other controller")
            for lba in range(self.first, self.first + BLOCKS_OF_HOST):
                block = found[0][(lba - self.first) * BLOCK:][:BLOCK]
                may = self.may(unit, lba)
                count = next((count for count in may if block == content(self.number, unit, lba, count)), None)
                alone += len(may) == 1 and may != [0]
                if count is None:
                    count = struct.unpack(">QQQQ", block[:32])[3]
                    wrong.append(f"{self.name} unit {unit} LBA {lba} has write {count}, and may have {may}")
                # it is flushed behind this
                self.may_be[unit, lba], self.last_good[unit, lba] = [count], count
        return alone, wrong


def registrations_found(session, unit):
    """Who is registered, and the reservation, as READ FULL STATUS and REPORT CAPABILITIES tell it (SPC-4, 6.15): a
    record as of Registry.lasting."""
    aptpl = bool(session.reserve_in(unit, 2, 8)[3] & 1)
    data = session.reserve_in(unit, 3)
    keys, kind, holder, at = set(), 0, None, 8
    while at < 8 + int.from_bytes(data[4:8], "big"):
        key, flags, scope = int.from_bytes(data[at:at + 8], "big"), data[at + 12], data[at + 13]
        length = int.from_bytes(data[at + 20:at + 24], "big")
        group = int.from_bytes(data[at + 18:at + 20], "big")
        nexus = data[at + 28:at + 24 + length].split(b"\0")[0].decode(), group
        keys.add((nexus, key))
        if flags & 1:
            kind, holder = scope & 15, nexus
        at += 24 + length
    return aptpl, frozenset(keys), kind, holder


class Hosts:
    """Two nodes of a cluster, which work, and a third one, which they let in and fence."""

    def __init__(self):
        self.nodes = [Host(0, "node-1"), Host(1, "node-2")]
        self.fenced = Host(2, "fenced")
        self.registrations = {unit: Registrations(unit in LASTING) for unit in UNITS}
        self.keys = itertools.count(0x100)
        self.is_over, self.threads = threading.Event(), []
        # seconds behind each command, so that a slow machine has time for other things too
        self.rest = 0

    def all(self):
        return [*self.nodes, self.fenced]

    def log_in(self, base, seconds=120, address=HOST):
        until = time.monotonic() + seconds
        for host in self.all():
            host.log_in(base, until, address)

    def close(self):
        for host in self.all():
            host.close()

    # ---- registrations

    def register(self, host, by, unit, key):
        self.registrations[unit].ask(host, by, unit, REGISTER_AND_IGNORE, new_key=key)

    def begin(self):
        """Both nodes register by each path, and the first reserves: at each unit where that is not so."""
        for unit in UNITS:
            for node in self.nodes:
                for by in range(2):
                    if not self.registrations[unit].key_of(node, by):
                        self.register(node, by, unit, next(self.keys))
            if not self.registrations[unit].now.kind:
                key = self.registrations[unit].key_of(self.nodes[0], 0)
                self.registrations[unit].ask(self.nodes[0], 0, unit, RESERVE, REGISTRANTS_ONLY, key)

    def let_in(self, unit):
        key = next(self.keys)
        for by, path in enumerate(self.fenced.paths):
            # it is told first that it was fenced before
            path.ready(unit)
            self.register(self.fenced, by, unit, key)

    def fence(self, unit):
        node, registrations = self.nodes[1], self.registrations[unit]
        by = node.random.randrange(2)
        victim = registrations.key_of(self.fenced, 0)
        registrations.ask(node, by, unit, PREEMPT_AND_ABORT, REGISTRANTS_ONLY, registrations.key_of(node, by), victim)

    def is_let_in(self, unit):
        """Whether the fenced host may write: by each path."""
        may = []
        for path in self.fenced.paths:
            path.ready(unit)
            may.append(self.fenced.may_write(path, unit))
        return may

    def fence_anew(self):
        """The third host is let in at the first unit, writes, and is fenced: it stays out from then on."""
        self.let_in(0)
        if self.is_let_in(0) != [True, True]:
            raise Wrong("who is registered may not write")
        self.fence(0)
        if self.is_let_in(0) != [False, False]:
            raise Wrong("who was fenced may write")

    def register_more(self, node):
        """A registration while it works: the first node takes other keys, the second lets the third host in at the
        second unit, and fences it."""
        if node is self.nodes[0]:
            self.register(node, node.random.randrange(2), node.random.choice(LASTING), next(self.keys))
        elif self.registrations[1].key_of(self.fenced, 0):
            self.fence(1)
        else:
            self.let_in(1)

    # ---- work

    def do(self, node):
        """A command of a node. An array that is ending answers BUSY, and has done nothing."""
        try:
            if node.random.random() < 0.1:
                self.register_more(node)
            else:
                node.work()
        except Failed as failed:
            if failed.reply.status != BUSY:
                raise
            time.sleep(0.1)

    def work(self, node):
        try:
            while not self.is_over.wait(self.rest):
                self.do(node)
        except LOST as lost:
            node.fault = lost
        except Exception as fault:
            node.fault = fault
            self.is_over.set()

    def start(self):
        self.is_over.clear()
        for node in self.nodes:
            node.fault = None
        self.threads = [threading.Thread(target=self.work, args=[node], daemon=True) for node in self.nodes]
        for thread in self.threads:
            thread.start()

    def stop(self, is_lost=False):
        """They end: by themselves, since the machine was lost, or because they are told to."""
        if not is_lost:
            self.is_over.set()
        for thread in self.threads:
            thread.join()
        faults = [node.fault for node in self.nodes]
        if not all(isinstance(fault, LOST) if is_lost else fault is None for fault in faults):
            raise Wrong(f"the nodes ended so: {faults}")

    def sums(self):
        return sum(node.answered for node in self.nodes), sum(node.flushed for node in self.nodes)

    # ---- what is there

    def check(self, has_ended=True):
        """Looks at all that has to be there, behind a start or where the array has not ended: how many blocks had one
        value that they could have, and what is wrong."""
        wrong = []
        for unit in UNITS:
            found, may = registrations_found(self.nodes[0].paths[0], unit), self.registrations[unit].may_be(has_ended)
            if found not in may:
                wrong.append(f"unit {unit}: registered is {found}, and that may be {may}")
            self.registrations[unit].found(found, has_ended)
            allows = [self.registrations[unit].now.allows(self.fenced.nexus(by), True) for by in range(2)]
            is_let_in = self.is_let_in(unit)
            if is_let_in != allows:
                wrong.append(f"unit {unit}: whether the fenced host may write is {is_let_in}, and not {allows}")
            if unit == 0 and any(is_let_in):
                wrong.append("the host that was fenced writes")
        alone = 0
        for host in self.all():
            count, bad = host.check()
            alone += count
            wrong += bad
        for unit in UNITS:
            self.nodes[0].paths[0].flush(unit)
        return alone, wrong
