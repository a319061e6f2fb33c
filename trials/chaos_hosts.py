"""Hosts of a seeded load for trials/chaos.py: a thread for each nexus of trials/reservations.py, and one who takes controllers down,
brings them up and ends sessions. Each keeps what it asked and what came as `Op`s of the units."""

import contextlib
import random
import socket
import struct
import threading
import time

from chaos_model import (ATTACH, COMPARE, DOWN, FLUSH, IN, NON_OPTIMIZED, NUMBER, OPTIMIZED, OUT, READ, READY, RESET, SET, STANDBY, STATES,
                         UNAVAILABLE, UP, WRITE, Op)
from initiator import BLOCK, CHECK_CONDITION, GOOD, Closed, Refused, Session
from reservations import (CLEAR, NEXUSES, PREEMPT, PREEMPT_AND_ABORT, REGISTER, REGISTER_AND_IGNORE, RELEASE, RESERVE, TYPES,
                          Request)
from running import TARGET, Wrong

UNITS, BLOCKS, AT_ONCE = 2, 8, 4
LOST = (Closed, Refused, OSError)
# So many seconds an answer may take; a run that stands still is told before, unless much else runs.
ANSWERED_IN = 120


def block_of(number):
    return number.to_bytes(NUMBER, "big") * (BLOCK // NUMBER)


def numbers_in(data):
    """The numbers of blocks; -1 of a block that is none of a number's."""
    found = []
    for at in range(0, len(data), BLOCK):
        number = int.from_bytes(data[at:at + NUMBER], "big")
        found.append(number if data[at:at + BLOCK] == block_of(number) else -1)
    return tuple(found)


class Load:
    """What the hosts of one run share."""

    def __init__(self, seed, array, flavour):
        self.seed, self.array, self.flavour = seed, array, flavour
        self.ops = [[] for _ in range(UNITS)]
        self.lock, self.numbers, self.sessions = threading.Lock(), 0, 0
        self.seen, self.keys = [[0] * BLOCKS for _ in range(UNITS)], []
        self.progress, self.tsihs, self.faults = 0, {}, []
        self.is_over = False

    def number(self):
        with self.lock:
            self.numbers += 1
            return self.numbers

    def session(self):
        with self.lock:
            self.sessions += 1
            return self.sessions


class Host(threading.Thread):
    """A nexus and its sessions, one after the other."""

    def __init__(self, load, place, count):
        super().__init__(daemon=True)
        self.load, self.nexus, self.count = load, NEXUSES[place], count
        self.dice = random.Random(f"{load.seed} {place}")
        self.session = self.number = None
        # one of three sends several at a time, one of four has its data fetched
        self.at_once = AT_ONCE if self.dice.random() < 0.34 else 1
        self.keys = {"ImmediateData": "No"} if self.at_once == 1 and self.dice.random() < 0.3 else {}
        self.key = 0

    # ---- sessions

    def log_in(self):
        self.number = self.load.session()
        ops = [Op(self.number, self.number, self.nexus, ATTACH, start=time.monotonic_ns()) for _ in range(UNITS)]
        for unit, op in enumerate(ops):
            self.load.ops[unit].append(op)
        old = self.session
        self.session = Session(*self.load.array.portal(self.nexus.group), TARGET, self.nexus.name, self.nexus.isid, self.keys, ANSWERED_IN)
        for op in ops:
            op.end = time.monotonic_ns()
        self.load.tsihs[self.nexus] = self.session.tsih
        if old:
            old.close()

    def leave(self):
        """Ends the session, in one of several ways, and logs in anew."""
        way = self.dice.choice(("again", "close", "logout"))
        if way == "logout":
            self.session.logout()
        else:
            # what is on its way then may be done or not
            for _ in range(self.dice.randrange(3)):
                unit, first = self.dice.randrange(UNITS), self.dice.randrange(BLOCKS)
                self.send(unit, *self.dice.choice(((WRITE, (first, (self.load.number(),))), (READ, (first, 1)), (OUT, self.request()))))
        if way == "close":
            self.session.close()
        self.log_in()

    # ---- commands

    def cdb(self, kind, given):
        """CDB, data out, bytes in."""
        if kind == READ:
            return struct.pack(">BBQIxx", 0x88, 0, given[0], given[1]), b"", given[1] * BLOCK
        if kind == WRITE:
            data = b"".join(block_of(number) for number in given[1])
            return struct.pack(">BBQIxx", 0x8A, 8 if given[1][0] % 3 == 0 else 0, given[0], len(given[1])), data, 0
        if kind == COMPARE:
            data = b"".join(block_of(number) for number in given[1] + given[2])
            return struct.pack(">BBQ3xBxx", 0x89, 8 if given[2][0] % 4 == 0 else 0, given[0], len(given[1])), data, 0
        if kind == OUT:
            data = struct.pack(">QQ4xB3x", given.key, given.new_key, given.aptpl | given.all_ports << 2)
            return struct.pack(">BBBxxIx", 0x5F, given.action, given.kind, len(data)), data, 0
        if kind == IN:
            return struct.pack(">BB5xHx", 0x5E, given, 4096), b"", 4096
        if kind == SET:
            data = bytes(4) + b"".join(struct.pack(">BxH", state, group) for group, state in given)
            return struct.pack(">BB4xIxx", 0xA4, 0x0A, len(data)), data, 0
        if kind == STATES:
            return struct.pack(">BB4xIxx", 0xA3, 0x0A, 4096), b"", 4096
        return (struct.pack(">BxQIxx", 0x91, 0, 0) if kind == FLUSH else bytes(6)), b"", 0

    @staticmethod
    def told(kind, reply):
        """Status, sense and what else is compared."""
        sense, data = reply.sense_key() if reply.status == CHECK_CONDITION else None, None
        if reply.status == GOOD and kind == READ:
            data = numbers_in(reply.data)
        elif reply.status == GOOD and kind == STATES:
            data = (reply.data[4] & 15, reply.data[16] & 15)
        elif reply.status == GOOD and kind == IN:
            data = reply.data
        elif sense == (0x0E, 0x1D, 0):
            data = reply.information()
        return reply.status, sense, data

    def send(self, unit, kind, given):
        op = Op(self.number, self.number, self.nexus, kind, given, start=time.monotonic_ns())
        self.load.ops[unit].append(op)
        if kind == RESET:
            status = self.session.manage(5, unit)
            op.end = time.monotonic_ns()
            if status:
                self.load.faults.append(f"LOGICAL UNIT RESET: {status}")
            return op, None
        return op, self.session.submit(unit, *self.cdb(kind, given))

    def take(self, unit, op, tag):
        if tag is None:
            return
        reply = self.session.wait(tag)
        op.end, op.reply = time.monotonic_ns(), self.told(op.kind, reply)
        self.load.progress += 1
        if reply.status != GOOD:
            return
        if op.kind in (READ, WRITE, COMPARE):
            numbers = op.reply[2] if op.kind == READ else op.given[-1]
            self.load.seen[unit][op.given[0]: op.given[0] + len(numbers)] = numbers
        elif op.kind == OUT and op.given.action in (REGISTER, REGISTER_AND_IGNORE):
            self.key = op.given.new_key
            self.load.keys.append(self.key)

    # ---- what is asked

    def request(self):
        dice = self.dice
        action = dice.choices((REGISTER, REGISTER_AND_IGNORE, RESERVE, RELEASE, CLEAR, PREEMPT, PREEMPT_AND_ABORT), (6, 3, 5, 5, 1, 2, 1))[0]
        others = self.load.keys[-6:] or [1]
        key = self.key if dice.random() < 0.9 else dice.choice(others)
        new = dice.choice(others)
        if action in (REGISTER, REGISTER_AND_IGNORE):
            # a key of its own each time, or none
            new = self.load.number() << 16 if dice.random() < 0.8 else 0
        return Request(action, 0, dice.choice(TYPES), key, new, dice.random() < 0.5, dice.random() < 0.2, False, 24)

    def states(self):
        one, two = self.dice.choice(((OPTIMIZED, NON_OPTIMIZED), (NON_OPTIMIZED, OPTIMIZED), (OPTIMIZED, NON_OPTIMIZED),
                                     (NON_OPTIMIZED, OPTIMIZED), (OPTIMIZED, UNAVAILABLE), (STANDBY, OPTIMIZED)))
        return ((1, one), (2, two))

    def step(self):
        """Some commands at once, or one thing alone."""
        dice, flavour = self.dice, self.load.flavour
        if dice.random() < flavour["leaves"]:
            return self.leave()
        sent = []
        for _ in range(dice.randint(1, self.at_once)):
            unit = dice.randrange(UNITS)
            kind = dice.choices((READ, WRITE, COMPARE, FLUSH, READY, OUT, IN, RESET, SET, STATES),
                                (30, 22, 12, 4, 3, flavour["out"], flavour["out"] / 3, flavour["reset"], flavour["set"], 2))[0]
            first = dice.randrange(BLOCKS)
            blocks = dice.randint(1, min(4, BLOCKS - first))
            given = {READ: lambda: (first, blocks), WRITE: lambda: (first, tuple(self.load.number() for _ in range(blocks))),
                     COMPARE: lambda: (first, tuple(self.load.seen[unit][first:first + blocks]), tuple(self.load.number() for _ in range(blocks))),
                     OUT: self.request, IN: lambda: dice.randrange(4), SET: self.states}.get(kind, lambda: None)()
            if kind == RESET:
                self.take_all(sent)
            sent.append((unit, *self.send(unit, kind, given)))
        self.take_all(sent)

    def take_all(self, sent):
        while sent:
            self.take(*sent.pop(0))

    def run(self):
        try:
            while self.count > 0 and not self.load.is_over:
                self.count -= 1
                try:
                    if self.session is None:
                        self.log_in()
                    self.step()
                except TimeoutError:
                    self.load.faults.append(f"{self.nexus}: no answer for {ANSWERED_IN} s")
                    self.forget()
                except LOST:
                    self.forget()
        except Exception as fault:  # it is told with the run
            if not self.load.is_over:
                self.load.faults.append(f"{self.nexus}: {fault!r}")
        if self.session:
            self.session.close()

    def forget(self):
        if self.session:
            self.session.close()
        self.session = None
        time.sleep(0.002)


class Operator(threading.Thread):
    """Who takes controllers down by the console, and brings them up and ends sessions by the control socket."""

    def __init__(self, load, control, count):
        super().__init__(daemon=True)
        self.load, self.control, self.count = load, control, count
        self.dice = random.Random(f"{load.seed} operator")

    def asked(self, line):
        with socket.socket(socket.AF_UNIX) as peer:
            peer.settimeout(60)
            peer.connect(self.control)
            peer.sendall(line.encode() + b"\n")
            peer.shutdown(socket.SHUT_WR)
            said = b""
            while part := peer.recv(4096):
                said += part
        # without the last line, which says how it was obeyed
        return said.decode().rpartition(". ")[0].strip()

    def move(self, kind, controller):
        """Each unit that moved has it in its history; `up` moves only those that it concerns."""
        start = time.monotonic_ns()
        ops = [Op(kind, None, None, kind, controller, start=start, is_optional=kind == UP) for unit in range(UNITS)]
        for unit, op in enumerate(ops):
            self.load.ops[unit].append(op)
        said = self.load.array.ask(f"down {controller}")[0] if kind == DOWN else self.asked(f"up {controller}")
        moved = UNITS if said == kind else int(said.split()[-1])
        for unit, op in enumerate(ops):
            if unit < moved:
                op.end = time.monotonic_ns()
            else:
                self.load.ops[unit].remove(op)

    def run(self):
        try:
            for _ in range(self.count):
                if self.load.is_over:
                    break
                time.sleep(self.dice.random() * 0.08)
                what = self.dice.choices(("down", "up", "end", "status", "sessions", "keys"), (4, 4, 3, 1, 1, 1))[0]
                if what == "end":
                    self.asked(f"end {self.dice.choice([*self.load.tsihs.values()] or [1])}")
                elif what == "status":
                    self.load.array.ask("status", UNITS)
                elif what in ("sessions", "keys"):
                    self.asked("sessions" if what == "sessions" else "keys 0")
                else:
                    self.move({"down": DOWN, "up": UP}[what], self.dice.choice((1, 2)))
                self.load.progress += 1
        except Exception as fault:  # it is told with the run
            if not self.load.is_over:
                self.load.faults.append(f"operator: {fault!r}")


class Looker(threading.Thread):
    """Who looks through the window at a port now and then."""

    def __init__(self, load, port, count):
        super().__init__(daemon=True)
        self.load, self.port, self.count = load, port, count
        self.dice = random.Random(f"{load.seed} looker")

    def asked(self, path):
        with socket.create_connection(("127.0.0.1", self.port), timeout=60) as peer:
            peer.sendall(f"GET {path} HTTP/1.1\r\nHost: 127.0.0.1:{self.port}\r\n\r\n".encode())
            said = b""
            while part := peer.recv(65536):
                said += part
        return said.split(b"\r\n")[0].decode()

    def run(self):
        try:
            for _ in range(self.count):
                if self.load.is_over:
                    break
                time.sleep(self.dice.random() * 0.08)
                path = self.dice.choice(("/metrics", "/status", "/health"))
                said = self.asked(path)
                # one for which too much time went by is ended with no answer
                if said and not said.startswith(("HTTP/1.1 200", "HTTP/1.1 503")):
                    raise Wrong(f"{path} was answered by {said!r}")
                self.load.progress += 1
        except Exception as fault:  # it is told with the run
            if not self.load.is_over:
                self.load.faults.append(f"window: {fault!r}")


def last_look(load):
    """Reads all blocks and all registrations, by both controllers, when the others are done."""
    for place in (0, 1):
        host = Host(load, place, 0)
        host.log_in()
        for unit in range(UNITS):
            for kind, given in [(READY, None)] * 3 + [(READ, (0, BLOCKS)), (STATES, None), *((IN, action) for action in range(4))]:
                host.take(unit, *host.send(unit, kind, given))
        with contextlib.suppress(*LOST):
            host.session.logout()
