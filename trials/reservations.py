#!/usr/bin/env python3
"""Sends a running array random requests for persistent reservations, through eight sessions of four initiator ports at both
controllers, and compares each answer with a plain model of SPC-4 (5.13, 6.15 and 6.16) that stands in this script and shares nothing
with the array. Behind each request it compares READ KEYS, READ RESERVATION, READ FULL STATUS and REPORT CAPABILITIES byte for byte,
what each session is told by unit attentions, and who may read and write. Now and then a session resets the unit, or the array is
killed and started again, and then what was to last is there and nothing else.

Prints how often each came, and ends with status 1 at the first answer that is another, with the requests that led there.

usage: trials/reservations.py [--requests N] [--seed N]     1000 requests where nothing is said
"""

import argparse
import collections
import os
import random
import signal
import struct
import sys
import tempfile

from initiator import CHECK_CONDITION, GOOD, RESERVATION_CONFLICT, Session
from running import TARGET, Array, Wrong, made

REGISTER, RESERVE, RELEASE, CLEAR, PREEMPT, PREEMPT_AND_ABORT, REGISTER_AND_IGNORE = range(7)
ACTIONS = ("REGISTER", "RESERVE", "RELEASE", "CLEAR", "PREEMPT", "PREEMPT AND ABORT", "REGISTER AND IGNORE")
WRITE_EXCLUSIVE, EXCLUSIVE_ACCESS = (1, 5, 7), (3, 6, 8)
TYPES = (1, 3, 5, 6, 7, 8)
ALL_REGISTRANTS = (7, 8)
FOR_REGISTRANTS = (5, 6, 7, 8)
POWER_ON, PREEMPTED, RELEASED, REGISTRATIONS_PREEMPTED = (0x29, 0x00), (0x2A, 0x03), (0x2A, 0x04), (0x2A, 0x05)
BAD_FIELD, BAD_LENGTH, BAD_LIST, BAD_RELEASE = (5, 0x24, 0x00), (5, 0x1A, 0x00), (5, 0x26, 0x00), (5, 0x26, 0x04)

Nexus = collections.namedtuple("Nexus", "name isid group")
Request = collections.namedtuple("Request", "action scope kind key new_key aptpl all_ports in_list length")

NEXUSES = [
    Nexus(f"iqn.2000-01.test:{name}", isid, group)
    for name, isid in (("a", 1), ("a", 2), ("b", 1), ("c", 0x400001370000))
    for group in (1, 2)
]
KEYS = (0x11, 0x22, 0x33, 0xFFFFFFFFFFFFFFFF)


# ---- the model

class Model:
    """What SPC-4 says of one logical unit, with what this array leaves open (docs/PROFILE.md)."""

    def __init__(self):
        self.keys, self.kind, self.holder, self.aptpl, self.generation = {}, 0, None, False, 0
        self.pending = {nexus: [POWER_ON] for nexus in NEXUSES}

    def power_cycle(self):
        if not self.aptpl:
            self.keys, self.kind, self.holder = {}, 0, None
        self.generation = 0
        self.pending = {nexus: [POWER_ON] for nexus in NEXUSES}

    def reset(self, sender):
        for nexus in self.pending:
            if nexus != sender:
                self.pending[nexus] = [POWER_ON]

    def tell(self, nexuses, code, sender):
        for nexus in nexuses:
            if nexus != sender and nexus in self.pending and code not in self.pending[nexus]:
                self.pending[nexus].append(code)

    def holds(self, nexus):
        if self.kind in ALL_REGISTRANTS:
            return nexus in self.keys
        return self.kind != 0 and nexus == self.holder

    def may(self, nexus, writes):
        if self.kind == 0 or self.holds(nexus):
            return True
        if self.kind in FOR_REGISTRANTS and nexus in self.keys:
            return True
        return self.kind in WRITE_EXCLUSIVE and not writes

    def release(self):
        self.kind, self.holder = 0, None

    def hold(self, nexus, kind):
        self.kind, self.holder = kind, None if kind in ALL_REGISTRANTS else nexus

    def request(self, sender, asked):
        """What a request is answered: GOOD, RESERVATION_CONFLICT, or key, code and qualifier of a sense."""
        if asked.action == RESERVE and (asked.scope != 0 or asked.kind not in TYPES):
            return BAD_FIELD
        if asked.length != 24:
            return BAD_LENGTH
        if asked.in_list:
            return BAD_LIST
        if asked.action in (REGISTER, REGISTER_AND_IGNORE):
            return self.register(sender, asked)
        if self.keys.get(sender) != asked.key:
            return RESERVATION_CONFLICT
        if asked.action == RESERVE:
            return self.reserve(sender, asked.kind)
        if asked.action == RELEASE:
            return self.end(sender, asked)
        if asked.action == CLEAR:
            return self.clear(sender)
        return self.preempt(sender, asked)

    def register(self, sender, asked):
        if asked.action == REGISTER and self.keys.get(sender, 0) != asked.key:
            return RESERVATION_CONFLICT
        ports = [sender]
        if asked.all_ports:
            ports.append(sender._replace(group=3 - sender.group))
        held_by_one = self.holder
        for nexus in ports:
            if asked.new_key:
                self.keys[nexus] = asked.new_key
                self.aptpl = asked.aptpl
            elif self.keys.pop(nexus, None) is not None:
                self.aptpl = asked.aptpl
        self.generation += 1
        if held_by_one is not None and held_by_one not in self.keys:
            if self.kind in FOR_REGISTRANTS:
                self.tell(self.keys, RELEASED, None)
            self.release()
        if self.kind in ALL_REGISTRANTS and not self.keys:
            self.release()
        return GOOD

    def reserve(self, sender, kind):
        if self.kind == 0:
            self.hold(sender, kind)
            return GOOD
        return GOOD if self.holds(sender) and self.kind == kind else RESERVATION_CONFLICT

    def end(self, sender, asked):
        if not self.holds(sender):
            return GOOD
        if asked.scope != 0 or asked.kind != self.kind:
            return BAD_RELEASE
        if self.kind in FOR_REGISTRANTS:
            self.tell(self.keys, RELEASED, sender)
        self.release()
        return GOOD

    def clear(self, sender):
        self.tell(self.keys, PREEMPTED, sender)
        self.keys = {}
        self.release()
        self.generation += 1
        return GOOD

    def preempt(self, sender, asked):
        is_of_all = self.kind in ALL_REGISTRANTS
        takes = asked.new_key == 0 if is_of_all else self.kind != 0 and self.keys[self.holder] == asked.new_key
        if takes:
            if asked.scope != 0 or asked.kind not in TYPES:
                return BAD_FIELD
            losers = [n for n, key in self.keys.items() if n != sender and (is_of_all or key == asked.new_key)]
        elif asked.new_key == 0:
            return BAD_LIST
        else:
            losers = [nexus for nexus, key in self.keys.items() if key == asked.new_key]
            if not losers:
                return RESERVATION_CONFLICT
        for nexus in losers:
            del self.keys[nexus]
        self.tell(losers, REGISTRATIONS_PREEMPTED, sender)
        if takes:
            if self.kind != asked.kind:
                self.tell(self.keys, RELEASED, sender)
            self.hold(sender, asked.kind)
        elif is_of_all and not self.keys:
            self.release()
        self.generation += 1
        return GOOD

    # ---- what PERSISTENT RESERVE IN tells of it

    def in_order(self):
        return sorted(self.keys, key=lambda n: (n.name.encode(), n.isid, n.group))

    def read_keys(self):
        keys = b"".join(struct.pack(">Q", self.keys[nexus]) for nexus in self.in_order())
        return struct.pack(">II", self.generation, len(keys)) + keys

    def read_reservation(self):
        if self.kind == 0:
            return struct.pack(">II", self.generation, 0)
        key = 0 if self.holder is None else self.keys[self.holder]
        return struct.pack(">IIQ4xxB2x", self.generation, 16, key, self.kind)

    def read_full_status(self):
        told = b""
        for nexus in self.in_order():
            name = f"{nexus.name},i,0x{nexus.isid:012x}".encode() + b"\0"
            name += bytes(-len(name) % 4)
            holds = self.holds(nexus)
            told += struct.pack(">Q4xBB4xHI", self.keys[nexus], holds, self.kind if holds else 0, nexus.group, 4 + len(name))
            told += struct.pack(">BBH", 0x45, 0, len(name)) + name
        return struct.pack(">II", self.generation, len(told)) + told

    def report_capabilities(self):
        return bytes((0, 8, 5, 0x80 | self.aptpl, 0xEA, 1, 0, 0))


# ---- a run

class Run:
    def __init__(self, folder, seed):
        self.disk, self.dice, self.model = made(os.path.join(folder, "disk"), 64), random.Random(seed), Model()
        self.counted, self.steps = collections.Counter(), []
        self.start()

    def start(self):
        self.array = Array([self.disk])
        self.sessions = {}
        for nexus in NEXUSES:
            self.sessions[nexus] = Session(*self.array.portal(nexus.group), TARGET, name=nexus.name, isid=nexus.isid)

    def end(self):
        for session in self.sessions.values():
            session.close()
        self.array.kill()

    def compare(self, what, found, wanted):
        if found != wanted:
            steps = "\n".join(f"  {step}" for step in self.steps[-12:])
            raise Wrong(f"{what}: {found}, in place of {wanted}, behind\n{steps}")

    def ask(self, nexus, cdb, out=b"", expected=0):
        """What a command is answered once the session was told all that waits: status, sense and data."""
        session = self.sessions[nexus]
        while True:
            reply = session.command(0, cdb, out, expected)
            found = (reply.status, reply.sense_key())
            if not self.model.pending[nexus]:
                return found, reply.data
            code = self.model.pending[nexus].pop(0)
            self.counted["unit attention"] += 1
            self.compare(f"what {nexus} is told", found, (CHECK_CONDITION, (6, *code)))

    # ---- the steps

    def a_request(self):
        dice, model = self.dice, self.model
        # so that not most requests are refused, the sender often holds the reservation or is registered, the key is mostly its own,
        # and one who is preempted is mostly there
        own = sorted(set(model.keys.values()))
        holders = [nexus for nexus in model.keys if model.holds(nexus)]
        sender = dice.choice((*dice.choice((holders, list(model.keys))), dice.choice(NEXUSES)))
        action = dice.choices(range(7), (8, 6, 3, 1, 3, 2, 3))[0]
        key = model.keys.get(sender, 0) if dice.random() < 0.85 else dice.choice((0, *KEYS))
        new_key = dice.choice((0, *KEYS))
        if action in (PREEMPT, PREEMPT_AND_ABORT) and dice.random() < 0.8:
            # half of these preempt who holds the reservation
            new_key = dice.choice((model.keys.get(model.holder, 0), dice.choice((0, *own))))
        kind = dice.choice(TYPES) if dice.random() < 0.9 else dice.choice((0, 2, 4, 9, 15))
        if action == RELEASE and dice.random() < 0.7:
            kind = model.kind
        scope = 0 if dice.random() < 0.95 else dice.choice((1, 15))
        length = 24 if dice.random() < 0.97 else dice.choice((23, 25))
        aptpl, all_ports, in_list = dice.random() < 0.5, dice.random() < 0.25, dice.random() < 0.03
        self.send(sender, Request(action, scope, kind, key, new_key, aptpl, all_ports, in_list, length))

    def send(self, sender, asked):
        self.steps.append(f"{sender}: {asked}")
        flags = asked.aptpl | asked.all_ports << 2 | asked.in_list << 3
        values = struct.pack(">QQ4xB4x", asked.key, asked.new_key, flags)[: asked.length]
        cdb = struct.pack(">BBBxxIx", 0x5F, asked.action, asked.scope << 4 | asked.kind, asked.length)
        # what waits is told before the request is done
        found, data = self.ask(sender, cdb, out=values)
        end = self.model.request(sender, asked)
        wanted = (end, None) if end in (GOOD, RESERVATION_CONFLICT) else (CHECK_CONDITION, end)
        self.compare(ACTIONS[asked.action], (found, data), (wanted, b""))
        ends = {GOOD: "GOOD", RESERVATION_CONFLICT: "conflict"}
        self.counted[f"{ACTIONS[asked.action]}, {ends.get(end, 'CHECK CONDITION')}"] += 1
        self.look(sender)

    def look(self, nexus):
        model = self.model
        for action, wanted in enumerate(
            (model.read_keys(), model.read_reservation(), model.report_capabilities(), model.read_full_status())
        ):
            found, data = self.ask(nexus, struct.pack(">BB5xHx", 0x5E, action, 4096), expected=4096)
            self.compare(f"PERSISTENT RESERVE IN {action}", (found, data.hex(" ")), ((GOOD, None), wanted.hex(" ")))

    def use(self):
        """A session reads or writes."""
        nexus, writes = self.dice.choice(NEXUSES), self.dice.random() < 0.5
        # a block of 512 bytes by READ (10) or WRITE (10)
        if writes:
            found, _ = self.ask(nexus, bytes.fromhex("2A000000000500000100"), out=b"\x5a" * 512)
        else:
            found, _ = self.ask(nexus, bytes.fromhex("28000000000500000100"), expected=512)
        may = self.model.may(nexus, writes)
        self.compare(f"{'write' if writes else 'read'} by {nexus}", found, ((GOOD if may else RESERVATION_CONFLICT), None))
        self.counted[f"{'write' if writes else 'read'}, {'GOOD' if may else 'conflict'}"] += 1

    def reset(self):
        sender = self.dice.choice(NEXUSES)
        self.steps.append(f"{sender}: LOGICAL UNIT RESET")
        self.compare("LOGICAL UNIT RESET", self.sessions[sender].manage(5), 0)
        self.model.reset(sender)
        self.counted["LOGICAL UNIT RESET"] += 1

    def lose_power(self):
        self.steps.append("kill -9")
        self.array.process.send_signal(signal.SIGKILL)
        self.end()
        self.model.power_cycle()
        self.start()
        self.counted["kill -9, with registrations" if self.model.keys else "kill -9, without"] += 1
        self.look(self.dice.choice(NEXUSES))

    def step(self):
        self.a_request()
        for _ in range(2):
            self.use()
        if self.dice.random() < 0.02:
            self.reset()
        if self.dice.random() < 0.03:
            self.lose_power()


def named(run):
    """Cases that random requests come to seldom: who is not registered leaves APTPL, and who ends a registration sets it; with the
    last of all registrants their reservation ends."""
    one, two = NEXUSES[0], NEXUSES[2]
    plain = Request(REGISTER, 0, 0, 0, 0x11, True, False, False, 24)
    run.send(one, plain)
    run.send(two, plain._replace(new_key=0, aptpl=False))
    run.compare("APTPL behind a REGISTER of key 0 by who is not registered", run.model.aptpl, True)
    run.send(two, plain._replace(new_key=0x22))
    run.send(two, plain._replace(key=0x22, new_key=0, aptpl=False))
    run.compare("APTPL behind the end of a registration", run.model.aptpl, False)
    run.send(one, plain._replace(action=RESERVE, kind=7, key=0x11))
    run.send(one, plain._replace(key=0x11, new_key=0))
    run.compare("the reservation behind the last of all registrants", run.model.kind, 0)


def main():
    words = argparse.ArgumentParser(usage=__doc__.split("usage: ")[1].splitlines()[0])
    words.add_argument("--requests", type=int, default=1000)
    words.add_argument("--seed", type=int, default=1)
    words = words.parse_args()
    with tempfile.TemporaryDirectory() as folder:
        run = Run(folder, words.seed)
        try:
            named(run)
            for _ in range(words.requests):
                run.step()
        except Wrong as wrong:
            sys.exit(f"reservations.py: seed {words.seed}: {wrong}")
        finally:
            run.end()
    for what, count in sorted(run.counted.items()):
        print(f"{what:36} {count:6}")
    print(f"{words.requests} requests, and each answer is that of the model")


if __name__ == "__main__":
    main()
