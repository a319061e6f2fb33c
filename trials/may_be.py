"""What may be of a unit over files whose calls fail, for trials/calls.py: what each of its blocks may hold, who is registered,
which registrations a start may find, and who is to be told what."""

import struct

from initiator import CHECK_CONDITION, GOOD, RESERVATION_CONFLICT
from running import Wrong

UNITS, BLOCKS, BLOCK = 2, 160, 512
OPTIMIZED, NON_OPTIMIZED, UNAVAILABLE = 0, 1, 3
REGISTER, RESERVE, RELEASE, CLEAR, PREEMPT, REGISTER_AND_IGNORE = 0, 1, 2, 3, 4, 6


def check(*sense):
    """CHECK CONDITION with this sense: key, ASC, ASCQ."""
    return CHECK_CONDITION, sense


GOOD_REPLY, CONFLICT = (GOOD, None), (RESERVATION_CONFLICT, None)
READ_FAILED, WRITE_FAILED = check(0x03, 0x11, 0x00), check(0x03, 0x0C, 0x00)
SAVE_FAILED, OPEN_FAILED = check(0x04, 0x44, 0x00), check(0x04, 0x67, 0x0A)
BY_A_DEVICE = (READ_FAILED, WRITE_FAILED, SAVE_FAILED, OPEN_FAILED)


def told(answer):
    """A status, with its sense."""
    status, sense = answer
    names = {GOOD: "GOOD", RESERVATION_CONFLICT: "RESERVATION CONFLICT"}
    return names.get(status) or ("%02X %02X/%02X" % sense if sense else f"status {status:02X}")


class Registry:
    """Registrations and reservation of a unit (SPC-4, 5.13), by nexus."""

    def __init__(self, record=None):
        self.aptpl, keys, self.kind, self.holder = record or (False, (), 0, None)
        self.keys, self.generation = dict(keys), 0

    def lasting(self):
        """The record that is to be there after a start."""
        if not self.aptpl:
            return False, frozenset(), 0, None
        return True, frozenset(self.keys.items()), self.kind, self.holder

    def holds(self, nexus):
        return nexus in self.keys and (self.kind in (7, 8) or self.kind != 0 and self.holder == nexus)

    def allows(self, nexus, is_write):
        if self.kind == 0 or self.holds(nexus) or self.kind >= 5 and nexus in self.keys:
            return True
        return self.kind in (1, 5, 7) and not is_write

    def all_but(self, nexus, code):
        return [(other, code) for other in self.keys if other != nexus]

    def out(self, nexus, action, kind, key, new_key, aptpl):
        """What PERSISTENT RESERVE OUT is answered, and whom it tells what. Where it is GOOD this is what it has become."""
        mine = self.keys.get(nexus)
        if action in (REGISTER, REGISTER_AND_IGNORE):
            if action == REGISTER and key != (mine or 0):
                return CONFLICT, []
            return self.register(nexus, new_key, aptpl)
        if mine is None or key != mine:
            return CONFLICT, []
        act = {RESERVE: self.reserve, RELEASE: self.release, CLEAR: self.clear, PREEMPT: self.preempt}[action]
        return act(nexus, kind, new_key)

    def register(self, nexus, key, aptpl):
        self.generation += 1
        telling = []
        if key:
            self.keys[nexus] = key
        elif nexus in self.keys:
            del self.keys[nexus]
            if self.holder == nexus or self.kind in (7, 8) and not self.keys:
                telling = self.all_but(nexus, (0x2A, 0x04)) if self.kind in (5, 6) else []
                self.kind, self.holder = 0, None
        else:
            return GOOD_REPLY, []
        self.aptpl = aptpl
        return GOOD_REPLY, telling

    def reserve(self, nexus, kind, _):
        if self.kind and not (self.holds(nexus) and self.kind == kind):
            return CONFLICT, []
        if not self.kind:
            self.kind, self.holder = kind, None if kind in (7, 8) else nexus
        return GOOD_REPLY, []

    def release(self, nexus, kind, _):
        if not self.holds(nexus):
            return GOOD_REPLY, []
        if kind != self.kind:
            return check(0x05, 0x26, 0x04), []
        telling = self.all_but(nexus, (0x2A, 0x04)) if kind >= 5 else []
        self.kind, self.holder = 0, None
        return GOOD_REPLY, telling

    def clear(self, nexus, *_):
        telling = self.all_but(nexus, (0x2A, 0x03))
        self.keys, self.kind, self.holder = {}, 0, None
        self.generation += 1
        return GOOD_REPLY, telling

    def preempt(self, nexus, kind, key):
        """Of a key that is not 0."""
        is_of_holder = self.holder is not None and self.keys[self.holder] == key
        losers = [other for other in self.keys if self.keys[other] == key and not (is_of_holder and other == nexus)]
        if not is_of_holder and not losers:
            return CONFLICT, []
        for other in losers:
            del self.keys[other]
        telling = [(other, (0x2A, 0x05)) for other in losers if other != nexus]
        if is_of_holder:
            if kind != self.kind:
                telling += self.all_but(nexus, (0x2A, 0x04))
            self.kind, self.holder = kind, nexus
        elif self.kind in (7, 8) and not self.keys:
            self.kind = 0
        self.generation += 1
        return GOOD_REPLY, telling


class Unit:
    """What may be of a unit: each block holds one of some values, and a start finds one of some records."""

    def __init__(self, number):
        self.number = number
        self.blocks = [{bytes(BLOCK)} for _ in range(BLOCKS)]
        self.registry = Registry()
        self.records = {self.registry.lasting()}
        self.start()

    def start(self):
        """What a start makes of it."""
        preferred = 1 + self.number % 2
        self.states = {preferred: OPTIMIZED, 3 - preferred: NON_OPTIMIZED}
        self.attentions = {}
        self.is_disk_lost = self.is_file_lost = self.is_in_doubt = False
        # whether a flush of its disk was done behind all writes
        self.is_flushed = False
        self.entries = 0

    def owner(self):
        return next(group for group in self.states if self.states[group] == OPTIMIZED)

    def become(self, states):
        """Other access states: whether any is another then."""
        changed, self.states = states != self.states, dict(states)
        return changed

    @staticmethod
    def values(lba, data):
        """The blocks of a range, with what each gets."""
        return [(lba + n, data[n * BLOCK:(n + 1) * BLOCK]) for n in range(len(data) // BLOCK)]

    def may_become(self, lba, data):
        for at, value in self.values(lba, data):
            self.blocks[at] = self.blocks[at] | {value}

    def becomes(self, lba, data):
        for at, value in self.values(lba, data):
            self.blocks[at] = {value}

    def is_found(self, lba, data):
        """A range was read."""
        for at, value in self.values(lba, data):
            if value not in self.blocks[at]:
                may = " or ".join(repr(bytes(other[:24])) for other in self.blocks[at])
                raise Wrong(f"unit {self.number} LBA {at} is {value[:24]!r}..{value[-24:]!r}, and not {may}")
        self.becomes(lba, data)

    def differs(self, lba, data, offset):
        """A range was found to differ first at this offset."""
        at = offset // BLOCK
        self.is_found(lba, data[:at * BLOCK])
        wanted = data[at * BLOCK:(at + 1) * BLOCK]
        left = {value for value in self.blocks[lba + at] if first_difference(value, wanted) == offset % BLOCK}
        if not left:
            raise Wrong(f"unit {self.number} LBA {lba + at} does not differ first at byte {offset}")
        self.blocks[lba + at] = left


def first_difference(one, other):
    return next((at for at, pair in enumerate(zip(one, other)) if pair[0] != pair[1]), None)


def told_of(registry):
    """READ KEYS, READ RESERVATION and REPORT CAPABILITIES (SPC-4, 6.15)."""
    keys = b"".join(struct.pack(">Q", registry.keys[nexus]) for nexus in sorted(registry.keys))
    reservation = b""
    if registry.kind:
        key = registry.keys[registry.holder] if registry.holder else 0
        reservation = struct.pack(">Q5xB2x", key, registry.kind)
    head = struct.pack(">I", registry.generation)
    return (
        head + struct.pack(">I", len(keys)) + keys, head + struct.pack(">I", len(reservation)) + reservation,
        bytes.fromhex(f"0008 05 8{1 if registry.aptpl else 0} EA01 0000"),
    )
