"""What one unit may answer, for trials/orders.py: the stand-in for SPC-4's reservations that trials/reservations.py has, with blocks,
access states, sessions, and a disk that hangs. It shares nothing with the array.

An `Op` is what was asked of a unit and what came back; `Unit.apply` says whether a unit in this state may answer so, and becomes
what the unit is then.
"""

from initiator import BUSY, CHECK_CONDITION, GOOD, RESERVATION_CONFLICT
from reservations import Model

OPTIMIZED, NON_OPTIMIZED, STANDBY, UNAVAILABLE = range(4)
ATTACH, READ, WRITE, COMPARE, FLUSH, READY, OUT, IN, RESET, SET, STATES, DOWN, UP, RESTART = (
    "attach", "read", "write", "compare and write", "flush", "test unit ready", "persistent reserve out", "persistent reserve in", "reset",
    "set groups", "states", "down", "up", "restart")
# What no session asks.
OF_NOBODY = (DOWN, UP, RESTART)
# Which use the medium, and which are served where a group is standby, or unavailable.
READS, WRITES = (READ,), (WRITE, COMPARE, FLUSH, SET)
IN_STANDBY, IN_UNAVAILABLE = (OUT, IN, STATES, SET), (STATES, SET)
STATES_CHANGED, CANNOT_OPEN, MISCOMPARE = (0x2A, 0x06), (4, 0x67, 0x0A), (0x0E, 0x1D, 0x00)
READ_FAILED, WRITE_FAILED = (3, 0x11, 0x00), (3, 0x0C, 0x00)
NOT_ACCESSIBLE = {STANDBY: (2, 0x04, 0x0B), UNAVAILABLE: (2, 0x04, 0x0C)}
# So many bytes of a block's number; the block is this number again and again.
NUMBER = 8


class Op:
    """What was asked: when it was sent, and when its answer had come; no `end` where none came. `lane`: who asks one after the
    other, and is answered in this order. `given` and `reply` are those of its kind:

        read (LBA, count): (status, sense, numbers)        write (LBA, numbers), compare (LBA, old numbers, new numbers), flush:
        states: (status, sense, the states of both groups)     (status, sense, offset of the difference or nothing)
        out a Request, in an action: (status, sense, bytes)    set ((group, state), ..): (status, sense, nothing)
        attach, reset, down, up a controller, restart: nothing
    """

    __slots__ = ("lane", "session", "nexus", "kind", "given", "reply", "start", "end", "is_optional")

    def __init__(self, lane, session, nexus, kind, given=None, reply=None, start=0, end=None, is_optional=False):
        self.lane, self.session, self.nexus, self.kind, self.given, self.reply = lane, session, nexus, kind, given, reply
        self.start, self.end, self.is_optional = start, end, is_optional

    def __getstate__(self):
        return tuple(getattr(self, name) for name in self.__slots__)

    def __setstate__(self, kept):
        for name, value in zip(self.__slots__, kept):
            setattr(self, name, value)

    def __repr__(self):
        came = f"{self.end}" if self.end is not None else "no answer"
        who = f"{self.nexus.name[-1]}{self.nexus.isid % 16} by {self.nexus.group} (session {self.session})" if self.nexus else self.lane
        given = [number for number in self.given if number is not None] if isinstance(self.given, tuple) else self.given
        reply = self.reply
        if reply and isinstance(reply[2], bytes):
            reply = (*reply[:2], reply[2].hex())
        return f"{self.start}..{came} {who}: {self.kind} {given if given is not None else ''} -> {reply}"


def opening_states(number):
    return (OPTIMIZED, NON_OPTIMIZED) if number % 2 == 0 else (NON_OPTIMIZED, OPTIMIZED)


class Unit(Model):
    """A unit of this number with so many blocks. `may_fail`: its disk may have hung past a deadline, and serve again when it has
    come back; where it `stays_lost`, not before a restart."""

    def __init__(self, number, blocks, may_fail=False, stays_lost=False):
        super().__init__()
        self.pending, self.serials = {}, {}
        self.number, self.blocks, self.states = number, (0,) * blocks, opening_states(number)
        self.may_fail, self.stays_lost, self.is_lost = may_fail, stays_lost, False

    def copy(self):
        other = Unit.__new__(Unit)
        other.__dict__.update(self.__dict__)
        other.keys, other.serials = dict(self.keys), dict(self.serials)
        other.pending = {nexus: list(codes) for nexus, codes in self.pending.items()}
        return other

    def identity(self):
        """What makes two units the same."""
        return (self.blocks, self.states, self.is_lost, self.kind, self.holder, self.aptpl, self.generation,
                tuple(sorted(self.keys.items())), tuple(sorted(self.serials.items())),
                tuple(sorted((nexus, tuple(codes)) for nexus, codes in self.pending.items())))

    # ---- what happens to it

    def apply(self, op):
        """Whether the unit may answer this so; then it is as it is behind that."""
        if op.kind == ATTACH:
            self.pending[op.nexus], self.serials[op.nexus] = [(0x29, 0x00)], op.session
            return True
        if op.kind in OF_NOBODY:
            return self.is_told(op)
        if self.serials.get(op.nexus) != op.session:
            return False
        if op.kind == RESET:
            self.reset(op.nexus)
            return True
        if op.reply and op.reply[0] == BUSY:
            return True
        status, sense, data = self.served(op)
        return op.reply is None or op.reply == (status, sense, data)

    def is_told(self, op):
        if op.kind == RESTART:
            self.power_cycle()
            self.pending, self.serials, self.states, self.is_lost = {}, {}, opening_states(self.number), False
            return True
        states = opening_states(self.number)
        if op.kind == DOWN:
            states = (UNAVAILABLE, OPTIMIZED) if op.given == 1 else (OPTIMIZED, UNAVAILABLE)
        if self.is_lost and states.index(OPTIMIZED) != self.states.index(OPTIMIZED):
            return False
        self.become(states, None)
        return True

    def become(self, states, sender):
        if states != self.states:
            self.states = states
            self.tell(list(self.pending), STATES_CHANGED, sender)

    def served(self, op):
        """What it answers, by the rules in their order."""
        waits = self.pending[op.nexus]
        if waits:
            return CHECK_CONDITION, (6, *waits.pop(0)), None
        state = self.states[op.nexus.group - 1]
        if state == STANDBY and op.kind not in IN_STANDBY or state == UNAVAILABLE and op.kind not in IN_UNAVAILABLE:
            return CHECK_CONDITION, NOT_ACCESSIBLE[state], None
        if op.kind in READS + WRITES and not self.may(op.nexus, op.kind in WRITES):
            return RESERVATION_CONFLICT, None, None
        if op.kind == OUT:
            end = self.request(op.nexus, op.given)
            return (end, None, None) if end in (GOOD, RESERVATION_CONFLICT) else (CHECK_CONDITION, end, None)
        if op.kind == IN:
            told = (self.read_keys, self.read_reservation, self.report_capabilities, self.read_full_status)[op.given]()
            return GOOD, None, told
        if op.kind == STATES:
            return GOOD, None, self.states
        if op.kind == SET:
            return self.set_groups(op)
        return self.on_medium(op) if op.kind != READY else (GOOD, None, None)

    def set_groups(self, op):
        asked = dict(op.given)
        states = [asked.get(group, self.states[group - 1]) for group in (1, 2)]
        for group in (1, 2):
            # the one that was the owner and is not named goes back
            if group not in asked and asked.get(3 - group) == OPTIMIZED and states[group - 1] == OPTIMIZED:
                states[group - 1] = NON_OPTIMIZED
        if states.count(OPTIMIZED) != 1:
            return CHECK_CONDITION, (5, 0x26, 0x00), None
        is_moved = states.index(OPTIMIZED) != self.states.index(OPTIMIZED)
        if is_moved and self.fails(op, (CANNOT_OPEN,)):
            return CHECK_CONDITION, CANNOT_OPEN, None
        self.become(tuple(states), op.nexus)
        return GOOD, None, None

    # ---- the medium

    def fails(self, op, senses):
        """Whether the disk fails in this: the answer that came says so, and it may."""
        told = op.reply[1] if op.reply else None
        if told in senses and self.may_fail:
            self.is_lost = self.is_lost or self.stays_lost
            return True
        return self.is_lost and op.kind != FLUSH

    def on_medium(self, op):
        if op.kind == FLUSH:
            return (CHECK_CONDITION, WRITE_FAILED, None) if self.fails(op, (WRITE_FAILED,)) else (GOOD, None, None)
        if op.kind == READ:
            if self.fails(op, (READ_FAILED,)):
                return CHECK_CONDITION, READ_FAILED, None
            first, count = op.given
            return GOOD, None, self.seen(first, op.reply[2] if op.reply else None, count)
        if op.kind == WRITE:
            return self.write(op, *op.given)
        if self.fails(op, (READ_FAILED,)):
            return CHECK_CONDITION, READ_FAILED, None
        first, old, new = op.given
        told = op.reply[2] if op.reply and op.reply[1] == MISCOMPARE else None
        for at, number in enumerate(old):
            offset = self.difference(first + at, number, told - at * 512 if told is not None and told // 512 == at else None)
            if offset is not None:
                return CHECK_CONDITION, MISCOMPARE, at * 512 + offset
        return self.write(op, first, new)

    def difference(self, at, number, told):
        """The first byte in which a block differs from that of a number. Where it may be one of several, it is that which was told."""
        ones = self.blocks[at] if isinstance(self.blocks[at], frozenset) else frozenset((self.blocks[at],))
        if told is not None:
            ones = frozenset(one for one in ones if one != number and first_difference(one, number) == told) or ones
        elif number in ones:
            ones = frozenset((number,))
        one = min(ones)
        self.blocks = (*self.blocks[:at], one if len(ones) == 1 else ones, *self.blocks[at + 1:])
        return None if one == number else first_difference(one, number)

    def seen(self, first, told, count):
        """What a read finds: where a block may be one of several, what it told, if it is one of these."""
        blocks, found = list(self.blocks), []
        for at in range(first, first + count):
            if isinstance(blocks[at], frozenset):
                one = told[at - first] if told and len(told) == count else None
                blocks[at] = one if one in blocks[at] else min(blocks[at])
            found.append(blocks[at])
        self.blocks = tuple(blocks)
        return tuple(found)

    def write(self, op, first, numbers):
        blocks, has_failed = list(self.blocks), self.fails(op, (WRITE_FAILED,))
        for at, number in enumerate(numbers, first):
            old = blocks[at] if isinstance(blocks[at], frozenset) else frozenset((blocks[at],))
            blocks[at] = old | {number} if has_failed else number
        self.blocks = tuple(blocks)
        return (CHECK_CONDITION, WRITE_FAILED, None) if has_failed else (GOOD, None, None)


def first_difference(one, other):
    """The first byte in which two blocks of these numbers differ."""
    pairs = zip(one.to_bytes(NUMBER, "big"), other.to_bytes(NUMBER, "big"))
    return next(at for at, (left, right) in enumerate(pairs) if left != right)
