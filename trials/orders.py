"""Whether what a unit's hosts saw is what one after the other would have given: looks for an order of all that was asked of the unit,
in which each answer is the model's (trials/chaos_model.py), and in which what had ended before another thing was sent comes before it
(Herlihy and Wing, linearizability). The search is that of Wing and Gong, with the sets of Lowe: what was placed, and the state that
came of it, are looked at once.

    order_of(ops, unit)     an `Order`: is_found, or what was placed at most, and what could have come next

Five things keep it short. Who asks one after the other is answered in this order (docs/PROFILE.md), so only the next of each lane is
looked at. And what may come next, and would be answered so and change the same at any time until it has to come, comes at once: an
order with it later is one with it here too. And each number is written once, and each key registered once: what somebody has still to
find in a block is not overwritten, and neither its write nor the registration of a key that is found is left behind. And a session is
told what waits for it before all else: so its next answers say which attentions may wait, and something that has not come yet has to
raise the others. And what tells of registrations tells how many requests came before it.
What was not answered may have been done, or not.
"""

import collections
import random

from chaos_model import (ATTACH, COMPARE, DOWN, FLUSH, IN, MISCOMPARE, OF_NOBODY, OUT, READ, READY, RESET, RESTART, SET, STATES,
                         STATES_CHANGED, UP, WRITE)
from initiator import BUSY, CHECK_CONDITION, GOOD, RESERVATION_CONFLICT
from reservations import CLEAR, POWER_ON, PREEMPT, PREEMPT_AND_ABORT, REGISTER, REGISTER_AND_IGNORE

# How a history is searched: with which choices first (0: by when they ended), and with how many states at most. An unlucky choice early
# on may cost them all, so the search begins anew some times. A history that no search decides is told as one that was not decided.
FEW, MOST = 2_000, 30_000
SEARCHES = ((0, FEW), (1, FEW), (2, FEW), (0, MOST), *((seed, MOST) for seed in range(3, 6)))

# What raises which unit attention; all others are raised by registrations. And what else may change what waits for a session.
RAISES = {STATES_CHANGED: (DOWN, UP, SET), POWER_ON: (RESET,)}
CHANGES_WAITING = (ATTACH, DOWN, OUT, RESET, SET, UP)
# Which requests count.
COUNTS = (REGISTER, REGISTER_AND_IGNORE, CLEAR, PREEMPT, PREEMPT_AND_ABORT)

# An answer of a lane: its place there, the attention that it tells, if it is one, and when it came.
Told = collections.namedtuple("Told", "place code end")
Order = collections.namedtuple("Order", "is_found is_decided placed left states unit")


def leaves_all(op):
    """Whether the answer alone says that it changed nothing. A read may: it settles what a block is that might have been two things."""
    if op.reply is None:
        return False
    status, sense, _ = op.reply
    if status == CHECK_CONDITION:
        return sense[0] in (2, 5, 0x0E)
    return status in (BUSY, RESERVATION_CONFLICT) or op.kind in (READ, READY, IN, STATES, FLUSH)


def may_be_seen(op, found):
    """Whether others may see that this was done, though it was not answered: a write where one of its numbers was found, or where
    somebody found a difference; a login is seen by nobody, who has no answer to it."""
    if op.kind in (WRITE, COMPARE):
        blocks = range(op.given[0], op.given[0] + len(op.given[-1]))
        return any(number in found for number in op.given[-1]) or any(("in", block) in found for block in blocks)
    return op.kind in (OUT, SET, RESET, DOWN, UP)


def lanes_of(ops):
    """Who asks one after the other. At the end of a lane what was not answered is left out, where nobody can see whether it was done."""
    lanes = collections.defaultdict(list)
    for op in sorted(ops, key=lambda one: one.start):
        lanes[op.lane].append(op)
    found = numbers_found(ops) | {("in", op.given[0] + op.reply[2] // 512) for op in ops if op.reply and op.reply[1] == MISCOMPARE}
    for lane in lanes.values():
        while lane and lane[-1].end is None and not may_be_seen(lane[-1], found):
            lane.pop()
    return [lanes[lane] for lane in sorted(lanes, key=str)]


def told_in(lane):
    """The answers of a lane, in their order; none that is behind something that was not answered."""
    found = []
    for place, op in enumerate(lane):
        if op.end is None:
            break
        if op.reply and op.reply[0] != BUSY:
            sense = op.reply[1]
            found.append(Told(place, sense[1:] if sense and sense[0] == 6 else None, op.end))
    return found


def may_be(block):
    """The numbers that a block may be."""
    return block if isinstance(block, frozenset) else {block}


def found_by(op):
    """Block and number of what an answer says was there."""
    if op.reply and op.reply[0] == GOOD and op.kind in (READ, COMPARE):
        first, numbers = op.given[0], op.reply[2] if op.kind == READ else op.given[1]
        return list(enumerate(numbers, first))
    return []


def keys_in(action, data):
    """The keys that an answer to READ KEYS, READ RESERVATION or READ FULL STATUS tells."""
    if action == 2 or len(data) < 16:
        return
    at = 8
    while at + 8 <= len(data):
        yield int.from_bytes(data[at:at + 8], "big")
        at += 8 if action == 0 else 24 + int.from_bytes(data[at + 20:at + 24], "big") if action == 3 else len(data)


def numbers_found(ops):
    """The numbers of blocks that were found, and the keys."""
    numbers = {number for op in ops for _, number in found_by(op)}
    return numbers | {("key", key) for op in ops if op.kind == IN and op.reply and op.reply[2] for key in keys_in(op.given, op.reply[2])}


class Search:
    def __init__(self, ops, unit, dice, most):
        self.dice, self.most = dice, most
        # what would be tried first by when it ended is tried up to so much later
        self.spread = max((op.end - op.start for op in ops if op.end is not None), default=0)
        self.lanes, self.found = lanes_of(ops), numbers_found(ops)
        # who found this number in this block: their lane and their place in it
        self.finders = collections.defaultdict(list)
        for lane, ops_ in enumerate(self.lanes):
            for place, op in enumerate(ops_):
                for found in found_by(op):
                    self.finders[found].append((lane, place))
        self.told_in = [told_in(lane) for lane in self.lanes]
        self.raisers = collections.defaultdict(list)
        for lane, ops_ in enumerate(self.lanes):
            for place, op in enumerate(ops_):
                self.raisers[op.kind].append((op.start, lane, place))
        # requests that count, or may; and how many each answer says there were
        self.requests, self.counted = [], []
        for lane, ops_ in enumerate(self.lanes):
            for place, op in enumerate(ops_):
                if op.kind == OUT and op.given.action in COUNTS and (op.end is None or op.reply[0] == GOOD):
                    self.requests.append((lane, place, op))
                elif op.kind == IN and op.given != 2 and op.reply and op.reply[0] == GOOD:
                    self.counted.append((lane, place, op, int.from_bytes(op.reply[2][:4], "big")))
        self.met, self.best, self.states = set(), (-1, (), (), unit), 0

    def heads(self, at):
        """The lanes whose next may come now: nothing that is not placed had ended before it was sent."""
        nexts = [(lane, self.lanes[lane][place]) for lane, place in enumerate(at) if place < len(self.lanes[lane])]
        first = min((op.end for _, op in nexts if op.end is not None), default=None)
        found = [(lane, op) for lane, op in nexts if first is None or op.start <= first]
        # first what ended first, what was not answered last
        later = (lambda: self.dice.random() * self.spread) if self.dice else lambda: 0
        return sorted(found, key=lambda pair: (pair[1].end is None, (pair[1].end or pair[1].start) + later()))

    @staticmethod
    def moved(at, lane):
        return at[:lane] + (at[lane] + 1,) + at[lane + 1:]

    def at_once(self, at, unit):
        """The first that may come now, and as well now as later, with the unit behind it."""
        for lane, op in self.heads(at):
            if leaves_all(op):
                then = unit.copy()
                if then.apply(op) and then.blocks == unit.blocks:
                    return lane, op, unit
            elif self.waits_for_nothing(at, op, unit):
                then = unit.copy()
                if then.apply(op):
                    return lane, op, then
        return None

    def waits_for_nothing(self, at, op, unit):
        """Whether this changes nothing but what waits for its session, and nothing can come before its end that raises what it takes
        away; of a login, that raises anything for it, or is its session's forerunner's."""
        if op.end is None:
            return False
        if op.reply and op.reply[1] and op.reply[1][0] == 6:
            return not self.may_come(at, RAISES.get(op.reply[1][1:], (OUT,)), op.end)
        if op.kind != ATTACH or self.may_come(at, (DOWN, RESET, RESTART, SET, UP), op.end):
            return False
        if any(place < len(lane) and lane[0].nexus == op.nexus and lane[0].session < op.session for lane, place in zip(self.lanes, at)):
            return False
        # registrations raise something for those that are registered, and some are made for a sibling too
        outs = [self.lanes[lane][place] for start, lane, place in self.raisers[OUT] if place >= at[lane] and start <= op.end]
        return not outs or (op.nexus not in unit.keys and not any(out.given.all_ports for out in outs))

    def overwrites(self, at, unit, then):
        """Whether what somebody has still to find is gone then. Each number is written once, so it does not come back."""
        return then.blocks != unit.blocks and any(
            place >= at[lane] for block, (old, new) in enumerate(zip(unit.blocks, then.blocks)) if old != new
            for number in may_be(old) - may_be(new) for lane, place in self.finders.get((block, number), ()))

    def must_be(self, op):
        """Whether this was done, answered or not."""
        if op.end is not None:
            return not op.is_optional
        if op.kind == OUT:
            return op.given.new_key and ("key", op.given.new_key) in self.found and op.given.action in (REGISTER, REGISTER_AND_IGNORE)
        return op.kind in (WRITE, COMPARE) and any(number in self.found for number in op.given[-1])

    def does_nothing(self, op, then):
        """Whether what was not answered, and somebody found, was refused here."""
        if op.end is not None or not self.must_be(op):
            return False
        if op.kind == OUT:
            return op.given.new_key not in then.keys.values()
        return any(number in self.found and number not in may_be(then.blocks[at]) for at, number in enumerate(op.given[-1], op.given[0]))

    def may_come(self, at, kinds, end):
        """Whether something of these kinds is not placed yet, and may come before this time."""
        return any(place >= at[lane] and start <= end for kind in kinds for start, lane, place in self.raisers[kind])

    def is_told(self, at, lane, unit):
        """Whether a session's next answers can tell what waits for it, and of the others something is there yet to raise the next."""
        left = [told for told in self.told_in[lane] if told.place >= at[lane]]
        if not left:
            return True
        first = self.lanes[lane][0]
        if unit.serials.get(first.nexus) == first.session:
            waits = unit.pending[first.nexus]
        elif at[lane] == 0:
            waits = [POWER_ON]
        else:
            return True
        for place, (code, told) in enumerate(zip(waits, left)):
            if told.code != code:
                # a reset takes the place of all that waits, and is told by one of these
                return any(told.code == POWER_ON and self.may_come(at, (RESET,), told.end) for told in left[:place + 1])
        told = next((told for told in left[len(waits):] if told.code), None)
        return told is None or self.may_come(at, RAISES.get(told.code, (OUT,)), told.end)

    def is_possible(self, at, lane, op, unit, then):
        """Whether what was found can still be found behind this."""
        moved = self.moved(at, lane)
        is_lost = self.overwrites(moved, unit, then) or self.cuts_off(at, op) or self.does_nothing(op, then)
        return not is_lost and self.are_told(moved, op, then) and self.is_counted(moved, op, then)

    def is_counted(self, at, op, unit):
        """Whether so many requests can still count behind this as answers say. Those that were not answered may, unless a login has taken
        the place of their session."""
        open_ = [(lane, place, other) for lane, place, other in self.requests if place >= at[lane]]
        if op.kind == ATTACH:
            if not any(other.end is None and other.nexus == op.nexus and other.session < op.session for _, _, other in open_):
                return True
        elif op.kind != OUT or op.end is not None:
            return True
        open_ = [other for lane, _, other in open_
                 if other.end is not None or at[lane] == 0 or unit.serials.get(other.nexus) == other.session]
        restart = min((start for start, lane, place in self.raisers[RESTART] if place >= at[lane]), default=None)
        for lane, place, answer, count in self.counted:
            if place < at[lane] or (restart is not None and answer.start > restart):
                continue
            least = sum(other.end is not None and other.end < answer.start for other in open_)
            most = sum(other.start <= answer.end for other in open_)
            if not least <= count - unit.generation <= most:
                return False
        return True

    def is_in_vain(self, at, lane, op, unit, then):
        """Whether this was not answered, is the last of its lane, and changes nothing that others see: it may as well be left out."""
        if op.end is not None or op.kind in OF_NOBODY or at[lane] + 1 < len(self.lanes[lane]):
            return False
        before = unit.copy()
        before.pending[op.nexus], before.serials[op.nexus] = then.pending.get(op.nexus, []), then.serials.get(op.nexus)
        return before.identity() == then.identity()

    def are_told(self, at, op, unit):
        """Whether all sessions can be told what waits for them behind this."""
        return op.kind not in CHANGES_WAITING or all(self.is_told(at, lane, unit) for lane in range(len(self.lanes)))

    def cuts_off(self, at, op):
        """Whether a login in another's place, or a restart, leaves behind what has still to come."""
        if op.kind not in (ATTACH, RESTART):
            return False
        return any(self.must_be(other) for lane, place in zip(self.lanes, at) for other in lane[place:] if other is not op and other.nexus
                   and (other.start < op.start if op.kind == RESTART else other.nexus == op.nexus and other.session < op.session))

    def choices(self, at, unit):
        """What may come next, with the unit behind it; the first to be tried last."""
        found = []
        for lane, op in self.heads(at):
            then = unit.copy()
            if then.apply(op) and self.is_possible(at, lane, op, unit, then) and not self.is_in_vain(at, lane, op, unit, then):
                found.append((self.moved(at, lane), then, op))
            if op.is_optional and self.are_told(self.moved(at, lane), op, unit):
                found.append((self.moved(at, lane), unit, None))
        return found[::-1]

    def settle(self, at, unit, path):
        """Places what may as well come now as later."""
        while (found := self.at_once(at, unit)) is not None:
            lane, op, unit = found
            at, path = self.moved(at, lane), (op, path)
        return at, unit, path

    def is_whole(self, at):
        return all(op.end is None for lane, place in zip(self.lanes, at) for op in lane[place:])

    def note(self, at, unit, path):
        if sum(at) > self.best[0]:
            self.best = (sum(at), at, path, unit)

    def run(self, unit):
        open_ = [((0,) * len(self.lanes), unit, ())]
        while open_:
            at, unit, path = open_.pop()
            at, unit, path = self.settle(at, unit, path)
            self.note(at, unit, path)
            if self.is_whole(at):
                return self.told(True, True)
            key = (at, unit.identity())
            if key in self.met:
                continue
            self.met.add(key)
            if len(self.met) > self.most:
                return self.told(False, False)
            open_ += [(next_at, then, (op, path) if op else path) for next_at, then, op in self.choices(at, unit)]
        return self.told(False, True)

    def told(self, is_found, is_decided):
        _, at, path, unit = self.best
        placed = []
        while path:
            op, path = path
            placed.append(op)
        return Order(is_found, is_decided, placed[::-1], [op for _, op in self.heads(at)], len(self.met), unit)


def order_of(ops, unit):
    for seed, most in SEARCHES:
        order = Search(ops, unit, random.Random(seed) if seed else None, most).run(unit)
        if order.is_decided:
            break
    return order


def why_not(order, shown=8):
    """What is to be said of a history that has no order."""
    if order.is_found:
        return ""
    lines = ["no order of the commands gives these answers" if order.is_decided else f"not decided with {order.states} states"]
    lines += [f"  behind {len(order.placed)} commands, the last of them"]
    lines += [f"    {op}" for op in order.placed[-shown:]]
    lines += ["  none of these can come next"] + [f"    {op}" for op in order.left]
    unit = order.unit
    lines += [f"  the unit there: blocks {unit.blocks} states {unit.states} type {unit.kind} keys {len(unit.keys)} lost {unit.is_lost}"]
    return "\n".join(lines)
