"""What is asked of the array while a call on a unit's files may fail, for trials/calls.py: each answer is the one that the
rules give for the calls that were made and failed, and the model of what may be follows it."""

import copy
import itertools
import struct

from life import DISK, FLUSHES, REGISTRATIONS, Life
from may_be import (
    BLOCK, BY_A_DEVICE, CONFLICT, GOOD_REPLY, NON_OPTIMIZED, OPEN_FAILED, OPTIMIZED, READ_FAILED, REGISTER, SAVE_FAILED,
    UNAVAILABLE, WRITE_FAILED, Registry, check, told, told_of,
)
from running import Wrong

# Ends that come as soon as the failed call was told.
AT_ONCE = ("at once", "kept")
WRITES = itertools.count(1)


class Enough(Exception):
    """The program is to be killed here."""


class Judged(Life):
    """A life whose answers are judged."""

    # ---- the console

    def status(self):
        got, _ = self.ask_console("status", len(self.units))
        for unit, line in zip(self.units, got):
            registry, states = unit.registry, unit.states
            wanted = (
                f"unit {unit.number} owner {unit.owner()} states {states[1]} {states[2]} generation {registry.generation} "
                f"keys {len(registry.keys)} type {registry.kind} entries {unit.entries}"
            )
            if line != wanted:
                raise Wrong(f"status is {line!r}, and not {wanted!r}")

    def down(self, controller, is_again=False):
        [got], seen = self.ask_console(f"down {controller}")
        wanted = "down"
        states = {3 - controller: OPTIMIZED, controller: UNAVAILABLE}
        for unit in self.units:
            of_unit = [call for call in seen if call.unit == unit.number]
            if wanted != "down":
                self.calls_of(of_unit, unit, DISK, ())
            elif self.is_open_failed(unit, of_unit, states):
                wanted = f"not moved {unit.number}"
            else:
                self.moves(unit, states, None)
                unit.entries += 1
        if got != wanted:
            raise Wrong(f"down {controller} says {got!r}, and not {wanted!r}")
        if got != "down":
            self.came("not moved U")
            if self.end in AT_ONCE:
                raise Enough
            if not is_again:
                self.down(controller, True)

    # ---- commands

    def refusal(self, host, unit, access=None):
        """What the command is answered before any device is asked, if so: an attention that waits, an access state that does
        not serve it, a reservation. Access is "read", "write", "set", which is a write that an unavailable group serves, or
        "report", which such a group serves too."""
        waiting = unit.attentions[host.nexus]
        if waiting:
            return check(0x06, *waiting.pop(0))
        if unit.states[host.group] == UNAVAILABLE and access not in ("set", "report"):
            return check(0x02, 0x04, 0x0C)
        if access in ("read", "write", "set") and not unit.registry.allows(host.nexus, access != "read"):
            return CONFLICT
        return None

    @staticmethod
    def must(answer, wanted):
        if answer != wanted:
            raise Wrong(f"{told(answer)}, and not {told(wanted)}")

    @staticmethod
    def calls_of(seen, unit, file, kinds):
        """These calls, which have to be on this file of this unit, and of these kinds."""
        for call in seen:
            if (call.unit, call.file) != (unit.number, file) or call.kind not in kinds:
                raise Wrong(f"nothing asks for this call: {call}")
        return seen

    def tell(self, unit, nexus, code):
        """A session is to be told this, once."""
        waiting = unit.attentions.get(nexus)
        if waiting is not None and code not in waiting:
            waiting.append(code)

    def listen(self, host, unit):
        """Takes the attentions that wait, and one TEST UNIT READY more."""
        while True:
            wanted = self.refusal(host, unit) or GOOD_REPLY
            _, answer, seen = self.ask(host, unit, "TEST UNIT READY", bytes(6))
            self.calls_of(seen, unit, DISK, ())
            self.must(answer, wanted)
            if wanted == GOOD_REPLY or wanted[1][0] != 0x06:
                return

    def listen_all(self):
        for unit in self.units:
            for host in self.hosts:
                if unit.attentions[host.nexus]:
                    self.listen(host, unit)

    def has_flushed(self, seen):
        """Whether a flush was done behind all writes that these calls did."""
        for call in reversed(seen):
            if call.kind == "pwrite":
                return False
            if call.kind in FLUSHES and call.is_done():
                return True
        return False

    def note_flushes(self, unit, seen):
        """Notes whether a flush was done behind all writes of the unit, these calls' too."""
        for call in seen:
            if call.kind == "pwrite":
                unit.is_flushed = False
            elif call.kind in FLUSHES and call.is_done():
                unit.is_flushed = True

    def medium_end(self, unit, seen, fua, failed):
        """What the device's failures make of a command that flushes last, where that was wanted; else nothing."""
        self.note_flushes(unit, seen)
        for call in seen:
            if call.has_failed() and call.kind not in FLUSHES:
                return failed[call.kind]
        if not fua:
            return None
        if any(call.has_failed() for call in seen):
            unit.is_disk_lost = True
        elif unit.is_disk_lost:
            self.flushes_refused += 1
        if unit.is_disk_lost:
            return WRITE_FAILED
        if not unit.is_flushed:
            raise Wrong("GOOD, and no flush was done behind its writes")
        return None

    def again(self, unit, answer, ask, is_again):
        """A command that a device failed is sent once more, if the program is not to be killed at once."""
        if answer not in BY_A_DEVICE or is_again:
            return
        if self.end == "kept" and answer == SAVE_FAILED:
            # GOOD of a command that registers nobody: what is there is saved, and the failed save comes to nothing.
            self.out(self.hosts[-1], unit, REGISTER, is_again=True)
        if self.end in AT_ONCE:
            raise Enough
        ask()

    def read(self, host, unit, lba, blocks, fua=False, is_again=False):
        wanted = self.refusal(host, unit, "read")
        cdb = struct.pack(">BBQIxx", 0x88, 8 if fua else 0, lba, blocks)
        name = f"READ{' with FUA' if fua else ''} of {blocks} at {lba}"
        reply, answer, seen = self.ask(host, unit, name, cdb, expected=blocks * BLOCK)
        kinds = ("pread", *FLUSHES) if fua else ("pread",)
        seen = self.calls_of(seen, unit, DISK, () if wanted else kinds)
        if wanted is None:
            flushes = [call for call in seen if call.kind in FLUSHES]
            wanted = self.medium_end(unit, flushes, fua, {})
            if wanted is None and any(call.has_failed() for call in seen):
                wanted = READ_FAILED
        self.must(answer, wanted or GOOD_REPLY)
        if answer == GOOD_REPLY:
            if len(reply.data) != blocks * BLOCK:
                raise Wrong(f"{len(reply.data)} bytes were read")
            unit.is_found(lba, reply.data)
        self.again(unit, answer, lambda: self.read(host, unit, lba, blocks, fua, True), is_again)
        return answer == GOOD_REPLY

    def data(self, unit, lba, blocks):
        """Blocks that are like none before, and each like no other."""
        number = next(WRITES)
        return b"".join((b"%06d.%d.%03d|" % (number, unit.number, lba + n) * 43)[:BLOCK] for n in range(blocks))

    def write(self, host, unit, lba, blocks, fua=False, data=None, is_again=False):
        data = data or self.data(unit, lba, blocks)
        wanted = self.refusal(host, unit, "write")
        cdb = struct.pack(">BBQIxx", 0x8A, 8 if fua else 0, lba, blocks)
        name = f"WRITE{' with FUA' if fua else ''} of {blocks} at {lba}"
        _, answer, seen = self.ask(host, unit, name, cdb, out=data)
        kinds = ("lseek", "pwrite", *FLUSHES) if fua else ("lseek", "pwrite")
        seen = self.calls_of(seen, unit, DISK, () if wanted else kinds)
        if wanted:
            self.must(answer, wanted)
            return
        wanted = self.medium_end(unit, seen, fua, dict.fromkeys(("lseek", "pwrite"), WRITE_FAILED))
        self.must(answer, wanted or GOOD_REPLY)
        self.has_written(unit, lba, data, seen, wanted)
        self.again(unit, answer, lambda: self.write(host, unit, lba, blocks, fua, data, True), is_again)

    def has_written(self, unit, lba, data, seen, failure):
        if failure:
            unit.may_become(lba, data)
            return
        unit.becomes(lba, data)
        if sum(call.length for call in seen if call.kind == "pwrite" and call.is_done()) != len(data):
            raise Wrong("GOOD, and other bytes were written")

    def flush(self, host, unit, is_again=False):
        wanted = self.refusal(host, unit, "write")
        _, answer, seen = self.ask(host, unit, "SYNCHRONIZE CACHE", struct.pack(">BxQIxx", 0x91, 0, 0))
        seen = self.calls_of(seen, unit, DISK, () if wanted else FLUSHES)
        if wanted is None:
            wanted = self.medium_end(unit, seen, True, {})
        self.must(answer, wanted or GOOD_REPLY)
        self.again(unit, answer, lambda: self.flush(host, unit, True), is_again)

    def compare_and_write(self, host, unit, lba, old, fua=False, data=None, is_again=False):
        """Compares with these blocks, and writes others there."""
        blocks = len(old) // BLOCK
        data = data or self.data(unit, lba, blocks)
        wanted = self.refusal(host, unit, "write")
        cdb = struct.pack(">BBQ3xBxx", 0x89, 8 if fua else 0, lba, blocks)
        name = f"COMPARE AND WRITE{' with FUA' if fua else ''} of {blocks} at {lba}"
        reply, answer, seen = self.ask(host, unit, name, cdb, out=old + data)
        kinds = ("pread", "lseek", "pwrite", *FLUSHES) if fua else ("pread", "lseek", "pwrite")
        seen = self.calls_of(seen, unit, DISK, () if wanted else kinds)
        if wanted:
            self.must(answer, wanted)
            return
        if answer == check(0x0E, 0x1D, 0x00):
            if any(call.has_failed() or call.kind != "pread" for call in seen):
                raise Wrong("a difference, beside other calls than reads that were done")
            unit.differs(lba, old, reply.information())
            return
        failed = {"pread": READ_FAILED, "lseek": WRITE_FAILED, "pwrite": WRITE_FAILED}
        wanted = self.medium_end(unit, seen, fua, failed)
        self.must(answer, wanted or GOOD_REPLY)
        if wanted != READ_FAILED:
            unit.is_found(lba, old)
            self.has_written(unit, lba, data, seen, wanted)
        old = old if wanted == READ_FAILED else self.held(unit, lba, blocks)
        self.again(unit, answer, lambda: self.compare_and_write(host, unit, lba, old, fua, data, True), is_again)

    def held(self, unit, lba, blocks):
        """A range that may be there."""
        return b"".join(min(unit.blocks[at]) for at in range(lba, lba + blocks))

    def out(self, host, unit, action, kind=0, key=0, new_key=0, aptpl=False, is_again=False):
        """PERSISTENT RESERVE OUT."""
        wanted = self.refusal(host, unit)
        place = {0: "REGISTER", 1: "RESERVE", 2: "RELEASE", 3: "CLEAR", 4: "PREEMPT", 6: "REGISTER AND IGNORE EXISTING KEY"}
        name = f"{place[action]} type {kind} keys {key:X} {new_key:X}{' APTPL' if aptpl else ''}"
        values = struct.pack(">QQ4xB3x", key, new_key, 1 if aptpl else 0)
        cdb = struct.pack(">BBBxxIx", 0x5F, action, kind, len(values))
        _, answer, seen = self.ask(host, unit, name, cdb, out=values)
        becomes = copy.deepcopy(unit.registry)
        if wanted is None:
            wanted, telling = becomes.out(host.nexus, action, kind, key, new_key, aptpl)
        is_asked = wanted == GOOD_REPLY
        seen = self.calls_of(seen, unit, REGISTRATIONS, ("lseek", "pwrite", *FLUSHES) if is_asked else ())
        if not is_asked:
            self.must(answer, wanted)
            return
        self.must(answer, self.save_end(unit, becomes.lasting(), seen))
        if answer == GOOD_REPLY:
            unit.registry = becomes
            for nexus, code in telling:
                self.tell(unit, nexus, code)
        self.again(unit, answer, lambda: self.out(host, unit, action, kind, key, new_key, aptpl, True), is_again)

    def save_end(self, unit, record, seen):
        """What a PERSISTENT RESERVE OUT is answered that this record would be to last behind; and the records that may be."""
        has_failed = any(call.has_failed() for call in seen)
        if any(call.has_failed() and call.kind in FLUSHES for call in seen):
            unit.is_file_lost = True
        is_needed = unit.is_in_doubt or unit.records != {record}
        if is_needed and not has_failed and unit.is_file_lost:
            self.flushes_refused += 1
            has_failed = True
        if has_failed:
            unit.is_in_doubt = True
            unit.records = unit.records | {record}
            return SAVE_FAILED
        if is_needed and not self.has_flushed(seen):
            raise Wrong("GOOD, and not saved")
        unit.is_in_doubt, unit.records = False, {record}
        return GOOD_REPLY

    def reserve_in(self, host, unit, action, name):
        """PERSISTENT RESERVE IN: its data, where the access state serves it."""
        wanted = self.refusal(host, unit)
        reply, answer, seen = self.ask(host, unit, name, struct.pack(">BB5xHx", 0x5E, action, 8192), expected=8192)
        self.calls_of(seen, unit, REGISTRATIONS, ())
        self.must(answer, wanted or GOOD_REPLY)
        return reply.data if wanted is None else None

    def registrations(self, host, unit):
        """READ KEYS, READ RESERVATION and REPORT CAPABILITIES tell what is there."""
        keys = self.reserve_in(host, unit, 0, "READ KEYS")
        reservation = self.reserve_in(host, unit, 1, "READ RESERVATION")
        capabilities = self.reserve_in(host, unit, 2, "REPORT CAPABILITIES")
        if keys is None:
            return
        got = keys, reservation, capabilities
        wanted = told_of(unit.registry)
        if got != wanted:
            raise Wrong(f"registrations {[data.hex() for data in got]}, and not {[data.hex() for data in wanted]}")

    def find_registrations(self, host, unit):
        """The same, behind a start: one of the records that may be there, which is then the only one."""
        got = tuple(self.reserve_in(host, unit, action, name) for action, name in
                    ((0, "READ KEYS"), (1, "READ RESERVATION"), (2, "REPORT CAPABILITIES")))
        found = [record for record in unit.records if told_of(Registry(record)) == got]
        if not found:
            may = "; or ".join(str([data.hex() for data in told_of(Registry(record))]) for record in unit.records)
            raise Wrong(f"unit {unit.number}: registrations {[data.hex() for data in got]}, and not {may}")
        unit.records = {found[0]}
        unit.registry = Registry(found[0])

    def set_groups(self, host, unit, owner, is_again=False):
        """SET TARGET PORT GROUPS: this group is to be active/optimized, the other active/non-optimized."""
        wanted = self.refusal(host, unit, "set")
        states = {owner: OPTIMIZED, 3 - owner: NON_OPTIMIZED}
        values = bytes(4) + b"".join(struct.pack(">BxH", states[group], group) for group in (1, 2))
        cdb = struct.pack(">BB4xIxx", 0xA4, 0x0A, len(values))
        _, answer, seen = self.ask(host, unit, f"SET TARGET PORT GROUPS to owner {owner}", cdb, out=values)
        if wanted:
            self.calls_of(seen, unit, DISK, ())
            self.must(answer, wanted)
            return
        is_failed = self.is_open_failed(unit, seen, states)
        self.must(answer, OPEN_FAILED if is_failed else GOOD_REPLY)
        if not is_failed:
            self.moves(unit, states, host)
        self.again(unit, answer, lambda: self.set_groups(host, unit, owner, True), is_again)

    def is_open_failed(self, unit, seen, states):
        """Whether the unit stays as it is, since its blocks could not be opened for their new owner."""
        if states[unit.owner()] == OPTIMIZED:
            if seen:
                raise Wrong(f"the owner stays, and it calls {seen[0]}")
            return False
        self.calls_of(seen, unit, DISK, ("open", "statx", "lseek", *FLUSHES))
        self.note_flushes(unit, seen)
        failed = [call for call in seen if call.has_failed()]
        if failed and failed[0].kind in FLUSHES:
            # by the handle of before, which goes: each later flush fails
            unit.is_disk_lost = True
            self.came("passed over")
        elif failed:
            return True
        if not any(call.kind == "open" and call.is_done() for call in seen):
            raise Wrong("another owner, and no open")
        return False

    def moves(self, unit, states, sender):
        if unit.become(states):
            for other in self.hosts:
                if other is not sender:
                    self.tell(unit, other.nexus, (0x2A, 0x06))

    def groups(self, host, unit):
        """REPORT TARGET PORT GROUPS."""
        wanted = self.refusal(host, unit, "report")
        cdb = struct.pack(">BB4xIxx", 0xA3, 0x0A, 4096)
        reply, answer, seen = self.ask(host, unit, "REPORT TARGET PORT GROUPS", cdb, expected=4096)
        self.calls_of(seen, unit, DISK, ())
        self.must(answer, wanted or GOOD_REPLY)
        if wanted is None:
            got = {reply.data[at + 3]: reply.data[at] for at in (4, 16)}
            preferred = 1 + unit.number % 2
            if got != {group: unit.states[group] | (0x80 if group == preferred else 0) for group in (1, 2)}:
                raise Wrong(f"access states {got}, and not {unit.states}")
