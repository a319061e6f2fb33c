"""A life of the array, from its start to its end, in which a call on a unit's files may fail, for trials/calls.py: the
program, the list of its calls that trials/failing.c keeps, its start, its end, sessions, and what was said."""

import os
import struct

from failing import KINDS, shared
from free_port import free_port
from initiator import Closed, Refused, Session
from may_be import BY_A_DEVICE, told
from running import PATIENCE, READY, TARGET, Array, Wrong, faults, library

# The list of trials/failing.c.
ENDS = ("", "done", "refused by the system", "failed", "written by half", "written and failed")
PLACES = 16384
ENTRY = struct.Struct("=IIIIQQ")
FLUSHES = ("fdatasync", "fsync")
# The files of each unit, in the order of their numbers there.
DISK, REGISTRATIONS, NEW_REGISTRATIONS, FOLDER = range(4)
FILES = ("disk", "registration file", "registration file, new", "folder")


class Call:
    """A call on one of the files: of which unit, on which file, and what became of it."""

    def __init__(self, number, entry):
        kind, file, end, _, self.offset, self.length = entry
        self.number, self.kind, self.end = number, KINDS[kind], ENDS[end]
        self.unit, self.file = divmod(file, len(FILES))

    def is_done(self):
        return self.end == "done"

    def has_failed(self):
        """Whether it was made to fail, or another one in its place."""
        return self.end not in ("done", "refused by the system")

    def __str__(self):
        place = f" of {self.length} bytes at {self.offset}" if self.kind in ("pread", "pwrite") else ""
        end = "" if self.is_done() else f": {self.end}"
        return f"{self.number} {self.kind} {FILES[self.file]} {self.unit}{place}{end}"


class Calls:
    """The list that the preloaded library keeps, in a file that is shared with it."""

    def __init__(self, folder, in_place=False):
        self.in_place, self.library, self.path = in_place, library("trials/failing.c", folder), os.path.join(folder, "list")
        self.map = shared(self.path, 8 + PLACES * ENTRY.size)

    def environment(self, at, how, disks):
        """For a program that is to be started: the N-th call fails so. Begins a new list."""
        self.map[:8] = bytes(8)
        names = [name for disk in disks for name in (disk, disk + ".reg", disk + ".reg.new", os.path.dirname(disk))]
        more = {"CALLS_IN_PLACE": "1"} if self.in_place else {}
        return {"LD_PRELOAD": self.library, "CALLS_FILES": "\n".join(names), "CALLS_LIST": self.path,
                "CALLS_AT": str(at), "CALLS_HOW": how, **more}

    def count(self):
        return struct.unpack_from("=Q", self.map)[0]

    def since(self, place=0):
        """The calls behind this place."""
        return [Call(n + 1, ENTRY.unpack_from(self.map, 8 + n * ENTRY.size)) for n in range(place, self.count())]


class Host:
    """A session through one of the controllers."""

    def __init__(self, name, group, array):
        self.name, self.group = name, group
        self.nexus = name, group
        self.session = Session(*array.portal(group), TARGET, f"iqn.2000-01.test:{name}", timeout=PATIENCE)


class Life:
    """The running program, with all that was asked of it and answered."""

    def __init__(self, program, calls, disks, units, said, end="quit", at=0, how="none"):
        self.calls, self.units, self.said, self.end, self.hosts = calls, units, said, end, []
        # What the failed call came to.
        self.came_to = None
        self.flushes_refused = 0
        for unit in units:
            unit.start()
        self.say(f"started, with call {at} to fail ({how})" if at else "started")
        self.array = Array(disks, free_port(), is_awaited=False, program=program, more=calls.environment(at, how, disks))

    def say(self, line):
        self.said.append(line)

    def heard(self, what, answer, seen):
        calls = "".join(f"\n        {call}" for call in seen)
        self.say(f"{what}: {answer}{calls}")

    def came(self, what):
        if self.came_to is None:
            self.came_to = what

    # ---- start and end

    def is_ready(self):
        """Whether it got ready. Where a call failed it has ended, with the line of that call's file."""
        line = self.array.line()
        seen = self.calls.since()
        self.heard("start", line.strip() or "no line", seen)
        failed = [call for call in seen if call.has_failed()]
        if not failed:
            if line != READY:
                raise Wrong(f"no call failed, and it is not ready: {self.array.last_words()}")
            return True
        if line:
            raise Wrong(f"it says {line!r}, though a call has failed")
        unit, file = failed[0].unit, failed[0].file
        # a folder is flushed for the registration file, and for the one that says as which unit the disk is served
        of = {DISK: ("unit",), FOLDER: ("registration file", "unit")}.get(file, ("registration file",))
        got = self.last_words("")
        self.say(f"ended with {got}")
        if got not in [(1, "", f"arrayd: cannot use {what} {unit}") for what in of]:
            raise Wrong(f"status, output and errors at its end are {got}, and not those of {of}")
        self.came("status 1")
        return False

    def ends(self, status, errors="", told=""):
        got, wanted = self.last_words(told), (status, "", errors)
        self.say(f"ended with status {got[0]}, {got[2]!r}")
        if got != wanted:
            raise Wrong(f"status, output and errors at its end are {got}, and not {wanted}")

    def last_words(self, told):
        status, said, errors = self.array.last_words(told)
        return status, said, faults(errors)

    def kill(self):
        self.array.process.kill()
        self.ends(-9)
        self.close()

    def quit(self):
        place = self.calls.count()
        got = self.last_words("quit\n")
        seen = self.calls.since(place)
        lost = {call.unit for call in seen if call.has_failed() and call.file == DISK and call.kind in FLUSHES}
        lost |= {unit.number for unit in self.units if unit.is_disk_lost}
        unit = min(lost, default=None)
        wanted = (3, f"not flushed {unit}\n", f"arrayd: unit {unit} was not flushed") if lost else (0, "", "")
        if got != wanted:
            raise Wrong(f"status, output and errors of quit are {got}, and not {wanted}")
        self.heard("quit", f"status {got[0]}", seen)
        for unit in self.units:
            flushes = self.calls_of([call for call in seen if call.unit == unit.number], unit, DISK, FLUSHES)
            if not flushes and not unit.is_disk_lost and not unit.is_flushed:
                raise Wrong(f"quit did not flush unit {unit.number}")
        if any(call.has_failed() for call in seen):
            self.came("passed over")
        self.close()

    def close(self):
        for host in self.hosts:
            host.session.close()

    def log_in(self, name, group):
        try:
            host = Host(name, group, self.array)
        except (Closed, Refused, OSError) as fault:
            raise Wrong(f"no login of {name} at controller {group}: {fault!r}") from None
        self.hosts.append(host)
        self.say(f"{name} has logged in at controller {group}")
        for unit in self.units:
            unit.entries += 1
            unit.attentions[host.nexus] = [(0x29, 0x00)]
            self.listen(host, unit)
        return host

    # ---- questions

    def ask_console(self, line, answers=1):
        place = self.calls.count()
        got = self.array.ask(line, answers)
        seen = self.calls.since(place)
        self.heard(f"console: {line}", ", ".join(got), seen)
        return got, seen

    def ask(self, host, unit, what, cdb, out=b"", expected=0):
        """A command: what it was answered, and which calls it made."""
        place = self.calls.count()
        try:
            reply = host.session.command(unit.number, cdb, out, expected)
        except (Closed, OSError) as fault:
            self.heard(f"{host.name} unit {unit.number} {what}", repr(fault), self.calls.since(place))
            raise Wrong("no answer") from None
        seen = self.calls.since(place)
        unit.entries += 1
        answer = reply.status, reply.sense_key()
        self.heard(f"{host.name} unit {unit.number} {what}", told(answer), seen)
        if answer in BY_A_DEVICE:
            if reply.data:
                raise Wrong("data beside a failure")
            self.came(told(answer))
        return reply, answer, seen
