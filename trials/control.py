#!/usr/bin/env python3
"""Asks a running array by its control socket, and compares what it says with what this script did and what the console says.
Prints a line for each case. Ends with status 1 where something is otherwise.

usage: trials/control.py [NAME..]      all, where none is named

The program is ./arrayd, or what the environment's ARRAYD names.
"""

import contextlib
import errno
import os
import re
import socket
import stat
import subprocess
import time

from cases import Cases, end_of, is_so, lines, until
from failing import Failing
from free_port import free_port
from initiator import GOOD, Session
from running import PORT, TOP, Array, Wrong, begun, ended, library, made
from window import HOSTILE, host

CASES = Cases()
case = CASES.case
SESSION = re.compile(r'session (\d+) controller ([12]) type (normal|discovery) isid (0x[0-9a-f]+) peer ([0-9.]+:\d+) '
                     r'portal ([0-9.]+:\d+) since (\d+) commands (\d+) last ([a-z_]+) initiator "((?:[^"\\]|\\["\\]|\\x[0-9a-f]{2})*)"')
# What each move of `controller_that_comes_up` changed, until controller 2 is down.
MOVED = [f"unit={unit} owner={owner} states={states} by=console"
         for unit, owner, states in [(0, 2, "3,0"), (1, 2, "3,0"), (2, 2, "3,0"), (0, 1, "0,1"), (1, 2, "1,0"), (2, 1, "0,1"),
                                     (0, 1, "0,3"), (1, 1, "0,3"), (2, 1, "0,3"), (0, 1, "0,1"), (1, 2, "1,0"), (2, 1, "0,1"),
                                     (0, 1, "0,3"), (1, 1, "0,3"), (2, 1, "0,3")]]
HELP = ["status", "health", "units", "sessions", "keys U", "version", "help", "acknowledge", "end TSIH", "down 1, down 2", "up 1, up 2", "quit"]
# The last line of an answer: done, not done, no such line.
DONE, NOT_DONE, UNKNOWN = ". 0", ". 1", ". 2"
# As many discovery sessions, with connections whose login is not over, as there may be, and as many connections as attended to at once.
GUESTS, ATTENDANTS = 128, 8


def array_in(folder, units=1, log=None, more=None):
    disks = [made(f"{folder}/disk{unit}", 4096) for unit in range(units)]
    return Array(disks, log=log, more={"ARRAYD_CONTROL": f"{folder}/control", **(more or {})})


def connected(folder, timeout=20):
    peer = socket.socket(socket.AF_UNIX)
    peer.settimeout(timeout)
    peer.connect(f"{folder}/control")
    return peer


def all_of(peer):
    said = b""
    while part := peer.recv(65536):
        said += part
    return said


def told(folder, text):
    """The lines that answer this text, with the last one of each answer."""
    with connected(folder) as peer:
        peer.sendall(text if isinstance(text, bytes) else text.encode() + b"\n")
        peer.shutdown(socket.SHUT_WR)
        return all_of(peer).decode("ascii").splitlines()


def asked(folder, text):
    """The lines that answer this text, of which the last one of each answer says how it was obeyed."""
    found = told(folder, text)
    if found[-1:] not in ([DONE], [NOT_DONE], [UNKNOWN]):
        raise Wrong(f"{text!r}: no end of an answer: {found}")
    return [line for line in found if line not in (DONE, NOT_DONE, UNKNOWN)]


def orders(log):
    """The lines of the log that tell what the array was told to do."""
    return [line.split(" line=", 1)[1] for line in lines(log, "order by=control")]


def ends(log):
    """How often the log tells that the array takes no command any more."""
    with open(log, encoding="utf-8") as file:
        return sum(line.endswith(" event=stopping\n") for line in file)


def sessions(folder):
    """The sessions by ISID, each of whose lines has to be spelled as lines are."""
    found = {}
    for line in asked(folder, "sessions"):
        one = SESSION.fullmatch(line)
        if not one:
            raise Wrong(f"no session: {line!r}")
        found[int(one[4], 16)] = one
    return found


def is_closed(session):
    session.socket.settimeout(5)
    try:
        return session.socket.recv(1) == b""
    except ConnectionError:
        return True


@case
def names_of_units(folder):
    """By what hosts know a unit is what INQUIRY tells them."""
    with array_in(folder, 2) as array:
        session, wanted = host(1), []
        for unit in range(2):
            naa, serial = session.inquiry(unit, 0x83)[8:16].hex(), session.inquiry(unit, 0x80)[4:].decode()
            wanted.append(f'unit {unit} naa {naa} wwid 3{naa} serial {serial} blocks 4096 disk "{folder}/disk{unit}"')
        is_so("units", asked(folder, "units"), wanted)
        array.quit()


@case
def words(folder):
    with array_in(folder, 2) as array:
        is_so("status", asked(folder, "status"), array.ask("status", 2))
        array.ask("down 1")
        is_so("status then", asked(folder, "status"), array.ask("status", 2))
        with open(f"{TOP}/VERSION", encoding="ascii") as file:
            is_so("version", asked(folder, "version"), [f"arrayd {file.read().strip()}"])
        is_so("help", [line[:15].rstrip() for line in asked(folder, "help")], HELP)
        is_so("sessions", asked(folder, "sessions"), [])
        for text in ("", "no", "STATUS", "QUIT", "down", "down 0", "down 3", " status", "status ", "end", "end ", "end x", "end -1", "end +1",
                     "end 65536", "end 1 2", "sessions 1", "\u00e9", "."):
            is_so(text, told(folder, text), ["?", UNKNOWN])
        is_so("no UTF-8", told(folder, b"\xff\xfe\n"), ["?", UNKNOWN])
        is_so("one behind the other", told(folder, "version\nkeys 9\n\nkeys 0\nend 7"),
              ["arrayd 1.0.0", DONE, "no unit", NOT_DONE, "?", UNKNOWN, DONE, "no session", NOT_DONE])
        is_so("CR LF", asked(folder, b"version\r\nversion\r\n"), ["arrayd 1.0.0"] * 2)
        is_so("no end of line", asked(folder, b"version"), ["arrayd 1.0.0"])
        is_so("the units", array.status(1, 2)["owner"], "2")
        array.quit()


@case
def who_is_there(folder):
    with array_in(folder) as array:
        began = time.time()
        first, second = host(1), host(2, "iqn.2000-01.test:other", 0x400001370007)
        first.read(0, 0, 1)
        found = sessions(folder)
        is_so("ISIDs", sorted(found), [0x400001370000, 0x400001370007])
        one, two = found[0x400001370000], found[0x400001370007]
        is_so("controllers", (one[2], two[2]), ("1", "2"))
        is_so("initiators", (one[10], two[10]), ("iqn.2000-01.test:host", "iqn.2000-01.test:other"))
        is_so("peers", (one[5], two[6]), ("127.0.0.1:%d" % first.socket.getsockname()[1], f"127.0.0.1:{PORT + 4}"))
        is_so("commands", (one[8], one[9], two[8], two[9]), ("2", "read", "1", "other"))
        is_so("since", abs(int(one[7]) - began) < 3, True)
        first.logout()
        is_so("left", until(lambda: list(sessions(folder)) == [0x400001370007]), True)
        second.close()
        array.quit()


@case
def names(folder):
    with array_in(folder) as array:
        open_ = [host(1, name, 0x400001370000 + at) for at, name in enumerate(HOSTILE)]
        found = sessions(folder)
        for at, name in enumerate(HOSTILE):
            said = re.sub(rb'\\x([0-9a-f]{2})|\\(["\\])', lambda m: bytes([int(m[1], 16)]) if m[1] else m[2],
                          found[0x400001370000 + at][10].encode())
            is_so("the name", said, name.encode())
        for session in open_:
            session.close()
        array.quit()


@case
def session_that_is_ended(folder):
    log = f"{folder}/log"
    with array_in(folder, log=log) as array:
        first, second = host(1), host(2, isid=0x400001370007)
        tsih = sessions(folder)[0x400001370000][1]
        is_so("none", asked(folder, "end 65535"), ["no session"])
        is_so("ended", asked(folder, f"end {tsih}"), ["ended"])
        is_so("its connection", is_closed(first), True)
        is_so("the other one", second.read(0, 0, 1), bytes(512))
        is_so("gone", until(lambda: list(sessions(folder)) == [0x400001370007]), True)
        is_so("once", asked(folder, f"end {tsih}"), ["no session"])
        again = host(1)
        is_so("it came again", again.read(0, 0, 1), bytes(512))
        array.quit()
        ended = [line for line in lines(log, "session_ended") if f"tsih={tsih} " in line]
        is_so("the log", [line.rsplit(" ", 1)[1] for line in ended], ["why=by_console"])
        is_so("the orders", orders(log), ['"end 65535"', f'"end {tsih}"', f'"end {tsih}"'])


@case
def end_is_a_fence(folder):
    """Behind `ended` no command of the session reaches a unit, though it sent more than are served by then."""
    os.mkdir(f"{folder}/slow")
    slow = {"LD_PRELOAD": library("bench/slow_disk.c", folder), "SLOW_DISK": f"{folder}/slow", "SLOW_FLUSH": "50000"}
    with Array([made(f"{folder}/slow/disk", 4096)], more={"ARRAYD_CONTROL": f"{folder}/control", **slow}) as array:
        session = host()
        tsih = sessions(folder)[0x400001370000][1]
        before = int(array.status()["entries"])
        for _ in range(24):
            session.submit(0, [0x35])
        until(lambda: int(array.status()["entries"]) > before)
        is_so("ended", asked(folder, f"end {tsih}"), ["ended"])
        then = array.status()["entries"]
        time.sleep(0.5)
        is_so("entries", array.status()["entries"], then)
        array.quit()


def may_connect_as(user, folder):
    child = os.fork()
    if child == 0:
        try:
            os.setgroups([])
            os.setgid(user)
            os.setuid(user)
            connected(folder)
            os._exit(0)
        except PermissionError:
            os._exit(1)
        finally:
            os._exit(2)
    return {0: True, 1: False}[os.waitstatus_to_exitcode(os.waitpid(child, 0)[1])]


@case
def keys(folder):
    with array_in(folder, 2) as array:
        first, second = host(1), host(2)
        is_so("none", (asked(folder, "keys 0"), asked(folder, "keys 1"), asked(folder, "keys 2")), ([], [], ["no unit"]))
        first.reserve_out(0, 0, new_key=0x11)
        second.reserve_out(0, 0, new_key=0xABC)
        second.reserve_out(0, 1, kind=3, key=0xABC)
        ends = 'isid 0x400001370000 holds {} initiator "iqn.2000-01.test:host"'
        is_so("keys", asked(folder, "keys 0"), ["key 0x11 controller 1 " + ends.format(0), "key 0xabc controller 2 " + ends.format(3)])
        for text in ("keys", "keys ", "keys x", "keys +0", "keys 256"):
            is_so(text, asked(folder, text), ["?"])
        array.quit()


@case
def controller_that_comes_up(folder):
    log = f"{folder}/log"
    with array_in(folder, 3, log=log) as array:
        first, second = host(1), host(2)
        array.ask("down 1")
        array.ask("status", 3)
        entries = [int(array.status(unit, 3)["entries"]) for unit in range(3)]
        is_so("up", asked(folder, "up 1"), ["up"])
        lines_ = [array.status(unit, 3) for unit in range(3)]
        is_so("owners", [line["owner"] for line in lines_], ["1", "2", "1"])
        is_so("states", [line["states"] for line in lines_], [("0", "1"), ("1", "0"), ("0", "1")])
        is_so("an entry each", [int(line["entries"]) for line in lines_], [n + 1 for n in entries])
        for session in (first, second):
            for unit in range(3):
                is_so("a host is told once", session.command(unit, [0] * 6).sense_key(), (6, 0x2A, 6))
                is_so("and goes on", session.read(unit, 0, 1), bytes(512))
        is_so("again", (asked(folder, "up 1"), array.status(0, 3)["owner"]), (["up"], "1"))
        array.ask("down 2")
        is_so("up 2", asked(folder, "up 2"), ["up"])
        is_so("owners then", [array.status(unit, 3)["owner"] for unit in range(3)], ["1", "2", "1"])
        array.ask("down 2")
        before = array.ask("status", 3)
        is_so("up 1 while 2 is down", (asked(folder, "up 1"), array.ask("status", 3)), (["up"], before))
        # the log is written by a thread of its own
        until(lambda: len(lines(log, "groups_set")) >= len(MOVED))
        is_so("what moved is told", [line.split("groups_set ", 1)[1] for line in lines(log, "groups_set")], MOVED)
        is_so("up 2 again", asked(folder, "up 2"), ["up"])
        first.command(1, [0] * 6)
        is_so("a host's word", end_of(first.set_port_groups(1, [(1, 2), (2, 0)])), GOOD)
        is_so("in standby", array.status(1, 3)["states"], ("2", "0"))
        is_so("up 1", (asked(folder, "up 1"), array.status(1, 3)["states"]), (["up"], ("1", "0")))
        array.ask("down 1")
        os.remove(f"{folder}/disk0")
        is_so("a disk that is gone", asked(folder, "up 1"), ["not moved 0"])
        array.quit()
        is_so("the log", (len(lines(log, "not_moved")), len(lines(log, "groups_set")) >= 9), (1, True))
        is_so("the orders", orders(log), ['"up 1"', '"up 1"', '"up 2"', '"up 1"', '"up 2"', '"up 1"', '"up 1"'])


@case
def controller_that_goes_down(folder):
    log = f"{folder}/log"
    with array_in(folder, 2, log=log) as array:
        session = host(2)
        is_so("down", told(folder, "down 1"), ["down", DONE])
        is_so("owners", [array.status(unit, 2)["owner"] for unit in range(2)], ["2", "2"])
        is_so("states", [array.status(unit, 2)["states"] for unit in range(2)], [("3", "0"), ("3", "0")])
        is_so("a host is told", session.command(0, [0] * 6).sense_key(), (6, 0x2A, 6))
        is_so("and goes on", session.read(0, 0, 1), bytes(512))
        is_so("what is degraded", told(folder, "health"), ["degraded: controller 1 is down: no unit is served by it", DONE])
        is_so("both", (told(folder, "down 2"), array.status(0, 2)["owner"]), (["down", DONE], "1"))
        os.rename(f"{folder}/disk1", f"{folder}/away")
        is_so("a disk that is gone", told(folder, "down 1"), ["not moved 1", NOT_DONE])
        array.quit()
        is_so("what moved", [line.split("groups_set ", 1)[1] for line in lines(log, "groups_set")],
              [f"unit={unit} owner={owner} states={states} by=console" for unit, owner, states in
               [(0, 2, "3,0"), (1, 2, "3,0"), (0, 1, "0,3"), (1, 1, "0,3"), (0, 2, "3,0")]])
        is_so("the orders", orders(log), ['"down 1"', '"down 2"', '"down 1"'])


@case
def what_is_wrong(folder):
    failing = Failing(folder)
    with array_in(folder, more=failing.environment) as array:
        session = host()
        is_so("well", told(folder, "health"), ["ok", DONE])
        failing.let("pread", errno.EIO, times=4)
        session.command(0, [0x28, 0, 0, 0, 0, 9, 0, 0, 1, 0], expected=512)
        failing.stop()
        said = told(folder, "health")
        is_so("not well", (said[0].startswith("unit 0: "), "call=read error=EIO" in said[0], said[1:]), (True, True, [NOT_DONE]))
        is_so("seen", told(folder, "acknowledge"), ["acknowledged", DONE])
        is_so("well then", told(folder, "health"), ["ok", DONE])
        array.quit()


@case
def array_that_is_told_to_quit(folder):
    log = f"{folder}/log"
    with array_in(folder, log=log) as array:
        session = host()
        session.write(0, 0, b"kept".ljust(512))
        is_so("quit", told(folder, "quit"), [DONE])
        is_so("its status", array.process.wait(10), 0)
        is_so("standard output", array.last_words()[1], "")
        is_so("the socket is gone", os.path.exists(f"{folder}/control"), False)
        is_so("the log", (orders(log), ends(log)), (['"quit"'], 1))
    with array_in(folder) as array:
        # the peer that told it does not wait for the answer
        with connected(folder) as peer:
            peer.sendall(b"quit\n")
        is_so("its status", array.process.wait(10), 0)
    failing = Failing(folder)
    with array_in(folder, log=log, more=failing.environment) as array:
        host().write(0, 0, bytes(512))
        failing.let("fdatasync", errno.EIO, times=9)
        is_so("not flushed", told(folder, "quit"), ["not flushed 0", NOT_DONE])
        is_so("its end", (array.process.wait(10), "unit 0 was not flushed" in array.process.stderr.read()), (3, True))
        is_so("the log", (ends(log), sum("event=not_flushed unit=0" in line for line in open(log, encoding="utf-8"))), (2, 1))


@case
def input_that_is_a_terminal(folder):
    """Also one whose standard input says nothing, and is no pipe, ends."""
    ours, theirs = os.openpty()
    program = begun(["--port", str(PORT), made(f"{folder}/disk", 64)], more={"ARRAYD_CONTROL": f"{folder}/control"}, stdin=theirs,
                    stdout=subprocess.PIPE)
    try:
        is_so("ready", program.stdout.readline(), b"arrayd: ready\n")
        os.write(ours, b"status\n")
        is_so("a line", program.stdout.readline()[:6], b"unit 0")
        is_so("quit", told(folder, "quit"), [DONE])
        is_so("its status", program.wait(10), 0)
    finally:
        program.kill()
        program.wait()
        os.close(ours)
        os.close(theirs)


@case
def line_that_is_cut(folder):
    """A connection takes 65536 bytes, and obeys no line that ends there only since no more are taken."""
    log = f"{folder}/log"
    with array_in(folder, log=log) as array:
        session = host()
        with connected(folder) as peer:
            line = f"end {session.tsih}".encode()
            peer.sendall(b"x" * (65536 - 1 - len(line)) + b"\n" + line + b"00\n")
            said = b""
            # what it did not take is why the system then tells of a reset
            with contextlib.suppress(ConnectionResetError):
                while part := peer.recv(65536):
                    said += part
            is_so("the answers", said, b"?\n. 2\n")
        is_so("it goes on", session.read(0, 0, 1), bytes(512))
        array.quit()
        is_so("the orders", orders(log), [])


@case
def moves_one_after_the_other(folder):
    """`down 1` waits for a disk. `up 1` by another connection is obeyed behind it, and is what holds then."""
    os.mkdir(f"{folder}/slow")
    slow = {"LD_PRELOAD": library("bench/slow_disk.c", folder), "SLOW_DISK": f"{folder}/slow", "SLOW_FLUSH": "3000000"}
    with Array([made(f"{folder}/slow/disk", 4096)], more={"ARRAYD_CONTROL": f"{folder}/control", **slow}) as array:
        host().write(0, 0, bytes(512))
        with connected(folder) as peer:
            peer.sendall(b"down 1\n")
            time.sleep(0.2)
        is_so("up", told(folder, "up 1"), ["up", DONE])
        is_so("what holds", array.status(0)["owner"], "1")
        array.quit()


@case
def line_that_waits(folder):
    """A line that waits for a disk holds up no other one."""
    os.mkdir(f"{folder}/slow")
    slow = {"LD_PRELOAD": library("bench/slow_disk.c", folder), "SLOW_DISK": f"{folder}/slow", "SLOW_FLUSH": "3000000"}
    with Array([made(f"{folder}/slow/disk", 4096)], more={"ARRAYD_CONTROL": f"{folder}/control", **slow}) as array:
        host().write(0, 0, bytes(512))
        began = time.monotonic()
        with connected(folder) as peer:
            peer.sendall(b"down 1\n")
            time.sleep(0.2)
            is_so("meanwhile", (told(folder, "version"), time.monotonic() - began < 1), (["arrayd 1.0.0", DONE], True))
            is_so("it", (peer.recv(100), time.monotonic() - began > 2), (b"down\n. 0\n", True))
        array.quit()


@case
def discovery_sessions(folder):
    """Whoever comes may begin them under any names: so they have a bound, the oldest goes first, and a host gets in."""
    log = f"{folder}/log"
    with array_in(folder, log=log) as array:
        mine = host()
        guests = [Session(*array.portal(1 + at % 2), None, f"iqn.2000-01.test:guest{at}", timeout=20) for at in range(GUESTS + 12)]
        count = lambda: sum(line[3] == "discovery" for line in SESSION.finditer("\n".join(asked(folder, "sessions"))))
        is_so("how many", until(lambda: count() == GUESTS), True)
        is_so("the oldest are gone", [is_closed(guest) for guest in guests[:12]], [True] * 12)
        is_so("the newest is there", len(guests[-1].text([("SendTargets", "All")])), 3)
        other = host(2)
        is_so("who is in", (mine.read(0, 0, 1), other.read(0, 0, 1)), (bytes(512), bytes(512)))
        for guest in guests:
            guest.close()
        is_so("they leave", until(lambda: count() == 0), True)
        array.quit()
        told = [line for event in ("login", "session_ended") for line in lines(log, event) if "type=discovery" in line]
        # on a busy machine a teller may not reach the lines in time: then the log says how many are missing
        others = [int(line.rsplit("=", 1)[1]) for event in ("discoveries", "dropped") for line in lines(log, event)]
        is_so("the log", len(told) + sum(others), 2 * (GUESTS + 12))


@case
def owner_alone(folder):
    os.chmod(folder, 0o755)
    before = os.umask(0)
    try:
        array = array_in(folder)
    finally:
        os.umask(before)
    with array:
        kind = os.stat(f"{folder}/control").st_mode
        is_so("a socket", (stat.S_ISSOCK(kind), stat.S_IMODE(kind)), (True, 0o600))
        if os.getuid() == 0:
            is_so("another user", may_connect_as(65534, folder), False)
        is_so("its owner", asked(folder, "version"), ["arrayd 1.0.0"])
        array.quit()
        is_so("it is gone", os.path.exists(f"{folder}/control"), False)


@case
def paths(folder):
    disk = made(f"{folder}/disk", 64)
    start = lambda path: ended(["--port", str(PORT), disk], more={"ARRAYD_CONTROL": path})
    none = (1, "arrayd: cannot make the control socket")
    with open(f"{folder}/file", "w", encoding="ascii") as file:
        file.write("mine")
    is_so("there already", start(f"{folder}/file"), none)
    with open(f"{folder}/file", encoding="ascii") as file:
        is_so("untouched", file.read(), "mine")
    is_so("a folder", start(folder), none)
    is_so("no folder", start(f"{folder}/none/control"), none)
    is_so("a folder's", start(f"{folder}/control/"), none)
    is_so("too long", start(folder + "/" + "x" * 120), (2, "arrayd: wrong words"))
    with array_in(folder) as array:
        is_so("of another array", start(f"{folder}/control"), none)
        is_so("which has it still", asked(folder, "version"), ["arrayd 1.0.0"])
        array.kill()
    with array_in(folder) as array:
        is_so("of one that was killed", asked(folder, "version"), ["arrayd 1.0.0"])
        array.process.terminate()
        array.process.wait(20)
    with array_in(folder) as array:
        is_so("of one that SIGTERM ended", asked(folder, "version"), ["arrayd 1.0.0"])
        array.quit()
    os.mkfifo(f"{folder}/fifo")
    os.symlink(f"{folder}/none", f"{folder}/link")
    is_so("no socket", (start(f"{folder}/fifo"), start(f"{folder}/link")), (none, none))
    is_so("untouched too", (stat.S_ISFIFO(os.stat(f"{folder}/fifo").st_mode), os.readlink(f"{folder}/link")), (True, f"{folder}/none"))
    with socket.create_server(("127.0.0.1", PORT)):
        is_so("a start that fails", start(f"{folder}/control"), (1, "arrayd: cannot listen at controller 1 portal 0"))
    is_so("leaves nothing", os.path.exists(f"{folder}/control"), False)
    with Array([disk], more={"ARRAYD_CONTROL": ""}) as array:
        is_so("none", array.status()["owner"], "1")
        array.quit()


@case
def silent_peer(folder):
    """Eight that say nothing hold others up for ten seconds; sessions and the console never."""
    with array_in(folder) as array:
        session, began = host(), time.monotonic()
        with contextlib.ExitStack() as silent:
            for _ in range(ATTENDANTS - 1):
                silent.enter_context(connected(folder))
            is_so("beside seven", asked(folder, "version"), ["arrayd 1.0.0"])
            is_so("at once", time.monotonic() - began < 2, True)
            silent.enter_context(connected(folder))
            time.sleep(0.2)
            is_so("the console", array.status()["owner"], "1")
            is_so("a session", session.read(0, 0, 1), bytes(512))
            is_so("then", asked(folder, "version"), ["arrayd 1.0.0"])
            is_so("about ten seconds", 8 < time.monotonic() - began < 13, True)
        with connected(folder) as peer:
            peer.sendall(b"version\nver")
            is_so("whole lines", peer.recv(100), b"arrayd 1.0.0\n. 0\n")
        with connected(folder) as peer:
            peer.sendall(b"status\n" * 20000)
        with connected(folder) as peer:
            try:
                peer.sendall(b"x" * 10000000)
            except ConnectionError:
                pass
        is_so("a line without an end", asked(folder, "version"), ["arrayd 1.0.0"])
        is_so("one that does not read", until(lambda: asked(folder, "version") == ["arrayd 1.0.0"], 15), True)
        session.close()
        array.quit()


@case
def console_as_before(folder):
    """The console says the same with a control socket and without."""
    said = []
    for more in ({}, {"ARRAYD_CONTROL": f"{folder}/control", "ARRAYD_HTTP": f"127.0.0.1:{free_port()}"}):
        with Array([made(f"{folder}/disk", 64), made(f"{folder}/more", 64)], more=more) as array:
            words_ = "status\nsessions\nversion\nend 1\nup 1\nhelp\n\xe9\ndown 1\nstatus\ndown 1\nup 1\n"
            said.append(array.last_words(words_ + "quit\n"))
    is_so("the same", said[0], said[1])
    is_so("unknown", said[0][1].count("?"), 7)


@case
def beside_the_window(folder):
    """What it tells of sessions is what the window tells."""
    import json
    at = free_port()
    with array_in(folder, more={"ARRAYD_HTTP": f"127.0.0.1:{at}"}) as array:
        session = host()
        session.read(0, 0, 1)
        with socket.create_connection(("127.0.0.1", at)) as peer:
            peer.sendall(b"GET /status HTTP/1.1\r\nHost: localhost\r\n\r\n")
            view = json.loads(all_of(peer).partition(b"\r\n\r\n")[2])["sessions"][0]
        line = sessions(folder)[0x400001370000]
        is_so("the same", [str(view[name]) for name in ("tsih", "controller", "kind", "isid", "peer", "portal", "since", "commands",
                                                         "last_command", "initiator")], list(line.groups()))
        array.quit()


@case
def console_of_the_service(folder):
    """arrayd-console asks the control socket where it is there."""
    os.mkfifo(f"{folder}/console")
    os.mkfifo(f"{folder}/told")
    ask = lambda *words_: subprocess.run([f"{TOP}/service/arrayd-console", folder, *words_], capture_output=True, text=True, check=False,
                                         timeout=60)
    console, out = (os.open(f"{folder}/{name}", os.O_RDWR) for name in ("console", "told"))
    disk = made(f"{folder}/disk", 64)
    program = begun(["--port", str(PORT), disk], more={"ARRAYD_CONTROL": f"{folder}/control"}, stdin=console, stdout=out)
    os.close(console)
    os.close(out)
    try:
        is_so("ready", ask("ready").stdout[:6], "unit 0")
        session = host()
        line = ask("sessions").stdout
        is_so("sessions", bool(SESSION.fullmatch(line.strip())), True)
        is_so("status", ask("status").stdout, "unit 0 owner 1 states 0 1 generation 0 keys 0 type 0 entries 2\n")
        is_so("version", ask("version").stdout, "arrayd 1.0.0\n")
        is_so("end", (ask("end", SESSION.fullmatch(line.strip())[1]).stdout, is_closed(session)), ("ended\n", True))
        is_so("none", (ask("end", "65535").returncode, ask("end", "x").returncode), (1, 2))
        is_so("down", ask("down", "1").stdout, "down\n")
        is_so("health", (ask("health").stdout[:9], ask("health").returncode), ("degraded:", 0))
        for line, numbers in (("down 3", "controllers are 1 and 2"), ("up", "controllers are 1 and 2"), ("keys 9", "units are 0 to 7"),
                              ("end 99999", "a TSIH is 0 to 65535")):
            is_so(line, (lambda end: (end.returncode, end.stderr))(ask(*line.split())), (2, f"arrayd-console: {line}: {numbers}\n"))
        for line in ("no", "status x", "quit now"):
            is_so(line, (lambda end: (end.returncode, end.stderr))(ask(*line.split())),
                  (2, f"arrayd-console: {line}: no such line; `help` in its place tells which there are\n"))
        is_so("quit", (lambda end: (end.returncode, end.stdout))(ask("quit")), (0, ""))
        is_so("it has ended", program.poll(), 0)
        is_so("no array", ask("sessions").returncode, 3)
    finally:
        program.kill()
        program.wait()


if __name__ == "__main__":
    CASES.main(__doc__)
