#!/usr/bin/env python3
"""Provokes what the log tells, and compares each line with what it has to be. Every line of every case is looked at too: one
line an event, its time, then `key=value`, printing characters alone, quotes where a name stands. Prints a line for each case;
then, where all were tried, each word that a line may have and that no case had, and why. Ends with status 1 where something is
otherwise, or where a word is missing that a case has to provoke.

usage: trials/log.py [--table] [NAME..]      all, where none is named; --table prints which cases had which words

The program is ./arrayd, or what the environment's ARRAYD names. Some cases want root, a loop device, a file system of their own, or
a C compiler (trials/failing.py), and say so where they are left out.
"""

import argparse
import os
import resource
import shutil
import socket
import struct
import sys
import tempfile
import time

import log_failing  # its cases
import log_lines
from cases import FAULTS, ISID, Mounted, NotHere, end_of, fill, flush, is_so, login, read, refusal, root, until, write
from initiator import BUSY, GOOD, Refused, Session
from log_lines import CASES, TIME, Log, case, disk
from running import PORT, TARGET, Array, ended

# Limits of threads are those of all processes of a user: of this one there are no others.
OWN_USER = 2_000_000 + os.getpid()

# Each command that has a name in the log, and one that has none, at unit 1.
COMMANDS = {
    "read": lambda s: s.command(1, [0x28, 0, 0, 0, 0, 0, 0, 0, 1, 0], expected=512),
    "write": lambda s: s.command(1, [0x2A, 0, 0, 0, 0, 0, 0, 0, 1, 0], out=bytes(512)),
    "compare_and_write": lambda s: s.compare_and_write(1, 0, bytes(512), bytes(512)),
    "synchronize_cache": lambda s: s.command(1, [0x35] + [0] * 9),
    "persistent_reserve_out": lambda s: s.reserve_out(1, 0, new_key=5),
    "set_target_port_groups": lambda s: s.set_port_groups(1, [(2, 0), (1, 1)]),
    "other": lambda s: s.command(1, [0x12, 0, 0, 0, 252, 0], expected=252),
}

# InitiatorNames as nobody should have them: each is one line's text, and what it was.
HOSTILE = [
    "a\ntime=2026-01-01T00:00:00.000000Z event=ready", "quote\" event=\"", "back\\slash\\", "\x1b[2J\x1b]0;title\x07",
    "\r\r\t\x7f", "\u2028\u00e9\U0001f600", "x" * 223, " ", "=", "\\x41",
]


# ---- start and end

@case
def start_and_stop(folder, log):
    before = time.time()
    with Array([disk(folder)], options=["--portals", "2"], log=log.path) as array:
        for controller, port in ((1, PORT), (1, PORT + 1), (2, PORT + 4), (2, PORT + 5)):
            log.find("listening", controller=str(controller), portal=f"127.0.0.1:{port}")
        log.find("ready")
        array.quit()
    is_so("events in order", log.events(), ["started"] + ["listening"] * 4 + ["ready", "stopping"])
    with open(log.path, encoding="ascii") as file:
        when = TIME.match(file.readline())
    told = time.mktime(tuple(map(int, when.groups()[:6])) + (0, 0, 0)) - time.timezone
    is_so("the time is the clock's", before - 2 <= told <= time.time() + 2, True)


@case
def off_by_default(folder, log):
    with Array([disk(folder)]) as array:
        login().logout()
        array.quit()
        is_so("standard error", array.process.stderr.read(), "")
    with Array([folder + "/disk"], log="") as array:
        array.quit()
    is_so("files", sorted(os.listdir(folder)), ["disk", "disk.reg", "disk.unit"])
    is_so("lines", log.all(), [])


@case
def wrong_words(folder, log):
    refused = (2, "arrayd: wrong words")
    is_so("no address", ended(["--host", "x", disk(folder)], log=log.path), refused)
    log.find("wrong_words", what="--host x")
    is_so("a hostile word", ended(["--no\n\x1b[2J", folder + "/disk"], log=log.path), refused)
    is_so("a variable", ended([folder + "/disk"], log=log.path, more={"ARRAYD_DEADLINE": "x"}), refused)
    log.find("wrong_words", what="ARRAYD_DEADLINE")
    is_so("events", log.events(), ["wrong_words"] * 3)


@case
def no_control_socket(folder, log):
    is_so("something is there", ended(["--port", str(PORT), disk(folder)], log=log.path, more={"ARRAYD_CONTROL": folder + "/disk"}),
          (1, "arrayd: cannot make the control socket"))
    log.find("cannot_control", errno="98", error="EADDRINUSE")


@case
def files_that_cannot_be_used(folder, log):
    name = os.path.join(folder, 'no\n"disk"\x1b[2J')
    is_so("not there", ended([name], log=log.path), (1, "arrayd: cannot use unit 0"))
    log.find("cannot_use", unit="0", file="disk", disk=name, why="not_there", errno="2", error="ENOENT")
    for length, why in ((0, "empty"), (513, "length_no_multiple_of_512"), (512 << 32, "too_long")):
        with open(folder + "/odd", "wb") as file:
            file.truncate(length)
        is_so(why, ended([folder + "/odd"], log=log.path), (1, "arrayd: cannot use unit 0"))
        log.find("cannot_use", file="disk", disk=folder + "/odd", why=why, errno="0", error="none")
    is_so("a folder", ended([folder], log=log.path), (1, "arrayd: cannot use unit 0"))
    log.find("cannot_use", disk=folder, why="not_opened", errno="21", error="EISDIR")
    good = disk(folder)
    with Array([good]):
        is_so("in use", ended(["--port", str(PORT + 16), good], log=log.path), (1, "arrayd: cannot use unit 0"))
    log.find("cannot_use", disk=good, why="in_use")
    for text, why in ((b"x" * 512, "no_registration_file"), (b"", "empty")):
        with open(good + ".reg", "wb") as file:
            file.write(text)
        is_so(why, ended([good], log=log.path), (1, "arrayd: cannot use registration file 0"))
        log.find("cannot_use", unit="0", file="registrations", disk=good, why=why)


@case
def port_taken(folder, log):
    with socket.socket() as other:
        other.setsockopt(socket.SOL_SOCKET, socket.SO_REUSEADDR, 1)
        other.bind(("127.0.0.1", PORT + 4))
        other.listen()
        is_so("status", ended(["--port", str(PORT), disk(folder)], log=log.path),
              (1, "arrayd: cannot listen at controller 2 portal 0"))
    log.find("cannot_listen", controller="2", portal=f"127.0.0.1:{PORT + 4}", errno="98", error="EADDRINUSE")


# ---- sessions

@case
def login_and_logout(folder, log):
    with Array([disk(folder)], log=log.path):
        session = login(2, 7)
        address = "%s:%d" % session.socket.getsockname()
        same = {"initiator": "iqn.2000-01.test:host", "isid": "0x400001370007", "from": address,
                "portal": f"127.0.0.1:{PORT + 4}", "tag": "2", "tsih": str(session.tsih)}
        log.find("login", type="normal", **same)
        for lba in range(32):
            is_so("a write", write(session, lba), GOOD)
            is_so("a read", read(session, lba), GOOD)
        session.logout()
        log.find("session_ended", why="logout", **same)
        Session("127.0.0.1", PORT).logout()
        log.find("login", type="discovery", tag="1")
        log.find("session_ended", why="logout", tag="1")
    is_so("reads and writes that go well tell nothing", log.events(),
          ["started", "listening", "listening", "ready", "login", "session_ended", "login", "session_ended"])


@case
def hostile_names(folder, log):
    with Array([disk(folder)], log=log.path):
        for name in HOSTILE:
            name = name.encode()[:223].decode("utf-8", "ignore")
            try:
                login(name=name).logout()
                log.find("login", initiator=name)
                log.find("session_ended", initiator=name, why="logout")
            except Refused as refused:
                log.find("login_refused", initiator=name, status=hex(refused.status))
            is_so("another target", refusal(target=TARGET + "x", name=name), 0x203)
            log.find("login_refused", initiator=name, status="0x203", words="Not found")
    is_so("nobody told an event of its own", log.events().count("ready"), 1)


@case
def login_refused(folder, log):
    with Array([disk(folder)], log=log.path):
        for target, name, status, words in ((TARGET + "x", "iqn.a", 0x203, "Not found"), (TARGET, "", 0x207, "Missing parameter")):
            is_so("status", refusal(target=target, name=name), status)
            line = log.find("login_refused", initiator=name, status=hex(status), words=words, isid=hex(ISID), tag="1")
            is_so("lacks", line.get("lacks"), None)
        sessions = fill()
        log.find("login_refused", status="0x302", words="Out of resources", lacks="room", unit="0", isid=hex(ISID + 64),
                 initiator="iqn.2000-01.test:host")
        del sessions


@case
def session_ended(folder, log):
    with Array([disk(folder)], log=log.path):
        login(number=1).socket.close()
        log.find("session_ended", isid=hex(ISID + 1), why="connection_closed")
        lost = login(number=2)
        lost.socket.setsockopt(socket.SOL_SOCKET, socket.SO_LINGER, struct.pack("ii", 1, 0))
        lost.socket.close()
        log.find("session_ended", isid=hex(ISID + 2), why="connection_lost", **{"in": "read"})
        first = login(number=3)
        login(number=3)
        log.find("session_ended", isid=hex(ISID + 3), why="replaced_by_same_initiator", tsih=str(first.tsih))
        bad = login(number=4)
        bad.send(struct.pack(">B15xI28x", 0x1C | 0x40, 0x1234))
        log.find("session_ended", isid=hex(ISID + 4), why="protocol_error", reason="0x5", words="Command not supported",
                 opcode="0x1c", task="0x1234")
        bad = login(number=5)
        bad.send(struct.pack(">BB14xIIII16x", 0x01, 0xE0, 0x77, 0, bad.cmd_sn, 0))
        log.find("session_ended", isid=hex(ISID + 5), why="protocol_error", reason="0x9", words="Invalid PDU field", opcode="0x1",
                 task="0x77")
        gap = login(number=6)
        gap.cmd_sn += 5
        gap.submit(0, [0] * 6)
        log.find("session_ended", isid=hex(ISID + 6), why="protocol_error", words="CmdSN leaves a gap")
        early = socket.create_connection(("127.0.0.1", PORT))
        address = "%s:%d" % early.getsockname()
        early.close()
        log.find("connection_ended", why="connection_closed", **{"from": address})


@case
def strangers(folder, log):
    with Array([disk(folder)], log=log.path) as array:
        for _ in range(100):
            socket.create_connection(("127.0.0.1", PORT)).close()
        until(lambda: log.events().count("connection_ended") >= 32, 20)
        time.sleep(2)
        array.quit()
    is_so("told one by one", log.events().count("connection_ended"), 32)
    log.find("connections_ended", count="68")


@case
def logins_that_are_refused(folder, log):
    """Of as many as whoever comes likes few are told; those of connections that end have lines of their own."""
    with Array([disk(folder)], log=log.path) as array:
        for _ in range(100):
            is_so("no such target", refusal(target=TARGET + "x"), 0x203)
        socket.create_connection(("127.0.0.1", PORT)).close()
        login().logout()
        log.find("session_ended", why="logout")
        array.quit()
    is_so("told one by one", log.events().count("login_refused"), 32)
    log.find("logins_refused", count="68")
    log.find("connection_ended")
    is_so("nothing else", "connections_ended" in log.events(), False)


@case
def discoveries(folder, log):
    """Of as many discovery sessions as whoever comes begins and ends, few are told; those of hosts have lines of their own."""
    with Array([disk(folder)], log=log.path) as array:
        for _ in range(100):
            Session("127.0.0.1", PORT, None).logout()
        login().logout()
        log.find("session_ended", why="logout", type="normal")
        array.quit()
    is_so("told one by one", sum(line.get("type") == "discovery" for line in log.all()), 32)
    log.find("discoveries", count="168")


@case
def connections_that_are_pushed_out(folder, log):
    with Array([disk(folder)], log=log.path) as array:
        guest = Session("127.0.0.1", PORT, None, "iqn.2000-01.test:guest")
        waiting = [socket.create_connection(("127.0.0.1", PORT)) for _ in range(128)]
        log.find("session_ended", why="too_many_wait", tsih=str(guest.tsih))
        login(2).logout()
        log.find("connection_ended", why="too_many_wait", **{"from": "%s:%d" % waiting[0].getsockname()})
        for peer in waiting:
            peer.close()
        array.quit()


@case
def orders_by_the_control_socket(folder, log):
    with Array([disk(folder)], log=log.path, more={"ARRAYD_CONTROL": folder + "/control"}) as array:
        host = login()
        for line in (b"status\n", b"end %d\n" % host.tsih, b"end 9\n", b"down 1\n", b"up 1\n", b"acknowledge\n", b"no\x1b\n"):
            with socket.socket(socket.AF_UNIX) as peer:
                peer.connect(folder + "/control")
                peer.sendall(line)
                peer.recv(100)
        log.find("session_ended", why="by_console", tsih=str(host.tsih), type="normal")
        array.quit()
    is_so("the orders", [(line["by"], line["line"]) for line in log.all() if line["event"] == "order"],
          [("control", line) for line in (f"end {host.tsih}", "end 9", "down 1", "up 1", "acknowledge")])


# ---- units

@case
def grew(folder, log):
    path = disk(folder)
    with Array([path], log=log.path) as array:
        session = login()
        os.truncate(path, 1 << 20)
        is_so("writes", (write(session), write(session)), (GOOD, GOOD))
        log.find("grew", unit="0", file="disk")
        array.quit()


@case
def hung(folder, log):
    with Mounted(folder) as place:
        with Array(place.that_hangs(), log=log.path, more={"ARRAYD_DEADLINE": "1"}):
            session = login()
            with place.frozen():
                is_so("writes", (write(session), write(session)), ("03 0C/00", "03 0C/00"))
                log.find("hung", unit="0", file="disk", call="write")
            log.find("back", unit="0", file="disk", call="write")


@case
def groups_set(folder, log):
    path = disk(folder)
    with Array([path, disk(folder, "second")], log=log.path) as array:
        session = login(1, 1)
        is_so("set", end_of(session.set_port_groups(0, [(2, 0), (1, 1)])), GOOD)
        log.find("groups_set", unit="0", owner="2", states="1,0", by="session", initiator="iqn.2000-01.test:host", isid=hex(ISID + 1))
        session.ready(0)
        is_so("its own group alone", end_of(session.set_port_groups(0, [(1, 3)])), GOOD)
        log.find("groups_set", unit="0", owner="2", states="3,0", by="session")
        is_so("down, twice", array.ask("down 2") + array.ask("down 2"), ["down", "down"])
        for unit in ("0", "1"):
            log.find("groups_set", unit=unit, owner="1", states="0,3", by="console")
        os.rename(path, path + ".away")
        is_so("not moved", array.ask("down 1"), ["not moved 0"])
        log.find("device_failed", unit="0", file="disk", call="open", errno="2", error="ENOENT")
        log.find("not_moved", unit="0", to="2", why="not_opened", by="console")
        session.ready(0)
        is_so("set", end_of(session.set_port_groups(0, [(2, 0), (1, 1)])), "04 67/0A")
        log.find("command_failed", unit="0", command="set_target_port_groups", key="0x4", asc="0x67", ascq="0xa", group="1",
                 initiator="iqn.2000-01.test:host")


@case
def reservations(folder, log):
    with Array([disk(folder)], log=log.path):
        one, two = login(1, 1), login(2, 2)
        steps = [(one, 0, 0, 0, 0xA, "register"), (two, 6, 0, 0, 0xB, "register_and_ignore_existing_key"),
                 (one, 1, 5, 0xA, 0, "reserve"), (two, 4, 5, 0xB, 0xA, "preempt"), (two, 2, 5, 0xB, 0, "release"),
                 (two, 5, 5, 0xB, 0xB, "preempt_and_abort"), (two, 6, 0, 0, 0xC, "register_and_ignore_existing_key"),
                 (two, 3, 0, 0xC, 0, "clear")]
        for session, action, kind, key, sakey, name in steps:
            session.ready(0)
            is_so(name, end_of(session.reserve_out(0, action, kind=kind, key=key, new_key=sakey)), GOOD)
            log.find("reservation", unit="0", action=name, key=hex(key), service_action_key=hex(sakey), type=str(kind),
                     group="1" if session is one else "2", isid=hex(session.isid), initiator="iqn.2000-01.test:host")
        two.reserve_out(0, 1, kind=5, key=0xC)
    is_so("what was refused tells nothing", log.events().count("reservation"), len(steps))


@case
def unit_reset(folder, log):
    with Array([disk(folder)], log=log.path):
        login(2, 3).manage(5, 0)
        log.find("unit_reset", unit="0", group="2", isid=hex(ISID + 3))


@case
def device_failed(folder, log):
    path = disk(folder)
    with Array([path], log=log.path) as array:
        session = login()
        os.truncate(path, 8 * 512)
        is_so("read", read(session, 9), "03 11/00")
        log.find("device_failed", unit="0", file="disk", call="read", block="9", blocks="1", errno="0", error="none")
        log.find("command_failed", unit="0", command="read", key="0x3", asc="0x11", ascq="0x0", group="1")
        is_so("write", write(session, 9), "03 0C/00")
        log.find("device_failed", file="disk", call="seek", block="9", blocks="1", errno="0")
        log.find("command_failed", unit="0", command="write", key="0x3", asc="0xc")
        array.quit()


@case
def full_disk(folder, log):
    path = disk(folder, blocks=256)
    with Array([path], log=log.path, largest=128 * 512) as array:
        session = login()
        is_so("write", write(session, 200), "03 0C/00")
        log.find("device_failed", file="disk", call="write", block="200", errno="27", error="EFBIG")
        log.find("command_failed", unit="0", command="write", key="0x3", asc="0xc", ascq="0x0", isid=hex(ISID))
        array.quit()


@case
def save_failed(folder, log):
    path = disk(folder)
    with Array([path]) as array:
        array.quit()
    with Array([path], log=log.path) as array:
        session = login()
        os.truncate(path + ".reg", 512)
        is_so("a save", end_of(session.reserve_out(0, 0, new_key=5, aptpl=True)), "04 44/00")
        log.find("device_failed", unit="0", file="registrations", call="seek", errno="0")
        log.find("command_failed", unit="0", command="persistent_reserve_out", key="0x4", asc="0x44")


@case
def flush_failed(folder, log):
    with Mounted(folder) as place:
        with Array([place.that_gets_full()], log=log.path) as array:
            session = login()
            for lba in range(0, 4096, 8):
                is_so("a write is taken", write(session, lba), GOOD)
            is_so("the flush fails", flush(session), "03 0C/00")
            line = log.find("device_failed", unit="0", file="disk", call="flush")
            is_so("the system's error", line["error"] in ("EIO", "ENOSPC"), True)
            log.find("command_failed", command="synchronize_cache", key="0x3", asc="0xc")
            array.quit()
        log.find("not_flushed", unit="0")


@case
def registrations_that_a_reboot_forgets(folder, log):
    with Mounted(folder) as place:
        device = place.loop(disk(folder))
        is_so("a node of /dev", ended([device], log=log.path), (1, "arrayd: cannot use registration file 0"))
        log.find("cannot_use", unit="0", file="registrations", disk=device, why="forgotten_by_a_reboot")
        is_so("nothing was made there", os.path.exists(device + ".reg"), False)


@case
def busy(folder, log):
    with Mounted(folder) as place:
        with Array(place.that_hangs(), log=log.path) as array:
            session, other = login(), login(2, 1)
            other.ready(1)
            with place.frozen():
                session.submit(0, [0x2A, 0, 0, 0, 0, 0, 0, 0, 1, 0], out=bytes(512))
                time.sleep(0.3)
                array.tell("quit")
                log.find("stopping")
                for command, send in COMMANDS.items():
                    is_so(command, send(other).status, BUSY)
                    log.find("busy", unit="1", command=command, group="2", isid=hex(ISID + 1))
            array.process.wait(20)


# ---- want

@case
def want_of_descriptors(folder, log):
    with Array([disk(folder)], log=log.path, limit=(resource.RLIMIT_NOFILE, (24, 24))):
        held = [socket.create_connection(("127.0.0.1", PORT)) for _ in range(40)]
        time.sleep(2)
        told = log.events().count("wanting")
        is_so(f"told at first, and again only behind a connection that was served: {told}", 1 <= told <= 5, True)
        is_so("what", {line.get("what") for line in log.all() if line["event"] == "wanting"}, {"descriptor"})
        for one in held:
            one.close()
        login()


@case
def want_of_threads(folder, log):
    root()
    path = disk(folder)
    os.chown(path, OWN_USER, OWN_USER)
    os.chown(folder, OWN_USER, OWN_USER)
    with Array([path], log=log.path, user=OWN_USER, limit=(resource.RLIMIT_NPROC, (16, 16))):
        held = [socket.create_connection(("127.0.0.1", PORT)) for _ in range(40)]
        log.find("wanting", what="thread")
        for one in held:
            one.close()


# ---- the log itself

@case
def log_that_cannot_be_written(folder, log):
    room = os.path.join(folder, "room")
    log.path = os.path.join(room, "log")
    with Array([disk(folder)], log=log.path) as array:
        # both stay until all is compared, so that no end of a session is among the lines
        sessions = [login(number=1)]
        os.mkdir(room)
        time.sleep(0.2)
        sessions.append(login(number=2))
        log.find("login", isid=hex(ISID + 2))
        lines = log.all()
        lost = sum(int(line["lines"]) for line in lines if line["event"] == "dropped")
        is_so("lines that were dropped", lost + len([line for line in lines if line["event"] != "dropped"]), 6)
        array.quit()


@case
def log_that_nobody_takes(folder, log):
    fifo = os.path.join(folder, "fifo")
    os.mkfifo(fifo)
    with Array([disk(folder)], log=fifo) as array:
        for number in range(200):
            session = login(number=number % 50)
            is_so("it serves", write(session), GOOD)
            session.logout()
        before = time.monotonic()
        is_so("it ends", array.quit(), 0)
        is_so("it ends soon", time.monotonic() - before < 10, True)


@case
def log_that_is_given_another_name(folder, log):
    with Array([disk(folder)], log=log.path):
        login(number=1).logout()
        log.find("session_ended", why="logout")
        os.rename(log.path, log.path + ".1")
        login(number=2).logout()
        log.find("session_ended", why="logout", isid=hex(ISID + 2))
    is_so("the new one begins anew", log.events(), ["login", "session_ended"])


@case
def many_at_once(folder, log):
    with Array([disk(folder)], log=log.path) as array:
        for _ in range(10):
            for session in [login(1 + number % 2, number) for number in range(30)]:
                session.logout()
        until(lambda: log.events().count("session_ended") >= 295, 20)
        time.sleep(1)
        array.quit()
    events, lost = log.events(), sum(int(line["lines"]) for line in log.all() if line["event"] == "dropped")
    is_so("each is told, or counted", events.count("login") + events.count("session_ended") + lost, 600)
    is_so(f"{lost} were dropped", lost < 6, True)


# ---- all of it

# Events and words that no case provokes, and why.
NEVER = {
    ("no_keepalive", "event", "no_keepalive"): "Linux takes these options for each connection over TCP",
    ("login_refused", "lacks", "tsih"): "there are 65,535, and so many sessions at once take some 20 GiB of memory",
    ("login_refused", "lacks", "number"): "2^64 sessions have to begin before",
    ("not_moved", "why", "bad_list"): "the console's list is a good one, whatever the states are",
    ("not_moved", "why", "gone"): "a unit has to be asked 2^64 times before",
    ("not_moved", "by", "session"): "a session is answered, and the line is command_failed",
    ("session_ended", "why", "no_memory"): "a session that has logged in has what it needs",
    ("connection_ended", "why", "logout"): "who has not logged in is refused: login_refused",
    ("connection_ended", "why", "by_console"): "an administrator ends sessions alone, by the number that a login gave",
    ("connection_ended", "why", "replaced_by_same_initiator"): "who has not logged in has no place that another takes",
    ("command_failed", "command", "other"): "no other command reaches a device",
    ("device_failed", "error", "EAGAIN"): "no file is opened so that its calls do not wait",
    ("device_failed", "error", "ENOPROTOOPT"): "only a call on a socket ends so",
    **{("device_failed", "error", error): "only an open anew ends so, and no case takes the name away like that" for error in (
        "EISDIR", "ELOOP", "ENAMETOOLONG", "ENOTDIR", "EPERM")},
    **{("login_refused", "words", words): "the array never answers so" for words in (
        "Authorization failure", "Target removed", "Can't include in session", "Target error", "Service unavailable")},
}


def tried(function):
    """Whether a case is as it has to be, and whether it was tried."""
    folder = tempfile.mkdtemp(prefix="arrayd-log-")
    log, said, is_right, was_tried = Log(folder, function.__name__), "so", True, True
    try:
        function(folder, log)
    except NotHere as why:
        said, was_tried = f"left out: {why}", False
    except FAULTS as fault:
        said, is_right = f"NOT SO: {type(fault).__name__} {fault}", False
    finally:
        log.all()
        shutil.rmtree(folder, ignore_errors=True)
    print(f"{function.__name__:42} {said}", flush=True)
    return is_right, was_tried


def is_each_word_told():
    """Whether each word that a line may have was told, but for those that never are."""
    spelled = log_lines.spelled()
    for event, field, word in sorted(spelled - set(log_lines.TOLD)):
        why = NEVER.get((event, field, word), "NOT PROVOKED, though it has to be")
        print(f"event={event} {field}={word}: {why}")
    told = [row for row in NEVER if row in log_lines.TOLD or row not in spelled]
    if told:
        print(f"told, or not to be spelled, though it is listed as never told: {told}")
    return spelled - set(log_lines.TOLD) <= set(NEVER) and not told


def print_table():
    for event, field, word in sorted(log_lines.spelled() & set(log_lines.TOLD)):
        cases = list(log_lines.TOLD[event, field, word])
        print(f"event={event} {field}={word}: {' '.join(cases[:3])}{' ..' if len(cases) > 3 else ''}")


def main():
    words = argparse.ArgumentParser(usage=__doc__.split("usage: ")[1].splitlines()[0])
    words.add_argument("--table", action="store_true")
    words.add_argument("names", nargs="*")
    words = words.parse_args()
    ends = [tried(function) for function in CASES.named(words.names, __doc__)]
    print(f"{sum(right for right, _ in ends)} so, {sum(not right for right, _ in ends)} not")
    if words.table:
        print_table()
    is_right = all(right for right, _ in ends)
    if not words.names and all(was_tried for _, was_tried in ends):
        is_right = is_each_word_told() and is_right
    sys.exit(0 if is_right else 1)


if __name__ == "__main__":
    main()
