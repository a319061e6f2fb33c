#!/usr/bin/env python3
"""Looks through the window of a running array: sends it what this script knows, and compares what /metrics, /status and /health say of
it; then asks what may not be asked, half a request, a thousand connections, and reads slowly, beside two sessions that work.
Prints a line for each case. Ends with status 1 where something is otherwise.

usage: trials/window.py [NAME..]      all, where none is named

The program is ./arrayd, or what the environment's ARRAYD names. promtool and prometheus are Debian's package prometheus; where they are
not there, their cases say so.
"""

import contextlib
import errno
import fcntl
import http.server
import json
import math
import os
import re
import shutil
import socket
import struct
import subprocess
import threading
import time

from cases import Cases, Mounted, NotHere, end_of, flush, is_so, until, write
from failing import EVER, Failing
from free_port import free_port
from initiator import GOOD, RESERVATION_CONFLICT, Session
from running import PORT, TARGET, TOP, Array, Wrong, ended, made, ran

AT = free_port()
CASES = Cases()
case = CASES.case
SAMPLE = re.compile(r'([a-z_]+)\{((?:[a-z_]+="(?:[^"\\\n]|\\[\\"n])*",)*)\} (\d+(?:e-6)?)')
LABEL = re.compile(r'([a-z_]+)="((?:[^"\\\n]|\\[\\"n])*)",')
HOSTILE = [
    "a\narrayd_up 1", "quote\"} 1", "back\\slash\\", "<script>document.title='owned'</script>", "\x1b[2J\r\t", "\u00e9\U0001f600",
    "x" * 223,
]


def window(folder, units=1, at=None, options=(), log=None):
    """An array with a window."""
    disks = [made(f"{folder}/disk{unit}", 4096) for unit in range(units)]
    return Array(disks, options=list(options), log=log, more={"ARRAYD_HTTP": at or f"127.0.0.1:{AT}"})


def host(controller=1, name="iqn.2000-01.test:host", isid=0x400001370000):
    session = Session("127.0.0.1", PORT + 4 * (controller - 1), TARGET, name, isid, timeout=20)
    for unit in range(8):
        session.command(unit, [0] * 6)
    return session


def asked(request, seconds=8):
    """What is answered to these bytes: status, fields and body."""
    with socket.create_connection(("127.0.0.1", AT), timeout=seconds) as peer:
        peer.sendall(request)
        answer = b""
        while True:
            part = peer.recv(65536)
            if not part:
                break
            answer += part
    head, _, body = answer.partition(b"\r\n\r\n")
    lines = head.decode("latin-1").split("\r\n")
    fields = dict(line.lower().split(": ", 1) for line in lines[1:])
    return (int(lines[0].split()[1]) if lines[0] else None), fields, body


def get(path, host=None):
    return asked(f"GET {path} HTTP/1.1\r\nHost: {host or f'127.0.0.1:{AT}'}\r\n\r\n".encode())


def metrics():
    """The samples by name and labels, each of whose lines has to be spelled as lines are."""
    status, fields, body = get("/metrics")
    is_so("status of /metrics", (status, fields["content-type"]), (200, "text/plain; version=0.0.4; charset=utf-8"))
    found, kinds = {}, {}
    for line in body.decode("ascii").split("\n")[:-1]:
        if line.startswith("# HELP "):
            continue
        if line.startswith("# TYPE "):
            _, _, name, kind = line.split(" ")
            kinds[name] = kind
            continue
        sample = SAMPLE.fullmatch(line)
        if not sample or re.sub("_(bucket|sum|count)$", "", sample[1]) not in kinds and sample[1] not in kinds:
            raise Wrong(f"no sample: {line!r}")
        key = (sample[1], frozenset((name, value) for name, value in LABEL.findall(sample[2])))
        if key in found:
            raise Wrong(f"twice: {line!r}")
        found[key] = float(sample[3])
    return found


def value(found, name, **labels):
    return found[name, frozenset((key, str(text)) for key, text in labels.items())]


def status():
    code, fields, body = get("/status")
    is_so("status of /status", (code, fields["content-type"]), (200, "application/json"))
    return json.loads(body)


# ---- what is counted

def work(session, reads, writes, blocks):
    for _ in range(reads):
        session.read(0, 0, blocks)
    for _ in range(writes):
        session.write(0, 0, bytes(512 * blocks))


@case
def counts(folder):
    with window(folder, 2) as array:
        first, second = host(1), host(2, isid=0x400001370001)
        before = metrics()
        work(first, 7, 3, 8)
        work(second, 2, 5, 300)
        first.compare_and_write(0, 0, bytes(512), bytes(512))
        is_so("a difference", first.compare_and_write(0, 0, b"x" * 512, bytes(512)).sense_key(), (0x0E, 0x1D, 0))
        first.flush(1)
        is_so("unknown", first.command(1, [0x93] + [0] * 15).sense_key(), (5, 0x20, 0))
        first.reserve_out(1, 0, new_key=5)
        first.reserve_out(1, 1, kind=1, key=5)
        is_so("conflict", second.command(1, [0x2A, 0, 0, 0, 0, 0, 0, 0, 1, 0], out=bytes(512)).status, RESERVATION_CONFLICT)
        after = metrics()
        grown = lambda name, **labels: value(after, name, **labels) - value(before, name, **labels)
        commands = lambda unit, controller, operation: grown(
            "arrayd_commands_total", unit=unit, controller=controller, operation=operation)
        is_so("reads", [commands(0, 1, "read"), commands(0, 2, "read"), commands(1, 1, "read")], [7, 2, 0])
        is_so("writes", [commands(0, 1, "write"), commands(0, 2, "write"), commands(1, 2, "write")], [3, 5, 1])
        is_so("others", [commands(0, 1, "compare_and_write"), commands(1, 1, "synchronize_cache"),
                         commands(1, 1, "persistent_reserve_out"), commands(1, 1, "other")], [2, 1, 2, 1])
        size = lambda name, unit, controller: grown(name, unit=unit, controller=controller)
        is_so("bytes read", [size("arrayd_read_bytes_total", 0, 1), size("arrayd_read_bytes_total", 0, 2)],
              [7 * 4096, 2 * 153600])
        is_so("bytes written", [size("arrayd_written_bytes_total", 0, 1), size("arrayd_written_bytes_total", 0, 2),
                                size("arrayd_written_bytes_total", 1, 2)], [3 * 4096 + 512, 5 * 153600, 0])
        is_so("ends", [size("arrayd_miscompares_total", 0, 1), size("arrayd_reservation_conflicts_total", 1, 2),
                       size("arrayd_busy_total", 0, 1)], [1, 1, 0])
        is_so("sense 5", grown("arrayd_check_conditions_total", unit=1, controller=1, sense_key="0x5"), 1)
        for unit, controller, count in ((0, 1, 12), (0, 2, 7), (1, 1, 4), (1, 2, 1)):
            is_so("times", grown("arrayd_command_duration_seconds_count", unit=unit, controller=controller), count)
            is_so("last bucket", grown("arrayd_command_duration_seconds_bucket", unit=unit, controller=controller, le="+Inf"), count)
        is_so("registrants", [value(after, "arrayd_unit_registrants", unit=1), value(after, "arrayd_unit_reservation_type", unit=1)],
              [1, 1])
        first.close()
        array.quit()


def full_status(session, unit):
    """What READ FULL STATUS tells (SPC-4, 6.15.5): name, ISID, group, key, and the type where it holds."""
    # what it has to be told first
    session.command(unit, [0] * 6)
    data, found = session.reserve_in(unit, 3), []
    rest = data[8:8 + int.from_bytes(data[4:8], "big")]
    while rest:
        more = int.from_bytes(rest[20:24], "big")
        name, _, isid = rest[28:24 + more].rstrip(b"\0").decode().rpartition(",i,")
        found.append((name, int(isid, 16), 1 if int.from_bytes(rest[18:20], "big") == 1 else 2, int.from_bytes(rest[:8], "big"),
                      rest[13] & 15 if rest[12] & 1 else 0))
        rest = rest[24 + more:]
    return found


def registrations_of(view, unit):
    return [(one["initiator"], int(one["isid"], 16), one["controller"], int(one["key"], 16), one["reservation_type"])
            for one in view["units"][unit]["registrations"]]


@case
def registrations(folder):
    with window(folder, 2) as array:
        first, second, third = host(1), host(2), host(1, "iqn.2000-01.test:other", 0x400001370009)
        is_so("none", (registrations_of(status(), 0), registrations_of(status(), 1)), ([], []))
        for session, key in ((first, 0x11), (second, 2 ** 64 - 1), (third, 0xABCDEF)):
            session.reserve_out(0, 0, new_key=key)
        third.reserve_out(0, 1, kind=5, key=0xABCDEF)
        found = registrations_of(status(), 0)
        is_so("as READ FULL STATUS", found, full_status(first, 0))
        is_so("the holder", [one for one in found if one[4]], [("iqn.2000-01.test:other", 0x400001370009, 1, 0xABCDEF, 5)])
        is_so("three", len(found), 3)
        is_so("the other unit", registrations_of(status(), 1), [])
        third.reserve_out(0, 2, kind=5, key=0xABCDEF)
        second.command(0, [0] * 6)
        is_so("reserved", second.reserve_out(0, 1, kind=8, key=2 ** 64 - 1).status, GOOD)
        found = registrations_of(status(), 0)
        is_so("all hold", (found, {one[4] for one in found}), (full_status(first, 0), {8}))
        is_so("clear", second.reserve_out(0, 3, key=2 ** 64 - 1).status, GOOD)
        is_so("cleared", registrations_of(status(), 0), [])
        array.quit()


@case
def sessions(folder):
    with window(folder) as array:
        began = time.time()
        first, second = host(1), host(2, "iqn.2000-01.test:other", 0x400001370007)
        first.read(0, 0, 1)
        seen = {one["controller"]: one for one in status()["sessions"]}
        is_so("initiators", [seen[1]["initiator"], seen[2]["initiator"]], ["iqn.2000-01.test:host", "iqn.2000-01.test:other"])
        is_so("ISIDs", [seen[1]["isid"], seen[2]["isid"]], ["0x400001370000", "0x400001370007"])
        is_so("last", [seen[1]["last_command"], seen[2]["last_command"]], ["read", "other"])
        is_so("commands", [seen[1]["commands"], seen[2]["commands"]], [2, 1])
        is_so("since", abs(seen[1]["since"] - began) < 3, True)
        is_so("peer", seen[1]["peer"], "127.0.0.1:%d" % first.socket.getsockname()[1])
        is_so("portal", seen[2]["portal"], f"127.0.0.1:{PORT + 4}")
        is_so("gauge", value(metrics(), "arrayd_sessions", controller=1, type="normal"), 1)
        read = value(metrics(), "arrayd_commands_total", unit=0, controller=1, operation="read")
        first.logout()
        until(lambda: len(status()["sessions"]) == 1)
        is_so("left", [one["controller"] for one in status()["sessions"]], [2])
        is_so("kept", value(metrics(), "arrayd_commands_total", unit=0, controller=1, operation="read"), read)
        second.close()
        array.quit()


@case
def logins_that_are_refused(folder):
    with window(folder) as array:
        host().close()
        for _ in range(3):
            try:
                Session("127.0.0.1", PORT, "iqn.2000-01.test:no", timeout=20)
            except Exception:
                pass
        until(lambda: value(metrics(), "arrayd_refused_logins_total", cause="request") == 3)
        found = metrics()
        is_so("logins", value(found, "arrayd_logins_total"), 1)
        is_so("refused", value(found, "arrayd_refused_logins_total", cause="request"), 3)
        array.quit()


@case
def controllers(folder):
    with window(folder, 2) as array:
        view = status()
        is_so("owners", [unit["owner"] for unit in view["units"]], [1, 2])
        array.ask("down 1")
        view = status()
        is_so("owners then", [unit["owner"] for unit in view["units"]], [2, 2])
        is_so("states", [[path["state"] for path in unit["paths"]] for unit in view["units"]], [[3, 0], [3, 0]])
        is_so("disk", view["units"][1]["disk"], f"{folder}/disk1")
        is_so("degraded", get("/health")[::2], (200, b"degraded: controller 1 is down: no unit is served by it\n"))
        found = metrics()
        is_so("in numbers", [value(found, "arrayd_problems"), value(found, "arrayd_degraded"),
                             value(found, "arrayd_controller_down", controller=1),
                             value(found, "arrayd_controller_down", controller=2)], [0, 1, 1, 0])
        array.quit()


@case
def names(folder):
    with window(folder) as array:
        open_ = [host(1, name, 0x400001370000 + at) for at, name in enumerate(HOSTILE)]
        found = {one["isid"]: one["initiator"] for one in status()["sessions"]}
        for at, name in enumerate(HOSTILE):
            is_so("the name", found[hex(0x400001370000 + at)], name)
        for (metric, labels), _ in metrics().items():
            if metric == "arrayd_session_commands_total":
                at = int(dict(labels)["isid"], 16) - 0x400001370000
                # the spelling of Prometheus, and in it that of the log for what is no printing character
                text = re.sub(r'\\(["\\])', r"\1", dict(labels)["initiator"])
                said = re.sub(rb'\\x([0-9a-f]{2})', lambda m: bytes([int(m[1], 16)]), text.encode())
                is_so("the name in a label", said, HOSTILE[at].encode())
        is_so("samples", sum(name == "arrayd_session_commands_total" for name, _ in metrics()), len(HOSTILE))
        for session in open_:
            session.close()
        array.quit()


# ---- what is wrong

def wrong(unit, trouble):
    """/health tells of this trouble of a unit as the page of trouble has it, with what failed; /metrics and /status too."""
    with open(f"{TOP}/docs/TROUBLE.md", encoding="utf-8") as file:
        page = " ".join(file.read().replace("**", "").split())
    code, _, said = get("/health")
    is_so("health", code, 503)
    for line in said.decode().splitlines():
        words_ = re.fullmatch(f"unit {unit}: (.*?)(?: call=[a-z]+ error=[a-zA-Z]+( errno=[0-9]+)? count=[0-9]+ began=[^ ]*Z last=[^ ]*Z)?", line)[1]
        if words_ not in page:
            raise Wrong(f"docs/TROUBLE.md does not say: {words_}")
    view = status()
    is_so("problems", view["problems"], said.decode().splitlines())
    is_so("/status", {one["what"]: one["count"] for one in view["units"][unit]["troubles"]}[trouble], 1)
    is_so("/metrics", value(metrics(), "arrayd_unit_trouble", unit=unit, trouble=trouble), 1)
    return view["units"][unit]["health"]


@case
def disk_that_became_shorter(folder):
    with window(folder, 2) as array:
        session = host(2)
        is_so("well", (get("/health")[::2], status()["units"][1]["health"]), ((200, b"ok\n"), "well"))
        os.truncate(f"{folder}/disk1", 512)
        is_so("a read", session.command(1, [0x28, 0, 0, 0, 0, 100, 0, 0, 1, 0], expected=512).sense_key(), (3, 0x11, 0))
        is_so("health", wrong(1, "calls_failed"), "calls on it fail")
        is_so("calls", value(metrics(), "arrayd_device_failures_total", unit=1, file="disk", call="read"), 1)
        os.truncate(f"{folder}/disk1", 4096 * 512)
        session.read(1, 99, 1)
        is_so("another block", get("/health")[0], 503)
        session.read(1, 98, 4)
        over(1, "disk", "read", "none")
        is_so("sense 3", value(metrics(), "arrayd_check_conditions_total", unit=1, controller=2, sense_key="0x3"), 1)
        array.quit()


def over(unit, file, call, error):
    """/health is well again, and /status keeps what was."""
    is_so("well again", get("/health")[::2], (200, b"ok\n"))
    view = status()["units"][unit]
    is_so("words", view["health"], "well")
    kept = [one for one in view["failures"] if (one["file"], one["call"]) == (file, call)]
    is_so("kept", [(one["error"], one["is_now"]) for one in kept], [(error, False)])
    is_so("times", kept[0]["began"] <= kept[0]["last"] <= kept[0]["ended"] <= time.time() + 1, True)
    is_so("lately", kept[0]["began"] > time.time() - 120, True)


@case
def write_that_found_no_room(folder):
    """A write fails by ENOSPC, which is told until a flush behind it is GOOD; one of another unit changes nothing."""
    failing = Failing(folder)
    disks = [made(f"{folder}/disk{unit}", 4096) for unit in range(2)]
    with Array(disks, more={"ARRAYD_HTTP": f"127.0.0.1:{AT}", **failing.environment}) as array:
        session = host()
        failing.let("pwrite", errno.ENOSPC)
        is_so("the write", end_of(session.command(0, [0x2A, 0, 0, 0, 0, 7, 0, 0, 1, 0], out=bytes(512))), "03 0C/00")
        is_so("health", wrong(0, "calls_failed"), "calls on it fail")
        is_so("of room", b"The file system is full: make room. call=write error=ENOSPC count=1 " in get("/health")[2], True)
        session.write(0, 0, bytes(512))
        session.flush(1)
        is_so("not yet", get("/health")[0], 503)
        is_so("a flush", flush(session), GOOD)
        over(0, "disk", "write", "ENOSPC")
        is_so("counted", value(metrics(), "arrayd_device_failures_total", unit=0, file="disk", call="write"), 1)
        # a number stands for an error without a name, and what is over does not count any more
        failing.let("pwrite", errno.EPROTO)
        is_so("another write", end_of(session.command(0, [0x2A, 0, 0, 0, 0, 7, 0, 0, 1, 0], out=bytes(512))), "03 0C/00")
        is_so("of its own", f" call=write error=other errno={errno.EPROTO} count=1 began=" in get("/health")[2].decode(), True)
        is_so("of both", [one["count"] for one in status()["units"][0]["failures"]], [2])
        array.quit()


@case
def registration_that_was_not_saved(folder):
    """A save fails as the file has no name, and is told until one is GOOD."""
    with window(folder) as array:
        session = host()
        name = f"{folder}/disk0.reg"
        os.rename(name, name + ".away")
        is_so("a save", end_of(session.reserve_out(0, 0, new_key=5, aptpl=True)), "04 44/00")
        wrong(0, "registrations_not_saved")
        os.rename(name + ".away", name)
        is_so("not yet", get("/health")[0], 503)
        is_so("another", end_of(session.reserve_out(0, 0, new_key=5, aptpl=True)), GOOD)
        over(0, "registrations", "open", "ENOENT")
        array.quit()


@case
def failure_that_is_acknowledged(folder):
    """A read that failed is over when an administrator says so; a flush that was lost is not."""
    failing, control = Failing(folder), f"{folder}/control"
    disks = [made(f"{folder}/disk{unit}", 4096) for unit in range(2)]
    with Array(disks, more={"ARRAYD_HTTP": f"127.0.0.1:{AT}", "ARRAYD_CONTROL": control, **failing.environment}) as array:
        session = host()
        failing.let("pread", errno.EIO, times=4)
        is_so("the read", end_of(session.command(0, [0x28, 0, 0, 0, 0, 9, 0, 0, 1, 0], expected=512)), "03 11/00")
        wrong(0, "calls_failed")
        failing.stop()
        is_so("seen", said_by(control, "acknowledge"), b"acknowledged\n. 0\n")
        over(0, "disk", "read", "EIO")
        session.write(1, 0, bytes(512))
        failing.let("fdatasync", errno.EIO)
        is_so("the flush", end_of(session.command(1, [0x35] + [0] * 9)), "03 0C/00")
        wrong(1, "flushes_lost")
        said_by(control, "acknowledge")
        wrong(1, "flushes_lost")
        array.quit()


@case
def reads_that_failed_at_two_places(folder):
    """That the blocks of one of them are read does not make the other one well, with a deadline and without, where much is read beside."""
    for number, more in enumerate(({}, {"ARRAYD_DEADLINE": "20"})):
        failing = Failing(folder)
        more = {"ARRAYD_HTTP": f"127.0.0.1:{AT}", **failing.environment, **more}
        with Array([made(f"{folder}/disk{number}", 4096)], more=more) as array:
            session = host()
            failing.let("pread", errno.EIO, times=EVER)
            for lba in (9, 200):
                is_so("a read", end_of(session.command(0, [0x28, 0, 0, 0, 0, lba, 0, 0, 1, 0], expected=512)), "03 11/00")
            failing.stop()
            session.read(0, 200, 1)
            wrong(0, "calls_failed")
            session.read(0, 9, 192)
            over(0, "disk", "read", "EIO")
            array.quit()


@case
def causes_of_one_unit(folder):
    """Each call that fails has its line, until it is over: a write by the next flush, reads at more places than are known apart by
    reading on from the first to the last."""
    failing = Failing(folder)
    with Array([made(f"{folder}/disk", 4096)], more={"ARRAYD_HTTP": f"127.0.0.1:{AT}", **failing.environment}) as array:
        session = host()
        failing.let("pread", errno.EIO, times=EVER)
        for at in range(10):
            is_so("a read", end_of(session.command(0, [0x28, 0, 0, 0, 0, 20 * at, 0, 0, 1, 0], expected=512)), "03 11/00")
        failing.stop()
        failing.let("pwrite", errno.ENOSPC)
        is_so("a write", end_of(session.command(0, [0x2A, 0, 0, 0, 0, 7, 0, 0, 1, 0], out=bytes(512))), "03 0C/00")
        wrong(0, "calls_failed")
        told = lambda: [word for line in get("/health")[2].decode().splitlines() for word in line.split() if word.startswith("call=")]
        is_so("both", told(), ["call=read", "call=write"])
        is_so("a flush", flush(session), GOOD)
        session.read(0, 0, 150)
        is_so("the reads are left", told(), ["call=read"])
        session.read(0, 150, 31)
        over(0, "disk", "read", "EIO")
        array.quit()


class Hasty(Session):
    """Its first command comes with the last request of its login."""

    def send(self, header, data=b""):
        if b"MaxRecvDataSegmentLength" not in data:
            return super().send(header, data)
        header = bytearray(header)
        header[5:8] = len(data).to_bytes(3, "big")
        ready = struct.pack(">BBxxI8sIIII16s", 0x01, 0x80, 0, bytes(8), 0x777, 0, self.cmd_sn, self.exp_stat_sn, bytes(16))
        return self.socket.sendall(bytes(header) + data + bytes(-len(data) % 4) + ready)


@case
def command_that_came_with_the_login(folder):
    """It takes no longer than any other, though nobody looked at the clock before."""
    with window(folder) as array:
        session = Hasty("127.0.0.1", PORT, TARGET)
        is_so("its answer", session.receive()[0][16:20], bytes([0, 0, 7, 0x77]))
        counted = lambda: value(metrics(), "arrayd_command_duration_seconds_count", unit=0, controller=1)
        is_so("it is counted", until(lambda: counted() > 0), True)
        is_so("its time", value(metrics(), "arrayd_command_duration_seconds_sum", unit=0, controller=1) < 5, True)
        array.quit()


@case
def log_that_hangs(folder):
    """Its writer waits in a pipe that nobody reads."""
    log = f"{folder}/log"
    os.mkfifo(log)
    reader = os.open(log, os.O_RDONLY | os.O_NONBLOCK)
    fcntl.fcntl(reader, fcntl.F_SETPIPE_SZ, 4096)
    with window(folder, log=log) as array:
        for _ in range(40):
            Session("127.0.0.1", PORT, TARGET).close()
        is_so("health", until(lambda: get("/health")[::2] == (503, b"The log cannot be written.\n"), 30), True)
        while os.read(reader, 65536):
            if get("/health")[0] == 200:
                break
            time.sleep(0.1)
        is_so("well again", get("/health")[0], 200)
        array.quit()
    os.close(reader)


def said_by(control, line):
    """What the control socket answers to a line."""
    with socket.socket(socket.AF_UNIX) as peer:
        peer.settimeout(10)
        peer.connect(control)
        peer.sendall(line.encode() + b"\n")
        peer.shutdown(socket.SHUT_WR)
        answer = b""
        while part := peer.recv(4096):
            answer += part
    return answer


@case
def commands_that_wait_for_each_other(folder):
    """Sixteen READs that came together, of a second each: none of them hangs."""
    failing = Failing(folder)
    with Array([made(f"{folder}/disk", 4096)], more={"ARRAYD_HTTP": f"127.0.0.1:{AT}", **failing.environment}) as array:
        session = host()
        failing.slow("pread", 1.0)
        tags = [session.submit(0, [0x28, 0, 0, 0, 0, at, 0, 0, 1, 0], expected=512) for at in range(16)]
        longest = 0.0
        for _ in range(30):
            time.sleep(0.5)
            longest = max(longest, value(metrics(), "arrayd_unit_oldest_command_seconds", unit=0))
        is_so("as long as one", 0.5 < longest < 3, True)
        failing.slow("pread", 0)
        for tag in tags:
            session.wait(tag)
        array.quit()


@case
def disk_that_answers_late(folder):
    """Eight sessions write at once to a disk that takes 2.5 seconds for each: the last one waits longer than where a disk hangs."""
    failing = Failing(folder)
    with Array([made(f"{folder}/disk", 4096)], more={"ARRAYD_HTTP": f"127.0.0.1:{AT}", **failing.environment}) as array:
        hosts = [host(isid=0x400001370000 + at) for at in range(8)]
        failing.slow("pwrite", 2.5)
        tags = [one.submit(0, [0x2A, 0, 0, 0, 0, at, 0, 0, 1, 0], out=bytes(512)) for at, one in enumerate(hosts)]
        is_so("it waits", until(lambda: value(metrics(), "arrayd_unit_oldest_command_seconds", unit=0) >= 10.5, seconds=15), True)
        is_so("health", wrong(0, "answers_late"), "answers late")
        is_so("it does not hang", value(metrics(), "arrayd_unit_trouble", unit=0, trouble="hangs"), 0)
        failing.slow("pwrite", 0)
        is_so("then", {end_of(one.wait(tag)) for one, tag in zip(hosts, tags)}, {GOOD})
        is_so("well again", (get("/health")[0], status()["units"][0]["health"]), (200, "well"))
        array.quit()


@case
def log_that_cannot_be_written(folder):
    with window(folder, log=f"{folder}/none/log") as array:
        session = host()
        until(lambda: get("/health")[0] != 200)
        is_so("health", get("/health")[::2], (503, b"The log cannot be written.\n"))
        is_so("in numbers", value(metrics(), "arrayd_problems"), 1)
        os.mkdir(f"{folder}/none")
        session.logout()
        until(lambda: get("/health")[0] == 200)
        is_so("well again", get("/health")[::2], (200, b"ok\n"))
        array.quit()


@case
def flushes_that_are_lost(folder):
    with Mounted(folder) as place:
        with Array([place.that_gets_full()], more={"ARRAYD_HTTP": f"127.0.0.1:{AT}"}) as array:
            session = host()
            is_so("a flush", (write(session, 0), flush(session)), (GOOD, GOOD))
            for lba in range(0, 4096, 8):
                write(session, lba, b"more")
            is_so("the flush fails", flush(session), "03 0C/00")
            is_so("health", wrong(0, "flushes_lost"), "flushes are lost")
            found = metrics()
            is_so("flushes", [value(found, name, unit=0, controller=1) for name in
                              ("arrayd_flushes_total", "arrayd_failed_flushes_total")], [2, 1])
            array.quit()


@case
def disk_that_hangs(folder):
    with Mounted(folder) as place:
        with Array(place.that_hangs(), more={"ARRAYD_HTTP": f"127.0.0.1:{AT}"}) as array:
            session = host()
            with place.frozen():
                tag = session.submit(0, [0x2A, 0, 0, 0, 0, 0, 0, 0, 1, 0], out=bytes(512))
                time.sleep(2)
                is_so("slow", status()["units"][0]["health"], "slow")
                is_so("not wrong yet", get("/health")[0], 200)
                began = time.monotonic()
                get("/metrics")
                took = time.monotonic() - began
                print(f"      a scrape beside it took {1000 * took:.1f} ms")
                is_so("left out", [unit["registrations"] for unit in status()["units"]], [None, []])
                time.sleep(9)
                is_so("health", wrong(0, "hangs"), "hangs")
                is_so("for so long", 10 < value(metrics(), "arrayd_unit_oldest_command_seconds", unit=0) < 20, True)
            is_so("then", end_of(session.wait(tag)), GOOD)
            is_so("well again", (get("/health")[0], status()["units"][0]["health"]), (200, "well"))
            is_so("the bucket of what took so long",
                  value(metrics(), "arrayd_command_duration_seconds_bucket", unit=0, controller=1, le="+Inf")
                  - value(metrics(), "arrayd_command_duration_seconds_bucket", unit=0, controller=1, le="10"), 1)
            array.quit()


@case
def registration_file_that_hangs(folder):
    """A save that comes too late is told of the registration file, and not of the disk; then as one that was not saved, until one is."""
    with Mounted(folder) as place:
        with Array(place.that_hangs(), more={"ARRAYD_HTTP": f"127.0.0.1:{AT}", "ARRAYD_DEADLINE": "2"}) as array:
            session = host()
            session.ready(0)
            with place.frozen():
                is_so("a save", end_of(session.reserve_out(0, 6, new_key=5, aptpl=True)), "04 44/00")
                wrong(0, "registrations_hang")
                is_so("of the disk", status()["units"][0]["health"], "well, but its registration file hangs")
                is_so("a read", end_of(session.command(0, [0x28, 0, 0, 0, 0, 0, 0, 0, 1, 0], expected=512)), GOOD)
            hangs = lambda: any(one["what"] == "registrations_hang" and one["count"] for one in status()["units"][0]["troubles"])
            is_so("it is back in time", until(lambda: not hangs(), 10), True)
            wrong(0, "registrations_not_saved")
            is_so("another", end_of(session.reserve_out(0, 6, new_key=5, aptpl=True)), GOOD)
            is_so("well again", (get("/health")[0], status()["units"][0]["health"]), (200, "well"))
            array.quit()


@case
def array_that_ends(folder):
    """From `quit` on it is not well, also while its flush waits behind a command that hangs."""
    with Mounted(folder) as place:
        with Array(place.that_hangs(), more={"ARRAYD_HTTP": f"127.0.0.1:{AT}"}) as array:
            session = host()
            is_so("a write", write(session, 0), GOOD)
            is_so("well", get("/health")[::2], (200, b"ok\n"))
            with place.frozen():
                session.submit(0, [0x2A, 0, 0, 0, 0, 0, 0, 0, 1, 0], out=bytes(512))
                time.sleep(0.5)
                array.tell("quit")
                ends = (503, b"The array ends: it takes no command in any more.\n")
                is_so("it ends", until(lambda: get("/health")[::2] == ends, 5), True)
                is_so("in numbers", value(metrics(), "arrayd_problems"), 1)
            is_so("it has ended", array.process.wait(30), 0)


# ---- what may be asked, and by how many

@case
def answers(folder):
    with window(folder) as array:
        is_so("page", (get("/")[0], get("/")[1]["content-type"]), (200, "text/html; charset=utf-8"))
        is_so("another", get("/no")[0], 404)
        is_so("with words", get("/health?x=1")[0], 200)
        for method in ("POST", "PUT", "DELETE", "OPTIONS"):
            code, fields, said = asked(f"{method} /status HTTP/1.1\r\nHost: localhost\r\n\r\n".encode())
            is_so(method, (code, fields["allow"], said), (405, "get, head", b"only GET and HEAD\n"))
        for path in ("/", "/health", "/no"):
            code, fields, body = asked(f"HEAD {path} HTTP/1.1\r\nHost: localhost\r\n\r\n".encode())
            full = get(path)
            is_so("HEAD", (code, fields["content-length"], body), (full[0], full[1]["content-length"], b""))
        for name in (f"127.0.0.1:{AT}", "127.0.0.1", "localhost", f"localhost:{AT}", f"LOCALHOST:{AT}", "LocalHost"):
            is_so(name, get("/health", name)[0], 200)
        for name in ("evil.example", f"evil.example:{AT}", "localhost.evil.example", "127.0.0.1.evil.example", "1.2.3", "10.1.2.3", f"127.0.0.2:{AT}", "here"):
            is_so(name, get("/status", name)[::2], (421, b"ask by the address of the array, or as localhost\n"))
        is_so("no Host", asked(b"GET /health HTTP/1.0\r\n\r\n")[0], 200)
        is_so("a body", asked(b"GET / HTTP/1.1\r\nHost: localhost\r\nContent-Length: 5\r\n\r\nhello")[0], 413)
        is_so("long field", asked(b"GET / HTTP/1.1\r\nHost: localhost\r\nA: " + b"x" * 8200 + b"\r\n\r\n")[0], 431)
        is_so("long line", asked(b"GET /" + b"x" * 9000 + b" HTTP/1.1\r\n\r\n")[0], 414)
        is_so("no HTTP", asked(b"\x00\x01\x02\r\n\r\n")[0], 400)
        is_so("one answer", asked(b"GET /health HTTP/1.1\r\nHost: localhost\r\n\r\n" * 3)[2], b"ok\n")
        array.quit()


def left_alone(seconds, request=b""):
    """How long a connection lasts that sends this and no more."""
    began = time.monotonic()
    with socket.create_connection(("127.0.0.1", AT), timeout=seconds) as peer:
        peer.sendall(request)
        while peer.recv(4096):
            pass
    return time.monotonic() - began


@case
def half_a_request(folder):
    with window(folder) as array:
        for request in (b"", b"GET / HT"):
            is_so("about 5 s", 4.5 < left_alone(10, request) < 6.5, True)
        began, peer = time.monotonic(), socket.create_connection(("127.0.0.1", AT), timeout=10)
        try:
            while time.monotonic() - began < 9:
                peer.sendall(b"G")
                time.sleep(0.5)
        except OSError:
            pass
        is_so("a byte at a time", time.monotonic() - began < 8, True)
        array.quit()


@case
def connections_that_say_nothing(folder):
    """Sixteen of them, which come again for ever, shut nobody out: the oldest goes first."""
    with window(folder) as array:
        for _ in range(3):
            peers = [socket.create_connection(("127.0.0.1", AT), timeout=10) for _ in range(16)]
            began = time.monotonic()
            is_so("answered", get("/health")[0], 200)
            is_so("at once", time.monotonic() - began < 2, True)
            peers[0].settimeout(5)
            is_so("the oldest went", peers[0].recv(1), b"")
            peers[15].sendall(b"GET /health HTTP/1.1\r\nHost: localhost\r\n\r\n")
            is_so("the last is served", peers[15].recv(4096).startswith(b"HTTP/1.1 200"), True)
            for peer in peers:
                peer.close()
        array.quit()


@case
def names_of_a_unit(folder):
    """What the window says a unit is known by is what INQUIRY says."""
    with window(folder, 2, options=["--array", "305419896"]) as array:
        session = host()
        for unit in status()["units"]:
            number = unit["unit"]
            page = session.inquiry(number, 0x83)
            is_so("NAA", unit["naa"], page[8:16].hex())
            is_so("/metrics", value(metrics(), "arrayd_unit_info", unit=number, disk=unit["disk"], naa=unit["naa"], wwid=unit["wwid"],
                                    serial=unit["serial"]), 1)
            is_so("WWID", unit["wwid"], "3" + page[8:16].hex())
            is_so("serial number", unit["serial"], session.inquiry(number, 0x80)[4:].decode())
            told = subprocess.run([f"{TOP}/service/arrayd-reg", f"{folder}/disk{number}.reg"], capture_output=True, text=True, check=True)
            is_so("arrayd-reg", told.stdout.splitlines()[-1],
                  f"its disk is unit {number} of array 305419896, WWID {unit['wwid']}, serial number {unit['serial']}")
        array.quit()


@case
def many_connections(folder):
    with window(folder) as array:
        sessions_, stop, done = [host(1), host(2, isid=0x400001370001)], threading.Event(), [0, 0]

        def run(at):
            while not stop.is_set():
                sessions_[at].read(0, 0, 8)
                done[at] += 1
        threads = [threading.Thread(target=run, args=(at,)) for at in range(2)]
        for thread in threads:
            thread.start()
        time.sleep(2)
        calm = sum(done) / 2
        before, peers = sum(done), []
        for _ in range(1000):
            peers.append(socket.create_connection(("127.0.0.1", AT), timeout=10))
        slow = peers[0]
        try:
            slow.sendall(b"GET / HTTP/1.1\r\nHost: localhost\r\n\r\n")
        except OSError:
            pass
        time.sleep(2)
        busy = (sum(done) - before) / 2
        for peer in peers:
            peer.close()
        time.sleep(6)
        is_so("it answers again", get("/health")[0], 200)
        stop.set()
        for thread in threads:
            thread.join()
        print(f"      {calm:.0f} commands a second alone, {busy:.0f} beside a thousand connections")
        is_so("the sessions went on", busy > calm / 2, True)
        is_so("counted", sum(value(metrics(), "arrayd_commands_total", unit=0, controller=c, operation="read") for c in (1, 2)),
              sum(done))
        array.quit()


def processor_time(pid):
    """What a process has taken, in seconds."""
    with open(f"/proc/{pid}/stat", encoding="ascii") as file:
        words_ = file.read().rpartition(")")[2].split()
    return (int(words_[11]) + int(words_[12])) / os.sysconf("SC_CLK_TCK")


def curl_times(at, path, count):
    """How long each of so many requests takes, sorted, in seconds; for ever, where it has no answer."""
    times = []
    for _ in range(count):
        done = subprocess.run(["curl", "-s", "-o", "/dev/null", "-w", "%{time_total}", f"http://127.0.0.1:{at}{path}"],
                              capture_output=True, text=True, check=False)
        times.append(float(done.stdout) if done.returncode == 0 else math.inf)
        time.sleep(0.1)
    return sorted(times)


class Empty(http.server.BaseHTTPRequestHandler):
    """Answers nothing, as soon as this machine can."""

    def do_GET(self):
        self.send_response(204)
        self.end_headers()

    def log_message(self, *_):
        pass


@contextlib.contextmanager
def empty_server():
    """The port of a server in this process that answers nothing."""
    with http.server.ThreadingHTTPServer(("127.0.0.1", 0), Empty) as server:
        threading.Thread(target=server.serve_forever, daemon=True).start()
        yield server.server_port
        server.shutdown()


# A server that answers nothing needs so long at most where a time-out of 50 ms says something of the array.
IDLE = 0.01


@case
def soon(folder):
    """A scrape is answered within 50 ms while 64 sessions work, and takes less than that of a processor. How long it takes is told and not
    judged where this machine has other work: where it needs more than 10 ms for an answer of nothing before or behind that."""
    with window(folder) as array, empty_server() as port:
        idle = curl_times(port, "/", 10)[5]
        stop, sessions_ = threading.Event(), [host(1 + at % 2, isid=0x400001370000 + at) for at in range(64)]

        def run(session):
            while not stop.is_set():
                session.read(0, 0, 8)
        threads = [threading.Thread(target=run, args=(session,)) for session in sessions_]
        for thread in threads:
            thread.start()
        times = curl_times(AT, "/metrics", 20)
        stop.set()
        for thread in threads:
            thread.join()
        idle = max(idle, curl_times(port, "/", 10)[5])
        before = processor_time(array.process.pid)
        curl_times(AT, "/metrics", 20)
        taken = (processor_time(array.process.pid) - before) / 20
        print(f"      median {1000 * times[10]:.1f} ms, longest {1000 * times[-1]:.1f} ms, {1000 * taken:.1f} ms of a processor; an answer of "
              f"nothing {1000 * idle:.1f} ms")
        is_so("the program's share within 50 ms", taken < 0.05, True)
        array.quit()
        if idle > IDLE:
            raise NotHere("how soon it answers is not judged: it wants a machine with no other work")
        is_so("within 50 ms", times[10] < 0.05, True)


# ---- what is asked of the environment and of the words

@case
def wrong_values(folder):
    disk = made(f"{folder}/disk", 64)
    for text in ("no", "127.0.0.1", "127.0.0.1:0", "127.0.0.1:70000", ":9860", "localhost:9860", "[::1]:9860", "1.2.3.4:5 "):
        is_so(text, ended(["--port", str(PORT), disk], more={"ARRAYD_HTTP": text}), (2, "arrayd: wrong words"))
    with socket.create_server(("127.0.0.1", AT)):
        log = f"{folder}/log"
        is_so("taken", ended(["--port", str(PORT), disk], log=log, more={"ARRAYD_HTTP": f"127.0.0.1:{AT}"}),
              (1, f"arrayd: cannot listen at 127.0.0.1:{AT}"))
        with open(log, encoding="ascii") as file:
            line = file.read()
        is_so("the log", f"event=cannot_listen controller=0 portal=127.0.0.1:{AT} errno=98 error=EADDRINUSE" in line, True)


@case
def off_by_default(folder):
    for more in ({}, {"ARRAYD_HTTP": ""}):
        with Array([made(f"{folder}/disk", 64)], more=more) as array:
            pid = array.process.pid
            ports = subprocess.run(["ss", "-ltnp"], capture_output=True, text=True, check=True).stdout
            is_so("sockets", ports.count(f"pid={pid},"), 2)
            array.quit()


@case
def words(folder):
    if os.path.exists(f"{TOP}/VERSION"):
        with open(f"{TOP}/VERSION", encoding="ascii") as file:
            is_so("the file VERSION", ran(["--version"])[1], f"arrayd {file.read().strip()}\n")
    is_so("version", ran(["--version"]), (0, "arrayd 1.0.0\n", ""))
    status_, told, errors = ran(["--help"])
    is_so("help", (status_, "usage: arrayd" in told, errors), (0, True, ""))
    is_so("wrong", ended(["--no"]), (2, "arrayd: wrong words"))
    is_so("two", ended(["--version", "--help"]), (2, "arrayd: wrong words"))


@case
def dashboard(folder):
    """The dashboard asks for metrics that there are."""
    with open(f"{TOP}/service/grafana.json", encoding="utf-8") as file:
        named = set(re.findall("arrayd_[a-z_]+", file.read()))
    with window(folder) as array:
        is_so("not there", sorted(named - {name for name, _ in metrics()}), [])
        array.quit()


# ---- Prometheus itself

@case
def promtool(folder):
    if not shutil.which("promtool"):
        raise NotHere("it wants promtool")
    with window(folder, 2) as array:
        session = host()
        stop = threading.Event()

        def run():
            while not stop.is_set():
                session.read(0, 0, 8)
        thread = threading.Thread(target=run)
        thread.start()
        time.sleep(0.5)
        checked = subprocess.run(["promtool", "check", "metrics"], input=get("/metrics")[2], capture_output=True, check=False)
        stop.set()
        thread.join()
        is_so("promtool", (checked.returncode, checked.stdout, checked.stderr), (0, b"", b""))
        array.quit()


@case
def alerts(folder):
    """The rules for Prometheus, their tests, the metrics that they ask for, and their entries in the page of trouble."""
    if not shutil.which("promtool"):
        raise NotHere("it wants promtool")
    for words_ in (("check", "rules", "arrayd-alerts.yml"), ("test", "rules", "arrayd-alerts-test.yml")):
        done = subprocess.run(["promtool", *words_], cwd=f"{TOP}/service", capture_output=True, text=True, check=False)
        is_so(" ".join(words_[:2]), (done.returncode, done.stdout + done.stderr) if done.returncode else 0, 0)
    with open(f"{TOP}/service/arrayd-alerts.yml", encoding="utf-8") as file:
        rules = file.read()
    with open(f"{TOP}/docs/TROUBLE.md", encoding="utf-8") as file:
        page = " ".join(file.read().split())
    for entry in re.findall("trouble: '(.*)'", rules):
        is_so(entry, f"**{entry}" in page or f"## {entry}" in page, True)
    with window(folder) as array:
        is_so("not there", sorted(set(re.findall("arrayd_[a-z_]+", rules)) - {name for name, _ in metrics()}), [])
        array.quit()


@case
def prometheus(folder):
    if not shutil.which("prometheus"):
        raise NotHere("it wants prometheus")
    port = free_port()
    with open(f"{folder}/prometheus.yml", "w", encoding="ascii") as file:
        file.write("global: {scrape_interval: 1s, scrape_timeout: 1s}\nscrape_configs:\n- job_name: arrayd\n"
                   f"  static_configs: [{{targets: ['127.0.0.1:{AT}']}}]\n")
    with window(folder) as array, open(f"{folder}/said", "w", encoding="ascii") as said:
        session = host()
        server = subprocess.Popen(["prometheus", f"--config.file={folder}/prometheus.yml", f"--storage.tsdb.path={folder}/data",
                                   f"--web.listen-address=127.0.0.1:{port}"], stdout=said, stderr=said)
        try:
            query = f"http://127.0.0.1:{port}/api/v1/query?query="
            said_to = lambda words: subprocess.run(["curl", "-s", query + words], capture_output=True, check=False).stdout
            got = lambda words: json.loads(said_to(words))
            until(lambda: b'"value"' in said_to("up"), 60)
            for _ in range(30):
                session.read(0, 0, 8)
                time.sleep(0.2)
            is_so("up", got("up")["data"]["result"][0]["value"][1], "1")
            reads = got("arrayd_commands_total%7Boperation%3D%22read%22,controller%3D%221%22%7D")["data"]["result"][0]["value"][1]
            is_so("reads", 20 <= int(reads) <= 30, True)
        finally:
            server.terminate()
            server.wait()
        array.quit()


if __name__ == "__main__":
    CASES.main(__doc__)
