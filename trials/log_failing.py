"""The cases of trials/log.py in which a call of the system fails, memory is wanting, or an initiator does what none should."""

import errno
import socket
import struct

import failing
from cases import ISID, NotHere, end_of, flush, is_so, login, read, write
from initiator import GOOD, LOGIN, SCSI, Closed, Refused, Session, texts
from log_lines import case, disk
from running import PORT, TARGET, Array, Wrong, ended

HOST = ("InitiatorName", "iqn.2000-01.test:host")
NORMAL = [HOST, ("TargetName", TARGET)]
# As crates/events/specs names them; and one that has no name there.
ERRORS = ["ENOENT", "EIO", "ENXIO", "EBADF", "ENOMEM", "EACCES", "EBUSY", "ENODEV", "EINVAL", "ENFILE", "EMFILE", "EFBIG", "ENOSPC",
          "EROFS", "ENODATA", "ENOLINK", "EILSEQ", "EOPNOTSUPP", "EADDRINUSE", "EADDRNOTAVAIL", "ETIMEDOUT", "ESTALE", "EREMOTEIO",
          "EDQUOT", "EPROTO"]


def calls(folder):
    """What is to fail in the arrays of a case."""
    if not failing.is_there():
        raise NotHere("it wants a C compiler")
    return failing.Failing(folder)


def login_request(pairs, flags=0x87, version=0, tsih=0, isid=ISID):
    """A Login Request, by default from operational negotiation to full feature phase."""
    data = texts(pairs)
    header = struct.pack(">BBBBI6sHIHHII16x", LOGIN | 0x40, flags, 0, version, 0, isid.to_bytes(6, "big"), tsih, 1, 0, 0, 1, 0)
    return header[:5] + len(data).to_bytes(3, "big") + header[8:] + data + bytes(-len(data) % 4)


def connect():
    return socket.create_connection(("127.0.0.1", PORT), 20)


def come(pdu):
    """What a connection is answered on which this comes: the first 48 bytes."""
    with connect() as connection:
        connection.sendall(pdu)
        return connection.recv(48)


# ---- logins and sessions

@case
def each_refusal_of_a_login(folder, log):
    with Array([disk(folder)], log=log.path):
        living = login(number=1)
        for pdu, status, words in (
                (login_request(NORMAL, flags=0xC7), 0x200, "Initiator error"),
                (login_request([*NORMAL, ("AuthMethod", "CHAP")], flags=0x81), 0x201, "Authentication failure"),
                (login_request(NORMAL, version=1), 0x205, "Unsupported version"),
                (login_request(NORMAL, tsih=living.tsih, isid=living.isid), 0x206, "Too many connections"),
                (login_request([*NORMAL, ("SessionType", "Other")]), 0x209, "Session type not supported"),
                (login_request(NORMAL, tsih=living.tsih + 1), 0x20A, "Session does not exist")):
            answer = come(pdu)
            is_so(words, int.from_bytes(answer[36:38], "big"), status)
            log.find("login_refused", status=hex(status), words=words, initiator=HOST[1])
        come(struct.pack(">BB14xI28x", 0x40, 0x80, 1))
        log.find("login_refused", status="0x20b", words="Invalid during login", initiator="", isid="0x0")
        is_so("it goes on", write(living), GOOD)


@case
def connection_ended(folder, log):
    fail = calls(folder)
    with Array([disk(folder)], log=log.path, more=fail.environment):
        connect().close()
        log.find("connection_ended", why="connection_closed", portal=f"127.0.0.1:{PORT}", tag="1")
        silent = connect()
        with connect() as lost:
            lost.setsockopt(socket.SOL_SOCKET, socket.SO_LINGER, struct.pack("ii", 1, 0))
        log.find("connection_ended", why="connection_lost", **{"in": "read"})
        come(struct.pack(">BB14xI28x", 0x20, 0x80, 0x55))
        log.find("connection_ended", why="protocol_error", reason="0x5", words="Command not supported", opcode="0x20", task="0x55")
        fail.let("send", errno.ECONNRESET)
        come(login_request(NORMAL, flags=0x81))
        log.find("connection_ended", why="connection_lost", **{"in": "write"})
        log.find("connection_ended", seconds=40, why="connection_lost", **{"from": "%s:%d" % silent.getsockname(), "in": "read"})


@case
def session_that_cannot_be_answered(folder, log):
    fail = calls(folder)
    with Array([disk(folder)], log=log.path, more=fail.environment):
        session = login(number=1)
        fail.let("send", errno.EPIPE)
        try:
            session.test_unit_ready(0)
            raise Wrong("it was answered")
        except (Closed, ConnectionError):
            pass
        log.find("session_ended", isid=hex(ISID + 1), why="connection_lost", **{"in": "write"})


@case
def each_reason_of_a_reject(folder, log):
    with Array([disk(folder)], log=log.path):
        for number, (reason, words, opcode, flags) in enumerate((
                (0x4, "Protocol Error", LOGIN | 0x40, 0x87), (0x5, "Command not supported", 0x1C, 0x80),
                (0x9, "Invalid PDU field", SCSI, 0xE0))):
            session = login(number=number)
            session.send(struct.pack(">BB14xIIII16x", opcode, flags, 0x100 + number, 0xFFFFFFFF, session.cmd_sn, session.exp_stat_sn))
            log.find("session_ended", isid=hex(session.isid), why="protocol_error", reason=hex(reason), words=words,
                     opcode=hex(opcode & 0x3F), task=hex(0x100 + number))


# ---- calls on files

@case
def each_error_has_its_name(folder, log):
    fail = calls(folder)
    with Array([disk(folder)], log=log.path, more=fail.environment) as array:
        session = login()
        for lba, name in enumerate(ERRORS):
            number = getattr(errno, name)
            # the read that looks whether the disk is slow may come before
            fail.let("pread", number, times=failing.EVER)
            is_so(name, read(session, lba), "03 11/00")
            fail.stop()
            log.find("device_failed", file="disk", call="read", block=str(lba), errno=str(number),
                     error="other" if name == "EPROTO" else name)
        array.quit()


@case
def each_call_on_a_disk(folder, log):
    fail = calls(folder)
    with Array([disk(folder)], log=log.path, more=fail.environment) as array:
        session = login()
        for kind, call, lba in (("lseek", "seek", 1), ("pwrite", "write", 2)):
            fail.let(kind, errno.EIO)
            is_so(kind, write(session, lba), "03 0C/00")
            log.find("device_failed", unit="0", file="disk", call=call, block=str(lba), blocks="1", errno="5", error="EIO")
            log.find("command_failed", command="write", key="0x3", asc="0xc", times=lba)
        fail.let("pread", errno.EIO, times=failing.EVER)
        is_so("compare", end_of(session.compare_and_write(0, 3, bytes(512), bytes(512))), "03 11/00")
        fail.stop()
        log.find("command_failed", command="compare_and_write", key="0x3", asc="0x11")
        fail.let("open", errno.EMFILE)
        is_so("down", array.ask("down 1"), ["not moved 0"])
        log.find("device_failed", unit="0", file="disk", call="open", errno="24", error="EMFILE")
        log.find("not_moved", unit="0", to="2", why="not_opened", by="console")
        fail.let("fdatasync", errno.EIO)
        is_so("flush", flush(session), "03 0C/00")
        log.find("device_failed", unit="0", file="disk", call="flush", errno="5")
        log.find("command_failed", command="synchronize_cache", key="0x3", asc="0xc")
        array.quit()
    log.find("not_flushed", unit="0")


@case
def each_call_on_registrations(folder, log):
    fail = calls(folder)
    with Array([disk(folder)], log=log.path, more=fail.environment) as array:
        session = login()
        for count, (kind, call) in enumerate((("lseek", "seek"), ("pwrite", "write"), ("fdatasync", "flush")), 1):
            fail.let(kind, errno.EIO, times=failing.EVER)
            is_so(kind, end_of(session.reserve_out(0, 6, new_key=5, aptpl=True)), "04 44/00")
            fail.stop()
            log.find("device_failed", unit="0", file="registrations", call=call, errno="5", error="EIO")
            log.find("command_failed", command="persistent_reserve_out", key="0x4", asc="0x44", times=count)
        array.quit()


def each_cause(folder, log, deadline):
    fail = calls(folder)
    more = dict(fail.environment, **deadline)
    path = disk(folder)
    # the log's file wants one each time that it is opened, and does without where it has none
    fail.let("flock", errno.ENOLCK, times=failing.EVER)
    is_so("no lock", ended([path], log=log.path, more=more), (1, "arrayd: cannot use unit 0"))
    fail.stop()
    log.find("cannot_use", unit="0", file="disk", disk=path, why="not_locked")
    unusable = (1, "arrayd: cannot use registration file 0")
    fail.let("rename", errno.EROFS)
    is_so("not made", ended([path], log=log.path, more=more), unusable)
    log.find("cannot_use", unit="0", file="registrations", why="not_made")
    with Array([path]) as array:
        array.quit()
    fail.let("pread", errno.EIO, times=failing.EVER)
    is_so("not read", ended([path], log=log.path, more=more), unusable)
    fail.stop()
    log.find("device_failed", file="registrations", call="read", errno="5", error="EIO")
    log.find("cannot_use", file="registrations", why="device_failed")
    with open(path + ".reg", "r+b") as file:
        file.seek(8)
        file.write(b"\x00\x09")
    is_so("another version", ended([path], log=log.path), unusable)
    log.find("cannot_use", file="registrations", why="unknown_version")


@case
def each_cause_of_a_file_that_cannot_be_used(folder, log):
    each_cause(folder, log, {})


@case
def each_cause_where_calls_have_a_deadline(folder, log):
    each_cause(folder, log, {"ARRAYD_DEADLINE": "20"})


# ---- want

@case
def accept_that_fails(folder, log):
    fail = calls(folder)
    with Array([disk(folder)], log=log.path, more=fail.environment):
        for error, what in ((errno.ENOBUFS, "connection"), (errno.ENFILE, "descriptor")):
            fail.let("accept", error)
            # one waits in its call already, and the next one fails
            for _ in range(2):
                login().logout()
            log.find("wanting", what=what)


# What a login is seen to come to for want of memory, and what the log tells of it: an event and what it has of the cause.
WANT_AT_LOGIN = {
    "login": [("login", None)],
    "refused": [("login_refused", "memory")],
    "closed": [("wanting", "memory"), ("wanting", "thread"), ("connection_ended", "no_memory")],
}


def try_login(number):
    try:
        Session("127.0.0.1", PORT, TARGET, isid=ISID + number, timeout=20).logout()
        return "login"
    except Refused as refused:
        is_so("status", refused.status, 0x302)
        return "refused"
    except (Closed, ConnectionError):
        return "closed"


@case
def want_of_memory_at_a_login(folder, log):
    fail = calls(folder)
    found = set()
    with Array([disk(folder)], log=log.path, more=fail.environment):
        log.find("ready")
        for behind in range(200):
            told = len(log.all())
            fail.let("memory", errno.ENOMEM, behind)
            seen = try_login(0)
            if not fail.is_over("memory"):
                fail.stop()
                break
            # behind a connection that is served what is wanting is told again
            login(number=1000 + behind).logout()
            log.find("session_ended", isid=hex(ISID + 1000 + behind))
            line = next(line for line in log.wait(told + 3)[told:] if line.get("isid") != hex(ISID + 1000 + behind))
            cause = (line["event"], line.get("lacks") or line.get("what") or line.get("why"))
            is_so(f"allocation {behind}: {seen}, {cause}", cause in WANT_AT_LOGIN[seen], True)
            found.add(cause)
    is_so("what was wanting", sorted(found, key=str), sorted(sum(WANT_AT_LOGIN.values(), []), key=str))


@case
def want_of_memory_for_a_command(folder, log):
    fail = calls(folder)
    with Array([disk(folder, blocks=1024)], log=log.path, more=fail.environment):
        session = login()
        # a READ asks for memory once more under the lock of its unit
        for command, cdb, expected, asks in (("read", [0x28, 0, 0, 0, 0, 0, 0, 0, 1, 0], 512, 2), ("other", [0x12, 0, 0, 0, 252, 0], 252, 1)):
            fail.let("memory", errno.ENOMEM, times=asks)
            is_so(command, end_of(session.command(0, cdb, expected=expected)), 8)
            log.find("busy", unit="0", command=command, group="1", isid=hex(ISID))


@case
def want_of_memory_at_the_start(folder, log):
    fail = calls(folder)
    path = disk(folder)
    with Array([path]) as array:
        array.quit()
    told = 0
    for behind in range(500):
        before = len(log.all())
        fail.let("memory", errno.ENOMEM, behind)
        end = ended(["--port", str(PORT), path], log=log.path, more=fail.environment)
        if not fail.is_over("memory"):
            fail.stop()
            break
        # at some it does without; then it ends with its input
        is_so(f"allocation {behind}", end in ((1, "arrayd: no memory"), (0, "")), True)
        lines = log.all()[before:]
        # before the log is open nothing is told
        if end[0] == 1 and lines:
            is_so(f"last line of allocation {behind}", (lines[-1]["event"], lines[-1].get("what")), ("wanting", "memory"))
            told += 1
    is_so("told at least once", told > 0, True)
    for file in ("disk", "registrations"):
        lines = [line for line in log.all() if line["event"] == "cannot_use" and line["file"] == file]
        is_so(file, [line["why"] for line in lines], ["no_memory"] * len(lines))
        is_so("told at least once", len(lines) > 0, True)
