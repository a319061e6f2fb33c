#!/usr/bin/env python3
"""Brings about what docs/TROUBLE.md tells, one thing after the other, and compares what the host, the console and the exit
status say with what stands there. Prints a line for each; ends with status 1 where one is another.

usage: trials/trouble.py [NAME..]        all, where none is named

Some want root, a loop device or a file system of their own, and say so where they are left out.
"""

import contextlib
import errno
import os
import shutil
import signal
import socket
import subprocess
import sys
import threading
import time

from cases import (
    ISID, Cases, Mounted, NotHere, end_of, fill, flush, is_so, lines, login, read, refusal, root, run, until, write,
)
from failing import Failing, is_there
from free_port import free_port
from initiator import BUSY, GOOD, RESERVATION_CONFLICT, Closed, Session, discover
from running import PORT, TARGET, Array, Wrong, ended, library, made

NOBODY = 65534
CASES = Cases()
case = CASES.case


def take(session, group):
    """SET TARGET PORT GROUPS by which this group is to own the unit."""
    return end_of(session.set_port_groups(0, [(group, 0), (3 - group, 1)]))


# ---- the start

@case
def wrong_words(folder):
    disk = made(folder + "/disk", 16)
    for words in ([], [disk] * 9, ["--port", "65529", disk], ["--port", "0", disk], ["--portals", "5", disk],
                  ["--host", "localhost", disk], ["--host", "10.0.0.01", disk], ["--target", "", disk],
                  ["--array", "4294967296", disk], ["--once", disk], ["--help", disk], ["--port", "1", "--port", "2", disk]):
        is_so(f"{words}", ended(words), (2, "arrayd: wrong words"))


@case
def words_that_the_log_names(folder):
    disk, log = made(folder + "/disk", 16), folder + "/log"

    def told(words, **more):
        """What the log says of words that are refused."""
        is_so(f"{words} {more}", ended(words, log=log, more=more), (2, "arrayd: wrong words"))
        return lines(log, "wrong_words")[-1].split(" what=", 1)[1]

    for words, named in ((["--pot", "1", disk], "--pot"), (["--port", "65529", disk], "65529"), (["--array", "-1", disk], "-1"),
                         (["--port", "1", "--port", "2", disk], "--port")):
        is_so(f"{words}", named in told(words), True)
    for words, what in ((["--target", "", disk], "--target"), (["--host", "localhost", disk], "--host localhost"), ([], "no DISK"),
                        (["--host", "a\nb", disk], "--host"), ([disk] * 9, "more than 8 times DISK"), (["--once", disk], "a DISK beside --once")):
        is_so(f"{words}", told(words), f'"{what}"')
    for variable, text in (("ARRAYD_DEADLINE", "0"), ("ARRAYD_HOST2", "localhost"), ("ARRAYD_HTTP", "9860"), ("ARRAYD_HTTP", "127.0.0.1:0"),
                           ("ARRAYD_CONTROL", folder + "/" + "x" * 120), ("ARRAYD_CONTROLS", "")):
        is_so(f"{variable}={text}", told([disk], **{variable: text}), f'"{variable}"')
    is_so("an escape in a word", "\x1b" not in told(["--\x1b[2J", disk]), True)
    is_so("a control socket's folder", ended([disk], log=log, more={"ARRAYD_CONTROL": folder + "/none/control"}),
          (1, "arrayd: cannot make the control socket"))
    is_so("the log", lines(log, "cannot_control")[-1].split(" event=", 1)[1], "cannot_control errno=2 error=ENOENT")


@case
def disk_not_there_or_no_disk(folder):
    for length in (None, 0, 511, 513):
        if length is not None:
            with open(folder + "/disk", "wb") as file:
                file.truncate(length)
        is_so(f"length {length}", ended([folder + "/disk"]), (1, "arrayd: cannot use unit 0"))
    good = made(folder + "/good", 16)
    is_so("the second of two", ended([good, folder + "/disk"]), (1, "arrayd: cannot use unit 1"))
    is_so("a folder", ended([folder]), (1, "arrayd: cannot use unit 0"))


@case
def disk_that_may_not_be_used(folder):
    root()
    disk = made(folder + "/disk", 16)
    os.chmod(folder, 0o755)
    is_so("a user without rights", ended([disk], user=NOBODY), (1, "arrayd: cannot use unit 0"))


@case
def disk_too_long(folder):
    with open(folder + "/disk", "wb") as file:
        file.truncate(512 << 32)
    is_so("2 TiB", ended([folder + "/disk"]), (1, "arrayd: cannot use unit 0"))


@case
def disk_busy(folder):
    disk = made(folder + "/disk", 16)
    os.symlink(disk, folder + "/link")
    os.link(disk, folder + "/other")
    with Array([disk]):
        for name in ("disk", "link", "other"):
            is_so(name, ended(["--port", str(free_port()), f"{folder}/{name}"]), (1, "arrayd: cannot use unit 0"))
    is_so("twice in one array", ended([disk, folder + "/link"]), (1, "arrayd: cannot use unit 1"))


@case
def registration_file_that_cannot_be_made(folder):
    root()
    disk = made(folder + "/disk", 16)
    os.chown(disk, NOBODY, NOBODY)
    os.chmod(folder, 0o755)
    is_so("in a folder of root's", ended([disk], user=NOBODY), (1, "arrayd: cannot use registration file 0"))


@case
def files_where_a_registration_file_is_begun(folder):
    """What lies there is another unit's disk perhaps, or what an earlier stop left, and keeps its bytes."""
    disk, other, kept = (made(f"{folder}/{name}", 16) for name in ("d", "d.reg.new", "kept"))
    os.symlink(kept, other + ".reg.new")
    for path in (other, kept):
        with open(path, "r+b") as file:
            file.write(b"mine")
    with Array([disk, other]) as array:
        array.quit()
    for path in (other, kept):
        with open(path, "rb") as file:
            is_so(path, (file.read(4), os.path.getsize(path)), (b"mine", 16 * 512))
    is_so("nothing else is left", sorted(os.listdir(folder)), ["d", "d.reg", "d.reg.new", "d.reg.new.reg", "d.reg.new.reg.new",
                                                               "d.reg.new.unit", "d.unit", "kept"])
    for number in ("", *range(1, 10)):
        os.symlink("none", f"{kept}.reg.new{number}")
    is_so("where all names are taken", ended([kept]), (1, "arrayd: cannot use registration file 0"))
    is_so("none is made", os.path.exists(f"{kept}.reg"), False)


@case
def registration_file_whose_name_may_not_last(folder):
    """A start that a kill cut off may have left it so: each start flushes the folder."""
    if not is_there():
        raise NotHere("no C compiler")
    disk, failing = made(folder + "/disk", 16), Failing(folder)
    for kind in ("a first start", "a second one"):
        failing.let("fsync", errno.EIO, behind=1 if kind == "a first start" else 0)
        is_so(kind, ended([disk], more=failing.environment), (1, "arrayd: cannot use registration file 0"))
    with Array([disk], more=failing.environment) as array:
        array.quit()


@case
def registration_file_damaged(folder):
    disk = made(folder + "/disk", 16)
    wanted = (1, "arrayd: cannot use registration file 0")
    for bytes_ in (b"", b"x" * 512, os.urandom(34304)):
        with open(disk + ".reg", "wb") as file:
            file.write(bytes_)
        is_so(f"{len(bytes_)} bytes", ended([disk]), wanted)
        with open(disk + ".reg", "rb") as file:
            is_so("it was left as it was", file.read(), bytes_)
    os.remove(disk + ".reg")
    with Array([disk]) as array:
        array.quit()
    with open(disk + ".reg", "r+b") as file:
        file.seek(8)
        file.write(b"\x00\x09")
    is_so("of another version", ended([disk]), wanted)


@case
def registration_file_busy(folder):
    disk = made(folder + "/disk", 16)
    with Array([disk]) as array:
        os.rename(disk, disk + ".old")
        made(disk, 16)
        is_so("a second array on the same registrations", ended(["--port", str(free_port()), disk]),
              (1, "arrayd: cannot use registration file 0"))
        array.quit()
    with Array([disk]) as array:
        array.quit()


@case
def registration_file_that_is_a_link_into_nothing(folder):
    disk = made(folder + "/disk", 16)
    place = folder + "/not_mounted_yet/disk.reg"
    os.symlink(place, disk + ".reg")
    is_so("a start", ended([disk]), (1, "arrayd: cannot use registration file 0"))
    is_so("nothing was touched", (os.readlink(disk + ".reg"), sorted(os.listdir(folder))), (place, ["disk", "disk.reg"]))
    os.mkdir(folder + "/not_mounted_yet")
    is_so("nor where its folder is there, and the file is not", ended([disk]), (1, "arrayd: cannot use registration file 0"))
    is_so("nothing was touched", (os.readlink(disk + ".reg"), os.listdir(folder + "/not_mounted_yet")), (place, []))


@case
def registration_file_removed(folder):
    disk, log = made(folder + "/disk", 16), folder + "/log"
    with Array([disk], log=log) as array:
        session = login()
        is_so("REGISTER with APTPL", end_of(session.reserve_out(0, 6, new_key=1, aptpl=True)), GOOD)
        os.rename(disk + ".reg", disk + ".kept")
        is_so("with the file gone", end_of(session.reserve_out(0, 6, new_key=2, aptpl=True)), "04 44/00")
        shutil.copy(disk + ".kept", disk + ".reg")
        is_so("with another file in its place", end_of(session.reserve_out(0, 6, new_key=3, aptpl=True)), "04 44/00")
        is_so("reads and writes go on", (write(session), read(session)), (GOOD, GOOD))
        os.rename(disk + ".kept", disk + ".reg")
        is_so("with the file back", end_of(session.reserve_out(0, 6, new_key=4, aptpl=True)), GOOD)
        array.quit()
    told = [line.split("event=", 1)[1] for line in lines(log, "device_failed")]
    failed = "device_failed unit=0 file=registrations call=open block=0 blocks=0 errno="
    is_so("the log", told, [failed + "2 error=ENOENT", failed + "0 error=none"])
    with Array([disk]) as array:
        is_so("after a restart the key is there", array.status()["keys"], "1")
        array.quit()


@case
def registration_file_of_another_disk(folder):
    disk, other = made(folder + "/disk", 16), made(folder + "/other", 16)
    with Array([other]) as array:
        session = login()
        session.reserve_out(0, 0, new_key=0x77, aptpl=True)
        session.reserve_out(0, 1, kind=5, key=0x77)
        array.quit()
    shutil.copy(other + ".reg", disk + ".reg")
    with Array([disk]) as array:
        status = array.status()
        is_so("it is taken: keys and type", (status["keys"], status["type"]), ("1", "5"))
        is_so("a host that is not registered", write(login(number=9)), RESERVATION_CONFLICT)
        session = login(number=9)
        session.reserve_out(0, 6, new_key=0x99, aptpl=True)
        is_so("a host registers and clears", end_of(session.reserve_out(0, 3, key=0x99)), GOOD)
        status = array.status()
        is_so("then nobody is", (status["keys"], status["type"]), ("0", "0"))
        array.quit()


@case
def port_taken(folder):
    disk = made(folder + "/disk", 16)
    for controller, port in ((1, PORT), (2, PORT + 4)):
        with socket.socket() as other:
            other.setsockopt(socket.SOL_SOCKET, socket.SO_REUSEADDR, 1)
            other.bind(("127.0.0.1", port))
            other.listen()
            is_so(f"port {port}", ended(["--port", str(PORT), disk]),
                  (1, f"arrayd: cannot listen at controller {controller} portal 0"))
    is_so("an address of another machine", ended(["--host", "192.0.2.1", disk]),
          (1, "arrayd: cannot listen at controller 1 portal 0"))
    # a restart at once, though connections of before are still closing
    for _ in range(3):
        with Array([disk]) as array:
            login()
            array.quit()


@case
def start_that_fails(folder):
    root()
    disk, log = made(folder + "/disk", 16), folder + "/log"
    os.chmod(folder, 0o777)

    def told(words, user=None):
        """The log's cause and the system's error of a start that fails."""
        is_so(f"{words}", ended(words, user=user, log=log)[0], 1)
        return lines(log, "cannot_use")[-1].split(" why=", 1)[1]

    is_so("no disk", told([folder + "/none"]), "not_there errno=2 error=ENOENT")
    is_so("a folder", told([folder]), "not_opened errno=21 error=EISDIR")
    is_so("a way through a file", told([disk + "/disk"]), "not_opened errno=20 error=ENOTDIR")
    os.chmod(log, 0o666)
    os.chmod(disk, 0o600)
    is_so("no permission", told([disk], user=NOBODY), "not_opened errno=13 error=EACCES")
    with Mounted(folder) as place:
        place.mount("-t", "tmpfs", "none")
        made(place.place + "/disk", 16)
        run("mount", "-o", "remount,ro", place.place)
        is_so("a file system that is read-only", told([place.place + "/disk"]), "not_opened errno=30 error=EROFS")
    os.mkdir(folder + "/kept")
    os.chmod(folder + "/kept", 0o755)
    other = made(folder + "/kept/disk", 16)
    os.chown(other, NOBODY, NOBODY)
    is_so("registrations in a folder of root's", told([other], user=NOBODY), "not_made errno=13 error=EACCES")


@case
def log_that_cannot_be_written(folder):
    with Array([made(folder + "/disk", 16)], log=folder + "/none/log") as array:
        is_so("it is served", write(login()), GOOD)
        array.quit()
        is_so("standard error", array.process.stderr.read(), f"arrayd: cannot write the log: errno 2: {folder}/none/log\n")


@case
def address_of_each_controller(folder):
    with Array([made(folder + "/disk", 16)], more={"ARRAYD_HOST2": "127.0.0.2"}) as array:
        told = [f"127.0.0.1:{PORT},1", f"127.0.0.2:{PORT + 4},2"]
        for host, port in (("127.0.0.1", PORT), ("127.0.0.2", PORT + 4)):
            is_so(f"a discovery at {host}", discover(host, port), {TARGET: told})
        second = Session("127.0.0.2", PORT + 4, TARGET)
        second.ready(0)
        is_so("a write by controller 2", write(second), GOOD)
        try:
            socket.create_connection(("127.0.0.1", PORT + 4), 5)
            raise Wrong("controller 2 listens at the address of controller 1 too")
        except ConnectionRefusedError:
            pass
        array.quit()
    for address in ("localhost", "10.0.0.01", "1.2.3", "::1"):
        is_so(address, ended([folder + "/disk"], more={"ARRAYD_HOST2": address}), (2, "arrayd: wrong words"))
    is_so("an address of another machine", ended([folder + "/disk"], more={"ARRAYD_HOST2": "192.0.2.1"}),
          (1, "arrayd: cannot listen at controller 2 portal 0"))


# ---- hosts

@case
def host_that_cannot_reach_it(folder):
    with Array([made(folder + "/disk", 16)]):
        try:
            socket.create_connection(("127.0.0.2", PORT), 5)
            raise Wrong("another address than --host is served")
        except ConnectionRefusedError:
            pass


@case
def login_refused(folder):
    with Array([made(folder + "/disk", 16)]) as array:
        is_so("another target's name", refusal(target=TARGET + "x"), 0x203)
        sessions = fill()
        sessions[0].logout()
        login(number=64)
        array.quit()


@case
def two_hosts_of_one_name(folder):
    with Array([made(folder + "/disk", 16)]):
        first = login()
        login()
        try:
            first.test_unit_ready(0)
            raise Wrong("the first goes on")
        except (Closed, ConnectionError):
            pass


@case
def login_that_takes_its_time(folder):
    """A login has thirty seconds, however often bytes come."""
    with Array([made(folder + "/disk", 16)]) as array, socket.create_connection(array.portal(1)) as peer:
        began = time.monotonic()
        with contextlib.suppress(ConnectionError):
            while time.monotonic() - began < 60:
                peer.sendall(b"\x43")
                peer.settimeout(1)
                with contextlib.suppress(TimeoutError):
                    if not peer.recv(1):
                        break
        is_so("its connection is closed", 29 < time.monotonic() - began < 34, True)
        is_so("another one logs in", write(login()), GOOD)
        array.quit()


class GivenUp(Session):
    """A login whose connection ends behind its last request."""

    def receive(self):
        if self.tag == 2:
            raise Closed()
        return super().receive()


@case
def login_that_was_given_up(folder):
    """It waits for a unit, or for its turn behind one that does, and does not end the session that lives by then."""
    slow = {"LD_PRELOAD": library("bench/slow_disk.c", folder), "SLOW_DISK": folder, "SLOW_FLUSH": "3000000"}
    for waiting in (0, 1):
        with Array([made(folder + f"/disk{waiting}", 16)], more=slow) as array:
            living, other = login(number=5), login(number=6)
            other.submit(0, [0x28, 8, 0, 0, 0, 0, 0, 0, 1], expected=512)
            time.sleep(0.5)
            before = [threading.Thread(target=login, kwargs={"number": 7}) for _ in range(waiting)]
            for one in before:
                one.start()
            time.sleep(0.5)
            with contextlib.suppress(Closed):
                GivenUp(*array.portal(1), TARGET, "iqn.2000-01.test:host", ISID + 5)
            for one in before:
                one.join()
            time.sleep(0.5 if waiting else 4)
            is_so(f"the session goes on, {waiting} before it", write(living), GOOD)
            array.quit()


@case
def two_arrays_of_one_number(folder):
    pages = []
    for number in (1, 1, 2):
        with Array([made(f"{folder}/{len(pages)}", 16)], free_port(), ["--array", str(number)]) as array:
            session = Session(*array.portal(1), TARGET)
            session.ready(0)
            pages.append(session.inquiry(0, 0x83))
    is_so("the same number is the same disk to a host", pages[0] == pages[1], True)
    is_so("another is another", pages[0] == pages[2], False)


@case
def disks_in_another_order(folder):
    disks, log = [made(f"{folder}/{unit}", 16) for unit in (0, 1)], folder + "/log"
    with Array(disks) as array:
        is_so("a write", write(login(), text=b"of the first"), GOOD)
        array.quit()
    refused = "unit 0 of array 1 is unit 1 of array 1"
    for more in ({}, {"ARRAYD_DEADLINE": "5"}):
        is_so("in another order", ended(disks[::-1], log=log, more=more), (2, f"arrayd: {refused}"))
    is_so("the log", lines(log, "wrong_words")[-1].split(" what=", 1)[1], f'"{refused}: {disks[1]}"')
    is_so("the second alone", ended(disks[1:]), (2, f"arrayd: {refused}"))
    is_so("of another array", ended(["--array", "7", *disks]), (2, "arrayd: unit 0 of array 7 is unit 0 of array 1"))
    with open(disks[0] + ".unit", encoding="ascii") as file:
        is_so("what a disk remembers", file.read(), "unit 0 array 1\n")
    third = made(f"{folder}/2", 16)
    for more in ({}, {"ARRAYD_DEADLINE": "5"}):
        said = ended([disks[0], third, disks[1]], more=more)
        is_so("one between them", said, (2, "arrayd: unit 2 of array 1 is unit 1 of array 1"))
        is_so("that is none for it", [os.path.exists(third + end) for end in (".unit", ".reg")], [False, False])
    with Array(disks) as array:
        is_so("in their order", login().read(0, 0, 1)[:12], b"of the first")
        array.quit()
    for disk in disks:
        os.remove(disk + ".unit")
    with Array(disks[::-1]) as array:
        session = login()
        session.ready(1)
        is_so("where it is meant so", session.read(1, 0, 1)[:12], b"of the first")
        array.quit()


@case
def host_vanished(folder):
    with Array([made(folder + "/disk", 16)]) as array:
        gone = login()
        gone.reserve_out(0, 6, new_key=5)
        gone.reserve_out(0, 1, kind=5, key=5)
        held = gone.socket
        gone.socket = None
        is_so("its registration stays", array.status()["keys"], "1")
        again = login()
        held.settimeout(5)
        is_so("its old connection is closed when it logs in again", held.recv(1), b"")
        is_so("it is registered and holds, as before", write(again), GOOD)
        other = login(2, 7)
        is_so("others do not write meanwhile", write(other), RESERVATION_CONFLICT)


class Away:
    """A network of its own, in which another process is a host of this machine's."""

    HERE, THERE = "10.213.77.1", "10.213.77.2"

    def __init__(self):
        root()
        self.name = f"arrayd{os.getpid()}"
        try:
            run("ip", "netns", "add", self.name)
        except (OSError, subprocess.CalledProcessError) as error:
            raise NotHere("it wants a network namespace") from error
        run("ip", "link", "add", "arrayd0", "type", "veth", "peer", "name", "arrayd1", "netns", self.name)
        run("ip", "address", "add", self.HERE + "/30", "dev", "arrayd0")
        run("ip", "link", "set", "arrayd0", "up")
        for words in (["address", "add", self.THERE + "/30", "dev", "arrayd1"], ["link", "set", "arrayd1", "up"]):
            run("ip", "-n", self.name, *words)

    def __enter__(self):
        return self

    def __exit__(self, *_):
        run("ip", "link", "delete", "arrayd0")
        run("ip", "netns", "delete", self.name)

    def host(self, code):
        """A host there, which does this and waits."""
        code = f"import sys, time; sys.path.insert(0, {os.path.dirname(os.path.abspath(__file__))!r})\n{code}\nprint('in', flush=True); time.sleep(600)"
        words = ["ip", "netns", "exec", self.name, sys.executable, "-c", code]
        return subprocess.Popen(words, stdout=subprocess.PIPE, text=True)


@case
def link_cut(folder):
    with Away() as away:
        log = folder + "/log"
        with Array([made(folder + "/disk", 16)], options=["--host", away.HERE], log=log) as array:
            host = away.host(f"from initiator import Session\nsession = Session({away.HERE!r}, {PORT}, {TARGET!r})\nsession.ready(0)")
            try:
                is_so("it logs in", host.stdout.readline(), "in\n")
                run("ip", "link", "set", "arrayd0", "down")
                begun = time.monotonic()
                while not lines(log, "session_ended"):
                    if time.monotonic() - begun > 120:
                        raise Wrong("its session is there after two minutes")
                    time.sleep(1)
                is_so("why", "why=connection_lost" in lines(log, "session_ended")[0], True)
            finally:
                host.kill()
                host.wait()
            array.quit()


@case
def reservation_conflict(folder):
    with Array([made(folder + "/disk", 16)]) as array:
        holder, other = login(), login(2, 1)
        holder.reserve_out(0, 6, new_key=0xA)
        holder.reserve_out(0, 1, kind=5, key=0xA)
        is_so("a write", write(other), RESERVATION_CONFLICT)
        is_so("a read, beside type 5", read(other), GOOD)
        is_so("a flush", flush(other), RESERVATION_CONFLICT)
        status = array.status()
        is_so("status tells", (status["keys"], status["type"]), ("1", "5"))
        other.reserve_out(0, 6, new_key=0xB)
        is_so("a registrant's write", write(other), GOOD)
        is_so("a registrant clears", end_of(other.reserve_out(0, 3, key=0xB)), GOOD)
        is_so("the holder of before is told", write(holder), "06 2A/03")
        is_so("and status that there is none", array.status()["type"], "0")


@case
def restart_as_hosts_see_it(folder):
    disks = [made(folder + "/disk", 16)]
    with Array(disks) as array:
        lasting, passing = login(), login(2, 1)
        lasting.reserve_out(0, 6, new_key=0xA, aptpl=True)
        write(passing, 3, b"kept")
        array.kill()
    for _ in range(2):
        with Array(disks) as array:
            session = Session("127.0.0.1", PORT, TARGET)
            is_so("the first command", end_of(session.test_unit_ready(0)), "06 29/00")
            is_so("what was GOOD is there, though the program was killed", session.read(0, 3, 1)[:4], b"kept")
            is_so("a key with APTPL is there", array.status()["keys"], "1")
            array.quit()
    with Array(disks) as array:
        session = login()
        session.reserve_out(0, 6, new_key=0xC)
        array.kill()
    with Array(disks) as array:
        is_so("one without is not, and takes the others along", array.status()["keys"], "0")


@case
def commands_that_are_refused(folder):
    with Array([made(folder + "/disk", 4096)]):
        session = login()
        same = session.command(0, [0x93] + [0] * 12 + [1, 0, 0], out=bytes(512))
        is_so("WRITE SAME (16), as mkfs tries it", end_of(same), "05 20/00")
        is_so("UNMAP", end_of(session.command(0, [0x42] + [0] * 7 + [24, 0], out=bytes(24))), "05 20/00")
        is_so("a READ of 2049 blocks", read(session, blocks=2049), "05 24/00")
        is_so("behind the end", read(session, 4096), "05 21/00")
        reply = session.compare_and_write(0, 0, b"x" + bytes(511), bytes(512))
        is_so("COMPARE AND WRITE", (end_of(reply), reply.information()), ("0E 1D/00", 0))
        is_so("a unit that is not there", end_of(session.test_unit_ready(1)), "05 25/00")


# ---- controllers

@case
def controller_down(folder):
    with Array([made(folder + "/disk", 16), made(folder + "/other", 16)]) as array:
        first, second = login(1), login(2, 1)
        is_so("down 1", array.ask("down 1"), ["down"])
        is_so("its host is told", write(first), "06 2A/06")
        is_so("and then", write(first), "02 04/0C")
        is_so("the other path is told", write(second), "06 2A/06")
        is_so("and serves", write(second), GOOD)
        is_so("states", second.port_groups(0), [(1, 3, True), (2, 0, False)])
        # the host's own failback: controller 1 is back, as SET TARGET PORT GROUPS may do
        is_so("a host takes controller 1 again", take(first, 1), GOOD)
        status = array.status(0, 2)
        is_so("status", (status["owner"], status["states"]), ("1", ("0", "1")))
        is_so("the other unit stays down", array.status(1, 2)["states"], ("3", "0"))
        is_so("down 1 and down 2 in turn leave one", array.ask("down 1") + array.ask("down 2"), ["down", "down"])
        is_so("status", array.status(0, 2)["states"], ("0", "3"))


@case
def down_twice(folder):
    log = folder + "/log"
    with Array([made(folder + "/disk", 16)], log=log) as array:
        first, second = login(1), login(2, 1)
        is_so("down 1, twice", array.ask("down 1") + array.ask("down 1"), ["down", "down"])
        first.test_unit_ready(0)
        second.test_unit_ready(0)
        is_so("a host makes a group unavailable that is no owner's", end_of(second.set_port_groups(0, [(1, 3)])), GOOD)
        array.quit()
    told = [line.split("event=", 1)[1].split(" initiator=")[0] for line in lines(log, "groups_set")]
    is_so("the log", told, ["groups_set unit=0 owner=2 states=3,0 by=console", "groups_set unit=0 owner=2 states=3,0 by=session"])


@case
def unit_that_does_not_move(folder):
    disk = made(folder + "/disk", 16)
    second = made(folder + "/second", 16)
    with Array([second, disk]) as array:
        session = login()
        session.ready(1)
        os.rename(disk, disk + ".old")
        is_so("its name is gone", array.ask("down 2"), ["not moved 1"])
        is_so("it owns unit 1 still, and unit 0 has gone", (array.status(1, 2)["owner"], array.status(0, 2)["states"]),
              ("2", ("0", "3")))
        session.ready(0)
        is_so("commands of it go on", write(session, unit=1), GOOD)
        reply = session.set_port_groups(1, [(1, 0), (2, 1)])
        is_so("SET TARGET PORT GROUPS", end_of(reply), "04 67/0A")
        os.rename(disk + ".old", disk)
        is_so("the name is back", array.ask("down 2"), ["down"])


@case
def disk_replaced(folder):
    disk = made(folder + "/disk", 16)
    with Array([disk]) as array:
        session = login()
        os.rename(disk, disk + ".old")
        made(disk, 16)
        is_so("it goes on with the file that it opened", write(session, text=b"old"), GOOD)
        is_so("and does not move", array.ask("down 1"), ["not moved 0"])
        array.quit()
    with open(disk + ".old", "rb") as file:
        is_so("there the block is", file.read(3), b"old")


# ---- disks

@case
def disk_that_became_shorter(folder):
    disk = made(folder + "/disk", 16)
    with Array([disk]) as array:
        session = login()
        os.truncate(disk, 8 * 512)
        is_so("a read before its end", read(session, 7), GOOD)
        is_so("a read behind it", read(session, 8), "03 11/00")
        is_so("any write", write(session, 0), "03 0C/00")
        is_so("a move", array.ask("down 1"), ["not moved 0"])
        os.truncate(disk, 16 * 512)
        is_so("its length is back", write(session, 0), GOOD)
        array.quit()
    os.truncate(disk, 8 * 512)
    with Array([disk]) as array:
        is_so("after a restart it has fewer blocks", login().capacity(0), (8, 512))
        array.quit()


@case
def disk_that_became_longer(folder):
    disk, log = made(folder + "/disk", 16), folder + "/log"
    with Array([disk], log=log) as array:
        session, other = login(), login(2, 1)
        os.truncate(disk, 32 * 512)
        is_so("a read", read(session, 7), GOOD)
        is_so("writes", (write(session, 0), write(session, 15)), (GOOD, GOOD))
        is_so("the blocks that there are", session.capacity(0), (16, 512))
        is_so("one behind them", write(session, 16), "05 21/00")
        is_so("a move", array.ask("down 1"), ["down"])
        other.test_unit_ready(0)
        is_so("a write by the other controller", write(other, 0), GOOD)
        array.quit()
    is_so("the log tells it once", [line.split("event=", 1)[1] for line in lines(log, "grew")], ["grew unit=0 file=disk"])
    with Array([disk]) as array:
        session = login()
        is_so("after a restart it has more", session.capacity(0), (32, 512))
        is_so("and they are served", write(session, 31), GOOD)
        array.quit()


@case
def disk_full(folder):
    # trials/full_disk.py fills file systems; here a file's own limit stands for one
    disk = made(folder + "/disk", 4096)
    with Array([disk], largest=1 << 20) as array:
        session = login()
        is_so("where there is room", write(session, 0), GOOD)
        is_so("where there is none", write(session, 4000), "03 0C/00")
        is_so("reads go on", read(session, 4000), GOOD)
        is_so("and the flush of what was GOOD", flush(session), GOOD)
        array.quit()


@case
def registrations_not_saved(folder):
    disk = made(folder + "/disk", 16)
    with Array([disk]) as array:
        array.quit()
    # the record lies in one half of the file, and the next one is to go to the other
    with Array([disk], largest=20000) as array:
        session = login()
        is_so("REGISTER with APTPL", end_of(session.reserve_out(0, 6, new_key=1, aptpl=True)), "04 44/00")
        is_so("nobody is registered", array.status()["keys"], "0")
        is_so("reads and writes go on", (write(session), read(session)), (GOOD, GOOD))
        array.quit()


@case
def block_device(folder):
    with Mounted(folder) as place:
        device = place.loop(made(folder + "/file", 2048))
        os.symlink(device, folder + "/unit0")
        with Array([folder + "/unit0"]) as array:
            session = login()
            is_so("its blocks", session.capacity(0), (2048, 512))
            is_so("write, flush, read", (write(session, 2047, b"last"), flush(session), read(session, 2047)), (GOOD,) * 3)
            is_so("with FUA", end_of(session.command(0, [0x2A, 8, 0, 0, 0, 1, 0, 0, 1, 0], out=b"f" * 512)), GOOD)
            session.reserve_out(0, 6, new_key=1, aptpl=True)
            is_so("it moves", array.ask("down 1"), ["down"])
            is_so("the device itself is busy", ended(["--port", str(free_port()), device]), (1, "arrayd: cannot use unit 0"))
            array.quit()
        is_so("the device itself is refused", ended(["--port", str(free_port()), device]),
              (1, "arrayd: cannot use registration file 0"))
        is_so("its registration file lies beside the link", os.path.exists(folder + "/unit0.reg"), True)
        is_so("and none in /dev", os.path.exists(device + ".reg"), False)
        with open(folder + "/file", "rb") as file:
            file.seek(2047 * 512)
            is_so("the block is on the device", file.read(4), b"last")
        with Array([folder + "/unit0"]) as array:
            is_so("the key is there", array.status()["keys"], "1")
            array.quit()


@case
def flush_failed(folder):
    with Mounted(folder) as place:
        with Array([place.that_gets_full()]) as array:
            session = login()
            is_so("a block for which there is room", (write(session, 0, b"kept"), flush(session)), (GOOD, GOOD))
            for lba in range(0, 4096, 8):
                is_so("a write is taken", write(session, lba, b"more"), GOOD)
            is_so("the flush fails", flush(session), "03 0C/00")
            run("mount", "-o", "remount,size=16m", place.place)
            is_so("so does each later one, though there is room now", flush(session), "03 0C/00")
            reply = session.command(0, [0x2A, 8, 0, 0, 0, 1, 0, 0, 1, 0], out=bytes(512))
            is_so("and a write with FUA", end_of(reply), "03 0C/00")
            is_so("down does not heal it", (array.ask("down 1"), flush(session), flush(session)),
                  (["down"], "06 2A/06", "02 04/0C"))
            second = login(2, 1)
            is_so("by the other controller", flush(second), "03 0C/00")
            is_so("it ends all the same, and says so", array.last_words("quit\n"),
                  (3, "not flushed 0\n", f"arrayd: unit 0 was not flushed: {folder}/unit0\n"))
        with Array([folder + "/unit0"]) as array:
            session = login()
            is_so("after a restart", (write(session, 8), flush(session)), (GOOD, GOOD))
            array.quit()


@contextlib.contextmanager
def hanging(folder):
    """A running array whose first disk can be frozen: the place of that, the array, and a session by each controller."""
    with Mounted(folder) as place, Array(place.that_hangs()) as array:
        session, other = login(), login(2, 1)
        other.ready(1)
        yield place, array, session, other


def on_its_way(session):
    """A write that the disk keeps back: its tag, once it is there."""
    tag = session.submit(0, [0x2A, 0, 0, 0, 0, 0, 0, 0, 1, 0], out=bytes(512))
    time.sleep(0.5)
    return tag


@case
def disk_that_hangs(folder):
    with hanging(folder) as (place, array, session, other):
        with place.frozen():
            tag = on_its_way(session)
            is_so("another unit is served", write(other, unit=1), GOOD)
            is_so("status is answered", array.status(1, 2)["unit"], "1")
            array.tell("down 1")
            told = []
            reader = threading.Thread(target=lambda: told.append(array.answer()))
            reader.start()
            try:
                login(number=9, timeout=2)
                raise Wrong("a login is done")
            except (TimeoutError, socket.timeout):
                pass
            is_so("down waits", told, [])
            array.tell("quit")
            time.sleep(0.5)
            is_so("so does quit behind it", array.process.poll(), None)
        is_so("with the disk back the write ends", end_of(session.wait(tag)), GOOD)
        reader.join()
        is_so("down is done", told, ["down"])
        is_so("and quit", array.process.wait(20), 0)


@case
def hung(folder):
    with Mounted(folder) as place:
        log = folder + "/log"
        with Array(place.that_hangs(), log=log, more={"ARRAYD_DEADLINE": "2"}) as array:
            session, other = login(), login(2, 1)
            session.ready(1)
            is_so("writes and reads", (write(session), read(session), flush(session)), (GOOD,) * 3)
            with place.frozen():
                begun = time.monotonic()
                is_so("a write", write(session), "03 0C/00")
                if not 1.9 < time.monotonic() - begun < 4:
                    raise Wrong("it does not fail behind the deadline")
                begun = time.monotonic()
                is_so("and then", (write(session), read(session), flush(session)), ("03 0C/00", "03 11/00", "03 0C/00"))
                reply = session.reserve_out(0, 6, new_key=1, aptpl=True)
                is_so("registrations, whose file hangs too", end_of(reply), "04 44/00")
                is_so("another unit, in the same session", (write(session, unit=1), read(session, unit=1)), (GOOD, GOOD))
                is_so("a login is done", write(login(number=9)), "03 0C/00")
                is_so("status is answered", array.status(0, 2)["owner"], "1")
                is_so("down", array.ask("down 1"), ["not moved 0"])
                is_so("a host that asks", take(other, 2), "04 67/0A")
                array.tell("quit")
                for _ in range(50):
                    with open(f"/proc/{array.process.pid}/stat", encoding="utf-8") as stat:
                        if stat.read().rsplit(")", 1)[1].split()[0] == "Z":
                            break
                    time.sleep(0.1)
                else:
                    raise Wrong("quit waits")
            is_so("the system's own calls came back, and the process is gone", array.process.wait(20), 3)
        told = [line.split("event=", 1)[1] for line in lines(log, "hung")]
        is_so("the log", told, ["hung unit=0 file=disk call=write", "hung unit=0 file=registrations call=write"])


@case
def hung_and_back(folder):
    with Mounted(folder) as place:
        log = folder + "/log"
        with Array(place.that_hangs(), log=log, more={"ARRAYD_DEADLINE": "2"}) as array:
            session = login()
            is_so("writes and flushes", (write(session), flush(session)), (GOOD, GOOD))
            with place.frozen():
                is_so("a write", write(session, text=b"late"), "03 0C/00")
                is_so("registrations", end_of(session.reserve_out(0, 6, new_key=1, aptpl=True)), "04 44/00")
            is_so("it comes back", until(lambda: len(lines(log, "back")) == 2), True)
            is_so("then", (write(session), read(session), flush(session)), (GOOD, GOOD, GOOD))
            is_so("registrations", end_of(session.reserve_out(0, 6, new_key=1, aptpl=True)), GOOD)
            is_so("a host that asks", take(login(2, 1), 2), GOOD)
            array.quit()


@case
def wrong_deadlines(folder):
    disk = made(folder + "/disk", 16)
    for deadline in ("0", "3601", "-1", "x", "5s", "1.5", "99999999999999999999"):
        is_so(deadline, ended([disk], more={"ARRAYD_DEADLINE": deadline}), (2, "arrayd: wrong words"))
    for deadline in ("1", "3600", ""):
        with Array([disk], more={"ARRAYD_DEADLINE": deadline}) as array:
            is_so(deadline, write(login()), GOOD)
            array.quit()


@case
def quit_with_commands_on_their_way(folder):
    with hanging(folder) as (place, array, session, other):
        with place.frozen():
            tag = on_its_way(session)
            array.tell("quit")
            time.sleep(0.5)
            is_so("quit waits for the flush", array.process.poll(), None)
            is_so("a command that comes meanwhile", write(other, unit=1), BUSY)
            array.process.terminate()
            time.sleep(0.5)
            is_so("SIGTERM waits for the system's own call", array.process.poll(), None)
        is_so("SIGTERM ends it without a flush", array.process.wait(20), -15)
        del tag


@case
def console_that_ends(folder):
    disk = made(folder + "/disk", 16)
    with Array([disk]) as array:
        is_so("a line that there is not", array.ask("help") + array.ask("") + array.ask("down 3"), ["?", "?", "?"])
        array.process.stdin.close()
        is_so("the end of its input is quit", array.process.wait(20), 0)


@case
def signals(folder):
    disk = made(folder + "/disk", 16)
    for number in (15, 2, 1):
        # `nohup`, or the background of a shell, may have had it ignored, which the array would inherit
        signal.signal(number, signal.SIG_DFL)
        with Array([disk]) as array:
            session = login()
            is_so("a write", write(session, text=b"%d" % number), GOOD)
            array.process.send_signal(number)
            is_so(f"signal {number}", array.process.wait(20), -number)
        with Array([disk]) as array:
            is_so("the block is there", login().read(0, 0, 1)[:1], b"%d" % (number % 10 if number < 10 else 1))


if __name__ == "__main__":
    CASES.main(__doc__)
