#!/usr/bin/env python3
"""Each fault of the command line by a run of the program: what it prints on standard error, with which status it ends, and that
it prints nothing else; then that lines of the console are answered, that a disk has one server, and that `quit` waits for no
session and leaves the ports free at once. Ends with status 1 where something is otherwise.

usage: trials/faults.py
"""

import os
import socket
import stat
import subprocess
import sys
import tempfile
import time

from initiator import Session
from running import ARRAYD, PORT, TARGET, TOP, Array, made, ran

WRONG = "wrong words"

# The words, where P is a port that is free, what is wrong with them, and what of it is named.
ROWS = [
    ("", WRONG, "no DISK"), ("--port 3260 --array=1", WRONG, "no DISK"), ("--help disk", WRONG, "--help beside other words"),
    ("--once --version", WRONG, "--version beside other words"), ("--port 0 disk", WRONG, "--port"),
    ("--port 65529 disk", WRONG, "65529"), ("--portals 5 disk", WRONG, "--portals"), ("--array 4294967296 disk", WRONG, "4294967296"),
    # a number has digits alone
    ("--port +4700 disk", WRONG, "--port +4700"), ("--portals=+1 disk", WRONG, "--portals"), ("disk --array +1", WRONG, "--array +1"),
    ("-- --port +4700", "cannot use unit 0", "it is not there, errno 2: --port"),
    ("--host localhost disk", WRONG, "--host localhost"), ("--host=::1 disk", WRONG, "--host"), ("--target= disk", WRONG, "--target"),
    ("--target array disk", WRONG, "--target array"), ("--target iqn.2000-01.Test:array disk", WRONG, "--target"),
    ("--target iqn.2000-1.test:array disk", WRONG, "--target"), ("--target eui.0123456789abcde disk", WRONG, "--target"), ("--once disk", WRONG, "a DISK beside --once"),
    ("1 2 3 4 5 6 7 8 9", WRONG, "more than 8 times DISK"), ("--onc", WRONG, "--onc"),
    ("none", "cannot use unit 0", "it is not there, errno 2: none"), ("odd", "cannot use unit 0", "its length is no multiple of 512: odd"),
    ("empty", "cannot use unit 0", "it is empty: empty"), ("disk none", "cannot use unit 1", "it is not there, errno 2: none"),
    ("noreg", "cannot use registration file 0", "it is no registration file: noreg.reg"),
    ("disk noreg", "cannot use registration file 1", "it is no registration file: noreg.reg"),
    # the first fault ends the program: the words, then each unit with its registration file, then the portals
    ("--port 0 none", WRONG, "--port"), ("noreg none", "cannot use registration file 0", "noreg"),
    ("--host 192.0.2.1 none", "cannot use unit 0", "none"),
    ("--host 192.0.2.1 --port P disk", "cannot listen at controller 1 portal 0", f"192.0.2.1:{PORT}, errno 99"),
]

# Names that iSCSI does not allow: a month, a domain, a character.
NAMES = ["iqn.2000-13.test:x", "iqn.2000-00.test:x", "iqn.2000-01", "iqn.2000-01.", "iqn.2000-01..x", "iqn.2000-01.:x", "iqn.2000-01.test.:x",
         *(f"iqn.2000-01.test:{one}" for one in "\u0080\u00a0\u200b\u00c4\u0416X_ ")]

# Why a log is refused.
UNFIT = "ARRAYD_LOG: no UTF-8, a block device, a link to nothing, .reg or .unit"
IS_A_DISK = "ARRAYD_LOG: a disk, or a file beside one"

# What the environment has, and what of it is named.
VARIABLES = [
    ({"ARRAYD_DEADLNE": "5"}, "ARRAYD_DEADLNE"), ({"ARRAYD_": ""}, "ARRAYD_"), ({"ARRAYD_DEADLINE": "0"}, "ARRAYD_DEADLINE"),
    ({"ARRAYD_DEADLINE": "+5"}, "ARRAYD_DEADLINE"), ({"ARRAYD_X\narrayd: ready": "1"}, "ARRAYD_X\\x0aarrayd: ready"),
    ({b"ARRAYD_LOG": b"log\xff"}, UNFIT), ({"ARRAYD_HTTP": "x"}, "ARRAYD_HTTP"), ({"ARRAYD_HOST2": "x"}, "ARRAYD_HOST2"),
    ({"ARRAYD_CONTROL": "x" * 108}, "ARRAYD_CONTROL"), ({b"PS9": b"\xff", "ARRAYD_LOGS": "x"}, "ARRAYD_LOGS"),
    ({"PS9": "x" * 10000, "ARRAYD_LOGS": "x"}, "ARRAYD_LOGS"),
    # the log is no disk, nor a file beside one, whatever its name
    *(({"ARRAYD_LOG": name}, IS_A_DISK) for name in ("disk", "./disk", "link", "linked")),
    *(({"ARRAYD_LOG": name}, UNFIT) for name in ("disk.reg", "disk.unit", "linked.reg")),
    # it has no name of a file that may come beside a disk
    *(({"ARRAYD_LOG": name}, UNFIT) for name in ("./odd.reg", "./odd.unit", "other.unit")),
    # it has no name beside which files of a disk lie, whether the disk is there or not
    *(({"ARRAYD_LOG": name}, IS_A_DISK) for name in ("noreg", "./noreg", "gone")),
    # nor does it lead there: what a link is called says nothing of the disk
    *(({"ARRAYD_LOG": name}, IS_A_DISK) for name in ("to_served", "to_reg")),
    # it is no link that leads nowhere, and no block device
    *(({"ARRAYD_LOG": name}, UNFIT) for name in ("nowhere", "device")),
]

# The words of a start that is refused before its disk is looked at, what more its environment has, and what is named.
BEFORE_THE_DISK = [
    (["--bogus", "disk"], {}, "'--bogus' found"), (["--bogus=disk"], {}, "'--bogus' found"),
    (["--target", "BAD", "disk"], {}, "--target BAD"), (["disk"], {"ARRAYD_X": "1"}, "ARRAYD_X"),
    (["disk"], {"ARRAYD_HTTP": "x"}, "ARRAYD_HTTP"),
]

# Words of which one is not looked at, so that no log gets a line: it is no text, or too long. And what is named.
NOT_LOOKED_AT = [
    (["\udcff", "x" * 5000, "disk"], "a word that is not UTF-8"), (["disk\udcff"], "a word that is not UTF-8"),
    ([f"--bogus={'./' * 2043}disk"], "' found"),
]

# Which port is taken, counted from P on, and how many portals each controller is to have.
TAKEN = [
    (0, 1, "cannot listen at controller 1 portal 0"), (4, 1, "cannot listen at controller 2 portal 0"),
    (1, 2, "cannot listen at controller 1 portal 1"), (7, 4, "cannot listen at controller 2 portal 3"),
]


def run(words, text="", **how):
    return ran([word.replace("P", str(PORT)) for word in words], text, **how)


def expect(what, got, wanted):
    if got != wanted:
        sys.exit(f"{what}: {got}, and not {wanted}")


def refused(words, fault, named, **how):
    """The words are refused, by one line that begins with the fault, and names this behind it."""
    status, said, errors = run(words, **how)
    expect(words, (status, said, errors[:len(fault) + 8]), (2 if fault == WRONG else 1, "", f"arrayd: {fault}"))
    if errors.count("\n") != 1 or named not in errors[len(fault) + 8:]:
        sys.exit(f"{words}: {errors!r} does not name {named!r}")


def block_device(name):
    """A block device that no driver has; for who can make none, a link that leads nowhere."""
    try:
        os.mknod(name, stat.S_IFBLK | 0o600, os.makedev(60, 0))
    except PermissionError:
        os.symlink("none", name)


def tells_of_itself():
    with open(f"{TOP}/VERSION", encoding="utf-8") as file:
        version = file.read().strip()
    expect("--version", run(["--version"]), (0, f"arrayd {version}\n", ""))
    status, told, faults = run(["--help"])
    expect("--help", (status, told.split("\n")[0][:20], faults), (0, "usage: arrayd [OPTIO", ""))


def in_files():
    """What each file of the folder has."""
    found = {}
    for name in os.listdir():
        if os.path.isfile(name):
            with open(name, "rb") as file:
                found[name] = file.read()
    return found


def logs():
    """A start that is refused writes into no disk that a word names, nor into a file beside it, and makes none, where the log is one."""
    before = in_files()
    for more, named in VARIABLES:
        refused(["disk"], WRONG, f": {named}\n", more=more)
    for words, more, named in BEFORE_THE_DISK:
        for log in ("disk", "./disk", "link", "disk.reg", "linked", "odd.unit", "noreg", "gone", "nowhere", "device", "to_served"):
            refused(words, WRONG, f"{named}\n", more={**more, "ARRAYD_LOG": log})
    for words, named in NOT_LOOKED_AT:
        for log in ("disk", "no_text", "lines"):
            refused(words, WRONG, f"{named}\n", more={"ARRAYD_LOG": log})
    expect("a log that is refused", [name for name, text in in_files().items() if text != before.get(name)], [])
    os.mkfifo("pipe")
    for words, more, named in BEFORE_THE_DISK:
        refused([*words, "pipe"], WRONG, f"{named}\n", more={**more, "ARRAYD_LOG": "lines"})
    expect("lines", in_files()["lines"].count(b" event=wrong_words what="), len(BEFORE_THE_DISK))


def quit_beside_a_session():
    """Twice at the same ports, a session of each controller open."""
    sessions = []
    for _ in range(2):
        with Array(["disk"]) as array:
            for controller in (1, 2):
                sessions.append(Session(*array.portal(controller), TARGET))
                sessions[-1].ready(0)
            expect("quit with sessions open", array.quit(20), 0)


def failed_starts():
    """A start that fails leaves no disk as a unit, so that other words are not refused for its sake; one that serves does."""
    for name in ("third", "fourth"):
        made(name, 16)
    refused(["fourth", "third", "nosuch"], "cannot use unit 2", "nosuch")
    refused(["--host", "192.0.2.1", "fourth", "third"], "cannot listen at controller 1", "192.0.2.1")
    with Array(["third", "fourth"]) as array:
        expect("quit", array.quit(20), 0)
    status, _, errors = run(["fourth", "third"])
    expect("another order", (status, errors), (2, "arrayd: unit 0 of array 1 is unit 1 of array 1: fourth\n"))


def log_that_leads_to_a_disk():
    """A log whose name comes to lead to a disk, or to a file beside one, is written there no more."""
    for name in ("disk", "disk.reg", "away/served"):
        with Array(["disk"], log="turned") as array:
            os.rename("turned", "turned.1")
            os.symlink(name, "turned")
            before = in_files() | {name: open(name, "rb").read()}
            with Session(*array.portal(1), TARGET) as session:
                session.ready(0)
            expect("quit", array.quit(20), 0)
            for one, text in before.items():
                with open(one, "rb") as file:
                    expect(f"a log that leads to {name}: {one}", one == "turned.1" or file.read() == text, True)
        os.remove("turned")
        os.remove("turned.1")


def closed_descriptors():
    """A program that was started without its standard output writes its lines nowhere, and so not into a disk."""
    kept = {}
    for closed in ((0,), (1,), (2,), (0, 1, 2)):
        def begin(closed=closed):
            for one in closed:
                os.close(one)
        with subprocess.Popen([ARRAYD, "--port", str(PORT), "disk"], stdin=subprocess.PIPE, stdout=subprocess.PIPE,
                              stderr=subprocess.PIPE, preexec_fn=begin) as array:
            array.communicate(b"status\nquit\n", timeout=60)
        for name in ("disk", "disk.reg", "disk.unit"):
            with open(name, "rb") as file:
                found = file.read()
            if b"arrayd: ready" in found or b"generation" in found or kept.setdefault(name, len(found)) != len(found):
                sys.exit(f"descriptors {closed} closed: {name} was written")
        expect(f"descriptors {closed} closed", array.returncode, 0)


def main():
    with tempfile.TemporaryDirectory() as folder:
        os.chdir(folder)
        for name, blocks in [("disk", 16), ("odd", 16), ("empty", 0), ("noreg", 16), ("noreg.reg", 1), ("gone.unit", 1)]:
            made(name, blocks)
        os.truncate("odd", 16 * 512 + 1)
        os.symlink("disk", "link")
        os.symlink("new.reg", "nowhere")
        os.mkdir("away")
        for name, blocks in [("away/served", 16), ("away/served.unit", 1), ("away/lost.reg", 1)]:
            made(name, blocks)
        os.symlink("away/served", "to_served")
        os.symlink("away/lost.reg", "to_reg")
        # a disk whose name is no text has another one that is
        os.link(made("disk\udcff", 16), "no_text")
        block_device("device")
        tells_of_itself()
        closed_descriptors()
        failed_starts()
        log_that_leads_to_a_disk()
        for words, fault, named in ROWS:
            refused(words.split(), fault, named)
        for name in NAMES:
            refused(["--target", name, "disk"], WRONG, "--target")
        refused(["a\nb\x1b\x9b\u00e4"], "cannot use unit 0", "errno 2: a\\x0ab\\x1b\\xc2\\x9b\u00e4\n")
        for name in ("linked.reg", "linked"):
            os.link("disk.reg", name)
        logs()
        for taken, portals, fault in TAKEN:
            with socket.socket() as other:
                other.bind(("127.0.0.1", PORT + taken))
                other.listen()
                refused(["--port", "P", "--portals", str(portals), "disk"], fault, f"127.0.0.1:{PORT + taken}, errno 98")
        words = ["--port", "P", "disk"]
        status = "unit 0 owner 1 states 0 1 generation 0 keys 0 type 0 entries 0\n"
        expect("the console", run(words, "x\nstatus\nquit\nstatus\n"), (0, "arrayd: ready\n?\n" + status, ""))
        expect("a last line without its end", run(words, "status"), (0, "arrayd: ready\n" + status, ""))
        with Array(["disk"]) as first:
            refused(["--port", str(PORT + 8), "disk"], "cannot use unit 0", "another server has it, or another unit: disk")
            refused(["--port", str(PORT + 8), "empty"], WRONG, f": {IS_A_DISK}\n", more={"ARRAYD_LOG": "disk"})
            expect("quit", first.quit(), 0)
        with Array(["disk"], log="log") as first:
            # its lines have been written then
            time.sleep(2)
            os.truncate("log", 8192)
            refused(["--port", str(PORT + 8), "log"], "cannot use unit 0", "another server has it, or another unit: log")
            expect("quit", first.quit(), 0)
        for name in ("iqn.2000-12.test:\u00e4\u00f6", "iqn.2000-01.test", "iqn.2000-01.test.x:a:b"):
            with Array(["disk"], options=["--target", name]) as array:
                expect(name, array.quit(), 0)
        quit_beside_a_session()
    print(f"{len(ROWS) + len(VARIABLES) + len(TAKEN)} faults, the console, one server a disk, and quit, as they should be")


if __name__ == "__main__":
    main()
