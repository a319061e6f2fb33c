#!/usr/bin/env python3
"""Tries service/arrayd-reg: over the worked examples of the registration file's bytes and over the files that have to be refused,
both as test_units has them (its tables are read here), and over files that a running array wrote, whose answer to READ FULL
STATUS has to say the same. Not part of the gate. Wants ./arrayd, or what ARRAYD names. Status 1 where something is not as it has to be.

usage: trials/registrations.py
"""

import os
import re
import struct
import subprocess
import sys
import tempfile

from initiator import Session
from running import TARGET, TOP, Array, made

READER = os.path.join(TOP, "service", "arrayd-reg")
TABLES = os.path.join(TOP, "crates", "test_units", "src", "reg_file")
NAMES = {"A_LONG": ("iqn.2000-01.test:a", 1), "A_LONG_TWO": ("iqn.2000-01.test:a", 2),
         "B_LONG": ("iqn.2000-01.test:b", 1), "B_LONG_TWO": ("iqn.2000-01.test:b", 2)}
ISID = 0x400001370000
A = '0000000000000011 0001 400001370000 12 "iqn.2000-01.test:a"'
B = '0000000000000022 0001 400001370000 12 "iqn.2000-01.test:b"'
A_TWO = '0000000000000022 0002 400001370000 12 "iqn.2000-01.test:a"'
# The files of the table of what is refused, by the requests behind which each is saved, once: so it lies in the second slot.
FRESH = ['0 0 "ALUAREG1" 0002 01', '1 0 "ALUASLT1" 00 00 00 FF']
BASES = {
    "A_LONG Register 0 0 11 APTPL, B_LONG Register 0 0 22 APTPL, A_LONG Reserve 5 11 0 APTPL":
        [*FRESH, '34 0 "ALUASLT1" 01 02 05 00 01', f"35 0 {A}", f"35 256 {B}"],
    "A_LONG Register 0 0 11 APTPL, A_LONG_TWO Register 0 0 22 APTPL":
        [*FRESH, '34 0 "ALUASLT1" 01 02 00 FF', f"35 0 {A}", f"35 256 {A_TWO}"],
    "A_LONG Register 0 0 11 APTPL": [*FRESH, '34 0 "ALUASLT1" 01 01 00 FF', f"35 0 {A}"],
}
tried, wrong = 0, []


def check(name, is_right, found):
    global tried
    tried += 1
    if not is_right:
        wrong.append(name)
        print(f"FAILED  {name}\n{found}")


# ---- the bytes of the tables

def bytes_of(words):
    found = b""
    for word in words:
        found += word.strip('"').encode() if word.startswith('"') else bytes.fromhex(word)
    return found


def put(data, line):
    block, at, *words = line.split()
    start = int(block) * 512 + int(at)
    found = bytes_of(words)
    data[start:start + len(found)] = found


def tables_of(name):
    with open(os.path.join(TABLES, name), encoding="utf-8") as file:
        text = re.search(r'r#"\n(.*?)\n"#', file.read(), re.S).group(1)
    return [table.strip("\n").split("\n") for table in text.split("\n\n")]


def reader(place, data):
    """Exit status, standard output and standard error over these bytes."""
    path = os.path.join(place, "tried.reg")
    with open(path, "wb") as file:
        file.write(data)
    done = subprocess.run([READER, path], stdout=subprocess.PIPE, stderr=subprocess.PIPE, text=True, check=False)
    return done.returncode, done.stdout, done.stderr


# ---- what it says

def said(lines):
    """The registrations as (name, ISID, group, key, holds), and the type, that these lines tell."""
    found = set()
    for line in lines[1:]:
        words = re.fullmatch(r'  key 0x(\w+)  group ([12])  ISID 0x(\w{12})  "(.*?)"(  holds the reservation)?', line)
        key, group, isid, name, holds = words.groups()
        found.add((name, int(isid, 16), int(group), int(key, 16), bool(holds)))
    kind = re.search(r"reservation: type (\d)", lines[0])
    return found, int(kind.group(1)) if kind else 0


def in_force(out):
    lines = out.split("\n")[1:]
    end = next(at for at, line in enumerate(lines) if "not in force" in line)
    assert "in force" in lines[0]
    return said(lines[:end])


def registered(requests):
    """The same, of requests in their order. A small model, for the few that the tables use."""
    keys, kind, holder = {}, 0, None
    for request in requests:
        who, action, first, *rest = request.split()
        name, group = NAMES[who]
        if action == "Register":
            for one in (1, 2) if "ALL_TG_PT" in rest else (group,):
                keys[name, one] = int(rest[1], 16)
        else:
            kind, holder = int(first), (name, group)
    return {(name, ISID, group, key, kind in (7, 8) or (name, group) == holder) for (name, group), key in keys.items()}, kind


def worked_examples(place):
    rows = tables_of("bytes.rt")
    for name, *lines in rows:
        data = bytearray(67 * 512)
        for line in lines:
            if not line.startswith(">"):
                put(data, line)
        status, out, complaint = reader(place, data)
        wanted = registered([line[2:] for line in lines if line.startswith(">")])
        check(f"example: {name}", status == 0 and in_force(out) == wanted, out + complaint)
        # the root is the one of version 2; the other slot is told too
        check(f"example: {name}: its version and slot", f": version 2\nslot {data[10]}, in force: " in out
              and f"\nslot {1 - data[10]}, not in force: " in out, out)
    check("there are worked examples", len(rows) >= 8, len(rows))


def base_of(words):
    number = re.fullmatch(r"(\d+) blocks", words)
    data = bytearray((int(number.group(1)) if number else 67) * 512)
    for line in () if number else BASES[words]:
        put(data, line)
    return data


def refusals(place):
    rows = 0
    for table in tables_of("refusals.rt"):
        words, *lines = [line for line in table if not line.startswith("#")]
        for line in lines:
            name, puts, outcome = (part.strip() for part in line.split(";"))
            data = base_of(words)
            room = len(data)
            for one in filter(None, puts.split(",")):
                put(data, one.strip())
            status, out, complaint = reader(place, data[:room])
            is_right = {"opens": status == 0, "version": status == 1 and "is of version" in complaint,
                        "not-a-file": status == 1 and "of version" not in complaint and complaint.count("\n") == 1}[outcome]
            check(f"refused: {name}", is_right and (status == 0) == bool(out), out + complaint)
            rows += 1
    check("there are rows of what is refused", rows >= 40, rows)


def lengths(place):
    data = base_of("A_LONG Register 0 0 11 APTPL")
    for name, found in (("a byte more", data + b"\0"), ("a byte less", data[:-1]), ("empty", b"")):
        check(f"refused: {name}", reader(place, found)[0] == 1, reader(place, found))
    check("a block more is taken", reader(place, data + bytes(512))[0] == 0, "")
    check("no file", subprocess.run([READER, place + "/none"], stderr=subprocess.DEVNULL, check=False).returncode == 3, "")
    check("no word", subprocess.run([READER], stderr=subprocess.DEVNULL, check=False).returncode == 2, "")


def bounds(place):
    """64 registrations are taken, 66 are not, though their entries have room; a type that all hold wants one."""
    for ports, status in ((32, 0), (33, 1)):
        data = base_of("A_LONG Register 0 0 11 APTPL")
        put(data, f"34 9 {ports:02X}")
        for port in range(ports):
            put(data, f'{35 + port // 2} {port % 2 * 256} 0000000000000011 0003 400001370000 12 "iqn.2000-01.test:{chr(65 + port)}"')
        check(f"{2 * ports} registrations", reader(place, data)[0] == status, reader(place, data))
    data = base_of("A_LONG Register 0 0 11 APTPL")
    put(data, '34 0 "ALUASLT1" 01 00 07 FF')
    data[35 * 512:36 * 512] = bytes(512)
    check("all registrants hold, and there is none", reader(place, data)[0] == 1, reader(place, data))
    put(data, '34 10 00')
    check("nobody is registered, with APTPL", reader(place, data)[0] == 0, reader(place, data))


def versions(place):
    """A file of version 1 as it was, and one that a save has just made one of version 2."""
    old = bytearray(67 * 512)
    for line in ('0 0 "ALUAREG1" 0001 01', '34 0 "ALUASLT1" 01 02 05 01 00', f"35 0 {A}",
                 '35 256 0000000000000011 0002 400001370000 12 "iqn.2000-01.test:a"'):
        put(old, line)
    wanted = ({("iqn.2000-01.test:a", ISID, 1, 0x11, False), ("iqn.2000-01.test:a", ISID, 2, 0x11, True)}, 5)
    status, out, complaint = reader(place, old)
    check("version 1", status == 0 and ": version 1\n" in out and in_force(out) == wanted, out + complaint)
    check("a slot that was never written", "slot 0, not in force: no record: it was never written" in out, out)
    put(old, '0 0 "ALUAREG1" 0002 00')
    put(old, '1 0 "ALUASLT1" 00 00 00 FF')
    status, out, complaint = reader(place, old)
    lines = out.split("\n")
    at = next((at for at, line in enumerate(lines) if line.startswith("slot 1, not in force")), 0)
    check("the slot of before, of version 1", status == 0 and said(lines[at:-1]) == wanted, out + complaint)


def strange_name(place):
    """No name begins a line of its own."""
    data = base_of("A_LONG Register 0 0 11 APTPL")
    data[35 * 512 + 17:35 * 512 + 35] = b'iqn.2000-01\n"\\\xff\x1b[m'
    out = reader(place, data)[1]
    check("a strange name", '"iqn.2000-01\\x0a\\"\\\\\\xff\\x1b[m"' in out and out.count("\n") == 4, out)


# ---- files of a running array

def full_status(session):
    """What READ FULL STATUS says, in the form of `said`."""
    data = session.reserve_in(0, 3)
    found, kind, at = set(), 0, 8
    while at < len(data):
        key, holds, port, long = struct.unpack(">Q4xB5xHI", data[at:at + 24])
        name, isid = data[at + 28:at + 24 + long].rstrip(b"\0").decode().split(",i,")
        found.add((name, int(isid, 16), port, key, bool(holds)))
        kind = data[at + 13] & 15 if holds else kind
        at += 24 + long
    return found, kind


def compare(name, session, path):
    done = subprocess.run([READER, path], stdout=subprocess.PIPE, text=True, check=False)
    check(f"a running array: {name}", done.returncode == 0 and in_force(done.stdout) == full_status(session), done.stdout)


def good(name, reply):
    check(f"a running array: {name}: GOOD", reply.status == 0, reply.status)


def running(place):
    disk = made(os.path.join(place, "disk"), 2048)
    with Array([disk]) as array:
        one = Session(*array.portal(1), TARGET, name="iqn.2000-01.test:one")
        two = Session(*array.portal(2), TARGET, name="iqn.2000-01.test:one")
        other = Session(*array.portal(2), TARGET, name="iqn.2000-01.test:other", isid=0x400001370007)
        for session in (one, two, other):
            session.ready(0)
        compare("nobody is registered", one, disk + ".reg")
        good("register", one.reserve_out(0, 0, new_key=0xABC, aptpl=True))
        compare("one registration", one, disk + ".reg")
        good("register through the other", two.reserve_out(0, 0, new_key=0xABC, aptpl=True))
        compare("a pair", one, disk + ".reg")
        good("register another", other.reserve_out(0, 0, new_key=0xFFFFFFFFFFFFFFFF, aptpl=True))
        good("reserve", two.reserve_out(0, 1, kind=5, key=0xABC))
        compare("a holder of a pair, through group 2", one, disk + ".reg")
        good("preempt", other.reserve_out(0, 4, kind=6, key=0xFFFFFFFFFFFFFFFF, new_key=0xABC))
        compare("a fence", other, disk + ".reg")
        good("release", other.reserve_out(0, 2, kind=6, key=0xFFFFFFFFFFFFFFFF))
        good("reserve for all", other.reserve_out(0, 1, kind=8, key=0xFFFFFFFFFFFFFFFF))
        compare("all registrants hold", other, disk + ".reg")
        good("register without APTPL", other.reserve_out(0, 0, key=0xFFFFFFFFFFFFFFFF, new_key=5))
        out = subprocess.run([READER, disk + ".reg"], stdout=subprocess.PIPE, text=True, check=False).stdout
        check("a running array: without APTPL nothing is kept", "in force: nothing is kept" in out.split("\n")[1], out)
        array.quit()


def main():
    with tempfile.TemporaryDirectory() as place:
        worked_examples(place)
        refusals(place)
        lengths(place)
        bounds(place)
        versions(place)
        strange_name(place)
        running(place)
    print(f"{tried - len(wrong)} right, {len(wrong)} wrong")
    return 1 if wrong else 0


if __name__ == "__main__":
    sys.exit(main())
