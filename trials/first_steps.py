#!/usr/bin/env python3
"""What a host does first with an array: finds it, logs in through both controllers, writes a block through one, reads it
through the other, compares and writes, reserves the unit, and moves it to the other controller. Ends with status 1 where
an answer is not what the standards say.

usage: trials/first_steps.py                 starts an array on a disk of 1 MiB, and tells it `status` and `quit` behind the steps
       trials/first_steps.py HOST PORT       with one that runs
"""

import os
import sys
import tempfile

from initiator import CHECK_CONDITION, GOOD, RESERVATION_CONFLICT, Closed, Failed, Refused, Session, discover
from running import Array, Wrong, made


def say(text):
    print(text, flush=True)


def must(holds, text):
    if not holds:
        sys.exit("not as it must be: " + text)
    say(text)


def steps(host, port):
    [(target, addresses)] = discover(host, port).items()
    say(f"target {target}")
    for address in addresses:
        say(f"  portal {address.split(',')[0]} of controller {address.split(',')[1]}")
    ports = [next(address for address in addresses if address.endswith(f",{tag}")) for tag in (1, 2)]
    ports = [int(address.split(",")[0].rsplit(":", 1)[1]) for address in ports]

    with Session(host, ports[0], target) as one, Session(host, ports[1], target, isid=0x400001370001) as two:
        must(one.keys["TargetPortalGroupTag"] == "1" and two.keys["TargetPortalGroupTag"] == "2", "logged in to both controllers")
        first = one.test_unit_ready(0)
        must(first.sense_key() == (6, 0x29, 0), f"the first command is told {first.sense_text()}: power on or reset")
        one.ready(0)
        two.ready(0)
        blocks, length = one.capacity(0)
        say(f"unit 0 has {blocks} blocks of {length} bytes")

        data = os.urandom(8 * length)
        one.write(0, 0, data)
        must(two.read(0, 0, 8) == data, "8 blocks written through controller 1 are read through controller 2")

        new = os.urandom(length)
        must(two.compare_and_write(0, 0, data[:length], new).status == GOOD, "COMPARE AND WRITE of what stands there is done")
        lost = one.compare_and_write(0, 0, data[:length], os.urandom(length))
        must(lost.status == CHECK_CONDITION and lost.sense_key() == (0xE, 0x1D, 0),
             f"of what stood there before it is a miscompare, {lost.sense_text()}")
        must(one.read(0, 0, 1) == new, "the block is as the first one wrote it")

        must(one.reserve_out(0, 6, new_key=0x11).status == GOOD, "controller 1's session registers key 11h")
        must(one.reserve_out(0, 1, kind=5, key=0x11).status == GOOD, "and reserves the unit, write exclusive for registrants")
        must(two.command(0, [0x2A, 0, 0, 0, 0, 0, 0, 0, 1, 0], out=new).status == RESERVATION_CONFLICT,
             "a write through controller 2 is refused with a reservation conflict")
        must(one.reserve_out(0, 3, key=0x11).status == GOOD, "the reservation is cleared")

        say(f"target port groups: {[f'group {g} state {s}' for g, s, _ in one.port_groups(0)]}")
        must(one.set_port_groups(0, [(2, 0)]).status == GOOD, "the unit moves to controller 2")
        told = two.test_unit_ready(0)
        must(told.sense_key() == (6, 0x2A, 6), f"the other session is told {told.sense_text()}: access states changed")
        must([s for _, s, _ in two.port_groups(0)] == [1, 0], "group 2 is active/optimized, group 1 active/non-optimized")
        must(one.read(0, 1, 7) == data[length:], "the blocks are read through controller 1 as before")
        must(one.set_port_groups(0, [(1, 0)]).status == GOOD, "and the unit moves back")
        one.flush(0)
        two.ready(0)
        must(one.logout() == 0 and two.logout() == 0, "both sessions log out")


def main():
    if len(sys.argv) == 3:
        return steps(sys.argv[1], int(sys.argv[2]))
    with tempfile.TemporaryDirectory() as folder:
        disk = made(os.path.join(folder, "disk.img"), 2048)
        say("a disk of 1 MiB is made")
        with Array([disk]) as array:
            say(f"arrayd listens at 127.0.0.1: controller 1 at port {array.port}, controller 2 at port {array.portal(2)[1]}")
            steps(*array.portal(1))
            say(f"status: {array.ask('status')[0]}")
            must(array.quit(60) == 0, "the array was told to quit, and has ended")


if __name__ == "__main__":
    try:
        main()
    except (Closed, Failed, Refused, Wrong, OSError) as error:
        sys.exit(f"not as it must be, behind the last line above: {error or error.__doc__}")
