#!/usr/bin/env python3
"""Starts the proved program where it lacks threads, then where it lacks memory, then where it lacks descriptors, and asks
for sessions until one is not to be had. A connection for which there is no thread or no memory is closed; one for which
there is no descriptor waits in the system's queue. The sessions that there are go on meanwhile, and where one of them ends a
later one is served. Ends with status 1 where that is not so.

usage: trials/want.py [PROGRAM]

Where no PROGRAM is given it is what ARRAYD names, or ./arrayd, which `./example.sh --proved` makes. Linux; the lack of threads is
tried only where this is run as root: the array is then run as the user `nobody`, whose threads are limited.
"""

import os
import resource
import shutil
import socket
import sys
import tempfile
import time

from free_port import free_port
from initiator import Closed, Session
from running import ARRAYD, TARGET, Array, Wrong, made

# Limits of threads are those of all processes of a user: of this one there are no others.
OWN_USER = 2_000_000 + os.getpid()
MOST = 40
REFUSED = (Closed, ConnectionError)


class Wanting(Array):
    """A running array over one unit of 1 MiB, for which something is not there."""

    def __init__(self, program, folder, user=None, limit=None):
        port = free_port()
        disk = made(os.path.join(folder, f"{port}.img"), 2048)
        if user is not None:
            os.chown(disk, user, user)
        super().__init__([disk], port, program=program, user=user, limit=limit)

    def session(self, number, timeout=10):
        """A session of a port of its own, by either controller."""
        session = Session(*self.portal(1 + number % 2), TARGET, isid=0x400001370000 + number, timeout=timeout)
        session.ready(0)
        return session

    def address_space(self):
        """How many bytes of address space it has."""
        with open(f"/proc/{self.process.pid}/statm") as file:
            return int(file.read().split()[0]) * resource.getpagesize()


def go_on(sessions):
    """Each session writes a block of its own and reads those of all."""
    for number, session in enumerate(sessions):
        session.write(0, number, bytes([number + 1]) * 512)
    wanted = b"".join(bytes([number + 1]) * 512 for number in range(len(sessions)))
    for session in sessions:
        if session.read(0, 0, len(sessions)) != wanted:
            raise Wrong("other blocks were read")


def fill(array, refused, timeout):
    """Sessions until one is not to be had, and that is not had for one of these reasons."""
    sessions = []
    while len(sessions) < MOST:
        try:
            sessions.append(array.session(len(sessions), timeout))
        except refused:
            return sessions
    raise Wrong(f"{MOST} sessions, and nothing lacks")


def ask_on(array, refused, timeout, sessions):
    """While nothing is there for another connection, the others go on."""
    for number in range(MOST, MOST + 20):
        try:
            array.session(number, timeout)
        except refused:
            pass
        else:
            raise Wrong("a session was had while nothing was there for it")
        go_on(sessions)
        if timeout < 5 and number > MOST + 2:
            break


def served_again(array, sessions):
    """Where two sessions end, later ones are served."""
    for _ in range(2):
        sessions.pop().logout()
    until = time.monotonic() + 20
    while True:
        try:
            sessions.append(array.session(MOST + 30))
            break
        except REFUSED:
            if time.monotonic() > until:
                raise Wrong("no later session is served") from None
            time.sleep(0.1)
    go_on(sessions)


def lacks(what, array, refused=REFUSED, timeout=10):
    try:
        sessions = fill(array, refused, timeout)
        if len(sessions) < 3:
            raise Wrong(f"{len(sessions)} sessions only")
        go_on(sessions)
        count = len(sessions)
        ask_on(array, refused, timeout, sessions)
        served_again(array, sessions)
        for session in sessions:
            session.logout()
        status = array.quit()
        if status != 0:
            raise Wrong(f"the array ended with status {status}")
    except (Wrong, *REFUSED) as wrong:
        raise Wrong(f"lack of {what}: {wrong if isinstance(wrong, Wrong) else repr(wrong)}") from None
    finally:
        array.kill()
    end = "wait" if socket.timeout in refused else "are closed"
    print(f"lack of {what}: {count} sessions, further connections {end}, those go on, and later ones are served", flush=True)


def main():
    program = os.path.abspath(sys.argv[1] if len(sys.argv) > 1 else ARRAYD)
    with tempfile.TemporaryDirectory(dir="/tmp") as folder:
        os.chmod(folder, 0o777)
        own = os.path.join(folder, "arrayd")
        shutil.copy(program, own)
        try:
            if os.getuid() == 0:
                # The main thread, two accept loops and eight lanes come first.
                lacks("threads", Wanting(own, folder, OWN_USER, (resource.RLIMIT_NPROC, (17, 17))))
            else:
                print("lack of threads: not tried, as this is not run as root")
            array = Wanting(own, folder)
            room = array.address_space() + (4 << 20)
            resource.prlimit(array.process.pid, resource.RLIMIT_AS, (room, room))
            lacks("memory", array)
            # The console, the disk and its registrations, and two portals come first; a session has one.
            lacks("descriptors", Wanting(own, folder, limit=(resource.RLIMIT_NOFILE, (17, 17))), (socket.timeout,), 2)
        except Wrong as wrong:
            sys.exit(f"want.py: {wrong}")


if __name__ == "__main__":
    main()
