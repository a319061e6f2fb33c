#!/usr/bin/env python3
"""Prints a port of the loopback that is free, as are the 15 above it: an array's, whose controller 2 is 4 above controller 1 and
whose controllers have up to four portals; or those of whatever else a script starts.

usage: trials/free_port.py
"""

import collections
import contextlib
import fcntl
import itertools
import os
import random
import socket
import sys
import tempfile

HOST, APART = "127.0.0.1", 4
# Below those that the system gives to whoever names none.
FIRST, BEHIND, TOGETHER = 20000, 30000, 16
COUNT = (BEHIND - FIRST) // TOGETHER
# In an order of this process, in which none comes again before all others did: what was given just now may not be taken yet.
TRIED = {}
# The files by which no other script takes what was given last here, before somebody listens there.
HELD = collections.deque(maxlen=16)
PLACE = os.path.join(tempfile.gettempdir(), "arrayd-ports")


def tried():
    # a process that was forked has an order of its own
    if os.getpid() not in TRIED:
        TRIED[os.getpid()] = itertools.cycle(random.SystemRandom().sample(range(FIRST, BEHIND, TOGETHER), COUNT))
    return TRIED[os.getpid()]


def is_free(port):
    with socket.socket() as one:
        # as the array itself asks, which does not mind connections that have just ended
        one.setsockopt(socket.SOL_SOCKET, socket.SO_REUSEADDR, 1)
        try:
            one.bind((HOST, port))
        except OSError:
            return False
    return True


def is_left(port):
    """Whether no other script was given these last; then it is this one's for a while."""
    with contextlib.suppress(OSError):
        os.mkdir(PLACE)
        os.chmod(PLACE, 0o1777)
    try:
        file = os.open(os.path.join(PLACE, str(port)), os.O_RDONLY | os.O_CREAT, 0o644)
    except OSError:
        # nobody can say so here
        return True
    try:
        fcntl.flock(file, fcntl.LOCK_EX | fcntl.LOCK_NB)
    except OSError:
        os.close(file)
        return False
    if len(HELD) == HELD.maxlen:
        os.close(HELD.popleft())
    HELD.append(file)
    return True


def free_port():
    """The first of so many free ports, other ones at each call."""
    for port in itertools.islice(tried(), COUNT):
        if is_left(port) and all(is_free(port + above) for above in range(TOGETHER)):
            return port
    sys.exit(f"no {TOGETHER} ports are free")


if __name__ == "__main__":
    print(free_port())
