#!/usr/bin/env python3
"""Connections that send nothing, garbage, or half a login, beside one session that works and has to go on: it writes and reads
back all the time. Ends with status 1 where it does not.

usage: trials/hostile.py [--connections COUNT]              starts an array; 1000 connections where nothing is said
       trials/hostile.py [--connections COUNT] HOST PORT    with one that runs
"""

import argparse
import os
import random
import resource
import socket
import sys
import tempfile

from initiator import Closed, Session, discover
from running import Array, made


def garbage(chance):
    """Bytes of one of the kinds that a login can't be."""
    kind = chance.randrange(5)
    if kind == 0:
        return b""
    if kind == 1:
        return os.urandom(chance.randrange(1, 4096))
    if kind == 2:
        return (b"\x43\x87" + bytes(46))[: chance.randrange(1, 48)]
    if kind == 3:
        return b"\x43\x87\x00\x00\x00" + (70000).to_bytes(3, "big") + bytes(1000)
    return b"\x01\xc1" + bytes(46)


def tried(host, port, count):
    chance = random.Random(1)
    target = next(iter(discover(host, port)))
    with Session(host, port, target) as session:
        session.ready(0)
        kept = []
        for number in range(count):
            peer = socket.create_connection((host, port), 10)
            peer.sendall(garbage(chance))
            kept.append(peer)
            block = os.urandom(512)
            session.write(0, number % 1000, block)
            if session.read(0, number % 1000, 1) != block:
                sys.exit("another block was read")
        with Session(host, port, target, isid=0x400001370009) as other:
            other.ready(0)
            if other.read(0, (count - 1) % 1000, 1) != block:
                sys.exit("another block was read")
    print(f"{count} connections, and the session goes on; another one logs in")


def main():
    words = argparse.ArgumentParser(usage=__doc__.split("usage: ")[1])
    words.add_argument("--connections", type=int, default=1000)
    words.add_argument("host", nargs="?")
    words.add_argument("port", nargs="?", type=int)
    words = words.parse_args()
    limit = resource.getrlimit(resource.RLIMIT_NOFILE)[1]
    resource.setrlimit(resource.RLIMIT_NOFILE, (min(limit, words.connections + 200), limit))
    if words.port is not None:
        return tried(words.host, words.port, words.connections)
    with tempfile.TemporaryDirectory() as folder, Array([made(os.path.join(folder, "disk"), 2048)]) as array:
        tried(*array.portal(1), words.connections)
        if array.quit() != 0:
            sys.exit("the array did not end well")


if __name__ == "__main__":
    try:
        main()
    except (Closed, ConnectionError) as fault:
        sys.exit(f"the session beside them ended: {fault!r}")
