#!/usr/bin/env python3
"""Measures `arrayd --once`: commands a second from a pipe to a pipe, one line for each kind of command, and beside it how
that compares with a bare `cat` of the same bytes: of the input or of the output, whichever is longer. Makes its input
itself. With two programs it prints also how the first compares with the second. All of a line run in turn, so that they
meet the same machine. A kind that the program does not answer with GOOD is not measured.

usage: bench/once.py [--count N] [--repeats N] [--only WORDS] [PROGRAM [PROGRAM]]

Where no PROGRAM is given it is what ARRAYD names, or ./arrayd, which `./example.sh --proved` makes.
"""

import argparse
import os
import struct
import subprocess
import sys
import tempfile
import time

sys.path.append(f"{sys.path[0]}/../trials")
from running import ARRAYD, ran

UNIT = 2048
BLOCK = 512
SEGMENT = 65536
READ, WRITE = 0x40, 0x20
SCSI_RESPONSE, REJECT = 0x21, 0x3F


def command(number, flags, expected, cdb, data=b""):
    """A SCSI Command with this CmdSN, and its number as its task tag."""
    bhs = struct.pack(
        ">BBBBI8sIIII16s", 0x01, flags | 0x81, 0, 0, len(data), bytes(8), number, expected, number, 1, cdb
    )
    return bhs + data


def data_out(number, place, data, final):
    """A SCSI Data-Out for that command's one R2T, at this place among its four. Transfer tags count from 0."""
    at = place * SEGMENT
    bhs = struct.pack(
        ">BBBBI8sIIIIIII4x", 0x05, final << 7, 0, 0, len(data), bytes(8), number, number - 1, 0, 1, 0, place, at
    )
    return bhs + data


def cdb_10(opcode, lba, blocks):
    return struct.pack(">BBIBHB6x", opcode, 0, lba, 0, blocks, 0)


def cdb_16(opcode, lba, blocks):
    return struct.pack(">BBQIBB", opcode, 0, lba, blocks, 0, 0)


def test_unit_ready(number):
    return command(number, 0, 0, bytes(16))


def read_10(number, blocks=8):
    return command(number, READ, blocks * BLOCK, cdb_10(0x28, number * blocks % UNIT, blocks))


def read_16(number):
    return command(number, READ, 8 * BLOCK, cdb_16(0x88, number * 8 % UNIT, 8))


def write_10(number):
    return command(number, WRITE, 8 * BLOCK, cdb_10(0x2A, number * 8 % UNIT, 8), b"\x5a" * (8 * BLOCK))


def compare_and_write(number):
    """One block of zeros, which is written again."""
    return command(number, WRITE, 2 * BLOCK, cdb_16(0x89, number % UNIT, 1), bytes(2 * BLOCK))


def read_512(number):
    return read_10(number, 512)


def write_512(number):
    """262144 bytes, the default MaxBurstLength: none with the command, all for one R2T, sent before that comes."""
    write = command(number, WRITE, 512 * BLOCK, cdb_10(0x2A, number * 512 % UNIT, 512))
    return write + b"".join(data_out(number, place, b"\x5a" * SEGMENT, place == 3) for place in range(4))


# name, maker, and the blocks of data that a command moves
KINDS = [
    ("TEST UNIT READY", test_unit_ready, 0),
    ("READ (10) of 8 blocks", read_10, 8),
    ("READ (16) of 8 blocks", read_16, 8),
    ("WRITE (10) of 8 blocks", write_10, 8),
    ("COMPARE AND WRITE of 1 block", compare_and_write, 2),
    ("READ (10) of 512 blocks", read_512, 512),
    ("WRITE (10) of 512 blocks", write_512, 512),
]


def is_served(program, maker):
    """Whether the program answers each of the first commands with GOOD, and rejects nothing."""
    asked = b"".join(maker(number) for number in range(1, 5))
    answer = ran(["--once"], asked, program=program)[1]
    good = 0
    while answer:
        opcode, status, length = answer[0] & 0x3F, answer[3], int.from_bytes(answer[5:8], "big")
        if opcode == REJECT or (opcode == SCSI_RESPONSE and status != 0):
            return False
        good += opcode == SCSI_RESPONSE
        answer = answer[48 + (length + 3) // 4 * 4 :]
    return good == 4


def seconds(words, path):
    """How long a program takes to serve the file's bytes from a pipe to a pipe."""
    start = time.perf_counter()
    feed = subprocess.Popen(["cat", path], stdout=subprocess.PIPE)
    serve = subprocess.Popen(words, stdin=feed.stdout, stdout=subprocess.PIPE)
    drain = subprocess.Popen(["cat"], stdin=serve.stdout, stdout=subprocess.DEVNULL)
    feed.stdout.close()
    serve.stdout.close()
    for process in (feed, serve, drain):
        if process.wait() != 0:
            sys.exit("a process failed")
    return time.perf_counter() - start


def best_of(runs, repeats):
    """The best time of each run, which are made in turn."""
    best = [float("inf")] * len(runs)
    for _ in range(repeats):
        for place, (words, path) in enumerate(runs):
            best[place] = min(best[place], seconds(words, path))
    return best


def measure(programs, maker, blocks, count, repeats):
    """The line of a kind of command."""
    with tempfile.NamedTemporaryFile() as asked, tempfile.NamedTemporaryFile() as answer:
        asked.writelines(maker(number) for number in range(1, count + 1))
        asked.flush()
        with open(asked.name, "rb") as source:
            subprocess.run([programs[0], "--once"], stdin=source, stdout=answer, check=True)
        longer = max(asked.name, answer.name, key=os.path.getsize)
        runs = [(["cat"], longer)] + [([program, "--once"], asked.name) for program in programs]
        cat, *best = best_of(runs, repeats)
    line = f"{count / best[0]:,.0f} a second"
    if blocks:
        line += f", {count * blocks * BLOCK / best[0] / 1e9:.2f} GB/s"
    line += f", {cat / best[0]:.2f} of cat's"
    if len(best) > 1:
        line += f", {best[1] / best[0]:.2f} of the second program's"
    return line


def main():
    words = argparse.ArgumentParser(description="Measures arrayd --once.")
    words.add_argument("--count", type=int, default=200000, help="commands a run; of 512 blocks a 64th")
    words.add_argument("--repeats", type=int, default=3, help="runs, of which the best counts")
    words.add_argument("--only", default="", help="only the kinds of command with these words in their name")
    words.add_argument("program", nargs="*", default=[ARRAYD])
    asked = words.parse_args()
    for program in asked.program:
        if not os.path.exists(program):
            sys.exit(f"{program} is not there: build it first")
    for name, maker, blocks in KINDS:
        if asked.only not in name:
            continue
        served = [program for program in asked.program if is_served(program, maker)]
        if asked.program[0] not in served:
            print(f"{name}: not served", flush=True)
            continue
        count = max(1, asked.count // max(1, blocks // 8))
        print(f"{name}: {measure(served, maker, blocks, count, asked.repeats)}", flush=True)


if __name__ == "__main__":
    main()
