#!/usr/bin/env python3
"""Measures the medium calls over a file on tmpfs: a READ and a WRITE of 512 blocks beside a bare read and write of as many
bytes at the same places, all in one run of one program, each kind in turn. Prints the best time of each and how they
compare; ends with status 1 where a medium call takes more than 1.2 times what the bare one takes.

The program is bench/medium/main.txt, which tools/proved.py proves and builds.

usage: bench/medium.py [--most RATIO]
"""

import argparse
import os
import sys
import tempfile

sys.path.append(f"{sys.path[0]}/../tools")
import proved

USES = ["block_file", "compare_write", "disk_files"]
LENGTH = 1 << 20
KINDS = ["read_range", "read_exact_at", "write_range", "write_all_at"]


def rounds_of(lines):
    """The rounds that the program printed."""
    return [[int(word) for word in row] for row in lines if len(row) == 4 and all(word.isdigit() for word in row)]


def main():
    words = argparse.ArgumentParser(description="Measures the medium calls over a file on tmpfs.")
    words.add_argument("--most", type=float, default=1.2, help="what a medium call may take of the bare call's time")
    asked = words.parse_args()
    with tempfile.TemporaryDirectory() as place, tempfile.NamedTemporaryFile(dir="/dev/shm") as file:
        os.truncate(file.name, LENGTH)
        rounds = rounds_of(proved.lines_of(proved.lay_out(place, "medium", USES), [file.name]))
    if not rounds:
        sys.exit("the program did not run")
    best = [min(column) for column in zip(*rounds)]
    for medium, bare in ((0, 1), (2, 3)):
        ratio = best[medium] / best[bare]
        print(f"{KINDS[medium]} {best[medium]:,} ns, {KINDS[bare]} {best[bare]:,} ns: {ratio:.2f}")
    sys.exit(any(best[medium] > asked.most * best[bare] for medium, bare in ((0, 1), (2, 3))))


if __name__ == "__main__":
    main()
