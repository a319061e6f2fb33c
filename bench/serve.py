#!/usr/bin/env python3
"""Measures what a unit's lock costs: commands a second of `Units::serve` by 1, 2 and 4 threads, on one unit and on a unit
each, beside bare `Unit::step` by one, over blocks in memory. Prints a line for each kind of command with the medians of all
rounds, and how much longer a command of one thread takes than a bare step. All settings run in turn in one program.

The program is bench/serve/, which tools/proved.py proves and builds.

usage: bench/serve.py
"""

import statistics
import sys
import tempfile

sys.path.append(f"{sys.path[0]}/../tools")
import proved

USES = "aptpl_file array_units block_file unit_sequence registrants scsi_types unit_entries unit_history unit_state".split()
KINDS = {"test": "TEST UNIT READY", "read": "READ of 8 blocks", "write": "WRITE of 8 blocks"}
BARE, ALONE = (1, 0), (1, 1)
SETTINGS = {
    BARE: "bare step",
    ALONE: "1 thread",
    (2, 1): "2, one unit",
    (4, 1): "4, one unit",
    (2, 2): "2, a unit each",
    (4, 4): "4, a unit each",
}


def medians(lines):
    """The median nanoseconds a command, by kind and setting."""
    found = {}
    for kind, threads, units, commands, nanos in lines:
        found.setdefault((kind, (int(threads), int(units))), []).append(int(nanos) / int(commands))
    return {which: statistics.median(each) for which, each in found.items()}


def main():
    with tempfile.TemporaryDirectory() as place:
        lines = proved.lines_of(proved.lay_out(place, "serve", USES))
    took = medians(line for line in lines if len(line) == 5 and line[0] in KINDS)
    if not took:
        sys.exit("the program did not run")
    print(f"{'commands a second':18}", *(f"{name:>14}" for name in SETTINGS.values()), "  more than the step")
    for kind, name in KINDS.items():
        rates = (f"{1e9 / took[kind, setting]:14,.0f}" for setting in SETTINGS)
        print(f"{name:18}", *rates, f"{took[kind, ALONE] - took[kind, BARE]:17.0f} ns")


if __name__ == "__main__":
    main()
