#!/usr/bin/env python3
"""Holds the array under load: sessions on both controllers write numbered blocks and read them back, and in the middle of it
the array is killed (kill -9) and started again; then each session finds in every place the last write that was answered, or
one that was sent after that. It says nothing of a loss of power. Wants rustc. Ends with status 1 where a block is wrong.

usage: trials/load.py [SESSIONS [DEPTH [SECONDS]]]
"""

import subprocess
import sys
import tempfile
import time

from running import TARGET, Array, client, made

UNITS, BLOCKS = 2, 256 * 2048


def loads(program, array, depth, sessions, seconds, errors):
    """The client, at work on both units by both controllers."""
    portals = ",".join("%s:%d" % array.portal(controller) for controller in (1, 2))
    words = [program, portals, TARGET, "0,1", "load", "4096", str(depth), str(sessions), str(seconds)]
    return subprocess.Popen(words, stdout=subprocess.PIPE, stderr=errors, text=True)


def print_errors(errors):
    """The first of them, but for those of connections that the kill has ended."""
    errors.seek(0)
    told = [line for line in errors if "connection" not in line and "reset" not in line]
    print("".join(told[:5]), end="")


def main():
    sessions, depth, seconds = (int(word) for word in sys.argv[1:] + ["64", "32", "300"][len(sys.argv) - 1:])
    with tempfile.TemporaryDirectory(dir="/dev/shm") as folder, open(f"{folder}/errors", "w+", encoding="utf-8") as errors:
        program = client(folder)
        disks = [made(f"{folder}/{unit}.img", BLOCKS) for unit in range(UNITS)]
        with Array(disks) as array:
            load = loads(program, array, depth, sessions, seconds + 60, errors)
            time.sleep(seconds)
            array.kill()
        print(f"killed after {seconds} s, and started again", flush=True)
        with Array(disks) as array:
            print(load.communicate()[0], end="")
            print_errors(errors)
            print("\n".join(array.ask("status", UNITS)))
            array.quit(60)
    sys.exit(load.returncode)


if __name__ == "__main__":
    main()
