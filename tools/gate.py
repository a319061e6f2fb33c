#!/usr/bin/env python3
"""Runs the gate as `.ci/run` does, and prints the processor seconds that it took, crate by crate: for the proof, for the proof of the
tests, and for the wrong bodies that were tried, with how many checks these were; the memory of the largest check of each; and the
longest chain of checks, each of which waits for the one before. What runs beside it on the machine makes each second dearer.

usage: tools/gate.py [--log FILE] [WORD..]      the words of `rt ci`; where there are none, those by which it keeps nothing
                                                that an earlier run proved, if this toolchain's keeps any
"""

import os
import re
import subprocess
import sys
import time

from proved import needs

TICK = os.sysconf("SC_CLK_TCK")


def text(path):
    with open(path, "rb") as file:
        return file.read().replace(b"\0", b" ").decode(errors="replace")


def look(session, seen):
    """Notes how much each process of the session has used, by its number and the time at which it started."""
    for pid in filter(str.isdigit, os.listdir("/proc")):
        try:
            fields = text(f"/proc/{pid}/stat").rsplit(")", 1)[1].split()
            if int(fields[3]) != session:
                continue
            process = seen.setdefault((pid, fields[19]), {"looks": 0})
            # a process that was only forked has the words of the one that forked it
            if process["looks"] < 3:
                process["words"] = text(f"/proc/{pid}/cmdline") or process.get("words", "")
                process["folder"] = os.readlink(f"/proc/{pid}/cwd")
            process["looks"] += 1
            process["seconds"] = (int(fields[11]) + int(fields[12])) / TICK
            held = re.search(r"^VmHWM:\s+(\d+)", text(f"/proc/{pid}/status"), re.M)
            process["memory"] = int(held[1]) / 1e6 if held else process.get("memory", 0.0)
        except (OSError, ValueError, IndexError):
            # it has ended meanwhile
            pass


def sums(seen):
    """Returns the seconds of each crate by what they were used for, and those of all else."""
    crates, others = {}, 0.0
    for process in seen.values():
        named = re.search(r"--crate-name (\w+)", process.get("words", ""))
        seconds = process.get("seconds", 0.0)
        if not named:
            others += seconds
            continue
        kind = "tests" if " --test " in process["words"] else "proof"
        if "rt-edit-" in process["folder"]:
            kind = "wrong bodies"
        crate = crates.setdefault(named[1], {"proof": 0.0, "tests": 0.0, "wrong bodies": 0.0, "checks": 0, "memory": 0.0})
        crate[kind] += seconds
        crate["memory"] = max(crate["memory"], process.get("memory", 0.0))
        crate["checks"] += kind == "wrong bodies"
    return crates, others


def chain(crates):
    """Returns the longest chain of checks: its seconds, and its crates in order. Wrong bodies are tried behind the tests of their
    crate."""
    known, longest = needs(), {}

    # The longest chain of proofs that one of these crates is the end of.
    def before(names):
        for name in names:
            if name not in longest:
                seconds, names_before = before(known.get(name, ()))
                longest[name] = seconds + crates.get(name, {}).get("proof", 0.0), [*names_before, name]
        return max((longest[name] for name in names), default=(0.0, []))

    found = 0.0, []
    for name, crate in crates.items():
        seconds, names = before(known.get(name, ()))
        found = max(found, (seconds + max(crate["proof"], crate["tests"]) + crate["wrong bodies"], [*names, name]))
    return found


def anew():
    """The words by which `rt ci` proves all from nothing: some toolchains' gates keep what was proved over the same text, and have a word for that."""
    told = subprocess.run(["rt", "help"], capture_output=True, text=True, check=False)
    return ["--anew"] if "--anew" in told.stdout + told.stderr else []


def main():
    words = sys.argv[1:]
    log = os.devnull
    if words[:1] == ["--log"]:
        log, words = words[1], words[2:]
    seen, began = {}, time.time()
    with open(log, "w") as out:
        gate = subprocess.Popen(["sh", ".ci/run", *(words or anew())], stdout=out, stderr=subprocess.STDOUT,
                                stdin=subprocess.DEVNULL, start_new_session=True)
        while gate.poll() is None:
            look(gate.pid, seen)
            time.sleep(0.25)
    crates, others = sums(seen)
    print(f"{'crate':20} {'all':>7} {'proof':>7} {'tests':>7} {'wrong bodies':>14} {'GB':>5}")
    whole = {"proof": 0.0, "tests": 0.0, "wrong bodies": 0.0}
    of = lambda crate: sum(crate[kind] for kind in whole)
    for name, crate in sorted(crates.items(), key=lambda it: -of(it[1])):
        print(f"{name:20} {of(crate):7.0f} {crate['proof']:7.0f} {crate['tests']:7.0f} {crate['wrong bodies']:9.0f} ({crate['checks']:2}) {crate['memory']:5.1f}")
        for kind in whole:
            whole[kind] += crate[kind]
    told = ", ".join(f"{kind} {seconds / 60:.1f}" for kind, seconds in whole.items())
    print(f"processor minutes: {told}, all else {others / 60:.1f}, together {(sum(whole.values()) + others) / 60:.1f}")
    seconds, names = chain(crates)
    print(f"longest chain: {seconds / 60:.1f} minutes of {' '.join(names)}")
    print(f"{(time.time() - began) / 60:.1f} minutes on {os.cpu_count()} cores; the gate ended with status {gate.returncode}")
    sys.exit(gate.returncode)


if __name__ == "__main__":
    main()
