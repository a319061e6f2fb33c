#!/usr/bin/env python3
"""What an open window (ARRAYD_HTTP) costs a command, which is less than rates can show. What the program itself does is counted, so
that nothing else on the machine moves a figure: instructions by valgrind's callgrind, calls of the system and reads of the clock by
a library laid under it (count_calls.c). Each count is the difference of a run of 3N commands and one of N, over 2N; of three runs
alike that with the fewest counts, since some of what the program does depends on how long it runs.

Prints a row of a table for each kind of command, over a file on tmpfs: instructions a command without a window, and how many more
with one open that nobody asks; the same of reads of the clock, and of all other calls; how many microseconds of the processor the
program takes for a command, how many of them are its own and not the kernel's, and how many instructions it makes in a nanosecond
of those; how many nanoseconds the window takes by these, and which share of the time that is. Behind the table is told what a
scrape takes.

Under valgrind one thread runs at a time, and threads that look for a lock look as often as chance has it. So of four sessions only
the calls are told. It wants rustc, a C compiler and the Debian package valgrind.

usage: bench/window_cost.py [--count N] [--seconds N] [--runs N] [--priority P] [--only WORDS] [--before PROGRAM]

The program is $ARRAYD, or ./arrayd.
"""

import argparse
import os
import re
import shutil
import statistics
import subprocess
import sys
import tempfile
import time
import urllib.request

sys.path.append(f"{sys.path[0]}/../trials")
from beside import processor_seconds
from free_port import HOST, free_port
from running import ARRAYD, PORT, TARGET, Array, Wrong, client, library, made

# The shorter run's scrapes, and how many runs are alike.
SCRAPES, ALIKE = 20, 3
CALLGRIND = "valgrind -q --tool=callgrind --callgrind-out-file={out}"


def under(tool, program, place):
    """A program that is another one under a tool: its path."""
    script = f"{place}/under.sh"
    with open(script, "w", encoding="utf-8") as file:
        file.write(f'#!/bin/sh\nexec {tool} {os.path.abspath(program)} "$@"\n')
    os.chmod(script, 0o755)
    return script


def instructions(text):
    """How many instructions callgrind counted."""
    return [int(re.search(r"^(?:summary|totals): (\d+)", text, re.M).group(1))]


def calls(text):
    """How many reads of the clock the library counted, and how many other calls."""
    clock, *others = map(int, text.split())
    return [clock, sum(others)]


def scraped(window, times):
    for _ in range(times):
        with urllib.request.urlopen(f"http://{window}/metrics", timeout=60) as answer:
            answer.read()


def slope(run, count):
    """The difference of what a run of 3N counts and one of N, over 2N."""
    few, many = ([min(each) for each in zip(*(run(much) for _ in range(ALIKE)))] for much in (count, 3 * count))
    return [(b - a) / (2 * count) for a, b in zip(few, many)]


class Bench:
    def __init__(self, place, asked):
        self.place, self.asked, self.client, self.window = place, asked, client(place), f"{HOST}:{free_port()}"
        self.library, self.disk = library("bench/count_calls.c", place), made(f"{place}/disk.img", 64 << 11)
        # so that no read is of a hole
        subprocess.run(["shred", "-n", "1", self.disk], check=True)

    def sends(self, *words, first=()):
        """What the client prints."""
        whole = [*first, self.client, f"{HOST}:{PORT}", TARGET, "0", *words]
        out = subprocess.run(whole, capture_output=True, text=True, timeout=600)
        if out.returncode != 0:
            raise Wrong(out.stderr)
        return float(out.stdout)

    def counted(self, tool, read, window, work, program=ARRAYD):
        """What a tool counts of an array that does this, and then ends."""
        out = f"{self.place}/counted"
        more = {"COUNTED": out, **({"ARRAYD_HTTP": self.window} if window else {})}
        array = Array([self.disk], program=under(tool.format(out=out), program, self.place), more=more)
        work()
        if array.last_words("quit\n", 300)[0] != 0:
            raise Wrong("the array ended otherwise")
        with open(out, encoding="utf-8") as file:
            return read(file.read())

    def of_command(self, tool, read, window, words, program=ARRAYD):
        """What a tool counts of a command."""
        count = self.asked.count // (16 if int(words[1]) > 65536 else 1)

        def run(many):
            return self.counted(tool, read, window, lambda: self.sends(*words, f"{many // int(words[3])}x"), program)
        return slope(run, count)

    def instructions(self, window, words, program=ARRAYD):
        return self.of_command(CALLGRIND, instructions, window, words, program)[0]

    def calls(self, window, words):
        return self.of_command(f"env LD_PRELOAD={self.library}", calls, window, words)

    def of_scrape(self):
        """Instructions of a scrape."""
        return slope(lambda times: self.counted(CALLGRIND, instructions, True, lambda: scraped(self.window, times)), SCRAPES)[0]

    def timed(self, words):
        """Microseconds of the processor that a command takes, and how many are the program's own: medians."""
        first = ["chrt", "-f", str(self.asked.priority)] if self.asked.priority else []
        took = []
        for _ in range(self.asked.runs):
            array = Array([self.disk], program=under(" ".join(first), ARRAYD, self.place))
            before, began = processor_seconds(array.process.pid), time.perf_counter()
            ended = self.sends(*words, str(self.asked.seconds), first=first) * (time.perf_counter() - began)
            user, system = (b - a for a, b in zip(before, processor_seconds(array.process.pid)))
            array.last_words("quit\n")
            took.append(((user + system) / ended * 1e6, user / ended * 1e6))
        return [statistics.median(each) for each in zip(*took)]


def clock():
    """Nanoseconds of a read of the clock, with what Python takes for it: the best of twenty times."""
    best = float("inf")
    for _ in range(20):
        began = time.perf_counter_ns()
        for _ in range(10_000):
            time.monotonic()
        best = min(best, (time.perf_counter_ns() - began) / 10_000)
    return best


def row(bench, line, words):
    (clocks, others), (clocks_opened, others_opened) = bench.calls(False, words), bench.calls(True, words)
    called = f"{clocks:.2f} | {clocks_opened - clocks:+.2f} | {others:.2f} | {others_opened - others:+.2f} |"
    if words[3] != "1":
        print(f"| {line} | | | {called} | | | | |", flush=True)
        return
    without, opened = bench.instructions(False, words), bench.instructions(True, words)
    took, user = bench.timed(words)
    pace = without / (user * 1000)
    more = (opened - without) / pace + (clocks_opened - clocks) * clock()
    text = f"| {line} | {without:,.0f} | {opened - without:+,.0f} | {called} {took:.1f} | {user:.2f} | {pace:.1f} | {more:.0f} | "
    text += f"{more / took / 10:.1f} % |"
    if bench.asked.before:
        text += f" {bench.instructions(False, words, bench.asked.before):,.0f} |"
    print(text, flush=True)


def main():
    words = argparse.ArgumentParser(description="What an open window costs a command.")
    words.add_argument("--count", type=int, default=2048, help="commands of the shorter run; of 262144 bytes a 16th")
    words.add_argument("--seconds", type=float, default=1.0, help="how long a run is that tells the time of a command")
    words.add_argument("--runs", type=int, default=5, help="how many of these, of which the median counts")
    words.add_argument("--priority", type=int, help="real-time priority of these")
    words.add_argument("--only", default="", help="only lines with these words")
    words.add_argument("--before", help="another arrayd, whose instructions without a window are printed too")
    asked = words.parse_args()
    if not shutil.which("valgrind"):
        sys.exit("valgrind is not there")
    with tempfile.TemporaryDirectory(dir="/dev/shm") as place:
        bench = Bench(place, asked)
        print("| | instructions | more | clock | more | calls | more | us | its own | in a ns | window, ns | share |")
        print("|---|---|---|---|---|---|---|---|---|---|---|---|")
        for size in (512, 4096, 262144):
            for work in ("read", "write"):
                for depth, sessions in ((1, 1), (32, 1), (32, 4)):
                    line = f"{work} {size} bytes, {depth} deep, {sessions} session{'s'[sessions == 1:]}"
                    if asked.only in line:
                        row(bench, line, [work, str(size), str(depth), str(sessions)])
        print(f"a scrape: {bench.of_scrape():,.0f} instructions; a read of the clock: {clock():.0f} ns at most")


if __name__ == "__main__":
    main()
