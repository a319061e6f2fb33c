#!/usr/bin/env python3
"""Runs the scripts of trials/, for ./trials.sh, whose head says the words.

usage: ./trials.sh [--fast] [--jobs N] [--json FILE] [--logs FOLDER] [NAME..]
       ./trials.sh --list
"""

import argparse
import concurrent.futures
import contextlib
import json
import os
import signal
import subprocess
import sys
import tempfile
import threading
import time

from listed import TRIALS, lacking, not_listed

TRIALS_FOLDER = os.path.dirname(os.path.abspath(__file__))
TOP = os.path.dirname(TRIALS_FOLDER)
PASSED, FAILED, SKIPPED = "passed", "failed", "skipped"
# A run that takes so many times as long as it did has failed; and none has less than this.
PATIENCE, LEAST = 8, 120
# So many of its last lines are shown of a trial that failed.
SHOWN = 12


class Turns:
    """Who wants the processors alone waits for the others to end, and they for it."""

    def __init__(self):
        self.changed, self.running, self.is_alone = threading.Condition(), 0, False

    @contextlib.contextmanager
    def turn(self, alone):
        with self.changed:
            self.changed.wait_for(lambda: not self.is_alone and not (alone and self.running))
            self.running, self.is_alone = self.running + 1, alone
        try:
            yield
        finally:
            with self.changed:
                self.running, self.is_alone = self.running - 1, False
                self.changed.notify_all()


def command_of(trial, is_fast):
    name, *words = os.path.expandvars(trial.fast if is_fast else trial.words).split()
    shell = ["sh"] if name.endswith(".sh") else [sys.executable]
    return [*shell, os.path.join(TRIALS_FOLDER, name), *words]


def run(trial, is_fast, program, log):
    """How a trial ended, in how many seconds, and why it failed. What it started ends with it."""
    seconds = trial.fast_seconds if is_fast else trial.seconds
    began = time.monotonic()
    with open(log, "wb") as said:
        process = subprocess.Popen(command_of(trial, is_fast), stdin=subprocess.DEVNULL, stdout=said, stderr=subprocess.STDOUT,
                                   cwd=TOP, env={**os.environ, "ARRAYD": program}, start_new_session=True)
        try:
            status = process.wait(max(LEAST, PATIENCE * seconds))
            why = "" if status == 0 else f"status {status}"
        except subprocess.TimeoutExpired:
            why = "it did not end"
        finally:
            with contextlib.suppress(ProcessLookupError):
                os.killpg(process.pid, signal.SIGKILL)
            process.wait()
    return FAILED if why else PASSED, time.monotonic() - began, why


def last_lines(log):
    with open(log, encoding="utf-8", errors="replace") as said:
        return "".join(f"    {line.rstrip()}\n" for line in said.read().splitlines()[-SHOWN:])


class Summary:
    def __init__(self, is_fast, program, file):
        self.rows, self.lock, self.began = [], threading.Lock(), time.monotonic()
        self.is_fast, self.program, self.file = is_fast, program, file

    def add(self, trial, end, seconds=0.0, why="", log=None):
        with self.lock:
            self.rows.append({"name": trial, "end": end, "seconds": round(seconds, 1), "why": why, "log": log})
            print(f"{end:8}{trial:24}{f'{seconds:7.1f} s' if seconds else ' ' * 9}{f'  {why}' if why else ''}", flush=True)
            if end == FAILED and log:
                print(last_lines(log), end="", flush=True)

    def count(self, end):
        return sum(row["end"] == end for row in self.rows)

    def tell(self):
        line = ", ".join(f"{self.count(end)} {end}" for end in (PASSED, FAILED, SKIPPED))
        whole = {"fast": self.is_fast, "program": self.program, "seconds": round(time.monotonic() - self.began, 1), "summary": line,
                 **{end: self.count(end) for end in (PASSED, FAILED, SKIPPED)}, "trials": self.rows}
        with open(self.file, "w", encoding="utf-8") as file:
            json.dump(whole, file, indent=1)
        print(f"{whole['seconds']:.0f} s, told in {self.file}\n{line}")
        return self.count(FAILED) == 0


def program_of(folder):
    """The program that is tried: what ARRAYD names, or ./arrayd, or one that is compiled unproved."""
    named = os.environ.get("ARRAYD", os.path.join(TOP, "arrayd"))
    if os.path.isfile(named):
        return os.path.abspath(named)
    print("compiling arrayd, unproved", flush=True)
    made = os.path.join(folder, "arrayd")
    # users without rights run it too
    os.chmod(folder, 0o755)
    subprocess.run([sys.executable, os.path.join(TOP, "tools", "unproved.py"), "program", made], check=True)
    return made


def show_list():
    for trial in TRIALS:
        wants = lacking(trial)
        print(f"{trial.name}: trials/{trial.words}")
        print(f"    would catch {trial.catches}")
        print(f"    {trial.seconds} s; " + (f"--fast: trials/{trial.fast}, {trial.fast_seconds} s" if trial.fast else "not in --fast"))
        for line in filter(None, (trial.installs, wants and f"cannot run here: it wants {wants}")):
            print(f"    {line}")


def run_all(chosen, words, program, logs):
    summary, turns = Summary(words.fast, program, words.json), Turns()

    def go(trial):
        log = os.path.join(logs, f"{trial.name}.log")
        try:
            with turns.turn(trial.alone):
                summary.add(trial.name, *run(trial, words.fast, program, log), log)
        except Exception as fault:  # a trial that could not be started is one that failed
            summary.add(trial.name, FAILED, why=repr(fault))

    for name in not_listed():
        summary.add(name, FAILED, why="trials/listed.py does not name it")
    with concurrent.futures.ThreadPoolExecutor(words.jobs) as pool:
        for trial in sorted(chosen, key=lambda one: (one.alone, -(one.fast_seconds if words.fast else one.seconds))):
            wants = "a whole run" if words.fast and trial.fast is None else lacking(trial)
            if wants:
                summary.add(trial.name, SKIPPED, why=f"it wants {wants}")
            else:
                pool.submit(go, trial)
    return summary.tell()


def main():
    words = argparse.ArgumentParser(usage=__doc__.split("usage: ")[1])
    words.add_argument("--fast", action="store_true")
    words.add_argument("--list", action="store_true")
    words.add_argument("--jobs", type=int, default=os.cpu_count())
    words.add_argument("--json", default="trials.json")
    words.add_argument("--logs")
    words.add_argument("names", nargs="*")
    words = words.parse_args()
    if words.list:
        return show_list()
    unknown = set(words.names) - {trial.name for trial in TRIALS}
    if unknown:
        sys.exit(f"no trial is called {', '.join(sorted(unknown))}; ./trials.sh --list has the names")
    logs = words.logs or tempfile.mkdtemp(prefix="trials-")
    os.makedirs(logs, exist_ok=True)
    chosen = [trial for trial in TRIALS if not words.names or trial.name in words.names]
    sys.exit(0 if run_all(chosen, words, program_of(logs), logs) else 1)


if __name__ == "__main__":
    main()
