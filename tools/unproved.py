#!/usr/bin/env python3
"""Compiles the array and its tests with no proof and runs them: the program for ./example.sh, the tests for ./tests.sh. Says
nothing of the compiler unless something fails.

`rt try` compiles without proofs, but optimizes nothing: tests that make many sessions then run for minutes. So the module that
it makes for LLVM is taken from it, and compiled and linked by the toolchain's own programs. In it stay the checks of sums,
casts, shifts and divisors, at which a run stops; an access out of bounds is not looked for, as `rt try --test` in a crate's
folder does. Where there is no module to take, tests run by `rt try` alone. What is known here of the toolchain's insides stands in
tools/kit.py.

usage: tools/unproved.py program FILE        compiles arrayd, and leaves it as FILE
       tools/unproved.py tests [NAME..] [--only WORD]    runs the tests of these crates, or of all, and the stored run of each
                                             program, or those tests whose names have the word; the last line is 'N passed, M failed'
"""

import concurrent.futures
import os
import re
import shutil
import signal
import subprocess
import sys
import tempfile
import time

import kit
from proved import TOP, below, needs

# A program is there soonest with nothing optimized; tests make thousands of sessions, whose buffers a slow program fills slowly.
OF_PROGRAM, OF_TESTS = "-O0", "-O1"
# How often is looked for the module, in seconds.
LOOK = 0.05
# What one test or run may take, in seconds.
SECONDS = 120


class Trials:
    """What runs at the moment, in folders of its own below one room."""

    def __init__(self, room):
        self.room, self.running, self.is_over = room, set(), False

    def call(self, words, **how):
        """Runs a command to its end, unless all is to end: its status and what it wrote, standard error behind it."""
        with tempfile.TemporaryFile() as out, tempfile.TemporaryFile() as said:
            if self.is_over:
                sys.exit(1)
            meanwhile = how.pop("meanwhile", None)
            command = subprocess.Popen(words, stdin=how.pop("stdin", subprocess.DEVNULL), stdout=out, stderr=said, **how)
            self.running.add(command)
            while meanwhile and command.poll() is None:
                if meanwhile():
                    command.terminate()
                    break
                time.sleep(LOOK)
            status = command.wait()
            self.running.discard(command)
            found = []
            for file in (out, said):
                file.seek(0)
                found.append(file.read())
            return status, *found

    # Beside a trial `rt try` has a check look, through `sh`, for names that a proof would refuse. It takes as long as the
    # trial and tells nothing of a run, so the `sh` that these trials find ends at once.
    def trial(self, crate, words, folder, meanwhile=None):
        """`rt try` in a crate's folder, with files of its own in this one."""
        shutil.rmtree(folder, ignore_errors=True)
        os.makedirs(f"{folder}/bin")
        with open(f"{folder}/bin/sh", "w", encoding="utf-8") as file:
            file.write("#!/bin/sh\n")
        os.chmod(f"{folder}/bin/sh", 0o755)
        env = {**os.environ, "PATH": f"{folder}/bin:{os.environ['PATH']}", "TMPDIR": folder}
        return self.call(["rt", "try", *words], cwd=f"{TOP}/crates/{crate}", env=env, meanwhile=meanwhile)

    # A signal may come while a command is waited for, and who waits for it once more then waits for ever.
    def end(self, waits=True):
        self.is_over = True
        for command in list(self.running):
            command.terminate()
        if waits:
            for command in list(self.running):
                command.wait()
        shutil.rmtree(self.room, ignore_errors=True)


def read(path):
    with open(path, "rb") as file:
        return file.read()


def build(trials, crate, words, level, to):
    """Compiles a crate's program, or its tests, to this file. Gives nothing where that was done, else how `rt try` ended, as
    it does where the crate does not compile."""
    work, module = f"{to}.work", f"{to}.bc"

    def take():
        found = kit.module_in(work)
        try:
            if found:
                os.link(found, module)
        except FileNotFoundError:
            return False
        return bool(found)

    ended = trials.trial(crate, words, work, take)
    if not os.path.isfile(module):
        if ended[0] == 0:
            kit.told([f"no module was found where `rt try` compiled {crate}"])
        return ended
    status = trials.call([*kit.CLANG, level, module, "-o", f"{to}.o"])[0]
    status = status or trials.call([*kit.LINK, "-o", to, f"{to}.o", *kit.LIBRARIES])[0]
    return trials.trial(crate, words, work) if status else None


# ---- the program

def take_program(trials, to):
    ended = build(trials, "arrayd", ["--", "--once"], OF_PROGRAM, f"{trials.room}/arrayd")
    if ended:
        sys.exit(f"{ended[2].decode(errors='replace')}arrayd was not compiled")
    os.replace(f"{trials.room}/arrayd", to)


# ---- the tests

class Result:
    """How many tests passed and failed, and what was said of those that failed."""

    def __init__(self, passed, failed, why=""):
        self.passed, self.failed, self.why = passed, failed, why

    def and_of(self, other):
        return Result(self.passed + other.passed, self.failed + other.failed, self.why + other.why)


def tests_of(crate):
    """How many tests a crate has."""
    found = 0
    for at, _, files in os.walk(f"{TOP}/crates/{crate}/src"):
        for file in files:
            if file.endswith(".rt"):
                found += len(re.findall(rb"^\s*#\[test\]", read(f"{at}/{file}"), re.M))
    return found


def is_program(crate):
    return os.path.isfile(f"{TOP}/crates/{crate}/src/main.rt")


def run_tests(trials, crate, room, only):
    program = f"{room}/tests"
    ended = build(trials, crate, ["--test", "--seconds", str(SECONDS)], OF_TESTS, program)
    if not ended:
        where = f"{room}/where"
        os.mkdir(where)
        env = {"PATH": os.environ["PATH"], "HOME": where, "TMPDIR": where}
        words = ["--seconds", str(SECONDS), *(["--filter", only] if only else [])]
        ended = trials.call([kit.TEST, *words, program], cwd=where, env=env)
    status, text = ended[0], (ended[1] + ended[2]).decode(errors="replace")
    counted = re.search(r"^test result: \w+\. (\d+) passed; (\d+) failed", text, re.M)
    passed, failed = map(int, counted.groups()) if counted else (0, 0)
    if not failed and (status or not passed):
        failed = 1
    if not failed:
        return Result(passed, 0)
    return Result(passed, failed, "".join(line for line in text.splitlines(True) if not re.match(r"test \S+ \.\.\. ok$", line)))


def run_program(trials, crate, room):
    """Runs a program on its files args, stdin and data/: it has to write its file stdout, and to end with 0 or with status."""
    folder, program, where = f"{TOP}/crates/{crate}", f"{room}/program", f"{room}/data"
    part = lambda name, default: read(f"{folder}/{name}") if os.path.isfile(f"{folder}/{name}") else default
    words = part("args", b"").decode().splitlines()
    ended = build(trials, crate, ["--", *words], OF_PROGRAM, program)
    if ended:
        return Result(0, 1, ended[2].decode(errors="replace"))
    if os.path.isdir(f"{folder}/data"):
        shutil.copytree(f"{folder}/data", where)
    else:
        os.mkdir(where)
    with open(f"{folder}/stdin" if os.path.isfile(f"{folder}/stdin") else os.devnull, "rb") as given:
        status, out, said = trials.call(["timeout", str(SECONDS), program, *words], stdin=given, cwd=where)
    if out == part("stdout", b"") and status == int(part("status", b"0")):
        return Result(1, 0)
    told = f"the program ended with status {status}, and wrote {len(out)} bytes; its file stdout has what it must write\n"
    return Result(0, 1, said.decode(errors="replace") + told)


def run_crate(trials, crate, only):
    began, result = time.monotonic(), Result(0, 0)
    room = tempfile.mkdtemp(dir=trials.room)
    if tests_of(crate):
        result = result.and_of(run_tests(trials, crate, room, only))
    if is_program(crate) and not only:
        result = result.and_of(run_program(trials, crate, room))
    shutil.rmtree(room)
    return crate, result, time.monotonic() - began


def run_all(trials, names):
    """Runs the tests of these crates, or of all; behind --only stands a word of the names of those that are wanted."""
    only = None
    if names[-2:-1] == ["--only"]:
        names, only = names[:-2], names[-1]
    known = needs()
    wrong = [name for name in names if name not in known or not tests_of(name) and not is_program(name)]
    if wrong:
        sys.exit(f"tests.sh: {' '.join(wrong)}: no crate of crates.txt that has tests")
    crates = [name for name in names or known if tests_of(name) or is_program(name)]
    # what stands on much and what has many tests takes long, so it begins first
    crates.sort(key=lambda crate: -len(below([crate], known)) - tests_of(crate))
    total = Result(0, 0)
    with concurrent.futures.ThreadPoolExecutor(len(os.sched_getaffinity(0))) as lanes:
        for done in concurrent.futures.as_completed([lanes.submit(run_crate, trials, crate, only) for crate in crates]):
            crate, result, seconds = done.result()
            total = total.and_of(result)
            told = f"{result.failed} FAILED, {result.passed} passed" if result.failed else f"{result.passed} passed"
            print(f"{crate:20} {told:20} {seconds:4.0f} s\n{result.why}", end="", flush=True)
    print(f"{total.passed} passed, {total.failed} failed")
    return 1 if total.failed else 0


def main():
    is_one = sys.argv[1:2] == ["program"] and len(sys.argv) == 3
    if not is_one and sys.argv[1:2] != ["tests"]:
        sys.exit(__doc__)
    if not shutil.which("rt"):
        sys.exit("the toolchain's command rt is not in PATH")
    kit.told(kit.otherwise_to_compile())
    # the program gets its second name in the file system of its first
    trials = Trials(tempfile.mkdtemp(dir=os.path.dirname(os.path.abspath(sys.argv[2])) if is_one else None))

    def stop(number, _):
        trials.end(waits=False)
        os._exit(128 + number)

    for number in (signal.SIGINT, signal.SIGTERM, signal.SIGHUP):
        signal.signal(number, stop)
    try:
        status = take_program(trials, sys.argv[2]) if is_one else run_all(trials, sys.argv[2:])
    finally:
        trials.end()
    sys.exit(status)


if __name__ == "__main__":
    main()
