#!/usr/bin/env python3
"""Proves the program arrayd with each crate that it stands on, side by side on all processors, and leaves it as ./arrayd at
the top. Prints a line for each crate that is proved, with its number and the time since the start, and nothing of the prover
but what it said of a crate that is not proved; then the status is 1.

It is `rt ci` over a copy that has these crates alone, without the edits that are tried at the gate. Where the program that lies
there was proved over the same text by the same toolchain, nothing is proved again.

usage: tools/prove.py
       tools/prove.py --look        proves nothing: the status is 0 where that is so, and else 1
"""

import hashlib
import os
import re
import shutil
import signal
import subprocess
import sys
import tempfile
import time

from proved import TOP, below, needs

PROGRAM = "arrayd"
# What the program that lies at the top was proved over, as a digest.
STAMP = f"{TOP}/out/{PROGRAM}.proved_over"
# The line that ends what `rt ci` says of a crate, or of the tests inside one.
END = re.compile(r"rt: (\w+)(: its tests are)? (proved|is kept: .*|NOT PROVED.*)\n")


# The crates that the program stands on, as a repository of their own.
def copy(to):
    wanted = below([PROGRAM], needs())
    os.makedirs(f"{to}/.git")
    for name in wanted:
        crate = f"{TOP}/crates/{name}"
        # (a folder in proofs/ may have these names too)
        left_out = lambda at, _, crate=crate: ["out", "must-fail", "wrong-bodies"] if at == crate else []
        shutil.copytree(crate, f"{to}/crates/{name}", ignore=left_out)
    shutil.copy(f"{TOP}/HANDLES", to)
    with open(f"{TOP}/crates.txt", encoding="utf-8") as lines, open(f"{to}/crates.txt", "w", encoding="utf-8") as file:
        file.writelines(line for line in lines if re.split(r"[\s:]", line, maxsplit=1)[0] in wanted)
    return len(wanted)


def since(began):
    seconds = int(time.monotonic() - began)
    return f"{seconds // 60}:{seconds % 60:02}"


# What was said of a crate, but for what of it is proved.
def complaints(lines):
    return "".join(line for line in lines if not line.endswith(": proved\n"))


def follow(lines, count):
    """Tells of each crate as it ends. Gives what was said behind the last one, and whether one was not proved."""
    began, number, section, has_failed = time.monotonic(), 0, [], False
    for line in lines:
        section.append(line)
        end = END.fullmatch(line)
        if not end:
            continue
        crate, of_tests, how = end.groups()
        if how.startswith("NOT"):
            has_failed = True
            print(complaints(section), end="", flush=True)
        elif not of_tests:
            number += 1
            note = "" if how == "proved" else "  kept from an earlier run"
            print(f"{number:2} of {count}  {crate:18} {since(began):>6}{note}", flush=True)
        section = []
    return section, has_failed


def digest(paths, top):
    found = hashlib.sha256()
    for path in sorted(paths):
        with open(path, "rb") as file:
            text = file.read()
        found.update(f"{os.path.relpath(path, top)} {len(text)}\n".encode() + text)
    return found.hexdigest()


# What a program is proved over: the toolchain, and the text of the repository that lies here.
def text_of(repository):
    toolchain = subprocess.run(["rt", "version"], stdout=subprocess.PIPE, text=True, check=True).stdout
    return toolchain + digest([os.path.join(at, name) for at, _, names in os.walk(repository) for name in names], repository)


def stamp_of(text):
    return f"{text}\n{digest([f'{TOP}/{PROGRAM}'], TOP)}\n"


def was_proved(text):
    if not os.path.isfile(STAMP) or not os.path.isfile(f"{TOP}/{PROGRAM}"):
        return False
    with open(STAMP, encoding="utf-8") as file:
        return file.read() == stamp_of(text)


def prove(room):
    count = copy(f"{room}/repository")
    text = text_of(f"{room}/repository")
    if was_proved(text):
        print(f"{PROGRAM} and the {count - 1} crates below it were proved over this text before")
        return
    os.mkdir(f"{room}/work")
    how = {"stdout": subprocess.PIPE, "stderr": subprocess.STDOUT, "text": True, "errors": "replace"}
    how["env"] = {**os.environ, "TMPDIR": f"{room}/work"}
    # a group of its own, so that its provers end with it
    gate = subprocess.Popen(["rt", "ci"], cwd=f"{room}/repository", start_new_session=True, **how)
    try:
        rest, has_failed = follow(gate.stdout, count)
        status = gate.wait()
    finally:
        if gate.poll() is None:
            os.killpg(gate.pid, signal.SIGTERM)
            gate.wait()
    if status:
        how = f"rt ci was stopped by signal {-status}: " if status < 0 else ""
        sys.exit(f"{'' if has_failed else ''.join(rest)}{how}not all of {PROGRAM} is proved, so there is no program")
    # the file of a program that runs is not written to
    shutil.copy(f"{room}/repository/crates/{PROGRAM}/out/{PROGRAM}", f"{TOP}/{PROGRAM}.new")
    os.replace(f"{TOP}/{PROGRAM}.new", f"{TOP}/{PROGRAM}")
    os.makedirs(os.path.dirname(STAMP), exist_ok=True)
    with open(STAMP, "w", encoding="utf-8") as file:
        file.write(stamp_of(text))


# Whether the program that lies at the top was proved over the text that lies here.
def look(room):
    copy(f"{room}/repository")
    return was_proved(text_of(f"{room}/repository"))


def main():
    if sys.argv[1:] not in ([], ["--look"]):
        sys.exit(__doc__)
    for number in (signal.SIGINT, signal.SIGTERM, signal.SIGHUP):
        signal.signal(number, lambda number, _: sys.exit(128 + number))
    if not shutil.which("rt"):
        sys.exit("the toolchain's command rt is not in PATH")
    with tempfile.TemporaryDirectory() as room:
        if sys.argv[1:]:
            sys.exit(0 if look(room) else 1)
        prove(room)


if __name__ == "__main__":
    main()
