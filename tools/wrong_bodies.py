#!/usr/bin/env python3
"""Tries the wrong bodies that stand beside those of the gate: the edits crates/*/wrong-bodies/*.edit of each crate that is named, or
of all. The prover has to refuse each, in the function that the edit changes. The tree stays as it is: all is done on copies.

An edit a check would check each crate some ten times. So edits of a crate that change functions of different names go into one check,
a round, which asks for these functions and what they call, and for no others. An edit counts as refused there only where the prover
refuses its own function for a reason of that function's own, and not since the function calls another one that is refused. Where an
edit changes a constant, the functions that name it are its own, and it has a round for itself. What no round settles is tried by itself
in a check of the whole crate, where any refusal counts, as in the gate.

A crate has to be proved without edits. Where `rt ci` has proved it of this very text on this machine, that is known (tools/kept.py). Where
not, the functions of the edits are asked for with no edit before the rounds: one that is not proved fails the crate, and no round settles
an edit of one that is not named as proved. Before edits are tried by themselves the whole crate is checked then, and must be proved.

An edit is of lines 'file: PATH', 'old: TEXT' and 'new: TEXT', as the gate's are. A line 'in: FUNCTION' before an 'old:' says that the
text stands once in that function of the file, where it stands elsewhere too. A first line 'refused by: TEXT' is for readers alone: the
clause that refuses the edit, or a test that does too.

usage: wrong-bodies.sh [--lanes N] [CRATE..]     N checks at a time; without it, as many as processors and memory bear
       wrong-bodies.sh --only WORD [CRATE..]     those whose names have the word, also of the gate's own (crates/*/must-fail/*.edit)
       wrong-bodies.sh --list [CRATE..]          tries nothing: lists the edits, also the gate's own, and what refuses each where it says so
Prints a line for each edit, and at the end 'N refused, M not refused'; the status is 1 where one was not refused or not tried."""

import argparse
import collections
import concurrent.futures
import glob
import os
import queue
import re
import shutil
import signal
import subprocess
import sys
import tempfile
import threading
import time
import types

from edits import Edit, Function, asked, module_of, pattern_of
from proved import TOP, below, needs

# What a check takes at most, in bytes.
MEMORY = 4 << 30
# What the prover says of a function: that it is proved (and 'may wait', say), or not. What only calls one that is not is said to, and its
# own goals are not named.
NAMED = re.compile(r"^fn (\S+): ", re.M)
PROVED = re.compile(r"^fn (\S+): proved(?:, .*)?$", re.M)
VERDICT = re.compile(r"^fn (\S+): (?:not proved|no proof)(.*)$", re.M)
OWN_GOALS = re.compile(r"did not prove `|expected .*(?:Answers|Invariants|Proof)\.antt$")
# Where the prover does not know a name that it is asked for.
UNKNOWN = re.compile(r"error: (?:`\w+` has no function|several functions are named) `([^`]+)`")
# What a proof says that names what the edit took away, and where it says so.
PROOF_ERROR = re.compile(r"^(?:\./)?(proofs/\S+?):\d+:\d+: error: (.*)$", re.M)
NAME_ALONE = re.compile(r"has no field|is not in scope|has no `|was not admitted")
# What did not reach the prover.
UNREAD = re.compile(r"\berror\[[\w-]+\]")


class Lane:
    """A copy of the tree in which one crate at a time is tried."""

    def __init__(self, top):
        self.top, self.seconds = top, 0.0

    def check(self, crate, names=(), is_enough=lambda said: False):
        """What a check says of a crate, or of what these names stand for and of what that calls. It ends once what it said of functions is
        enough, and then has no status: what comes behind that is help for a proof, for which the prover searches once more."""
        words, said, has_enough = ["rt", "check", "--jobs", "1", *(f"--only={name}" for name in names)], "", False
        with subprocess.Popen(words, cwd=f"{self.top}/crates/{crate}", stdin=subprocess.DEVNULL, stdout=subprocess.PIPE,
                              stderr=subprocess.STDOUT, text=True, errors="replace") as ran:
            for line in ran.stdout:
                said += line
                has_enough = line.startswith("fn ") and is_enough(said)
                if has_enough:
                    self.seconds += seconds_below(ran.pid)
                    # (terminate() would collect one that has just ended, whose time is asked for below)
                    os.kill(ran.pid, signal.SIGTERM)
                    break
            _, status, used = os.wait4(ran.pid, 0)
            ran.returncode = os.waitstatus_to_exitcode(status)
        self.seconds += used.ru_utime + used.ru_stime
        return None if has_enough else ran.returncode, said

    def checked(self, crate, texts, after, *how):
        """What a check of the crate says of the texts after an edit, in place of its own."""
        folder = f"{self.top}/crates/{crate}"
        changed = [path for path in texts if after[path] != texts[path]]
        try:
            for path in changed:
                with open(f"{folder}/{path}", "w", encoding="utf-8") as file:
                    file.write(after[path])
            return self.check(crate, *how)
        finally:
            for path in changed:
                with open(f"{folder}/{path}", "w", encoding="utf-8") as file:
                    file.write(texts[path])


def seconds_below(pid):
    """The processor time that the commands of a process have taken until now."""
    try:
        with open(f"/proc/{pid}/task/{pid}/children", encoding="ascii") as file:
            children = file.read().split()
        ticks = 0
        for child in children:
            with open(f"/proc/{child}/stat", encoding="ascii", errors="replace") as file:
                ticks += sum(map(int, file.read().rpartition(")")[2].split()[11:13]))
    except OSError:
        # (where the system does not tell, they are not counted)
        return 0
    return ticks / os.sysconf("SC_CLK_TCK")


def of_names_alone(said, function):
    """Whether what is said against this function's proof is only that it names what the edit took away."""
    place = "/".join(["proofs", *filter(None, function.module.split("::"))])
    own = [what for file, what in PROOF_ERROR.findall(said) if file.startswith(f"{place}/") and f"/{function.name}/" in file]
    return bool(own) and all(NAME_ALONE.search(what) for what in own) and "did not prove `" not in said


def refused(said):
    """The functions that are refused for a reason of their own, as the prover names them."""
    return [path for path, why in VERDICT.findall(said) if not why or OWN_GOALS.search(why.partition("; it calls")[0])]


def rounds_of(edits, own, texts):
    """Edits that go into one check each time: no two of them change functions of one name in one module, and each can be applied behind
    those before it. One that changes what is outside of functions is by itself."""
    rounds = []
    for edit in edits:
        inside = edit.functions(texts) is not None
        names = {(function.module, function.name) for function in own[edit]}
        for one in rounds:
            after = edit.applied(one.texts) if inside and one.inside and not names & one.names else None
            if after:
                one.edits.append(edit)
                one.names |= names
                one.texts = after
                break
        else:
            rounds.append(types.SimpleNamespace(edits=[edit], inside=inside, names=names, texts=edit.applied(texts)))
    return [one.edits for one in rounds]


class Trial:
    """All edits of one crate, and what becomes of each."""

    def __init__(self, crate, files, is_proved, lane, say):
        # (is_proved: whether the whole crate is known to be proved as it stands)
        self.crate, self.is_proved, self.lane, self.say = crate, is_proved, lane, say
        self.edits = [Edit(crate, file) for file in files]
        self.texts = texts_of(f"{lane.top}/crates/{crate}", {path for edit in self.edits for path in edit.files()})
        self.own = {edit: own_functions(edit, self.texts) for edit in self.edits}
        # by what a check is asked for a function, and how it names that in turn
        functions = {function for edit in self.edits for function in self.own[edit]}
        self.names = {function: asked(function) for function in functions}
        self.patterns = {function: pattern_of(crate, function) for function in functions}

    def tried(self):
        """Each edit with what came of it: refused, refused by a name alone, not refused, or not tried and why."""
        came = {edit: "not tried: what it replaces is not there once" for edit in self.edits if edit.applied(self.texts) is None}
        left = [edit for edit in self.edits if edit not in came]
        why = None if self.is_proved else self.as_it_stands({function for edit in left for function in self.own[edit]})
        if why:
            return came | {edit: f"not tried: the crate is not proved as it stands: {why}" for edit in left}
        last = [edit for edit in left if not self.mine(edit)]
        left = [edit for edit in left if self.mine(edit)]
        # a second time, since what calls a refused function may only have been passed over
        for _ in range(2):
            rounds, left = rounds_of(left, self.own, self.texts), []
            for one in rounds:
                (left if len(one) > 1 else last).extend(self.after_round(one, came))
        return came | self.alone(last + left)

    def mine(self, edit):
        """The edit's own functions that a round may ask for: those that are known to be proved with no edit."""
        return [function for function in self.own[edit] if function in self.patterns]

    def asked_for(self, functions, texts=None, is_enough=lambda said: False):
        """What a check says of these functions, and of what they call, over these texts."""
        while names := {self.names[function] for function in functions if function in self.names}:
            status, said = self.lane.checked(self.crate, self.texts, texts or self.texts, sorted(names), is_enough)
            unknown = UNKNOWN.search(said) if status == 2 else None
            if not unknown or unknown[1] not in names:
                return status, said
            self.is_unknown(unknown[1])
        return 0, ""

    def is_unknown(self, name):
        """Has the module stand for each function that the prover does not know by this name, where there is one."""
        for function in [function for function in self.names if self.names[function] == name]:
            del self.names[function]
            is_known = self.patterns.pop(function, None)
            if is_known and function.module not in ("", name):
                self.names[function], self.patterns[function] = function.module, pattern_of(self.crate, function, is_sure=False)

    def as_it_stands(self, functions):
        """Asks for these functions with no edit, and leaves those that are not named as proved out. Gives what is said where one is not proved."""
        before = self.lane.seconds
        status, said = self.asked_for(functions)
        if status:
            return last_line(said)
        proved = PROVED.findall(said)
        self.patterns = {function: it for function, it in self.patterns.items() if any(map(it.fullmatch, proved))}
        self.say(f"{self.crate}: with no edit, {len(self.patterns)} of {len(functions)} proved, {self.lane.seconds - before:.0f} s")
        return None

    def after_round(self, edits, came):
        """Tries the edits of a round in one check, and gives those that are still open."""
        texts, before = self.texts, self.lane.seconds
        for edit in edits:
            texts = edit.applied(texts)
        functions = [function for edit in edits for function in self.mine(edit)]
        status, said = self.asked_for(functions, texts, lambda said: all(self.is_told(edit, said) for edit in edits))
        if UNREAD.search(said) and len(edits) > 1:
            # one of them says nothing to the prover, and hides what it says of the others
            half = len(edits) // 2
            return self.after_round(edits[:half], came) + self.after_round(edits[half:], came)
        still = [edit for edit in edits if status not in (1, None) or not self.is_refused(edit, said)]
        came.update({edit: "refused" for edit in edits if edit not in still})
        self.say(f"{self.crate}: a round of {len(edits)}, {len(edits) - len(still)} refused, {self.lane.seconds - before:.0f} s")
        return still

    def is_refused(self, edit, said):
        """Whether one of the edit's own functions is refused, and not only since its proof names what the edit took away."""
        found = refused(said)
        return any(any(map(self.patterns[function].match, found)) and not of_names_alone(said, function) for function in self.mine(edit))

    def is_told(self, edit, said):
        """Whether no line behind what is said can tell more of the edit: a function is named behind all that it calls."""
        named = NAMED.findall(said)
        return self.is_refused(edit, said) or all(it.name and any(map(self.patterns[it].fullmatch, named)) for it in self.mine(edit))

    def alone(self, edits):
        """What comes of each of these edits by itself, in a check of the whole crate."""
        if edits and not self.is_proved:
            before = self.lane.seconds
            status, said = self.lane.check(self.crate)
            self.say(f"{self.crate}: the whole, with no edit, {self.lane.seconds - before:.0f} s")
            if status:
                return {edit: f"not tried: the crate is not proved as it stands: {last_line(said)}" for edit in edits}
        return {edit: self.by_itself(edit) for edit in edits}

    def by_itself(self, edit):
        before = self.lane.seconds
        status, said = self.lane.checked(self.crate, self.texts, edit.applied(self.texts))
        self.say(f"{edit}: by itself, {self.lane.seconds - before:.0f} s")
        if status == 0:
            return "NOT REFUSED"
        if UNREAD.search(said) or "logic=not-proved" not in said:
            return f"not tried: {last_line(said)}"
        errors = [what for _, what in PROOF_ERROR.findall(said)]
        is_goal = "did not prove `" in said or "it is not proved that" in said
        if errors and not is_goal and all(NAME_ALONE.search(what) for what in errors):
            return "refused, but only since a proof names what the edit took away"
        return "refused"


def texts_of(folder, more):
    """The texts of a crate's code, and of these files."""
    code = {os.path.relpath(f"{at}/{name}", folder) for at, _, names in os.walk(f"{folder}/src") for name in names if name.endswith(".rt")}
    texts = {}
    for path in sorted(code | more):
        with open(f"{folder}/{path}", encoding="utf-8", newline="") as file:
            texts[path] = file.read()
    return texts


def own_functions(edit, texts):
    """The functions in which an edit has to be refused: those that it changes, or that name the constant that it changes, or else all of
    its file, as one of no name."""
    if edit.applied(texts) is None:
        return set()
    modules = {module_of(path) for path in edit.files() if path.endswith(".rt")} - {""}
    return edit.functions(texts) or edit.functions_that_name(texts) or {Function(module, "", "") for module in modules}


def last_line(said):
    wrong = [line for line in said.splitlines() if "error" in line]
    return (wrong or said.splitlines() or [""])[0][:200]


GATE, BESIDE = "must-fail", "wrong-bodies"


def files_of(crate, *folders, word=""):
    """The edits of a crate whose names have the word."""
    files = [file for folder in folders for file in sorted(glob.glob(f"{TOP}/crates/{crate}/{folder}/*.edit"))]
    return [file for file in files if word in os.path.basename(file).removesuffix(".edit")]


def table_of(crates, word):
    """A line for each edit of these crates: who tries it, its name, and what refuses it, where the edit says so."""
    for crate in crates:
        for folder, who in ((GATE, "gate  "), (BESIDE, "beside")):
            for file in files_of(crate, folder, word=word):
                edit = Edit(crate, file)
                yield f"{who}  {edit}" + (f": {edit.refused_by}" if edit.refused_by else "")


def copy_of(top, place):
    """A copy of the tree, but for what the edits of the gate are; libraries that were proved come by a second name where that can be."""

    def linked(one, other):
        try:
            os.link(one, other)
        except OSError:
            shutil.copy2(one, other)

    def left_out(at, names):
        return [name for name in names if name in (".git", "must-fail", "wrong-bodies", "incremental")]

    shutil.copytree(f"{top}/crates", f"{place}/crates", ignore=left_out, symlinks=True, copy_function=linked)
    for at, _, files in os.walk(f"{place}/crates"):
        # what an edit changes is a file of the copy's own
        for name in files:
            if at.partition("/out")[1] == "" and name.endswith((".rt", ".antt")):
                path = f"{at}/{name}"
                text = open(path, "rb").read()
                os.unlink(path)
                with open(path, "wb") as file:
                    file.write(text)
    for name in ("crates.txt", "HANDLES"):
        shutil.copy(f"{top}/{name}", place)


def lanes_that_fit():
    with open("/proc/meminfo", encoding="ascii") as lines:
        free = next(int(line.split()[1]) for line in lines if line.startswith("MemAvailable:")) << 10
    return max(1, min(len(os.sched_getaffinity(0)), free // MEMORY))


def try_all(files, room, count):
    """Whether all edits of these files are refused, by the crates whose they are."""
    crates = list(files)
    known, lock, began = needs(), threading.Lock(), time.monotonic()

    def say(line):
        with lock:
            print(line, flush=True)

    first = f"{room}/0"
    copy_of(TOP, first)
    # what several crates stand on is proved once
    under = below({name for crate in crates for name in known[crate]}, known)
    wanted = [name for name in known if name in {*under, *crates}]
    kept = subprocess.run([sys.executable, f"{TOP}/tools/kept.py", first, *wanted], stdout=subprocess.PIPE, text=True).stdout.split()
    lacking = [name for name in under if name not in kept]
    say(f"{len(kept)} of {len(wanted)} crates are known to be proved as they stand; of what others stand on, {len(lacking)} are proved now")
    for name in (name for name in wanted if name in lacking):
        subprocess.run(["rt", "lib"], cwd=f"{first}/crates/{name}", stdout=subprocess.DEVNULL, stderr=subprocess.DEVNULL)
    lanes = queue.Queue()
    for number in range(count):
        if number:
            copy_of(first, f"{room}/{number}")
        lanes.put(Lane(f"{room}/{number}"))

    def one(crate):
        lane = lanes.get()
        before = lane.seconds
        try:
            came = Trial(crate, files[crate], crate in kept, lane, say).tried()
        finally:
            lanes.put(lane)
        for edit, what in came.items():
            say(f"{edit}: {what}")
        say(f"{crate}: {len(came)} edits, {list(came.values()).count('refused')} refused, {lane.seconds - before:.0f} s")
        return came

    with concurrent.futures.ThreadPoolExecutor(count) as pool:
        # what has most edits takes longest, so it begins first
        order = sorted(crates, key=lambda crate: -len(files[crate]))
        found = [what for came in pool.map(one, order) for what in came.values()]
    counts = collections.Counter("refused" if what == "refused" else what.partition(":")[0] for what in found)
    for what in sorted(set(counts) - {"refused"}):
        say(f"{counts[what]}: {what}")
    say(f"{time.monotonic() - began:.0f} s")
    say(f"{counts['refused']} refused, {len(found) - counts['refused']} not refused")
    return counts["refused"] == len(found)


def main():
    words = argparse.ArgumentParser(description=__doc__.split("\n\n")[0])
    words.add_argument("--lanes", type=int, default=lanes_that_fit())
    words.add_argument("--only", default="", metavar="WORD")
    words.add_argument("--list", action="store_true")
    words.add_argument("crates", nargs="*", metavar="CRATE")
    given = words.parse_args()
    folders = (GATE, BESIDE) if given.list or given.only else (BESIDE,)
    there = {name: found for name in needs() if (found := files_of(name, *folders, word=given.only)) or given.list and not given.only}
    for name in given.crates:
        if name not in there:
            sys.exit(f"wrong-bodies.sh: crates/{name} has no {'such ' if given.only else ''}wrong bodies")
    if not there:
        sys.exit(f"wrong-bodies.sh: no wrong body has {given.only} in its name")
    files = {name: there[name] for name in given.crates or there}
    if given.list:
        print(*table_of(files, given.only), sep="\n")
        return
    with tempfile.TemporaryDirectory(prefix="wrong-bodies-") as room:
        sys.exit(0 if try_all(files, room, max(1, min(given.lanes, len(files)))) else 1)


if __name__ == "__main__":
    main()
