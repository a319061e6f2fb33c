"""The array as a script runs it: started over disks in a folder, watched, told lines of its console, ended.

    with Array(disks) as array:
        array.ask("status", 1); array.quit()
    ended(["--port", "1"])                  exit status and standard error of a start that has to fail
    ran(["--version"])                      exit status, standard output and standard error of any run

How the process begins is told to each of them by name, where it is to be otherwise: `program` is ./arrayd or what the
environment's ARRAYD names, `log` the file of its log, `more` what its environment has more, `user` whom it becomes, `largest` the
bytes past which none of its files grows, `limit` another limit of the system.
"""

import contextlib
import os
import resource
import select
import signal
import subprocess

from free_port import APART, HOST, free_port

TOP = os.path.dirname(os.path.dirname(os.path.abspath(__file__)))
ARRAYD = os.environ.get("ARRAYD", os.path.join(TOP, "arrayd"))
PORT = free_port()
TARGET = "iqn.2000-01.test:array"
READY = "arrayd: ready\n"
# How long a line of the console may take to come.
PATIENCE = 60


class Wrong(Exception):
    """The array did something else."""


def made(path, blocks):
    """A disk of so many blocks, sparse: its path."""
    with open(path, "wb") as file:
        file.truncate(blocks * 512)
    return path


def library(source, folder):
    """Compiles a C source of the repository as a library to be preloaded into programs (LD_PRELOAD): its path."""
    path = os.path.join(folder, os.path.basename(source).replace(".c", ".so"))
    subprocess.run(["cc", "-O2", "-shared", "-fPIC", "-o", path, os.path.join(TOP, source), "-ldl", "-lpthread"], check=True)
    return path


def client(folder):
    """Compiles bench/client.rs, which sends what benchmarks and loads do: its path."""
    path = os.path.join(folder, "client")
    subprocess.run(["rustc", "-O", "--edition", "2021", "-o", path, os.path.join(TOP, "bench", "client.rs")], check=True)
    return path


# ---- how its process begins

def begins(user, largest, limit):
    """What the process does first."""
    def begin():
        if largest is not None:
            # a write past the limit fails then, and does not end the program
            signal.signal(signal.SIGXFSZ, signal.SIG_IGN)
            resource.setrlimit(resource.RLIMIT_FSIZE, (largest, largest))
        if user is not None:
            os.setgroups([])
            os.setgid(user)
            os.setuid(user)
        if limit is not None:
            resource.setrlimit(*limit)
    return None if user is largest is limit is None else begin


def environment(log, more):
    """The environment of an array whose log is this file; none: it has none. And more of it."""
    kept = {name: value for name, value in os.environ.items() if name != "ARRAYD_LOG"}
    if log is not None:
        kept["ARRAYD_LOG"] = log
    return {**kept, **(more or {})}


def begun(words, program=ARRAYD, user=None, largest=None, limit=None, log=None, more=None, **pipes):
    """The process of the program with these words; its pipes are those of `subprocess`."""
    return subprocess.Popen([program, *words], preexec_fn=begins(user, largest, limit), env=environment(log, more), **pipes)


# ---- runs

def ran(words, came="", seconds=60, **how):
    """Exit status, standard output and standard error of a run to whose standard input this comes: text, or bytes."""
    pipes = dict.fromkeys(("stdin", "stdout", "stderr"), subprocess.PIPE)
    with begun(words, text=isinstance(came, str), **pipes, **how) as process:
        try:
            said = process.communicate(came, timeout=seconds)
        finally:
            process.kill()
    return process.returncode, *said


def ended(words, **how):
    """Exit status and standard error of a start that fails, without which word, file or error it was."""
    status, _, errors = ran(words, **how)
    return status, faults(errors.strip())


def faults(errors):
    """Each line of standard error without what stands behind its second colon, as a name that goes over several lines."""
    return "\n".join(": ".join(line.split(": ")[:2]) for line in errors.split("\n") if line.startswith("arrayd"))


class Array:
    """A running array, which is ready, unless that is not waited for."""

    def __init__(self, disks, port=PORT, options=(), is_awaited=True, **how):
        self.port, self.came = port, b""
        pipes = dict.fromkeys(("stdin", "stdout", "stderr"), subprocess.PIPE)
        self.process = begun(["--port", str(port), *options, *disks], text=True, **pipes, **how)
        if is_awaited and self.line() != READY:
            self.process.kill()
            raise Wrong(f"the array is not ready: {self.process.stderr.read().strip()}")

    def portal(self, controller):
        """Address and port of a controller's first portal."""
        return HOST, self.port + APART * (controller - 1)

    def line(self):
        """The next line of its standard output, or nothing at its end."""
        while b"\n" not in self.came:
            if not select.select([self.process.stdout], [], [], PATIENCE)[0]:
                raise Wrong(f"no line for {PATIENCE} seconds")
            more = os.read(self.process.stdout.fileno(), 4096)
            if not more:
                break
            self.came += more
        line, end, self.came = self.came.partition(b"\n")
        return (line + end).decode()

    def tell(self, line):
        self.process.stdin.write(line + "\n")
        self.process.stdin.flush()

    def answer(self):
        return self.line().strip()

    def ask(self, line, answers=1):
        self.tell(line)
        return [self.answer() for _ in range(answers)]

    def status(self, unit=0, units=1):
        """The fields of a unit's line, by name."""
        words = self.ask("status", units)[unit].split()
        states = words.index("states")
        fields = dict(zip(words[:states:2], words[1:states:2]))
        fields["states"] = (words[states + 1], words[states + 2])
        fields.update(zip(words[states + 3::2], words[states + 4::2]))
        return fields

    def last_words(self, told="", seconds=PATIENCE):
        """Tells it this, and then the end of its input: its exit status, the rest of its standard output, its standard error."""
        try:
            said = self.process.communicate(told, timeout=seconds)
        except subprocess.TimeoutExpired:
            raise Wrong("the array does not end") from None
        return self.process.returncode, self.came.decode() + said[0], said[1]

    def quit(self, seconds=30):
        """Ends it by its console: its exit status."""
        self.tell("quit")
        return self.process.wait(timeout=seconds)

    def kill(self):
        """Ends it as a crash of the program does. What the system was given is still there."""
        self.process.kill()
        self.process.wait()
        for pipe in (self.process.stdin, self.process.stdout, self.process.stderr):
            with contextlib.suppress(OSError):
                pipe.close()

    def __enter__(self):
        return self

    def __exit__(self, *_):
        self.kill()
