"""The sessions of trials/initiator.py, by libiscsi: the same calls, sent by the initiator library of the field. It wants a C
compiler and Debian's package libiscsi-dev.

    session = by_libiscsi.session("127.0.0.1", 3260, "iqn.2000-01.test:array", "iqn.2000-01.test:host", 1)

Where there is no libiscsi, `session` gives a session of initiator.py, and `HAS_LIBISCSI` is false.
"""

import atexit
import os
import shutil
import subprocess
import tempfile

import initiator
from initiator import Closed, Reply, Session

FOLDER = tempfile.mkdtemp()
atexit.register(shutil.rmtree, FOLDER, True)


def built():
    """The program that holds one session of libiscsi, or None where it cannot be built. One that another script has built is
    named by BY_LIBISCSI."""
    if "BY_LIBISCSI" in os.environ:
        return os.environ["BY_LIBISCSI"] or None
    source = os.path.join(os.path.dirname(os.path.abspath(__file__)), "by_libiscsi.c")
    program = os.path.join(FOLDER, "by_libiscsi")
    try:
        done = subprocess.run(["cc", "-O1", "-o", program, source, "-liscsi"], stderr=subprocess.DEVNULL, check=False)
    except FileNotFoundError:
        return None
    return program if done.returncode == 0 else None


PROGRAM = built()
HAS_LIBISCSI = PROGRAM is not None


class LibSession(Session):
    """A session of libiscsi."""

    def __init__(self, host, port, target, name, number):
        words = [PROGRAM, f"{host}:{port}", target, name, str(number)]
        self.process = subprocess.Popen(words, stdin=subprocess.PIPE, stdout=subprocess.PIPE, text=True)
        first = self.process.stdout.readline().strip()
        if first != "ready":
            raise Closed(first)

    def command(self, unit, cdb, out=b"", expected=0):
        self.process.stdin.write(f"{unit} {bytes(cdb).hex()} {out.hex() or '-'} {expected}\n")
        self.process.stdin.flush()
        words = self.process.stdout.readline().split()
        if len(words) != 3 or not 0 <= int(words[0]) < 256:
            raise Closed("libiscsi has lost its session")
        sense, data = (b"" if word == "-" else bytes.fromhex(word) for word in words[1:])
        return Reply(int(words[0]), sense, data, 0)

    def close(self):
        self.process.stdin.close()
        self.process.wait(timeout=30)

    logout = close


def session(host, port, target, name, number):
    """A session of libiscsi, or of initiator.py where there is none."""
    if HAS_LIBISCSI:
        return LibSession(host, port, target, name, number)
    return initiator.Session(host, port, target, name, 0x400001370000 + number)
