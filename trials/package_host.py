"""A host that writes blocks of a unit, reads them back and compares, and goes on where the array goes away and comes back: what
it has no answer for it sends again, as a host does."""

import random
import struct
import threading
import time

from initiator import BLOCK, BUSY, Closed, Failed, Refused, Session
from running import TARGET

# A little time behind each answer: the machine of the array is emulated, and has other things to do too.
FIRST, BLOCKS, PAUSE = 1000, 200, 0.05


def block_of(lba, number):
    return struct.pack(">QQ", lba, number) * (BLOCK // 16)


class Host(threading.Thread):
    """Works until `end`. `values` has what each block was last written with a GOOD for it, `longest` the longest wait for an
    answer, `breaks` how often its session broke, `wrong` the reads that found something else."""

    def __init__(self, address, port, unit):
        super().__init__(daemon=True)
        self.address, self.port, self.unit = address, port, unit
        self.values, self.open, self.wrong = {}, None, []
        self.answers = self.breaks = self.number = 0
        self.longest, self.last, self.is_in, self.is_over = 0.0, None, False, False
        self.random = random.Random(port)

    def run(self):
        while not self.is_over:
            try:
                with Session(self.address, self.port, TARGET, name=f"iqn.2000-01.test:host{self.unit}", timeout=120) as session:
                    session.ready(self.unit)
                    self.is_in = True
                    while not self.is_over:
                        self.step(session)
            except (OSError, Closed, Refused):
                self.breaks += self.is_in
                self.is_in = False
                time.sleep(0.2)

    def step(self, session):
        """A write that has no answer yet is sent again; else a write or a read."""
        try:
            if self.open is None and self.values and self.random.random() < 0.4:
                lba, value = self.random.choice(list(self.values.items()))
                if session.read(self.unit, lba, 1) != value:
                    self.wrong.append(lba)
            else:
                self.write(session)
        except Failed as failed:
            if failed.reply.status != BUSY:
                self.wrong.append(str(failed))
            time.sleep(0.1)
            return
        now = time.monotonic()
        if self.last is not None:
            self.longest = max(self.longest, now - self.last)
        self.answers += 1
        time.sleep(PAUSE)
        self.last = time.monotonic()

    def write(self, session):
        if self.open is None:
            self.number += 1
            lba = FIRST + self.random.randrange(BLOCKS)
            self.open = lba, block_of(lba, self.number)
        lba, value = self.open
        session.write(self.unit, lba, value, fua=self.random.random() < 0.1)
        self.values[lba], self.open = value, None

    def end(self):
        self.is_over = True
        self.join(180)

    def lost(self, port):
        """The blocks that have something else, by the controller at this port. One whose write had no answer may be old or new."""
        with Session(self.address, port, TARGET, name="iqn.2000-01.test:looks") as session:
            session.ready(self.unit)
            found = []
            for lba, value in self.values.items():
                may_be = [value, self.open[1]] if self.open and self.open[0] == lba else [value]
                if session.read(self.unit, lba, 1) not in may_be:
                    found.append(lba)
        return found
