"""Hosts of trials/ceph.py and trials/ceph_gateways.py: those of trials/two_machines.py, whose commands a device may fail, and a
witness who is left with the gateway that was cut off."""

import socket
import struct
import threading
import time

from initiator import BLOCK, GOOD, Failed, Session
from running import Wrong
from two_machines_hosts import HOST, ISID, LOST, READ_FAILED, SAVE_FAILED, TARGET, WRITE_FAILED, Hosts, content

BY_A_DEVICE = (READ_FAILED, WRITE_FAILED, SAVE_FAILED)
# Its unit, which is its own, and its blocks there.
UNIT, BLOCKS, NUMBER = 3, 400, 9


class MayFail(Hosts):
    """Hosts that notice how long an answer took, and end where a device fails."""

    def __init__(self):
        super().__init__()
        self.longest = 0.0

    def do(self, node):
        began = time.monotonic()
        try:
            super().do(node)
        finally:
            self.longest = max(self.longest, time.monotonic() - began)

    def start(self):
        self.longest = 0.0
        super().start()

    def stop_failed(self, seconds=300):
        """They end: since the gateway was lost, or a device of it failed: how many commands a device failed."""
        until = time.monotonic() + seconds
        for thread in self.threads:
            thread.join(max(0, until - time.monotonic()))
        self.is_over.set()
        self.break_off()
        for thread in self.threads:
            thread.join()
        failed = [node.fault for node in self.nodes if isinstance(node.fault, Failed)]
        for node in self.nodes:
            is_of_device = isinstance(node.fault, Failed) and node.fault.reply.sense_key() in BY_A_DEVICE
            if not is_of_device and node.fault is not None and not isinstance(node.fault, LOST):
                raise Wrong(f"{node.name} ended so: {node.fault!r}")
        return len(failed)

    def break_off(self):
        """Their connections end, as those of a host whose ping is not answered."""
        for host in self.all():
            for path in host.paths:
                try:
                    path.socket.shutdown(socket.SHUT_RDWR)
                except OSError:
                    pass


class Witness:
    """A host that writes without a pause by one gateway, then flushes, whatever becomes of that gateway."""

    def __init__(self, port, address=HOST, timeout=60):
        self.at, self.timeout = (address, port), timeout
        self.log_in()
        self.good, self.is_flushed, self.is_over = {}, False, threading.Event()
        self.ended = "nothing"
        self.thread = threading.Thread(target=self.work, daemon=True)

    def log_in(self):
        self.session = Session(*self.at, TARGET, "iqn.2000-01.test:witness", isid=ISID + 8, timeout=self.timeout)
        self.session.ready(UNIT)

    def work(self):
        count = 0
        try:
            while not self.is_over.is_set():
                count += 1
                lba = count % BLOCKS
                reply = self.write(lba, count)
                if reply.status != GOOD:
                    self.ended = f"write {count}: {reply.sense_text()}"
                    break
                self.good[lba] = count
            reply = self.session.command(UNIT, struct.pack(">BxQIxx", 0x91, 0, 0))
            self.is_flushed = reply.status == GOOD
            self.ended += f"; its flush: {'GOOD' if self.is_flushed else reply.sense_text()}"
        except LOST as lost:
            self.ended += f"; {lost!r}"

    def write(self, lba, count, fua=False):
        cdb = struct.pack(">BBQIxx", 0x8A, 8 if fua else 0, lba, 1)
        return self.session.command(UNIT, cdb, out=content(NUMBER, UNIT, lba, count))

    def start(self):
        self.thread.start()

    def stop(self, seconds):
        """It ends by itself where its writes fail, or is told to."""
        self.thread.join(seconds)
        self.is_over.set()
        self.thread.join()

    def writes_on(self):
        """Whether its gateway still says GOOD to a write with FUA, what it is answered, and what that would leave."""
        lba, count = BLOCKS + 1, 1 << 40
        try:
            reply = self.write(lba, count, True)
        except LOST:
            # its session ended while the gateway was cut off
            try:
                self.log_in()
                reply = self.write(lba, count, True)
            except LOST as lost:
                return False, repr(lost)
        return reply.status == GOOD, "GOOD" if reply.status == GOOD else f"status {reply.status:02x} sense {reply.sense_text()}"

    def check(self, session):
        """What is wrong of its blocks, as another gateway gives them."""
        wrong = []
        session.ready(UNIT)
        found = session.read(UNIT, 0, BLOCKS + 2)
        for lba in range(BLOCKS):
            block = found[lba * BLOCK:][:BLOCK]
            count = struct.unpack(">QQQQ", block[:32])[3]
            if block != content(NUMBER, UNIT, lba, count):
                wrong.append(f"witness LBA {lba} is torn")
            if self.is_flushed and count < self.good.get(lba, 0):
                wrong.append(f"witness LBA {lba} has write {count}, and {self.good[lba]} was flushed")
        if any(found[(BLOCKS + 1) * BLOCK:]):
            wrong.append("what the gateway that was cut off wrote behind it is there")
        return wrong
