"""The disk of an emulated machine of trials/two_machines.py: when the machine loses its power, it forgets what was not
flushed."""

import os
import random
import socket
import struct
import threading

SECTOR = 512


def take(end, count):
    """So many bytes of a socket, or nothing where it has ended."""
    got = b""
    while len(got) < count:
        more = end.recv(count - len(got))
        if not more:
            return None
        got += more
    return got


class Disk:
    """A disk that qemu reaches by the NBD protocol: a file, and before it a cache that a loss of power empties. A
    flush, and a write with FUA, put into the file what they have to
    (https://github.com/NetworkBlockDevice/nbd/blob/master/doc/proto.md)."""

    READ, WRITE, DISCONNECT, FLUSH = range(4)
    HAS_FLAGS, SEND_FLUSH, SEND_FUA = 1, 4, 8
    GO, ABORT = 7, 2
    ACK, INFO, UNSUPPORTED = 1, 3, 0x80000001
    FUA = 1

    def __init__(self, path, length):
        self.path, self.length = path, length
        with open(path, "wb") as file:
            file.truncate(length)
        self.file = os.open(path, os.O_RDWR)
        self.cache, self.lock = {}, threading.Lock()
        self.flushes = self.forgotten = 0
        self.address = path + ".socket"
        if os.path.exists(self.address):
            os.remove(self.address)
        self.listening = socket.socket(socket.AF_UNIX)
        self.listening.bind(self.address)
        self.listening.listen()
        threading.Thread(target=self.listen, daemon=True).start()

    def listen(self):
        while True:
            end, _ = self.listening.accept()
            threading.Thread(target=self.serve, args=[end], daemon=True).start()

    def serve(self, end):
        try:
            if self.agree(end):
                while self.answer(end):
                    pass
        except OSError:
            # the machine is dead
            pass
        end.close()

    def agree(self, end):
        """The begin of a connection: whether requests follow."""
        end.sendall(b"NBDMAGICIHAVEOPT" + struct.pack(">H", 3))
        if take(end, 4) is None:
            return False
        while (header := take(end, 16)) is not None:
            option, length = struct.unpack(">8xII", header)
            take(end, length)
            if option == self.GO:
                flags = self.HAS_FLAGS | self.SEND_FLUSH | self.SEND_FUA
                self.say(end, option, self.INFO, struct.pack(">HQH", 0, self.length, flags))
                self.say(end, option, self.ACK)
                return True
            self.say(end, option, self.ACK if option == self.ABORT else self.UNSUPPORTED)
            if option == self.ABORT:
                return False
        return False

    @staticmethod
    def say(end, option, kind, data=b""):
        end.sendall(struct.pack(">QIII", 0x3E889045565A9, option, kind, len(data)) + data)

    def answer(self, end):
        """Serves a request: whether another may follow."""
        header = take(end, 28)
        if header is None:
            return False
        _, flags, kind, handle, at, length = struct.unpack(">IHHQQI", header)
        data = b""
        if kind == self.WRITE:
            written = take(end, length)
            if written is None:
                return False
            self.write(at, written, flags & self.FUA)
        elif kind == self.READ:
            data = self.read(at, length)
        elif kind == self.FLUSH:
            self.flush()
        else:
            return False
        end.sendall(struct.pack(">IIQ", 0x67446698, 0, handle) + data)
        return True

    def write(self, at, data, fua):
        with self.lock:
            for offset in range(0, len(data), SECTOR):
                self.cache[at + offset] = data[offset:offset + SECTOR]
            if fua:
                self.keep(range(at, at + len(data), SECTOR))

    def read(self, at, length):
        with self.lock:
            data = bytearray(os.pread(self.file, length, at))
            if self.cache:
                for sector in range(at, at + length, SECTOR):
                    if sector in self.cache:
                        data[sector - at:sector - at + SECTOR] = self.cache[sector]
        return bytes(data)

    def flush(self):
        with self.lock:
            self.keep(list(self.cache))
            self.flushes += 1

    def keep(self, sectors):
        for sector in sectors:
            data = self.cache.pop(sector, None)
            if data is not None:
                os.pwrite(self.file, data, sector)

    def lose_power(self, keeps):
        """What a loss of power leaves of what was not flushed: all of it (the machine was lost, and not its disk),
        none, or of each sector by chance."""
        with self.lock:
            chosen = [sector for sector in self.cache if keeps == "all" or keeps == "some" and random.random() < 0.5]
            self.keep(chosen)
            self.forgotten = len(self.cache)
            self.cache.clear()
