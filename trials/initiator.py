#!/usr/bin/env python3
"""A small iSCSI initiator (RFC 7143) with the SCSI commands that the array serves (SPC-4, SBC-3), for its example and its
tests under load. It stands on the standards alone and works with other targets too. Without digests and authentication.

    session = Session("127.0.0.1", 3260, "iqn.2000-01.test:array")     a login
    session.write(0, 5, data); session.read(0, 5, 1)                   unit, LBA, blocks
    discover("127.0.0.1", 3260)                                        names and addresses

usage: trials/initiator.py HOST PORT          lists the targets there with their portals and units
"""

import socket
import struct
import sys

BLOCK = 512
NOP_OUT, SCSI, TASK, LOGIN, TEXT, DATA_OUT, LOGOUT = 0x00, 0x01, 0x02, 0x03, 0x04, 0x05, 0x06
NOP_IN, RESPONSE, TASK_RESPONSE, LOGIN_RESPONSE, TEXT_RESPONSE = 0x20, 0x21, 0x22, 0x23, 0x24
DATA_IN, LOGOUT_RESPONSE, R2T, ASYNC, REJECT = 0x25, 0x26, 0x31, 0x32, 0x3F
NO_TAG = 0xFFFFFFFF
GOOD, CHECK_CONDITION, BUSY, RESERVATION_CONFLICT, TASK_SET_FULL = 0x00, 0x02, 0x08, 0x18, 0x28
RECEIVES = 262144


class Closed(Exception):
    """The target has closed the connection."""


class Refused(Exception):
    """A login was refused; the status is class and detail."""

    def __init__(self, status):
        super().__init__(f"login refused: {status:04x}")
        self.status = status


class Failed(Exception):
    """A command was not answered with GOOD."""

    def __init__(self, reply):
        super().__init__(f"status {reply.status:02x} sense {reply.sense_text()}")
        self.reply = reply


class Reply:
    """The end of a command: its status, sense, data, and what was left over or wanting."""

    def __init__(self, status, sense, data, residual):
        self.status, self.sense, self.data, self.residual = status, sense, data, residual

    def sense_key(self):
        """Sense key, ASC and ASCQ."""
        if len(self.sense) < 14:
            return None
        return self.sense[2] & 0x0F, self.sense[12], self.sense[13]

    def sense_text(self):
        key = self.sense_key()
        return "none" if key is None else "%02x %02x/%02x" % key

    def information(self):
        """The INFORMATION field, where it is valid."""
        return int.from_bytes(self.sense[3:7], "big") if self.sense and self.sense[0] & 0x80 else None


def texts(pairs):
    return b"".join(f"{key}={value}".encode() + b"\0" for key, value in pairs)


def pairs_of(data):
    return [tuple(pair.decode().split("=", 1)) for pair in data.split(b"\0") if pair]


class Task:
    """A command that waits for its end."""

    def __init__(self, tag, unit, out, expected):
        self.tag, self.unit, self.out, self.expected = tag, unit, out, expected
        self.data = bytearray(expected if not out else 0)
        self.got = 0


class Session:
    """A session of one connection. A target's name makes it a normal one, none a discovery session. Without a name of
    its own the initiator says none."""

    def __init__(self, host, port, target=None, name="iqn.2000-01.test:initiator", isid=0x400001370000, keys=(),
                 timeout=60):
        self.socket = socket.create_connection((host, port), timeout)
        self.socket.setsockopt(socket.IPPROTO_TCP, socket.TCP_NODELAY, 1)
        self.buffer = bytearray()
        self.isid, self.tsih = isid, 0
        self.cmd_sn, self.exp_stat_sn, self.max_cmd_sn = 1, 0, 1
        self.tag = 0
        self.tasks, self.ended = {}, {}
        self.answers = []
        self.keys = {"MaxBurstLength": 262144, "FirstBurstLength": 65536, "MaxRecvDataSegmentLength": 8192,
                     "ImmediateData": "Yes", "InitialR2T": "Yes"}
        try:
            self.login(target, name, dict(keys))
        except BaseException:
            self.close()
            raise

    # ---- PDUs

    def send(self, header, data=b""):
        header = bytearray(header)
        header[5:8] = len(data).to_bytes(3, "big")
        self.socket.sendall(bytes(header) + data + bytes(-len(data) % 4))

    def take(self, count):
        while len(self.buffer) < count:
            more = self.socket.recv(1 << 20)
            if not more:
                raise Closed()
            self.buffer += more
        taken = bytes(self.buffer[:count])
        del self.buffer[:count]
        return taken

    def receive(self):
        header = self.take(48)
        length = int.from_bytes(header[5:8], "big")
        data = self.take(length + -length % 4)[:length]
        return header, data

    def new_tag(self):
        self.tag = (self.tag + 1) % NO_TAG
        return self.tag

    # StatSN, ExpCmdSN and MaxCmdSN of an answer; a Data-In has a StatSN only with its status.
    def count(self, header, has_status=True):
        stat_sn, _, max_cmd_sn = struct.unpack(">III", header[24:36])
        if has_status:
            self.exp_stat_sn = (stat_sn + 1) & 0xFFFFFFFF
        self.max_cmd_sn = max_cmd_sn

    def window_is_open(self):
        return ((self.max_cmd_sn - self.cmd_sn) & 0xFFFFFFFF) < 0x80000000

    # ---- login

    def login(self, target, name, keys):
        asked = [("InitiatorName", name)] if name else []
        asked.append(("SessionType", "Normal" if target else "Discovery"))
        if target:
            asked.append(("TargetName", target))
        asked.append(("AuthMethod", "None"))
        answer = self.login_step(0, 1, texts(asked))
        offers = {"HeaderDigest": "None", "DataDigest": "None", "InitialR2T": "Yes", "ImmediateData": "Yes",
                  "MaxBurstLength": "262144", "FirstBurstLength": "65536",
                  "MaxRecvDataSegmentLength": str(RECEIVES), "MaxOutstandingR2T": "1", "MaxConnections": "1",
                  "ErrorRecoveryLevel": "0", "DefaultTime2Wait": "2", "DefaultTime2Retain": "0"}
        offers.update(keys)
        answer += self.login_step(1, 3, texts(offers.items()))
        for key, value in pairs_of(answer):
            if key in ("MaxBurstLength", "FirstBurstLength", "MaxRecvDataSegmentLength"):
                self.keys[key] = int(value, 0)
            else:
                self.keys[key] = value

    def login_step(self, stage, following, text):
        tag = self.new_tag()
        header = struct.pack(">BBBBI6sHIHHII16x", LOGIN | 0x40, 0x80 | stage << 2 | following, 0, 0, 0,
                             self.isid.to_bytes(6, "big"), self.tsih, tag, 0, 0, self.cmd_sn, self.exp_stat_sn)
        self.send(header, text)
        header, data = self.receive()
        status = int.from_bytes(header[36:38], "big")
        if header[0] & 0x3F != LOGIN_RESPONSE or status:
            raise Refused(status)
        self.count(header)
        self.tsih = int.from_bytes(header[14:16], "big")
        return data

    # ---- commands

    def submit(self, unit, cdb, out=b"", expected=0):
        """Sends a command, with its data, or the number of bytes that it is to read. Answers its tag."""
        while not self.window_is_open():
            self.turn()
        tag = self.new_tag()
        task = self.tasks[tag] = Task(tag, unit, out, len(out) or expected)
        flags = 0x80 | (0x20 if out else 0x40 if expected else 0)
        first = 0
        if out and self.keys["ImmediateData"] == "Yes":
            first = min(len(out), self.keys["FirstBurstLength"], self.keys["MaxRecvDataSegmentLength"])
        header = struct.pack(">BBxxI8sIIII16s", SCSI, flags, 0, bytes([0, unit]) + bytes(6), tag, task.expected,
                             self.cmd_sn, self.exp_stat_sn, bytes(cdb).ljust(16, b"\0"))
        self.cmd_sn = (self.cmd_sn + 1) & 0xFFFFFFFF
        self.send(header, out[:first])
        return tag

    def send_data(self, task, header):
        ttt = header[20:24]
        at, left = struct.unpack(">II", header[40:48])
        number = 0
        while left:
            part = min(left, self.keys["MaxRecvDataSegmentLength"])
            data_out = struct.pack(">BBxxI8sI4s4xI4xII4x", DATA_OUT, 0x80 if part == left else 0, 0, header[8:16],
                                   task.tag, ttt, self.exp_stat_sn, number, at)
            self.send(data_out, task.out[at:at + part])
            at, left, number = at + part, left - part, number + 1

    def turn(self):
        """Takes one PDU of the target."""
        header, data = self.receive()
        opcode = header[0] & 0x3F
        tag = int.from_bytes(header[16:20], "big")
        if opcode == DATA_IN:
            task = self.tasks[tag]
            at = int.from_bytes(header[40:44], "big")
            task.data[at:at + len(data)] = data
            task.got = max(task.got, at + len(data))
            self.count(header, bool(header[1] & 1))
            if header[1] & 1:
                self.end(tag, Reply(header[3], b"", bytes(task.data[:task.got]), self.residual(header)))
        elif opcode == RESPONSE:
            task = self.tasks[tag]
            self.count(header)
            sense = data[2:2 + int.from_bytes(data[:2], "big")] if data else b""
            self.end(tag, Reply(header[3], sense, bytes(task.data[:task.got]), self.residual(header)))
        elif opcode == R2T:
            self.count(header, False)
            self.send_data(self.tasks[tag], header)
        elif opcode == NOP_IN and int.from_bytes(header[20:24], "big") != NO_TAG:
            self.count(header, False)
            pong = struct.pack(">BBxxI8sI4sII16x", NOP_OUT | 0x40, 0x80, 0, header[8:16], NO_TAG, header[20:24],
                               self.cmd_sn, self.exp_stat_sn)
            self.send(pong)
        else:
            self.count(header)
            self.answers.append((header, data))

    def end(self, tag, reply):
        del self.tasks[tag]
        self.ended[tag] = reply

    # What E had over the data, or, below 0, what it lacked.
    @staticmethod
    def residual(header):
        count = int.from_bytes(header[44:48], "big")
        return count if header[1] & 2 else -count if header[1] & 4 else 0

    def wait(self, tag):
        """The end of this command."""
        while tag not in self.ended:
            self.turn()
        return self.ended.pop(tag)

    def wait_any(self):
        """The tag and the end of the next command that ends."""
        while not self.ended:
            self.turn()
        return self.ended.popitem()

    def command(self, unit, cdb, out=b"", expected=0):
        return self.wait(self.submit(unit, cdb, out, expected))

    def good(self, unit, cdb, out=b"", expected=0):
        """The data of a command that has to be GOOD."""
        reply = self.command(unit, cdb, out, expected)
        if reply.status != GOOD:
            raise Failed(reply)
        return reply.data

    # ---- requests that are no commands

    def answer(self, opcode):
        while not self.answers or self.answers[0][0][0] & 0x3F != opcode:
            if self.answers:
                raise Closed(f"answered by {self.answers[0][0][0]:02x}")
            self.turn()
        return self.answers.pop(0)

    def numbered(self, opcode, flags, middle, data=b"", unit=0):
        """A request of this opcode, with what stands behind the tag."""
        header = struct.pack(">BBxxI8sI4sII16s", opcode, flags, 0, bytes([0, unit]) + bytes(6), self.new_tag(),
                             middle[:4], self.cmd_sn, self.exp_stat_sn, middle[4:].ljust(16, b"\0"))
        self.cmd_sn = (self.cmd_sn + 1) & 0xFFFFFFFF
        self.send(header, data)

    def text(self, pairs):
        self.numbered(TEXT, 0x80, b"\xff" * 4, texts(pairs))
        return pairs_of(self.answer(TEXT_RESPONSE)[1])

    def ping(self, data=b""):
        self.numbered(NOP_OUT, 0x80, b"\xff" * 4, data)
        return self.answer(NOP_IN)[1]

    def manage(self, function, unit=0, tag=NO_TAG):
        """Task management: 1 ABORT TASK, 2 ABORT TASK SET, 5 LOGICAL UNIT RESET. Answers the response."""
        self.numbered(TASK, 0x80 | function, tag.to_bytes(4, "big"), unit=unit)
        return self.answer(TASK_RESPONSE)[0][2]

    def logout(self):
        self.numbered(LOGOUT, 0x80, bytes(4))
        response = self.answer(LOGOUT_RESPONSE)[0][2]
        self.close()
        return response

    def close(self):
        self.socket.close()

    def __enter__(self):
        return self

    def __exit__(self, *_):
        self.close()

    # ---- SCSI commands

    def test_unit_ready(self, unit):
        return self.command(unit, bytes(6))

    def ready(self, unit):
        """Takes the unit attentions that wait."""
        for _ in range(16):
            if self.test_unit_ready(unit).status == GOOD:
                return
        raise Closed("attentions without an end")

    def inquiry(self, unit, page=None, length=252):
        evpd = 0 if page is None else 1
        return self.good(unit, [0x12, evpd, page or 0, length >> 8, length & 255, 0], expected=length)

    def report_luns(self):
        data = self.good(0, struct.pack(">BxBxxxIxx", 0xA0, 0, 2056), expected=2056)
        return [data[at + 1] for at in range(8, 8 + int.from_bytes(data[:4], "big"), 8)]

    def capacity(self, unit):
        """How many blocks the unit has, and how long one is."""
        data = self.good(unit, struct.pack(">BB8xIxx", 0x9E, 0x10, 32), expected=32)
        last, length = struct.unpack(">QI", data[:12])
        return last + 1, length

    def read(self, unit, lba, blocks, fua=False):
        cdb = struct.pack(">BBQIxx", 0x88, 8 if fua else 0, lba, blocks)
        return self.good(unit, cdb, expected=blocks * BLOCK)

    def write(self, unit, lba, data, fua=False):
        cdb = struct.pack(">BBQIxx", 0x8A, 8 if fua else 0, lba, len(data) // BLOCK)
        self.good(unit, cdb, out=data)

    def compare_and_write(self, unit, lba, old, new):
        cdb = struct.pack(">BBQ3xBxx", 0x89, 0, lba, len(old) // BLOCK)
        return self.command(unit, cdb, out=old + new)

    def flush(self, unit):
        self.good(unit, struct.pack(">BxQIxx", 0x91, 0, 0))

    def reserve_in(self, unit, action, length=8192):
        """PERSISTENT RESERVE IN: 0 READ KEYS, 1 READ RESERVATION, 2 REPORT CAPABILITIES, 3 READ FULL STATUS."""
        return self.good(unit, struct.pack(">BB5xHx", 0x5E, action, length), expected=length)

    def keys_of(self, unit):
        data = self.reserve_in(unit, 0)
        return [int.from_bytes(data[at:at + 8], "big") for at in range(8, len(data), 8)]

    def reserve_out(self, unit, action, kind=0, key=0, new_key=0, aptpl=False):
        """PERSISTENT RESERVE OUT: 0 REGISTER, 1 RESERVE, 2 RELEASE, 3 CLEAR, 4 PREEMPT, 6 REGISTER AND IGNORE."""
        values = struct.pack(">QQ4xB3x", key, new_key, 1 if aptpl else 0)
        return self.command(unit, struct.pack(">BBBxxIx", 0x5F, action, kind, len(values)), out=values)

    def port_groups(self, unit):
        """REPORT TARGET PORT GROUPS: group, access state, whether it is preferred."""
        data = self.good(unit, struct.pack(">BB4xIxx", 0xA3, 0x0A, 4096), expected=4096)
        groups, at = [], 4
        while at < len(data):
            groups.append((int.from_bytes(data[at + 2:at + 4], "big"), data[at] & 15, bool(data[at] & 0x80)))
            at += 8 + 4 * data[at + 7]
        return groups

    def set_port_groups(self, unit, states):
        """SET TARGET PORT GROUPS, of pairs of a group and its state."""
        values = bytes(4) + b"".join(struct.pack(">BxH", state, group) for group, state in states)
        return self.command(unit, struct.pack(">BB4xIxx", 0xA4, 0x0A, len(values)), out=values)


def discover(host, port):
    """The names of the targets there, each with its addresses."""
    with Session(host, port) as session:
        found = {}
        for key, value in session.text([("SendTargets", "All")]):
            if key == "TargetName":
                addresses = found.setdefault(value, [])
            elif key == "TargetAddress":
                addresses.append(value)
        session.logout()
    return found


def main():
    if len(sys.argv) != 3:
        sys.exit(__doc__)
    host, port = sys.argv[1], int(sys.argv[2])
    for target, addresses in discover(host, port).items():
        print(target)
        for address in addresses:
            print("  " + address)
        with Session(host, port, target) as session:
            for unit in session.report_luns():
                session.ready(unit)
                blocks, length = session.capacity(unit)
                print(f"  unit {unit}: {blocks} blocks of {length} bytes, {session.inquiry(unit)[8:32].decode()}")
            session.logout()


if __name__ == "__main__":
    main()
