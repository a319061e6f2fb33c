#!/usr/bin/env python3
"""Tries trials/orders.py over histories that were written by hand: those that have an order, most with commands that overlap, have to be
taken, and those that have none refused. Prints a line for each; ends with status 1 where one is not.

usage: trials/orders_cases.py

A history is a text, a line for each command: when it was sent and when its answer had come (`-`: none came), who asked, what, and the
answer. `a` to `d` are the nexuses, `a1` a's second session. A line `a 0..1 login` may be left out: each has logged in before, and was
told of it. A line `hangs`: the disk may have hung past a deadline.
"""

import struct
import sys

from chaos_model import ATTACH, COMPARE, DOWN, FLUSH, IN, Op, OUT, READ, READY, RESET, RESTART, SET, STATES, UP, WRITE, Unit
from initiator import BUSY, CHECK_CONDITION, GOOD, RESERVATION_CONFLICT
from orders import order_of, why_not
from reservations import CLEAR, NEXUSES, PREEMPT, REGISTER, RELEASE, RESERVE, Request

# Two of one port, through both controllers, and one each of two others.
HOSTS = dict(zip("abcd", (NEXUSES[0], NEXUSES[1], NEXUSES[4], NEXUSES[6])))
ENDS = {"GOOD": (GOOD, None), "BUSY": (BUSY, None), "conflict": (RESERVATION_CONFLICT, None), "differs": (CHECK_CONDITION, (0x0E, 0x1D, 0)),
        "reset": (CHECK_CONDITION, (6, 0x29, 0)), "changed": (CHECK_CONDITION, (6, 0x2A, 6)), "preempted": (CHECK_CONDITION, (6, 0x2A, 5)),
        "released": (CHECK_CONDITION, (6, 0x2A, 4)), "unavailable": (CHECK_CONDITION, (2, 4, 0x0C)),
        "unread": (CHECK_CONDITION, (3, 0x11, 0)), "unwritten": (CHECK_CONDITION, (3, 0x0C, 0))}
ACTIONS = {"register": REGISTER, "reserve": RESERVE, "release": RELEASE, "clear": CLEAR, "preempt": PREEMPT}
NUMBERS = {"attach": ATTACH, "reset": RESET, "restart": RESTART, "down": DOWN, "up": UP}


def request(words):
    """`register OLD NEW`, `reserve TYPE KEY`, `release TYPE KEY`, `clear KEY`, `preempt TYPE KEY OTHER`; `aptpl` behind it."""
    action, numbers = ACTIONS[words[0]], [int(word) for word in words[1:] if word != "aptpl"]
    kind, key, new = {REGISTER: lambda: (0, *numbers), CLEAR: lambda: (0, numbers[0], 0), RESERVE: lambda: (*numbers, 0),
                      RELEASE: lambda: (*numbers, 0), PREEMPT: lambda: tuple(numbers)}[action]()
    return Request(action, 0, kind, key, new, "aptpl" in words, False, False, 24)


def numbers_of(text):
    return tuple(int(word) for word in text.split(","))


def asked(words):
    """Kind and what is given with it."""
    if words[0] in ACTIONS:
        return OUT, request(words)
    if words[0] in NUMBERS:
        return NUMBERS[words[0]], int(words[1]) if len(words) > 1 else None
    first = int(words[1]) if len(words) > 1 else None
    return {"read": lambda: (READ, (first, int(words[2]))), "write": lambda: (WRITE, (first, numbers_of(words[2]))),
            "compare": lambda: (COMPARE, (first, numbers_of(words[2]), numbers_of(words[3]))), "flush": lambda: (FLUSH, None),
            "ready": lambda: (READY, None), "keys": lambda: (IN, 0), "states": lambda: (STATES, None),
            "set": lambda: (SET, tuple((group, int(state)) for group, state in enumerate(words[1:], 1)))}[words[0]]()


def answer(kind, words):
    if not words:
        return None
    status, sense = ENDS[words[0]]
    data = None
    if words[0] == "differs":
        data = int(words[1])
    elif kind in (READ, STATES) and len(words) > 1:
        data = numbers_of(words[1])
    elif kind == IN:
        keys = b"".join(struct.pack(">Q", int(key)) for key in words[2:])
        data = struct.pack(">II", int(words[1]), len(keys)) + keys
    return status, sense, data


def op_of(line):
    command, _, came = line.partition("->")
    when, who, *words = command.split()
    start, end = when.split("..")
    nexus = HOSTS.get(who[0]) if words[0] not in ("down", "up", "restart") else None
    kind, given = asked(words)
    reply = answer(kind, came.split())
    return Op(who, who if nexus else None, nexus, kind, given, reply, int(start), None if end == "-" else int(end))


def history(text):
    ops = [op_of(line) for line in text.strip().splitlines() if line.strip() != "hangs"]
    begun = {op.lane for op in ops if op.kind == ATTACH}
    for place, who in enumerate(dict.fromkeys(op.lane for op in ops if op.nexus)):
        if who not in begun:
            ops.append(Op(who, who, HOSTS[who[0]], ATTACH, None, None, -200 + place, -150))
            ops.append(Op(who, who, HOSTS[who[0]], READY, None, (CHECK_CONDITION, (6, 0x29, 0), None), -100 + place, -50))
    return ops


RIGHT = {
    "reads beside a write find the old and the new block": """
        0..10 a write 0 7 -> GOOD
        1..4 b read 0 1 -> GOOD 0
        2..9 c read 0 1 -> GOOD 7""",
    "of two writes at once either may be the last": """
        0..10 a write 0 1,1 -> GOOD
        0..10 b write 1 2,2 -> GOOD
        11..12 c read 0 3 -> GOOD 1,1,2
        13..14 d read 0 3 -> GOOD 1,1,2""",
    "two compare and write, and one of them finds the other's": """
        0..10 a compare 3 0 1 -> GOOD
        0..10 b compare 3 0 2 -> differs 7
        11..12 a read 3 1 -> GOOD 1""",
    "a write that was not answered is done later": """
        0..- a write 2 9 ->
        5..6 b read 2 1 -> GOOD 0
        7..8 b read 2 1 -> GOOD 9""",
    "a write that was not answered is never done": """
        0..- a write 2 9 ->
        5..6 b read 2 1 -> GOOD 0
        90..91 b read 2 1 -> GOOD 0""",
    "a preempt that overlaps the writes of who is preempted": """
        0..1 a register 0 11 -> GOOD
        0..1 c register 0 12 -> GOOD
        2..3 c reserve 5 12 -> GOOD
        4..20 a preempt 5 11 12 -> GOOD
        5..9 c write 0 3 -> GOOD
        10..19 c ready -> preempted
        11..21 c write 0 4 -> conflict
        22..23 a read 0 1 -> GOOD 3""",
    "a reset is told to those who did not send it, and a restart to all": """
        0..9 a reset
        1..8 b ready -> GOOD
        10..11 b ready -> reset
        12..13 a ready -> GOOD
        20..29 0 restart
        30..31 a1 attach
        32..33 a1 ready -> reset
        34..35 a1 read 0 1 -> GOOD 0""",
    "a controller that goes down beside commands": """
        0..10 m down 1
        1..4 a write 0 5 -> GOOD
        5..9 a write 0 6 -> changed
        11..12 a write 0 6 -> unavailable
        13..14 b write 0 6 -> changed
        15..16 b write 0 6 -> GOOD
        17..18 b states -> GOOD 3,0""",
    "a second `down` that could come where it changes nothing, and has to come where it does": """
        0..1 m down 2
        2..3 a ready -> changed
        2..3 b ready -> changed
        4..30 m down 2
        5..9 b set 0 1 -> GOOD
        10..11 a ready -> changed
        12..13 a ready -> GOOD
        14..15 a ready -> changed""",
    "a session whose place another took": """
        0..- a write 1 8 ->
        1..5 a1 attach
        6..7 a1 ready -> reset
        8..9 a1 read 1 1 -> GOOD 8
        10..11 b read 1 1 -> GOOD 8""",
    "a write that failed since its disk hung, and is there": """
        hangs
        0..5 a write 0 5,6 -> unwritten
        1..4 b read 0 2 -> GOOD 0,0
        6..7 b read 0 2 -> GOOD 5,0
        8..9 a read 1 1 -> unread
        10..11 b read 0 2 -> GOOD 5,0""",
    "a comparison with a block that may be one of two": """
        hangs
        0..5 a write 0 5 -> unwritten
        6..7 b compare 0 0 6 -> differs 7
        8..9 b read 0 1 -> GOOD 5
        10..11 a compare 0 5 7 -> GOOD""",
    "registrations that outlast a restart": """
        0..1 a register 0 11 aptpl -> GOOD
        2..3 c register 0 12 aptpl -> GOOD
        20..29 0 restart
        30..31 c1 attach
        32..33 c1 ready -> reset
        34..35 c1 keys -> GOOD 0 11 12
        36..37 c1 write 0 1 -> BUSY
        38..39 c1 write 0 1 -> GOOD""",
    "two logins beside a move, of which one is told of it": """
        0..20 a1 attach
        0..20 c1 attach
        5..10 m down 2
        21..22 a1 ready -> reset
        23..24 a1 ready -> changed
        21..22 c1 ready -> reset
        23..24 c1 ready -> GOOD""",
    "a reset that takes the place of a move which waits to be told": """
        0..1 m down 2
        2..3 c reset
        4..5 a ready -> reset
        6..7 a ready -> GOOD""",
    "a reset that takes the place of a login and a move": """
        0..1 a1 attach
        2..3 m down 2
        4..5 c reset
        6..7 a1 ready -> reset
        8..9 a1 ready -> GOOD""",
    "a request that was not answered, and whose count is seen behind the next login of its host": """
        0..- a register 0 0 ->
        5..6 a1 attach
        7..8 a1 ready -> reset
        9..10 a1 write 0 1 -> GOOD
        11..12 b keys -> GOOD 1""",
}

WRONG = {
    "a read of what was overwritten": """
        0..1 a write 0 1 -> GOOD
        2..3 a write 0 2 -> GOOD
        4..5 b read 0 1 -> GOOD 1""",
    "two reads that find the new block and then the old one": """
        0..20 a write 0 1 -> GOOD
        1..3 b read 0 1 -> GOOD 1
        4..6 c read 0 1 -> GOOD 0""",
    "half of a write": """
        0..10 a write 0 1,1 -> GOOD
        1..9 b read 0 2 -> GOOD 1,0""",
    "two compare and write that both find the old block": """
        0..10 a compare 3 0 1 -> GOOD
        0..10 b compare 3 0 2 -> GOOD""",
    "a write by who was preempted before": """
        0..1 a register 0 11 -> GOOD
        0..1 c register 0 12 -> GOOD
        2..3 c reserve 5 12 -> GOOD
        4..5 a preempt 5 11 12 -> GOOD
        6..7 c ready -> preempted
        8..9 c write 0 4 -> GOOD""",
    "a registration that is gone": """
        0..1 a register 0 11 -> GOOD
        2..3 c keys -> GOOD 0""",
    "a registration with APTPL that a restart does not find": """
        0..1 a register 0 11 aptpl -> GOOD
        20..29 0 restart
        30..31 c1 attach
        32..33 c1 ready -> reset
        34..35 c1 keys -> GOOD 0""",
    "a command through a controller that is down": """
        0..1 m down 1
        2..3 a ready -> changed
        4..5 a write 0 1 -> GOOD""",
    "a write that failed, is found, and then is not there": """
        hangs
        0..1 a write 0 5 -> unwritten
        2..3 b read 0 1 -> GOOD 5
        4..5 b read 0 1 -> GOOD 0""",
    "a comparison that finds a difference, and then a block that has none": """
        hangs
        0..1 a write 0 5 -> unwritten
        2..3 b compare 0 0 6 -> differs 7
        4..5 b read 0 1 -> GOOD 0""",
    "a write that failed, though no disk hung": """
        0..1 a write 0 5 -> unwritten""",
    "a reset that is told twice": """
        0..1 a reset
        2..3 b ready -> reset
        4..5 b ready -> reset""",
    "a write of a session behind the login that took its place": """
        0..1 a write 1 3 -> GOOD
        2..3 a1 attach
        4..5 a1 ready -> reset
        6..7 a1 read 1 1 -> GOOD 3
        8..- a write 1 8 ->
        9..10 a1 read 1 1 -> GOOD 8""",
    "a move that a session is not told of": """
        0..1 m down 2
        2..3 a ready -> GOOD""",
    "a session that is told of a move which nobody made": """
        0..1 a ready -> changed""",
    "a request that counts though nobody made it": """
        0..1 a keys -> GOOD 1""",
    "a registration that does not count": """
        0..1 a register 0 11 -> GOOD
        2..3 b keys -> GOOD 0 11""",
}


def main():
    is_well = True
    for wanted, histories in ((True, RIGHT), (False, WRONG)):
        for name, text in histories.items():
            order = order_of(history(text), Unit(0, 4, may_fail="hangs" in text))
            is_so = order.is_found == wanted and order.is_decided
            is_well = is_well and is_so
            print(f"{'ok   ' if is_so else 'WRONG'} {'taken  ' if order.is_found else 'refused'} {name}")
            if wanted and not is_so:
                print(why_not(order))
    print(f"{len(RIGHT)} that have an order and {len(WRONG)} that have none, {'all' if is_well else 'NOT all'} as they should be")
    sys.exit(0 if is_well else 1)


if __name__ == "__main__":
    main()
