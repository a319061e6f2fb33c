"""The log of an array as a script reads it: each line is looked at, and what it tells is kept. Then the words that a line may have, as
crates/events/specs tells them, and what of them the lines of all cases had.
"""

import os
import re
import time

from cases import Cases, is_so
from running import TOP, Wrong, made

TIME = re.compile(r"time=(\d{4})-(\d\d)-(\d\d)T(\d\d):(\d\d):(\d\d)\.(\d{6})Z ")
FIELD = re.compile(r'([a-z_]+)=("(?:[^"\\]|\\["\\]|\\x[0-9a-f]{2})*"|[^ "]+)(?: |$)')
CASES = Cases()
case = CASES.case
# By event, field and value of the lines that were read: the cases that they were read in.
TOLD = {}


def unquoted(value):
    """What a quoted value names."""
    if not value.startswith('"'):
        return value
    parts = re.findall(rb'\\x([0-9a-f]{2})|\\(["\\])|([^\\])', value[1:-1].encode())
    return b"".join(bytes([int(a, 16)]) if a else b or c for a, b, c in parts).decode("utf-8", "replace")


def fields_of(line):
    """The fields of a line, which has to be spelled as lines are."""
    if not TIME.match(line) or any(not 32 <= ord(c) < 127 for c in line):
        raise Wrong(f"no line of a log: {line!r}")
    rest, fields = line[TIME.match(line).end():], {}
    while rest:
        field = FIELD.match(rest)
        if not field or field[1] in fields:
            raise Wrong(f"no fields: {rest!r} of {line!r}")
        fields[field[1]] = unquoted(field[2])
        rest = rest[field.end():]
    if next(iter(fields)) != "event":
        raise Wrong(f"no event: {line!r}")
    return fields


class Log:
    """The log of an array."""

    def __init__(self, folder, case_):
        self.path, self.case = os.path.join(folder, "log"), case_

    def all(self):
        try:
            with open(self.path, "rb") as file:
                text = file.read().decode("latin-1")
        except FileNotFoundError:
            return []
        if text and not text.endswith("\n"):
            return self.all()
        lines = [fields_of(line) for line in text.split("\n")[:-1]]
        for line in lines:
            for field, value in line.items():
                TOLD.setdefault((line["event"], field, value), {})[self.case] = True
        return lines

    def find(self, event, times=1, seconds=5, **wanted):
        """The only line of this event that has these fields, or so many: waits for them."""
        until = time.monotonic() + seconds
        while True:
            lines = [line for line in self.all() if line["event"] == event and wanted.items() <= line.items()]
            if len(lines) >= times:
                is_so(f"lines of {event} {wanted}", len(lines), times)
                return lines[0]
            if time.monotonic() > until:
                raise Wrong(f"no line of {event} with {wanted} among {self.all()}")
            time.sleep(0.01)

    def wait(self, count, seconds=5):
        """All lines, once there are so many."""
        until = time.monotonic() + seconds
        while len(self.all()) < count:
            if time.monotonic() > until:
                raise Wrong(f"not {count} lines: {self.all()}")
            time.sleep(0.01)
        return self.all()

    def events(self):
        return [line["event"] for line in self.all()]


def disk(folder, name="disk", blocks=64):
    return made(os.path.join(folder, name), blocks)


# ---- the words that a line may have

# Which field of which event has the words of which definition.
WORDS = [
    ("login", "type", "session_type_text"), ("session_ended", "type", "session_type_text"), ("login_refused", "words", "statuses"), ("login_refused", "lacks", " lacks="),
    ("session_ended", "words", "rejects"), ("session_ended", "why", " why="), ("connection_ended", "why", " why="),
    ("groups_set", "by", " by="), ("not_moved", "by", " by="), ("not_moved", "why", "stayed_text"),
    ("reservation", "action", "action_text"), ("command_failed", "command", "operation_text"), ("busy", "command", "operation_text"),
    ("device_failed", "file", "part_text"), ("device_failed", "call", "call_text"), ("device_failed", "error", "errors"),
    ("cannot_use", "file", "part_text"), ("cannot_use", "why", "unusable_text"), ("wanting", "what", "resource_text"),
]


def specs(name):
    with open(os.path.join(TOP, "crates", "events", "specs", name), encoding="utf-8") as file:
        return file.read()


def words_of(definition):
    """The words of a definition: those behind a field's name in the text of an event, of a function by cases, or of a table."""
    if definition.endswith("="):
        return re.findall(f'"{definition}(\\w+)', specs("Text.antt"))
    by_cases = re.findall(rf'^{definition} \w+\.\w+ = codes "(.*?)"', specs("Words.antt"), re.M)
    table = re.search(rf"^{definition} =\n(.*?)\[\]", specs("Words.antt"), re.M | re.S)
    return by_cases or re.findall('codes "(.*?)"', table[1])


def spelled():
    """Each event, and each event with a field and a word that it may have."""
    events = {(event, "event", event) for event in re.findall(r'"event=(\w+)', specs("Text.antt"))}
    return events | {(event, field, word) for event, field, definition in WORDS for word in words_of(definition)}
