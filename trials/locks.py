"""The locks of the program, for trials/chaos.py: which lock it is that a function takes, and which may be waited for while another is
held. That is the table of docs/ARCHITECTURE.md, "The order of locks"; the two have to say the same.
"""

# By the function that takes it, the innermost first that has a row; a row may name the caller too.
TAKEN_BY = (
    ("live_sessions::target::SessionTarget::join", "beginning"),
    ("unit_lock::unit::LockedUnit", "unit"),
    ("array_units::any_unit::Seated::read", "seat"),
    ("forwarding::desk::Desk", "queue"),
    ("forwarding::job", "answer"),
    ("live_sessions::sessions::MutexSessions", "sessions"),
    ("portal::logins", "logins"),
    ("portal::server::admit", "logins"),
    ("portal::server::start", "logins"),
    ("array_operations::administered", "sessions"),
    ("array_administration::answers::Answers", "moves"),
    ("timed_calls::watch", "hangs"),
    ("deadline::blocks", "device's thread"),
    ("deadline::prepared", "preparer's thread"),
    ("deadline::ahead", "read ahead"),
    ("disk_files::flushes::Flushes::handle", "flush handle"),
    ("disk_files::flushes::Flushes::flush", "flushed"),
    ("disk_files::flushes::Flushes::covers", "flushed"),
    ("meters::meters::reach meters::meters::Hand", "counts"),
    ("meters::meters::Meter::seen", "counts"),
    ("meters::meters::Book", "counts"),
    ("meters::meters::Meters", "book"),
    ("event_log::log", "lines"),
    ("event_log::writer", "lines"),
    ("session_units::memory", "kept memory"),
    ("window::serving::receive", "guests"),
    ("window::serving::work", "guests"),
)

# What may be waited for while this is held. Who only tries, and goes on without, can keep nobody waiting in a ring, and is not looked at.
WHILE_HELD = {
    "moves": {"unit", "seat", "device's thread", "hangs"},
    "beginning": {"unit", "sessions"},
    "unit": {"device's thread", "hangs"},
    "device's thread": {"hangs"},
    "preparer's thread": {"hangs"},
    "flush handle": {"flushed"},
    "book": {"counts"},
}


def row_of(frames):
    for at, frame in enumerate(frames):
        both = f"{frame} {frames[at + 1]}" if at + 1 < len(frames) else frame
        for row in TAKEN_BY:
            if frame.startswith(row[0]) or both.startswith(row[0]):
                return row
    return None


def classes_of(chaos, names):
    """The lock of each place where one was taken, by the place's key."""
    found = {}
    for site in chaos.sites():
        frames = names.of_site(site)
        row = row_of(frames)
        found[site.key] = row[1] if row else "? " + " < ".join(frames[:2])
    return found


def found_wrong(chaos, names):
    """What goes against the table."""
    classes, told = classes_of(chaos, names), set()
    for name in classes.values():
        if name.startswith("?"):
            told.add(f"a lock that the table does not have, taken by {name[2:]}")
    for held, taken, is_awaited, _ in chaos.edges():
        one, other = classes[held.key], classes[taken.key]
        # the lock of a unit is tried some times before it is waited for
        if (is_awaited or other == "unit") and other not in WHILE_HELD.get(one, ()):
            told.add(f"{other} was taken while {one} was held: {' < '.join(names.of_site(taken))}; {' < '.join(names.of_site(held))}")
    if chaos.seen.ended_with_locks:
        told.add(f"{chaos.seen.ended_with_locks} threads ended with a lock")
    if chaos.seen.unknown_releases:
        told.add(f"{chaos.seen.unknown_releases} locks were let go by a thread that did not hold them")
    return sorted(told)
