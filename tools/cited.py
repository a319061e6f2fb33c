#!/usr/bin/env python3
"""Looks who cites what gives a word that stands for its name alone. Such a word of specs/ (has_written, say) is true of anything, and no
other file can look inside it; a lemma beside it gives it, so that a contract with this word says only that somebody cited that lemma.
That means a call of the system, or of a lock, where the proof of just that call cites it. This has the files that may cite each, and looks
whether they do, and no others: in code, definitions, proofs and tests. Which function of such a file cites it is not looked at.

usage: tools/cited.py      a line for each lemma with the files that cite it; status 1 where one is cited by another file, or by none, where
                           a lemma or a word is not in the table, or where a word may be looked into from another file
"""

import collections
import glob
import os
import re
import sys

from proved import TOP

# By the definitions' file: its lemmas, and which files may cite each.
MAY_CITE = {
    "array_units/specs/Rows": {"a_read_says": ["array_units/proofs/any_unit/Seated/read/Answers.antt"]},
        "disk_files/specs/System": {
        "a_read_says": ["disk_files/proofs/system/SystemFileBackingFile/read_at/Answers.antt"],
        "a_write_says": ["disk_files/proofs/system/SystemFileBackingFile/write_at/Answers.antt"],
        "a_write_ends": ["disk_files/proofs/system/SystemFileBackingFile/write_at/Answers.antt"],
        "a_flush_says": ["disk_files/proofs/system/SystemFile/sync/Answers.antt"],
        "a_rename_says": ["disk_files/src/system.rt"],
        "an_open_says": ["disk_files/src/system.rt"],
        "a_flush_of_a_folder_says": ["disk_files/src/system.rt"],
    },
    "disk_files/specs/Told": {"a_tell_says": ["disk_files/src/flushes.rt"], "a_look_says": ["disk_files/src/flushes.rt"]},
    "disk_preparer/specs/Beside": {"a_read_beside_says": ["file_preparer/src/preparer.rt", "timed_calls/specs/Back.antt"]},
    "live_sessions/specs/Silence": {
        "a_limit_says": ["live_sessions/src/connection.rt"],
        "no_limit_says": ["live_sessions/src/connection.rt"],
    },
    "live_sessions/specs/Turns": {"an_attach_says": ["live_sessions/src/target.rt"]},
    "session_units/specs/Leaving": {"an_end_says": ["session_units/src/controllers.rt"]},
    "timed_calls/specs/Back": {
        "a_look_says": ["timed_calls/src/watch.rt"],
        "a_read_behind_a_look_says": ["deadline/src/prepared.rt", "deadline/src/preparer_request.rt"],
    },
}

# What anybody may cite: that no write has ended is so at first.
HARMLESS = {("disk_files/specs/System", "none_has_ended")}

# A word that one line defines, whatever it is said of, as what always is so; and what a lemma opens.
WORD = re.compile(r"^(unfoldable |abbrev )?pub (\w+) :[^\n]*\n(?: [^\n]*\n)*\2(?: \w+)* = (?:Unit \{0\}|true)$", re.M)
DEFINITION = re.compile(r"^(?:(?:unfoldable|abbrev) )?(?:pub )?([\w-]+) :", re.M)
UNFOLDING = re.compile(r"^unfolding (.*)$|\bunfold (\w+)", re.M)
COMMENT = re.compile(r"(?:--|//).*")


def parts_of(text):
    """The definitions of a file of definitions: the name of each, and its text."""
    text = COMMENT.sub("", text)
    starts = [*DEFINITION.finditer(text)]
    return [(it[1], text[it.start():to]) for it, to in zip(starts, [it.start() for it in starts[1:]] + [len(text)])]


def definitions():
    """The words that stand for their names, by the file that defines them; the lemmas that look inside them, or cite one that does; and
    what is wrong with them."""
    words, lemmas, wrong = collections.defaultdict(set), collections.defaultdict(set), []
    for path, text in sorted(TEXTS.items()):
        if "/specs/" not in path or not path.endswith(".antt"):
            continue
        file = path.removesuffix(".antt")
        named = {name: how for how, name in WORD.findall(text)}
        for name, part in parts_of(text):
            opened = {word for pair in UNFOLDING.findall(part) for word in " ".join(pair).split()}
            words[file] |= named.keys() & opened
            if named.keys() & opened or any(lemma != name and re.search(rf"\b{lemma}\b", part) for lemma in LEMMAS):
                lemmas[file].add(name)
        wrong += [f"{file}: {word} may be looked into from other files" for word in sorted(words[file]) if named[word]]
        if words[file] and any(other.startswith(f"{file}/") for other in TEXTS):
            wrong.append(f"{file}: what stands below it may look into its words")
    return words, lemmas, wrong


def names(path, text, file):
    """Whether a file names a file of definitions by its path."""
    crate, _, module = file.partition("/specs/")
    module = module.replace("/", ".")
    ways = [rf"\bRattle\.{crate}\.specs\.{module}\b", rf"\b{crate}::specs::{module.replace('.', '::')}\b"]
    if path.startswith(f"{crate}/"):
        ways.append(rf"\bcrate::specs::{module.replace('.', '::')}\b")
    return any(re.search(way, text) for way in ways)


def citing():
    """The files that cite each lemma of the table, and those that name one in a way that tells not which it is."""
    found, unknown = collections.defaultdict(list), []
    by_word = re.compile(rf"\b({'|'.join(sorted(LEMMAS))})\b")
    for path, text in sorted(TEXTS.items()):
        text = COMMENT.sub("", text)
        for lemma in sorted(set(by_word.findall(text))):
            of = [file for file, lemmas in MAY_CITE.items() if lemma in lemmas and (f"{file}.antt" == path or names(path, text, file))]
            if not of:
                unknown.append(f"{path} names {lemma}, and not where it stands")
            for file in of:
                if f"{file}.antt" != path:
                    found[file, lemma].append(path)
    return found, unknown


def texts():
    """The texts of all crates, by their paths."""
    found = {}
    for path in glob.glob(f"{TOP}/crates/*/**/*", recursive=True):
        short = os.path.relpath(path, f"{TOP}/crates")
        if path.endswith((".rt", ".antt")) and "out" not in short.split(os.sep):
            with open(path, encoding="utf-8") as file:
                found[short] = file.read()
    return found


TEXTS = texts()
LEMMAS = {lemma for lemmas in MAY_CITE.values() for lemma in lemmas}


def main():
    words, lemmas, wrong = definitions()
    for file, here in lemmas.items():
        more = {lemma for lemma in here - set(MAY_CITE.get(file, ())) if (file, lemma) not in HARMLESS}
        wrong += [f"{file}: {lemma} is not in the table" for lemma in sorted(more)]
    found, unknown = citing()
    wrong += unknown
    for file, rows in MAY_CITE.items():
        wrong += [f"{file}: {lemma} is not there, or gives no such word" for lemma in rows if lemma not in lemmas[file]]
        for lemma, may in rows.items():
            cite = found[file, lemma]
            print(f"{file}: {lemma}: {' '.join(cite) or 'cited by none'}")
            wrong += [f"{path} cites {lemma} of {file}, which is for {' and '.join(may)}" for path in cite if path not in may]
            wrong += [f"{path} does not cite {lemma} of {file}" for path in may if path not in cite]
    print(*(f"WRONG {line}" for line in wrong), sep="\n", end="\n" if wrong else "")
    print(f"{sum(map(len, MAY_CITE.values()))} lemmas, {len(wrong)} wrong")
    sys.exit(1 if wrong else 0)


if __name__ == "__main__":
    main()
