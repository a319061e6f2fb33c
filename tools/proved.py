"""Programs that are proved and built in a temporary copy of the crates that they stand on, over what earlier checks left
there, so that the gate does not prove them. The source of the program NAME is bench/NAME/: main.txt, and beside it what a
proof of a function names, as FUNCTION.txt."""

import os
import shutil
import subprocess

TOP = os.path.dirname(os.path.dirname(os.path.abspath(__file__)))

# What only a check of the crate itself needs.
KEPT = shutil.ignore_patterns("incremental", "must-fail", "wrong-bodies")


def needs():
    """The libraries that each crate of the repository stands on."""
    found = {}
    with open(os.path.join(TOP, "crates.txt")) as lines:
        for line in lines:
            words, is_crate, below = line.partition("#")[0].partition(":")
            if is_crate:
                found[words.split()[0]] = below.split()
    return found


def below(names, known):
    """These crates, and those of the repository that they stand on."""
    found, left = set(), list(names)
    while left:
        name = left.pop()
        if name in known and name not in found:
            found.add(name)
            left += known[name]
    return sorted(found)


def lay_out(place, name, uses):
    """A repository at this place: the program of this name, and what it stands on. Gives the program's folder."""
    known = needs()
    with open(os.path.join(place, "crates.txt"), "w") as lines:
        for crate in below(uses, known):
            shutil.copytree(os.path.join(TOP, "crates", crate), os.path.join(place, "crates", crate), ignore=KEPT)
            print(f"{crate}: {' '.join(known[crate])}", file=lines)
        print(f"{name}: {' '.join(uses)}", file=lines)
    shutil.copy(os.path.join(TOP, "HANDLES"), place)
    source, made = os.path.join(TOP, "bench", name), os.path.join(place, "crates", name)
    os.makedirs(os.path.join(made, "src"))
    shutil.copy(os.path.join(source, "main.txt"), os.path.join(made, "src", "main.rt"))
    for file in os.listdir(source):
        if file != "main.txt":
            proof = os.path.join(made, "proofs", file.removesuffix(".txt"))
            os.makedirs(proof)
            shutil.copy(os.path.join(source, file), os.path.join(proof, "Invariants.antt"))
    return made


def lines_of(made, words=()):
    """What the program prints with these words, by line, once it is proved and built."""
    told = subprocess.run(["rt", "run", "--", *words], cwd=made, stdout=subprocess.PIPE, text=True)
    return [line.split() for line in told.stdout.splitlines()]
