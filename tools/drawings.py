#!/usr/bin/env python3
"""Makes all drawings of the pages anew: docs/NAME.svg of tools/drawings/NAME.txt (tools/drawing.py), and docs/beside.svg of
bench/beside.txt (bench/picture.py).

With --check it makes none, and says which of them is not what its text says, and which crate the drawing of the layers lacks, or has
though there is none. ./tests.sh asks it so. The status is 1 where there is one.

usage: tools/drawings.py [--check]
"""

import glob
import os
import re
import subprocess
import sys

from proved import TOP, needs

LAYERS = f"{TOP}/tools/drawings/layers.txt"


def made():
    """Each drawing with the command that prints it."""
    for text in sorted(glob.glob(f"{TOP}/tools/drawings/*.txt")):
        name = os.path.basename(text).removesuffix(".txt")
        yield f"docs/{name}.svg", [f"{TOP}/tools/drawing.py", text]
    yield "docs/beside.svg", [f"{TOP}/bench/picture.py", f"{TOP}/bench/beside.txt"]


def of_layers():
    """What the drawing of the layers says otherwise than crates.txt, a line each. A word with an underline is meant as a crate."""
    with open(LAYERS, encoding="utf-8") as file:
        told = set(re.findall(r"\w+", "".join(line for line in file if line.startswith("box "))))
    crates = set(needs())
    yield from (f"docs/layers.svg: it has no crate {name}" for name in sorted(crates - told))
    yield from (f"docs/layers.svg: there is no crate {name}" for name in sorted(told - crates) if "_" in name)


def main():
    if sys.argv[1:] not in ([], ["--check"]):
        sys.exit(__doc__.split("\n\n")[-1])
    wrong = []
    for path, words in made():
        drawn = subprocess.run([sys.executable, *words], stdout=subprocess.PIPE, check=True).stdout
        place = f"{TOP}/{path}"
        is_same = os.path.isfile(place) and open(place, "rb").read() == drawn
        if not is_same and sys.argv[1:]:
            wrong.append(f"{path}: it is not what its text says; tools/drawings.py draws it anew")
        elif not is_same:
            with open(place, "wb") as file:
                file.write(drawn)
            print(path)
    if sys.argv[1:]:
        wrong += of_layers()
        print("".join(f"{line}\n" for line in wrong), end="")
    sys.exit(1 if wrong else 0)


if __name__ == "__main__":
    main()
