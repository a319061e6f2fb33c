#!/usr/bin/env python3
"""Tells where a check of a crate spent its time, by the times at which it kept each module that it had checked. A function's proof is several modules: those that
the checker makes of its code (Lts, Tie, Layout, Reads), the goals, the answers in proofs/, and the proof itself, which searches for what has no answer.

    cd crates/NAME && rm -rf out/incremental && rt check --jobs 1 >log && cd ../.. && tools/modules.py NAME

usage: tools/modules.py NAME [N]      the N modules and the N functions that took longest, by the clock; a gap of more than twenty minutes is left out
"""

import collections
import os
import re
import sys


def kept(folder):
    """Returns the kept files below a folder with the time at which each was written, in that order."""
    found = []
    for at, _, names in os.walk(folder):
        found += [(os.stat(f"{at}/{name}").st_mtime, name) for name in names]
    return sorted(found)


def module_of(name):
    """Returns the function or file that a kept file is of, and the kind of its module."""
    name = re.sub(r"(\.decls)?\.oantt$", "", name)
    said = re.match(r"Rattle-\w+-(specs|proofs)\.(.+)$", name)
    if not said:
        return name, "other"
    if said[1] == "specs":
        return f"specs {said[2]}", "specs"
    parts = said[2].split(".")
    # a file of lemmas stands alone, a function's modules below it
    return (".".join(parts[:-1]), parts[-1]) if len(parts) > 1 else (f"proofs {said[2]}", "lemmas")


def main():
    name, most = sys.argv[1], int(sys.argv[2]) if len(sys.argv) > 2 else 25
    files = kept(f"crates/{name}/out/incremental")
    steps = [(now - before, file) for (before, _), (now, file) in zip(files, files[1:]) if now - before < 1200]
    functions, kinds = collections.Counter(), collections.Counter()
    for seconds, file in steps:
        function, kind = module_of(file)
        functions[function] += seconds
        kinds[kind] += seconds
    for seconds, file in sorted(steps, reverse=True)[:most]:
        print(f"{seconds:7.1f}  {re.sub(r'(.decls)?.oantt$', '', file)}")
    print("\nby function")
    for function, seconds in functions.most_common(most):
        print(f"{seconds:7.1f}  {function}")
    print("\nby kind")
    for kind, seconds in kinds.most_common(12):
        print(f"{seconds:7.1f}  {kind}")


if __name__ == "__main__":
    main()
