#!/usr/bin/env python3
"""Gives the crates of a copy of the tree the libraries that `rt ci` proved on this machine, so that no check above them proves them again.

What `rt ci` passes, it keeps by a sum of all that the proof read, and takes again where that sum is the same. It leaves such a library
without the stamp by which `rt check` knows that it fits the text, so `rt check` would prove it anew. Here rt itself is asked, by the
calls of `rt ci`, whether it keeps each library for this very text, over the libraries below it as they stand; such a one gets its stamp.
A library that has a right stamp stays as it is. Where rt has no such calls (tools/kit.py), none is given, and all are proved.

usage: tools/kept.py TOP CRATE..      of these crates, each behind those that it stands on, prints those whose library stands there now"""

import os
import shutil
import sys

import kit


def give(crate, kept):
    """Whether the library of a crate stands in its folder, once it was looked for."""
    if not crate.is_built():
        shutil.rmtree(f"{crate.folder}/out/rlib", ignore_errors=True)
        if any(it.name not in kept.rlibs for it in crate.below()) or not kept.give(crate, False, kept.key(crate)):
            return False
        with open(f"{crate.folder}/out/rlib/stamp", "w", encoding="utf-8") as file:
            file.write(crate.stamp())
    kept.is_built(crate)
    return True


def main():
    os.chdir(sys.argv[1])
    rt_calls = kit.rt()
    if kit.told(kit.otherwise_to_keep(rt_calls)):
        return
    rt_calls.Crate.allowed = rt_calls.handles_of(os.getcwd())
    crates = [it for it in rt_calls.crates_of(os.getcwd()) if it.name in sys.argv[2:] and not it.is_program]
    kept = rt_calls.Kept(crates)
    for crate in crates:
        if give(crate, kept):
            print(crate.name, flush=True)


if __name__ == "__main__":
    main()
