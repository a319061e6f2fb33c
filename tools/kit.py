#!/usr/bin/env python3
"""What tools/unproved.py and tools/kept.py know of the insides of the toolchain, which no page of it promises: the programs by which
`rt try` compiles and links, where it lays a module for LLVM, and the calls by which `rt ci` keeps a library. Nothing else here leans on
such things.

usage: tools/kit.py     says what this toolchain has otherwise, a line each; the status is 1 where there is something
"""

import glob
import importlib.machinery
import importlib.util
import os
import shutil
import subprocess
import sys

KIT = os.path.dirname(os.path.dirname(os.path.realpath(shutil.which("rt") or "rt")))
# As `rt try` itself has a module compiled, but for its search for bad accesses.
CLANG = [f"{KIT}/toolchain/bin/clang", "--target=x86_64-unknown-linux-gnu", f"--sysroot={KIT}/toolchain", "-march=x86-64"]
CLANG += ["-ffunction-sections", "-fdata-sections", "--no-default-config", "-fPIE", "-Werror", "-c", "-x", "ir"]
for word in ("no-trap-after-noreturn", "trap-unreachable", "no-x86-call-frame-opt", "disable-machine-licm", "disable-postra-machine-licm"):
    CLANG += ["-mllvm", f"-{word}"]
LINK = [f"{KIT}/bin/rattle-link", "--target", "x86_64-unknown-linux-gnu", "--toolchain", f"{KIT}/toolchain"]
LIBRARIES = [f"{KIT}/c/libos_c.a", f"{KIT}/c/liblibc_c.a"]
TEST = f"{KIT}/bin/rattle-test"
# How many bytes a module has at least: `rt try` first compiles a trifle.
LEAST = 100_000
# The calls of rt, and those of what they give, by which it keeps libraries.
CALLS = {
    "": ("Crate", "Kept", "crates_of", "handles_of"),
    "Crate": ("below", "is_built", "stamp"),
    "Kept": ("give", "is_built", "key"),
}


def module_in(folder):
    """The module for LLVM that `rt try` has made below this folder for its temporary files, once it is whole: its object file is begun."""
    for begun in glob.glob(f"{folder}/*/*/module-*.tmp"):
        found = f"{os.path.dirname(begun)}/module.bc"
        try:
            if os.path.getsize(found) > LEAST:
                return found
        except FileNotFoundError:
            pass
    return None


def rt():
    """The toolchain's command as a module."""
    path = os.path.realpath(shutil.which("rt"))
    sys.path.insert(0, os.path.dirname(path))
    loader = importlib.machinery.SourceFileLoader("rt", path)
    found = importlib.util.module_from_spec(importlib.util.spec_from_loader("rt", loader))
    loader.exec_module(found)
    return found


def otherwise_to_compile():
    """What is not there of what compiles a module, a line each."""
    for path in (CLANG[0], LINK[0], *LIBRARIES, TEST):
        if not os.path.isfile(path):
            yield f"there is no {path}"
    if os.path.isfile(TEST):
        told = subprocess.run([TEST, "--help"], stdin=subprocess.DEVNULL, stdout=subprocess.PIPE, stderr=subprocess.STDOUT, text=True).stdout
        yield from (f"{TEST} has no {word}" for word in ("--seconds", "--filter") if word not in told)


def otherwise_to_keep(calls):
    """Which of the calls that keep a library this module of rt has not, a line each."""
    for owner, names in CALLS.items():
        of = getattr(calls, owner, None) if owner else calls
        yield from (f"rt has no {'.'.join(filter(None, (owner, name)))}" for name in names if of and not hasattr(of, name))


def told(otherwise):
    """Says on standard error what is otherwise, and whether anything is."""
    lines = [f"the toolchain is other than tools/kit.py knows it: {line}\n" for line in otherwise]
    sys.stderr.write("".join(lines))
    return bool(lines)


def main():
    if len(sys.argv) > 1:
        sys.exit(__doc__.split("\n\n")[-1])
    try:
        lines = [*otherwise_to_compile(), *otherwise_to_keep(rt())]
    except Exception as error:
        lines = [f"its rt cannot be read as a module: {error}"]
    sys.exit(1 if told(lines) else 0)


if __name__ == "__main__":
    main()
