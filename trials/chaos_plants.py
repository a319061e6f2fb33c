"""What is planted in copies of the tree, to see that it is found: for `trials/chaos.py --planted` and for trials/broken.py."""

import os
import shutil
import subprocess
import sys

from running import TOP

# The file, what stands there, and what is put in its place; each stands there once.
PLANTS = {
    # who ends a session takes two locks in another order than who logs in
    "deadlock": ("crates/array_operations/src/administered.rt", "        self.server.device.sessions.lock(rt).shut(tsih)\n",
                 "        let mut sessions = self.server.device.sessions.lock(rt);\n"
                 "        let _turn = self.server.device.beginning.lock(rt);\n"
                 "        sessions.shut(tsih)\n"),
    # what was read ahead counts, though a write has ended since
    "stale": ("crates/disk_preparer/src/memory.rt", "beside.first == first && beside.writes == writes\n",
              "beside.first == first && beside.writes <= writes\n"),
    # a registration that is to outlast a restart is not saved
    "unsaved": ("crates/unit_control/src/saving.rt", "            if control.is_to_save(scratch) {\n",
                "            if control.is_to_save(scratch) && control.is_full() {\n"),
}


# Of what is planted here, and by the library: what is said where it is found. Another finding is none of it.
SAID = {
    "lost_wake": ("nothing was answered for", ": no answer for"),
    "stale_read": ("no order of the commands",),
    "early_reply": ("no order of the commands",),
    "lost_save": ("no order of the commands",),
    "deadlock": ("these threads wait for each other",),
    "stale": ("no order of the commands",),
    "unsaved": ("no order of the commands",),
}


def copy_with(edits, folder):
    """A copy of the tree in which these are planted: its path."""
    tree = os.path.join(folder, "tree")
    shutil.copytree(TOP, tree, ignore=shutil.ignore_patterns(".git", "out", "__pycache__"))
    for path, old, new in edits:
        with open(os.path.join(tree, path), encoding="utf-8") as file:
            text = file.read()
        if text.count(old) != 1:
            sys.exit(f"{path} has {text.count(old)} times what is to be planted in place of: {old.strip()}")
        with open(os.path.join(tree, path), "w", encoding="utf-8") as file:
            file.write(text.replace(old, new))
    return tree


def compiled(tree, program):
    """Compiles the program of a tree, unproved, as this file."""
    subprocess.run([sys.executable, os.path.join(tree, "tools", "unproved.py"), "program", program], check=True)
    return program


def compile_with(edits, folder):
    """The program of a copy of the tree with these in it."""
    return compiled(copy_with(edits, folder), os.path.join(folder, "planted"))
