#!/usr/bin/env python3
"""Sees each script of trials/ fail: breaks what it looks for in a copy of the tree, runs it there, and looks whether it ends with
status 1 and says why. What is broken does not disturb the others of its program: so two programs are compiled, unproved, for most
scripts, and for some the program is as it is, and a script or a table is broken. Ends with status 1 where a script finds nothing.

usage: trials/broken.py [NAME..]      all scripts that can run here, or these; ./trials.sh --list has the names

The program as it is, for some of them, is ./arrayd, or what ARRAYD names.
"""

import collections
import os
import subprocess
import sys
import tempfile

from chaos_plants import compiled, copy_with
from listed import TRIALS, lacking
from running import ARRAYD

# `where`: the program that is compiled for it, ONE or OTHER, or none is; what stands in a file, and what is put in its place; how the script is
# run; what it says then.
Broken = collections.namedtuple("Broken", "where file old new words said")
ONE, OTHER, AS_IT_IS, CHECKER = "one", "other", "as it is", "as it is, the checker broken"

BROKEN = {
    "first_steps": Broken(ONE, "crates/compare_write/src/compare.rt", "        Some(at) => MediumEnd::Miscompare(at),\n        None =>",
                          "        Some(at) if blocks > 1 => MediumEnd::Miscompare(at),\n        _ =>", "first_steps.py", "is a miscompare"),
    "faults": Broken(ONE, "crates/array_files/src/disks.rt", '"it is no registration file"', '"it is of another version"', "faults.py",
                     "does not name 'it is no registration file"),
    "reservations": Broken(ONE, "crates/reservations/src/remove.rt", "registrants.clear();\n        self.count();",
                           "registrants.clear();", "reservations.py --requests 300", "PERSISTENT RESERVE IN"),
    "control": Broken(ONE, "crates/array_administration/src/control.rt", "OWNER_ALONE: u32 = 0o600", "OWNER_ALONE: u32 = 0o666",
                      "control.py owner_alone", "a socket: (True, 438)"),
    "log": Broken(ONE, "crates/portal/src/logged_target.rt", "            self.teller().reset(unit);\n", "", "log.py unit_reset", "unit_reset"),
    "trouble": Broken(ONE, "crates/array/src/served.rt", "options.second_host.unwrap_or(options.host)", "options.host",
                      "trouble.py address_of_each_controller", "WRONG address_of_each_controller: Wrong(\"a discovery"),
    "window": Broken(OTHER, "crates/meters/src/counts.rt", "self.conflicts.wrapping_add(1)", "self.conflicts.wrapping_add(2)",
                     "window.py counts", "WRONG counts: Wrong('ends"),
    "window_page": Broken(ONE, "crates/window/src/script.rt", "owner: 'controller ' + unit.owner", "owner: 'controller ' + (3 - unit.owner)",
                          "window_page.py", "WRONG page"),
    "want": Broken(ONE, "crates/portal/src/server.rt", "        is_told = tell_wanting(",
                   "        if let Some(Resource::Descriptor) = wanting {\n            return;\n        }\n        is_told = tell_wanting(",
                   "want.py", "lack of descriptors"),
    "hostile": Broken(ONE, "crates/portal/src/server.rt", "            tell_end(rt, &server.log, path, end, &visitor, named, is_lost);\n",
                      "            tell_end(rt, &server.log, path, end, &visitor, named, is_lost);\n            if visitor.tsih == 0 {\n"
                      "                server.device.sessions.lock(rt).shut(2);\n            }\n", "hostile.py --connections 50", "the session beside them"),
    "full_disk": Broken(ONE, "crates/disk_files/src/blocks.rt", "            Ok(()) => Ok(()),\n            Err(error) => {\n"
                        "                self.tell(Call::Write,", "            Ok(()) => Ok(()),\n            Err(27) if first % 2 == 0 => Ok(()),\n            Err(error) => {\n"
                        "                self.tell(Call::Write,", "full_disk.py limit", "WRONG block"),
    "failover": Broken(ONE, "crates/session_units/src/unit_session.rt", "                answered(self.submit(",
                       "                if bytes.len() == 4096 {\n"
                       "                    let _ = self.submit(rt, rooms.room_for(asked), units, gate, asked, bytes);\n                }\n"
                       "                answered(self.submit(", "failover.py 8 5", "were answered"),
    "load": Broken(ONE, "crates/disk_files/src/blocks.rt", "        // A write behind the end would make the file longer",
                   "        if bytes.len() == 4096 && first > 4096 && first % 4096 == 0 {\n            return Ok(());\n        }\n"
                   "        // A write behind the end would make the file longer", "load.py 8 8 5", "faults"),
    "refused": Broken(ONE, "crates/once_target/src/attachment.rt", "StepEnd::NoMemory => TargetAnswer::Busy",
                      "StepEnd::NoMemory => TargetAnswer::Gone", "refused.py", "refused.py: three commands, allocation"),
    "standstill": Broken(ONE, "crates/timed_calls/src/watch.rt", "call, time));\n        self.is_hung.store(false, Ordering::Release);\n",
                         "call, time));\n", "standstill.py disk_that_hangs_and_comes_back", "WRONG disk_that_hangs_and_comes_back: Failed"),
    "fencing": Broken(OTHER, "crates/reservations/src/remove.rt", "        retain_without_others_of_key(&mut self.registrants",
                      "        if !kind.is_of_all_registrants() && request.kind != 6 {\n            self.count();\n"
                      "            return good(nexus, notice);\n        }\n"
                      "        retain_without_others_of_key(&mut self.registrants", "fencing.py", "WRONG B1 READ KEYS"),
    "registrations": Broken(OTHER, "crates/aptpl_format/src/spelling.rt", "FileVersion::Version2 => holder.group().number()",
                            "FileVersion::Version2 => 1 + 0 * holder.group().number()", "registrations.py",
                            "FAILED  a running array: a holder of a pair"),
    "calls": Broken(OTHER, "crates/disk_files/src/flushes.rt", "            Err(error) => {\n                self.lose();\n"
                    "                Err(FlushFault::Failed(error))\n", "            Err(_) => {\n                Ok(())\n",
                    "calls.py --jobs 2", "GOOD, and not"),
    # of the disk, which has more blocks than a registration file
    "calls_in_place": Broken(OTHER, "crates/disk_files/src/blocks.rt", "                self.tell(Call::Flush, 0, 0, error);\n"
                             "                Err(DeviceFailed)\n", "                self.tell(Call::Flush, 0, 0, error);\n"
                             "                if self.count > 67 {\n                    return Ok(());\n                }\n"
                             "                Err(DeviceFailed)\n", "calls.py --in-place --jobs 2", "GOOD, and not"),
    "clients": Broken(OTHER, "crates/identity/src/luns.rt", "    let units = how_many(place, select);\n",
                      "    let units = how_many(place, select).min(1);\n", "clients.py quick", "FAILED    it says: Lun:1"),
    "orders": Broken(CHECKER, "trials/orders.py", "if first is None or op.start <= first]", "if first is None or op]", "orders_cases.py",
                     "WRONG taken"),
    "chaos": Broken(AS_IT_IS, "trials/locks.py", '    ("timed_calls::watch", "hangs"),\n', "", "chaos.py --unproved --found",
                    "a lock that the table does not have"),
    "chaos_planted": Broken(AS_IT_IS, "trials/chaos/threads.c", "    if (drawn(&own->dice) % shared->fault_in)\n", "    if (own)\n",
                            "chaos.py --planted lost_wake --seeds 3", "NOT found"),
    "power": Broken(AS_IT_IS, "trials/power.c", "        take(fd, file, sector);\n        pthread_mutex_unlock",
                    "        if (found.st_size != 8192 * SECTOR)\n            take(fd, file, sector);\n        pthread_mutex_unlock", "power.py --rounds 3",
                    "things are lost"),
    "service": Broken(AS_IT_IS, "service/arrayd-console", "    ended(folder, limit)\n    return lines, status\n", "    return lines, status\n",
                      "service.sh", "FAILED  quit waits until it has ended"),
}
# These find what is planted by themselves, or are seen to find it by another.
BY_OTHERS = ("chaos_as_it_is", "calls_with_deadline", "ceph", "ceph_lying_cache", "ceph_not_blocklisted", "ceph_gateways", "ceph_gateways_not_blocklisted",
             "broken")


def finds(name, broken, tree, program):
    """Whether a script ends with status 1, and says what it has to."""
    script, *words = broken.words.split()
    shell = "sh" if script.endswith(".sh") else sys.executable
    done = subprocess.run([shell, os.path.join(tree, "trials", script), *words], cwd=tree, env={**os.environ, "ARRAYD": program},
                          stdin=subprocess.DEVNULL, stdout=subprocess.PIPE, stderr=subprocess.STDOUT, text=True, check=False)
    told = next((line.strip() for line in done.stdout.splitlines() if broken.said in line), "")
    is_well = done.returncode == 1 and bool(told)
    print(f"{'fails ' if is_well else 'WRONG '} {name}: " + (told[:200] if is_well else f"status {done.returncode}\n{done.stdout[-3000:]}"), flush=True)
    return is_well


def tried(where, names):
    """Whether each of these finds what is broken."""
    edits = {broken[1:4] for broken in BROKEN.values() if broken.where == where}
    with tempfile.TemporaryDirectory() as folder:
        tree = copy_with(sorted(edits), folder)
        program = compiled(tree, os.path.join(folder, "arrayd")) if where in (ONE, OTHER) else os.path.abspath(ARRAYD)
        return all([finds(name, BROKEN[name], tree, program) for name in names])


def main():
    known = {trial.name: trial for trial in TRIALS}
    if not set(sys.argv[1:]) <= set(known):
        sys.exit(__doc__)
    asked = [name for name in sys.argv[1:] or known if name in BROKEN and not lacking(known[name])]
    left = [name for name in sys.argv[1:] or known if name not in asked and name not in BY_OTHERS]
    is_well = all([tried(where, names) for where in (ONE, OTHER, AS_IT_IS, CHECKER)
                   if (names := [name for name in asked if BROKEN[name].where == where])])
    if left:
        print(f"not tried: {', '.join(left)}")
    sys.exit(0 if is_well else 1)


if __name__ == "__main__":
    main()
