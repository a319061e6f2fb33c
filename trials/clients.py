#!/usr/bin/env python3
"""Runs real initiators against arrayd, on the loopback: those of libiscsi, and qemu's. Not part of the gate. It wants the Debian
packages libiscsi-bin, qemu-utils, qemu-block-extra, fio and nbdkit or nbd-client's absence: fio speaks NBD by libnbd, or
iSCSI over qemu-nbd's socket. Prints a line for each thing that was tried; ends with status 1 where one failed.

usage: trials/clients.py            everything
       trials/clients.py quick      without iscsi-test-cu
"""

import os
import re
import subprocess
import sys
import tempfile
import time

from running import PORT, TARGET, Array, made

BLOCKS = 64 * 2048
# Why, says docs/TESTING.md.
MAY_FAIL = {"CompareAndWrite.Simple", "CompareAndWrite.Miscompare", "Inquiry.BlockLimits", "iSCSIdatasn.iSCSIDataSnInvalid",
            "Sanitize.Readonly", "iSCSIResiduals.Write10Residuals", "iSCSIResiduals.Write16Residuals"}


class Tried:
    """What was tried, and whether all of it went well."""

    def __init__(self):
        self.said, self.is_well = "", True

    def tell(self, is_well, words, failed):
        print(f"ok      {words}" if is_well else f"FAILED  {words}{failed}", flush=True)
        if not is_well:
            print("\n".join(self.said.splitlines()[-20:]), flush=True)
            self.is_well = False

    def run(self, what, *words):
        """What it is, then the command; what it says is shown where it fails."""
        try:
            done = subprocess.run(words, stdout=subprocess.PIPE, stderr=subprocess.STDOUT, text=True, errors="replace", check=False)
            self.said, is_well = done.stdout, done.returncode == 0
        except OSError as fault:
            self.said, is_well = str(fault), False
        self.tell(is_well, what, f": {' '.join(words)}")

    def says(self, words):
        """What the last command has to have said."""
        self.tell(re.search(words, self.said) is not None, f"  it says: {words}", ", which it does not")


def libiscsi(tried, url):
    tried.run(f"iscsi-inq {url}", "iscsi-inq", url)
    tried.says("Vendor:TWINCTL")
    tried.run("iscsi-inq of page 83h", "iscsi-inq", "-e", "1", "-c", "131", url)
    tried.run("iscsi-readcapacity16", "iscsi-readcapacity16", url)
    tried.says("131072|131071")
    tried.run("iscsi-perf, 5 s of reads of 4 KiB, 32 deep", "iscsi-perf", "-t", "5", "-b", "8", "-m", "32", url)


def qemu_img(tried, folder, one, two):
    random, back = f"{folder}/random", f"{folder}/back"
    with open(random, "wb") as file:
        file.write(os.urandom(BLOCKS * 512))
    tried.run("qemu-img convert, there by controller 1", "qemu-img", "convert", "-n", "-f", "raw", "-O", "raw", random, one)
    tried.run("qemu-img convert, back by controller 2", "qemu-img", "convert", "-f", "raw", "-O", "raw", two, back)
    tried.run("the same bytes came back", "cmp", random, back)
    tried.run("and lie in the file", "cmp", random, f"{folder}/0.img")
    tried.run("qemu-img compare", "qemu-img", "compare", "-f", "raw", "-F", "raw", one, two)


def fio(tried, folder, url):
    """fio with verification, over qemu-nbd."""
    place = f"{folder}/nbd"
    try:
        nbd = subprocess.Popen(["qemu-nbd", "-k", place, "-f", "raw", "--cache=none", "-t", url])
    except OSError as fault:
        return tried.tell(False, "qemu-nbd", f": {fault}")
    try:
        time.sleep(1)
        words = ["--ioengine=nbd", f"--uri=nbd+unix:///?socket={place}", "--verify=crc32c", "--verify_fatal=1", "--verify_state_save=0"]
        tried.run("fio over qemu-nbd, 16 deep, with verification", "fio", "--name=verify", *words, "--rw=randwrite", "--bs=4k",
                  "--iodepth=16", "--size=48M", "--do_verify=1")
        tried.run("fio, blocks of 512 bytes to 256 KiB", "fio", "--name=mixed", *words, "--rw=randrw", "--bsrange=512-256k",
                  "--blockalign=512", "--iodepth=8", "--size=32M")
    finally:
        nbd.terminate()
        nbd.wait()


def failed_in(lines):
    """The tests of iscsi-test-cu that failed, as SUITE.TEST."""
    suite, test, failed = "", "", set()
    for line in lines:
        if found := re.match(r"Suite: (\S+)", line):
            suite = found[1]
        elif found := re.match(r"  Test: (\S+)", line):
            test = found[1]
        elif re.match(r" +[0-9]+\. .* - ", line):
            failed.add(f"{suite}.{test}")
    return failed


def test_cu(tried, url, kept):
    """Counts of iscsi-test-cu, of whose tests no other may fail than those of docs/TESTING.md; all that it said is kept."""
    print(f"iscsi-test-cu {url}", flush=True)
    words = ["iscsi-test-cu", "--dataloss", "--allow-sanitize", "-t", "ALL", url]
    with open(f"{kept}/{url.split('/')[2].split(':')[1]}", "w+", encoding="utf-8", errors="replace") as said:
        subprocess.run(words, stdout=said, stderr=subprocess.STDOUT, check=False)
        said.seek(0)
        lines = said.read().splitlines()
    print("\n".join(line for line in lines if re.match(" +(suites|tests|asserts) ", line)))
    failed = failed_in(lines)
    tried.said = "\n".join(lines)
    tried.tell(failed <= MAY_FAIL and any("Run Summary" in line for line in lines), f"of its tests failed {', '.join(sorted(failed))}",
               ", which are others than those of docs/TESTING.md")


def everything(array, folder, is_quick):
    """Whether all went well."""
    tried = Tried()
    urls = ["iscsi://%s:%d/%s" % (*array.portal(controller), TARGET) for controller in (1, 2)]
    one, two = (f"{url}/0" for url in urls)
    tried.run("iscsi-ls with portals and units", "iscsi-ls", "-s", "iscsi://%s:%d" % array.portal(1))
    for words in (f"Portal:127.0.0.1:{PORT},1", f"Portal:127.0.0.1:{PORT + 4},2", "Lun:1 "):
        tried.says(words)
    for url in (one, two):
        libiscsi(tried, url)
    qemu_img(tried, folder, one, two)
    fio(tried, folder, f"{urls[0]}/1")
    if not is_quick:
        made(f"{folder}/1.img", BLOCKS)
        kept = tempfile.mkdtemp()
        for url in (one, two):
            test_cu(tried, url, kept)
        print(f"all that iscsi-test-cu said lies in {kept}")
    return tried.is_well


def main():
    with tempfile.TemporaryDirectory(dir="/dev/shm") as folder:
        with Array([made(f"{folder}/{unit}.img", BLOCKS) for unit in range(2)]) as array:
            is_well = everything(array, folder, sys.argv[1:] == ["quick"])
            print("\n".join(array.ask("status", 2)))
            is_well = array.quit(60) == 0 and is_well
    sys.exit(0 if is_well else 1)


if __name__ == "__main__":
    main()
