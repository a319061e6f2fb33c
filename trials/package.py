#!/usr/bin/env python3
"""Installs the package in a Debian with systemd that never had the array, booted in qemu, and tries what README says of it: a working
array by three commands, seen by hosts outside; who may use its console; a newer package while hosts do verified IO, with nothing
lost, and how long they waited; which hosts may reach it; a disk that is missing for good; a reboot; removal and purge. Not part of
the gate: it takes some twenty minutes, since the machine's processor is emulated.

usage: trials/package.py build FOLDER                     makes what is booted, of Debian's packages (root, the network)
       trials/package.py run FOLDER PACKAGE [NEWER]       boots it and tries; where no newer package is given, PACKAGE is packed
                                                         again as one. Status 1 where a line begins with FAILED
       trials/package.py only NAME,.. FOLDER PACKAGE      the same, and no trials but these (three_commands has to be the first)

What it wants of Debian's packages says trials/package_machine.py.
"""

import os
import re
import shutil
import subprocess
import sys
import tempfile
import time

from free_port import free_port
from initiator import Closed, Refused, Session
from package_host import Host
from package_machine import Machine, build
from running import TARGET

APT = "DEBIAN_FRONTEND=noninteractive apt-get -y -q -o Dpkg::Options::=--force-confold"
CONSOLE = "/usr/libexec/arrayd/arrayd-console /run/arrayd/one"
STATUS = "/usr/libexec/arrayd/arrayd-status /run/arrayd/one"
failed = []


def check(name, is_right, found=""):
    print(f"{'ok      ' if is_right else 'FAILED  '}{name}" + ("" if is_right else f": {found}"), flush=True)
    if not is_right:
        failed.append(name)


def told(name, seconds):
    print(f"        {name}: {seconds:.1f} s", flush=True)


def timed(machine, script):
    began = time.monotonic()
    status, said = machine.run(script)
    return status, said, time.monotonic() - began


def repacked(package, place):
    """The same package as a newer one, whose configuration has a line more, so that dpkg has to keep what was edited."""
    root = os.path.join(place, "newer")
    subprocess.run(["dpkg-deb", "-R", package, root], check=True)
    control = os.path.join(root, "DEBIAN", "control")
    with open(control, encoding="utf-8") as file:
        text = re.sub(r"^Version: (.*)$", r"Version: \1+newer", file.read(), flags=re.M)
    with open(control, "w", encoding="utf-8") as file:
        file.write(text)
    with open(os.path.join(root, "etc", "arrayd", "one.conf"), "a", encoding="utf-8") as file:
        file.write("# a line of the newer package\n")
    newer = os.path.join(place, "packages", "newer.deb")
    subprocess.run(["dpkg-deb", "--root-owner-group", "-b", root, newer], check=True, stdout=subprocess.DEVNULL)


def tell_program(package):
    """Says of which program a package was made: package.sh marks one that was not proved."""
    words = ["dpkg-deb", "-f", package, "Version"]
    version = subprocess.run(words, check=True, stdout=subprocess.PIPE, text=True).stdout.strip()
    print(f"package {version}, of a program that was {'not ' if '~unproved' in version else ''}proved", flush=True)


def field(machine, name, unit="arrayd@one"):
    return machine.run(f"systemctl show -P {name} {unit}")[1]


def session(machine, controller=1, timeout=60):
    return Session("127.0.0.1", machine.port + 4 * (controller - 1), TARGET, name="iqn.2000-01.test:looks", timeout=timeout)


# ---- the trials, in their order

def three_commands(machine):
    status, said = machine.run("command -v arrayd; getent passwd arrayd; ls -d /etc/arrayd /var/lib/arrayd /usr/libexec/arrayd")
    check("nothing of the array is there", status != 0 and "/arrayd\n" not in said.replace("cannot access", ""), said)
    status, said, seconds = timed(machine, f"cd /packages; {APT} install ./arrayd_*.deb")
    check("1. apt install", status == 0, said)
    told("it took", seconds)
    check("no array was started", machine.run("systemctl list-units --all --plain --no-legend 'arrayd@*'")[1] == "", "")
    status, said = machine.run("sed -i -e 's/--host 10.0.5.1/--host 10.0.2.15/' -e 's#=/dev/vg0/lun0#=/dev/vdb#' -e 's#=/dev/vg0/lun1#=/dev/vdc#' "
                               "/etc/arrayd/one.conf; grep -v '^#' /etc/arrayd/one.conf")
    check("2. one file is edited", "/dev/vdb" in said and "10.0.2.15" in said, said)
    status, said, seconds = timed(machine, "systemctl enable --now arrayd@one")
    check("3. systemctl enable --now", status == 0, said + machine.run("journalctl -n 20 --no-pager -u arrayd@one")[1])
    told("it took", seconds)
    with session(machine) as one, session(machine, 2) as two:
        one.ready(0)
        two.ready(0)
        check("a host finds both units", one.report_luns() == [0, 1] and one.capacity(0) == (131072, 512), one.report_luns())
        one.write(0, 7, b"seen" * 128, fua=True)
        check("what it writes through controller 1 it reads through 2", two.read(0, 7, 1) == b"seen" * 128)
    check("the program tells its version, as the package", machine.run("arrayd --version")[1].split()[-1]
          == machine.run("dpkg-query -W -f '${Version}' arrayd")[1].partition("~")[0].partition("+")[0])
    check("it has a log, which is rotated", machine.run("logrotate -f /etc/logrotate.d/arrayd; ls /var/log/arrayd/one/log.1")[0] == 0)
    machine.run("fallocate -l 101M /var/log/arrayd/one/log; systemctl start arrayd-logrotate")
    said = machine.run("systemctl is-active arrayd-logrotate.timer; ls -l /var/log/arrayd/one")[1]
    check("one that grows fast is rotated within the hour", said.startswith("active") and "105906176" in said and " log\n" not in said + "\n", said)
    machine.run("find /var/log/arrayd -size +100M -delete")
    check("man finds its pages", machine.run("ls /usr/share/man/man8/arrayd.8.gz /usr/share/man/man8/arrayd-reg.8.gz")[0] == 0)


def console(machine):
    check("users are made", machine.run("set -e; useradd -G arrayd-status watcher; useradd -G arrayd keeper; useradd stranger")[0] == 0)

    def as_user(user, command):
        return machine.run(f"runuser -u {user} -- {command}")

    check("a watcher may ask for status", as_user("watcher", STATUS)[1].count("unit ") == 2, as_user("watcher", STATUS))
    check("and for sessions and keys", [as_user("watcher", f"{STATUS} {line}")[0] for line in ("sessions", "keys 0")] == [0, 0])
    check("and not by the console", as_user("watcher", f"{CONSOLE} status")[0] == 3 and as_user("watcher", f"{CONSOLE} quit")[0] == 3)
    check("a stranger may neither", as_user("stranger", STATUS)[0] == 3 and as_user("stranger", f"{CONSOLE} status")[0] == 3)
    check("a keeper may take a controller down", as_user("keeper", f"{CONSOLE} down 2") == (0, "down"))
    said = machine.run("journalctl --sync; journalctl -t arrayd-console -o json --output-fields=_UID,MESSAGE | grep 'down 2'; id -u keeper")[1].splitlines()
    check("which the journal tells of him", len(said) == 2 and f'"_UID":"{said[1]}"' in said[0] and "/run/arrayd/one down 2" in said[0], said)
    check("and ask by the control socket", as_user("keeper", f"{CONSOLE} version")[1].startswith("arrayd "), as_user("keeper", f"{CONSOLE} version"))
    enters = "ls /run/arrayd/one; socat -u OPEN:/dev/null UNIX-CONNECT:/run/arrayd/one/control"
    check("nobody else enters the folder", all(as_user(user, "sh -c '" + word + "'")[0] != 0 for user in ("watcher", "stranger")
                                               for word in enters.split("; ")))
    check("which the status tells", as_user("watcher", STATUS)[1].count("states 0 3") == 2, as_user("watcher", STATUS))
    check("a keeper may not read a disk", as_user("keeper", "ls /var/lib/arrayd/one")[0] != 0)
    check("a restart brings it back", machine.run(f"systemctl restart arrayd@one; {CONSOLE} status")[1].count("states 0 1") == 1)


def confined(machine):
    """Its user, its disks, its memory, and what the watch tells of it."""
    pid = field(machine, "MainPID")
    check("it runs as a user of its own", machine.run(f"ps -o user:32= -p {pid}")[1] == "arrayd-one", machine.run(f"ps -o user:32= -p {pid}"))
    check("to whom its files belong", machine.run("stat -c %U /var/lib/arrayd/one /var/lib/arrayd/one/unit0.reg /var/log/arrayd/one/log* | sort -u")[1]
          == "arrayd-one")
    check("it may open its disks alone", sorted(re.findall("/dev/vd.", field(machine, "DeviceAllow"))) == ["/dev/vdb", "/dev/vdc"], field(machine, "DeviceAllow"))
    opens = "; ".join(f"head -c 1 /dev/{disk} > /dev/null 2>&1; echo {disk} $?" for disk in ("vdb", "vda", "vdd"))
    inside = f"echo $BASHPID > /sys/fs/cgroup/system.slice/system-arrayd.slice/arrayd@one.service/cgroup.procs; {opens}"
    said = machine.run(inside)[1]
    check("which the system keeps, even from root", said == "vdb 0\nvda 1\nvdd 1", said)
    check("its memory has a bound", field(machine, "MemoryMax").isdigit(), field(machine, "MemoryMax"))
    check("the watch has nothing to say", machine.run("systemctl start arrayd-watch@one")[0] == 0, machine.run("journalctl -n 5 --no-pager -u arrayd-watch@one")[1])
    machine.run(f"kill -STOP {pid}")
    check("and tells of one that stands still", machine.run("systemctl start arrayd-watch@one")[0] != 0)
    machine.run(f"kill -CONT {pid}")
    check("which was not restarted", field(machine, "MainPID") == pid)
    check("its timer is on", field(machine, "ActiveState", "arrayd-watch@one.timer") == "active")
    machine.run("systemctl reset-failed arrayd-watch@one; ln -s /dev/vdd /var/lib/arrayd/one/planted; "
                "sed -i.kept 's#^DISKS=.*#DISKS=\"unit0=/dev/vdb planted\"#' /etc/arrayd/one.conf")
    check("a link that was planted is refused", machine.run("systemctl restart arrayd@one")[0] != 0
          and "planted is a block device" in machine.run("journalctl --no-pager -u arrayd-prepare@one")[1])
    machine.run("mv /etc/arrayd/one.conf.kept /etc/arrayd/one.conf; rm /var/lib/arrayd/one/planted")
    machine.run("systemctl restart arrayd@one")
    look = f"runuser -u watcher -- {STATUS} health"
    check("and without it the array is there, as who may look is told", machine.run(look)[0] == 0, machine.run(look)[1])
    machine.run("systemctl restart arrayd@one")
    check("who looked just before a restart is answered behind it", machine.run(look)[0] == 0, machine.run(look)[1])


def upgrade(machine):
    with session(machine) as one:
        one.ready(0)
        check("a host registers with APTPL", one.reserve_out(0, 0, new_key=0xABC, aptpl=True).status == 0)
    before = field(machine, "MainPID")
    hosts = [Host("127.0.0.1", machine.port + 4 * unit, unit) for unit in (0, 1)]
    for host in hosts:
        host.start()
    time.sleep(10)
    status, said, seconds = timed(machine, f"{APT} install /packages/newer.deb")
    check("a newer package is installed beside hosts that work", status == 0, said)
    told("it took", seconds)
    check("it says which array runs the program of before", "systemctl restart arrayd@one" in said, said)
    check("it restarted nothing", field(machine, "MainPID") == before)
    check("no host was interrupted", all(host.breaks == 0 and host.is_alive() for host in hosts), [host.breaks for host in hosts])
    check("what was edited is kept", machine.run("grep -c /dev/vdb /etc/arrayd/one.conf; ls /etc/arrayd/one.conf.dpkg-dist")[0] == 0)
    status, said, seconds = timed(machine, "systemctl restart arrayd@one")
    check("the array is restarted", status == 0 and field(machine, "MainPID") != before, said)
    told("it took", seconds)
    time.sleep(15)
    for host in hosts:
        host.end()
        check(f"host {host.unit} went on: {host.answers} answers, {host.breaks} interruption", host.breaks == 1 and not host.wrong, host.wrong)
        told("the longest that it waited for an answer", host.longest)
        found = host.lost(machine.port + 4 * (1 - host.unit))
        check(f"each of the {len(host.values)} blocks that it has written is there, by the other controller", not found, found)
    with session(machine, 2) as two:
        two.ready(0)
        check("the registration is there", two.keys_of(0) == [0xABC], two.keys_of(0))
    said = machine.run("arrayd-reg /var/lib/arrayd/one/unit0.reg")[1]
    check("arrayd-reg tells it too", "key 0xabc  group 1" in said, said)


def filtered(machine):
    def allow(network):
        machine.run(f"sed -i '/^HOSTS=/d' /etc/arrayd/one.conf; echo 'HOSTS=\"{network}\"' >> /etc/arrayd/one.conf; systemctl restart arrayd@one")

    def reaches():
        try:
            session(machine, timeout=15).close()
            return True
        except (OSError, Closed, Refused):
            return False

    check("without a word the networks of its addresses do", "10.0.2.0/24" in field(machine, "IPAddressAllow") and reaches())
    allow("10.0.9.0/24")
    check("a host that HOSTS does not name does not reach it", not reaches())
    allow("10.0.2.0/24")
    check("one that it names does", reaches())
    machine.run("sed -i '/^HOSTS=/d' /etc/arrayd/one.conf; systemctl restart arrayd@one")


def missing(machine):
    machine.run("printf '%s\\n' 'OPTIONS=\"--host 10.0.2.15 --port 3280 --array 2\"' 'DISKS=\"unit0=/dev/nowhere\"' > /etc/arrayd/two.conf")
    began = time.monotonic()
    check("an array whose disk is not there does not start", machine.run("systemctl start arrayd@two")[0] != 0)
    while field(machine, "ActiveState", "arrayd@two") != "failed" and time.monotonic() - began < 1500:
        time.sleep(5)
    found = [field(machine, name, "arrayd@two") for name in ("ActiveState", "NRestarts")]
    check("it is tried again, and then failed", found == ["failed", "30"] or found[0] == "failed" and int(found[1]) >= 25, found)
    told("it took", time.monotonic() - began)
    check("the journal says why", "there is no /dev/nowhere for unit0" in machine.run("journalctl --no-pager -u arrayd@two")[1])
    check("the other array was not touched", field(machine, "ActiveState") == "active")
    machine.run("rm /etc/arrayd/two.conf; systemctl reset-failed arrayd@two; rm -rf /var/lib/arrayd/two")


def file_disk(machine):
    """A disk that is a file, made by the lines of README."""
    folder = "/var/lib/arrayd/three"
    status, said = machine.run(f"set -e\ninstall -d -m 700 {folder}\ntruncate -s 1G {folder}/unit0\n"
                               "printf '%s\\n' 'OPTIONS=\"--host 10.0.2.15 --port 3290 --array 3\"' "
                               "'DISKS=\"unit0\"' > /etc/arrayd/three.conf\nsystemctl start arrayd@three")
    check("an array over a file that was made before starts", status == 0, said)
    status, said = machine.run("/usr/libexec/arrayd/arrayd-console /run/arrayd/three status; arrayd-reg /var/lib/arrayd/three/unit0.reg")
    check("its console and arrayd-reg tell of it", status == 0 and said.startswith("unit 0 ") and "unit0.reg: version" in said, said)
    machine.run(f"systemctl stop arrayd@three; rm -rf {folder} /etc/arrayd/three.conf /var/log/arrayd/three")


def rebooted(machine):
    boot = machine.run("cat /proc/sys/kernel/random/boot_id")[1]
    machine.run("systemctl reboot --no-block")
    time.sleep(5)
    while True:
        told("the machine is up again after", machine.wait())
        if machine.run("cat /proc/sys/kernel/random/boot_id")[1] != boot:
            break
        time.sleep(3)
    check("behind a reboot the array is there by itself", field(machine, "ActiveState") == "active", machine.run("systemctl status arrayd@one")[1])
    with session(machine) as one:
        one.ready(0)
        check("with its registration and its blocks", one.keys_of(0) == [0xABC] and one.read(0, 7, 1) == b"seen" * 128, one.keys_of(0))
        check("and no warning of the system", machine.run("systemctl --failed --no-legend")[1] == "", machine.run("systemctl --failed")[1])


def removed(machine):
    status, said, seconds = timed(machine, f"{APT} remove arrayd")
    check("it is removed while an array runs", status == 0, said)
    told("it took", seconds)
    check("the array was told to quit", "event=stopping" in machine.run("tail -3 /var/log/arrayd/one/log")[1])
    check("and none runs", machine.run("pidof arrayd; ls /usr/sbin/arrayd")[0] != 0)
    check("what was edited stays", machine.run("grep -c /dev/vdb /etc/arrayd/one.conf")[0] == 0)
    check("it is purged", machine.run(f"{APT} purge arrayd")[0] == 0)
    left = machine.run("find / -xdev -name '*arrayd*' -not -path '/proc/*' -not -path '/var/lib/arrayd/*' -not -path '/var/log/journal/*'; "
                       "find /var/lib/arrayd -type f -o -type l")[1]
    check("disks and registrations stay, and nothing else", set(left.split()) == {
        "/var/lib/arrayd", *(f"/var/lib/arrayd/one/unit{unit}{end}" for unit in (0, 1) for end in ("", ".reg", ".unit"))}, left)
    machine.run(f"{APT} install /packages/newer.deb; touch /var/lib/arrayd/one/remove-on-purge; {APT} purge arrayd")
    check("a purge that was asked for it takes them", machine.run("ls -d /var/lib/arrayd")[0] != 0)
    machine.run("sync")
    check("and leaves the device to which a link led", machine.run("dd if=/dev/vdb bs=512 skip=7 count=1 status=none")[1] == "seen" * 128)
    folders = "/etc/arrayd /var/log/arrayd /var/lib/arrayd"
    machine.run(f"for folder in {folders} /var/lib/arrayd/one; do mkdir -p $folder; mount -t tmpfs none $folder; done; "
                f"{APT} install /packages/newer.deb; touch /var/lib/arrayd/one/remove-on-purge /var/log/arrayd/log")
    status, said = machine.run(f"{APT} purge arrayd")
    check("folders on which something is mounted keep no purge from its end", status == 0, said)
    check("it empties and leaves them", machine.run(f"find {folders} -mindepth 1")[1].strip() == "/var/lib/arrayd/one")


TRIALS = (three_commands, console, confined, upgrade, filtered, missing, file_disk, rebooted, removed)


def trials(machine, chosen):
    machine.run("mkdir -p /packages; mount -o ro /dev/vdd /packages")
    for trial in chosen:
        print(trial.__name__.replace("_", " "), flush=True)
        if trial is removed:
            machine.run("mount -o ro /dev/vdd /packages")
        trial(machine)


def main(words):
    if words[:1] == ["build"] and len(words) == 2:
        build(os.path.abspath(words[1]))
        return 0
    chosen = TRIALS
    if words[:1] == ["only"] and len(words) == 4:
        chosen = [trial for trial in TRIALS if trial.__name__ in words[1].split(",")]
        words = ["run", *words[2:]]
    if words[:1] != ["run"] or len(words) not in (3, 4):
        sys.exit(__doc__)
    for package in words[2:]:
        tell_program(package)
    with tempfile.TemporaryDirectory() as place:
        os.mkdir(os.path.join(place, "packages"))
        shutil.copy(words[2], os.path.join(place, "packages", "arrayd_first.deb"))
        if len(words) == 4:
            shutil.copy(words[3], os.path.join(place, "packages", "newer.deb"))
        else:
            repacked(words[2], place)
        with Machine(os.path.abspath(words[1]), place, os.path.join(place, "packages"), free_port()) as machine:
            told("the machine is up after", machine.wait())
            trials(machine, chosen)
    print(f"{len(failed)} failed")
    return 1 if failed else 0


if __name__ == "__main__":
    sys.exit(main(sys.argv[1:]))
