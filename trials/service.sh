#!/bin/sh
# Runs the array as a service does, by the service's own scripts and without systemd: starts it, asks `status`, takes a controller
# down, stops it by `quit`, starts it anew, ends it by SIGTERM; all by its control socket. Then who may only look, what is told of
# its health, and what systemd is told of its disks and hosts; and what checks the service's files, where it is installed:
# systemd-analyze, mandoc. Ends with status 1 where something is not as it has to be.
#
# usage: trials/service.sh
cd "$(dirname "$0")/.." || exit 1
place=$(mktemp -d)
port=$(python3 trials/free_port.py)
ARRAYD=$(realpath "${ARRAYD:-./arrayd}")
export ARRAYD
pid=
failed=0
trap 'test -z "$pid" || kill "$pid" 2> /dev/null; rm -rf "$place"' EXIT

# what it is, what was found, what it has to be
is() {
    if [ "$2" = "$3" ]; then
        echo "ok      $1"
    else
        echo "FAILED  $1: '$2', and not '$3'"
        failed=1
    fi
}

console() {
    if [ "$1" = --limit ]; then
        service/arrayd-console "$1" "$2" "$place/run" "$3" 2>&1
    else
        service/arrayd-console --limit 20 "$place/run" "$@" 2>&1
    fi
}

begin() {
    (cd "$place/state" && exec "$OLDPWD/service/arrayd-run" "$place/run" --port "$port" "$@") 2> "$place/complains" &
    pid=$!
    # as the service does: it is up when it answers
    MAINPID=$pid console ready > "$place/status"
}

# how the array ends: its exit status
ends() {
    wait "$pid"
    ended=$?
    pid=
}

mkdir "$place/run" "$place/state"
truncate -s 8M "$place/disk0" "$place/disk1"
# units are links in a folder of the array's own, so that their registration files lie there
ln -s "$place/disk0" "$place/state/unit0"
ln -s "$place/disk1" "$place/state/unit1"

is 'nobody answers before it is started' "$(console status; echo $?)" 'arrayd-console: no array is there
3'
begin unit0 unit1
is 'it answers status, a line a unit' "$(sed 's/ entries.*//' "$place/status")" \
    'unit 0 owner 1 states 0 1 generation 0 keys 0 type 0
unit 1 owner 2 states 1 0 generation 0 keys 0 type 0'
is 'down 1' "$(console down 1)" down
is 'and the other controller owns both units' "$(console status | sed 's/ generation.*//')" 'unit 0 owner 2 states 3 0
unit 1 owner 2 states 3 0'
is 'a line that it does not know is not asked' "$(console up 3 > "$place/up"; echo $?)" 2
is 'nor is a session whose number no session has' "$(console end 65536 > "$place/up"; echo $?)" 2
is 'nor is it asked within a time that is none' "$(for limit in x -1 1e9; do console --limit $limit status > "$place/up"; echo $?; done)" '2
2
2'
kill -STOP "$pid"
is 'what an array that stands still was told it may still do' "$(service/arrayd-console --limit 1 "$place/run" down 2 2>&1; echo $?)" \
    'arrayd-console: no answer within 1 seconds: it was told `down 2`, and may do so yet
3'
kill -CONT "$pid"
until [ "$(console status | grep -c 'states 0 3')" = 2 ]; do sleep 0.1; done
is 'and does' "$(console down 1)" down
is 'two that ask at once each get their own answer' "$(for i in 1 2 3 4 5 6 7 8; do console status & done | grep -c '^unit [01] owner 2')" 16
echo status > "$place/run/console"
is 'what an echo has asked is not taken for an answer' "$(console down 1)" down
# which takes a second longer
kill -STOP "$pid"
(sleep 1; kill -CONT "$pid") &
console quit
is 'quit waits until it has ended' "$(kill -0 "$pid" 2> /dev/null && echo there)" ''
ends
is 'and it ended well' $ended 0
is 'nobody is told to quit twice' "$(console quit; echo $?)" 'arrayd-console: no array is there
3'
is 'registration files lie beside the links' "$(ls "$place/state")" 'unit0
unit0.reg
unit0.unit
unit1
unit1.reg
unit1.unit'
begin unit0 unit1
is 'started anew, each unit is with its own controller' "$(sed 's/ generation.*//' "$place/status")" \
    'unit 0 owner 1 states 0 1
unit 1 owner 2 states 1 0'
first=$pid
other=$(mkdir "$place/other" && cd "$place/state" && "$OLDPWD/service/arrayd-run" "$place/other" --port "$port" unit0 2>&1; echo $?)
is 'a second one over the same disk is refused' "$other" 'arrayd: cannot use unit 0: another server has it, or another unit: unit0
1'
again=$(cd "$place/state" && "$OLDPWD/service/arrayd-run" "$place/run" --port "$port" unit1 2>&1; echo $?)
is 'a second one in its folder is refused' "$again" "arrayd-run: an array lives in $place/run
1"
is 'and the first one answers there' "$(console status | sed 's/ generation.*//')" 'unit 0 owner 1 states 0 1
unit 1 owner 2 states 1 0'
is 'and the first is there still' "$(kill -0 "$first" && echo there)" there
# a session that lives holds up no end
python3 - "$port" << 'END' &
import sys, time
sys.path.insert(0, "trials")
from initiator import Session
session = Session("127.0.0.1", int(sys.argv[1]), "iqn.2000-01.test:array")
session.ready(0)
time.sleep(5)
END
host=$!
sleep 1
console quit
ends
is 'quit does not wait for hosts' $ended 0
kill "$host" 2> /dev/null
wait "$host" 2> /dev/null
begin unit0 unit1
kill "$pid"
ends
is 'SIGTERM ends it' $ended 143
begin missing
ends
is 'a fault at the start is told, and the status is 1' "$(cat "$place/complains") $ended" 'arrayd: cannot use unit 0: it is not there, errno 2: missing 1'

# links to disks that lie elsewhere, which the start makes
begin unit0 linked="$place/disk1"
is 'a link is made to a disk that lies elsewhere' "$(readlink "$place/state/linked")" "$place/disk1"
is 'and it is a unit, with its registration file' "$(grep -c unit "$place/status") $(ls "$place/state/linked.reg")" "2 $place/state/linked.reg"
console quit
ends
begin unit0 linked="$place/disk1"
console quit
ends
is 'a link that is there is taken' $ended 0
begin linked="$place/disk0"
ends
is 'one to another disk is left' "$(cat "$place/complains") $ended" "arrayd-run: linked is a link to $place/disk1, and not to $place/disk0 2"
rm "$place/state/linked"
begin linked="$place/disk0"
ends
is 'and none is made anew where a disk was served by its name' "$(cat "$place/complains") $ended $(ls "$place/state" | grep -c '^linked$')" \
    'arrayd-run: linked is gone, and linked.unit is there: hosts know a disk by this name 2 0'
begin unit2="$place/nowhere"
ends
is 'there is none to a disk that is not there' "$(cat "$place/complains") $ended" "arrayd-run: there is no $place/nowhere for unit2 1"
is 'and none was made' "$(ls "$place/state" | grep -c unit2)" 0

# a folder is the array's, and who asks may be root: no link in it is followed
echo stays > "$place/target"
mkdir "$place/linked"
mkfifo "$place/linked/told"
ln -s "$place/target" "$place/linked/console"
is 'a console that is a link is none' "$(service/arrayd-console "$place/linked" quit 2> /dev/null; echo $?) $(cat "$place/target")" '3 stays'

# what may be asked by who may only look, and what the watch tells
begin unit0 unit1
# as systemd does: it holds the socket, and starts anew what has ended
python3 - "$place/run" << 'END' &
import os, socket, subprocess, sys
with socket.socket(socket.AF_UNIX) as door:
    door.bind(sys.argv[1] + ".status")
    door.listen()
    os.dup2(door.fileno(), 3)
    while True:
        subprocess.run(["service/arrayd-status", "--answer", sys.argv[1]], pass_fds=[3], check=False)
END
door=$!
until [ -S "$place/run.status" ]; do sleep 0.1; done
look() {
    service/arrayd-status "$place/run" "$@" 2> /dev/null
    echo $?
}
is 'who may look asks for status' "$(look | sed 's/ entries.*//')" 'unit 0 owner 1 states 0 1 generation 0 keys 0 type 0
unit 1 owner 2 states 1 0 generation 0 keys 0 type 0
0'
is 'for sessions, keys and the version' "$(look sessions) $(look keys 0) $(look keys 7) $(look version | head -1)" "0 0 no unit
1 $("$ARRAYD" --version)"
is 'and for nothing else' "$(look quit) $(look down 1) $(look end 3) $(look up 1)" '2 2 2 2'
refused=$(python3 - "$place/run.status" << 'END'
import socket, sys
for line in (b"quit\n", b"down 1\n", b"status\nquit\n", b"status; quit\n", b"--limit 1 quit\n", b"x" * 4096):
    with socket.socket(socket.AF_UNIX) as way:
        way.settimeout(60)
        way.connect(sys.argv[1])
        try:
            way.sendall(line)
            way.shutdown(socket.SHUT_WR)
            print(line[:16], len(way.recv(65536)) > 0)
        except OSError:
            print(line[:16], False)
END
)
is 'whatever is sent' "$(echo "$refused" | grep -c False) $(console status | grep -c 'states [01] [01] ')" '5 2'
service/arrayd-watch "$place/run" > "$place/watch" 2>&1
is 'the watch has nothing to say of an array that is well' "$? $(cat "$place/watch")" '0 '
kill -STOP "$pid"
service/arrayd-watch "$place/run" > "$place/watch" 2>&1
is 'and says that one which stands still does not answer' "$? $(cat "$place/watch")" '3 arrayd-watch: timed out'
kill -CONT "$pid"
console quit
ends
at=127.0.0.1:$(python3 trials/free_port.py)
export ARRAYD_HTTP="$at"
begin unit0 unit1
console down 1 > "$place/down"
service/arrayd-watch "$place/run" > "$place/watch" 2>&1
is 'what is degraded is told, and is no failure' "$? $(cut -c 1-9 "$place/watch" | sort -u)" '0 degraded:'
truncate -s 512 "$place/disk0"
python3 - "$port" << 'END'
import sys
sys.path.insert(0, "trials")
from initiator import Session
session = Session("127.0.0.1", int(sys.argv[1]) + 4, "iqn.2000-01.test:array")
session.ready(0)
session.command(0, [0x28, 0, 0, 0, 0, 100, 0, 0, 1, 0], expected=512)
END
service/arrayd-watch "$place/run" > "$place/watch" 2>&1
is 'what is wrong is one, and told' "$? $(grep -c 'unit 0.*call=read' "$place/watch")" '1 1'
is 'as it is to who may only look' "$(look health | grep -c 'unit 0.*call=read') $(look health | tail -1)" '1 1'
truncate -s 8M "$place/disk0"
console quit
ends
kill "$door" 2> /dev/null
mv "$place/state/unit0.reg" "$place/away"
begin unit0 unit1
is 'a registration file that is gone is told' "$(cat "$place/complains")" \
    'arrayd-run: unit0.reg is gone, so nobody is registered with unit0, and no fence holds'
console quit
ends
unset ARRAYD_HTTP
unset ARRAYD_CONTROL

# what systemd is told of an array
prepared() {
    service/arrayd-prepare --show "$@" 2>&1
    echo $?
}
is 'each disk is allowed by its name, and the hosts that are said' \
    "$(DISKS='unit0=/dev/vg0/lun0 unit2' DEVICES=/dev/disk/by-id/x HOSTS='10.0.5.0/24 10.0.7.9' prepared one)" 'User=arrayd-one
DeviceAllow=
DeviceAllow=/dev/vg0/lun0 rw
DeviceAllow=/dev/disk/by-id/x rw
IPAddressAllow=
IPAddressAllow=localhost
IPAddressAllow=10.0.5.0/24
IPAddressAllow=10.0.7.9/32
IPAddressDeny=
IPAddressDeny=any
0'
is 'and so are the addresses at which it listens, since packets of the machine itself come from there' \
    "$(OPTIONS='--host=10.0.5.1' ARRAYD_HOST2=127.0.0.2 ARRAYD_HTTP=10.0.6.1:9860 HOSTS=10.0.7.9 prepared one | grep 'Allow=[1-9]')" \
    'IPAddressAllow=10.0.7.9/32
IPAddressAllow=10.0.5.1/32
IPAddressAllow=10.0.6.1/32'
is 'an address of the options is one, however it is spelled' \
    "$(for host in '--host 10.0.5.9' '--host=10.0.5.9'; do OPTIONS="$host" HOSTS=any prepared one; done | grep -c 'Allow=10.0.5.9/32')" 2
is 'no disk and no host where none is said' "$(OPTIONS='--host 203.0.113.77' prepared one | grep -v =$)" 'User=arrayd-one
IPAddressAllow=localhost
IPAddressDeny=any
0'
is 'where its networks are asked for, as the system has them' "$(OPTIONS='--host 0.0.0.0' prepared one | grep -c 'IPAddressAllow=localhost')" 1
python3 -B - "$place" > "$place/told" << 'END'
import sys
from importlib.machinery import SourceFileLoader
from importlib.util import module_from_spec, spec_from_loader
from types import SimpleNamespace
loader = SourceFileLoader("prepare", "service/arrayd-prepare")
prepare = module_from_spec(spec_from_loader("prepare", loader))
loader.exec_module(prepare)
path = f"{sys.argv[1]}/hosts.conf"
prepare.subprocess.run = lambda *_, **how: SimpleNamespace(stdout=path + "\n")
for text in ("IPAddressAllow=10.0.5.0/24", "IPAddressAllow = 10.0.5.0/24\nIPAddressDeny=any", "IPAddressDeny=10.0.5.9"):
    with open(path, "w", encoding="ascii") as file:
        file.write(f"[Service]\n{text}\n")
    said = prepare.said_in_drop_ins("arrayd@one.service")
    hosts = prepare.networks({"OPTIONS": "--host 203.0.113.77"}, "IPAddressAllow" in said)
    print([line for line in prepare.properties([], hosts, said) if line[-1] != "="])
END
is 'whom a drop-in does not name is kept out, unless it says itself whom' "$(cat "$place/told")" "['IPAddressDeny=any']
[]
['IPAddressAllow=localhost', 'IPAddressDeny=any']"
is 'a host that is none is refused' "$(HOSTS='10.0.5.0/24 host7' prepared one)" "arrayd-prepare: HOSTS: 'host7' does not appear to be an IPv4 or IPv6 network
2"
is 'and a name of which no user can be made' "$(prepared one.two; prepared abcdefghijklmnopqrstuvwxyz | tail -1)" \
    'arrayd-prepare: the name one.two: it has letters, digits, - and _ alone, 24 at most, and does not begin with -
2
2'
is 'an option that there is not is no name' "$(prepared --help | tail -1)" 2

if command -v systemd-analyze > /dev/null; then
    # as it is installed, under a root of its own
    DESTDIR="$place/root" service/install.sh "$ARRAYD"
    for unit in arrayd@.service arrayd-prepare@.service arrayd-status@.service arrayd-status@.socket arrayd-watch@.service arrayd-watch@.timer \
        arrayd-logrotate.service arrayd-logrotate.timer; do
        sed "s#/usr/libexec#$place/root/usr/libexec#" "service/$unit" > "$place/$(echo "$unit" | sed 's/@/@test/')"
    done
    is 'systemd-analyze verify has nothing to say' "$(cd "$place" && systemd-analyze verify --man=no ./arrayd*@test.* ./arrayd-logrotate.* 2>&1)" ''
    for unit in arrayd@test.service arrayd-status@test.service arrayd-watch@test.service; do
        systemd-analyze security --offline=true --threshold=25 "$place/$unit" > "$place/security" 2>&1
        is 'systemd-analyze security calls its exposure at most 2.5' $? 0
        tail -1 "$place/security"
    done
else
    echo 'systemd-analyze is not installed: the unit was not checked'
fi
if command -v mandoc > /dev/null; then
    is 'mandoc has nothing to say' "$(mandoc -T lint -W warning service/*.8 2>&1)" ''
else
    echo 'mandoc is not installed: the page was not checked'
fi
exit $failed
