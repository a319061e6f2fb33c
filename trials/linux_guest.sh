#!/bin/bash
# The first and only program of the host that trials/linux_host.py boots: brings it up, then tries the array as a host does. It prints `ok` or
# FAILED for each thing.
export PATH=/usr/sbin:/usr/bin:/sbin:/bin HOME=/
mount -t proc proc /proc
mount -t sysfs sysfs /sys
mount -t devtmpfs dev /dev
mkdir -p /dev/pts /dev/shm /run
mount -t tmpfs run /run
mkdir -p /run/lock/iscsi /etc/iscsi /var/lib/iscsi /mnt
exec < /dev/ttyS0 > /dev/ttyS0 2>&1
stty -opost 2> /dev/null
echo "the host is up: Linux $(uname -r)"
for module in virtio_pci virtio_net crc32c_generic ext4 scsi_mod sd_mod sg iscsi_tcp dm_mod dm_multipath scsi_dh_alua dm_round_robin \
    dm_service_time; do
    modprobe $module 2>&1
done
ip link set lo up
card=$(ls /sys/class/net | grep -v lo | head -1)
ip link set "$card" up
ip addr add 10.0.2.15/24 dev "$card"
ip route add default via 10.0.2.2
/lib/systemd/systemd-udevd --daemon
echo InitiatorName=iqn.2000-01.test:linux > /etc/iscsi/initiatorname.iscsi
iscsid
sleep 1

T=iqn.2000-01.test:array
A=10.0.2.2
F=/run/out

# what it is, then the command
try() {
    local what=$1
    shift
    if "$@" > $F 2>&1; then echo "ok      $what"; else echo "FAILED  $what: $*"; tail -15 $F; fi
}
fails() {
    local what=$1
    shift
    if "$@" > $F 2>&1; then echo "FAILED  $what: $* did not fail"; else echo "ok      $what"; fi
}
# Seconds are those of the host's clock: on a busy machine a command of the host may take some of them.
# what, for how many seconds at most, then the command
soon() {
    local what=$1 seconds=$2 began=$SECONDS
    shift 2
    while ((SECONDS - began < seconds)); do
        "$@" > $F 2>&1 && echo "ok      $what (after $((SECONDS - began)) s)" && return
        sleep 1
    done
    echo "FAILED  $what: $*"
    tail -15 $F
}
has() {
    if grep -q -e "$1" $F; then echo "ok        it says: $1"; else echo "FAILED    it does not say: $1"; tail -15 $F; fi
}
# a line for the array's console, or `restart`, `kill`, `grow`
tell() {
    exec 5<> /dev/tcp/$A/24270
    echo "$1" >&5
    cat <&5
    exec 5>&-
}
# the states of unit 0 by both controllers
states() {
    tell status | sed -n 's/^unit 0 owner . states \(.*\) generation.*/\1/p'
}
# what, for how many seconds at most, the states
become() {
    local began=$SECONDS
    while ((SECONDS - began < $2)); do
        [ "$(states)" = "$3" ] && echo "ok      $1 (after $((SECONDS - began)) s)" && return
        sleep 1
    done
    echo "FAILED  $1: $(states), and not $3"
}
# what, for how many seconds at least, the states
stay() {
    local began=$SECONDS now seconds=0
    while ((seconds < $2)); do
        sleep 1
        seconds=$((SECONDS - began))
        now=$(states)
        [ "$now" = "$3" ] || { echo "FAILED  $1: $now after $seconds s"; return; }
    done
    echo "ok      $1 ($seconds s)"
}
conf() {
    cat > /etc/multipath.conf << END
defaults {
    user_friendly_names no
    find_multipaths off
    polling_interval 2
    max_polling_interval 4
    reservation_key 0x123abc
}
devices {
    device {
        vendor "TWINCTL"
        product "ALUA DISK"
        path_grouping_policy group_by_prio
        prio alua
        hardware_handler "1 alua"
        path_checker tur
        path_selector "service-time 0"
        failback $1
        no_path_retry 60
        fast_io_fail_tmo 5
        dev_loss_tmo 600
    }
}
END
}

try 'discovery' iscsiadm -m discovery -t st -p $A:24260
has "$T"
iscsiadm -m discoverydb -o delete -t st -p $A:24260 > /dev/null 2>&1
iscsiadm -m node -o delete > /dev/null 2>&1
# discovery tells the address that the array was reached at, which is this machine's own beyond the emulated network
for port in 24260 24264; do
    iscsiadm -m node -o new -T $T -p $A:$port > /dev/null
    iscsiadm -m node -T $T -p $A:$port -o update -n node.session.timeo.replacement_timeout -v 5
    try "login at $port" iscsiadm -m node -T $T -p $A:$port --login
done
sleep 2
udevadm settle
try 'four disks: two units by two paths' sh -c 'test $(lsblk -S -n | grep -c TWINCTL) = 4'
conf manual
multipathd
sleep 5
multipath -ll > $F
cat $F
has "hwhandler='1 alua'"
try 'two maps' test "$(grep -c 'TWINCTL,ALUA DISK' $F)" = 2
map0=$(multipath -ll | sed -n 's/^\([0-9a-f]*\) dm-.*/\1/p' | sort | head -1)
map1=$(multipath -ll | sed -n 's/^\([0-9a-f]*\) dm-.*/\1/p' | sort | tail -1)
paths0=$(multipath -ll $map0 | sed -n 's/.* \(sd[a-z]\) .*/\/dev\/\1/p')
set -- $paths0
path1=$1
path2=$2
D=/dev/mapper/$map0

try 'mkfs.ext4' mkfs.ext4 -q $D
try 'mount' mount $D /mnt

# fio with verification, while something happens: what it is, for how many seconds fio runs, then the command. The file is there before, so
# that it is reads, writes and their verification that go on meanwhile.
over() {
    local what=$1 seconds=$2 fio is_still=no ended
    shift 2
    fio --name=over --directory=/mnt --size=32M --rw=randrw --bs=4k --iodepth=8 --ioengine=libaio --direct=1 --time_based --runtime=$seconds \
        --verify=crc32c --verify_backlog=64 --verify_fatal=1 --fsync=16 > /run/fio 2>&1 &
    fio=$!
    sleep 5
    "$@"
    kill -0 $fio 2> /dev/null && is_still=yes
    wait $fio
    ended=$?
    if [ $ended = 0 ]; then echo "ok      fio with verification over $what"; else echo "FAILED  fio over $what"; tail -20 /run/fio; fi
    if [ $is_still = yes ]; then echo "ok        it was running all the time"; else echo "FAILED    it had ended before"; fi
    sed -n 's/^ *\(read\|write\): \(IOPS=[^ ,]*\).*\/\([0-9]*msec\).*/seen      fio: \1 \2 in \3/p' /run/fio
}
down_and_look() {
    [ "$(tell "down $1")" = down ] && echo "ok      down $1" || echo "FAILED  down $1"
    stay "failback manual: controller $1 stays down" 20 "$2"
}
try "fio's file" fio --name=over --directory=/mnt --size=32M --rw=write --bs=1M --end_fsync=1
over 'down 1' 60 down_and_look 1 '3 0'
# controller 1 is brought back, and the host has both paths again, before the other one goes down
both_paths() { test "$(multipath -ll $map0 | grep -c 'active ready')" = 2; }
try 'sg_stpg brings controller 1 back' sg_stpg --tp 1,2 --state 0,1 $path2
soon 'the host has both paths again' 60 both_paths
over 'down 2' 60 down_and_look 2 '0 3'
try 'sg_rtpg' sg_rtpg -d $path1
cat $F
restart() { tell restart; }
over 'a restart of the array' 40 restart
become 'after the restart both serve' 30 '0 1'
kill_it() { tell kill; }
over 'a kill of the array' 40 kill_it
drop() { ss -K dst $A dport = 24260 > /dev/null; ss -K dst $A dport = 24264 > /dev/null; }
over 'a dropped connection' 30 drop
both_sessions() { test "$(iscsiadm -m session -P 1 2> /dev/null | grep -c 'LOGGED IN')" = 2; }
soon 'both sessions are there again' 60 both_sessions
multipath -ll $map0

# what a host does by itself with failback immediate
conf immediate
multipathd reconfigure > /dev/null
sleep 5
# it depends on the path that the map uses, and on its load: what is seen is told
taken_back() {
    local was= now began seconds=0
    tell 'down 1'
    began=$SECONDS
    while ((seconds < 60)); do
        now=$(states)
        seconds=$((SECONDS - began))
        [ "$now" = "$was" ] || echo "seen    failback immediate, after $seconds s: $now"
        was=$now
        sleep 1
    done
}
over 'down 1 with failback immediate' 80 taken_back
conf manual
multipathd reconfigure > /dev/null
# whatever was seen, both controllers serve before one goes down again
try 'sg_stpg lets both serve' sg_stpg --tp 1,2 --state 0,1 $path2
soon 'the host has both paths again' 60 both_paths
tell 'down 1'
stay 'failback manual: it stays down' 15 '3 0'
try 'sg_stpg brings it back' sg_stpg --tp 1,2 --state 0,1 $path2
become 'and it is' 10 '0 1'
sleep 5
multipath -ll $map0
try 'multipathd switches to a group' multipathd switchgroup map $map0 group 1
try 'and back' multipathd switchgroup map $map0 group 2
sleep 5
try 'umount' umount /mnt
try 'fsck finds it clean' fsck.ext4 -f -n $D

# reservations, as fence_scsi sends them
try 'sg_persist: register by path 1' sg_persist -n -o -I -S 6aa10001 -Z -d $path1
try 'sg_persist: register by path 2' sg_persist -n -o -I -S 6aa10001 -Z -d $path2
# by path 1: the map may be using path 2, and whoever holds a reservation of this type ends it by unregistering
try 'sg_persist: reserve' sg_persist -n -o -R -T 5 -K 6aa10001 -d $path1
try 'keys' sg_persist -n -i -k -d $path1
try 'two of them' test "$(grep -c 0x6aa10001 $F)" = 2
try 'who' sg_persist -n -i -s -d $path1
cat $F
try 'a registrant writes' dd if=/dev/zero of=$D bs=4096 count=1 seek=1000 oflag=direct
try 'unregister path 2' sg_persist -n -o -G -K 6aa10001 -S 0 -d $path2
fails 'and it may not write by that path' dd if=/dev/zero of=$path2 bs=4096 count=1 seek=1000 oflag=direct
try 'register it again' sg_persist -n -o -I -S 6aa10002 -Z -d $path2
try 'preempt and abort' sg_persist -n -o -A -T 5 -K 6aa10001 -S 6aa10002 -d $path1
fails 'the fenced path may not write' dd if=/dev/zero of=$path2 bs=4096 count=1 seek=1000 oflag=direct
tell restart
soon 'both sessions are there after a restart' 60 both_sessions
soon 'the host has both paths again' 60 both_paths
try 'after a restart there is a reservation' sg_persist -n -i -r -d $path1
has 'Key=0x6aa10001'
fails 'and the fenced path may not write' dd if=/dev/zero of=$path2 bs=4096 count=1 seek=1000 oflag=direct
try 'clear' sg_persist -n -o -C -K 6aa10001 -d $path1

# mpathpersist, with its key from multipath.conf
try 'mpathpersist: register' mpathpersist -o --register --param-sark=123abc -d $D
try 'mpathpersist: keys' mpathpersist -i -k -d $D
cat $F
try 'one by each path' test "$(grep -c 0x123abc $F)" = 2
try 'mpathpersist: reserve' mpathpersist -o --reserve --prout-type=5 --param-rk=123abc -d $D
try 'mpathpersist: reservation' mpathpersist -i -r -d $D
cat $F
try 'a write by the map' dd if=/dev/zero of=$D bs=4096 count=1 seek=1000 oflag=direct
try 'mpathpersist: release' mpathpersist -o --release --prout-type=5 --param-rk=123abc -d $D
try 'mpathpersist: clear' mpathpersist -o --clear --param-rk=123abc -d $D

# COMPARE AND WRITE
head -c 512 /dev/zero > /run/zeros
head -c 512 /dev/urandom > /run/new
cat /run/zeros /run/new > /run/caw
dd if=/dev/zero of=$path1 bs=512 count=1 seek=5000 oflag=direct 2> /dev/null
try 'sg_compare_and_write' sg_compare_and_write --in=/run/caw --lba=5000 --num=1 $path1
dd if=$path2 of=/run/back bs=512 count=1 skip=5000 iflag=direct 2> /dev/null
try 'by the other path it reads what was written' cmp /run/new /run/back
fails 'once more there is a difference' sg_compare_and_write --in=/run/caw --lba=5000 --num=1 $path1

# a bigger disk
tell grow
soon 'both sessions are there after a restart' 60 both_sessions
bigger() {
    iscsiadm -m session --rescan
    sleep 2
    multipathd resize map $map1
    sleep 2
    test "$(blockdev --getsize64 /dev/mapper/$map1)" = $((384 << 20))
}
soon 'a bigger disk after rescan and resize' 60 bigger

multipath -F
try 'logout' iscsiadm -m node --logoutall=all
dmesg > /run/dmesg
echo "seen    errors that the kernel told of single paths: $(grep -c 'error, dev sd' /run/dmesg); the kernel leaves out some of many"
grep 'error, dev dm-' /run/dmesg
try 'no I/O error of a map' sh -c '! grep "I/O error, dev dm-" /run/dmesg'
echo 'the host has ended'
sync
echo o > /proc/sysrq-trigger
sleep 5
