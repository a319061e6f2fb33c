#!/bin/busybox sh
# The first and only program of the machine that bench/beside_lio.py boots: sets Linux' own target (LIO) up, serves by it or by arrayd in
# turn as /runs says, and tells of each run what came of it, by the second serial port. A line of /runs has who serves, and what
# bench/client.rs is told behind the unit; what is told has who served, the commands a second, and of before and behind the run what
# /proc/uptime has: the seconds since the boot, and those of idle processors. The kernel's command line has the size of a unit: mib=N.
set -e
/bin/busybox --install -s /bin
export PATH=/bin
mount -t proc proc /proc
mount -t sysfs sysfs /sys
mount -t devtmpfs dev /dev
exec < /dev/null > /dev/ttyS1 2>&1
trap 'poweroff -f' EXIT
while read -r module; do insmod "/modules/$module"; done < /modules/order
[ -d /sys/kernel/config/target ] || mount -t configfs config /sys/kernel/config
mkdir /memory
mount -t tmpfs -o size=100% memory /memory
ifconfig lo 127.0.0.1 up

# LIO without names or passwords: unit 0 a file behind the page cache, unit 1 memory
address=127.0.0.1 port=3260 lio=iqn.2000-01.test:lio config=/sys/kernel/config/target
bytes=$((mib << 20))
for file in lio arrayd before; do
    [ $file = before ] && [ ! -e /before ] || dd if=/dev/zero of=/memory/$file bs=1M count="$mib" 2> /memory/dd
done
mkdir -p $config/core/fileio_0/file $config/core/rd_mcp_0/memory
echo "fd_dev_name=/memory/lio,fd_dev_size=$bytes,fd_buffered_io=1" > $config/core/fileio_0/file/control
echo "rd_pages=$((bytes / 4096))" > $config/core/rd_mcp_0/memory/control
group=$config/iscsi/$lio/tpgt_1
mkdir -p $group/lun/lun_0 $group/lun/lun_1 $group/np/$address:$port
echo 1 > $config/core/fileio_0/file/enable
echo 1 > $config/core/rd_mcp_0/memory/enable
ln -s $config/core/fileio_0/file $group/lun/lun_0/file
ln -s $config/core/rd_mcp_0/memory $group/lun/lun_1/memory
echo 0 > $group/attrib/authentication
echo 1 > $group/attrib/generate_node_acls
echo 1 > $group/attrib/cache_dynamic_acls
echo 0 > $group/attrib/demo_mode_write_protect
echo 1 > $group/enable

# an arrayd, told and read by pipes
mkfifo /memory/in /memory/out
begin() {
    "/$1" --port 3270 "/memory/$1" < /memory/in > /memory/out &
    exec 3> /memory/in 4< /memory/out
    if ! read -r line <&4 || [ "$line" != "arrayd: ready" ]; then
        echo "$1 does not get ready"
        exit 1
    fi
}
end() {
    echo quit >&3
    wait $!
    exec 3>&- 4<&-
}

echo "the machine is up: Linux $(uname -r)"
# who, then what the client is told
run() {
    local who=$1 before behind rate
    shift
    read -r before < /proc/uptime
    rate=$(/client "$@")
    read -r behind < /proc/uptime
    echo "$who $rate $before $behind"
}
while read -r who words <&5; do
    case $who in
        fileio) run $who $address:$port $lio 0 $words ;;
        rd_mcp) run $who $address:$port $lio 1 $words ;;
        *)
            begin "$who"
            run "$who" $address:3270 iqn.2000-01.test:array 0 $words
            end
            ;;
    esac
done 5< /runs
echo ended
