#!/bin/busybox sh
# shellcheck shell=dash disable=SC2154,SC3028
# The first process of the guest that tools/real_guest.sh boots. It uses its disk, says on the console what it writes,
# and ends with a line "guest ok" or "guest FAILED: why". The kernel hands on these words of its command line:
#   disk=NAME    the disk's name in /dev
#   work=full    raw accesses and files, and the driver and the device are taken away and found again
#   work=read    the disk is only read
#   work=load    accesses and files until a line comes on the console
#   work=grow    raw accesses and files, and the same in sectors that come while it works
#   work=move    accesses while the guest moves, and memory that the disk alone fills meanwhile
#   work=quick   raw accesses, files, more reads at once than a turn serves, and the same while the guest moves, with
#                memory above 4 GiB
#   size=N id=TEXT           the disk's sectors and its name
#   ops=N files=N            how many accesses each of the four workers makes, and how many files it writes
#   flush=1      the disk has a cache to flush
# Of the disk the first half is for files. In the second half each worker has AREA bytes of its own.
/bin/busybox mkdir -p /proc /sys /tmp /mnt /usr/bin /sbin
/bin/busybox --install -s /bin
export PATH=/sbin:/bin
mount -t proc proc /proc
mount -t sysfs sys /sys
mount -t devtmpfs dev /dev
mount -t tmpfs tmp /tmp

WORKERS="0 1 2 3"
AREA=$((4 << 20))
HALF=$((32 << 20))
PART=$((8 << 20))
PATTERN=$(stat -c %s /pattern)

fail() {
    echo "guest FAILED: $*"
    dmesg | tail -n 15
    sync &
    sleep 2
    poweroff -f
}

# dd of LEN bytes: FILE FROM -> FILE TO. Further words are dd's.
move() {
    dd if="$1" of="$3" bs="$5" count=1 skip="$2" seek="$4" status=none conv=notrunc \
        iflag="skip_bytes,fullblock$6" oflag="seek_bytes$7"
}

same() {
    cmp -s "$1" "$2" || fail "$3"
}

wait_for_disk() {
    for _ in $(seq 200); do
        [ -b "/dev/$disk" ] && [ -e "/sys/block/$disk/size" ] && return
        usleep 100000
    done
    fail "no disk $disk"
}

# A plan of accesses: kind, offset in the area, length, offset in the pattern. Lengths and offsets are whole sectors.
plan() {
    awk -v seed="$1" -v count="$2" -v area=$((AREA / 512)) -v pattern=$((PATTERN / 512)) 'BEGIN {
        srand(seed)
        split("write write_direct read read_direct write read_direct", kinds, " ")
        for (i = 0; i < count; i++) {
            most = rand() < 0.2 ? 1024 : rand() < 0.5 ? 8 : 64
            len = 1 + int(rand() * most)
            print kinds[1 + int(rand() * 6)], 512 * int(rand() * (area - len)), 512 * len, 512 * int(rand() * (pattern - len))
        }
    }'
}

# One worker makes the accesses of a plan in its area, and keeps beside it what it has to find.
work_raw() {
    local start=$((HALF + $1 * AREA)) dev="/dev/$disk" shadow="/tmp/shadow.$1"
    plan "$2" "$ops" > "/tmp/plan.$1"
    while read -r kind offset len from; do
        case $kind in
        write*)
            local direct=
            [ "$kind" = write_direct ] && direct=,direct
            # It says so before it writes: in what it said last the disk may have either bytes if the guest ends here.
            echo "wrote $((start + offset)) $len $from"
            move /pattern "$from" "$dev" $((start + offset)) "$len" "" "$direct" || fail "$kind of $len at $offset"
            move /pattern "$from" "$shadow" "$offset" "$len" ;;
        read*)
            local direct=
            [ "$kind" = read_direct ] && direct=,direct
            rm -f "/tmp/got.$1" "/tmp/want.$1"
            move "$dev" $((start + offset)) "/tmp/got.$1" 0 "$len" "$direct" || fail "$kind of $len at $offset"
            move "$shadow" "$offset" "/tmp/want.$1" 0 "$len"
            same "/tmp/got.$1" "/tmp/want.$1" "$kind of $len at $offset of worker $1 has other bytes" ;;
        esac
    done < "/tmp/plan.$1"
}

# What a worker's area has, from the disk and not from the cache.
check_areas() {
    sync
    echo 3 > /proc/sys/vm/drop_caches
    for worker in $WORKERS; do
        rm -f /tmp/area
        dd if="/dev/$disk" of=/tmp/area bs=256k count=$((AREA >> 18)) iflag=skip_bytes skip=$((HALF + worker * AREA)) status=none
        same /tmp/area "/tmp/shadow.$worker" "$1: the area of worker $worker has other bytes"
    done
}

take_areas() {
    for worker in $WORKERS; do
        dd if="/dev/$disk" of="/tmp/shadow.$worker" bs=256k count=$((AREA >> 18)) iflag=skip_bytes \
            skip=$((HALF + worker * AREA)) status=none || fail "reading the area of worker $worker"
    done
}

raw() {
    local pids=""
    for worker in $WORKERS; do
        work_raw "$worker" "$1$worker" &
        pids="$pids $!"
    done
    for pid in $pids; do
        wait "$pid" || fail "a worker ended with status $?"
    done
}

# One worker writes files of pieces of the pattern, and says what each has.
write_files() {
    mkdir -p "/mnt/$1"
    for file in $(seq "$files"); do
        local name="$1/$2$file" said=""
        : > "/mnt/$name"
        for _ in 1 2 3; do
            local from=$(((RANDOM * 32768 + RANDOM) % (PATTERN - 262144))) len=$((1 + RANDOM * 8))
            dd if=/pattern bs="$len" count=1 skip="$from" iflag=skip_bytes,fullblock status=none >> "/mnt/$name" || fail "writing $name"
            said="$said $from $len"
        done
        echo "file $name$said"
    done
}

files() {
    mount -t ext4 "/dev/$disk" /mnt || fail "mount"
    local pids=""
    for worker in $WORKERS; do
        write_files "$worker" "$1" &
        pids="$pids $!"
    done
    for pid in $pids; do
        wait "$pid" || fail "a worker ended with status $?"
    done
    sync
    (cd /mnt && find . -type f ! -path './lost+found/*' -exec sha256sum {} + > /tmp/sums)
    umount /mnt || fail "umount"
}

check_files() {
    echo 3 > /proc/sys/vm/drop_caches
    mount -t ext4 "/dev/$disk" /mnt || fail "$1: mount"
    (cd /mnt && sha256sum -c -s /tmp/sums) || fail "$1: a file has other bytes"
    umount /mnt || fail "$1: umount"
}

make_files() {
    # The shell would take busybox' own.
    /sbin/mke2fs -q -F -t ext4 "/dev/$disk" $((HALF >> 20))M > /tmp/mke2fs 2>&1 || fail "mke2fs: $(cat /tmp/mke2fs)"
}

check_disk() {
    local sys="/sys/block/$disk"
    [ "$(cat "$sys/size")" = "$size" ] || fail "the disk has $(cat "$sys/size") sectors, not $size"
    [ "$(cat "$sys/serial")" = "$id" ] || fail "the disk is called $(cat "$sys/serial"), not $id"
    [ "$(cat "$sys/ro")" = "$1" ] || fail "ro is $(cat "$sys/ro")"
    local cache="write through"
    [ "$flush" = 1 ] && cache="write back"
    [ "$(cat "$sys/queue/write_cache")" = "$cache" ] || fail "the cache is $(cat "$sys/queue/write_cache")"
    echo "queues $(find "$sys/mq" -mindepth 1 -maxdepth 1 | wc -l)"
}

# The driver lets go of the device and takes it again. Then the PCI device is taken away and found again.
bind_again() {
    local virtio
    virtio=$(basename "$(readlink "/sys/block/$disk/device")")
    local pci
    pci=$(basename "$(readlink -f "/sys/bus/virtio/devices/$virtio/..")")
    echo "$virtio" > /sys/bus/virtio/drivers/virtio_blk/unbind
    [ -e "/sys/block/$disk" ] && fail "the disk is there without a driver"
    echo "$virtio" > /sys/bus/virtio/drivers/virtio_blk/bind
    wait_for_disk
    check_areas "bound again"
    echo 1 > "/sys/bus/pci/devices/$pci/remove"
    [ -e "/sys/block/$disk" ] && fail "the disk is there without its device"
    echo 1 > /sys/bus/pci/rescan
    wait_for_disk
    check_areas "found again"
}

full() {
    check_disk 0
    take_areas
    # The last sector.
    move /pattern 0 "/dev/$disk" $(((size - 1) * 512)) 512 "" ,direct || fail "the last sector"
    echo "wrote $(((size - 1) * 512)) 512 0"
    raw 1
    check_areas "after accesses"
    dd if=/pattern of="/dev/$disk" bs=4096 count=1 oflag=seek_bytes seek=$((HALF + 4 * AREA)) conv=notrunc,fsync status=none || fail "fsync"
    echo "wrote $((HALF + 4 * AREA)) 4096 0"
    echo "stage files"
    make_files
    files a
    check_files "mounted again"
    echo "stage bind"
    bind_again
    check_files "found again"
    files b
    raw 2
    check_areas "after all"
    check_files "after all"
}

read_only() {
    check_disk 1
    move /pattern 0 "/dev/$disk" 0 512 "" ,direct 2> /dev/null && fail "a write to a disk that is only read was done"
    echo 3 > /proc/sys/vm/drop_caches
    echo "sha256 $(head -c $((size * 512)) "/dev/$disk" | sha256sum | cut -d' ' -f1)"
    plan 1 "$ops" > /tmp/plan
    while read -r _ offset len _; do
        echo "sha256 $offset $len $(dd if="/dev/$disk" bs="$len" count=1 skip="$offset" iflag=skip_bytes,fullblock,direct status=none | sha256sum | cut -d' ' -f1)"
    done < /tmp/plan
}

# Load while the back end ends and comes again: it ends by a line on the console.
load() {
    check_disk 0
    take_areas
    make_files
    (read -r _ < /dev/console; touch /tmp/enough) &
    local round=0
    while [ ! -e /tmp/enough ]; do
        round=$((round + 1))
        raw "$round"
        check_areas "round $round"
        [ "$((round % 3))" = 1 ] && files a && check_files "round $round"
        echo "round $round"
    done
}

# More reads at once, of each queue, than the back end serves in a turn. It sleeps meanwhile, if there is one.
burst() {
    local cpu number pids="" from how
    echo "burst"
    read -r how < /dev/console
    for number in $(seq 80); do
        for cpu in 1 2; do
            from=$(((2 * number + cpu) * 4096))
            taskset "$cpu" dd if="/dev/$disk" of="/tmp/burst.$number.$cpu" bs=4096 count=1 skip=$((HALF + from)) \
                iflag=skip_bytes,direct status=none &
            pids="$pids $!"
        done
    done
    until [ "$how" != held ] || [ "$(awk '{ print $1 }' "/sys/block/$disk/inflight")" = 160 ]; do
        usleep 100000
    done
    echo "waiting"
    for pid in $pids; do
        wait "$pid" || fail "a read of the burst ended with status $?"
    done
    for number in $(seq 80); do
        for cpu in 1 2; do
            from=$(((2 * number + cpu) * 4096))
            rm -f /tmp/want
            move /tmp/shadow.0 "$from" /tmp/want 0 4096
            same "/tmp/burst.$number.$cpu" /tmp/want "read $number of the burst has other bytes"
        done
    done
    rm /tmp/burst.*
}

# A shorter `full`, a burst, and a move with the memory that the disk fills above 4 GiB.
quick() {
    check_disk 0
    take_areas
    raw 1
    check_areas "after accesses"
    burst
    make_files
    files a
    check_files "mounted again"
    move_away
}

# How many pages of files lie above 4 GiB.
pages_above() {
    awk '/^Node/ { is_above = $4 == "Normal" }
        is_above && /nr_zone_(in)?active_file/ { sum += $2 }
        END { print sum + 0 }' /proc/zoneinfo
}

# The disk grows meanwhile. The part that comes is used like the second half.
grow() {
    check_disk 0
    take_areas
    make_files
    raw 1
    files a
    echo "stage grow"
    local now=$size
    for _ in $(seq 300); do
        now=$(cat "/sys/block/$disk/size")
        [ "$now" = "$size" ] || break
        usleep 100000
    done
    [ "$now" = $((size + 65536)) ] || fail "the disk has $now sectors"
    check_areas "after it grew"
    # shellcheck disable=SC2017
    HALF=$(((size + 7) / 8 * 4096))
    take_areas
    raw 2
    check_areas "in the new part"
    check_files "after it grew"
}

# Load until the guest has moved, and memory that the disk alone fills while it moves: a back end that forgets to mark
# what it writes leaves other bytes there. Three lines come on the console: the guest is about to move, most of its
# memory was copied, and it has moved.
move_away() {
    AREA=$((1 << 20))
    check_disk 0
    take_areas
    head -c "$PART" "/dev/$disk" > /tmp/part
    { read -r _; touch /tmp/moving; read -r _; touch /tmp/filling; read -r _; touch /tmp/moved; } < /dev/console &
    (
        local round=0
        while [ ! -e /tmp/is_over ]; do
            round=$((round + 1))
            raw "$round"
            echo "round $round"
        done
    ) &
    local load=$!
    # The memory of the second processor, if it has some of its own, lies above 4 GiB first.
    taskset -p 2 $$ > /dev/null
    wait_for_file /tmp/moving
    # The kernel forgets what it read of a disk that nobody has open.
    exec 9< "/dev/$disk"
    # The pages that are free now have other bytes, and the processor writes them no more: the kernel clears no new
    # page.
    echo 3 > /proc/sys/vm/drop_caches
    dd if=/dev/zero of=/tmp/fill bs=1M count=24 status=none
    rm /tmp/fill
    echo "ready"
    wait_for_file /tmp/filling
    head -c "$PART" "/dev/$disk" > /dev/null
    [ "$work" != quick ] || [ "$(pages_above)" -gt 1000 ] || fail "only $(pages_above) pages lie above 4 GiB"
    echo "filled"
    wait_for_file /tmp/moved
    echo "moved $(cut -d' ' -f1 /proc/uptime)"
    # From memory, and not from the disk.
    cmp -s -n "$PART" "/dev/$disk" /tmp/part ||
        fail "$(cmp -l -n "$PART" "/dev/$disk" /tmp/part | awk '{ print int(($1 - 1) / 4096) }' | uniq | wc -l) pages of memory have other bytes"
    touch /tmp/is_over
    wait "$load" || fail "the load ended with status $?"
    check_areas "after it moved"
}

wait_for_file() {
    while [ ! -e "$1" ]; do
        usleep 100000
    done
}

main() {
    # Lines that come on the console do not appear amid those that are written there.
    stty -echo < /dev/console
    while read -r module; do
        insmod "/modules/$module" || fail "insmod $module"
    done < /modules/list
    wait_for_disk
    echo "guest up $(cut -d' ' -f1 /proc/uptime)"
    case $work in
    full) full ;;
    read) read_only ;;
    load) load ;;
    grow) grow ;;
    move) move_away ;;
    quick) quick ;;
    *) fail "no such work: $work" ;;
    esac
    sync
    echo "guest ok $(cut -d' ' -f1 /proc/uptime)"
    # The console's last bytes have to leave.
    usleep 300000
    poweroff -f
}

main
