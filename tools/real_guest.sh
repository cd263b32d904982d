#!/usr/bin/env bash
# Boots Linux in QEMU on a disk that bindings/vhost-user-blk serves, and compares the disk with what the guest wrote.
#
# usage: tools/real_guest.sh [--install] [--list] [--keep] [--write] [--help] [VARIANT..]
#
# --install installs the packages that it needs, by apt-get, --list prints the variants, and --keep keeps the files of
# each run. --write puts the line of each variant that was ok into docs/real_guest.txt, with the day and the versions of
# QEMU and Linux, in place of its line before. Without a VARIANT it runs all. Each prints one line: its name, ok, FAILED
# or SLOW, the seconds, and what the back end served. The status is 0 if all are ok, 1 if one failed, 3 if a package,
# which is named, or memory is missing, and 4 if none failed but one was too slow. More variants run only if they are
# named: quick does a part of the work of default, two-queues and move in 3 GiB of memory, soak works for
# REAL_GUEST_SOAK seconds (an hour by default) behind a lazy IOMMU and watches the memory and the descriptors of the
# back end, and qemu, qemu-lazy, qemu-move and qemu-quick have QEMU's own device in place of ours.
#
# The guest is Debian's kernel with an initial RAM disk of busybox, made here: tools/real_guest_init.sh is its first
# process. QEMU emulates the processor, so no KVM is needed.
#
# VHOST_USER_BLK names the program (without it cargo builds it), REAL_GUEST_WORDS has more options for it, as --direct
# or --aio threads, QEMU names QEMU, and REAL_GUEST_SECONDS is how long a guest may take. A guest that waits for what
# does not come fails before that, and one that is only slow does not fail.
#
# QEMU 7.2 seems to forget some pages that emulated processors wrote, each time it looks for such pages while a guest
# moves: with QEMU's own device the guest crashed, too, and with QEMU 10.0 it did not. So QEMU looks once before the
# end, and copies slowly meanwhile (move_by).
set -u
QEMU=${QEMU:-qemu-system-x86_64}
TOP=$(cd "$(dirname "${BASH_SOURCE[0]}")/.." && pwd)
LIMIT=${REAL_GUEST_SECONDS:-900}
HUGE=/sys/kernel/mm/hugepages/hugepages-2048kB
# A guest waits if it said nothing for so many seconds, and wanted a processor for less than a tenth of them. It runs in
# circles if it said nothing while it had a processor for so many seconds: a boot takes 8 of one of 2.5 GHz.
WAITING=30
CIRCLING=45
PACKAGES=(qemu-system-x86 linux-image-amd64 busybox-static e2fsprogs librust-libc-dev)
# The disk has 64 MiB and 3 sectors, and its file has 100 bytes more, which are no part of it.
SECTORS=$(((64 << 11) + 3))
SIZE=$((SECTORS * 512))
PATTERN_SIZE=$((4 << 20))
HALF=$((32 << 20))

# A variant: what the guest does, the words of the device, those of the back end, how the back end is ended meanwhile,
# how the guest runs its IOMMU, if it has one, by which way it moves to another QEMU, for how long it works, the words
# of its memory, and whether that is large.
variant() {
    work=full device="" backend="" ending="" queues=1 ops=40 files=6 iommu="" moving="" soak="" ram="" is_large=""
    case $1 in
    default) ;;
    quick) work=quick queues=2 backend="--queues 2" ops=6 files=1 is_large=1 ;;
    qemu-quick) device=qemu work=quick queues=2 ops=6 files=1 is_large=1 ;;
    no-event-idx) device=event_idx=off ;;
    no-indirect) device=indirect_desc=off ;;
    packed) device=packed=on ;;
    packed-no-event-idx) device=packed=on,event_idx=off ops=10 files=2 ;;
    packed-no-indirect) device=packed=on,indirect_desc=off ops=10 files=2 ;;
    packed-strict) device=packed=on iommu=strict backend="--iotlb-limit 64" ops=10 files=2 ;;
    packed-move) device=packed=on work=move ops=4 ;;
    queue-16) device=queue-size=16 ;;
    queue-256) device=queue-size=256 ;;
    queue-1024) device=queue-size=1024 ;;
    two-queues) queues=2 backend="--queues 2" ;;
    huge-pages) ram=,hugetlb=on,hugetlbsize=2M ops=10 files=2 ;;
    read-only) work=read backend=--read-only ;;
    no-flush) backend=--write-through ;;
    sigterm) work=load ending=TERM ;;
    sigkill) work=load ending=KILL ;;
    two-queues-sigkill) work=load ending=KILL queues=2 backend="--queues 2" ;;
    packed-sigterm) device=packed=on work=load ending=TERM ;;
    packed-sigkill) device=packed=on work=load ending=KILL ;;
    grow) work=grow ops=10 files=2 ;;
    qemu) device=qemu ;;
    qemu-lazy) device=qemu iommu=lazy ops=10 files=2 ;;
    qemu-move) device=qemu work=move moving="" ops=4 ;;
    strict-8 | lazy-8) iommu=${1%-8} backend="--iotlb-limit 8" ops=10 files=2 ;;
    strict-64 | lazy-64) iommu=${1%-64} backend="--iotlb-limit 64" ops=10 files=2 ;;
    strict | lazy) iommu=$1 ops=10 files=2 ;;
    soak) work=load iommu=lazy backend="--iotlb-limit 64" ops=10 files=2 soak=${REAL_GUEST_SOAK:-3600} ;;
    move | move-file) work=move moving=${1#move} ops=4 ;;
    strict-move | strict-move-file) work=move moving=${1#strict-move} iommu=strict backend="--iotlb-limit 64" ops=4 ;;
    *) return 1 ;;
    esac
}
VARIANTS=(default no-event-idx no-indirect packed packed-no-event-idx packed-no-indirect packed-strict
    queue-16 queue-256 queue-1024 two-queues huge-pages read-only no-flush
    sigterm sigkill two-queues-sigkill packed-sigterm packed-sigkill grow
    strict-8 strict-64 strict lazy-8 lazy-64 lazy
    move move-file strict-move strict-move-file packed-move)

missing() {
    local found=()
    command -v "$QEMU" > /dev/null || found+=(qemu-system-x86)
    [ -n "$(kernel)" ] || found+=(linux-image-amd64)
    [ -x /bin/busybox ] && ! ldd /bin/busybox > /dev/null 2>&1 || found+=(busybox-static)
    [ -x /sbin/mke2fs ] && [ -x /sbin/debugfs ] || found+=(e2fsprogs)
    [ -n "${VHOST_USER_BLK:-}" ] || compgen -G "/usr/share/cargo/registry/libc-0.2*" > /dev/null || found+=(librust-libc-dev)
    echo "${found[*]}"
}

# The newest kernel that has its modules here.
kernel() {
    local file
    while read -r file; do
        if [ -d "/lib/modules/${file#/boot/vmlinuz-}" ]; then
            echo "$file"
            return
        fi
    done < <(printf '%s\n' /boot/vmlinuz-*-amd64 | sort -rV)
}

install_packages() {
    local root=()
    [ "$(id -u)" = 0 ] || root=(sudo)
    "${root[@]}" apt-get update -q && DEBIAN_FRONTEND=noninteractive "${root[@]}" apt-get install -q -y --no-install-recommends "${PACKAGES[@]}"
}

# A module and those that it needs, each after what it needs.
modules_of() {
    local name file
    for name in "$@"; do
        file=$(find "$MODULES" -name "${name//[-_]/[-_]}.ko*" | head -n 1)
        [ -n "$file" ] || continue
        # shellcheck disable=SC2046
        modules_of $(modinfo -F depends "$file" | tr ',' ' ')
        echo "$file"
    done
}

# An initial RAM disk: busybox, modules, mke2fs with its libraries, and the pattern that the guest writes pieces of.
build_initrd() {
    local tree=$1/root file
    mkdir -p "$tree"/{bin,sbin,dev,modules}
    cp /bin/busybox "$tree/bin/busybox"
    cp "$TOP/tools/real_guest_init.sh" "$tree/init"
    chmod 755 "$tree/init"
    for file in $(modules_of virtio_pci virtio_blk crc32c_generic ext4 | awk '!seen[$0]++'); do
        cp "$file" "$tree/modules/"
        basename "$file" >> "$tree/modules/list"
    done
    for file in /sbin/mke2fs $(ldd /sbin/mke2fs | grep -o '/[^ ]*'); do
        mkdir -p "$tree$(dirname "$file")"
        cp -L "$file" "$tree$file"
    done
    cp "$1/pattern" "$tree/pattern"
    (cd "$tree" && find . | /bin/busybox cpio -o -H newc 2> /dev/null | gzip -1) > "$1/initrd"
}

build_backend() {
    [ -n "${VHOST_USER_BLK:-}" ] && return
    "$TOP/bindings/vhost-user-blk/build" || exit 1
    VHOST_USER_BLK=${CARGO_TARGET_DIR:-$TOP/bindings/target}/release/vhost-user-blk
}

# While a guest moves, both back ends have its image, and the first one has locked it.
start_backend() {
    rm -f "$room/socket$part"
    # shellcheck disable=SC2086
    "$VHOST_USER_BLK" --socket "$room/socket$part" --image "$room/disk.img" --stats 5 ${part:+--no-lock} \
        ${iommu:+--iommu} $backend ${REAL_GUEST_WORDS:-} >> "$room/backend" 2>&1 &
    backend_pid=$!
    echo "$backend_pid" > "$room/pid"
    starts=$((starts + 1))
    for _ in $(seq 100); do
        [ -S "$room/socket$part" ] && return
        sleep 0.05
    done
    echo "the back end does not listen" >> "$room/why"
}

# Sends it a signal, and returns its status. One that has not ended after half a minute is killed.
stop_backend() {
    kill "-$1" "$backend_pid"
    for _ in $(seq 300); do
        kill -0 "$backend_pid" || break
        sleep 0.1
    done
    kill -KILL "$backend_pid"
    wait "$backend_pid"
} 2> /dev/null

start_qemu() {
    local words="console=ttyS0 quiet panic=-1 mitigations=off no_timer_check disk=vda init_on_alloc=0 work=$work size=$SECTORS ops=$ops files=$files flush=$flush"
    local disk=(-chardev "socket,id=disk,path=$room/socket$part${ending:+,reconnect=1}") place=""
    if [ -n "$iommu" ]; then
        # The device has to keep a copy of mappings of its own, and to be told what is taken back: behind a root port.
        disk=(-device "intel-iommu,device-iotlb=on" "${disk[@]}" -device "pcie-root-port,id=root,chassis=1,slot=1")
        place=,bus=root,iommu_platform=on,ats=on,disable-legacy=on
        words+=" intel_iommu=on iommu.passthrough=0 iommu.strict=$([ "$iommu" = strict ] && echo 1 || echo 0)"
    fi
    disk+=(-device "vhost-user-blk-pci,chardev=disk,num-queues=$queues$place${device:+,$device}")
    if [ "$device" = qemu ]; then
        disk=(${iommu:+-device intel-iommu,device-iotlb=on -device pcie-root-port,id=root,chassis=1,slot=1})
        disk+=(-drive "file=$room/disk.img,format=raw,if=none,id=disk,cache=writeback")
        disk+=(-device "virtio-blk-pci,drive=disk,serial=disk.img,num-queues=$queues$place")
    fi
    local memory="-machine q35,memory-backend=ram -m 256M -object memory-backend-memfd,id=ram,size=256M,share=on$ram"
    if [ -n "$is_large" ]; then
        # QEMU puts the last gibibyte of the second file at 4 GiB.
        memory="-machine q35 -m 3G -object memory-backend-memfd,id=low,size=1G,share=on -numa node,memdev=low,cpus=0"
        memory+=" -object memory-backend-memfd,id=high,size=2G,share=on -numa node,memdev=high,cpus=1"
    fi
    mkfifo "$room/in$part" "$room/monitor$part.in" "$room/monitor$part.out"
    cat "$room/monitor$part.out" > "$room/monitor$part" &
    # shellcheck disable=SC2086
    "$QEMU" -accel tcg,thread=multi $memory -smp 2 -nodefaults -no-user-config -display none \
        -chardev "pipe,id=monitor,path=$room/monitor$part" -mon chardev=monitor "$@" \
        -no-reboot -kernel "$(kernel)" -initrd "$shared/initrd" -append "$words id=disk.img" "${disk[@]}" \
        -serial stdio < "$room/in$part" >> "$room/console" 2>> "$room/qemu" &
    qemu_pid=$!
    watch_guest &
    watch_pid=$!
    exec {guest_in}> "$room/in$part"
}

# The milliseconds that QEMU had of a processor, and those and the ones for which it waited for a processor.
qemu_worked() {
    cat "/proc/$qemu_pid/task/"*/schedstat 2> /dev/null |
        awk '{ had += $1; wanted += $1 + $2 } END { printf "%d %d\n", had / 1e6, wanted / 1e6 }'
}

# Whether the back end waits for this machine's own disk, or somebody has stopped QEMU.
is_writing() {
    grep -qs '^State:[[:space:]]*D' "/proc/$(cat "$room/pid" 2> /dev/null)/status" ||
        grep -qs '^State:[[:space:]]*T' "/proc/$qemu_pid/status"
}

# Ends QEMU if its guest waits, or when its time is up. On a busy machine a guest gets little of a processor, but goes
# on wanting it; one that waits for its disk does not want it. When the time is up it has failed only if it ran in
# circles.
watch_guest() {
    local said=-1 now begun=$SECONDS quiet_since had had_then wanted wanted_then limit=$((LIMIT + ${soak:-0}))
    while sleep 1 && kill -0 "$qemu_pid" 2> /dev/null; do
        now=$(stat -c %s "$room/console")
        read -r had wanted < <(qemu_worked)
        if [ "$now" != "$said" ]; then
            said=$now had_then=$had
            quiet_since=$SECONDS wanted_then=$wanted
        elif [ $((wanted - wanted_then)) -gt $((WAITING * 100)) ] || is_writing; then
            quiet_since=$SECONDS wanted_then=$wanted
        elif [ $((SECONDS - quiet_since)) -ge "$WAITING" ] && [ -r /proc/self/schedstat ]; then
            echo "the guest waits: it said nothing for $WAITING s, and wanted no processor" >> "$room/why"
            break
        fi
        if [ $((SECONDS - begun)) -ge "$limit" ]; then
            if [ $((had - had_then)) -ge $((CIRCLING * 1000)) ]; then
                echo "the guest runs in circles: it said nothing while it had a processor for $CIRCLING s" >> "$room/why"
            else
                echo "in $limit s QEMU had a processor for $((had / 1000)) s" >> "$room/slow"
            fi
            break
        fi
    done
    kill -KILL "$qemu_pid" 2> /dev/null
}

lines_of() {
    grep -c "^$1 " "$room/console"
}

# Waits until the guest has said so many lines more that begin with a word, and returns whether it did.
wait_for_lines() {
    local wanted=$(($(lines_of "$1") + $2))
    while kill -0 "$qemu_pid" 2> /dev/null; do
        [ "$(lines_of "$1")" -ge "$wanted" ] && return 0
        sleep 0.2
    done
    return 1
}

# Ends the back end under load and starts it again, ten times, each at another moment of a request.
end_backend() {
    for _ in 1 2 3 4 5 6 7 8 9 10; do
        wait_for_lines wrote 40 || return
        sleep "0.0$((RANDOM % 90 + 10))"
        stop_backend "$ending"
        [ $((starts % 2)) = 0 ] && sleep 2
        start_backend
    done
    wait_for_lines round 1 || return
    echo enough >&"$guest_in"
}

# The back end sleeps until the guest has more requests in each ring than a turn serves.
hold_backend() {
    wait_for_line '^burst' "$room/console" || return
    [ -z "$backend_pid" ] || kill -STOP "$backend_pid"
    echo "${backend_pid:+held}" >&"$guest_in"
    wait_for_line '^waiting' "$room/console"
    [ -z "$backend_pid" ] || kill -CONT "$backend_pid"
}

# The image grows by 32 MiB under load, and the back end is told.
grow_disk() {
    wait_for_lines wrote 10 || return
    truncate -s +32M "$room/disk.img"
    kill -HUP "$backend_pid"
}

# The KiB of memory of its own that the back end has, and how many descriptors.
backend_size() {
    awk '/^RssAnon:/ { print $2 }' "/proc/$backend_pid/status"
    find "/proc/$backend_pid/fd" -type l | wc -l
}

# Lets the guest work, and says on the way what the back end has. After a tenth of the time that may not grow.
soak_guest() {
    local begun=$SECONDS first="" now
    wait_for_lines round 1 || return
    while [ $((SECONDS - begun)) -lt "$soak" ] && kill -0 "$qemu_pid" 2> /dev/null; do
        sleep 10
        now=$(backend_size | tr '\n' ' ')
        echo "$((SECONDS - begun)) s: $now" >> "$room/sizes"
        [ -n "$first" ] || [ $((SECONDS - begun)) -lt $((soak / 10)) ] || first=$now
    done
    # shellcheck disable=SC2086
    set -- $first $now
    grown="; memory of its own $1 KiB, then $3 KiB; $2 descriptors, then $4"
    [ "$3" -le $(($1 + 256)) ] && [ "$4" -le "$2" ] || echo "the back end has grown$grown" >> "$room/why"
    echo enough >&"$guest_in"
}

# Has QEMU's monitor do something.
order() {
    # This way it does not wait for a QEMU that has ended.
    echo "$*" 1<> "$room/monitor$part.in"
}

# Waits until QEMU has moved its guest away, and returns whether it did.
wait_for_move() {
    for _ in $(seq "$LIMIT"); do
        kill -0 "$qemu_pid" 2> /dev/null || return 1
        order info migrate
        sleep 1
        grep -aq 'status: completed' "$room/monitor$part" && return 0
        grep -aq 'status: failed' "$room/monitor$part" && return 1
    done
    return 1
}

# The guest moves under load: to a file, which another QEMU reads, or to another QEMU. That has a back end of its own.
move_guest() {
    local first_qemu first_watch first_backend=$backend_pid first_in=$guest_in way="unix:$room/way" incoming incoming_in
    wait_for_lines round 1 || return
    if [ "$moving" = -file ]; then
        way="exec:cat > $room/state"
        move_by "migrate -d \"$way\"" || return
        end_first "$qemu_pid" "$watch_pid" "$first_backend"
        part=2
        [ "$device" = qemu ] || start_backend
        start_qemu -incoming "exec:cat $room/state"
    else
        first_qemu=$qemu_pid first_watch=$watch_pid
        part=2
        [ "$device" = qemu ] || start_backend
        start_qemu -incoming "$way"
        incoming=$qemu_pid incoming_in=$guest_in qemu_pid=$first_qemu guest_in=$first_in part=""
        for _ in $(seq 300); do
            [ -S "$room/way" ] && break
            sleep 0.1
        done
        # shellcheck disable=SC2086
        move_by "migrate -d $way" || { kill -KILL "$incoming" $first_backend; return; }
        end_first "$first_qemu" "$first_watch" "$first_backend"
        qemu_pid=$incoming guest_in=$incoming_in part=2
    fi
    exec {first_in}>&-
    sleep 1
    # In a process of its own, which a QEMU that has ended may end.
    (echo moved >&"$guest_in") 2> /dev/null
}

# Waits for a line of a file, and returns whether it came.
wait_for_line() {
    until grep -aq "$1" "$2"; do
        kill -0 "$qemu_pid" 2> /dev/null || return 1
        [ $# = 2 ] || order "$3"
        sleep 0.3
    done
}

# The KiB of memory that QEMU has still to move.
left_to_move() {
    order info migrate
    sleep 0.2
    grep -a '^remaining ram: ' "$room/monitor$part" | tail -n 1 | sed 's/[^0-9]//g'
}

# Moves the guest this way. It reads the disk after most of its memory was copied once, and before the rest is: QEMU is
# too slow meanwhile to come to an end. Of two files it copies the larger one first.
move_by() {
    local left rest=$((64 << 10))
    [ -z "$is_large" ] || rest=$((1 << 20))
    echo moving >&"$guest_in"
    wait_for_line '^ready' "$room/console" || return
    order migrate_set_parameter max-bandwidth 32M
    order migrate_set_parameter downtime-limit 1
    order "$1"
    until left=$(left_to_move) && [ -n "$left" ] && [ "$left" -le "$rest" ]; do
        kill -0 "$qemu_pid" 2> /dev/null || return 1
    done
    order migrate_set_parameter max-bandwidth 1M
    echo filling >&"$guest_in"
    wait_for_line '^filled' "$room/console" || return
    grep -aq 'status: completed' "$room/monitor$part" && echo "the guest moved too early" >> "$room/why"
    order migrate_set_parameter downtime-limit 10000
    order migrate_set_parameter max-bandwidth 4G
    wait_for_move && return
    echo "the guest did not move" >> "$room/why"
    return 1
}

# Ends the QEMU that the guest left, and its back end.
end_first() {
    local status
    order quit
    wait "$1" 2> /dev/null
    wait "$2"
    [ -n "$3" ] || return
    kill -TERM "$3"
    wait "$3"
    status=$?
    [ "$status" = 0 ] || echo "the first back end ended with status $status" >> "$room/why"
}

# The second half of the disk is what it was, with what the guest wrote.
compare_raw() {
    cp --sparse=never "$shared/disk.img" "$room/expected"
    [ "$work" = grow ] && truncate -s "$(stat -c %s "$room/disk.img")" "$room/expected"
    grep '^wrote ' "$room/said" | while read -r _ offset len from; do
        dd if="$shared/pattern" of="$room/expected" bs=64k iflag=skip_bytes,count_bytes oflag=seek_bytes conv=notrunc \
            status=none skip="$from" seek="$offset" count="$len"
    done
    if [ "$work" = read ]; then
        cmp "$room/disk.img" "$room/expected" >> "$room/why" 2>&1
    else
        [ "$device" = qemu ] && truncate -s "$SIZE" "$room/expected"
        cmp -i "$HALF" "$room/disk.img" "$room/expected" >> "$room/why" 2>&1
    fi
}

# Each file has the pieces that the guest said last, and the file system is whole.
compare_files() {
    local count=0 name pieces offset len
    e2fsck -fn "$room/disk.img" > "$room/e2fsck" 2>&1 || echo "e2fsck found faults" >> "$room/why"
    while read -r name pieces; do
        # shellcheck disable=SC2086
        set -- $pieces
        : > "$room/file"
        while [ $# -ge 2 ]; do
            offset=$1 len=$2
            dd if="$shared/pattern" bs=64k iflag=skip_bytes,count_bytes status=none skip="$offset" count="$len" >> "$room/file"
            shift 2
        done
        rm -f "$room/dumped"
        debugfs -R "dump /$name $room/dumped" "$room/disk.img" > /dev/null 2>&1
        cmp "$room/file" "$room/dumped" >> "$room/why" 2>&1
        count=$((count + 1))
    done < <(awk '$1 == "file" { name = $2; $1 = $2 = ""; said[name] = $0 } END { for (name in said) print name said[name] }' "$room/said")
    [ "$count" -gt 0 ] || echo "the guest wrote no files" >> "$room/why"
}

# What the guest read is what the image has.
compare_reads() {
    local count=0 digest words
    while read -r words; do
        # shellcheck disable=SC2086
        set -- $words
        if [ $# = 1 ]; then
            digest=$(head -c "$SIZE" "$room/disk.img" | sha256sum)
        else
            digest=$(dd if="$room/disk.img" bs=64k iflag=skip_bytes,count_bytes status=none skip="$1" count="$2" | sha256sum)
        fi
        [ "${digest%% *}" = "${!#}" ] || echo "the guest read other bytes: $words" >> "$room/why"
        count=$((count + 1))
    done < <(sed -n 's/^sha256 //p' "$room/said")
    [ "$count" -gt 1 ] || echo "the guest read nothing" >> "$room/why"
}

# The back end served requests without an error, and made them stable as it had to.
compare_counts() {
    local said flushes syncs
    said=$(grep -a '^served' "$room/backend" | tail -n 1)
    flushes=${said% flushes*} syncs=${said% syncs*}
    flushes=${flushes##* } syncs=${syncs##* }
    grep -q ' 0 errors$' <<< "$said" || echo "the back end had errors" >> "$room/why"
    [ "$work" = read ] && return
    if [ "$flush" = 1 ]; then
        { [ "$flushes" -gt 0 ] || [ "$starts" -gt 1 ]; } && [ "$syncs" = "$flushes" ] || echo "$flushes flushes, $syncs syncs" >> "$room/why"
    else
        [ "$flushes" = 0 ] && [ "$syncs" -gt 0 ] || echo "$flushes flushes, $syncs syncs" >> "$room/why"
    fi
}

# Has the system keep huge pages for the memory of the guest, and returns whether it does.
take_huge_pages() {
    local free
    free=$(cat "$HUGE/free_hugepages" 2> /dev/null) || return
    [ "$free" -ge 128 ] && return
    huge_pages=$(cat "$HUGE/nr_hugepages")
    { echo $((huge_pages + 128 - free)) > "$HUGE/nr_hugepages"; } 2> /dev/null
    [ "$(cat "$HUGE/free_hugepages")" -ge 128 ]
}

# Has it keep as many as before.
leave_huge_pages() {
    [ -z "${huge_pages:-}" ] || echo "$huge_pages" > "$HUGE/nr_hugepages"
    huge_pages=""
} 2> /dev/null

run_variant() {
    local name=$1 starts=0 backend_pid="" qemu_pid="" watch_pid guest_in begun status
    local work device backend ending queues ops files iommu moving soak ram is_large flush=1 part="" grown=""
    variant "$name"
    if [ -n "$ram" ] && ! take_huge_pages; then
        leave_huge_pages
        printf '%-16s %-6s %4s    %s\n' "$name" "-" "" "left out: this machine has no huge pages for it"
        return 0
    fi
    # While it moves, both files of both sides are read whole.
    if [ -n "$is_large" ] && [ "$(awk '/^MemAvailable/ { print $2 }' /proc/meminfo)" -lt $((7 << 20)) ]; then
        printf '%-16s %-6s %4s    %s\n' "$name" "-" "" "left out: it needs 7 GiB of memory"
        return 3
    fi
    [ "$name" = no-flush ] && flush=0
    room=$shared/$name
    mkdir -p "$room"
    : > "$room/why"
    : > "$room/console"
    cp --sparse=never "$shared/disk.img" "$room/disk.img"
    # QEMU's own device takes a part of a sector for a whole one.
    [ "$device" = qemu ] && truncate -s "$SIZE" "$room/disk.img"
    begun=$(date +%s.%N)
    [ "$device" = qemu ] || start_backend
    start_qemu
    [ -n "$ending" ] && end_backend
    [ -n "$soak" ] && soak_guest
    [ "$work" = grow ] && grow_disk
    [ "$work" = quick ] && hold_backend
    [ "$work" = move ] || [ "$work" = quick ] && move_guest
    wait "$qemu_pid" 2> /dev/null
    status=$?
    exec {guest_in}>&-
    wait "$watch_pid"
    qemu_pid="" watch_pid=""
    [ "$status" = 0 ] || [ -s "$room/why" ] || [ -s "$room/slow" ] ||
        echo "QEMU ended with status $status: $(tail -n 1 "$room/qemu")" >> "$room/why"
    if [ -n "$backend_pid" ]; then
        stop_backend TERM
        status=$?
        backend_pid=""
        [ "$status" = 0 ] || echo "the back end ended with status $status" >> "$room/why"
    fi
    leave_huge_pages
    tr -d '\r' < "$room/console" > "$room/said"
    compare
    report
}

# Whether the guest ended as it had to, and the disk is what it has to be. If it was ended, only what it said counts.
compare() {
    if [ -s "$room/slow" ] || [ -s "$room/why" ]; then
        grep -a '^guest FAILED' "$room/said" >> "$room/why"
        return
    fi
    grep -q '^guest ok' "$room/said" || echo "the guest did not end: $(grep -a '^guest' "$room/said" | tail -n 1)" >> "$room/why"
    [ "$starts" = 0 ] || compare_counts
    compare_raw
    case $work in
    read) compare_reads ;;
    move) ;;
    *) compare_files ;;
    esac
    case $work in
    move | quick) grep -q '^moved ' "$room/said" || echo "the guest did not move" >> "$room/why" ;;
    esac
    if [ -n "$iommu" ] && [ "$device" != qemu ]; then
        grep -aq '^I/O table: [1-9][0-9]* misses' "$room/backend" || echo "no mapping was asked for" >> "$room/why"
    fi
    case $device in
    packed=on*) grep -aq '^features: .*RING_PACKED' "$room/backend" || echo "no ring was packed" >> "$room/why" ;;
    esac
    if [ -n "$ending" ]; then
        [ "$starts" = 11 ] || echo "the back end was started $starts times, not 11" >> "$room/why"
        grep -aq '^features: .*INFLIGHT_SHMFD' "$room/backend" || echo "no region was kept" >> "$room/why"
        # The driver was given a request that it does not have out.
        grep -a 'is not a head\|out of range' "$room/said" >> "$room/why"
    fi
    if [ "$starts" = 2 ] && [ -z "$ending" ]; then
        grep -aq '^log: [1-9]' "$room/backend" || echo "no page was logged" >> "$room/why"
    fi
}

# Puts a line into the file of results, in place of that of the same variant.
write_line() {
    local file=$TOP/docs/real_guest.txt version
    version=$("$QEMU" --version | sed -n 's/^QEMU emulator version \([0-9.]*\).*/\1/p')
    {
        grep -v "^$name " "$file" 2> /dev/null
        echo "$1; $(LC_ALL=C date -u '+%-d %B %Y'), QEMU $version, Linux $(basename "$MODULES")"
    } | LC_ALL=C sort > "$file.new" && mv "$file.new" "$file"
}

report() {
    local took said verdict=ok status=0 word line
    took=$(awk -v begun="$begun" -v now="$(date +%s.%N)" 'BEGIN { printf "%.0f", now - begun }')
    [ -s "$room/slow" ] && verdict=SLOW status=4
    [ -s "$room/why" ] && verdict=FAILED status=1
    said=$(grep -a '^served' "$room/backend" 2> /dev/null | tail -n 1)
    [ "$starts" -lt 2 ] || said="$starts back ends, of which the last $said"
    for word in 'I/O table' log; do
        said+=$(grep -a "^$word: " "$room/backend" 2> /dev/null | tail -n 1 | sed 's/^/; /')
    done
    said+=$grown
    line=$(printf '%-16s %-6s %4s s  %s' "$name" "$verdict" "$took" "$said")
    echo "$line"
    if [ "$status" = 0 ]; then
        [ -z "$write" ] || write_line "$line"
        return
    fi
    cat "$room/slow" "$room/why" 2> /dev/null | sed 's/^/    /'
    grep -av '^wrote \|^file \|^sha256 ' "$room/said" | tail -n 5 | sed 's/^/    console: /'
    tail -n 5 "$room/backend" 2> /dev/null | sed 's/^/    back end: /'
    return "$status"
}

# shellcheck disable=SC2317
clean_up() {
    # shellcheck disable=SC2086
    kill -KILL ${watch_pid:-} ${qemu_pid:-} ${backend_pid:-} 2> /dev/null
    leave_huge_pages
    [ -n "$keep" ] || rm -rf "$shared"
}

# The lines at the top of this file.
usage() {
    sed -n '2,/^set/{/^#/p}' "${BASH_SOURCE[0]}" | sed 's/^# \?//'
}

main() {
    local keep="" write="" names=() word failed=0 left_out=0 status name
    for word in "$@"; do
        case $word in
        --install) install_packages || exit 1 ;;
        --list) printf '%s\n' "${VARIANTS[@]}"; exit 0 ;;
        --keep) keep=1 ;;
        --write) write=1 ;;
        --help | -h) usage; exit 0 ;;
        -*) echo "$word is no option"; usage; exit 2 ;;
        *) names+=("$word") ;;
        esac
    done
    [ ${#names[@]} -gt 0 ] || names=("${VARIANTS[@]}")
    for name in "${names[@]}"; do
        (variant "$name") || { echo "no such variant: $name"; exit 2; }
    done
    local wanted
    wanted=$(missing)
    if [ -n "$wanted" ]; then
        echo "packages of Debian are missing: $wanted (--install gets them)"
        exit 3
    fi
    case " ${names[*]} " in
    *" qemu"*) ;;
    *) build_backend ;;
    esac
    shared=$(mktemp -d "${TMPDIR:-/tmp}/real_guest.XXXXXX")
    [ -z "$keep" ] || echo "files: $shared"
    trap clean_up EXIT
    MODULES=/lib/modules/$(basename "$(kernel)" | sed 's/^vmlinuz-//')
    head -c "$PATTERN_SIZE" /dev/urandom > "$shared/pattern"
    head -c $((SIZE + 100)) /dev/urandom > "$shared/disk.img"
    build_initrd "$shared"
    for name in "${names[@]}"; do
        run_variant "$name"
        status=$?
        case $status in
        0) ;;
        3 | 4) left_out=$status ;;
        *) failed=1 ;;
        esac
    done
    [ "$failed" = 0 ] || exit "$failed"
    exit "$left_out"
}

main "$@"
