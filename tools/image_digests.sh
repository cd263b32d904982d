#!/bin/sh
# Prints the SHA-256 of each part of a kernel image as a loader leaves it in memory, taken from the file alone: of an
# ELF file by readelf and dd, of a bzImage by dd from the end of its setup sectors on. Lines of crates/vmmem_boot end in
# the same digests.
# usage: tools/image_digests.sh IMAGE
set -eu
image=$1
# So many bytes of the image from a place on, and so many zeros.
part() {
    dd if="$image" iflag=skip_bytes,count_bytes skip="$1" count="$2" bs=65536 status=none
    head -c "$3" /dev/zero
}
if readelf -h "$image" >/dev/null 2>&1; then
    readelf -lW "$image" | awk '$1 == "LOAD" { print $2, $5, $6 }' | while read -r place count size; do
        if [ "$((size))" -gt 0 ]; then
            part "$((place))" "$((count))" "$((size - count))" | sha256sum | cut -d' ' -f1
        fi
    done
else
    sectors=$(od -An -tu1 -j497 -N1 "$image" | tr -d ' ')
    [ "$sectors" -eq 0 ] && sectors=4
    start=$(((sectors + 1) * 512))
    part "$start" "$(($(stat -Lc %s "$image") - start))" 0 | sha256sum | cut -d' ' -f1
fi
