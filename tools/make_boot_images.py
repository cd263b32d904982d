#!/usr/bin/env python3
"""Writes the small kernel images that crates/vmmem_boot is run on: an ELF file and a bzImage, from this text alone.

usage: tools/make_boot_images.py DIR
"""

import struct
import sys


def text(count, seed):
    """So many bytes that tell their place."""
    return bytes((seed + 7 * i) % 251 for i in range(count))


def elf():
    """Three segments and a note. One segment is cut by the end of the first mebibyte, where two regions touch, and one
    has a rest to be zeroed."""
    segments = [
        # (place in the file, guest address, bytes from the file, bytes in memory)
        (0x1000, 0x1000, 0x300, 0x300),
        (0x2000, 0xFFFC0, 0x180, 0x180),
        (0x3000, 0x200000, 0x40, 0x3000),
    ]
    note = struct.pack("<III4sQ", 4, 8, 18, b"Xen\0", 0x200010)
    headers = b"".join(
        struct.pack("<IIQQQQQQ", 1, 7, place, 0xFFFF800000000000 + addr, addr, count, size, 0x1000)
        for place, addr, count, size in segments
    )
    headers += struct.pack("<IIQQQQQQ", 4, 4, 0x3100, 0, 0, len(note), len(note), 4)
    head = b"\x7fELF\x02\x01\x01" + bytes(9)
    head += struct.pack("<HHIQQQIHHHHHH", 2, 62, 1, 0x1000, 64, 0, 0, 64, 56, 4, 0, 0, 0)
    image = bytearray(0x3100 + len(note))
    image[: len(head + headers)] = head + headers
    for seed, (place, _, count, _) in enumerate(segments):
        image[place : place + count] = text(count, seed)
    image[0x3100:] = note
    return bytes(image)


def bzimage():
    """A boot sector, one sector of setup code, and a relocatable kernel of 1,000 bytes that needs 4,096 to run."""
    image = bytearray(1024) + text(1000, 3)
    image[0x1F1] = 1
    image[0x201] = 0x66
    image[0x202:0x206] = b"HdrS"
    struct.pack_into("<H", image, 0x206, 0x20F)
    image[0x211] = 1
    struct.pack_into("<I", image, 0x214, 0x100000)
    struct.pack_into("<I", image, 0x22C, 0x7FFFFFFF)
    struct.pack_into("<I", image, 0x230, 0x1000)
    image[0x234] = 1
    struct.pack_into("<Q", image, 0x258, 0x100000)
    struct.pack_into("<I", image, 0x260, 0x1000)
    return bytes(image)


def main():
    folder = sys.argv[1]
    for name, image in ("small.elf", elf()), ("small.bzimage", bzimage()):
        with open(f"{folder}/{name}", "wb") as file:
            file.write(image)


main()
