#!/usr/bin/env python3
"""Prints what `vmmem_migrate demo --verify` prints, from its options alone: the rounds as their writes are counted, the
bytes of the stream as its format says, and the SHA-256 of the blocks that the writes leave.

usage: tools/migration_rounds.py SIZE PAGE_SIZE THREADS RATE SEED MAX_ROUNDS STOP_BELOW
"""

import hashlib
import sys

MASK = 2**64 - 1
LOW, HOLE = 2**20, 3 * 2**30
SPEED = 2**27  # bytes a second, where writes are counted
MOST = 2**20  # bytes of pages in a batch


def rotated(x, k):
    return (x << k | x >> (64 - k)) & MASK


class Xoshiro256PlusPlus:
    def __init__(self, seed):
        self.state = []
        for _ in range(4):
            seed = (seed + 0x9E3779B97F4A7C15) & MASK
            z = seed
            z = ((z ^ z >> 30) * 0xBF58476D1CE4E5B9) & MASK
            z = ((z ^ z >> 27) * 0x94D049BB133111EB) & MASK
            self.state.append(z ^ z >> 31)

    def next(self):
        s = self.state
        word = (rotated((s[0] + s[3]) & MASK, 23) + s[0]) & MASK
        t = (s[1] << 17) & MASK
        s[2] ^= s[0]
        s[3] ^= s[1]
        s[1] ^= s[2]
        s[0] ^= s[3]
        s[2] ^= t
        s[3] = rotated(s[3], 45)
        return word

    def bytes(self, count):
        words = [self.next().to_bytes(8, "little") for _ in range(-(-count // 8))]
        return b"".join(words)[:count]


class Guest:
    def __init__(self, size, page_size, seed):
        self.page_size = page_size
        low = min(size, HOLE)
        lengths = [min(low, LOW), max(low - LOW, 0), max(size - HOLE, 0)]
        self.blocks = [bytearray(n) for n in lengths if n]
        self.pages = []  # of each page its block, its start and its length
        for block, content in enumerate(self.blocks):
            for start in range(0, len(content), page_size):
                self.pages.append((block, start, min(page_size, len(content) - start)))
        random = Xoshiro256PlusPlus(seed)
        for page, (block, start, length) in enumerate(self.pages):
            if page % 8 != 7:
                content = bytearray(random.bytes(page_size))
                content[0] |= 1
                self.blocks[block][start : start + length] = content[:length]

    def write(self, random):
        """Writes a page and tells which one."""
        page = random.next() % len(self.pages)
        if page % 8 == 7:
            page -= 1
        block, start, length = self.pages[page]
        at = start + random.next() % length
        self.blocks[block][at] = (self.blocks[block][at] + 2) % 256
        return page

    def is_zero(self, page):
        block, start, length = self.pages[page]
        return not any(self.blocks[block][start : start + length])

    def batch(self, pages):
        """Of these pages of a block, how many of the first go into one batch behind none, and how many bytes it has.

        A frame is 8 bytes, 12 and its pages; of zeros it has no bytes, and of others all that follow one another. A
        batch has at most 2^20 bytes of pages, zeros among them. Behind other frames a page goes in if its bytes and
        these have at most 2^20.
        """
        at, bytes_of_batch = 0, 0
        while at < len(pages):
            room = MOST // self.page_size - at
            if bytes_of_batch:
                room = min(room, max(MOST - bytes_of_batch, 0) // self.page_size)
            run = pages[at : at + room]
            if not run:
                break
            length = 0
            while length < len(run) and run[length] == run[0] + length and not self.is_zero(run[length]):
                bytes_of_batch += self.pages[run[length]][2]
                length += 1
            bytes_of_batch += 20
            at += max(length, 1)
        return at, bytes_of_batch

    def sent(self, dirty):
        """The bytes of the frames of these pages, block by block and batch by batch."""
        total = 0
        for block in range(len(self.blocks)):
            pages = sorted(page for page in dirty if self.pages[page][0] == block)
            while pages:
                taken, count = self.batch(pages)
                total += count
                pages = pages[taken:]
        return total


def main():
    size, page_size, threads, rate, seed, max_rounds, stop_below = (int(word) for word in sys.argv[1:])
    guest = Guest(size, page_size, seed)
    randoms = [Xoshiro256PlusPlus((seed + k + 1) & MASK) for k in range(threads)]
    count = len(guest.pages)
    dirty, left, before, written, rows = set(range(count)), count, count, 0, []
    print("round   pages sent        bytes   left behind")
    while True:
        is_last = len(rows) + 1 >= max_rounds or left < stop_below
        pages = len(dirty)
        # The end of a round has 12 bytes, and the section of the last one 24.
        size_of_round = guest.sent(dirty) + 12 + (24 if is_last else 0)
        dirty = set()
        if not is_last:
            share = rate * pages * page_size // SPEED // threads if threads else 0
            for random in randoms:
                dirty |= {guest.write(random) for _ in range(share)}
            written += share * threads
        left = len(dirty)
        bar = "#" * min(max(pages * 32 // count, pages > 0), 32)
        print(f"{len(rows):>5} {pages:>12} {size_of_round:>12} {left:>13}  {bar}")
        if rows and not is_last and left >= before:
            print(f"      no headway: the round before left {before} pages")
        before = left
        rows.append((pages, size_of_round))
        if is_last:
            break
    print("the guest was given up")
    print("             rounds   pages sent        bytes")
    for name, part in [("while it ran", rows[:-1]), ("in the pause", rows[-1:]), ("in all", rows)]:
        print(f"{name:<12} {len(part):>6} {sum(r[0] for r in part):>12} {sum(r[1] for r in part):>12}")
    print(f"{threads} threads wrote {written} pages meanwhile")
    lines = [f"block {k} {hashlib.sha256(b).hexdigest()} equal" for k, b in enumerate(guest.blocks)]
    print("\n".join(lines))
    print("and at the other end")
    print("\n".join(lines))


if __name__ == "__main__":
    main()
