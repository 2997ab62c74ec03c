#!/usr/bin/env python3
"""Prints what `nrvs_benchmark page_table` must print: space_sums.py ROUNDS, or space_sums.py ROUNDS five.

It has no page table: a space is a dictionary from bases to pages, and tables are counted by their definition.
"""
import sys

SIZES = {1: 1 << 12, 2: 1 << 21, 3: 1 << 30}
DONE, REMOVED, NOT_MAPPED, CHANGED, MAPPED = 0, 3, 4, 6, 7
MASK = (1 << 64) - 1


def canonical(bits):
    return bits if bits < 1 << 47 else bits + (0xFFFF << 48)


def small_dense(n):
    return n << 12, 1


def small_sparse(n):
    return canonical((n * 0x9E3779B97 % 2**36) << 12), 1


def mixed_dense(n):
    level = n % 3 + 1
    return (n % 3 << 39) + n // 3 * SIZES[level], level


def mixed_sparse(n):
    level = n % 3 + 1
    place = n * 0x9E37 % (2**30 // SIZES[level])
    return canonical((n * 0x2545F % 2**18 << 30) + place * SIZES[level]), level


WORKLOADS = [(small_dense, 32768), (small_sparse, 1536), (mixed_dense, 32768), (mixed_sparse, 1536)]


class Space:
    """From the base of each page to its level, physical address and rights, which are write + 2 user + 4 exec."""

    def __init__(self, levels):
        self.levels = levels
        self.pages = {}

    def covering(self, address):
        for level, size in SIZES.items():
            base = address - address % size
            if base in self.pages and self.pages[base][0] == level:
                return base
        return None

    def map(self, base, level, phys, rights):
        # no two pages of a workload have an address in common, and there is room for all of their tables
        assert self.covering(base) is None
        self.pages[base] = (level, phys, rights)
        return number(DONE)

    def unmap(self, base):
        level, phys, rights = self.pages.pop(base)
        return number(REMOVED, phys, level, rights)

    def protect(self, base, rights):
        level, phys, old = self.pages[base]
        self.pages[base] = (level, phys, rights)
        return number(CHANGED, 0, 0, old)

    def resolve(self, address):
        base = self.covering(address)
        if base is None:
            return number(NOT_MAPPED)
        level, phys, rights = self.pages[base]
        return number(MAPPED, phys + address - base, level, rights)

    def tables(self):
        stretches = {(4, base >> 39) for base in self.pages}
        stretches |= {(5, base >> 48) for base in self.pages if self.levels == 5}
        stretches |= {(3, base >> 30) for base, page in self.pages.items() if page[0] < 3}
        stretches |= {(2, base >> 21) for base, page in self.pages.items() if page[0] < 2}
        return 1 + len(stretches)


def number(answer, value=0, level=0, rights=0):
    return value * 256 + 64 * level + 8 * rights + answer


def calls(space, place, pages):
    """The numbers of one round: maps, tables, resolves, protects, unmaps, tables."""
    for n in range(pages):
        base, level = place(n)
        yield space.map(base, level, n * SIZES[level], n % 8)
    assert space.tables() <= 4096
    yield space.tables()
    for n in range(pages):
        yield space.resolve(place(n)[0] + n % 4096)
    for n in range(pages):
        yield space.protect(place(n)[0], n // 8 % 8)
    for n in range(pages):
        yield space.unmap(place(n)[0])
    yield space.tables()


def main():
    if len(sys.argv) not in (2, 3) or sys.argv[2:] not in ([], ["five"]):
        sys.exit("usage: space_sums.py ROUNDS [five]")
    levels = 5 if sys.argv[2:] else 4
    for place, pages in WORKLOADS:
        total = 0
        for _ in range(int(sys.argv[1])):
            for value in calls(Space(levels), place, pages):
                total = total * 31 + value & MASK
        print(place.__name__, total)


if __name__ == "__main__":
    main()
