#!/usr/bin/env python3
"""Writes large traces for the benchmarks: traces.py KIND > FILE, where KIND is one of the names below.

Each is a right run, but for `most_leaves` and `dense`: its answers are those of the space, and each dump is the page table after the
whole log.
"""
import os
import sys

sys.path.insert(0, os.path.join(os.path.dirname(os.path.abspath(__file__)), "..", "tests", "drawn"))
from recording import (ALL, DONE, MAP, MAPPED, NOT_MAPPED, REMOVED, RESOLVE, UNMAP, call, dump, entry, frames, reply,
                       trace)


class Run:
    """One call at a time is made and answered."""

    def __init__(self, replicas, threads):
        self.replicas, self.threads = replicas, threads
        self.log, self.events, self.pages = [], [], {}

    def ask(self, kind, address, rights=0, physical=0):
        thread = len(self.events) // 2 % self.threads
        self.events.append(call(thread % self.replicas, thread, kind, address, rights=rights, physical=physical))
        return len(self.events) - 1

    def update(self, kind, address, answer, rights=0, physical=0, page=(0, 0, 0)):
        number = self.ask(kind, address, rights, physical)
        self.log.append(number)
        size, told, old = page
        self.events.append(reply(number, len(self.log) - 1, answer, size, old, told))

    def map(self, base, physical):
        """Of a page of 4 KiB where none is."""
        self.pages[base] = (0, physical, ALL)
        self.update(MAP, base, DONE, ALL, physical)

    def unmap(self, base):
        page = self.pages.pop(base, None)
        if page is None:
            self.update(UNMAP, base, NOT_MAPPED)
        else:
            self.update(UNMAP, base, REMOVED, page=page)

    def resolve(self, address):
        number = self.ask(RESOLVE, address)
        page = self.pages.get(address & ~0xFFF)
        if page is None:
            self.events.append(reply(number, len(self.log), NOT_MAPPED))
        else:
            self.events.append(reply(number, len(self.log), MAPPED, 0, ALL, page[1] + address % 4096))

    def write(self, out, tables=None):
        dumps = [dump(len(self.log), tables or frames(self.pages))] * self.replicas
        out.write(trace(self.replicas, self.threads, 4096, self.log, self.events, dumps))


def greatest(out, tables=4086):
    """The greatest trace that there is, 70,647,892 bytes: the most events, places, replicas and frames, and 65,376 pages. Or one with fewer
    tables of pages, 16 each."""
    run = Run(4, 64)
    for i in range(tables * 16):
        run.map((i // 16 << 21) + (i % 16 << 12), i << 12)
    for _ in range(160):
        run.unmap(1 << 46)
    run.write(out)


def both_ends(out, tables=4085):
    """As `greatest`, and each table has entries at both ends, in words 0 and 511, as the root of a kernel's table has: 65,360 pages."""
    run = Run(4, 64)
    for i in range(tables):
        directory, entry_ = divmod(i, 511)
        entry_ += entry_ > 254                      # a directory leads to tables by all its words but the one in the middle
        half, quarter = divmod(directory, 4)
        base = half * 0xFFFFFF8000000000 + ((0, 1, 510, 511)[quarter] << 30) + (entry_ << 21)
        for k in range(16):
            run.map(base + ((k + 496 * (k > 7)) << 12), (i * 16 + k) << 12)
    for _ in range(176):
        run.unmap(1 << 46)
    run.write(out)


def dense(out):
    """Four dumps of 4,096 frames without a word that is 0, below a root with a reserved bit: what can be kept of the fewest calls."""
    tables = {number: {index: 0x87 for index in range(512)} for number in range(1, 4097)}
    out.write(trace(4, 64, 4096, [], [], [dump(0, tables)] * 4))


def most_leaves(out):
    """65,536 pages, and a dump of 2,092,032 leaves: the first that the space does not have is that of 0x10000000."""
    run = Run(1, 1)
    for i in range(65536):
        run.map(i << 12, i << 12)
    tables = {1: {0: 2 * 4096 + 7}, 2: {i: (3 + i) * 4096 + 7 for i in range(8)}}
    tables.update({3 + i: {} for i in range(8)})
    for i in range(4086):
        tables[3 + i // 512][i % 512] = (11 + i) * 4096 + 7
        tables[11 + i] = {k: entry(0, (i * 512 + k) << 12, ALL) for k in range(512)}
    run.write(out, tables)


def most_pages(out):
    """65,536 pages that stay."""
    run = Run(4, 64)
    for i in range(65536):
        run.map(i << 12, i << 12)
    run.write(out)


def one_page(out):
    """65,536 updates of one page."""
    run = Run(1, 1)
    for _ in range(32768):
        run.map(0x400000, 0x1000)
        run.unmap(0x400000)
    run.write(out)


def most_unmaps(out):
    """65,536 unmaps where nothing is mapped."""
    run = Run(1, 64)
    for i in range(65536):
        run.unmap(i << 21)
    run.write(out)


def most_reads(out):
    """256 pages and 65,280 reads."""
    run = Run(4, 64)
    for i in range(256):
        run.map(i << 12, i << 12)
    for i in range(65280):
        run.resolve((i % 512 << 12) + 5)
    run.write(out)


KINDS = {kind.__name__: kind for kind in (greatest, both_ends, dense, most_leaves, most_pages, one_page, most_unmaps, most_reads)}

if __name__ == "__main__":
    if len(sys.argv) != 2 or sys.argv[1] not in KINDS:
        sys.exit(f"usage: traces.py {' | '.join(KINDS)}")
    KINDS[sys.argv[1]](sys.stdout.buffer)
