"""Traces as bytes, and an address space as a dictionary of pages. No page table is walked here: the frames of a dump are
written from the pages."""
import struct

MAP, UNMAP, PROTECT, RESOLVE, ACCESS = range(5)
DONE, OVERLAP, FULL, REMOVED, NOT_MAPPED, INSIDE, CHANGED, MAPPED, ALLOWED, FAULT = range(10)
BYTES = (1 << 12, 1 << 21, 1 << 30)     # of a page, by the code of its size
WRITE, USER, EXEC, ALL = 1, 2, 4, 7     # rights
READS, WRITES, FETCHES = range(3)       # of an access


def call(replica, thread, kind, address, size=0, rights=0, physical=0):
    return struct.pack(">BBHBBBBQQ", 0, replica, thread, kind, size, rights, 0, address, physical)


def reply(number, at, answer, size=0, rights=0, value=0):
    return struct.pack(">BBBBIIIQ", 1, answer, size, rights, number, at, 0, value)


def entry(size, physical, rights):
    """The word of a page."""
    no_execute = 0 if rights & EXEC else 1 << 63
    return physical | 1 | (rights & 1) << 1 | (rights & 2) << 1 | (0x80 if size else 0) | no_execute


def frames(pages, root=1, levels=4):
    """The frames of a page table of these pages, {base: (size, physical, rights)}: {number: {index: word}}."""
    tables, places = {root: {}}, {}
    for base, (size, physical, rights) in pages.items():
        number = root
        for level in range(levels, size + 1, -1):
            place = (level, base >> (3 + 9 * level))
            if place not in places:
                places[place] = root + len(tables)
                tables[places[place]] = {}
                tables[number][place[1] & 511] = places[place] * 4096 + 7
            number = places[place]
        tables[number][base >> (12 + 9 * size) & 511] = entry(size, physical, rights)
    return tables


def dump(applied, tables, root=1):
    parts = [struct.pack(">IIQ", applied, len(tables), root)]
    for number in sorted(tables):
        words = [0] * 512
        for index, word in tables[number].items():
            words[index] = word
        parts.append(struct.pack(">Q512Q", number, *words))
    return b"".join(parts)


def trace(replicas, threads, tables, log, events, dumps, version=1, levels=4):
    counts = struct.pack(">HBBHHII", version, levels, replicas, threads, tables, len(log), len(events))
    return b"".join([b"NRVT", counts, struct.pack(f">{len(log)}I", *log), *events, *dumps])


def order_of(log, reads):
    """The recorded order: updates by place, and the answered reads (at, call) before the update at place `at`, by call."""
    order, reads = [], sorted(reads)
    for place, update in enumerate(log):
        while reads and reads[0][0] <= place:
            order.append(reads.pop(0)[1])
        order.append(update)
    return order + [number for _, number in reads]


class Space:
    """A set of pages, with a limit of tables. Each call looks at all pages."""

    def __init__(self, limit, pages=(), levels=4):
        self.limit, self.pages, self.levels = limit, dict(pages), levels

    def at(self, address):
        for base, (size, *_) in self.pages.items():
            if base <= address < base + BYTES[size]:
                return base
        return None

    def need(self, base, size):
        """The tables of the space with one page more."""
        pages = [*((b, s) for b, (s, *_) in self.pages.items()), (base, size)]
        return 1 + sum(len({b >> (12 + 9 * level) for b, s in pages if s < level}) for level in range(1, self.levels))

    def map(self, base, size, rights, physical):
        end = base + BYTES[size]
        covered = [b for b, (s, *_) in self.pages.items() if b < end and base < b + BYTES[s]]
        if covered:
            return OVERLAP, 0, 0, min(covered)
        need = self.need(base, size)
        if need > self.limit:
            return FULL, 0, 0, need
        self.pages[base] = (size, physical, rights)
        return DONE, 0, 0, 0

    def change(self, kind, address, rights):
        base = self.at(address)
        if base is None:
            return NOT_MAPPED, 0, 0, 0
        if base != address:
            return INSIDE, 0, 0, base
        size, physical, old = self.pages.pop(base)
        if kind == UNMAP:
            return REMOVED, size, old, physical
        self.pages[base] = (size, physical, rights)
        return CHANGED, 0, old, 0

    def resolve(self, address):
        base = self.at(address)
        if base is None:
            return NOT_MAPPED, 0, 0, 0
        size, physical, rights = self.pages[base]
        return MAPPED, size, rights, physical + address - base

    def access(self, address, access, mode):
        """Whether it is allowed, and where it leads; else the page-fault error code (SDM volume 3A, chapter "Paging")."""
        base = self.at(address)
        size, physical, rights = self.pages.get(base, (0, 0, 0))
        needs = (WRITE if access == WRITES else 0) | (USER if mode else 0) | (EXEC if access == FETCHES else 0)
        if base is not None and needs & rights == needs:
            return ALLOWED, 0, 0, physical + address - base
        return FAULT, 0, 0, (base is not None) + 2 * (access == WRITES) + 4 * mode + 16 * (access == FETCHES)

    def read(self, kind, address, access, mode):
        return self.access(address, access, mode) if kind == ACCESS else self.resolve(address)

    def apply(self, kind, address, size, rights, physical):
        if kind == MAP:
            return self.map(address, size, rights, physical)
        return self.change(kind, address, rights)
