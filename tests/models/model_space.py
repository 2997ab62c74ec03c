"""The one sequential address space, for the second auditor (model_auditor.py) and the models beside it."""
import bisect
import collections

from model_units import *


class Space:
    """A set of pages, no two of which cover one address."""

    def __init__(self, levels, limit):
        self.levels, self.limit = levels, limit
        self.bases = []                             # rising
        self.pages = {}                             # base: size code, physical address, rights
        self.users = collections.Counter()          # table below the root: how many pages are below it

    def copy(self):
        other = Space(self.levels, self.limit)
        other.bases, other.pages, other.users = list(self.bases), dict(self.pages), self.users.copy()
        return other

    def add(self, base, size, phys, rights):
        bisect.insort(self.bases, base)
        self.pages[base] = size, phys, rights
        self.users.update(self.tables_of(base, size))

    def tables_of(self, base, size):
        """The tables below the root that a page needs: at each level whose table covers more than the page."""
        return [(level, base >> (12 + 9 * level)) for level in range(1, self.levels) if SIZES[size] < 1 << (12 + 9 * level)]

    def cover(self, address):
        """The base of the page that covers the address, or None."""
        i = bisect.bisect_right(self.bases, address) - 1
        return self.bases[i] if i >= 0 and address < self.bases[i] + SIZES[self.pages[self.bases[i]][0]] else None

    def overlap(self, base, size):
        """The least base of a page that covers an address of the new page, or None."""
        i = bisect.bisect_left(self.bases, base)
        inside = self.bases[i] if i < len(self.bases) and self.bases[i] < base + SIZES[size] else None
        return self.cover(base) if self.cover(base) is not None else inside

    def map(self, call):
        other = self.overlap(call.address, call.size)
        if other is not None:
            return Answer(OVERLAP, value=other)
        tables = self.tables_of(call.address, call.size)
        need = 1 + len(self.users) + sum(table not in self.users for table in tables)
        if need > self.limit:
            return Answer(FULL, value=need)
        self.add(call.address, call.size, call.phys, call.rights)
        return Answer(DONE)

    def unmap(self, base):
        size, phys, rights = self.pages.pop(base)
        del self.bases[bisect.bisect_left(self.bases, base)]
        for table in self.tables_of(base, size):
            self.users[table] -= 1
            if self.users[table] == 0:
                del self.users[table]
        return Answer(REMOVED, size, rights, phys)

    def protect(self, base, rights):
        size, phys, old = self.pages[base]
        self.pages[base] = size, phys, rights
        return Answer(CHANGED, rights=old)

    def apply(self, call):
        """The answer of an update, which also changes the space."""
        if call.kind == MAP:
            return self.map(call)
        base = self.cover(call.address)
        if base is None:
            return Answer(NOT_MAPPED)
        if base != call.address:
            return Answer(INSIDE, value=base)
        return self.unmap(base) if call.kind == UNMAP else self.protect(base, call.rights)

    def look(self, call):
        """The answer of a read."""
        base = self.cover(call.address)
        wants = [0, WRITE, EXEC][call.size] + (USER if call.rights else 0) if call.kind == ACCESS else 0
        if base is None:
            code = (2 if wants & WRITE else 0) + (4 if wants & USER else 0) + (16 if wants & EXEC else 0)
            return Answer(PAGE_FAULT, value=code) if call.kind == ACCESS else Answer(NOT_MAPPED)
        size, phys, rights = self.pages[base]
        here = phys + call.address - base
        if call.kind == RESOLVE:
            return Answer(MAPPED, size, rights, here)
        if wants & ~rights == 0:
            return Answer(ALLOWED, value=here)
        return Answer(PAGE_FAULT, value=1 + (2 if wants & WRITE else 0) + (4 if wants & USER else 0) + (16 if wants & EXEC else 0))

    def listed(self):
        return [(base,) + self.pages[base] for base in self.bases]
