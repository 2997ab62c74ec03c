"""The segments of a chain, and the pages with which each begins, by the rules (docs/FORMATS.md, "Chains")."""
import collections
import struct

from reading import BYTES, MAP, UNMAP, Trace
from ways import meaning


def is_chain(data):
    """Whether bytes are of a chain: which their first four say, or of a trace."""
    return data[:4] == b"NRVS"


def end_of(data, at):
    """The index of the first byte behind the segment that begins there, or None where it breaks."""
    try:
        _, replicas, _, _, places, events, started = struct.unpack_from(">BBHHIII", data, at + 6)
        at += 24 + (8 + 4104 * started if started else 0) + 4 * places + 24 * events
        for _ in range(replicas):
            at += 16 + 4104 * struct.unpack_from(">I", data, at + 4)[0]
    except struct.error:
        return None
    return at if at <= len(data) else None


def beginnings(data, last):
    """Where each segment up to that one begins."""
    at = [0]
    while len(at) <= last:
        end = end_of(data, at[-1])
        if end is None or end == len(data):
            raise LookupError
        at.append(end)
    return at


def has_start(data, at):
    return len(data) >= at + 24 and struct.unpack_from(">I", data, at + 20)[0] > 0


def read_segment(data, number):
    """That segment, with the pages with which it begins."""
    at = beginnings(data, number)
    least = max((k for k in range(number + 1) if has_start(data, at[k])), default=0)
    pages = Pages()
    for k in range(least, number + 1):
        before = struct.unpack_from(">BBHH", data, at[k - 1] + 6) if k else None
        trace = Trace(data[at[k]:at[k + 1]] if k < number else data[at[k]:], k, before)
        if trace.start and not trace.broken:
            pages = Pages.found(trace)
        if k < number:
            for call in trace.log:
                if trace.is_update(call):
                    pages.apply(trace.levels, trace.tables, trace.events[call])
    trace.begins = [(base, *page) for base, page in sorted(pages.pages.items())]
    return trace


class Pages:
    """A set of pages by their bases: size, physical address, rights; and how many pages are below each table."""

    def __init__(self):
        self.pages, self.users = {}, collections.Counter()

    def add(self, levels, base, size, physical, rights):
        self.pages[base] = size, physical, rights
        self.users.update(tables_of(levels, base, size))

    def cover(self, address):
        """The base of the page that covers the address, or None."""
        for size, span in enumerate(BYTES):
            base = address - address % span
            if base in self.pages and self.pages[base][0] == size:
                return base
        return None

    def apply(self, levels, limit, call):
        """What an update does."""
        base = self.cover(call.address)
        if call.kind == MAP:
            needed = tables_of(levels, call.address, call.size)
            is_free = base is None and (call.size == 0 or (call.size, call.address >> 12 + 9 * call.size) not in self.users)
            if is_free and 1 + len(self.users) + sum(table not in self.users for table in needed) <= limit:
                self.add(levels, call.address, call.size, call.physical, call.rights)
        elif base == call.address:
            size, physical, _ = self.pages[base]
            if call.kind != UNMAP:
                self.pages[base] = size, physical, call.rights
                return
            del self.pages[base]
            for table in tables_of(levels, base, size):
                self.users[table] -= 1
                if not self.users[table]:
                    del self.users[table]

    @classmethod
    def found(cls, trace):
        """The pages that the tables of a start lead to, as far as they can be followed."""
        made, reached, left = cls(), set(), [(trace.start.root, trace.levels, 0, 7)]
        while left:
            frame, level, first, rights = left.pop()
            if frame in reached or frame not in trace.start.frames or level == 0:
                continue
            reached.add(frame)
            for index, word in enumerate(trace.words(trace.start, frame)):
                kind, where, own = meaning(word, level)
                address = first + (index << 3 + 9 * level)
                if kind == "table":
                    left.append((where, level - 1, address, rights & own))
                elif kind == "page":
                    high = address >> 11 + 9 * trace.levels
                    made.add(trace.levels, address | ((1 << 64) - (1 << 12 + 9 * trace.levels) if high else 0), level - 1, where, rights & own)
        return made


def tables_of(levels, base, size):
    """The tables below the root that a page needs."""
    return [(level, base >> 12 + 9 * level) for level in range(size + 1, levels)]
