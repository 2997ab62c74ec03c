#!/usr/bin/env python3
"""A second implementation of `nrvs pages`, in plain Python: written from docs/FORMATS.md and docs/man alone, to compare
with.

What a trace spells and what an entry means is tests/models/model_auditor.py's, and how a chain is judged tests/models/model_chains.py's. The tables are
gone through from the highest entry down, and what is found is sorted.

    model_pages.py [--ranges] [--replica N] <TRACE              what `nrvs pages` prints, with its status
    model_pages.py --chain (--start | --end) [--ranges] <CHAIN
"""
import sys

import model_auditor as traces
import model_chains as chains
from model_auditor import Fault, SIZES, SIZE_NAMES, letters


def first_fault(trace, dump):
    """The first fault of the traversal by index, the table below an entry before the next entry: its name and what it names, or None."""
    reached, left = set(), [("frame", dump.root, trace.levels)]
    while left:
        kind, number, level = left.pop()
        if kind == "reserved":
            return "ReservedBit", number, level
        if number not in dump.frames:
            return "MissingFrame", number
        if number in reached:
            return "SharedFrame", number
        reached.add(number)
        for index, word in reversed(list(enumerate(dump.frames[number]))):
            said = traces.entry(word, level) if word & 1 else None
            if said == "reserved":
                left.append(("reserved", number, index))
            elif said and not said[0]:
                left.append(("frame", said[1] >> 12, level - 1))
    return None


def pages_of(trace, dump):
    """The pages of a dump without a fault, by rising base: base, size, physical address, rights."""
    pages, left = [], [(dump.root, trace.levels, 0, 7)]
    while left:
        number, level, bits, rights = left.pop()
        for index, word in enumerate(dump.frames[number]):
            if word & 1:
                leaf, where, own = traces.entry(word, level)
                start = bits | index << (3 + 9 * level)
                if leaf:
                    translated = 12 + 9 * trace.levels
                    base = start if start >> translated - 1 == 0 else start | (1 << 64) - (1 << translated)
                    pages.append((base, level - 1, where, rights & own))
                else:
                    left.append((where >> 12, level - 1, start, rights & own))
    return sorted(pages)


def line_of(page):
    base, size, phys, rights = page
    return f"{base:#x} {SIZE_NAMES[size]} {phys:#x} {letters(rights)}\n"


def ranges_of(pages):
    """Pages that follow one another, joined: first base, end, size, first physical address, rights."""
    ranges = []
    for base, size, phys, rights in pages:
        if ranges:
            first, end, *own, first_phys, same = ranges[-1]
            if (end, own, first_phys + end - first, same) == (base, [size], phys, rights):
                ranges[-1] = (first, end + SIZES[size], size, first_phys, rights)
                continue
        ranges.append((base, base + SIZES[size], size, phys, rights))
    return ranges


def range_line(of):
    base, end, size, phys, rights = of
    return f"{base:#x} {end:#x} {SIZE_NAMES[size]} {phys:#x} {letters(rights)}\n"


def text_of(pages, as_ranges):
    return "".join(map(range_line, ranges_of(pages)) if as_ranges else map(line_of, pages))


def shown(data, replica=0, as_ranges=False):
    """What `nrvs pages` prints, what it says on standard error, and its status."""
    try:
        trace = traces.read(data)
    except Fault as fault:
        return f"{fault}\n", "", 1
    if replica >= trace.replicas:
        return "", "no such replica\n", 2
    dump = trace.dumps[replica]
    fault = first_fault(trace, dump)
    if fault:
        name, *what = fault
        return f"{Fault(name, replica, *what)}\n", "", 1
    return text_of(pages_of(trace, dump), as_ranges), "", 0


def shown_start(data, as_ranges=False):
    """What `nrvs pages --chain --start` prints, and its status: the first segment is judged, and its start shown."""
    try:
        segment = chains.read_segment(data, 0, None)
        chains.check_segment(segment, None, None)
    except Fault as fault:
        return f"segment 0\n{fault}\n", 1
    return text_of(pages_of(segment.trace, segment.start) if segment.start else [], as_ranges), 0


def shown_end(data, as_ranges=False):
    """What `nrvs pages --chain --end` prints, and its status: all segments are judged, and the space after them shown."""
    number = 0
    try:
        for _, _, space, _ in chains.judged(data):
            number += 1
    except Fault as fault:
        return f"segment {number}\n{fault}\n", 1
    return text_of(space.listed(), as_ranges), 0


def main(words):
    as_ranges = "--ranges" in words
    words = [word for word in words if word != "--ranges"]
    ends = {"--start": shown_start, "--end": shown_end}
    if len(words) == 2 and words[0] == "--chain" and words[1] in ends:
        text, status = ends[words[1]](sys.stdin.buffer.read(), as_ranges)
        sys.stdout.write(text)
        return status
    if words[:1] not in ([], ["--replica"]) or len(words) not in (0, 2):
        sys.stderr.write(__doc__)
        return 2
    text, error, status = shown(sys.stdin.buffer.read(), int(words[1]) if words else 0, as_ranges)
    sys.stdout.write(text)
    sys.stderr.write(error)
    return status


if __name__ == "__main__":
    sys.exit(main(sys.argv[1:]))
