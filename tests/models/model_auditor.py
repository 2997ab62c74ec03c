#!/usr/bin/env python3
"""A second auditor, in plain Python: written from docs/FORMATS.md, docs/man and docs/DEFINITIONS.md alone, to compare
with.

Nothing here is proved, and nothing depends on it. It shares no line and no idea of a loop with the program: where the two
disagree on a trace, one of them is wrong. The largest trace takes it some seconds.

    model_auditor.py audit <TRACE                  what `nrvs audit` prints, with its status
    model_auditor.py resolve --address A [--replica N] <TRACE      what `nrvs resolve` prints, with its status
"""
import collections
import re
import sys

from model_space import Space
from model_units import *

# ---- the dumped page tables ----

def entry(word, level):
    """What a present word says at a level: "reserved", or whether it is a leaf, its address and its rights."""
    large = level in (2, 3) and word >> 7 & 1
    reserved = (1 << 12 + 9 * (level - 1)) - (1 << 13) if large else 1 << 7 if level > 3 else 0
    if word & reserved:
        return "reserved"
    leaf = level == 1 or large
    address = word & ((1 << 52) - (1 << (12 + 9 * (level - 1) if leaf else 12)))
    return leaf, address, (word >> 1 & 3) | (0 if word >> 63 else EXEC)


def walk(trace, dump, address):
    """The walk of one address: what it ends with."""
    number, rights = dump.root, 7
    for level in range(trace.levels, 0, -1):
        if number not in dump.frames:
            return "missing"
        word = dump.frames[number][address >> (3 + 9 * level) & 511]
        if not word & 1:
            return "not mapped"
        said = entry(word, level)
        if said == "reserved":
            return said
        leaf, where, here = said
        rights &= here
        if leaf:
            return mapped(level - 1, where + address % SIZES[level - 1], rights)
        number = where >> 12
    raise AssertionError("level 1 has only leaves")


def mapped(size, phys, rights):
    return f"mapped {phys:#x} {SIZE_NAMES[size]} {letters(rights)}"


class DumpFault(Exception):
    """What is wrong with the tables of a dump: missing, shared, reserved or stray, and what that names."""


def found_pages(trace, dump):
    """All pages of a dump, by rising base; raises the first fault on the way through its tables, then a stray frame."""
    reached, pages = set(), []
    high = (1 << 64) - (1 << (12 + 9 * trace.levels))

    def visit(number, level, base, rights):
        if number not in dump.frames:
            raise DumpFault("Missing", number)
        if number in reached:
            raise DumpFault("Shared", number)
        reached.add(number)
        for k, word in enumerate(dump.frames[number]):
            if not word & 1:
                continue
            said = entry(word, level)
            if said == "reserved":
                raise DumpFault("Reserved", number, k)
            leaf, where, here = said
            start = base + (k << (3 + 9 * level))
            if leaf:
                above = high if start >> (11 + 9 * trace.levels) else 0
                pages.append((start + above, level - 1, where, rights & here))
            else:
                visit(where >> 12, level - 1, start, rights & here)

    visit(dump.root, trace.levels, 0, 7)
    stray = set(dump.frames) - reached
    if stray:
        raise DumpFault("Stray", min(stray))
    return pages


DUMP_FAULTS = {"Missing": "MissingFrame", "Shared": "SharedFrame", "Reserved": "ReservedBit", "Stray": "StrayFrame"}


def least_difference(found, wanted):
    """The least address at which two lists of pages translate otherwise, or None: sizes divide bases, so equal translations are equal
    lists."""
    for here, there in zip(found + [None], wanted + [None]):
        if here != there:
            return min(page[0] for page in (here, there) if page)


def check_dump(trace, r, space):
    """The dump translates as the space."""
    try:
        differs = least_difference(found_pages(trace, trace.dumps[r]), space.listed())
    except DumpFault as fault:
        name, *what = fault.args
        raise Fault(DUMP_FAULTS[name], r, *what)
    if differs is not None:
        raise Fault("Differs", r, hex(differs))


# ---- the faults of calls, log and answers, pass by pass ----

def is_update(trace, number):
    return number < len(trace.events) and isinstance(trace.events[number], Call) and trace.events[number].kind <= PROTECT


def check_calls(trace):
    open_calls, answered = {}, set()                # thread: its call
    for i, each in enumerate(trace.events):
        if isinstance(each, Call):
            if each.thread in open_calls:
                raise Fault("ThreadOpen", i)
            open_calls[each.thread] = i
            continue
        if not (each.call < i and isinstance(trace.events[each.call], Call)):
            raise Fault("NoSuchCall", i)
        if each.call in answered:
            raise Fault("AnsweredTwice", i)
        answered.add(each.call)
        del open_calls[trace.events[each.call].thread]


def check_log(trace):
    """The place of each placed update."""
    place_of = {}
    for place, number in enumerate(trace.log):
        if not is_update(trace, number):
            raise Fault("NotAnUpdate", place)
        if number in place_of:
            raise Fault("PlacedTwice", place)
        place_of[number] = place
    return place_of


def check_places(trace):
    for i, each in enumerate(trace.events):
        if isinstance(each, Reply):
            if not is_update(trace, each.call):
                if each.at > len(trace.log):
                    raise Fault("PastLog", i)
            elif not (each.at < len(trace.log) and trace.log[each.at] == each.call):
                raise Fault("NotPlaced", i)


def check_precedence(trace, place_of, replies):
    known = 0                                       # entries that are known by a reply so far
    for i, each in enumerate(trace.events):
        if isinstance(each, Reply):
            known = max(known, each.at + is_update(trace, each.call))
            continue
        stands = place_of.get(i) if is_update(trace, i) else replies[i].at if i in replies else None
        if stands is not None and stands < known:
            raise Fault("Early", i)


def recorded_order(trace, replies):
    reads = collections.defaultdict(list)
    for number in sorted(replies):
        if not is_update(trace, number):
            reads[replies[number].at].append(number)
    order = []
    for place in range(len(trace.log) + 1):
        order += reads[place] + trace.log[place:place + 1]
    return order


def check_answers(trace, order, replies, start):
    space = start.copy()
    for number in order:
        call = trace.events[number]
        answer = space.apply(call) if call.kind <= PROTECT else space.look(call)
        if number in replies and replies[number].answer != answer:
            raise Fault("WrongAnswer", number)


def check_replica(trace, r, replies, start):
    applied = trace.dumps[r].applied
    if applied > len(trace.log):
        raise Fault("PrefixPastLog", r)
    for number, reply in replies.items():
        if trace.events[number].replica == r and applied < reply.at + is_update(trace, number):
            raise Fault("PrefixShort", r)
    space = start.copy()
    for number in trace.log[:applied]:
        space.apply(trace.events[number])
    check_dump(trace, r, space)


def check_history(trace, start):
    """The order, and the replies by call: of what was asked and answered, from the space with which the calls begin."""
    place_of = check_log(trace)
    check_places(trace)
    replies = {each.call: each for each in trace.events if isinstance(each, Reply)}
    check_precedence(trace, place_of, replies)
    order = recorded_order(trace, replies)
    check_answers(trace, order, replies, start)
    return order, replies


def audit(data):
    """The order; raises the first fault."""
    trace = read(data)
    start = Space(trace.levels, trace.tables)
    check_calls(trace)
    order, replies = check_history(trace, start)
    for r in range(trace.replicas):
        check_replica(trace, r, replies, start)
    return order


def verdict(data):
    """What `nrvs audit` prints of the bytes, and its status."""
    try:
        return "\n".join(["yes", " ".join(["order"] + [str(number) for number in audit(data)])]) + "\n", 0
    except Fault as fault:
        return f"{fault}\n", 1


def resolve(data, spelling, replica=0):
    """What `nrvs resolve` prints, what it says on standard error, and its status."""
    if not re.fullmatch("0x[0-9a-fA-F]{1,16}", spelling):
        return "", "bad address\n", 2
    address = int(spelling, 16)
    try:
        trace = read(data)
    except Fault as fault:
        return f"{fault}\n", "", 1
    if not is_canonical(trace.levels, address):
        return "", "not canonical\n", 2
    if replica >= trace.replicas:
        return "", "no such replica\n", 2
    return walk(trace, trace.dumps[replica], address) + "\n", "", 0


def main(words):
    if words == ["audit"]:
        text, status = verdict(sys.stdin.buffer.read())
        sys.stdout.write(text)
        return status
    options = dict(zip(words[1::2], words[2::2]))
    if words[:1] == ["resolve"] and "--address" in options:
        text, error, status = resolve(sys.stdin.buffer.read(), options["--address"], int(options.get("--replica", 0)))
        sys.stdout.write(text)
        sys.stderr.write(error)
        return status
    sys.stderr.write(__doc__)
    return 2


if __name__ == "__main__":
    sys.exit(main(sys.argv[1:]))
