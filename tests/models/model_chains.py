#!/usr/bin/env python3
"""A second auditor of chains, in plain Python: written from docs/FORMATS.md and docs/DEFINITIONS.md alone, to compare with.

A chain is segments, one behind the other; what a segment shares with a trace is tests/models/model_auditor.py's.

    model_chains.py [--quiet] <CHAIN        what `nrvs audit --chain` prints, with its status
"""
import bisect
import collections
import struct
import sys

import model_auditor as traces
from model_auditor import RELEASE, TOUCH, Answer, Call, Dump, Fault, Reply, Space, Trace, expect

Segment = collections.namedtuple("Segment", "trace start touches releases ends")  # ends: the index of the first byte behind it
Entry = collections.namedtuple("Entry", "call called answered")  # of the joined log, with its events there; answered may be NEVER
Life = collections.namedtuple("Life", "page born ended is_taken")  # a page, the places of the entries that made and that ended it, and how
NEVER = float("inf")
EXCUSES = "open kept lagging repeated".split()      # of right touches; and the most late faults of a thread at an address in one segment


class Reader(traces.Reader):
    def event(self, levels, replicas, threads):
        unit, = self.unit("24s")
        if unit[0] == 0 and unit[4] == RELEASE:
            return release(unit, replicas, threads)
        if unit[0] == 0 and unit[4] == TOUCH:
            call = traces.event(unit[:4] + bytes([traces.ACCESS]) + unit[5:], 2, levels, replicas, threads)
            return call and call._replace(kind=TOUCH)
        return traces.event(unit, 2, levels, replicas, threads)


def release(unit, replicas, threads):
    """The call that gives memory away, which 24 bytes spell; or None."""
    _, replica, thread, kind, size, rights, zero, address, phys = struct.unpack(traces.CALL, unit)
    fits = (replica < replicas and thread < threads and size < 3 and rights == zero == address == 0
            and phys % traces.SIZES[size] == 0 and phys + traces.SIZES[size] <= 1 << 51)
    return Call(replica, thread, kind, size, rights, address, phys) if fits else None


def read_segment(data, position, before):
    """The segment that begins there; `before` is the trace of the one before it, or None. Raises the first format fault."""
    reader = Reader(data, position)
    expect(reader.unit("4s") == (b"NRVS",), "BadMagic")
    expect(reader.unit(">H") == (1,), "BadVersion")
    levels, replicas, threads, tables, places, count, started = reader.unit(">BBHHIII")
    expect(levels in (4, 5) and 1 <= replicas <= 4 and 1 <= threads and 1 <= tables
           and places <= 65536 and count <= 131072 and started <= 65535, "BadCount")
    expect(before is None or (levels, replicas, threads, tables) == before[1:5], "BadChain")
    start = None
    if started:
        root, = reader.unit(">Q")
        start = Dump(0, root, reader.frames(started, "BadStart"))
    log = [reader.unit(">I")[0] for _ in range(places)]
    events = []
    for i in range(count):
        events.append(reader.event(levels, replicas, threads))
        expect(events[-1], "BadEvent", i)
    dumps = []
    for r in range(replicas):
        applied, frames, root = reader.unit(">IIQ")
        expect(frames <= 65535 and (frames > 0 or applied == root == 0), "BadCount")
        dumps.append(Dump(applied, root, reader.frames(frames, "BadFrame", r)) if frames else None)
    trace = Trace(2, levels, replicas, threads, tables, log, events, dumps)
    touches, releases = ({i for i, each in enumerate(events) if isinstance(each, Call) and each.kind == kind} for kind in (TOUCH, RELEASE))
    return Segment(trace, start, touches, releases, reader.position)


def space_at_begin(segment, space):
    """The space with which the segment begins; `space` is that after the one before, or None for the first. Raises its first fault."""
    trace = segment.trace
    if segment.start is None:
        return Space(trace.levels, trace.tables) if space is None else space
    try:
        pages = traces.found_pages(trace, segment.start)
    except traces.DumpFault as fault:
        name, *what = fault.args
        raise Fault("Start" + name, *what)
    for base, size, phys, rights in pages:
        if phys + traces.SIZES[size] > 1 << 51:
            raise Fault("StartBeyond", hex(base))
    if space is not None:
        differs = traces.least_difference(pages, space.listed())
        if differs is not None:
            raise Fault("StartDiffers", hex(differs))
    begun = Space(trace.levels, trace.tables)
    for page in pages:
        begun.add(*page)
    return begun


def in_order(segment):
    """The trace with neither touches nor releases, and no replies to them, each event at its index."""
    gone = segment.touches | segment.releases
    events = [None if i in gone or isinstance(each, Reply) and each.call in gone else each for i, each in enumerate(segment.trace.events)]
    return segment.trace._replace(events=events)


def looks(space, address):
    """How an address looks: the page that covers it."""
    base = space.cover(address)
    return None if base is None else (base,) + space.pages[base]


class Joined:
    """The segments so far, as one run: the space with which the first begins, all entries, and how many events there were."""

    def __init__(self, begin):
        self.begin, self.entries, self.events, self.before, self.excuses = begin.copy(), [], 0, 0, Excuses()

    def add(self, trace):
        """A further segment; `before` is how many entries the earlier ones have, `first` the number of its first event."""
        self.first, self.before = self.events, len(self.entries)
        self.replied = {each.call: i for i, each in enumerate(trace.events) if isinstance(each, Reply)}
        for number in trace.log:
            answered = self.first + self.replied[number] if number in self.replied else NEVER
            self.entries.append(Entry(trace.events[number], self.first + number, answered))
        self.events += len(trace.events)

    def changes(self, addresses):
        """Of each address the places of the entries that change how it looks, and how it looks at first and after each of them."""
        changes = {address: ([], [looks(self.begin, address)]) for address in addresses}
        space = self.begin.copy()
        for place, entry in enumerate(self.entries):
            gone = looks(space, entry.call.address)
            space.apply(entry.call)
            page = gone or looks(space, entry.call.address)
            if page is None:
                continue
            low, high = (bisect.bisect_left(addresses, end) for end in (page[0], page[0] + traces.SIZES[page[1]]))
            for address in addresses[low:high]:
                places, seen = changes[address]
                now = looks(space, address)
                if now != seen[-1]:
                    places.append(place)
                    seen.append(now)
        return changes

    def bounds(self, places, seen, called, answered):
        """Between which moments, counted in changes, something that was called and answered so may be answered: the least with a page, the
        least without one, and the most."""
        over = [k for k, place in enumerate(places) if self.entries[place].answered < called]
        with_page = max([k + 1 for k in over if takes_away(seen[k], seen[k + 1])], default=0)
        most = min([k for k, place in enumerate(places) if self.entries[place].called > answered], default=len(places))
        return with_page, over[-1] + 1 if over else 0, most

    def allowed(self, places, seen, called, answered):
        """The moments, counted in changes, from which something that was called and answered so may be answered."""
        with_page, without, most = self.bounds(places, seen, called, answered)
        return [n for n in range(with_page, most + 1) if seen[n] or n >= without]

    def lives(self):
        """Each page that ever was, with the places of the entries that made it (-1: the begin) and that ended it (NEVER: none did), and
        whether that one took it away, or some right."""
        space, lives = self.begin.copy(), []
        born = {base: -1 for base in space.bases}
        for place, entry in enumerate(self.entries):
            before = looks(space, entry.call.address)
            space.apply(entry.call)
            after = looks(space, entry.call.address)
            if before != after:
                if before:
                    lives.append(Life(before, born.pop(before[0]), place, takes_away(before, after)))
                if after:
                    born[after[0]] = place
        return lives + [Life(looks(space, base), place, NEVER, False) for base, place in born.items()]


def takes_away(before, after):
    """Of an address that a page covered before: the same page isn't there after, or not with every right that it had."""
    return before is not None and (after is None or before[:3] != after[:3] or before[3] & ~after[3] != 0)


def is_of_lagging(trace, call, answer, known, places, seen, most):
    """A page fault since no page covers the address, where the table of the touch's replica may lag. `known` is how many entries of the
    joined run it was known to have applied, `most` the last moment, counted in changes, from which the touch may be answered."""
    return answer == allow(trace, None, call) and any(page is None for page in seen[bisect.bisect_left(places, known):most + 1])


def known_of_touches(segment):
    """Of each touch how many entries of this segment its replica was known to have applied when it was called."""
    events, known, best, apart = segment.trace.events, {}, collections.Counter(), segment.touches | segment.releases
    for number, each in enumerate(events):
        if number in segment.touches:
            known[number] = best[each.replica]
        elif isinstance(each, Reply) and each.call not in apart:
            call = events[each.call]
            best[call.replica] = max(best[call.replica], each.at + (call.kind < traces.RESOLVE))
    return known


def excuse_of(trace, call, answer, seen, bounds, cut, late):
    """The excuse of a touch, or None where it isn't right. `seen` is how its address looks, `bounds` are those of `Joined.bounds`, `cut` is the
    moment with which its segment begins, and `late` gives whether it faults by a table that lags. It needs no excuse where it is answered
    as after the newest moment that it may see. It is `kept` where it is a fault and no moment that fits has each change of earlier segments,
    and each that was answered before; else `open`."""
    with_page, without, most = bounds
    fits = [n for n in range(with_page, most + 1) if (seen[n] or n >= without) and allow(trace, seen[n], call) == answer]
    if not fits:
        return "lagging" if late() else None
    if most in fits:
        return "none"
    return "kept" if answer.code == traces.PAGE_FAULT and fits[-1] < max(without, cut) else "open"


class Excuses(collections.Counter):
    """How many touches have each excuse, and the most faults of a thread at an address in one segment that are kept or lagging."""

    def add(self, excuses):
        """Those of a segment: of each touch its thread, its address and its excuse."""
        self.update(excuse for _, _, excuse in excuses)
        late = collections.Counter((thread, address) for thread, address, excuse in excuses if excuse in ("kept", "lagging"))
        self["repeated"] = max(self["repeated"], *late.values(), 0)


def check_touches(segment, joined):
    """Each answered touch is answered as its address was at a moment that is allowed, or by a fault that may come late."""
    trace, known, excuses = segment.trace, known_of_touches(segment), []
    answered = sorted(number for number in segment.touches if number in joined.replied)
    changes = joined.changes(sorted({trace.events[number].address for number in answered}))
    for number in answered:
        call, reply = trace.events[number], trace.events[joined.replied[number]]
        places, seen = changes[call.address]           # how it looks before the first of these places, and after each
        events = joined.first + number, joined.first + joined.replied[number]
        bounds = joined.bounds(places, seen, *events)
        excuse = excuse_of(trace, call, reply.answer, seen, bounds, bisect.bisect_left(places, joined.before),
                           lambda: is_of_lagging(trace, call, reply.answer, joined.before + known[number], places, seen, bounds[2]))
        if excuse is None:
            raise Fault("Stale", number)
        excuses.append((call.thread, call.address, excuse))
    joined.excuses.add(excuses)


# ---- releases ----

class Lives:
    """The pages that ever were, to be found by their addresses and by their memory."""

    def __init__(self, joined):
        self.joined, self.by_memory, self.by_address = joined, Stretches(), Stretches()
        for life in joined.lives():
            base, size, phys, _ = life.page
            self.by_memory.add(size, phys, life)
            self.by_address.add(size, base, life)

    def is_reachable(self, low, high, event):
        """A touch of some address, made and answered at this event, could be answered with an address from `low` to below `high`."""
        return any(self.may_lead(life, low, high, event) for life in self.by_memory.meeting(low, high))

    def may_lead(self, life, low, high, event):
        """The page may still be found at this event at an address that leads there: no update of that address forbids it."""
        if self.is_forbidden(life, life, event):
            return False
        base, size, phys, _ = life.page
        parts = [(base + max(low, phys) - phys, base + min(high, phys + traces.SIZES[size]) - phys)]
        for other in self.by_address.meeting(*parts[0]):
            if self.is_forbidden(life, other, event):
                parts = without(parts, other.page[0], other.page[0] + traces.SIZES[other.page[1]])
        return bool(parts)

    def is_forbidden(self, life, other, event):
        """At this event the page can't be found at addresses of the other (which may be the same one), by how that began and ended. It is over
        where something was taken away and that was answered, and not yet there where an update was called later."""
        entries = self.joined.entries
        if other.is_taken and other.ended >= life.ended and entries[other.ended].answered < event:
            return True
        return any(0 <= place <= life.born and entries[place].called > event for place in (other.born, other.ended))


class Stretches:
    """What lies in stretches of the three sizes, each at a multiple of its size."""

    def __init__(self):
        self.found = [collections.defaultdict(list) for _ in traces.SIZES]

    def add(self, size, first, what):
        self.found[size][first // traces.SIZES[size]].append(what)

    def meeting(self, low, high):
        """All that lies in a stretch which has an address from `low` to below `high`."""
        for found, size in zip(self.found, traces.SIZES):
            met = range(low // size, (high - 1) // size + 1)
            for number in met if len(met) < len(found) else [each for each in found if each in met]:
                yield from found.get(number, ())


def check_releases(segment, joined):
    """No memory is given away that an access which begins then could reach."""
    lives = Lives(joined) if segment.releases else None
    for number in sorted(segment.releases):
        call, reply = segment.trace.events[number], joined.replied.get(number)
        is_other = reply is not None and segment.trace.events[reply].answer != Answer(traces.DONE)
        if is_other or lives.is_reachable(call.phys, call.phys + traces.SIZES[call.size], joined.first + number):
            raise Fault("Reachable", number)


def without(parts, low, high):
    """What is left of intervals without those from `low` to `high`."""
    left = [(first, min(last, low)) for first, last in parts] + [(max(first, high), last) for first, last in parts]
    return [(first, last) for first, last in left if first < last]


def allow(trace, page, call):
    """What an access is answered where this page covers its address, or none does."""
    space = Space(trace.levels, trace.tables)
    if page:
        space.add(*page)
    return space.look(call._replace(kind=traces.ACCESS))


def check_segment(segment, space, joined):
    """The order, and the space after the whole log, and the run so far; raises the first fault."""
    start = space_at_begin(segment, space)
    traces.check_calls(segment.trace)
    trace = in_order(segment)
    order, replies = traces.check_history(trace, start)
    joined = joined or Joined(start)
    joined.add(segment.trace)
    check_touches(segment, joined)
    check_releases(segment, joined)
    for r in range(trace.replicas):
        if trace.dumps[r]:
            traces.check_replica(trace, r, replies, start)
    for number in trace.log:
        start.apply(trace.events[number])
    return order, start, joined


def judged(data):
    """Each segment in turn, with its order, the space behind it, and the run so far; raises the first fault."""
    position, before, space, joined = 0, None, None, None
    while position < len(data) or before is None:
        segment = read_segment(data, position, before)
        order, space, joined = check_segment(segment, space, joined)
        yield segment, order, space, joined
        position, before = segment.ends, segment.trace


def verdict(data, quiet=False):
    """What `nrvs audit --chain` prints of the bytes, and its status."""
    lines, number = [], 0
    try:
        for _, order, _, _ in judged(data):
            if not quiet:
                lines += [f"segment {number}", "yes", " ".join(["order"] + [str(call) for call in order])]
            number += 1
    except Fault as fault:
        return "\n".join(lines + [f"segment {number}", str(fault)]) + "\n", 1
    return "\n".join(lines + [f"segments {number}"]) + "\n", 0


def excuses(data):
    """How many touches of a right chain have each excuse; and the most faults of a thread at an address in one segment that are kept or
    lagging."""
    *_, (_, _, _, joined) = judged(data)
    return {what: joined.excuses[what] for what in EXCUSES}


def main(words):
    if words not in ([], ["--quiet"]):
        sys.stderr.write(__doc__)
        return 2
    text, status = verdict(sys.stdin.buffer.read(), bool(words))
    sys.stdout.write(text)
    return status


if __name__ == "__main__":
    sys.exit(main(sys.argv[1:]))
