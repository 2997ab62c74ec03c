"""Right chains, drawn: segments of a replicated address space with touches, and what is to be said of each.

Nothing of the second auditor is used here, which is compared with this. A space is a dictionary of pages of which each call looks at
all (recording.py). Every moment of a segment is kept, and the moments from which a touch may be answered are those of all that fit.
"""
import struct
from dataclasses import dataclass, field
from typing import NamedTuple

import recording
from recording import ACCESS, BYTES, MAP, PROTECT, RESOLVE, UNMAP, Space

TOUCH, RELEASE = 5, 6
REGIONS = {4: [0, 0x7f8000000000, 0xffff800000000000, 0xffffff8000000000],
           5: [0, 0x7f8000000000, 0xff000000000000, 0xff00000000000000, 0xffffff8000000000]}
KINDS = [MAP, MAP, MAP, UNMAP, UNMAP, PROTECT, PROTECT, RESOLVE, ACCESS, TOUCH, TOUCH, TOUCH, TOUCH]


class Layout(NamedTuple):
    levels: int
    replicas: int
    threads: int
    tables: int


class Call(NamedTuple):
    replica: int
    thread: int
    kind: int
    address: int
    size: int = 0
    rights: int = 0
    physical: int = 0

    def is_update(self):
        return self.kind <= PROTECT

    def is_read(self):
        return self.kind in (RESOLVE, ACCESS)


class Reply(NamedTuple):
    call: int
    at: int
    answer: tuple[int, ...]


class Entry(NamedTuple):
    """A present entry of a table: where it is, at which level, and the base of its page, or None where it leads to a table."""
    frame: int
    index: int
    level: int
    base: int | None


@dataclass
class Tables:
    """Frames of a page table, and what was put there."""
    root: int
    frames: dict[int, list[int]]
    levels: dict[int, int]                          # of each frame
    entries: list[Entry]


@dataclass
class Dump:
    applied: int
    tables: Tables


@dataclass
class Segment:
    layout: Layout
    moments: list[Space]                            # after each number of entries of the log
    events: list[Call | Reply] = field(default_factory=list)
    log: list[int] = field(default_factory=list)
    start: Tables | None = None
    dumps: list[Dump | None] = field(default_factory=list)
    known: dict[int, int] = field(default_factory=dict)     # by call: entries that a reply had shown when it was made
    needs: list[int] = field(default_factory=list)          # by replica: entries that its dump has to have
    looks: dict[int, str] = field(default_factory=dict)     # by touch: of which moments its answer is
    is_closed: bool = False                         # each call has a reply
    earlier: list["Segment"] = field(default_factory=list)   # the segments before it

    def replies(self):
        """By call: the index of the reply to it."""
        return {each.call: i for i, each in enumerate(self.events) if isinstance(each, Reply)}

    def order(self):
        calls = [(i, each) for i, each in enumerate(self.events) if isinstance(each, Reply) and self.events[each.call].is_read()]
        return recording.order_of(self.log, [(each.at, each.call) for _, each in calls])

    def lines(self):
        return ["yes", " ".join(["order", *map(str, self.order())])]


# ---- what an address looks like, and which moments a touch may be answered from ----

def look(space, address):
    """The page that covers the address, or None."""
    base = space.at(address)
    return None if base is None else (base, *space.pages[base])


def takes_away(before, after):
    """Of pages, or None: the first is there, and the second isn't the same with all the rights of the first."""
    return bool(before) and (not after or before[:-1] != after[:-1] or before[-1] & after[-1] != before[-1])


class Run(NamedTuple):
    """The segments up to one as one run: a space after each number of its entries, and of each entry when it was called and answered. These
    are events of the last segment: -1 where it was before, and None where it never was. `before` entries are of the segments before it."""
    spaces: list[Space]
    entries: list[tuple]
    before: int


def run_of(segment):
    spaces, entries = [], []
    for each in segment.earlier:
        replies = each.replies()
        spaces += each.moments[:-1]
        entries += [(-1, -1 if number in replies else None) for number in each.log]
    replies = segment.replies()
    return Run(spaces + segment.moments, entries + [(number, replies.get(number)) for number in segment.log], len(entries))


def allowed(segment, run, call, end):
    """From how many entries of the run the touch may be answered: of each number, whether no update behind it is over that takes the page
    away (or changes anything where there is none), and nothing is foreseen."""
    pages = [look(space, segment.events[call].address) for space in run.spaces]
    changes = [place for place in range(len(run.entries)) if pages[place] != pages[place + 1]]
    over = [place for place in changes if run.entries[place][1] is not None and run.entries[place][1] < call]
    foreseen = min((place for place in changes if run.entries[place][0] > end), default=len(run.entries))
    return [n for n in range(foreseen + 1)
            if not any(place >= n and (pages[n] is None or takes_away(pages[place], pages[place + 1])) for place in over)]


def answer_in(space, asked):
    return space.access(asked.address, asked.size, asked.rights)


def lagging(segment, call, last):
    """What the touch may be answered from the table of its replica where that lags: the fault of no page, or nothing. `last` is the most
    entries of its segment from which it may be answered."""
    asked, known = segment.events[call], [0]
    for each in segment.events[:call]:
        if isinstance(each, Reply):
            other = segment.events[each.call]
            if other.replica == asked.replica and other.kind < TOUCH:
                known.append(each.at + other.is_update())
    return {answer_in(space, asked) for space in segment.moments[max(known):last + 1] if space.at(asked.address) is None}


# ---- a segment ----

class Making:
    """A segment, step by step."""

    def __init__(self, draw, layout, begins, regions):
        self.draw, self.layout, self.regions = draw, layout, regions
        self.made = Segment(layout, [begins], needs=[0] * layout.replicas)
        self.open = {}                              # by thread: its call
        self.answers = []                           # by place
        self.known = 0
        self.logged = {}                            # by touch: how long the log was when it was made, and when it was answered

    def base(self):
        draw = self.draw
        pages = list(self.made.moments[-1].pages)
        if pages and draw.random() < 0.6:
            return draw.choice(pages)
        address = draw.choice(self.regions) + draw.randint(0, 1) * BYTES[2]
        return address + draw.choice([0, 0, 1]) * BYTES[1] + draw.randint(0, 2) * BYTES[0]

    def request(self, thread):
        draw, base, kind = self.draw, self.base(), self.draw.choice(KINDS)
        replica = draw.randrange(self.layout.replicas)
        if kind == MAP:
            size = draw.choice([0, 0, 0, 1, 2])
            frame = draw.choice([0, draw.randrange(1 << 20), (1 << 51) // BYTES[size] - 1])
            return Call(replica, thread, MAP, base // BYTES[size] * BYTES[size], size, draw.randrange(8), frame * BYTES[size] % (1 << 51))
        if kind in (UNMAP, PROTECT):
            return Call(replica, thread, kind, base, 0, draw.randrange(8) if kind == PROTECT else 0)
        under_way = [self.made.events[number].address for number in self.open.values() if self.made.events[number].is_update()]
        if kind == TOUCH and under_way and draw.random() < 0.7:
            base = draw.choice(under_way)
        address = base + draw.randrange(4096) + (draw.choice([0, 0, BYTES[0], BYTES[1]]) if base % BYTES[2] == 0 else 0)
        access, mode = (draw.randrange(3), draw.randrange(2)) if kind != RESOLVE else (0, 0)
        return Call(replica, thread, kind, address, access, mode)

    def place(self, number):
        call = self.made.events[number]
        space = Space(self.layout.tables, self.made.moments[-1].pages, self.layout.levels)
        self.answers.append(space.apply(call.kind, call.address, call.size, call.rights, call.physical))
        self.made.moments.append(space)
        self.made.log.append(number)

    def call(self, thread):
        number, request = len(self.made.events), self.request(thread)
        self.open[thread] = number
        self.made.known[number] = self.known
        self.logged[number] = [len(self.made.log)]
        self.made.events.append(request)

    def reply(self, thread):
        number = self.open.pop(thread)
        call, log = self.made.events[number], self.made.log
        if call.kind == TOUCH:
            self.logged[number].append(len(log))
            self.made.events.append(Reply(number, self.draw.choice([0, len(log), self.draw.randrange(1 << 32)]), ()))
            return
        if call.is_read():
            at = self.draw.randint(self.made.known[number], len(log))
            answer, shown = self.made.moments[at].read(call.kind, call.address, call.size, call.rights), at
        else:
            if number not in log:
                self.place(number)
            at = log.index(number)
            answer, shown = self.answers[at], at + 1
        self.made.events.append(Reply(number, at, answer))
        self.known = max(self.known, shown)
        self.made.needs[call.replica] = max(self.made.needs[call.replica], shown)

    def step(self, threads):
        thread = self.draw.choice(threads)
        if thread not in self.open:
            self.call(thread)
        elif not self.made.events[self.open[thread]].is_update() or self.draw.random() < 0.3:
            self.reply(thread)
        elif self.open[thread] not in self.made.log:
            self.place(self.open[thread])

    def touches(self):
        """What the touches are answered, now that all moments are there."""
        made = self.made
        for call, end in sorted(made.replies().items()):
            if made.events[call].kind == TOUCH:
                begin, now = self.logged[call]
                moments = {answer_in(made.moments[n], made.events[call]): n for n in allowed(made, run_of(made), call, end)}
                present = {answer_in(space, made.events[call]) for space in made.moments[begin:now + 1]}
                answer = self.draw.choice(sorted(moments.keys() - present) or sorted(moments))
                look = "of an earlier moment" if moments[answer] < begin else "of a later moment"
                made.looks[call] = "of the present" if answer in present else look
                made.events[end] = made.events[end]._replace(answer=answer)

    def finish(self, is_closed):
        while is_closed and self.open:
            self.reply(self.draw.choice(sorted(self.open)))
        self.made.is_closed = is_closed
        self.touches()
        return self.made


def tables_of(pages, levels, draw):
    """A page table of these pages, with ignored bits as they come."""
    numbers = draw.sample(range(1 << draw.choice([8, 20, 40])), 120)
    root = numbers.pop()
    tables = Tables(root, {root: [0] * 512}, {root: levels}, [])

    def put(frame, index, level, word, base=None):
        ignored = draw.choice([0, 0, draw.getrandbits(64) & 0x7ff0000000000f78 & ~0x80])
        tables.frames[frame][index] = word | ignored
        tables.entries.append(Entry(frame, index, level, base))

    for base, (size, physical, rights) in sorted(pages.items()):
        frame = root
        for level in range(levels, size + 1, -1):
            index = base >> (3 + 9 * level) & 511
            if not tables.frames[frame][index] & 1:
                below = numbers.pop()
                tables.frames[below], tables.levels[below] = [0] * 512, level - 1
                put(frame, index, level, below << 12 | 7)
            frame = tables.frames[frame][index] >> 12 & (1 << 40) - 1
        pat = 0x1000 if size and draw.random() < 0.2 else 0
        put(frame, base >> (12 + 9 * size) & 511, size + 1, recording.entry(size, physical, rights) | pat, base)
    absent = [k for k in range(512) if not tables.frames[root][k] & 1]
    tables.frames[root][draw.choice(absent)] = draw.choice([0, 0xfffffffffffff000])
    return tables


# ---- a chain ----

def first_pages(draw, layout, regions):
    """The pages with which a run begins whose page table isn't empty: a few that don't overlap, and no limit of tables."""
    space = Space(1 << 20, levels=layout.levels)
    for _ in range(draw.choice([0, 1, 3, 6])):
        size = draw.choice([0, 0, 1, 2])
        base = (draw.choice(regions) + draw.randrange(4) * BYTES[1] + draw.randrange(4) * BYTES[0]) // BYTES[size] * BYTES[size]
        space.map(base, size, draw.randrange(8), draw.randrange(1 << 20) * BYTES[size])
    return space.pages


def chain(draw, least=1, starts=(), dumps=()):
    """A right chain, of at least so many segments; those of these indexes have a start, those of the others dumps."""
    threads = draw.choice([1, 2, 3, 4, 6, 65535])
    layout = Layout(draw.choice([4, 5]), draw.randint(1, 4), threads, draw.choice([1, 4, 5, 6, 8, 12, 4096, 65535]))
    names = draw.sample(range(threads), min(threads, 5))
    regions = draw.sample(REGIONS[layout.levels], 2)
    segments, pages = [], {}
    for k in range(max(least, draw.choice([1, 1, 2, 3, 4]))):
        has_start = k in starts or draw.random() < 0.4
        if k == 0 and has_start:
            pages = first_pages(draw, layout, regions)
        making = Making(draw, layout, Space(layout.tables, pages, layout.levels), regions)
        for _ in range(draw.choice([0, 6, 25, 60])):
            making.step(names)
        made = making.finish(draw.random() < 0.5)
        made.earlier = segments[:]
        made.start = tables_of(pages, layout.levels, draw) if has_start else None
        for replica in range(layout.replicas):
            applied = draw.randint(made.needs[replica], len(made.log))
            is_dumped = k in dumps or draw.random() < 0.3
            made.dumps.append(Dump(applied, tables_of(made.moments[applied].pages, layout.levels, draw)) if is_dumped else None)
        segments.append(made)
        pages = made.moments[-1].pages
    return segments


# ---- its bytes ----

def event_bytes(event):
    if isinstance(event, Call):
        return recording.call(event.replica, event.thread, event.kind, event.address, event.size, event.rights, event.physical)
    return recording.reply(event.call, event.at, *event.answer)


def frame_units(name, frames):
    return [unit for k, number in enumerate(sorted(frames))
            for unit in (((*name, "number", k), struct.pack(">Q", number)), ((*name, "words", k), struct.pack(">512Q", *frames[number])))]


def units(segment):
    """Its units, each with a name."""
    start, log, events = segment.start, segment.log, segment.events
    counts = struct.pack(">BBHHIII", *segment.layout, len(log), len(events), len(start.frames) if start else 0)
    said = [(("magic",), b"NRVS"), (("version",), struct.pack(">H", 1)), (("counts",), counts)]
    if start:
        said += [(("start root",), struct.pack(">Q", start.root)), *frame_units(("start",), start.frames)]
    said += [(("place", place), struct.pack(">I", number)) for place, number in enumerate(log)]
    said += [(("event", i), event_bytes(event)) for i, event in enumerate(events)]
    for replica, dump in enumerate(segment.dumps):
        head = struct.pack(">IIQ", dump.applied, len(dump.tables.frames), dump.tables.root) if dump else bytes(16)
        said += [(("head", replica), head), *(frame_units(("dump", replica), dump.tables.frames) if dump else [])]
    return said


def spelled(segments):
    return b"".join(data for segment in segments for _, data in units(segment))


def lines_of(segments, first=0):
    """What is said of these segments where they are right, from this number on."""
    return [line for k, segment in enumerate(segments, first) for line in (f"segment {k}", *segment.lines())]


def joined(segments):
    """The segments as one, where each but the last is closed: numbers of calls and of entries go on. The dumps are the last one's."""
    whole = Segment(segments[0].layout, [], start=segments[0].start)
    for segment in segments:
        calls, places = len(whole.events), len(whole.log)
        whole.events += [each if isinstance(each, Call) else each._replace(call=each.call + calls, at=(each.at + places) % (1 << 32))
                         for each in segment.events]
        whole.log += [number + calls for number in segment.log]
        whole.dumps = [dump and Dump(dump.applied + places, dump.tables) for dump in segment.dumps]
    return whole
