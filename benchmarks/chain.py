#!/usr/bin/env python3
"""Writes a long chain: chain.py [HOW] SEGMENTS >CHAIN, where HOW is --touches, --untouched, --crowd, --released, --replaced, --behind,
--behind-one or --threads; or one segment as a trace: chain.py --trace >TRACE

A segment has as many events as there may be. In one 16,384 maps, 32,768 reads, and as many unmaps as maps are each answered; it is a right
trace too. With --touches 30,000 updates of 256 pages have 35,536 touches beside them: half of these are of a page whose update is open, and
are answered as it was before; --untouched leaves them out. With --crowd 43,690 updates of one page are never answered, and as many touches
of it, made after them, are each answered as it was before one of them that is drawn. Each segment begins and ends with no page, so that
all are alike.

With --released 10,000 updates of 256 pages have 33,334 releases beside them: of memory that a page had, or that none has, while an update of
another page is open. With --replaced a page of 1 GiB is unmapped, and the unmap is never answered; 15,000 small pages come and go in its
place, and the memory that each of these addresses had is released twice. All of these are right.

With --behind a segment that begins with 32,768 pages comes before so many segments of one touch each, and with --behind-one before one
segment that has as many touches. With --threads each segment is one event, a call, in a layout of 65,535 threads.
"""
import random
import struct
import sys

from traces import Run                  # which also says where recording.py is
from recording import ALL, ALLOWED, DONE, FAULT, MAP, REMOVED, RESOLVE, UNMAP, call, dump, frames, reply

PAGES, READS, THREADS, TABLES = 16384, 32768, 64, 4096
TOUCHED, UPDATES, TOUCHES = 256, 30000, 35536
CROWD = 43690                           # updates, and touches
FREEING, RELEASES = 10000, 33334        # updates, and releases beside them
REPLACED = 15000                        # pages that come and go in the place of a large one
MOST_THREADS = 65535                    # of a segment
STARTED = 32768                         # pages with which a chain begins
TOUCH, RELEASE, USER = 5, 6, 1          # kinds of calls; the mode of an access
NO_DUMP = bytes(16)
NO_PAGE = 4                             # the error code of a user's read of no page


def run():
    made = Run(1, THREADS)
    for page in range(PAGES):
        made.map(page << 12, page << 12)
    for read in range(READS):
        made.resolve((read * 7 % (2 * PAGES) << 12) + 5)
    for page in range(PAGES):
        made.unmap(page << 12)
    return made


class Touched(Run):
    """Updates by thread 0, each open while others touch pages, so many times in all."""

    def __init__(self, touches):
        super().__init__(1, THREADS)
        self.draw, self.left, self.thread = random.Random(52), touches, 0

    def touch(self, base):
        """By the next thread, answered as the page is now."""
        self.thread = self.thread % (THREADS - 1) + 1
        number, page = len(self.events), self.pages.get(base)
        answer, value = (ALLOWED, page[1] + 5) if page else (FAULT, NO_PAGE)
        self.events += [call(0, self.thread, TOUCH, base + 5, rights=USER), reply(number, 0, answer, value=value)]

    def touches(self, base, updates):
        """Those that fall to an update of this page, which is open; so many updates are left, with it."""
        count = -(-self.left // updates)
        self.left -= count
        for each in range(count):
            self.touch(base if self.draw.random() < 0.5 else self.draw.randrange(TOUCHED) << 12)

    def change(self, page, updates):
        base, number = page << 12, len(self.events)
        physical = base + (1 << 32)
        is_there = base in self.pages
        self.events.append(call(0, 0, *((UNMAP, base) if is_there else (MAP, base, 0, ALL, physical))))
        self.touches(base, updates)
        answer = (REMOVED, 0, ALL, physical) if is_there else (DONE,)
        self.events.append(reply(number, len(self.log), *answer))
        self.log.append(number)
        if is_there:
            del self.pages[base]
        else:
            self.pages[base] = (0, physical, ALL)


def touched(touches):
    made, left = Touched(touches), UPDATES
    pages = list(range(TOUCHED))
    for _ in range(UPDATES // 2 - TOUCHED):
        pages += 2 * [made.draw.randrange(TOUCHED)]
    for page in pages + list(range(TOUCHED)):
        made.change(page, left)
        left -= 1
    return made


def crowd():
    """Each map is to another physical address, so that one moment alone has what a touch is answered; an unmap follows each. A thread whose
    update is never answered makes no other call."""
    made = Touched(0)
    for number in range(CROWD):
        made.events.append(call(0, THREADS + number, *((UNMAP, 0) if number % 2 else (MAP, 0, 0, ALL, number << 12))))
        made.log.append(number)
    for _ in range(CROWD):
        made.pages = {0: (0, made.draw.randrange(0, CROWD, 2) << 12, ALL)}
        made.touch(0)
    return made


class Released(Touched):
    """Updates as those, with releases in place of touches."""

    def release(self, physical):
        self.thread = self.thread % (THREADS - 1) + 1
        number = len(self.events)
        self.events += [call(0, self.thread, RELEASE, 0, physical=physical), reply(number, 0, DONE)]

    def touches(self, base, updates):
        """Releases: of what a page had that isn't there, and that is another one than this, if the drawn one is such; or of other memory."""
        count = -(-self.left // updates)
        self.left -= count
        for each in range(count):
            other = self.draw.randrange(TOUCHED) << 12
            had = other not in self.pages and other != base
            self.release(other + (1 << 32) if had else (1 << 40) + (self.draw.randrange(1 << 20) << 12))


def released():
    made, left = Released(RELEASES), FREEING
    pages = list(range(TOUCHED))
    for _ in range(FREEING // 2 - TOUCHED):
        pages += 2 * [made.draw.randrange(TOUCHED)]
    for page in pages + list(range(TOUCHED)):
        made.change(page, left)
        left -= 1
    return made


def replaced():
    """The large page is mapped by thread 0 and unmapped by the last one, whose call stays open."""
    made = Released(0)
    made.events += [call(0, 0, MAP, 0, 2, ALL, 1 << 40), reply(0, 0, DONE), call(0, THREADS, UNMAP, 0)]
    made.log += [0, 2]
    for page in range(REPLACED):
        base, physical, places = page << 12, (1 << 41) + (page << 12), len(made.log)
        made.log += [len(made.events), len(made.events) + 2]
        made.events += [call(0, 0, MAP, base, 0, ALL, physical), reply(made.log[-2], places, DONE),
                        call(0, 0, UNMAP, base), reply(made.log[-1], places + 1, REMOVED, 0, ALL, physical)]
    for page in 2 * list(range(REPLACED)):
        made.release((1 << 40) + (page << 12))
    return made


def counted(log, events, start=0):
    return b"NRVS" + struct.pack(">HBBHHIII", 1, 4, 1, MOST_THREADS, TABLES, log, events, start)


def begun():
    """A segment in which nothing is called, and with which a chain begins: its pages are each at its own address."""
    tables = frames({page << 12: (0, page << 12, ALL) for page in range(STARTED)})
    return counted(0, 0, len(tables)) + dump(0, tables)[8:] + NO_DUMP


def touch_of(number, behind=0):
    """A touch of a page, with its reply, behind so many events."""
    address = (number % STARTED << 12) + 5
    return call(0, 1, TOUCH, address, rights=USER) + reply(behind, 0, ALLOWED, value=address)


def behind(segments):
    for number in range(segments):
        yield counted(0, 2) + touch_of(number) + NO_DUMP


def behind_one(touches):
    yield counted(0, 2 * touches) + b"".join(touch_of(number, 2 * number) for number in range(touches)) + NO_DUMP


def of_threads(segments):
    for _ in range(segments):
        yield counted(0, 1) + call(0, MOST_THREADS - 1, RESOLVE, 0) + NO_DUMP


def segment(made):
    places = struct.pack(f">{len(made.log)}I", *made.log)
    end = NO_DUMP if made.pages or isinstance(made, Released) else dump(len(made.log), frames({}))
    return b"".join([counted(len(made.log), len(made.events)), places, *made.events, end])


def main(words):
    makers = {"": run, "--touches": lambda: touched(TOUCHES), "--untouched": lambda: touched(0), "--crowd": crowd, "--released": released,
              "--replaced": replaced}
    small = {"--behind": (begun, behind), "--behind-one": (begun, behind_one), "--threads": (bytes, of_threads)}
    how = "".join(words[:-1])
    if words == ["--trace"]:
        run().write(sys.stdout.buffer)
    elif words and words[-1].isdigit() and how in makers:
        bytes_of_one = segment(makers[how]())
        for _ in range(int(words[-1])):
            sys.stdout.buffer.write(bytes_of_one)
    elif words and words[-1].isdigit() and how in small:
        first, more = small[how]
        sys.stdout.buffer.write(first())
        sys.stdout.buffer.writelines(more(int(words[-1])))
    else:
        sys.exit(__doc__)


if __name__ == "__main__":
    main(sys.argv[1:])
