#!/usr/bin/env python3
"""Writes runs of many threads, with what `nrvs audit` has to print of each: generate.py FOLDER

A run is made so that its order is known, and a wrong one has one thing wrong, which is known too. FOLDER gets
NAME.trace and NAME.output of each; the status is 0 where the output begins with no `no`.
"""
import os
import random
import sys

from recording import (ACCESS, BYTES, FAULT, MAP, MAPPED, PROTECT, RESOLVE, UNMAP, Space, call, dump, frames, order_of, reply, trace)

REGIONS = (0x400000, 0x40000000, 0x7F8000000000, 0xFFFF800000000000, 0xFFFFFFFFC0000000)
FIVE_LEVEL_REGIONS = (0x400000, 0x800000000000, 0xFFFFFFC0000000, 0xFF00000000000000, 0xFFFFFFFFC0000000)


class Run:
    """A run of an address space: threads make calls, updates get places, replies come late or never."""

    def __init__(self, seed, replicas, threads, steps, tables=4096, version=1, levels=4):
        self.random = random.Random(seed)
        self.replicas, self.threads, self.tables = replicas, threads, tables
        self.version, self.levels = version, levels
        self.events, self.log, self.open = [], [], {}
        self.after = [Space(tables, levels=levels)] # the space after the first n updates
        self.seen = 0                               # what a call that is made now may not come before
        self.needs = [0] * replicas                 # how many entries each dump has to have taken
        self.answers = {}                           # of a place
        self.reads = []                             # (at, call, index of the reply, floor, request)
        for _ in range(steps):
            thread = self.random.randrange(threads)
            if thread in self.open:
                self.go_on(thread)
            else:
                self.make(thread)
        self.applied = [self.random.randint(need, len(self.log)) for need in self.needs]
        self.roots = [(1 << 39) + 4096 * replica for replica in range(replicas)]

    def request(self):
        reads = (RESOLVE, ACCESS) if self.version == 2 else (RESOLVE,)
        kind = self.random.choice((MAP, MAP, MAP, UNMAP, PROTECT, RESOLVE, RESOLVE, RESOLVE))
        kind = self.random.choice(reads) if kind == RESOLVE else kind
        size = self.random.choice((0, 0, 0, 1, 2)) if kind == MAP else 0
        region = self.random.choice(REGIONS if self.levels == 4 else FIVE_LEVEL_REGIONS)
        span = BYTES[size] * (1 if size == 2 else 4)
        address = (region + self.random.randrange(0, 1 << 24, 4096)) // span * span
        if kind in (RESOLVE, ACCESS):
            access, mode = (self.random.randrange(3), self.random.randrange(2)) if kind == ACCESS else (0, 0)
            return kind, address + self.random.randrange(4096), access, mode, 0
        rights = 0 if kind == UNMAP else self.random.randrange(8)
        physical = self.random.randrange(0, (1 << 51) - BYTES[size] + 1, BYTES[size]) if kind == MAP else 0
        return kind, address, size, rights, physical

    def make(self, thread):
        kind, address, size, rights, physical = request = self.request()
        replica = self.random.randrange(self.replicas)
        self.open[thread] = {"call": len(self.events), "replica": replica, "request": request, "floor": self.seen}
        self.events.append(call(replica, thread, kind, address, size, rights, physical))

    def go_on(self, thread):
        made = self.open[thread]
        if made["request"][0] <= PROTECT and "place" not in made:
            made["place"] = len(self.log)
            space = Space(self.tables, self.after[-1].pages, self.levels)
            self.answers[made["place"]] = space.apply(*made["request"])
            self.after.append(space)
            self.log.append(made["call"])
            return
        del self.open[thread]
        if "place" in made:
            at, answer, entries = made["place"], self.answers[made["place"]], made["place"] + 1
        else:
            at = entries = self.random.randint(made["floor"], len(self.log))
            read = made["request"][:4]
            answer = self.after[at].read(*read)
            self.reads.append((at, made["call"], len(self.events), made["floor"], read))
        self.seen = max(self.seen, entries)
        self.needs[made["replica"]] = max(self.needs[made["replica"]], entries)
        self.events.append(reply(made["call"], at, *answer))

    def dumped(self, replica):
        return frames(self.after[self.applied[replica]].pages, self.roots[replica], self.levels)

    def trace(self, tables=None):
        """The bytes, with the frames of some replicas given."""
        dumps = [dump(self.applied[r], (tables or {}).get(r) or self.dumped(r), self.roots[r]) for r in range(self.replicas)]
        return trace(self.replicas, self.threads, self.tables, self.log, self.events, dumps, self.version, self.levels)

    def order(self):
        return order_of(self.log, [(at, number) for at, number, *_ in self.reads])


def wrong_answer(run):
    at, number, index, _, asked = next(read for read in run.reads if run.after[read[0]].read(*read[4])[0] == MAPPED)
    code, size, rights, value = run.after[at].read(*asked)
    run.events[index] = reply(number, at, code, size, rights, value ^ 1)
    return run.trace(), f"no 10 WrongAnswer {number}"


def wrong_code(run):
    """A page-fault error code that says of a page whether it is present, wrongly."""
    at, number, index, _, asked = next(read for read in run.reads if run.after[read[0]].read(*read[4])[0] == FAULT)
    code, size, rights, value = run.after[at].read(*asked)
    run.events[index] = reply(number, at, code, size, rights, value ^ 1)
    return run.trace(), f"no 10 WrongAnswer {number}"


def early(run):
    _, number, index, floor, asked = next(read for read in reversed(run.reads) if read[3] > 0)
    run.events[index] = reply(number, floor - 1, *run.after[floor - 1].read(*asked))
    return run.trace(), f"no 9 Early {number}"


def past_log(run):
    run.applied[0] = len(run.log) + 1
    return run.trace({0: frames(run.after[-1].pages, run.roots[0], run.levels)}), "no 11 PrefixPastLog 0"


def short(run):
    replica = max(r for r in range(run.replicas) if run.needs[r] > 0)
    run.applied[replica] = run.needs[replica] - 1
    return run.trace(), f"no 12 PrefixShort {replica}"


def missing(run):
    last = run.replicas - 1
    tables = run.dumped(last)
    gone = max(tables)
    del tables[gone]
    return run.trace({last: tables}), f"no 13 MissingFrame {last} {gone}"


def shared(run):
    last = run.replicas - 1
    tables = run.dumped(last)
    root = tables[run.roots[last]]
    root[max(root) - 1] = root[max(root)]
    return run.trace({last: tables}), f"no 14 SharedFrame {last} {root[max(root)] >> 12}"


def reserved(run):
    last = run.replicas - 1
    tables = run.dumped(last)
    root = tables[run.roots[last]]
    root[max(root)] |= 0x80
    return run.trace({last: tables}), f"no 15 ReservedBit {last} {run.roots[last]} {max(root)}"


def stray(run):
    last = run.replicas - 1
    tables = run.dumped(last)
    tables[max(tables) + 7] = {5: 0x1007}
    return run.trace({last: tables}), f"no 16 StrayFrame {last} {max(tables)}"


def differs(run):
    last = run.replicas - 1
    pages = dict(run.after[run.applied[last]].pages)
    base = sorted(pages)[len(pages) // 2]
    size, physical, rights = pages[base]
    pages[base] = (size, physical, rights ^ 1)
    return run.trace({last: frames(pages, run.roots[last], run.levels)}), f"no 17 Differs {last} {base:#x}"


FAULTS = (wrong_answer, early, past_log, short, missing, shared, reserved, stray, differs)


def yes(run):
    return "yes\norder" + "".join(f" {number}" for number in run.order())


def cases():
    """Of each run its name, its bytes, and what is said of it."""
    for replicas in range(1, 5):
        for seed, threads, steps, tables in ((1, 1, 90, 4096), (2, 3, 300, 4096), (3, 64, 900, 4096), (4, 17, 400, 9)):
            run = Run((replicas, seed).__repr__(), replicas, threads, steps, tables)
            yield f"run_{replicas}_{threads}", run.trace(), yes(run)
    for levels in (4, 5):
        run = Run(("accesses", levels).__repr__(), 4, 64, 900, version=2, levels=levels)
        yield f"run_with_accesses_at_{levels}_levels", run.trace(), yes(run)
    for fault in FAULTS:
        yield f"run_{fault.__name__}", *fault(Run(fault.__name__, 4, 64, 700))
        yield f"run_{fault.__name__}_at_5_levels", *fault(Run(fault.__name__, 4, 64, 700, version=2, levels=5))
    yield "run_wrong_code", *wrong_code(Run("wrong_code", 4, 64, 700, version=2))
    whole = Run("whole", 4, 64, 700).trace()
    yield "run_a_byte_more", whole + b"\0", "no 1 Format Trailing"
    yield "run_a_byte_less", whole[:-1], "no 1 Format Truncated"


def main(folder):
    for name, data, said in cases():
        with open(os.path.join(folder, name + ".trace"), "wb") as out:
            out.write(data)
        with open(os.path.join(folder, name + ".output"), "w") as out:
            out.write(said + "\n")


if __name__ == "__main__":
    main(sys.argv[1])
