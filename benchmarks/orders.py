#!/usr/bin/env python3
"""Draws runs of many threads and times who finds an order of their calls: orders.py PROGRAM PLAIN RUNS [SECONDS]

Each run is right: an update takes effect at some moment of its call, and its answer is that of the pages at that moment. One call of 20 takes
twenty times as long as others. `order` doesn't look at the log; `audit` judges the same trace by it. PLAIN is unverified_order, which gives up
after so many seconds. Prints calls, threads, pages, and of `audit`, `order` and PLAIN the least processor time of so many runs, in seconds, or
what PLAIN says.
"""
import heapq
import os
import random
import resource
import subprocess
import sys

sys.path.insert(0, os.path.join(os.path.dirname(os.path.abspath(__file__)), "..", "tests", "drawn"))
from recording import CHANGED, DONE, MAP, MAPPED, NOT_MAPPED, OVERLAP, PROTECT, REMOVED, RESOLVE, UNMAP, call, dump, frames, reply, trace

ROWS = ((200, 64, 1), (1000, 64, 16), (1000, 64, 4096), (10000, 8, 1), (10000, 16, 1), (10000, 16, 16), (65536, 8, 4096), (65536, 64, 1),
        (65536, 64, 4096))
BASE = 1 << 30
CALL, EFFECT, REPLY = range(3)


def answer_of(kind: int, base: int, rights: int, physical: int, pages: dict[int, tuple[int, int, int]]) -> tuple[int, int, int, int]:
    """What a call is answered: kind, size, rights and value. An update changes the pages."""
    page = pages.get(base)
    if kind == MAP:
        pages.setdefault(base, (0, physical, rights))
        return (DONE, 0, 0, 0) if page is None else (OVERLAP, 0, 0, base)
    if page is None:
        return NOT_MAPPED, 0, 0, 0
    _, old_physical, old = page
    if kind == RESOLVE:
        return MAPPED, 0, old, old_physical
    if kind == UNMAP:
        del pages[base]
        return REMOVED, 0, old, old_physical
    pages[base] = (0, old_physical, rights)
    return CHANGED, 0, old, 0


def moments(draw: random.Random, calls: int, threads: int) -> list[tuple[float, int, int, int]]:
    """When each call is made, takes effect and is answered, by time: moment, which of these, number of the call, thread."""
    free = [(draw.random(), thread) for thread in range(threads)]
    heapq.heapify(free)
    found = []
    for number in range(calls):
        begin, thread = heapq.heappop(free)
        takes = draw.expovariate(1) * (20 if draw.random() < 0.05 else 1)
        effect, end = begin + takes * draw.random(), begin + takes
        found += [(begin, CALL, number, thread), (effect, EFFECT, number, thread), (end, REPLY, number, thread)]
        heapq.heappush(free, (end + draw.random() / 100, thread))
    return sorted(found)


def drawn(calls: int, threads: int, count: int, seed: int = 1) -> bytes:
    draw = random.Random(seed)
    log, events, pages, open_calls = [], [], {}, {}
    for _, what, number, thread in moments(draw, calls, threads):
        if what == CALL:
            kind = RESOLVE if draw.random() < 0.3 else draw.choice([MAP, MAP, UNMAP, PROTECT])
            base, rights = BASE + draw.randrange(count) * 4096, draw.randrange(8) if kind in (MAP, PROTECT) else 0
            physical = number + 1 << 12 if kind == MAP else 0
            open_calls[number] = [len(events), kind, base, rights, physical]
            events.append(call(0, thread, kind, base, rights=rights, physical=physical))
        elif what == EFFECT:
            event, kind, base, rights, physical = open_calls[number]
            open_calls[number] = event, len(log), answer_of(kind, base, rights, physical, pages)
            if kind != RESOLVE:
                log.append(event)
        else:
            event, at, answer = open_calls.pop(number)
            events.append(reply(event, at, *answer))
    return trace(1, threads, 4096, log, events, [dump(len(log), frames(pages))])


def seconds_of(command: list[str], data: bytes) -> tuple[float, str]:
    """The processor time of a command, and the first word that it writes."""
    before = resource.getrusage(resource.RUSAGE_CHILDREN)
    said = subprocess.run(command, input=data, stdout=subprocess.PIPE).stdout
    after = resource.getrusage(resource.RUSAGE_CHILDREN)
    return after.ru_utime - before.ru_utime + after.ru_stime - before.ru_stime, said[:40].decode().partition("\n")[0]


def main(program: str, plain: str, runs: str, limit: str = "10") -> None:
    print(f"{'calls':>6} {'threads':>7} {'pages':>5} {'audit':>8} {'order':>8} {'plain':>8}")
    for calls, threads, count in ROWS:
        data, cells = drawn(calls, threads, count), []
        for command in [program, "audit"], [program, "order"], [plain, limit]:
            timed = [seconds_of(command, data)]
            said = timed[0][1]
            timed += [seconds_of(command, data) for _ in range(int(runs) - 1) if said == "yes"]
            cells.append(f"{min(seconds for seconds, _ in timed):.3f}" if said == "yes" else said.replace(" ", "-"))
        print(f"{calls:6} {threads:7} {count:5} {cells[0]:>8} {cells[1]:>8} {cells[2]:>8}", flush=True)


if __name__ == "__main__":
    if len(sys.argv) not in (4, 5):
        sys.exit(__doc__)
    main(*sys.argv[1:])
