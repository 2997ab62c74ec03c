#!/usr/bin/env python3
"""Chains of three segments in which late faults, releases, updates that are never answered, and maps and protects behind them come often;
and what is to be said of each.

What is right is found from the joined run, with a space after each number of its entries, by the rule as docs/FORMATS.md states it: each n
is tried. Nothing of the second auditor is used, which is compared with this.

    drawn_late.py [COUNT] [FIRST] [PROGRAM]     COUNT drawn chains beside model_chains.py, and beside `PROGRAM audit --chain` if that is
                                                named; what comes how often, and `N passed, M failed`
"""
import collections
import json
import random
import struct
import subprocess
import sys

import recording
from drawn_chains import RELEASE, TOUCH, Call, Reply, event_bytes
from recording import ACCESS, ALLOWED, BYTES, DONE, FAULT, MAP, PROTECT, RESOLVE, UNMAP, Space

SEGMENTS, PAGES, FRAMES = 3, 6, 5
RIGHT = ["touch at a moment", "touch at an earlier segment's moment", "touch of a table that lags", "touch by rights that were kept",
         "touch of a page behind which an update was answered", "touch of a page of an earlier segment behind which an update was answered",
         "release of memory that had a page", "release of memory that an open map will have", "release of memory that never had a page"]
STALE = [f"stale: {what}" for what in ("allowed", "a fault of a page", "a fault by rights that are gone", "a fault of no page",
                                       "a fault of no page that its replica had", "a page whose unmap is open, and what came behind was taken away")]
REACHABLE = [f"reachable: {how}" for how in ("nobody takes the page away", "it is taken away later", "it is never over",
                                             "it was never over before the cut", "answered otherwise",
                                             "it is taken away later, and an update behind that was answered",
                                             "it is never over, and an update behind that was answered",
                                             "it was never over before the cut, and an update behind that was answered")]
COMMON = (RIGHT + STALE + REACHABLE + ["update that is never answered", "release without a reply"]
          + [f"{fault} in segment {k} of three" for fault in ("Stale", "Reachable") for k in range(SEGMENTS)])
EXCUSES = "open kept lagging repeated".split()      # what is counted of right touches
KINDS = [MAP] * 5 + [UNMAP] * 5 + [PROTECT] * 6 + [RESOLVE, ACCESS, ACCESS] + [TOUCH] * 12 + [RELEASE] * 5


class Segment:
    """Its events and its log, with numbers of its own; and how many events and entries the segments before it have."""

    def __init__(self, events, entries):
        self.first, self.before = events, entries
        self.events, self.log = [], []

    def replies(self):
        return {each.call: i for i, each in enumerate(self.events) if isinstance(each, Reply)}


class Run:
    """The joined run: a space after each number of entries, and of each entry its call, and when that was made and answered."""

    def __init__(self, tables):
        self.moments, self.entries, self.segments = [Space(tables)], [], []
        self.seen = collections.defaultdict(list)   # by address: how it looks after each number of entries

    def looks(self, address):
        """How the address looks after each number of entries: the page that covers it, or None."""
        seen = self.seen[address]
        for space in self.moments[len(seen):]:
            base = space.at(address)
            seen.append(None if base is None else (base, *space.pages[base]))
        return seen

    def changes(self, address):
        seen = self.looks(address)
        return [place for place in range(len(self.entries)) if seen[place] != seen[place + 1]]

    def taking(self, address):
        """The places of the entries that take the address's page away, or some right of it."""
        seen = self.looks(address)
        return [place for place in self.changes(address) if takes_away(seen[place], seen[place + 1])]

    # ---- the rules, word by word; `made` and `answered` are events of the joined run

    def foreseen(self, address, answered):
        """The least entry that changes how the address looks and was called after that, or the log's length."""
        return min((place for place in self.changes(address) if self.entries[place][1] > answered), default=len(self.entries))

    def forbidding(self, address, n, made):
        """The updates from n entries on which forbid that a touch is answered from these: they were answered before it was made."""
        those = self.taking(address) if self.looks(address)[n] else self.changes(address)
        return [place for place in those if place >= n and (self.entries[place][2] or 1 << 60) < made]

    def allowed(self, address, made, answered):
        """Every n from which a touch may be answered: nothing that is behind them is over, and none of them was called after it."""
        return [n for n in range(self.foreseen(address, answered) + 1) if not self.forbidding(address, n, made)]

    def is_behind(self, address, n, made):
        """An update from n entries on was answered before, though they are allowed."""
        return any(place >= n and (self.entries[place][2] or 1 << 60) < made for place in self.changes(address))

    def answer(self, n, touch):
        """What an access is answered after so many entries."""
        page = self.looks(touch.address)[n]
        return Space(0, {page[0]: page[1:]} if page else ()).access(touch.address, touch.size, touch.rights)

    def right_answers(self, segment, number, end):
        """Every answer that is right of the touch, and for which reason."""
        touch, made, answered = segment.events[number], segment.first + number, segment.first + end
        right, seen = {}, self.looks(touch.address)
        for n in reversed(self.allowed(touch.address, made, answered)):
            right.setdefault(self.answer(n, touch), self.reason(touch.address, n, made, n < segment.before))
        for m in range(segment.before + self.known(segment, touch.replica, number), self.foreseen(touch.address, answered) + 1):
            if seen[m] is None:
                right.setdefault(self.answer(m, touch), "of a table that lags")
        return right

    def excuse(self, segment, number, end):
        """What excuses the touch, which is right and was answered by that event."""
        touch, made, answered = segment.events[number], segment.first + number, segment.first + end
        answer = segment.events[end].answer
        fits = [n for n in self.allowed(touch.address, made, answered) if self.answer(n, touch) == answer]
        if not fits:
            return "lagging"
        if self.foreseen(touch.address, answered) in fits:
            return "none"
        up_to_date = [n for n in fits if n >= segment.before and not self.is_behind(touch.address, n, made)]
        return "kept" if answer[0] == FAULT and not up_to_date else "open"

    def excuses(self):
        """How many touches have each excuse; and the most faults of a thread at an address in one segment that are kept or lagging."""
        counts = dict.fromkeys(("open", "kept", "lagging", "repeated", "none"), 0)
        for segment in self.segments:
            late = collections.Counter()
            for number, end in segment.replies().items():
                touch = segment.events[number]
                if touch.kind == TOUCH:
                    excuse = self.excuse(segment, number, end)
                    counts[excuse] += 1
                    late[touch.thread, touch.address] += excuse in ("kept", "lagging")
            counts["repeated"] = max([counts["repeated"], *late.values()])
        return counts

    def reason(self, address, n, made, is_earlier):
        """Why a touch is answered right from n entries."""
        if not self.is_behind(address, n, made):
            return "at an earlier segment's moment" if is_earlier else "at a moment"
        last = max(place for place in self.changes(address) if (self.entries[place][2] or 1 << 60) < made)
        if not any(n <= place < last for place in self.taking(address)):
            return "by rights that were kept"
        return f"of a page {'of an earlier segment ' * is_earlier}behind which an update was answered"

    def known(self, segment, replica, number):
        """How many of the segment's entries the replica was known to have applied."""
        shown = [0]
        for each in segment.events[:number]:
            if isinstance(each, Reply):
                call = segment.events[each.call]
                if call.replica == replica and call.kind < TOUCH:
                    shown.append(each.at + 1 if call.kind <= PROTECT else each.at)
        return max(shown)

    def ways(self, low, high):
        """Addresses that once led to memory from `low` to below `high`: of all between which no page ever began or ended, one."""
        pages = {(base, *page) for space in self.moments for base, page in space.pages.items()}
        ends = {end for base, size, *_ in pages for end in (base, base + BYTES[size])}
        for base, size, phys, _ in pages:
            first, last = base + max(low, phys) - phys, base + min(high, phys + BYTES[size]) - phys
            if first < last:
                yield from {first, *(end for end in ends if first < end < last)}

    def reached(self, segment, number):
        """An address and an n: a touch of it that is made and answered at the release, and is answered from n, finds the memory; or None."""
        release, event = segment.events[number], segment.first + number
        low, high = release.physical, release.physical + BYTES[release.size]
        for address in sorted(set(self.ways(low, high))):
            seen = self.looks(address)
            for n in reversed(self.allowed(address, event, event)):
                if seen[n] and low <= seen[n][2] + address - seen[n][0] < high:
                    return address, n
        return None


def takes_away(before, after):
    """A page covered the address before, and not the same one after, or with fewer rights."""
    return bool(before) and (not after or before[:3] != after[:3] or before[3] & after[3] != before[3])


class Drawing:
    def __init__(self, draw):
        self.draw, self.replicas = draw, draw.choice([1, 2, 2, 3, 4])
        self.threads = draw.choice([2, 3, 4, 5])
        self.run = Run(draw.choice([64, 64, 4096]))
        self.region = draw.choice([0, 0x7f8000000000])
        self.kinds = collections.Counter()

    def memory(self, size):
        frame = self.draw.randrange(FRAMES) * BYTES[0] if size == 0 else self.draw.randrange(2) * BYTES[size]
        return frame + self.draw.choice([0, 0, BYTES[1]]) if size == 0 else frame

    def release(self, replica, thread):
        """A release: mostly of memory in which no page lies now, though one has."""
        pages = self.run.moments[-1].pages.values()
        once = [phys for space in self.run.moments[-8:] for _, phys, _ in space.pages.values()] + 9 * [page[2] for page in self.taken()]
        for last in [False] * 8 + [True]:
            size = self.draw.choice([0, 0, 0, 0, 0, 0, 1, 2])
            low = self.memory(size) if not once or self.draw.random() < 0.2 else self.draw.choice(once) // BYTES[size] * BYTES[size]
            is_free = all(low + BYTES[size] <= phys or phys + BYTES[of] <= low for of, phys, _ in pages)
            if last or is_free or self.draw.random() < 0.03:
                return Call(replica, thread, RELEASE, 0, size, 0, low)

    def request(self, thread):
        draw, kind, replica = self.draw, self.draw.choice(KINDS), self.draw.randrange(self.replicas)
        base = self.region + draw.randrange(2) * BYTES[1] + draw.randrange(PAGES // 2) * BYTES[0]
        pages = list(self.run.moments[-1].pages)
        if pages and draw.random() < 0.7:
            base = draw.choice(pages)
        if kind == TOUCH and self.run.entries and draw.random() < 0.5:
            base = draw.choice(self.run.entries[-5:])[0].address
        if kind == RELEASE:
            return self.release(replica, thread)
        taken = [page[0] for page in self.taken()]
        holes = [each for each in taken if self.run.moments[-1].at(each) is None]
        if kind == MAP and holes and draw.random() < 0.7:
            base = draw.choice(holes)
        if kind in (TOUCH, PROTECT) and taken and draw.random() < 0.4:
            base = draw.choice(taken)
        if kind == MAP:
            size = draw.choice([0, 0, 0, 0, 1, 1, 2])
            return Call(replica, thread, MAP, base // BYTES[size] * BYTES[size], size, draw.randrange(8), self.memory(size))
        if kind in (UNMAP, PROTECT):
            more = self.run.moments[-1].pages[base][2] if base in pages and draw.random() < 0.5 else 0
            return Call(replica, thread, kind, base, 0, more | draw.choice([0, 1, 3, 7, 7, 4, 5]) if kind == PROTECT else 0)
        return Call(replica, thread, kind, base + draw.randrange(4096), *((draw.randrange(3), draw.randrange(2)) if kind != RESOLVE else (0, 0)))

    def taken(self):
        """Pages that an unmap took which isn't answered: base, size, physical address and rights."""
        run = self.run
        return [(call.address, *run.moments[place].pages[call.address]) for place, (call, _, answered) in [*enumerate(run.entries)][-12:]
                if call.kind == UNMAP and answered is None and call.address in run.moments[place].pages]

    def segment(self):
        draw, run = self.draw, self.run
        self.made = Segment(sum(len(each.events) for each in run.segments), len(run.entries))
        run.segments.append(self.made)
        self.begun, self.held, self.answers, self.known, self.stuck = {}, {}, [], 0, set()
        for _ in range(draw.choice([10, 20, 30])):
            thread = draw.randrange(self.threads)
            if thread not in self.stuck and draw.random() < 0.07:
                self.burst()
            elif thread not in self.stuck:
                self.step(thread)
        for thread in sorted(self.begun):
            if thread not in self.stuck and draw.random() < 0.5:
                self.answer(thread)
            elif self.is_unplaced(thread) and draw.random() < 0.6:
                self.place(self.begun[thread])
        return self.made

    def step(self, thread):
        if thread not in self.begun:
            call = self.request(thread)
            self.begin(call, call.kind <= PROTECT and self.draw.random() < (0.2 if call.kind == UNMAP else 0.1))
        elif self.made.events[self.begun[thread]].kind > PROTECT or self.draw.random() < 0.5:
            self.answer(thread)
        elif self.is_unplaced(thread):
            self.place(self.begun[thread])

    def burst(self):
        """A page is unmapped or loses rights, and that is open while other updates of its address are answered; then it is touched, perhaps
        again and again, and its memory is released."""
        draw, run = self.draw, self.run
        free, pages = [thread for thread in range(self.threads) if thread not in self.begun], run.moments[-1].pages
        if len(free) < 2 or not pages:
            return
        (slow, quick), base = draw.sample(free, 2), draw.choice(sorted(pages))
        size, physical, _ = pages[base]
        kind = draw.choice([UNMAP, UNMAP, PROTECT])
        self.begin(Call(draw.randrange(self.replicas), slow, kind, base), draw.random() < 0.5)
        if slow not in self.stuck:
            self.place(self.begun[slow])
        then = draw.choice([[MAP], [MAP, PROTECT], [MAP, UNMAP], [MAP, UNMAP, MAP]] if kind == UNMAP else [[PROTECT], [PROTECT, UNMAP], [UNMAP]])
        for each in [*then, *draw.choices([TOUCH, TOUCH, RELEASE], k=draw.randrange(1, 4))]:
            call = Call(draw.randrange(self.replicas), quick, each, base)
            if each == MAP:
                call = call._replace(size=draw.choice([0, size]), rights=draw.randrange(8), physical=self.memory(size))
            elif each == PROTECT:
                call = call._replace(rights=draw.choice([0, 3, 7, 7, 7]))
            elif each == TOUCH:
                call = call._replace(address=base + draw.randrange(4096), size=draw.randrange(3), rights=draw.randrange(2))
            elif each == RELEASE:
                call = call._replace(address=0, size=draw.choice([0, size]), physical=physical)
            for _ in range(draw.choice([1, 1, 2, 4]) if each == TOUCH else 1):
                self.begin(call, False)
                self.answer(quick)

    def begin(self, call, is_stuck):
        """Makes the call; an update that is stuck gets no answer in this segment."""
        number = len(self.made.events)
        self.begun[call.thread], self.held[number] = number, self.known
        self.made.events.append(call)
        if is_stuck and len(self.stuck) + 1 < self.threads:
            self.stuck.add(call.thread)
            self.place(number)

    def is_unplaced(self, thread):
        number = self.begun[thread]
        return self.made.events[number].kind <= PROTECT and number not in self.made.log

    def place(self, number):
        made, run = self.made, self.run
        call, space = made.events[number], Space(run.moments[-1].limit, run.moments[-1].pages)
        self.answers.append(space.apply(call.kind, call.address, call.size, call.rights, call.physical))
        run.moments.append(space)
        run.entries.append([call, made.first + number, None])
        made.log.append(number)

    def answer(self, thread):
        draw, made, run, number = self.draw, self.made, self.run, self.begun.pop(thread)
        call, event = made.events[number], made.first + len(made.events)
        if call.kind <= PROTECT:
            if number not in made.log:
                self.place(number)
            at = made.log.index(number)
            run.entries[made.before + at][2] = event
            self.known, reply = max(self.known, at + 1), Reply(number, at, self.answers[at])
        elif call.kind < TOUCH:
            at = draw.randint(self.held[number], len(made.log))
            self.known = max(self.known, at)
            reply = Reply(number, at, run.moments[made.before + at].read(call.kind, call.address, call.size, call.rights))
        else:
            other = call.kind == RELEASE and draw.random() < 0.02
            reply = Reply(number, draw.choice([0, 7, 1 << 31]), (FAULT, 0, 0, 4) if other else (DONE, 0, 0, 0))
        made.events.append(reply)

    def settle(self, wrong):
        """The answers of the last segment's touches, some of them wrong. Its first fault."""
        made, faults, replies = self.run.segments[-1], [], self.run.segments[-1].replies()
        for number, call in enumerate(list(made.events)):
            if isinstance(call, Call) and call.kind == TOUCH and number in replies:
                is_stale = self.settle_touch(made, number, replies[number], wrong)
                faults += [(24, number, "Stale")] * is_stale
        for number, call in enumerate(made.events):
            if isinstance(call, Call) and call.kind == RELEASE:
                how = self.of_release(made, number, replies.get(number))
                faults += [(25, number, "Reachable")] * how.startswith("reachable")
                self.kinds[how] += not faults or faults[0][0] == 25 and faults[0][1] == number
                self.kinds["release without a reply"] += number not in replies
        return min(faults, default=None)

    def settle_touch(self, made, number, end, wrong):
        """Gives the touch its answer: a right one that is rare, or a wrong one if there is one. Says whether it is wrong."""
        draw, run, call = self.draw, self.run, made.events[number]
        right = run.right_answers(made, number, end)
        answer = draw.choice(sorted([each for each, why in right.items() if why != "at a moment"] or right))
        gone = self.gone(call, made.first + number, made.first + end)
        if wrong and gone.keys() - right.keys() and draw.random() < 0.6:
            answer = draw.choice(sorted(gone.keys() - right.keys()))
        elif wrong and draw.random() < 0.3:
            others = {run.answer(n, call) for n in range(len(run.moments))}
            others |= {(FAULT, 0, 0, code | bit) for _, _, _, code in [Space(1).access(0, call.size, call.rights)] for bit in (0, 1)}
            answer = draw.choice(sorted(others - right.keys()) or [answer])
        made.events[end] = made.events[end]._replace(answer=answer)
        if answer in right:
            self.kinds[f"touch {right[answer]}"] += 1
        elif gone.get(answer):
            self.kinds["stale: a page whose unmap is open, and what came behind was taken away"] += 1
        elif answer[0] == ALLOWED:
            self.kinds["stale: allowed"] += 1
        elif answer[3] & 1:
            self.kinds[f"stale: a fault {'by rights that are gone' if answer in gone else 'of a page'}"] += 1
        else:
            had = None in run.looks(call.address)[made.before:run.foreseen(call.address, made.first + end) + 1]
            self.kinds["stale: a fault of no page" + " that its replica had" * had] += 1
        return answer not in right

    def gone(self, call, made, answered):
        """Answers as at moments that are over; of each whether it is by a page of which something was taken away first by who still is open."""
        run, gone = self.run, {}
        for n in range(run.foreseen(call.address, answered)):
            over = run.forbidding(call.address, n, made)
            if over:
                is_open = run.looks(call.address)[n] and over[0] > min(place for place in run.taking(call.address) if place >= n)
                gone[run.answer(n, call)] = is_open and gone.get(run.answer(n, call), True)
        return gone

    def of_release(self, made, number, end):
        """What is to be said of the release, and why."""
        run, call = self.run, made.events[number]
        if end is not None and made.events[end].answer != (DONE, 0, 0, 0):
            return "reachable: answered otherwise"
        found = run.reached(made, number)
        if found is None:
            if not any(True for _ in run.ways(call.physical, call.physical + BYTES[call.size])):
                return "release of memory that never had a page"
            opened = [entry for entry in run.entries if entry[1] > made.first + number and entry[0].kind == MAP]
            later = any(call.physical <= entry[0].physical < call.physical + BYTES[call.size] for entry in opened)
            return "release of memory that an open map will have" if later else "release of memory that had a page"
        address, n = found
        ending = min((place for place in run.taking(address) if place >= n), default=None)
        if ending is None or run.entries[ending][1] > made.first + number:
            return "reachable: nobody takes the page away"
        behind = ", and an update behind that was answered" * run.is_behind(address, n, made.first + number)
        if run.entries[ending][2] is not None:
            return f"reachable: it is taken away later{behind}"
        return f"reachable: it {'is' if ending >= made.before else 'was'} never over{' before the cut' * (ending < made.before)}{behind}"


def spelled(drawing):
    parts = []
    for each in drawing.run.segments:
        counts = struct.pack(">BBHHIII", 4, drawing.replicas, drawing.threads, drawing.run.moments[0].limit, len(each.log), len(each.events), 0)
        parts += [b"NRVS", struct.pack(">H", 1), counts, struct.pack(f">{len(each.log)}I", *each.log)]
        parts += [*map(event_bytes, each.events), bytes(16 * drawing.replicas)]
    return b"".join(parts)


def order(segment):
    reads = [(each.at, each.call) for each in segment.events if isinstance(each, Reply) and segment.events[each.call].kind in (RESOLVE, ACCESS)]
    return recording.order_of(segment.log, reads)


def chain(seed):
    """The bytes of a drawn chain, the lines that are to be said of it, what it has, and of a right one how many touches have each excuse."""
    draw = random.Random(seed)
    drawing, lines = Drawing(draw), []
    wrong = draw.choice([None, None, 0, 1, 2])
    for k in range(SEGMENTS):
        made = drawing.segment()
        fault = drawing.settle(wrong == k)
        drawing.kinds["update that is never answered"] += len(set(made.log) - made.replies().keys())
        if fault:
            drawing.kinds[f"{fault[2]} in segment {k} of three"] += 1
            return spelled(drawing), [*lines, f"segment {k}", f"no {fault[0]} {fault[2]} {fault[1]}"], drawing.kinds, None
        lines += [f"segment {k}", "yes", " ".join(["order", *map(str, order(made))])]
    excuses = drawing.run.excuses()
    drawing.kinds["right chain"] += 1
    drawing.kinds["right chain with a late fault again"] += excuses["repeated"] > 1
    for excuse in ("open", "kept", "lagging"):
        drawing.kinds[f"touch of a right chain, {excuse}"] += excuses[excuse]
    return spelled(drawing), [*lines, f"segments {SEGMENTS}"], drawing.kinds, excuses


def judges(program):
    import model_chains
    yield "the second auditor", lambda data: model_chains.verdict(data)[0]
    if program:
        yield program, lambda data: subprocess.run([program, "audit", "--chain"], input=data, stdout=subprocess.PIPE).stdout.decode()


def counters(program):
    """Who counts the excuses of a right chain."""
    import model_chains
    yield "the second auditor", model_chains.excuses
    if program:
        yield program, lambda data: json.loads(subprocess.run([program, "explain", "--chain", "--json"], input=data,
                                                              stdout=subprocess.PIPE).stdout)["counts"]


def main(count="1000", first="0", program=None):
    kinds, failed = collections.Counter(), 0
    for seed in range(int(first), int(first) + int(count)):
        data, lines, has, excuses = chain(seed)
        kinds += has
        wrong = [f"{name} says {said[-1:]}" for name, judge in judges(program) for said in [judge(data).splitlines()] if said != lines]
        if excuses and not wrong:
            wrong = [f"{name} counts {counted}" for name, count in counters(program) for counted in [count(data)]
                     if any(counted[what] != excuses[what] for what in EXCUSES)]
        failed += bool(wrong)
        for each in wrong:
            print(f"failed: drawn chain {seed}: {each} for {lines[-1]}")
    print("\n".join(f"{n:7} {kind}" for kind, n in sorted(kinds.items())))
    print(f"{int(count) - failed} passed, {failed} failed")
    return 1 if failed else 0


if __name__ == "__main__":
    sys.path.append(f"{sys.path[0]}/../models")
    sys.exit(main(*sys.argv[1:]))
