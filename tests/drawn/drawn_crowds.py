"""Crowds, drawn: segments in which many updates of one address are open beside touches of it, and what is to be said of each.

All updates change how one address looks, by pages of three sizes. The first few are answered, and few of the others, each by a thread of
its own. Touches are made among them, each answered as the address looked at a moment that is drawn of those that are still allowed.
How the address looked after each update is put down as it is made, and what may be answered is looked up in all moments.
"""
import recording
from drawn_chains import REGIONS, TOUCH, Call, Layout, Reply, Segment, takes_away
from recording import ALLOWED, BYTES, DONE, FAULT, MAP, PROTECT, UNMAP, Space

SIZES = ("4 KiB", "2 MiB", "1 GiB")
PLANTS = ("over", "foreseen", "another frame", "another page offset", "other rights", "no such fault", "no answer of an access")
LOOKS = ("the first moment", "the last moment", "a moment between")
KINDS = ([f"a touch as at {each}" for each in LOOKS] + [f"a touch between: allowed by {each}" for each in SIZES]
         + [f"a touch between: allowed with rights {rights}" for rights in range(8)]
         + [f"a touch between: refused with rights {rights}" for rights in range(8) if rights < 7] + ["a touch between: no page"]
         + [f"Stale in a crowd: {each}" for each in PLANTS])


class Crowd:
    """A segment, event by event, and how the address looks after each number of entries: (size, physical, rights) of its page, or None."""

    def __init__(self, draw, layout):
        self.draw, self.space = draw, Space(layout.tables, levels=layout.levels)
        self.made = Segment(layout, [], dumps=[None] * layout.replicas)
        self.address = draw.choice(REGIONS[layout.levels]) + draw.randrange(BYTES[2])
        self.frames = [draw.randrange(1 << 20) << 30 for _ in range(draw.choice([1, 2, 5]))]
        self.seen = [None]
        self.over, self.taken = 0, 0                # entries up to the last change that was answered, and to the last such that took away
        self.open, self.touches = [], {}            # touches; by each what was over, the moments from which it may be answered, and its reply

    def update(self, is_answered):
        """By a thread of its own: one whose call isn't answered makes no other."""
        draw, made, page = self.draw, self.made, self.seen[-1]
        size = draw.randrange(3) if page is None or draw.random() < 0.1 else page[0]
        base, kind = self.address // BYTES[size] * BYTES[size], draw.choice([UNMAP, UNMAP, PROTECT, PROTECT, PROTECT, MAP])
        if page is None and draw.random() < 0.9:
            kind = MAP
        call = Call(draw.randrange(made.layout.replicas), len(made.log), kind, base, size if kind == MAP else 0,
                    draw.randrange(8) if kind != UNMAP else 0, draw.choice(self.frames) if kind == MAP else 0)
        answer = self.space.apply(kind, base, size, call.rights, call.physical)
        number, at = len(made.events), self.space.at(self.address)
        made.events.append(call)
        made.log.append(number)
        self.seen.append(None if at is None else self.space.pages[at])
        if is_answered:
            made.events.append(Reply(number, len(made.log) - 1, answer))
            if self.seen[-1] != self.seen[-2]:
                self.over = len(made.log)
                self.taken = self.over if takes_away(*self.seen[-2:]) else self.taken

    def touch(self):
        draw, number = self.draw, len(self.made.events)
        thread = self.made.layout.threads - 1 - draw.randrange(3)
        if all(self.made.events[each].thread != thread for each in self.open):
            address = self.address // BYTES[0] * BYTES[0] + draw.randrange(BYTES[0])
            replica, access, mode = draw.randrange(self.made.layout.replicas), draw.randrange(3), draw.randrange(2)
            self.made.events.append(Call(replica, thread, TOUCH, address, access, mode))
            self.open.append(number)
            self.touches[number] = [self.taken, self.over]

    def reply(self):
        number = self.open.pop(self.draw.randrange(len(self.open)))
        self.touches[number] += [len(self.made.log), len(self.made.events)]
        self.made.events.append(Reply(number, self.draw.randrange(1 << 32), ()))

    def last_of(self, entries):
        """The last moment of a touch that was answered when the log had so many: before the next change."""
        while entries + 1 < len(self.seen) and self.seen[entries + 1] == self.seen[entries]:
            entries += 1
        return entries

    def answer(self, number, page):
        """What this touch is answered where the address looks so."""
        call = self.made.events[number]
        space = Space(0, {call.address // BYTES[page[0]] * BYTES[page[0]]: page} if page else {})
        return space.access(call.address, call.size, call.rights)

    def finish(self):
        """The touches get their answers. Returns what each is, by kind."""
        kinds = []
        while self.open:
            self.reply()
        for number, (taken, over, entries, end) in self.touches.items():
            moments = [n for n in range(taken, self.last_of(entries) + 1) if self.seen[n] or n >= over]
            self.touches[number] = moments, end
            page = self.seen[self.draw.choice(moments)]
            answer = self.answer(number, page)
            self.made.events[end] = self.made.events[end]._replace(answer=answer)
            kinds += kinds_of(answer, page, *(self.answer(number, self.seen[n]) for n in (moments[0], moments[-1])))
        return kinds

    # ---- one wrong answer

    def is_stale(self, number, answer):
        """No moment gives that answer, not even one at which the table of the touch's replica may lag."""
        moments, _ = self.touches[number]
        replica, events = self.made.events[number].replica, self.made.events
        known = max((each.at + 1 for each in events[:number]
                     if isinstance(each, Reply) and events[each.call].kind < TOUCH and events[each.call].replica == replica), default=0)
        pages = {*(self.seen[n] for n in moments), *(page for page in self.seen[known:moments[-1] + 1] if page is None)}
        return answer not in {self.answer(number, page) for page in pages}

    def wrong(self, number, name):
        """An answer of that kind which might be wrong."""
        draw, (moments, end) = self.draw, self.touches[number]
        answer, call = self.made.events[end].answer, self.made.events[number]
        if name == "over":
            over = set(range(moments[-1])).difference(moments)
            return self.answer(number, self.seen[draw.choice(sorted(over))]) if over else answer
        if name == "foreseen":
            return self.answer(number, self.seen[min(moments[-1] + 1, len(self.seen) - 1)])
        if name in ("another frame", "another page offset"):
            return (ALLOWED, 0, 0, answer[3] ^ (1 << 30 if name == "another frame" else draw.choice([1, 1 << 12, 1 << 21])))
        if name == "other rights":
            pages = [self.seen[n] for n in moments if self.seen[n]]
            return self.answer(number, (*draw.choice(pages)[:2], draw.randrange(8))) if pages else answer
        if name == "no such fault":
            return (FAULT, 0, 0, self.answer(number, None)[3] ^ draw.choice([1, 2, 4, 16]))
        return draw.choice([(DONE, 0, 0, 0), (recording.MAPPED, 0, call.rights, answer[3])])

    def plant(self, name):
        """Gives one touch a wrong answer of that kind; returns its number, or None where no touch that is tried can have one."""
        numbers = list(self.touches)
        for number in self.draw.sample(numbers, min(len(numbers), 8)):
            answer = self.wrong(number, name)
            if self.is_stale(number, answer):
                _, end = self.touches[number]
                self.made.events[end] = self.made.events[end]._replace(answer=answer)
                return number
        return None


def kinds_of(answer, page, at_first, at_last):
    if answer in (at_first, at_last):
        return ["a touch as at the first moment" if answer == at_first else "a touch as at the last moment"]
    if page is None:
        return ["a touch as at a moment between", "a touch between: no page"]
    how = "allowed" if answer[0] == ALLOWED else "refused"
    by_size = [f"a touch between: allowed by {SIZES[page[0]]}"] if how == "allowed" else []
    return ["a touch as at a moment between", f"a touch between: {how} with rights {page[2]}", *by_size]


def crowd(draw, updates, touches):
    """A crowd of so many updates and no more touches than that, and what the touches are."""
    layout = Layout(draw.choice([4, 5]), draw.randint(1, 4), 65535, 4096)
    made = Crowd(draw, layout)
    for _ in range(draw.randrange(4)):
        made.update(True)
    steps = ["update"] * updates + ["touch", "reply"] * touches
    if draw.random() < 0.5:
        draw.shuffle(steps)
    for step in steps:
        if step == "update":
            made.update(draw.random() < 0.02)
        elif step == "touch":
            made.touch()
        elif made.open:
            made.reply()
    return made, made.finish()
