#!/usr/bin/env python3
"""Makes a trace of a recorder's log: each change of a translation is an update, each access and each page fault an access. In a chain these
are touches, and memory that the kernel frees is a release.

    convert.py [--no-intent] [--every-access | --chain N [--no-releases] [--child]] [--most N] [--calls FILE] LOG >TRACE

LOG is a file, or - for standard input. One that ends with .xz is unpacked.
--no-intent: what mprotect and munmap promised is left to the tables.   --every-access: also those between a store and its flush.
--chain: a chain of segments of some N updates each, with all accesses as touches; it may begin with tables that have pages.
--no-releases: what the kernel frees is left out.   --child: the chain of the process's child, if the log has lines of one.
--most: stop after so many updates.   --calls: where each call comes from, a line each, parted by tabs: its number, the processor or
the task, what ended the time of an update that takes away, and the instructions, each an address and its place in the kernel: that of
the store or the access, and those to which the calls return that led there.

How, and why so, is in README.md. Nothing here is verified, and nothing depends on it.
"""
import argparse
import bisect
import collections
import functools
import os
import sys
from collections.abc import Callable, Iterable, Iterator
from dataclasses import dataclass, field
from typing import NamedTuple

sys.dont_write_bytecode = True
import log_lines
from log_lines import (Access, Born, Dumped, End, Entered, Entry, Fault, Flushed, Flushing, InUser, Line, Note, Released, Returned, Store,
                       Symbol, Table, Word, open_lines, read_lines)
from page_tables import BYTES, Change, Page, PageTables, parts_of
from private_pages import UNWRITTEN, PrivatePages, is_fork
import met
from chain_bytes import Segment
from met import BETWEEN, ENDED, GIVEN, MET, USED, Users
from promises import MUNMAP, PROTECTS, Promises, allowed_by, rounded, taken_away
from trace_bytes import ACCESS, ALLOWED, CHANGED, DONE, FAULT, MAP, PROTECT, REMOVED, UNMAP, Frames, Trace
from windows import EVERYTHING, Update, Windows

CHILD = "%"                     # with which lines begin of the child of a process that is watched too
PROCESSORS = 8                  # threads 0 to 7 are the processors' accesses, the others updates under way
MORE = "pages that allow more than a system call said"
LATER = "pages that were stored later, and allow more than a system call said"
FORKED = "private pages that a fork leaves writable"
TWICE = "private pages that may be written, and have the frame of another one"
MOST_STORED = 4096              # pages of a task that isn't seen in user mode: of a thread of the kernel's own, say


@dataclass(frozen=True)
class Options:
    intent: bool = True
    every_access: bool = False
    most: int = 0
    chain: int = 0
    releases: bool = True


class Answer(NamedTuple):
    """Of a processor: ALLOWED and the physical address, or FAULT and the error code."""
    kind: int
    value: int


class Source(NamedTuple):
    """Who made a call, and by which instructions, the innermost first."""
    call: str               # its number; of a chain with the segment's before it
    who: str
    instructions: tuple[int, ...]
    until: str = ""         # of an update that takes away: what ended its time


@dataclass
class Converter:
    options: Options
    trace: Trace = field(default_factory=Trace)
    tables: PageTables = field(default_factory=lambda: PageTables(0))
    pages: dict[int, Page] = field(default_factory=dict)                    # after the log as it is
    promised: set[int] = field(default_factory=set)                         # bases where a system call's promise is, not a store
    latest: dict[int, tuple[int, int]] = field(default_factory=dict)        # by base: place and task of the latest update
    given: dict[int, int] = field(default_factory=dict)                     # by base: place of the latest one that gives something
    windows: Windows = field(default_factory=Windows)
    flushing: dict[int, int] = field(default_factory=dict)                  # by task: places when its flush by all processors began
    entered: dict[int, int] = field(default_factory=dict)                   # by task: places when its system call began
    promises: Promises = field(default_factory=Promises)
    users: Users = field(default_factory=Users)
    stored: dict[int, set[int]] = field(default_factory=lambda: collections.defaultdict(set))      # by task: bases, not looked at yet
    free: list[int] = field(default_factory=list)                           # threads for updates that aren't answered yet
    start: Frames = field(default_factory=dict)
    dump: Frames = field(default_factory=dict)
    put_segment: Callable[[bytes], object] | None = None                    # of a chain: where segments go that are over,
    put_calls: Callable[[str], object] | None = None                        # .. and their calls; else they are kept here:
    segments: list[bytes] = field(default_factory=list)
    ended: int = 0
    placed: int = 0                                                         # updates in those that are over
    sources: list[Source] = field(default_factory=list)
    symbols: dict[int, str] = field(default_factory=dict)
    notes: list[str] = field(default_factory=list)
    counts: collections.Counter[str] = field(default_factory=collections.Counter)
    is_over: bool = False
    is_cut: bool = False
    parent: "Converter | None" = None                                       # of the process that makes this address space by a fork

    def __post_init__(self) -> None:
        if self.options.chain:
            self.trace = Segment()
        self.free = list(range(self.trace.threads - 1, PROCESSORS - 1, -1))
        self.private = PrivatePages(self.promises)

    # ---- updates ----

    def kind(self, change: Change) -> int:
        if change.before is None:
            return MAP
        return UNMAP if change.after is None else PROTECT

    def update(self, change: Change, task: int, pcs: tuple[int, ...], processor: int = -1) -> None:
        """One page's update: it is called and placed here, and replied to here or when it is flushed."""
        kind, after, page = self.kind(change), change.after, change.before or change.after
        assert page is not None
        size, rights, physical = (after.size, after.rights, after.physical) if after and kind == MAP else (0, 0, 0)
        takes_away = kind == UNMAP or kind == PROTECT and after is not None and change.before.rights & ~after.rights
        waits = takes_away and len(self.free) > 1
        thread = self.free.pop() if waits else self.free[-1]
        call = self.trace.call(thread, kind, change.base, size, after.rights if kind == PROTECT else rights, physical)
        place = self.trace.place(call)
        update = Update(call, place, self.placed + place, thread, change, len(self.sources), waits)
        self.sources.append(Source(self.name(call), f"task {task:x}", pcs))
        self.latest[change.base] = (update.number, task)
        if takes_away:
            self.windows.add(update, task)
            self.counts[USED] += processor >= 0 and self.users.have_others(change.base, processor)
        if after and (not change.before or after.rights & ~change.before.rights):
            self.given[change.base] = update.number
        if not waits:
            self.reply(update)
        self.apply(change)
        self.counts[("maps", "unmaps", "protects")[kind]] += 1

    def apply(self, change: Change) -> None:
        if change.after is None:
            self.pages.pop(change.base, None)
        else:
            self.pages[change.base] = change.after
        self.private.changed(change)

    def reply(self, update: Update) -> None:
        """Answers with what the store overwrote."""
        kind, before = self.kind(update.change), update.change.before
        if kind == MAP:
            self.trace.reply(update.call, update.place, DONE)
        elif kind == UNMAP:
            self.trace.reply(update.call, update.place, REMOVED, before.size, before.rights, before.physical)
        else:
            self.trace.reply(update.call, update.place, CHANGED, 0, before.rights)

    def answer(self, over: Iterable[Update], why: str) -> None:
        """The time of these updates is over."""
        for update in over:
            if update.waits:
                self.reply(update)
                self.sources[update.source] = self.sources[update.source]._replace(until=why)
                self.free.append(update.thread)

    def flushed(self, line: Flushed) -> None:
        """A task has flushed for itself, and, where it is known when it began, by all processors for what was stored before."""
        self.answer(self.windows.flushed(*line[1:]), f"flushed by its task on processor {line.processor}")
        began = self.flushing.pop(line.task, 0)
        over = self.windows.over_for_others(*line[1:], lambda _: began)
        self.counts[ENDED] += len(over)
        self.answer(over, f"flushed by another task on processor {line.processor}")

    # ---- stores ----

    def store(self, line: Store) -> None:
        changes = self.tables.store(line.frame, line.index, line.old, line.new)
        self.counts["stores"] += 1
        self.counts["stores for another address space's task"] += not line.is_own
        for change in changes:
            for each in self.split(change):
                self.update(each, line.task, line.pcs, line.processor)
                self.note_stored(each, line.task)

    def split(self, change: Change) -> list[Change]:
        """One change of a page as updates."""
        base, before, after = change
        if after and after.physical + BYTES[after.size] > 1 << 51:
            self.counts["left out: words that are no page of a space"] += 1
            after = None
        if base in self.promised:
            here = self.pages.get(base)
            if before and not here:     # it has gone by promise, and is still in the tables
                if after is None:
                    self.promised.discard(base)
                return []
            self.promised.discard(base)
            before = here
        if before == after:
            return []
        if before and after and before[:2] != after[:2]:
            return [Change(base, before, None), Change(base, None, after)]
        return [Change(base, before, after)]

    # ---- accesses ----

    def access(self, processor: int, is_user: bool, access: int, address: int, answer: Answer, pc: int) -> None:
        if address >> (11 + 9 * self.tables.levels):
            return
        if isinstance(self.trace, Segment):
            call = self.trace.touch(processor % PROCESSORS, address, access, is_user, *answer)
            self.counts[BETWEEN] += self.windows.is_between(address)
        elif self.windows.is_between(address) and not self.options.every_access:
            self.counts["left out: accesses between a store and its flush"] += 1
            return
        else:
            call = self.trace.call(processor % PROCESSORS, ACCESS, address, access, int(is_user))
            self.trace.reply(call, len(self.trace.log), answer.kind, value=answer.value)
        self.sources.append(Source(self.name(call), f"processor {processor}", (pc,) if pc else ()))
        self.counts["accesses" if answer.kind == ALLOWED else "page faults"] += 1
        if answer.kind == ALLOWED:
            self.users.used(processor, address, self.pages)

    def fault(self, line: Fault) -> None:
        access = 2 if line.code & 16 else line.code >> 1 & 1
        self.access(line.processor, bool(line.code & 4), access, line.address, Answer(FAULT, line.code & 0x17), 0)

    # ---- memory that is given away ----

    def release(self, line: Released) -> None:
        """Its frames are somebody else's from here on. A processor's thread has no open call, so it can make one."""
        if not isinstance(self.trace, Segment) or not self.options.releases:
            return
        for size, physical in parts_of(line.frame, line.count):
            self.counts[GIVEN] += bool(self.windows.open)
            call = self.trace.release(line.processor % PROCESSORS, size, physical)
            self.sources.append(Source(self.name(call), f"task {line.task:x}", line.pcs))
            self.counts["releases"] += 1
        over = self.windows.given_away(line.frame * BYTES[0], (line.frame + line.count) * BYTES[0])
        self.answer(over, "not flushed when its memory was given away")

    # ---- what system calls promise ----

    def note_stored(self, change: Change, task: int) -> None:
        """A page that appears, or allows more than before, is looked at when its task is back in user mode."""
        if change.after and (not change.before or change.after.rights & ~change.before.rights):
            self.stored[task].add(change.base)
            if len(self.stored[task]) > MOST_STORED:
                self.stored[task].clear()

    def keep_promise(self, base: int, allowed: int, task: int, why: str) -> None:
        """The log has what was promised, though no store made it: what a processor does that contradicts it is found."""
        page = self.pages[base]
        self.counts[why] += 1
        if self.options.intent:
            after = page._replace(rights=page.rights & allowed) if allowed else None
            self.promised.add(base)
            self.update(Change(base, page, after), task, ())
            self.answer(self.windows.flushed(task, base, base + 1), "promised by the system call's return")

    def look_at_stored(self, task: int) -> None:
        """Of what a task has stored no page allows more than was promised before, and wasn't changed by another call since."""
        for base in sorted(self.stored.pop(task, ())):
            page = self.pages.get(base)
            if page and self.private.has_anothers_frame(base, page, task):
                self.keep_promise(base, UNWRITTEN, task, TWICE)
                page = self.pages.get(base)
            for allowed in self.promises.exceeded(base, base + BYTES[page.size], page.rights, task) if page else ():
                self.keep_promise(base, allowed, task, LATER)
                break

    def returned(self, line: Returned) -> None:
        """After mprotect or munmap no page of its range allows more than it said: where one does, the log has what was promised."""
        self.private.returned(line)
        self.promises.returned(*line)
        if taken := taken_away(line):
            self.end_for_others(line.task, *taken)
        if line.number in (*PROTECTS, MUNMAP) and not line.result:
            self.look_at_range(line)
        if is_fork(line):
            self.forked(line.task)
        self.look_at_stored(line.task)

    def end_for_others(self, task: int, begin: int, end: int, allowed: int | None) -> None:
        over = self.windows.over_for_others(task, begin, end, functools.partial(self.last_promised, task), allowed)
        self.answer(over, "promised by the return of another task's system call")

    def forked(self, task: int) -> None:
        """No page of a private mapping may be written that was there when the fork began: the child has it too."""
        entered, bases = self.entered.get(task, 0), sorted(self.pages)
        for begin, end in list(self.private.shared_by_fork(task)):
            self.end_for_others(task, begin, end, UNWRITTEN)
            for base in bases[bisect.bisect_left(bases, begin):bisect.bisect_left(bases, end)]:
                if self.pages[base].rights & ~UNWRITTEN and self.latest.get(base, (-1, task))[0] < entered:
                    self.keep_promise(base, UNWRITTEN, task, FORKED)

    def last_promised(self, task: int, base: int) -> int:
        """The updates of a page up to which the call of a task says that what they took away is over: all that there are, where nothing
        was given to the page since the call began. Else it may have been given, and taken away again, when the call had done its work."""
        entered = self.entered.get(task, 0)
        return EVERYTHING if self.given.get(base, -1) < entered else entered

    def look_at_range(self, line: Returned) -> None:
        begin, length, protection, *_ = line.arguments
        allowed = allowed_by(protection) if line.number in PROTECTS else 0
        end, entered = begin + rounded(length), self.entered.get(line.task, 0)
        for base in sorted(each for each in self.pages if begin <= each < end):
            page, (place, task) = self.pages[base], self.latest.get(base, (-1, line.task))     # none: of the start
            is_of_another = task != line.task and place >= entered
            if base + BYTES[page.size] > end or is_of_another or (allowed and not page.rights & ~allowed):
                continue
            self.keep_promise(base, allowed, line.task, MORE)

    def enter(self, line: Entered) -> None:
        self.promises.left(line.task)
        self.look_at_stored(line.task)
        self.entered[line.task] = self.placed + len(self.trace.log)
        self.promises.entered(*line)

    def in_user(self, task: int) -> None:
        self.promises.left(task)
        if task in self.stored:
            self.look_at_stored(task)

    # ---- the log ----

    def take(self, line: Line) -> None:
        if self.private.shared and isinstance(line, Access | Fault | Entered):      # the child runs
            for base in self.private.left_writable(self.pages):
                self.keep_promise(base, UNWRITTEN, getattr(line, "task", 0), FORKED)
        match line:
            case Store():
                self.store(line)
            case Access(processor, task, is_user, access, address, physical, pc):
                if is_user:
                    self.in_user(task)
                self.access(processor, is_user, access, address, Answer(ALLOWED, physical), pc)
            case Fault():
                self.fault(line)
            case Flushing(_, task, is_of_all):
                self.flushing[task] = self.placed + len(self.trace.log) if is_of_all else 0
            case Flushed():
                self.flushed(line)
            case InUser(processor, task):
                over = self.windows.flushed(task, 0, EVERYTHING)
                self.answer(over, f"not flushed, and its task in user mode on processor {processor}")
                self.in_user(task)
            case Released():
                self.release(line)
            case Entered():
                self.enter(line)
            case Returned():
                self.returned(line)
            case _:
                self.take_table(line)

    def take_table(self, line: Line) -> None:
        match line:
            case Born(root):
                self.tables = PageTables(root)
                if self.parent:
                    self.private.inherit(self.parent.private, self.parent.pages)
            case Table(frame, level):
                self.tables.tell(frame, level)
            case Word(frame, index, word):
                self.tables.tell_word(frame, index, word)
            case Dumped(frame):
                self.dump[frame] = {}
            case Entry(frame, index, word):
                self.dump[frame][index] = word
            case Symbol(pc, place):
                self.symbols[pc] = place
            case Note(text):
                self.notes.append(text)
            case End():
                self.is_over = True
                self.private.leave()

    def is_enough(self) -> bool:
        return self.trace.is_full() or 0 < self.options.most <= self.placed + len(self.trace.log)

    # ---- chains ----

    def name(self, call: int) -> str:
        return f"{self.ended}.{call}" if self.options.chain else str(call)

    def begin(self) -> None:
        """The tables that are there at first, where they have pages, are the start."""
        for base, page in self.tables.begin().items():
            self.apply(Change(base, None, page))
        self.start = self.tables.frames() if self.pages else {}
        self.start = {frame: dict(words) for frame, words in self.start.items()}

    def end_segment(self) -> None:
        assert isinstance(self.trace, Segment)
        self.trace.levels = self.tables.levels
        (self.put_segment or self.segments.append)(self.trace.spell_segment(self.tables.root, self.start, self.dump))
        if self.put_calls:
            self.put_calls(self.calls())
            self.sources = []
        self.ended += 1
        self.placed += len(self.trace.log)
        self.start, self.trace = {}, Segment()

    def is_cut_here(self) -> bool:
        """A segment is long enough, and no update is under way."""
        return 0 < self.options.chain <= max(len(self.trace.log), len(self.trace.events) // 2) and not self.windows.open

    def put(self, line: Line) -> None:
        """Takes the next line of a log; of one that is too long, the first part of it."""
        self.is_cut = self.is_cut or self.is_enough()
        if self.options.chain and not self.tables.linked and isinstance(line, Store | Access | Fault | Released | Returned):
            self.begin()
        if not self.is_cut or isinstance(line, Symbol):
            self.take(line)
        if self.is_cut_here():
            self.end_segment()

    def finish(self) -> None:
        """The log is over; where it was cut, or ends in between, the tables as the stores made them are the dump."""
        for task in list(self.windows.owed):
            self.answer(self.windows.flushed(task, 0, EVERYTHING), "not flushed when the recording ended")
        if self.is_cut or not self.is_over:
            self.notes.append("the log is cut: the dump is that of the stores")
            self.dump = self.tables.frames()

    def spell(self) -> bytes:
        if self.options.chain:
            self.end_segment()
            return b"".join(self.segments)
        self.trace.levels = self.tables.levels
        return self.trace.spell(self.tables.root, self.dump)

    def summary(self) -> str:
        """One line for what is in the trace, and one for each that isn't."""
        kinds = ["stores", "maps", "unmaps", "protects", "accesses", "page faults", *(["releases"] if self.options.chain else [])]
        lines = [", ".join(f"{self.counts[kind]} {kind}" for kind in kinds) + f", {len(self.pages)} pages at the end"]
        lines.append(met.summary(self.counts, bool(self.options.chain)))
        lines += [f"{kind}: {count}" for kind, count in sorted(self.counts.items()) if kind not in (*kinds, *MET) and count]
        return "\n".join(lines + self.notes)

    def calls(self) -> str:
        rows = []
        for call, who, pcs, until in self.sources:
            rows.append("\t".join([call, who, until, *(f"{pc:#x} {self.symbols.get(pc, '')}".rstrip() for pc in pcs)]) + "\n")
        return "".join(rows)


def convert_both(lines: Iterable[str], options: Options, put_segment: Callable[[bytes], object] | None = None) -> tuple[Converter, Converter]:
    """Takes all lines of a process and, if some begin with CHILD, of its child."""
    parent, child = Converter(options, put_segment=put_segment), Converter(options)
    child.parent = parent
    for line in lines:
        of_child = line.startswith(CHILD)
        for parsed in log_lines.parse(["@" + line[1:] if of_child else line]):
            (child if of_child else parent).put(parsed)
    for each in (parent, child):
        each.finish()
    return parent, child


def convert(lines: Iterable[str], options: Options = Options(), put_segment: Callable[[bytes], object] | None = None) -> Converter:
    """Takes all lines; of a chain each segment but the last goes where it belongs as soon as it is over."""
    return convert_both(lines, options, put_segment)[0]


def main() -> int:
    parser = argparse.ArgumentParser(usage=__doc__.split("\n")[3].strip())
    parser.add_argument("--no-intent", action="store_true")
    parser.add_argument("--every-access", action="store_true")
    parser.add_argument("--chain", type=int, default=0)
    parser.add_argument("--no-releases", action="store_true")
    parser.add_argument("--child", action="store_true")
    parser.add_argument("--most", type=int, default=0)
    parser.add_argument("--calls")
    parser.add_argument("log")
    words = parser.parse_args()
    options = Options(not words.no_intent, words.every_access, words.most, words.chain, not words.no_releases)
    try:
        with open_lines(words.log) as lines:
            converter = convert_both(lines, options)[1] if words.child else convert(lines, options, sys.stdout.buffer.write)
        sys.stdout.buffer.write(converter.spell())
        sys.stdout.flush()
    except BrokenPipeError:             # who reads has found a fault
        os.dup2(os.open(os.devnull, os.O_WRONLY), sys.stdout.fileno())
        return 0
    if words.calls:
        with open(words.calls, "w") as file:
            file.write(converter.calls())
    print(converter.summary(), file=sys.stderr)
    return 0


if __name__ == "__main__":
    sys.exit(main())
