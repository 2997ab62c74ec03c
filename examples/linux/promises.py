"""What system calls have promised of a process's pages: it holds until another call changes it."""
import bisect
from collections.abc import Iterator
from dataclasses import dataclass, field
from typing import NamedTuple

from log_lines import Returned
from page_tables import EXEC, USER, WRITE

MMAP, MPROTECT, MUNMAP, BRK, MREMAP, MADVISE, PKEY_MPROTECT = 9, 10, 11, 12, 25, 28, 329
MADV_DONTNEED = 4
OTHERS = (30, 67, 158, 206, 216, 453)       # shmat, shmdt, arch_prctl, io_setup, remap_file_pages, map_shadow_stack: where isn't known
PROTECTS = (MPROTECT, PKEY_MPROTECT)
PROT_WRITE, PROT_EXEC, PROT_ALL, PROT_GROWS = 2, 4, 7, 3 << 24
MAP_FIXED, MAP_GROWS_DOWN = 0x100010, 0x100     # the first with its kind that replaces nothing
MREMAP_FIXED, MREMAP_DONTUNMAP = 2, 4
ERRORS = 1 << 63
GONE = 8                                    # nothing is mapped; not a right, so that no page may be there
EVERYWHERE = 0, 1 << 64


def allowed_by(protection: int) -> int:
    """The rights that a protection leaves to the pages; 0: none may be there."""
    if not protection & PROT_ALL:
        return 0
    return USER | (WRITE if protection & PROT_WRITE else 0) | (EXEC if protection & PROT_EXEC else 0)


def rounded(length: int) -> int:
    return length + 4095 & -4096


def taken_away(line: Returned) -> tuple[int, int, int | None] | None:
    """What a call that succeeded says of what others took away before it began: from where to where nothing of it is left, or nothing that
    allows more than this."""
    first, second, third, *fourth = line.arguments
    if line.number == MREMAP and not line.result & ERRORS and line.result != first and not (fourth and fourth[0] & MREMAP_DONTUNMAP):
        return first, first + rounded(second), None
    if line.result or line.number in PROTECTS and third & PROT_GROWS:
        return None
    if line.number == MUNMAP or line.number == MADVISE and third == MADV_DONTNEED:
        return first, first + rounded(second), None
    return (first, first + rounded(second), allowed_by(third)) if line.number in PROTECTS else None


class Range(NamedTuple):
    begin: int
    end: int
    allowed: int        # rights, or GONE
    since: int          # when it was promised,
    task: int           # .. and to whom


@dataclass
class Call:
    """A system call that is under way."""
    since: int
    number: int | None              # of an older log it isn't known
    arguments: tuple[int, ...] = ()

    def may_change(self, each: Range) -> bool:
        """Whether the pages of a range may be others by this call, though it isn't over."""
        first, second, third, fourth = (*self.arguments, 0, 0, 0, 0)[:4]
        if self.number is None or self.number in OTHERS or self.number == MREMAP and fourth & MREMAP_FIXED:
            return True
        if self.number in (*PROTECTS, MUNMAP) or self.number == MMAP and fourth & MAP_FIXED:
            return bool(third & PROT_GROWS) or first < each.end and each.begin < first + rounded(second)
        if self.number == MREMAP and first < each.end and each.begin < first + rounded(second):
            return True
        return self.number in (MMAP, BRK, MREMAP) and each.allowed == GONE


@dataclass
class Promises:
    """By ranges of addresses; of what lies in none, nothing is known."""
    ranges: list[Range] = field(default_factory=list)
    calls: dict[int, Call] = field(default_factory=dict)        # by task
    clock: int = 0

    def within(self, begin: int, end: int) -> list[Range]:
        at = bisect.bisect_right(self.ranges, begin, key=lambda each: each.begin)
        at -= at > 0 and self.ranges[at - 1].end > begin
        found = []
        while at < len(self.ranges) and self.ranges[at].begin < end:
            found.append(self.ranges[at])
            at += 1
        return found

    def replace(self, begin: int, end: int, by: list[Range]) -> None:
        """What is promised between two addresses is this and nothing else."""
        inside = self.within(begin, end)
        at = bisect.bisect_left(self.ranges, inside[0].begin if inside else begin, key=lambda each: each.begin)
        before = [inside[0]._replace(end=begin)] if inside and inside[0].begin < begin else []
        behind = [inside[-1]._replace(begin=end)] if inside and inside[-1].end > end else []
        self.ranges[at:at + len(inside)] = before + by + behind

    def promise(self, begin: int, end: int, allowed: int | None, task: int) -> None:
        """A call has returned; where another call has changed the same since it began, nothing is known of their order."""
        if begin >= end:
            return
        since = self.calls[task].since if task in self.calls else 0
        doubtful = [each for each in self.within(begin, end) if each.task != task and each.since >= since]
        self.replace(begin, end, [] if allowed is None else [Range(begin, end, allowed, self.clock, task)])
        for each in doubtful:
            self.replace(max(each.begin, begin), min(each.end, end), [])

    def forget_what_is_gone(self) -> None:
        """The kernel may have put a mapping anywhere where there was none."""
        self.ranges = [each for each in self.ranges if each.allowed != GONE]

    # ---- the log ----

    def entered(self, task: int, number: int | None, arguments: tuple[int, ...]) -> None:
        self.clock += 1
        self.calls[task] = Call(self.clock, number, arguments)

    def left(self, task: int) -> None:
        """It is in user mode: its call is over."""
        self.calls.pop(task, None)

    def returned(self, task: int, number: int, arguments: tuple[int, ...], result: int) -> None:
        self.clock += 1
        first, second, third, fourth = (*arguments, 0)[:4]
        end, failed = first + rounded(second), bool(result & ERRORS)
        if number == MREMAP:
            self.moved(task, first, rounded(second), rounded(third), fourth, result)
        elif failed and number in (MMAP, MUNMAP, *PROTECTS):
            self.promise(first, end, None, task)
        elif number == MMAP:
            self.promise(result, result + rounded(second), allowed_by(third), task)
        elif number in PROTECTS:
            self.promise(first, end, allowed_by(third), task)
        elif number == MUNMAP:
            self.promise(first, end, GONE, task)
        if number in (BRK, *OTHERS) or number == MMAP and fourth & MAP_GROWS_DOWN:
            self.forget_what_is_gone()
        if number in PROTECTS and third & PROT_GROWS:
            self.ranges = []
        self.left(task)

    def moved(self, task: int, old: int, length: int, new_length: int, flags: int, new: int) -> None:
        """The new range allows what the old one did, where that is one thing."""
        before = {each.allowed for each in self.within(old, old + length)} if length else set()
        allowed = before.pop() if len(before) == 1 and self.covers(old, old + length) else None
        if new & ERRORS:
            self.promise(old, old + length, None, task)
            return
        if not flags & MREMAP_DONTUNMAP and length:
            self.promise(old, old + length, GONE, task)
        self.promise(new, new + new_length, allowed, task)

    def covers(self, begin: int, end: int) -> bool:
        """Whether something is known of each address."""
        for each in self.within(begin, end):
            if each.begin > begin:
                return False
            begin = each.end
        return begin >= end

    # ---- what is asked ----

    def exceeded(self, begin: int, end: int, rights: int, task: int) -> Iterator[int]:
        """What a page with these rights, which a task has stored, was promised to allow at most, where that is less."""
        for found in self.within(begin, end):
            each = found._replace(begin=max(found.begin, begin), end=min(found.end, end))
            others = (call for other, call in self.calls.items() if other != task)
            is_more = each.allowed in (0, GONE) or rights & ~each.allowed
            if is_more and not any(call.may_change(each) for call in others):
                yield 0 if each.allowed == GONE else each.allowed
