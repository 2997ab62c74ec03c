"""Pages that are a process's own, those of private mappings: what it writes there is seen nowhere else. So no other page of it has the
frame of one that may be written, and after a fork none may be written until it is copied."""
import collections
from collections.abc import Iterator, Mapping
from dataclasses import dataclass, field

from log_lines import Returned
from page_tables import ALL, BYTES, WRITE, Change, Page
from promises import ERRORS, MADVISE, MMAP, MREMAP, MUNMAP, OTHERS, Promises, Range, rounded

CLONE, FORK = 56, 57
CLONE_VM = 0x100                # of a thread or a vfork: nothing is copied
MAP_KIND, MAP_PRIVATE = 15, 2
NOT_COPIED = (10, 18)           # MADV_DONTFORK, MADV_WIPEONFORK: the child gets no such pages, and they stay as they are
UNWRITTEN = ALL & ~WRITE        # what such a page allows until it is copied


def is_fork(line: Returned) -> bool:
    """An address space was copied."""
    copies = line.number == FORK or line.number == CLONE and not line.arguments[0] & CLONE_VM
    return copies and not line.result & ERRORS


@dataclass
class PrivatePages:
    promises: Promises                                                  # of the same process: its calls that are under way are there
    mappings: Promises = field(default_factory=Promises)                # the private ones alone, of those that calls made
    of_frame: dict[int, set[int]] = field(default_factory=lambda: collections.defaultdict(set))     # bases of small pages, by address
    shared: dict[int, int] = field(default_factory=dict)                # while a fork makes this one: frames of the parent's pages, by base
    relatives: list["PrivatePages"] = field(default_factory=list)       # of the process that made this one by a fork, or of its child

    def changed(self, change: Change) -> None:
        for page, act in ((change.before, set.discard), (change.after, set.add)):
            if page and page.size == 0:
                act(self.of_frame[page.physical], change.base)

    def returned(self, line: Returned) -> None:
        """Which addresses a call made private, or took from them. What an older log doesn't say of a mapping isn't known."""
        first, second, third, kind = (*line.arguments, 0)[:4]
        self.mappings.calls, self.mappings.clock = self.promises.calls, self.promises.clock + 1
        failed = bool(line.result & ERRORS)
        if line.number in (MUNMAP, MREMAP) or failed and line.number == MMAP or line.number == MADVISE and third in NOT_COPIED:
            self.mappings.promise(first, first + rounded(second), None, line.task)
        if line.number == MMAP and not failed:
            is_private = kind & MAP_KIND == MAP_PRIVATE
            self.mappings.promise(line.result, line.result + rounded(second), ALL if is_private else None, line.task)
        if line.number == MREMAP and not failed:
            self.mappings.promise(line.result, line.result + rounded(third), None, line.task)
        if line.number in OTHERS:
            self.mappings.ranges = []

    def may_change(self, each: Range, task: int) -> bool:
        """Whether a call of another task that is under way may make these addresses something else."""
        return any(call.may_change(each) or call.number == MADVISE and call.arguments[2] in NOT_COPIED
                   for other, call in self.promises.calls.items() if other != task)

    def is_private(self, base: int, task: int) -> bool:
        return any(not self.may_change(each, task) for each in self.mappings.within(base, base + BYTES[0]))

    def has_anothers_frame(self, base: int, page: Page, task: int) -> bool:
        """It may be written, and what is written there shows elsewhere, here or in a relative."""
        if page.size or not page.rights & WRITE or not self.is_private(base, task):
            return False
        return any(each.is_private(other, task) for each in (self, *self.relatives) for other in each.of_frame.get(page.physical, ())
                   if each is not self or other != base)

    def inherit(self, parent: "PrivatePages", pages: Mapping[int, Page]) -> None:
        """A fork begins to make this address space of that one, which has these pages."""
        self.mappings.ranges = [each._replace(since=0) for each in parent.mappings.ranges]
        self.shared = {base: page.physical for base, page in pages.items() if page.size == 0}
        self.relatives.append(parent)
        parent.relatives.append(self)

    def left_writable(self, pages: Mapping[int, Page]) -> list[int]:
        """The fork is over: which of its private pages may be written, and have the frames that they have in the parent."""
        shared, self.shared = self.shared, {}
        return [base for base, frame in sorted(shared.items()) if base in pages and pages[base].physical == frame
                and pages[base].rights & ~UNWRITTEN and self.mappings.within(base, base + BYTES[0])]

    def leave(self) -> None:
        """What it maps isn't known any more."""
        self.mappings.ranges = []

    def shared_by_fork(self, task: int) -> Iterator[tuple[int, int]]:
        """From where to where a fork that has returned has made all pages the child's too."""
        return ((each.begin, each.end) for each in self.mappings.ranges if not self.may_change(each, task))
